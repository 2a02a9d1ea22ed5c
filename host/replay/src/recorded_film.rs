//! Frames of the recorded film of 64 by 64 and of 16 by 16 samples.

use crate::Section;
use crate::bytes::Bytes;
use crate::picture::{Layout, Lists, PASSES, Pass, Picture, Planes, SIDE};
use film::Frame;

/// Stream and place of the frames that are recorded. Both filters, segments of both kinds, every reference and rewritten
/// headers are among them.
const FRAMES: [(&str, u32); 11] = [
    ("mut05s1_p0_life_64x64", 0),
    ("mut14s4_prof2_life_64x64", 0),
    ("prof1_life_64x64", 0),
    ("roi4_test2_64x64", 25),
    ("mut05s1_p0_life_64x64", 1),
    ("mut14s4_prof2_life_64x64", 27),
    ("p0_life_64x64", 6),
    ("roi4_test2_64x64", 7),
    ("p0_test2_16x16", 0),
    ("p0_test2_16x16", 7),
    ("p0_test2_16x16", 15),
];

pub fn sections() -> Vec<Section> {
    let streams = film::kept();
    let found = FRAMES.map(|(name, place)| {
        let stream = streams.iter().find(|stream| stream.name == name).expect("a stream");
        stream.frames.iter().find(|frame| frame.place() == place).expect("a frame")
    });
    let mut sections = Vec::new();
    for side in [64, 16] {
        for pass in PASSES {
            let name = if pass == Pass::Key { "filter_frame" } else { "filter_inter_frame" };
            let of_kind = |frame: &&Frame| frame.visible() == (side, side) && of_pass(frame) == pass;
            let records = found.into_iter().filter(of_kind).map(|frame| record(frame, pass));
            sections.push(Section::new(&format!("{name}, film {side}x{side}"), records));
        }
    }
    sections
}

fn of_pass(frame: &Frame) -> Pass {
    if frame.config().key_frame { Pass::Key } else { Pass::Inter }
}

fn layout(frame: &Frame) -> Layout {
    let (columns, rows) = (frame.columns(), frame.rows());
    Layout { columns, rows, y_stride: 16 * columns, uv_stride: 8 * columns }
}

fn lists(frame: &Frame) -> Lists {
    let Frame { modes, segments, flags, references, inter_modes, .. } = frame.clone();
    Lists([modes, segments, flags, references, inter_modes])
}

/// What the Rust's pass leaves of a frame, which has the film's checksum.
fn after(frame: &Frame) -> Planes {
    let pass = of_pass(frame);
    let (records, planes, config) = (lists(frame).records(pass), frame.planes.clone(), frame.config());
    let after = Picture { pass, layout: layout(frame), planes, records, config }.unbroken();
    assert_eq!(film::checksum(&after), frame.after, "the film's checksum");
    after
}

/// The film of the repository as one `.vplf` file, that for timing last. The recorded result is what the Rust leaves.
pub fn stream() -> Vec<u8> {
    let frames = film::kept().into_iter().flat_map(|stream| stream.frames).chain(film::bench());
    frames.flat_map(|frame| film::write(&frame, &after(&frame))).collect()
}

/// The whole pass over a frame.
fn record(frame: &Frame, pass: Pass) -> Bytes {
    let (layout, lists, config, after) = (layout(frame), lists(frame), frame.config(), after(frame));
    let n = frame.columns() * frame.rows();
    let answer =
        rules::pass(&layout, SIDE.map(|side| side * side * n), |listed| listed != n, lists.bad(pass), 0, usize::MAX);
    let head = Bytes::default().place(&layout, 0, usize::MAX).settings(&config).answer(answer);
    let lists_and_planes = lists.0.iter().chain(&frame.planes).chain(&after);
    lists_and_planes.fold(head, |bytes, part| bytes.bytes(part))
}
