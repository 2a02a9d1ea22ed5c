//! Recorded film: the film, the Rust and the library's passes leave the same planes, in one call, row by row and halted at
//! random. The frame calls leave alone what the RFC's decoder left alone, and else what the film says.

use crate::Plan;
use crate::call::{Call, Done, Form, Memory, Outcome, Pass, Planes};
use crate::guard::SIDES;
use crate::passes::{same, stepped_to};
use crate::tally::{Kind, Tally};
use entries::Layout;
use film::{Frame, Stream};
use rules::random::Random;
use std::fs;
use std::path::Path;

const CLASSES: [&str; 15] = [
    "key",
    "inter",
    "normal filter",
    "simple filter",
    "segmentation",
    "deltas",
    "header level 0",
    "size no multiple of 16",
    "headers rewritten",
    "filtered",
    "not filtered",
    "halted",
    "left alone by the RFC's decoder",
    "left alone where the pass filters",
    "frame call that filters",
];

pub fn compare(plan: &Plan, tally: &mut Tally) {
    tally.run("kept film", &CLASSES, |kind| {
        let bench = Stream { name: String::from("bench"), frames: film::bench() };
        streams(plan, film::kept().into_iter().chain([bench]).collect(), kind)
    });
    if let Some(directory) = &plan.film {
        tally.run(&format!("film in {}", directory.display()), &CLASSES, |kind| {
            streams(plan, read_all(directory)?, kind)
        });
    }
}

/// The `.vplf` files of a directory.
fn read_all(directory: &Path) -> Result<Vec<Stream>, String> {
    let unreadable = |path: &Path, error| format!("{}: {error}", path.display());
    let entries = fs::read_dir(directory).map_err(|error| unreadable(directory, error))?;
    let mut paths: Vec<_> = entries.filter_map(|entry| entry.ok()).map(|entry| entry.path()).collect();
    paths.retain(|path| path.extension().is_some_and(|extension| extension == "vplf"));
    if paths.is_empty() {
        return Err(format!("{} has no .vplf file", directory.display()));
    }
    paths.sort();
    let stream = |path: &Path| {
        let bytes = fs::read(path).map_err(|error| unreadable(path, error))?;
        let frames = film::read(&bytes).map_err(|fault| format!("{}: {fault}", path.display()))?;
        let name = path.file_stem().expect("a file").to_string_lossy().into_owned();
        Ok(Stream { name, frames })
    };
    paths.iter().map(|path| stream(path)).collect()
}

fn streams(plan: &Plan, streams: Vec<Stream>, kind: &mut Kind) -> Result<(), String> {
    let frames: Vec<(&Stream, &Frame)> =
        streams.iter().flat_map(|stream| stream.frames.iter().map(move |frame| (stream, frame))).collect();
    kind.in_threads(plan.threads, |thread, kind| {
        let (mut random, mut memory) = (Random::new(plan.seed ^ (thread as u64 + 1) << 32), Memory::new());
        for (stream, frame) in frames.iter().skip(thread).step_by(plan.threads) {
            let named = |difference| format!("{}, frame {}: {difference}", stream.name, frame.place());
            compare_frame(stream, frame, &mut random, &mut memory, kind).map_err(named)?;
        }
        Ok(())
    })
}

fn compare_frame(
    stream: &Stream,
    frame: &Frame,
    random: &mut Random,
    memory: &mut Memory,
    kind: &mut Kind,
) -> Result<(), String> {
    let whole = call(frame, random);
    let after = whole.unbroken();
    if film::checksum(&after) != frame.after {
        return Err(format!(
            "the film's checksum is {:x}, but the Rust leaves {:x}",
            frame.after,
            film::checksum(&after)
        ));
    }
    classify(stream, frame, &after, kind);
    let (n, columns) = (whole.macroblocks(), whole.layout.columns);
    let rows: Vec<usize> = (1..=whole.layout.rows).map(|row| row * columns).collect();
    let any = [random.below(n), random.below(n)].into_iter().filter(|halt| *halt > 0).chain([n]).collect();
    for halts in [vec![n], rows.clone(), any] {
        in_calls(&whole, &after, halts, random, memory, kind)?;
    }
    let frame_call = Call { form: Form::Frame, ..whole.clone() };
    let left = if frame.left_alone() { frame.planes.clone() } else { after.clone() };
    kind.add_class("left alone by the RFC's decoder", frame.left_alone() as u64);
    kind.add_class("left alone where the pass filters", (frame.left_alone() && after != frame.planes) as u64);
    kind.add_class("frame call that filters", (left != frame.planes) as u64);
    for halts in [vec![n], rows] {
        in_calls(&frame_call, &left, halts, random, memory, kind)?;
    }
    // A key frame has no references, so the inter pass does the same.
    if whole.pass == Pass::Key {
        let done = Done { count: n, next: n };
        add_case(&whole, done, kind);
        same(&Call { pass: Pass::Inter, ..whole }, Outcome::new(Ok(done), after), memory)?;
    }
    Ok(())
}

/// The frame in calls that end at `halts`, which together leave `after`.
fn in_calls(
    whole: &Call,
    after: &Planes,
    mut halts: Vec<usize>,
    random: &mut Random,
    memory: &mut Memory,
    kind: &mut Kind,
) -> Result<(), String> {
    halts.sort();
    let mut halted = Call { side: random.one_of(&SIDES), ..whole.clone() };
    for next in halts {
        halted.allowance = next - halted.start;
        let done = Done { count: halted.allowance, next };
        let planes = if next == whole.macroblocks() { after.clone() } else { stepped_to(whole, next) };
        add_case(whole, done, kind);
        halted.planes = same(&halted, Outcome::new(Ok(done), planes), memory)?;
        halted.start = next;
    }
    Ok(())
}

fn add_case(whole: &Call, done: Done, kind: &mut Kind) {
    kind.add_cases(1);
    kind.add_class("halted", (done.next < whole.macroblocks()) as u64);
}

/// The whole pass on a frame.
pub fn call(frame: &Frame, random: &mut Random) -> Call {
    let (columns, rows) = (frame.columns(), frame.rows());
    let config = frame.config();
    Call {
        form: Form::Pass,
        pass: if config.key_frame { Pass::Key } else { Pass::Inter },
        layout: Layout { columns, rows, y_stride: 16 * columns, uv_stride: 8 * columns },
        planes: frame.planes.clone(),
        lists: [&frame.modes, &frame.segments, &frame.flags, &frame.references, &frame.inter_modes].map(Vec::clone),
        config,
        start: 0,
        allowance: columns * rows,
        side: random.one_of(&SIDES),
    }
}

fn classify(stream: &Stream, frame: &Frame, after: &Planes, kind: &mut Kind) {
    let config = frame.config();
    let (width, height) = frame.visible();
    let classes = [
        ("key", config.key_frame),
        ("inter", !config.key_frame),
        ("normal filter", !config.simple),
        ("simple filter", config.simple),
        ("segmentation", config.segmentation_enabled),
        ("deltas", config.delta_enabled),
        ("header level 0", config.loop_filter_level == 0),
        ("size no multiple of 16", width % 16 > 0 || height % 16 > 0),
        ("headers rewritten", stream.mutated()),
        ("filtered", *after != frame.planes),
        ("not filtered", *after == frame.planes),
    ];
    for (name, occurs) in classes {
        kind.add_class(name, occurs as u64);
    }
}
