//! The pictures of a frame: before, after, where samples changed, and which rows were final when.

use crate::png::Picture;
use crate::row_by_row::Outcome;
use film::Frame;

/// The pictures with the ends of their file names.
pub fn pictures(frame: &Frame, outcome: &Outcome) -> [(&'static str, Picture); 4] {
    [
        ("before", draw(frame, |x, y| colour(frame, &frame.planes, x, y))),
        ("after", draw(frame, |x, y| colour(frame, &outcome.sent, x, y))),
        ("changed", draw(frame, |x, y| change(frame, outcome, x, y))),
        ("final", draw(frame, |x, y| call_of_row(frame, outcome, x, y))),
    ]
}

/// Small frames are drawn larger, each sample as a square.
fn draw(frame: &Frame, pixel: impl Fn(usize, usize) -> [u8; 3]) -> Picture {
    let (width, height) = frame.visible();
    let scale = (640 / width.max(1)).clamp(1, 16);
    let row = |y: usize| (0..width * scale).flat_map(move |x| [x / scale, y / scale]).collect::<Vec<_>>();
    let places = (0..height * scale).flat_map(row).collect::<Vec<_>>();
    let rgb = places.chunks_exact(2).flat_map(|place| pixel(place[0], place[1])).collect();
    Picture { width: width * scale, height: height * scale, rgb }
}

/// The samples of y, u and v at a place.
fn samples(frame: &Frame, planes: &[Vec<u8>; 3], x: usize, y: usize) -> [i32; 3] {
    let columns = frame.columns();
    let chroma = y / 2 * 8 * columns + x / 2;
    [planes[0][y * 16 * columns + x], planes[1][chroma], planes[2][chroma]].map(i32::from)
}

/// Colours of ITU-R BT.601, in 1/256.
fn colour(frame: &Frame, planes: &[Vec<u8>; 3], x: usize, y: usize) -> [u8; 3] {
    let [y, u, v] = samples(frame, planes, x, y);
    let (y, u, v) = (298 * (y - 16), u - 128, v - 128);
    [y + 409 * v, y - 100 * u - 208 * v, y + 516 * u].map(|c| ((c + 128) >> 8).clamp(0, 255) as u8)
}

/// Dark grey; red where luma changed and blue where chroma alone did, lighter for more.
fn change(frame: &Frame, outcome: &Outcome, x: usize, y: usize) -> [u8; 3] {
    let before = samples(frame, &frame.planes, x, y);
    let after = samples(frame, &outcome.sent, x, y);
    let by = |plane: usize| (after[plane] - before[plane]).abs();
    let grey = (after[0] / 3) as u8;
    let strong = |by: i32| (96 + 16 * by).min(255) as u8;
    match (by(0), by(1).max(by(2))) {
        (0, 0) => [grey; 3],
        (0, chroma) => [grey, grey, strong(chroma)],
        (luma, _) => [strong(luma), grey, grey],
    }
}

/// The colours of the first to the last call.
const CALLS: [[i32; 3]; 5] = [[70, 90, 255], [60, 220, 230], [80, 220, 80], [250, 220, 60], [250, 70, 60]];

/// The frame in the colour of the call after which the row was final. At the left border the rows of macroblocks are
/// black and white in turn.
fn call_of_row(frame: &Frame, outcome: &Outcome, x: usize, y: usize) -> [u8; 3] {
    let (width, _) = frame.visible();
    if x < width / 40 {
        return if y / 16 % 2 == 1 { [255; 3] } else { [0; 3] };
    }
    let calls = outcome.finals.len();
    let call = outcome.finals.iter().position(|rows| y < rows.luma).unwrap_or(calls);
    // The place between the colours, in 1/1024.
    let place = if calls > 1 { call * (CALLS.len() - 1) * 1024 / (calls - 1) } else { 0 };
    let (from, part) = ((place / 1024).min(CALLS.len() - 2), place as i32);
    let part = part - from as i32 * 1024;
    let [luma, ..] = samples(frame, &outcome.sent, x, y);
    // Every other call is darker, so that neighbours differ.
    let light = (64 + luma * 3 / 4) * if call % 2 == 1 { 4 } else { 5 } / 5;
    std::array::from_fn(|c| {
        let tint = CALLS[from][c] + (CALLS[from + 1][c] - CALLS[from][c]) * part / 1024;
        (tint * light / 255).clamp(0, 255) as u8
    })
}
