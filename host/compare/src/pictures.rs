//! Random pictures: grids, strides, samples with edges to smooth, lists and settings.

use crate::call::{Call, FLAGS, Filter, Form, LARGEST, Planes, SEGMENTS, SIDE};
use crate::guard::SIDES;
use crate::settings;
use entries::Layout;
use oracle::FrameFilterConfig;
use rules::random::Random;

/// A call of the whole pass on a random picture. Bytes outside the grid are random. Half of the frame calls have header
/// level 0.
pub fn picture(filter: impl Into<Filter>, columns: usize, rows: usize, random: &mut Random) -> Call {
    let layout =
        Layout { columns, rows, y_stride: stride(16 * columns, random), uv_stride: stride(8 * columns, random) };
    on_layout(filter, layout, random)
}

/// The same with given strides.
pub fn on_layout(filter: impl Into<Filter>, layout: Layout, random: &mut Random) -> Call {
    let (Filter { form, pass }, n) = (filter.into(), layout.columns * layout.rows);
    let mut call = Call {
        form,
        pass,
        layout,
        planes: planes(&layout, random),
        lists: std::array::from_fn(|list| entries(list, n, random)),
        config: config(random),
        start: 0,
        allowance: n,
        side: random.one_of(&SIDES),
    };
    if form == Form::Frame && random.yes() {
        call.config.loop_filter_level = 0;
    }
    call
}

fn stride(width: usize, random: &mut Random) -> usize {
    match random.below(4) {
        0 => width + 1 + random.below(40),
        1 => width + random.below(300),
        _ => width,
    }
}

/// Settings as a frame header has them, or any.
pub fn config(random: &mut Random) -> FrameFilterConfig {
    if random.below(4) > 0 {
        return settings::usual(random);
    }
    let numbers = settings::numbers(random);
    settings::with_marks(numbers, random.below(settings::MARKS as usize) as u32)
}

/// Entries that 6 does not refuse. Segments above 3 and flags above 1 are among them.
pub fn entries(list: usize, n: usize, random: &mut Random) -> Vec<u8> {
    let entry = |random: &mut Random| match list {
        SEGMENTS => random.one_of(&[0, 1, 2, 3, 4, 255]),
        FLAGS => random.one_of(&[0, 0, 0, 1, 2, 255]),
        _ => random.below(LARGEST[list] as usize + 1) as u8,
    };
    (0..n).map(|_| entry(random)).collect()
}

/// Planes of at least the length of refusal 3.
pub fn planes(layout: &Layout, random: &mut Random) -> Planes {
    std::array::from_fn(|plane| {
        let stride = if plane == 0 { layout.y_stride } else { layout.uv_stride };
        let more = match random.below(3) {
            0 => random.below(stride + 40),
            _ => 0,
        };
        let mut samples: Vec<u8> = (0..layout.least_length(plane) + more).map(|_| random.byte()).collect();
        let (width, height) = (SIDE[plane] * layout.columns, SIDE[plane] * layout.rows);
        texture(&mut samples, stride, width, height, random);
        samples
    })
}

/// Any bytes, extreme ones, or blocks of 4, 8 or 16 samples that differ by a height, with noise.
fn texture(plane: &mut [u8], stride: usize, width: usize, height: usize, random: &mut Random) {
    const EXTREMES: [u8; 8] = [0, 1, 2, 127, 128, 253, 254, 255];
    let style = random.below(10);
    let (spread, block) = (random.one_of(&[1, 1, 2, 2, 3, 5, 9, 17]), random.one_of(&[4, 4, 8, 16]));
    let step = random.one_of(&[1, 2, 4, 8, 20, 50, 90]);
    let any = random.byte() as i32;
    let base = random.one_of(&[0, 255, any, any, any, any]);
    let blocks = width.div_ceil(block);
    let mut offsets = Vec::new();
    for row in 0..height {
        if row.is_multiple_of(block) {
            offsets = (0..blocks).map(|_| random.below(2 * step + 1) as i32 - step as i32).collect();
        }
        for column in 0..width {
            plane[row * stride + column] = match style {
                0 => random.byte(),
                1 => random.one_of(&EXTREMES),
                _ => (base + offsets[column / block] + random.below(spread) as i32).clamp(0, 255) as u8,
            };
        }
    }
}
