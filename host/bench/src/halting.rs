//! What halting after each row of macroblocks costs a caller of the Rust crate: on the recorded frames for timing, and on
//! large squares that repeat them.

use film::Frame;
use std::time::{Duration, Instant};
use vp8_loop_filter::entries::{self as lent, ByteLists, Form};
use vp8_loop_filter::{
    FrameFilterConfig, FramePass, InterFilterInfo, InterMode, IntraYMode, KeyframePlanes, MacroblockModes, PlanesMut,
    RefFrame, Refusal, filter_frame_flags, filter_frame_from, filter_inter_frame_flags, filter_inter_frame_from,
    final_rows,
};

/// Macroblocks of a side of the large squares.
const SIDE: usize = 512;

/// Prints one line a picture and filter: the time of one unbroken call, and against it the times of three ways with one
/// call for each row of macroblocks. A prepared pass; calls that each take all records; the C functions, on lists that
/// are bytes already.
pub fn compare(frames: &[Frame], repetitions: usize) {
    println!();
    println!("halting through the crate: one call a row against one unbroken call, the least of {repetitions}");
    println!("{:<34} {:>10} {:>8} {:>8} {:>8}", "picture, pass, filter", "unbroken", "prepared", "calls", "C");
    for (large, repetitions) in [(false, repetitions), (true, repetitions.min(10))] {
        let mut ratios = Vec::new();
        for frame in frames {
            for simple in [false, true] {
                let picture = Picture::of(frame, large, simple);
                let [whole, rows @ ..] = picture.times(repetitions).map(|time| time.as_secs_f64());
                let time = format!("{:.3} ms", whole * 1000.0);
                let [prepared, calls, c] = rows.map(|time| time / whole);
                println!("{:<34} {time:>10} {prepared:>8.3} {calls:>8.3} {c:>8.3}", picture.name());
                ratios.push(prepared);
            }
        }
        println!("{:<34} {:>10} {:>8.3}", "geometric mean", "", super::geometric_mean(ratios.into_iter()));
    }
}

/// What the crate is lent.
struct Picture {
    planes: KeyframePlanes,
    modes: Vec<MacroblockModes>,
    has_coeffs: Vec<bool>,
    ref_frames: Vec<Option<RefFrame>>,
    inter_modes: Vec<Option<InterMode>>,
    config: FrameFilterConfig,
    /// Modes, segments, flags, references and inter modes as the C functions take them.
    bytes: [Vec<u8>; 5],
}

type Run = fn(&Picture, &mut KeyframePlanes) -> Result<(), Refusal>;

impl Picture {
    /// The frame, or a large square that repeats it.
    fn of(frame: &Frame, large: bool, simple: bool) -> Picture {
        use {InterMode::*, IntraYMode::*, RefFrame::*};
        let from = (frame.columns(), frame.rows());
        let (mb_cols, mb_rows) = if large { (SIDE, SIDE) } else { from };
        let square = |list: &[u8], unit: usize| repeated(list, unit, from, (mb_cols, mb_rows));
        let [y, u, v] = [(0, 16), (1, 8), (2, 8)].map(|(plane, unit)| square(&frame.planes[plane], unit));
        let config = frame.config().with_simple(simple).with_loop_filter_level(24);
        let lists = [&frame.modes, &frame.segments, &frame.flags, &frame.references, &frame.inter_modes];
        let bytes = lists.map(|list| square(list, 1));
        let [modes, segments, flags, references, inter_modes] = &bytes;
        let record = |(mode, segment): (&u8, &u8)| MacroblockModes {
            y_mode: [Dc, V, H, Tm, B][usize::from(*mode)],
            segment_id: Some(*segment),
        };
        let ref_frame = |byte: &u8| [None, Some(Last), Some(Golden), Some(AltRef)][usize::from(*byte)];
        let inter_mode =
            |byte: &u8| [None, Some(Zero), Some(Nearest), Some(Near), Some(New), Some(Split)][usize::from(*byte)];
        Picture {
            planes: KeyframePlanes { y, u, v, y_stride: 16 * mb_cols, uv_stride: 8 * mb_cols, mb_cols, mb_rows },
            modes: modes.iter().zip(segments).map(record).collect(),
            has_coeffs: flags.iter().map(|flag| *flag != 0).collect(),
            ref_frames: references.iter().map(ref_frame).collect(),
            inter_modes: inter_modes.iter().map(inter_mode).collect(),
            config: entries::settings(&config),
            bytes,
        }
    }

    fn name(&self) -> String {
        let KeyframePlanes { mb_cols, mb_rows, .. } = self.planes;
        let pass = if self.config.key_frame { "key" } else { "inter" };
        format!("{mb_cols} x {mb_rows}, {pass}, {}", if self.config.simple { "simple" } else { "normal" })
    }

    /// What an inter frame has besides.
    fn inter(&self) -> Option<InterFilterInfo<'_>> {
        let Picture { ref_frames, inter_modes, .. } = self;
        (!self.config.key_frame).then_some(InterFilterInfo { ref_frames, inter_modes })
    }

    fn unbroken(&self, planes: &mut KeyframePlanes) -> Result<(), Refusal> {
        let Picture { modes, has_coeffs, config, .. } = self;
        match self.inter() {
            None => filter_frame_flags(planes, modes, has_coeffs, config),
            Some(InterFilterInfo { ref_frames, inter_modes }) => {
                filter_inter_frame_flags(planes, modes, has_coeffs, ref_frames, inter_modes, config)
            }
        }
    }

    fn prepared(&self, planes: &mut KeyframePlanes) -> Result<(), Refusal> {
        let columns = planes.mb_cols;
        let mut pass = FramePass::new(planes, &self.modes, &self.has_coeffs, self.inter().as_ref(), &self.config)?;
        while !pass.is_done() {
            pass.advance(columns)?;
            pass.final_rows()?;
        }
        Ok(())
    }

    fn calls(&self, planes: &mut KeyframePlanes) -> Result<(), Refusal> {
        let Picture { modes, has_coeffs, config, .. } = self;
        let (columns, mut next) = (planes.mb_cols, 0);
        while next < modes.len() {
            let done = match self.inter() {
                None => filter_frame_from(planes, modes, has_coeffs, config, next, columns)?,
                Some(InterFilterInfo { ref_frames, inter_modes }) => {
                    filter_inter_frame_from(planes, modes, has_coeffs, ref_frames, inter_modes, config, next, columns)?
                }
            };
            next = done.next;
            final_rows(planes, next)?;
        }
        Ok(())
    }

    fn through_c(&self, planes: &mut KeyframePlanes) -> Result<(), Refusal> {
        let [modes, segments, flags, references, inter_modes] = self.bytes.each_ref().map(Vec::as_slice);
        let inter = (!self.config.key_frame).then_some([references, inter_modes]);
        let lists = ByteLists { modes, segments, flags, inter };
        let (mut planes, n) = (PlanesMut::from(planes), modes.len());
        let (mut count, mut next, mut smoothed) = (0, 0, 0);
        while next < n {
            let (start, columns) = (next, planes.mb_cols);
            let out = [&mut count, &mut next, &mut smoothed];
            let number = lent::filter(Form::Pass, &mut planes, &lists, &self.config, start, columns, out);
            assert_eq!(number, 0);
            final_rows(&planes, next)?;
        }
        Ok(())
    }

    /// The smallest time of each way. They take turns, each with its own place in the order in each repetition.
    fn times(&self, repetitions: usize) -> [Duration; 4] {
        let runs: [Run; 4] = [Picture::unbroken, Picture::prepared, Picture::calls, Picture::through_c];
        let mut times = [Duration::MAX; 4];
        let mut after = None;
        for turn in 0..4 * repetitions {
            let way = (turn + turn / 4) % 4;
            let mut planes = self.planes.clone();
            let start = Instant::now();
            let answer = runs[way](self, &mut planes);
            times[way] = times[way].min(start.elapsed());
            assert_eq!(answer, Ok(()));
            assert!(*after.get_or_insert_with(|| planes.clone()) == planes, "each way leaves the same planes");
        }
        times
    }
}

/// Samples or entries of a grid, `unit` by `unit` for each macroblock, repeated over another grid.
fn repeated(list: &[u8], unit: usize, from: (usize, usize), to: (usize, usize)) -> Vec<u8> {
    let (columns, rows) = (unit * from.0, unit * from.1);
    let row = |r: usize| (0..unit * to.0).map(move |c| list[r % rows * columns + c % columns]);
    (0..unit * to.1).flat_map(row).collect()
}

#[cfg(test)]
mod tests {
    use super::*;

    #[test]
    fn a_large_square_repeats_the_frame() {
        let frame = &film::bench()[0];
        let (columns, rows) = (frame.columns(), frame.rows());
        let Picture { planes, bytes: [modes, ..], .. } = Picture::of(frame, true, false);
        for (column, row) in [(0, 0), (columns, 1), (2, rows), (SIDE - 1, SIDE - 1)] {
            let place = columns * (row % rows) + column % columns;
            assert_eq!(modes[SIDE * row + column], frame.modes[place]);
            let first = 16 * columns * 16 * (row % rows) + 16 * (column % columns);
            assert_eq!(planes.y[16 * SIDE * 16 * row + 16 * column..][..16], frame.planes[0][first..][..16]);
        }
    }

    /// All ways leave the same planes, which a time of them asserts, and change some.
    #[test]
    fn each_way_filters() {
        for frame in &film::bench() {
            let picture = Picture::of(frame, false, true);
            picture.times(1);
            let mut planes = picture.planes.clone();
            picture.prepared(&mut planes).expect("accepted");
            assert!(planes != picture.planes);
        }
    }
}
