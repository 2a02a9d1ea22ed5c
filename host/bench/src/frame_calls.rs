//! What a frame call takes, at a level above 0 and at header level 0, against the Rust's pass at the former.

use crate::{Case, Inner};
use entries::{Form, Layout, Lists};
use film::Frame;
use oracle::FrameFilterConfig;
use std::time::{Duration, Instant};

/// The level of the settings, as in `--halting`.
const LEVEL: u8 = 24;

/// Prints one line a frame and filter: the time of the Rust's pass, and the library's as parts of it.
pub fn compare(frames: &[Frame], repetitions: usize) {
    println!();
    println!("frame calls at level {LEVEL}, inner edges as coded, and at header level 0, the least of {repetitions}");
    println!("{:<34} {:>9} {:>8} {:>8} {:>8}", "pass, filter, level, inner edges", "Rust", "pass", "frame", "level 0");
    for frame in frames {
        for simple in [false, true] {
            let case = Case::new(frame, simple, LEVEL, Inner::Coded);
            let rust = case.times(repetitions)[0].as_secs_f64();
            let [pass, call, off] = times(&case, repetitions).map(|time| time.as_secs_f64() / rust);
            let time = format!("{:.3} ms", rust * 1000.0);
            println!("{:<34} {time:>9} {pass:>8.3} {call:>8.3} {off:>8.4}", case.to_string());
        }
    }
}

/// The smallest times of the pass, of the frame call, and of the frame call at header level 0 with a delta that lifts it.
fn times(case: &Case<'_>, repetitions: usize) -> [Duration; 3] {
    let lifted = case.config.with_loop_filter_level(0).with_delta_enabled(true).with_ref_delta_current(LEVEL.into());
    let variants = [(Form::Pass, case.config), (Form::Frame, case.config), (Form::Frame, lifted)];
    let (mut times, mut planes) = ([Duration::MAX; 3], case.frame.planes.clone());
    for repetition in 0..repetitions {
        for turn in 0..variants.len() {
            let variant = (turn + repetition) % variants.len();
            let (form, config) = variants[variant];
            planes.iter_mut().zip(&case.frame.planes).for_each(|(plane, first)| plane.copy_from_slice(first));
            times[variant] = times[variant].min(time(case, form, &config, &mut planes));
        }
    }
    times
}

/// One whole call. At header level 0 the planes stay.
fn time(case: &Case<'_>, form: Form, config: &FrameFilterConfig, planes: &mut [Vec<u8>; 3]) -> Duration {
    let frame = case.frame;
    let (columns, rows) = (frame.columns(), frame.rows());
    let layout = Layout { columns, rows, y_stride: 16 * columns, uv_stride: 8 * columns };
    let Frame { segments, references, inter_modes, .. } = frame;
    let lists = Lists { modes: &case.modes, segments, flags: &case.flags, references, inter_modes };
    let (pass, mut out) = (case.pass(), [0; 3]);
    let start = Instant::now();
    let lent = planes.each_mut().map(Vec::as_mut_slice);
    let answer = entries::filter_as(form, pass, lent, &layout, &lists, config, 0, usize::MAX, out.each_mut());
    let time = start.elapsed();
    assert!(answer == 0 && out[0] == columns * rows, "{case}: the call does the whole frame");
    assert_eq!(*planes == frame.planes, config.loop_filter_level == 0, "{case}: filtered unless the level is 0");
    time
}
