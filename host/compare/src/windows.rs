//! Every window of four samples out of a list of values, which are all bytes in the long run: `simple_segment` with
//! the limit at the number that decides and one below it, `common_adjust` with and without outer taps.

use crate::guard::{self, Guarded, Side};
use crate::kernels::{Case, Kernel, NOT_TOLD, Test, eight};
use crate::tally::{Kind, Tally};
use crate::{Plan, ffi};
use oracle::{loop_filter, positions};

/// The quick run's values besides the multiples of 8: near the ends and the middle.
const FEW: [u8; 10] = [1, 2, 3, 126, 127, 129, 130, 253, 254, 255];

pub fn compare(plan: &Plan, tally: &mut Tally) {
    let chosen = |value: &u8| plan.long || value.is_multiple_of(8) || FEW.contains(value);
    let values: &[u8] = &(0..=255).filter(chosen).collect::<Vec<u8>>();
    let each = |kind: &mut Kind, run: fn(u8, &[u8], &mut Guarded, &mut Kind) -> Result<(), Case>| {
        kind.in_threads(plan.threads, |thread, kind| {
            let mut memory = Guarded::new(4);
            for &p1 in values.iter().skip(thread).step_by(plan.threads) {
                let what = format_args!("  a window that begins with {p1}");
                let outcome = guard::calling(&what, || run(p1, values, &mut memory, kind));
                outcome.map_err(|case| case.difference(&mut memory))?;
            }
            Ok(())
        })
    };
    let name = format!("simple_segment, every window of {} values", values.len());
    tally.run(&name, &["filtered", "not filtered"], |kind| each(kind, simple_segment));
    let name = format!("common_adjust, every window of {} values", values.len());
    tally.run(&name, &["outer taps", "no outer taps"], |kind| each(kind, common_adjust));
}

/// Calls `compare` with every window that begins with `p1`.
#[inline(always)]
fn each_window(p1: u8, values: &[u8], mut compare: impl FnMut([u8; 4]) -> Result<(), Case>) -> Result<(), Case> {
    for &p0 in values {
        for &q0 in values {
            for &q1 in values {
                compare([p1, p0, q0, q1])?;
            }
        }
    }
    Ok(())
}

fn simple_segment(p1: u8, values: &[u8], memory: &mut Guarded, kind: &mut Kind) -> Result<(), Case> {
    let seg = memory.lend(Side::End, &[0; 4]);
    let (mut filtered, mut left) = (0, 0);
    let mut same = |edge_limit: u8, window: [u8; 4]| {
        let mut rust = window;
        loop_filter::simple_segment(edge_limit, &mut rust, 0);
        seg.copy_from_slice(&window);
        let mut passed = NOT_TOLD;
        let answer = ffi::simple_segment(edge_limit, seg, 0, &mut passed);
        if answer == 0 && *seg == rust && passed == positions::passes(&window, edge_limit, 0) as u8 {
            return Ok(());
        }
        Err(Case::of_window(Kernel::Simple(edge_limit), &window))
    };
    let outcome = each_window(p1, values, |window| {
        let decides = Test::of(&eight(&window)).edge;
        if decides <= 255 {
            filtered += 1;
            same(decides as u8, window)?;
        }
        if decides >= 1 {
            left += 1;
            same((decides - 1).min(255) as u8, window)?;
        }
        Ok(())
    });
    kind.add_cases(filtered + left);
    kind.add_class("filtered", filtered);
    kind.add_class("not filtered", left);
    outcome
}

fn common_adjust(p1: u8, values: &[u8], memory: &mut Guarded, kind: &mut Kind) -> Result<(), Case> {
    let seg = memory.lend(Side::End, &[0; 4]);
    for (class, outer) in [("outer taps", true), ("no outer taps", false)] {
        let mut count = 0;
        let outcome = each_window(p1, values, |window| {
            let mut rust = window;
            let expected = loop_filter::common_adjust(outer, &mut rust, 0);
            seg.copy_from_slice(&window);
            let mut adjustment = !expected;
            let answer = ffi::common_adjust(outer, seg, 0, &mut adjustment);
            count += 1;
            if answer == 0 && *seg == rust && adjustment == expected {
                return Ok(());
            }
            Err(Case::of_window(Kernel::Adjust(outer), &window))
        });
        kind.add_cases(count);
        kind.add_class(class, count);
        outcome?;
    }
    Ok(())
}
