//! Both frame calls, about half of them at header level 0: on the pictures of [`passes`], with the lists of calls of
//! [`halting`] and the refusals of [`refusals`]. Above header level 0 they must do what the Rust's pass does; at 0 every
//! sample must stay.

use crate::Plan;
use crate::call::{Filter, PASSES};
use crate::tally::Tally;
use crate::{halting, passes, refusals};

const LEVELS: [&str; 3] = ["header level 0", "header level above 0", "skipped at a macroblock level above 0"];
const LISTS: [&str; 2] =
    ["list at header level 0 that did macroblocks", "list at header level 0 where the pass filters"];

pub fn compare(plan: &Plan, tally: &mut Tally) {
    for filter in PASSES.map(Filter::frame_call) {
        let name = filter.entry();
        let classes = [&passes::CLASSES[..], &LEVELS].concat();
        tally.run(&format!("{name}, every halting pattern"), &classes, |kind| passes::patterns(plan, filter, kind));
        tally.run(&format!("{name}, random halts"), &classes, |kind| passes::random_halts(plan, filter, kind));
        tally.run(&format!("{name}, any start"), &classes, |kind| passes::any_start(plan, filter, kind));
        tally.run(&format!("{name}, largest grids and strides"), &["filtered", "halted", "header level 0"], |kind| {
            passes::largest(plan, filter, kind)
        });
        let classes = [&refusals::CLASSES[..], &["refused at header level 0"]].concat();
        tally.run(&format!("{name}, refusals"), &classes, |kind| refusals::refusals(plan, filter, kind));
        let classes = [&halting::CLASSES[..], &LISTS].concat();
        tally.run(&format!("{name}, lists of calls"), &classes, |kind| halting::lists(plan, filter, kind));
    }
}
