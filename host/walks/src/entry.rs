//! `WalkEntry` of `crates/frame`: a function of so many locals, of which so many are parameters, is entered.

use crate::Proof;
use crate::context::{CELL, Context, Held, locals};
use crate::text::{fill, joined, list, sub, subs};

const TEMPLATE: &str = include_str!("../templates/entry.txt");

pub fn proof(count: usize, params: usize) -> Proof {
    let (all, passed) = (|| 0..count, || 1..=params);
    let had = |(what, local): Held| {
        let (ty, place) = (sub("τ", local), sub("l", local));
        match what {
            CELL if passed().contains(&local) => format!("‵ (fat fullShare {ty} {place} 0 {}) ∷ ", sub("v", local)),
            CELL => format!("‵ (froom {ty} {place} 0) ∷ "),
            _ => format!("‵ (fdies {ty} {place}) ∷ "),
        }
    };
    let values = vec![
        ("count", count.to_string()),
        ("last", (count - 1).to_string()),
        ("params", params.to_string()),
        ("types", subs("τ", all())),
        ("locals", list(all().map(|local| format!("local {} valueLocal", sub("τ", local))))),
        ("arrows", "ℕ → ".repeat(count)),
        ("places", subs("l", all())),
        ("env", list(all().map(|local| format!("({}, {})", sub("τ", local), sub("l", local))))),
        ("values", subs("v", passed())),
        ("had", joined(locals(count), "", had)),
        (
            "typed",
            joined(passed(), " → ", |local| {
                format!("Holds (hasTy {} {1}) × WT {1}", sub("τ", local), sub("v", local))
            }),
        ),
        ("passed", list(passed().map(|local| sub("v", local)))),
        ("witnesses", subs("h", passed())),
        ("steps", steps(count, params)),
    ];
    Proof { path: String::from("crates/frame/proofs/WalkEntry.antt"), text: fill(TEMPLATE, &values) }
}

fn steps(count: usize, params: usize) -> String {
    let mut at = Context::new(locals(count));
    (0..count).for_each(|local| at.open(format!("alloc1 ! (λ {}.", sub("l", local))));
    at.say("alloc0 ! $ params1 ! $");
    at.line();
    for local in 1..=params {
        at.say(format!("pass1 ! (init ! {} refl {}) $", at.place((CELL, local)), sub("h", local)));
    }
    at.close(&format!("pass0 ! $ k {}", subs("l", 0..count)));
    at.text(8)
}
