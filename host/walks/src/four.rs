//! The functions of `crates/replay` that lend an array of four records as a slice: `key_four` and `inter_four` to a
//! pass, `key_frame_four` and `inter_frame_four` to a frame call.

use crate::Proof;
use crate::call::{Call, EXIT, last, owned};
use crate::callee::INNER;
use crate::context::{ALIVE, CELL, ENTRY, Held, OWNED, PRE, RESULT, RETURNED, locals};
use crate::params::Kind::{Four, Given, Number, Plain, Records};
use crate::params::{Param, params};
use crate::text::{Values, alive, fill, list, product, sub, tuple};

const TEMPLATE: &str = include_str!("../templates/four.txt");

/// The lifetime of the records while they are lent.
const LENT: Held = ("lent lifetime", 0);
/// What is had again when it has ended.
const LENDER: Held = ("lender", 0);
/// The slice that the callee gets.
const SLICE: Held = ("slice", 0);

/// Crate and module of the passes and of the frame calls over records.
const PASSES: [&str; 2] = ["frame", ".record_pass"];
const FRAME_CALLS: [&str; 2] = ["frame_calls", ".record_frame_call"];

fn parameters() -> Vec<Param> {
    params(&[
        ("y", Given),
        ("u", Given),
        ("v", Given),
        ("p", Plain("PlaneLayout", "G")),
        ("xs", Four),
        ("f", Plain("FrameFilterConfig", "F")),
        ("st", Number),
        ("al", Number),
    ])
}

/// What the proof uses of frame calls, and what is said at the exit.
fn says(call: &Call, frames: &str) -> Values {
    let records = format!("{frames}RecordsCall (planesOf (now y) (now u) (now v)) p xs f st al");
    let (skip, passed) = if call.inner.starts_with(&FRAME_CALLS) {
        let skip = format!("use Rattle·frame_calls.specs.Skip.{{{frames}Frame, frameCall}}\n");
        (skip, format!("{frames}Frame (frameCall {frames}Pass ({records}))"))
    } else {
        (String::new(), format!("{frames}Pass ({records})"))
    };
    vec![("skip", skip), ("said", call.says(format!("Passed {passed} x (planesOf l m k)")))]
}

fn walk(
    frames: &'static str,
    outer: &'static str,
    [inner_crate, path]: [&'static str; 2],
    inner: &'static str,
) -> Proof {
    let params = parameters();
    let given = params.iter().filter(|param| param.kind == Given).count();
    let call = Call {
        outer: ["replay", "", outer],
        inner: [inner_crate, path, inner],
        callee: INNER,
        exit: EXIT,
        // the result, the parameters, a copy of the array, and pointer and slice of each plane and of the copy
        locals: 1 + params.len() + 1 + 2 * given + 2,
        params,
    };
    let copy = sub("l", call.params.len() + 1);
    let mut values = call.shared(steps(&call, &copy));
    values.extend(lent_values(&call, &copy));
    values.extend(says(&call, frames));
    values.extend([
        ("frames", frames.into()),
        ("outer", outer.into()),
        ("inner", inner.into()),
        ("rows", call.rows()),
        ("copy", copy),
        ("exits", call.exits("e", [true, false, false])),
    ]);
    Proof { path: format!("crates/replay/proofs/{outer}/Proof.antt"), text: fill(TEMPLATE, &values) }
}

/// What the callee is passed: it has a slice where the walked function has the array.
fn lent_values(call: &Call, copy: &str) -> Values {
    let lifetimes = call.lifetimes();
    let lent = |param: &Param| match param.kind {
        Four => Param { name: "lent", kind: Records, value: format!("sliceVal ({copy}, 0) 4"), ..param.clone() },
        _ => param.clone(),
    };
    let handed: Vec<Param> = call.params.iter().map(lent).collect();
    let row = |param: &Param| if param.kind == Records { param.row_at("β") } else { param.row() };
    let tokens = || call.tokens().into_iter().chain([(String::from("β"), String::from("fullShare"))]);
    vec![
        ("Cargs", product(handed.iter().map(Param::ty))),
        ("cargs", tuple(handed.iter().map(|param| param.name.into()))),
        ("lifetimes", (lifetimes + 1).to_string()),
        ("κs", tuple(tokens().map(|(lifetime, _)| lifetime).collect::<Vec<_>>())),
        ("qs", tuple(tokens().map(|(_, share)| share).collect::<Vec<_>>())),
        ("passed", tuple(handed.iter().map(|param| format!("{} ∷ []", param.value)))),
        ("alive", alive(tokens())),
        ("callee_rows", list(handed.iter().map(row))),
        ("lent", lifetimes.to_string()),
    ]
}

fn steps(call: &Call, copy: &str) -> String {
    let lifetimes = call.lifetimes();
    let array = call.params.iter().find(|param| param.kind == Four).expect("an array is passed");
    let copied = call.params.len() + 1;
    let token = |number| ("token", number);

    let mut at = call.enters(Some(copied));
    call.passes(&mut at, Param::typed);
    at.assign(&format!("(of-opd ! {})", at.var(array.place + 1)), copied, &format!("({})", array.typed()));
    at.line();
    at.note("each plane is lent on");
    let mut handed: Vec<usize> = (1..=call.params.len()).collect();
    let next = call.lends(&mut at, copied + 1, &mut handed);
    at.note("the records are lent");
    at.assign("(addr ! (from ! (stop !)))", next, "(tt, tt)");
    at.line();
    let pair = format!("(agg ! (and-then ! {} (and-then ! (lit ! tt) (no-more !))))", at.var(next));
    at.assign(&pair, next + 1, "(tt, (tt, (record { fits = four-fits }, tt)))");
    at.line();
    handed[array.place] = next + 1;

    at.take(&[ENTRY]);
    at.turn(&[ENTRY], &[ALIVE, OWNED]);
    at.say(format!("use1 W ({} ⊛ ‵ Own) (id⊢ 𝓤 _) $ split ! $", call.alive()));
    at.take(&[OWNED]);
    call.opens(&mut at);
    at.drop(OWNED);
    let last_local = format!("_{}", next + 1);
    at.note(&format!("[al; st; f; xs; p; v; u; y; tokens; {last_local}; …]"));
    at.turn(&[], &[LENT]);
    at.open("lft-new ! tt (λ β.");
    let cell = (CELL, copied);
    at.take(&[cell, owned(array)]);
    at.line();
    at.turn(&[cell, owned(array)], &[SLICE, LENDER]);
    let reference = format!("(record {{ ptr = ({copy}, 0); name = γ; now = xs }})");
    let slice = format!("‵ (ShrSlice (named {lifetimes}) (β ∷ []) R .own {reference} (sliceVal ({copy}, 0) 4 ∷ []))");
    let lender = format!("‵ (flent (β ∷ []) (arr-parts (shares R) 4 .part fullShare xs {copy} 0))");
    let lends = format!("(lends 𝓤 H A W (β ∷ []) xs {copy} mA ({} .1 .0 .1) four-room)", array.witness);
    at.open(format!(
        "use2 W (later (some (λ (γ : GName). {slice} ⊛ {lender}))) {lends} $ await ! tt $ pick ! (λ γ. split ! $"
    ));
    at.note(&format!("[the slice; the lender's part; β; al; st; f; p; v; u; y; tokens; {last_local}; …]"));
    at.nothing(OWNED);
    for param in call.params.iter().rev() {
        at.join("fjoin", if param.kind == Four { SLICE } else { owned(param) }, OWNED);
    }
    at.note("[what the callee asks; the lender's part; β; tokens; …]: β joins the tokens");
    at.take(&[ALIVE]);
    for number in 0..lifetimes {
        if number > 0 {
            at.take(&[ALIVE]);
        }
        at.split("split", ALIVE, [token(number), ALIVE]);
    }
    at.join("join", LENT, ALIVE);
    (0..lifetimes).rev().for_each(|number| at.join("join", token(number), ALIVE));
    at.line();
    at.turn(&[ALIVE, OWNED], &[PRE]);
    let bound = format!("(β ∷ []) γ {copy}");
    at.say(format!("use2 W (raw (Inner 𝓤 H A mem run .pre (to {bound}))) (asked {bound}) $"));
    at.line();
    call.callee.calls(&mut at, &format!("(to {bound})"), &handed);
    let tokens = call.tokens().into_iter().chain([(String::from("(β ∷ [])"), String::from("fullShare"))]);
    let (kappas, arguments) = (format!("(κs′ {bound})"), format!("(cargs {bound})"));
    call.callee.returns(&mut at, &alive(tokens), &kappas, &arguments);
    call.hears(&mut at, &kappas, &arguments, handed.len());
    let held = format!("[v, u and y at their last; the tokens and the result; the lender's part; {last_local}; …]");
    at.note(&format!("{held}: β ends, and the records are back"));
    at.take(&[RETURNED]);
    at.split("split", RETURNED, [ALIVE, RESULT]);
    for number in 0..lifetimes {
        at.split("split", ALIVE, [token(number), ALIVE]);
        at.take(&[ALIVE]);
    }
    at.split("split", ALIVE, [LENT, ALIVE]);
    at.say("lft-end ! tt $");
    at.take(&[LENT, LENDER]);
    at.line();
    at.turn(&[LENT, LENDER], &[cell]);
    let back = format!("(later (some (λ (o : Val). ‵ (fat fullShare (tyArray T′.mir 4) {copy} 0 o))))");
    at.open(format!("use2 W {back} (backs 𝓤 H A W (β ∷ []) xs {copy}) $ await ! tt $ pick ! (λ o."));
    at.line();
    (0..lifetimes).rev().for_each(|number| at.join("join", token(number), ALIVE));
    at.take(&[RESULT]);
    at.line();
    // the cell of the copy goes back to its place among the locals
    let given = call.given().len();
    let lasts = (0..given).rev().map(last);
    let later = locals(call.locals).into_iter().take_while(|held| *held != cell);
    at.take(&[RESULT, ALIVE].into_iter().chain(lasts).chain(later).chain([cell]).collect::<Vec<_>>());
    call.leaves(at)
}

pub fn proofs() -> Vec<Proof> {
    vec![
        walk("key", "key_four", PASSES, "filter_frame_records"),
        walk("inter", "inter_four", PASSES, "filter_inter_frame_records"),
        walk("key", "key_frame_four", FRAME_CALLS, "loop_filter_frame_records"),
        walk("inter", "inter_frame_four", FRAME_CALLS, "loop_filter_inter_frame_records"),
    ]
}
