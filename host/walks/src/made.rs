//! The functions of `crates/source` that make the record of the source and pass it on: the sum, and the search for a
//! pair over key frames.

use crate::Proof;
use crate::apart::{Choice, FIELDS, Frames, Of};
use crate::call::{Call, EXIT, owned};
use crate::callee::{Callee, INNER};
use crate::context::{ALIVE, Context, Held, OWNED, RESULT, RETURNED};
use crate::params::Kind::{Given, Number, Plain, Read, ReadDeclared, Source};
use crate::params::{Param, params};
use crate::text::{Values, fill, joined, list, product, tuple};

const TEMPLATE: &str = include_str!("../templates/made.txt");

/// The parameters of which the record is made, in the order of its fields, and the source that it is.
const MADE_OF: [&str; FIELDS.len()] = ["w", "h", "sy", "su", "sv", "ys", "us"];
const SOURCE: &str = "sourceOf w h (now sy) (now su) (now sv) ys us";

/// A function that makes the record, and what its proof calls things.
struct Made {
    of: Of,
    /// The letter of the module of the planes' layout.
    layout: &'static str,
    /// The machine values of the planes' layout and of the record.
    planes: &'static str,
    record: &'static str,
    /// How the name of what is known of a parameter begins.
    known: &'static str,
    /// The answer and its machine value.
    answer: [&'static str; 2],
    /// Its notes: what is held beside what the fields of the record own, and what is done before the call.
    beside: &'static str,
    done: &'static str,
}

const SUM: Made = Made {
    of: Of::Sum,
    layout: "P",
    planes: "mp",
    record: "mach",
    known: "i",
    answer: ["r", "x"],
    beside: "planes; v; u; y",
    done: "the record is made, and copied",
};

const SEARCH: Made = Made {
    of: Of::Search(Frames::Key, Choice::Pair),
    layout: "G",
    planes: "mG",
    record: "mS",
    known: "i-",
    answer: ["x", "o"],
    beside: "what stands before them, from the last on",
    done: "the record is made; each scratch plane is lent on; the record is copied",
};

impl Made {
    fn is_sum(&self) -> bool {
        self.of == Of::Sum
    }

    fn params(&self) -> Vec<Param> {
        let mut list = self.of.before(self.layout);
        list.extend(MADE_OF.into_iter().zip(FIELDS).map(|(name, (_, kind))| (name, kind)));
        let mut params = params(&list);
        for param in &mut params {
            if let Read | ReadDeclared | Plain(..) = param.kind {
                param.witness = format!("{}{}", self.known, param.name);
            }
            if param.name == "p" {
                param.value = self.planes.into();
            }
        }
        params
    }

    /// What differs between the proofs in what they use, name and say.
    fn differs(&self, call: &Call) -> Values {
        let yes = |is: bool| String::from(if is { "yes" } else { "" });
        let says = |is: bool| if is { call.says(self.of.said(self.answer[0], SOURCE)) } else { String::new() };
        let (sum, search) = (self.is_sum(), !self.is_sum());
        let mut values = self.of.uses();
        values.extend([
            ("outer", call.outer[2].into()),
            ("inner", call.inner[2].into()),
            ("sum", yes(sum)),
            ("search", yes(search)),
            ("layout", self.layout.into()),
            ("planes", self.planes.into()),
            ("record", self.record.into()),
            ("sum_says", says(sum)),
            ("search_says", says(search)),
            ("exits", call.exits("e", [search, false, search])),
        ]);
        values
    }

    fn proof(&self) -> Proof {
        let params = self.params();
        let [inner, outer] = ["of", "from"].map(|end| format!("{}_{end}", self.of.inner()));
        let given = params.iter().filter(|param| param.kind == Given).count();
        let call = Call {
            outer: ["source", ".borrowed", &outer],
            inner: ["source", ".borrowed", &inner],
            callee: Callee { answer: self.answer, answers: self.of.answer()[0], ..INNER },
            exit: EXIT,
            // the result, the parameters, the record, pointer and slice of each plane that is lent on, the record's copy
            locals: 1 + params.len() + 1 + 2 * given + 1,
            params,
        };
        let (before, fields) = split(&call);
        let record =
            Param { name: "d", kind: Source, place: before.len(), value: self.record.into(), ..fields[0].clone() };
        let handed: Vec<Param> = before.iter().cloned().chain([record]).collect();
        let made = joined(FIELDS.iter().zip(fields), "; ", |((name, _), param)| format!("{name} = {}", param.name));

        let mut values = call.shared(self.steps(&call));
        values.extend(self.differs(&call));
        values.extend([
            ("source_record", call.source_record()),
            ("made", made),
            ("rows", call.rows()),
            ("fields", tuple(fields.iter().map(|param| param.name.into()))),
            ("Cargs", product(handed.iter().map(Param::ty))),
            ("cargs", tuple(handed.iter().map(|param| param.name.into()))),
            ("passed", tuple(handed.iter().map(|param| format!("{} ∷ []", param.value)))),
            ("alive", call.alive()),
            ("callee_rows", list(handed.iter().map(Param::row))),
            ("apart", self.apart(&call)),
        ]);
        Proof { path: format!("crates/source/proofs/borrowed/{outer}/Proof.antt"), text: fill(TEMPLATE, &values) }
    }

    /// From what the parameters own to what the callee asks: the last of them own together what the record's fields do.
    fn apart(&self, call: &Call) -> String {
        const FIELDS_OWN: Held = ("fields", 0);
        let (before, _) = split(call);
        let mut at = Context::new([ALIVE, FIELDS_OWN]);
        at.say(format!("qed W ({} ∷ ‵ Own ∷ []) ∵", call.alive()));
        at.take(&[FIELDS_OWN]);
        at.line();
        for param in before {
            at.split("fsplit", FIELDS_OWN, [owned(param), FIELDS_OWN]);
            at.take(&[FIELDS_OWN]);
        }
        at.note(&format!("[what the fields own together; {}; tokens]", self.beside));
        at.say("use1 W (‵ Os) (own-shut 𝓤 H A W (D κs) (L κs) vd) $");
        at.nothing(OWNED);
        at.join("fjoin", FIELDS_OWN, OWNED);
        at.line_if(self.is_sum());
        for param in before.iter().rev() {
            at.join("fjoin", owned(param), OWNED);
        }
        at.line();
        at.take(&[ALIVE, OWNED]);
        at.say("use2 W (raw (Inner 𝓤 H A mem run .pre to)) asked $ done !");
        at.text(6)
    }

    fn steps(&self, call: &Call) -> String {
        let mut at = call.enters(None);
        call.passes(&mut at, |param| match param.kind {
            Number if self.is_sum() => format!("({})", param.typed()),
            _ => param.typed(),
        });
        at.note(self.done);
        let handed = makes(call, &mut at);
        call.calls_apart(&mut at, ["apart", "to", "cargs"], &handed);
        if self.is_sum() {
            call.callee.hears(&mut at, &call.said(), ["said", "e"]);
        } else {
            at.note("what the callee ensures, at some last lists");
            call.hears(&mut at, "κs", "cargs", handed.len());
        }
        at.front(&[RETURNED]);
        at.split("split", RETURNED, [ALIVE, RESULT]);
        at.take(&[RESULT]);
        if self.is_sum() {
            at.note(&format!("[the result; the tokens; _{}; …; room for _0; …]", call.locals - 1));
        }
        call.leaves(at)
    }
}

/// The parameters before those of which the record is made, and those.
fn split<'a>(call: &'a Call) -> (&'a [Param], &'a [Param]) {
    call.params.split_at(call.params.len() - FIELDS.len())
}

/// The record is made, the slices that are given up are lent on, and the record is copied: the locals that are passed.
fn makes(call: &Call, at: &mut Context) -> Vec<usize> {
    let (before, fields) = split(call);
    let typed = fields.iter().map(|param| match param.kind {
        Number => format!("record {{ fits = {} }}", param.witness),
        _ => format!("{} .1", param.typed()),
    });
    let typed = format!("(tt, {})", tuple(typed));
    // the parameters are locals from 1 on
    let made = call.params.len() + 1;
    let operands = at.operands(&fields.iter().map(|param| param.place + 1).collect::<Vec<_>>());
    at.assign(&format!("(agg ! {operands})"), made, &typed);
    at.line();
    let mut handed: Vec<usize> = (1..=before.len()).collect();
    let copied = call.lends(at, made + 1, &mut handed);
    at.assign(&format!("(of-opd ! {})", at.var(made)), copied, &typed);
    at.line();
    handed.push(copied);
    handed
}

pub fn proofs() -> Vec<Proof> {
    [SUM, SEARCH].iter().map(Made::proof).collect()
}
