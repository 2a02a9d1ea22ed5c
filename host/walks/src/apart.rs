//! The functions of `crates/source` that take a record of the source apart and pass its fields on: the four searches,
//! over key or inter frames and for a pair or a level, and the sum.

use crate::Proof;
use crate::call::{Call, EXIT, owned};
use crate::callee::{Callee, INNER};
use crate::context::{ALIVE, Context, OWNED, RESULT, RETURNED};
use crate::params::Kind::{Given, Number, Plain, Read, ReadDeclared, Source};
use crate::params::{Kind, Param, params};
use crate::text::{Values, fill, joined, list, product_to, tuple, tuple_to};

const TEMPLATE: &str = include_str!("../templates/apart.txt");

/// The fields of the record.
pub const FIELDS: [(&str, Kind); 7] = [
    ("width", Number),
    ("height", Number),
    ("y", ReadDeclared),
    ("u", ReadDeclared),
    ("v", ReadDeclared),
    ("«y_stride»", Number),
    ("«uv_stride»", Number),
];

#[derive(Clone, Copy, PartialEq)]
pub enum Frames {
    Key,
    Inter,
}

#[derive(Clone, Copy, PartialEq)]
pub enum Choice {
    Pair,
    Level,
}

#[derive(Clone, Copy, PartialEq)]
pub enum Of {
    Search(Frames, Choice),
    Sum,
}

impl Of {
    /// The parameters before the record, with the letter of the module of the planes' layout.
    pub fn before(self, layout: &'static str) -> Vec<(&'static str, Kind)> {
        let mut list = vec![("y", Read), ("u", Read), ("v", Read)];
        if let Of::Search(..) = self {
            list.extend([("ty", Given), ("tu", Given), ("tv", Given)]);
        }
        list.push(("p", Plain("PlaneLayout", layout)));
        if let Of::Search(frames, _) = self {
            list.extend(lists(frames).iter().map(|name| (*name, Read)));
            list.push(("f", Plain("FrameFilterConfig", "F")));
        }
        list
    }

    fn params(self) -> Vec<Param> {
        let mut list = self.before("G");
        list.push(("d", Source));
        params(&list)
    }

    /// The function that takes slices and numbers. The one that takes the record has `_of` at the end of its name.
    pub fn inner(self) -> String {
        let Of::Search(frames, choice) = self else { return String::from("reconstruction_ssd") };
        let choice = match choice {
            Choice::Pair => "params",
            Choice::Level => "level",
        };
        let frames = match frames {
            Frames::Key => "",
            Frames::Inter => "_inter",
        };
        format!("select_filter_{choice}{frames}")
    }

    /// The crate of that function, its module and its module of definitions.
    fn modules(self) -> [&'static str; 3] {
        match self {
            Of::Search(..) => ["search", ".search", "Search"],
            Of::Sum => ["sums", ".sums", "Sums"],
        }
    }

    /// The type of the answer, what reads it, and the relation or function that says what it is.
    pub fn answer(self) -> [&'static str; 3] {
        match self {
            Of::Search(_, Choice::Pair) => ["ParamsAnswer", "paramsOutcome", "Searched"],
            Of::Search(_, Choice::Level) => ["LevelOnlyAnswer", "levelOnlyOutcome", "LevelSearched"],
            Of::Sum => ["SumAnswer", "sumOutcome", "sumAnswer"],
        }
    }

    /// What a proof uses to say what the answer is.
    pub fn uses(self) -> Values {
        let ([inner_crate, _, specs], [answer, outcome, says]) = (self.modules(), self.answer());
        let (calls, specs) = match self {
            Of::Search(frames, _) => {
                let name = frames_name(frames);
                let calls = format!(
                    "use Rattle·calls.specs.Pass.{{{name}Pass}}\nuse Rattle·calls.specs.PassCalls.{{{name}Lists}}\n"
                );
                (calls, format!("{specs}.{{{name}Search, {says}}}"))
            }
            Of::Sum => (String::new(), format!("{specs}.{{{says}}}")),
        };
        vec![
            ("crate", inner_crate.into()),
            ("calls", calls),
            ("specs", specs),
            ("outcome", outcome.into()),
            ("answer", answer.into()),
        ]
    }

    /// What the answer of this name is, with this source.
    pub fn said(self, answer: &str, source: &str) -> String {
        let [_, outcome, says] = self.answer();
        let planes = "(planesOf (now y) (now u) (now v))";
        let Of::Search(frames, _) = self else {
            return format!("{outcome} {answer} ≡ {says} (gridOf p) {planes} ({source})");
        };
        let (name, lists) = (frames_name(frames), joined(lists(frames), "", |list| format!(" (now {list})")));
        let arguments = format!("p f ({name}Lists{lists}) {planes} (planesOf (now ty) (now tu) (now tv)) ({source})");
        format!("{says} {name}Pass ({name}Search {arguments}) ({outcome} {answer}) (planesOf l m k)")
    }
}

/// The lists of bytes that a pass over such frames reads.
fn lists(frames: Frames) -> &'static [&'static str] {
    match frames {
        Frames::Key => &["modes", "segments", "flags"],
        Frames::Inter => &["modes", "segments", "flags", "refs", "ways"],
    }
}

fn frames_name(frames: Frames) -> &'static str {
    match frames {
        Frames::Key => "key",
        Frames::Inter => "inter",
    }
}

fn walk(of: Of) -> Proof {
    let params = of.params();
    let ([inner_crate, inner_path, _], [answer, ..]) = (of.modules(), of.answer());
    let (inner, outer) = (of.inner(), format!("{}_of", of.inner()));
    let given = params.iter().filter(|param| param.kind == Given).count();
    let call = Call {
        outer: ["source", ".borrowed", &outer],
        inner: [inner_crate, inner_path, &inner],
        callee: Callee { answers: answer, ..INNER },
        exit: EXIT,
        locals: 1 + params.len() + 2 * given + FIELDS.len(),
        params,
    };
    let (before, d) = (&call.params[..call.params.len() - 1], call.params.last().expect("the record is the last"));
    let fields = FIELDS.iter().map(|(name, kind)| field(name, *kind, d));
    let handed: Vec<Param> = before.iter().cloned().chain(fields).collect();

    let mut values = call.shared(steps(&call, before.len()));
    values.extend(of.uses());
    values.extend([
        ("outer", outer.clone()),
        ("inner", inner.clone()),
        ("search", String::from(if of == Of::Sum { "" } else { "yes" })),
        ("source_record", call.source_record()),
        ("rows", call.rows()),
        ("fields", tuple(FIELDS.iter().map(|(name, _)| format!("d .{name}")))),
        ("Cargs", product_to(before.iter().map(Param::ty), "Values (D κs .parts)")),
        ("cargs", tuple_to(before.iter().map(|param| param.name.into()), "vd")),
        ("passed", tuple(handed.iter().map(|param| format!("{} ∷ []", param.value)))),
        ("alive", call.alive()),
        ("callee_rows", list(handed.iter().map(Param::row))),
        ("apart", apart(&call, before)),
        ("said", call.says(of.said("x", "sourceIn d"))),
        ("exits", call.exits("e", [true, false, true])),
    ]);
    Proof { path: format!("crates/source/proofs/borrowed/{outer}/Proof.antt"), text: fill(TEMPLATE, &values) }
}

/// A field of the record, as a parameter of the callee.
fn field(name: &'static str, kind: Kind, record: &Param) -> Param {
    let value = if kind == Number { format!("vint w64 (d .{name})") } else { format!("vs (d .{name})") };
    Param { name, kind, value, ..record.clone() }
}

/// From what the parameters own to what the callee asks.
fn apart(call: &Call, before: &[Param]) -> String {
    let mut at = Context::new([ALIVE, OWNED]);
    at.say(format!("qed W ({} ∷ ‵ Own ∷ []) ∵", call.alive()));
    at.take(&[OWNED]);
    at.line();
    call.opens(&mut at);
    at.drop(OWNED);
    at.note("the record first, then what stands before it, from the last on; it is opened");
    at.turn(&[("parameter", before.len())], &[OWNED]);
    let opened = "(given (mS ∷ [] ≡ mS ∷ []) (‵ (all-own (D κs .parts) (L κs) vd)))";
    at.open(format!("use1 W {opened} (own-open 𝓤 H A W (D κs) (L κs) vd mS) $ learn ! (λ _."));
    at.line();
    for param in before.iter().rev() {
        at.join("fjoin", owned(param), OWNED);
    }
    at.take(&[ALIVE, OWNED]);
    at.close("use2 W (raw (Inner 𝓤 H A mem run .pre to)) asked $ done !");
    at.text(6)
}

fn steps(call: &Call, before: usize) -> String {
    let mut at = call.enters(None);
    call.passes(&mut at, Param::typed);
    // the parameters are locals from 1 on; then come pointer and slice of each plane that is lent on, then the fields
    let record = before + 1;
    let mut handed: Vec<usize> = (1..=before).collect();
    if !call.given().is_empty() {
        at.note("each scratch plane is lent on");
    }
    let first = call.lends(&mut at, record + 1, &mut handed);
    at.note("the fields of the record");
    for field in 0..FIELDS.len() {
        let value = format!("(of-opd ! {})", at.field(record, field));
        at.assign(&value, first + field, &format!("(tt, wt{} .0)", " .1".repeat(field + 1)));
        at.line();
        handed.push(first + field);
    }
    call.calls_apart(&mut at, ["apart", "to", "cargs"], &handed);
    let lists = if call.given().is_empty() { "" } else { ", at some last lists" };
    at.note(&format!("what the callee ensures{lists}"));
    call.hears(&mut at, "κs", "cargs", handed.len());
    at.take(&[RETURNED]);
    at.split("split", RETURNED, [ALIVE, RESULT]);
    at.take(&[RESULT]);
    call.leaves(at)
}

pub fn proofs() -> Vec<Proof> {
    let searches = [Frames::Key, Frames::Inter]
        .into_iter()
        .flat_map(|frames| [Choice::Pair, Choice::Level].map(|choice| Of::Search(frames, choice)));
    searches.chain([Of::Sum]).map(walk).collect()
}
