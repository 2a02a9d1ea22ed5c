//! `FrameWalk` of `crates/frame_calls`: a frame call over a lent list of records. One callee gives the settings; then
//! the pass is called with these in place of those that came, with the planes lent on and the list as it came.

use crate::Proof;
use crate::call::{Call, Exit, argument_values, owned};
use crate::callee::{Asked, Callee, OF_TABLES, asks};
use crate::context::{ALIVE, Context, OWNED, RESULT, RETURNED};
use crate::mir;
use crate::params::Kind::{Given, Number, Plain, Records};
use crate::params::{Param, binders, lifetime_values, params, row_values, values};
use crate::text::{Values, component, components, fill, indented, joined, list, parenthesized, tuple};

const TEMPLATE: &str = include_str!("../templates/frames.txt");

/// The parameter of the settings.
const CONFIG: &str = "config";
/// What is known once the settings for the pass are: they, their machine value, and what they are.
const SETTLED: [&str; 3] = ["s", "(spelled s w₀ is)", "es"];

/// The callee that gives the settings for the pass.
const SETTINGS: Asked = Asked {
    callee: Callee {
        module: "settings",
        clauses: "settings.clauses 𝓤 H A mem run",
        contract: "Settled 𝓤 H A mem run",
        known: "known-settings",
        fm: OF_TABLES,
        answer: ["s", "w₀"],
        answers: "FrameFilterConfig",
        letter: "F",
    },
    to: "to-settle",
    asks: "asks-settings",
    arguments: "(config, tt)",
    said: "s ≡ passSettings config",
    heard: ["settled", "es"],
};

const PASS: Callee = Callee {
    module: "pass",
    clauses: "passClauses K 𝓤",
    contract: "PassMet K 𝓤 H A",
    known: "known-pass",
    fm: OF_TABLES,
    answer: ["x", "w"],
    answers: "PassAnswer",
    letter: "N",
};

const EXIT: Exit = Exit { clauses: "clauses K 𝓤", passed: "args config, vals config", bound: &SETTLED, is: "x-is" };

fn parameters() -> Vec<Param> {
    let mut params = params(&[
        ("y", Given),
        ("u", Given),
        ("v", Given),
        ("layout", Plain("PlaneLayout", "G")),
        ("list", Records),
        (CONFIG, Plain("FrameFilterConfig", "F")),
        ("start", Number),
        ("allowance", Number),
    ]);
    for param in &mut params {
        match param.kind {
            Plain(..) => param.witness = format!("{}-is", param.name),
            kind if kind.is_slice() => param.witness = format!("room-{}", param.name),
            _ => {}
        }
        if param.name == CONFIG {
            param.value = format!("mF {}", param.name);
        }
    }
    params
}

/// The call of a pass, by what its parameters are called.
fn call_of(params: &[Param], called: impl Fn(&Param) -> String) -> String {
    let (planes, others): (Vec<_>, Vec<_>) = params.iter().partition(|param| param.kind == Given);
    let argument = |param: &Param| match param.kind {
        Given | Records => format!("(now {})", called(param)),
        _ => called(param),
    };
    format!("callOf K (planesOf {}) {}", joined(planes, " ", argument), joined(others, " ", argument))
}

struct Walk {
    call: Call<'static>,
    /// The local of the settings that came, and that of the settings for the pass. After it the planes are lent on.
    came: usize,
    settings: usize,
}

impl Walk {
    fn new() -> Walk {
        let params = parameters();
        let came = 1 + params.iter().position(|param| param.name == CONFIG).expect("settings are passed");
        let settings = params.len() + 1;
        let given = params.iter().filter(|param| param.kind == Given).count();
        let call = Call {
            outer: ["frame_calls", ".record_frame_call", "loop_filter_frame_records"],
            inner: ["frame", ".record_pass", "filter_frame_records"],
            callee: PASS,
            exit: EXIT,
            // the result, the parameters, the settings, and pointer and slice of each plane
            locals: 1 + params.len() + 1 + 2 * given,
            params,
        };
        Walk { call, came, settings }
    }

    /// What the pass is passed: the settings for it stand in place of those that came.
    fn handed(&self) -> Vec<Param> {
        let [name, ..] = SETTLED;
        let settled = |param: &Param| match param.name {
            CONFIG => Param { name, value: format!("mF {name}"), witness: format!("{name}-is"), ..param.clone() },
            _ => param.clone(),
        };
        self.call.params.iter().map(settled).collect()
    }

    /// The locals that the pass is passed.
    fn handed_locals(&self) -> Vec<usize> {
        let local = |param: &Param| match param.kind {
            Given => self.settings + 2 * (param.lifetime + 1),
            _ if param.name == CONFIG => self.settings,
            _ => param.place + 1,
        };
        self.call.params.iter().map(local).collect()
    }

    // ---- steps

    /// From what the parameters own to what the pass asks.
    fn handed_on(&self) -> String {
        let mut at = Context::new([ALIVE, OWNED]);
        at.say(format!("qed W ({} ∷ ‵ (Own config) ∷ []) ∵", self.call.alive()));
        at.take(&[OWNED]);
        at.line();
        self.call.opens(&mut at);
        at.line();
        for param in self.handed().iter().rev() {
            if param.place + 1 == self.came {
                at.line();
                at.drop(owned(param));
                at.say(param.made(param.name));
                at.line();
            } else {
                at.join("fjoin", owned(param), OWNED);
            }
        }
        at.line();
        at.take(&[ALIVE]);
        at.say("use2 W (raw (PassMet K 𝓤 H A .pre to-pass)) asks $ done !");
        at.text(8)
    }

    fn steps(&self) -> String {
        let call = &self.call;
        let mut at = call.enters(Some(self.settings));
        call.passes(&mut at, Param::typed);
        at.note("the settings for the pass");
        SETTINGS.calls(&mut at, &[self.came], self.settings);
        at.note("each plane is lent on");
        let mut handed: Vec<usize> = (1..=call.params.len()).collect();
        handed[self.came - 1] = self.settings;
        call.lends(&mut at, self.settings + 1, &mut handed);
        assert!(handed == self.handed_locals(), "the walk passes what the code does");
        let [lemma, to] = ["handed-on", "to-pass"].map(|of| format!("({of} {})", SETTLED.join(" ")));
        call.calls_apart(&mut at, [&lemma, &to, "(args s)"], &handed);
        at.note("what the pass ensures, at some last lists");
        call.hears(&mut at, "κs", "(args s)", handed.len());
        at.take(&[RETURNED]);
        at.split("split", RETURNED, [ALIVE, RESULT]);
        at.take(&[RESULT]);
        call.leaves(at)
    }

    // ---- the text

    /// The MIR and the contracts.
    fn code(&self) -> Values {
        let Call { params, .. } = &self.call;
        let lent = params.iter().filter(|param| param.kind == Given).flat_map(|_| mir::LENT).map(String::from);
        let after = [String::from("F′.mir")].into_iter().chain(lent);
        let types: Vec<_> =
            [String::from("N′.mir")].into_iter().chain(params.iter().map(mir::ty)).chain(after).collect();
        assert!(types.len() == self.call.locals, "each local has its type");
        let [outer, inner] = self.call.modules();
        vec![
            ("outer", outer),
            ("inner", inner),
            ("mir", mir::names(params)),
            ("params", params.len().to_string()),
            ("config", self.came.to_string()),
            ("settings", self.settings.to_string()),
            ("first_lent", (self.settings + 1).to_string()),
            ("last", (self.call.locals - 1).to_string()),
            ("locals", list(types.iter().map(|ty| format!("local {} valueLocal", parenthesized(ty))))),
            ("lends", mir::lends(params, self.settings + 1)),
            ("pass_vars", mir::operands(&self.handed_locals())),
            ("call_of_a", call_of(params, |param| parenthesized(&component("a", param.place)))),
            ("stayed", tuple(params.iter().map(Param::stays))),
        ]
    }

    /// What is bound, and what is known of it.
    fn bound(&self) -> Values {
        let Call { params, .. } = &self.call;
        let known = |param: &Param| match param.kind {
            Records => format!("Room R (length (now {}))", param.name),
            Plain(_, letter) => {
                let value =
                    format!("LL.tuple-val {letter}.the-type {letter}′.the-laws ({letter}.the-type .to {})", param.name);
                Param { value, ..param.clone() }.known()
            }
            _ => param.known(),
        };
        let of = |is: fn(&Param) -> bool| {
            joined(params.iter().filter(|param| is(param)), " ", |param| {
                format!("({} : {})", param.witness, known(param))
            })
        };
        vec![
            ("binders", binders(params)),
            ("rooms", of(|param| param.kind.is_slice())),
            ("structs", of(|param| matches!(param.kind, Plain(..)))),
            ("fits", of(|param| param.kind == Number)),
            ("Qs", self.call.share_types()),
            ("rows", self.call.rows()),
            ("alive", self.call.alive()),
            ("values", values(params)),
        ]
    }

    /// The lemmas, the walk, and what it is for.
    fn walk(&self) -> Values {
        let Call { params, .. } = &self.call;
        let came = &params[self.came - 1];
        let [said, framed] = [self.handed(), params.clone()].map(|params| call_of(&params, |param| param.name.into()));
        let said = self.call.says(format!("Passed (K .pass) ({said}) x (planesOf l m k)"));
        let framed = format!("(framed (K .pass) (K .quiet) ({framed}) s x (planesOf l m k) is-settled e)");
        let lifetime_arguments = ["κs", "qs"].into_iter().flat_map(|of| components(of, self.call.lifetimes()));
        let (slices, others): (Vec<_>, Vec<_>) = params.iter().partition(|param| param.kind.is_slice());
        vec![
            ("asks_settings", asks(&[(came, came.name.into())])),
            ("handed_on", self.handed_on()),
            ("said", indented(&said, 2)),
            ("exits", indented(&self.call.exits(&framed, [true, true, true]), 2)),
            ("steps", self.steps()),
            ("lifetime_arguments", joined(lifetime_arguments, " ", |argument| argument)),
            ("arguments", joined(components("a", params.len()), " ", |argument| argument)),
            ("witnesses", joined(slices.into_iter().chain(others), " ", Param::witnessed)),
        ]
    }
}

pub fn proof() -> Proof {
    let walk = Walk::new();
    let params = &walk.call.params;
    let of_params = [lifetime_values(params), row_values(params), argument_values(&walk.handed())].concat();
    let values = [of_params, walk.code(), walk.bound(), walk.walk()].concat();
    Proof { path: String::from("crates/frame_calls/proofs/FrameWalk.antt"), text: fill(TEMPLATE, &values) }
}
