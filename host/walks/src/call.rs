//! What all walks have in common of a function that prepares a call and answers what the callee answers.

use crate::callee::Callee;
use crate::context::{ALIVE, CELL, Context, ENSURED, ENTRY, Held, OWNED, PRE, RESULT, locals};
use crate::params::{Kind, Param, binders, lifetime_values, lifetimes, row_values, values};
use crate::text::{Values, alive, component, components, fill, joined, list, product, sub, tuple};

const NAMES: &str = include_str!("../templates/names.txt");
const CONTRACT: &str = include_str!("../templates/contract.txt");
const BOUND: &str = include_str!("../templates/bound.txt");
const ARGUMENTS: &str = include_str!("../templates/arguments.txt");
const SOURCE_RECORD: &str = include_str!("../templates/source_record.txt");
const SAID: &str = include_str!("../templates/said.txt");
const EXITS: &str = include_str!("../templates/exits.txt");
const WALK: &str = include_str!("../templates/walk.txt");

/// The last lists of the slices that are given up, and that they are as long as the first.
const LASTS: [[&str; 2]; 3] = [["l", "el"], ["m", "em"], ["k", "ek"]];

const FACT: Held = ("fact", 0);

/// What a parameter owns.
pub fn owned(param: &Param) -> Held {
    ("parameter", param.place)
}

/// The last list of a slice that is given up.
pub fn last(given: usize) -> Held {
    ("last", given)
}

pub struct Call<'a> {
    pub params: Vec<Param>,
    /// Crate, path in it, and name of the walked function and of the callee.
    pub outer: [&'a str; 3],
    pub inner: [&'a str; 3],
    pub callee: Callee,
    pub exit: Exit,
    /// How many locals the function has.
    pub locals: usize,
}

/// The exit of the walked function, in the words of the proof.
pub struct Exit {
    /// The clauses of the walked function, and its arguments and their machine values.
    pub clauses: &'static str,
    pub passed: &'static str,
    /// What `Said` and `exits` are applied to before the answer.
    pub bound: &'static [&'static str],
    /// What is known of the answer's machine value.
    pub is: &'static str,
}

/// The exit of the proofs that have the template `walk.txt`.
pub const EXIT: Exit = Exit { clauses: "outer.clauses 𝓤 H A mem run", passed: "a, vals", bound: &[], is: "is" };

/// A name as the prover writes it.
fn hyphened(name: &str) -> String {
    name.replace('_', "-")
}

/// The types, names and machine values of what is passed.
pub fn argument_values(params: &[Param]) -> Values {
    vec![
        ("Args", product(params.iter().map(Param::ty))),
        ("a", tuple(params.iter().map(|param| param.name.into()))),
        ("Vals", product(params.iter().map(|_| String::from("List Val")))),
        ("vals", tuple(params.iter().map(|param| format!("{} ∷ []", param.value)))),
    ]
}

impl Call<'_> {
    pub fn lifetimes(&self) -> usize {
        lifetimes(&self.params)
    }

    /// The slices that are given up, with the names of their last lists.
    pub fn given(&self) -> Vec<(&Param, [&'static str; 2])> {
        self.params.iter().filter(|param| param.kind == Kind::Given).zip(LASTS).collect()
    }

    pub fn tokens(&self) -> Vec<(String, String)> {
        (0..self.lifetimes()).map(|number| (sub("κ", number), sub("q", number))).collect()
    }

    pub fn alive(&self) -> String {
        alive(self.tokens())
    }

    pub fn rows(&self) -> String {
        list(self.params.iter().map(Param::row))
    }

    // ---- what stands before the walk

    /// The modules of the walked function and of the callee.
    pub fn modules(&self) -> [String; 2] {
        let [outer_crate, outer_path, outer_name] = self.outer;
        let [inner_crate, inner_path, inner_name] = self.inner;
        let own = |name: &str| format!("Rattle·{name}·proofs.proofs");
        let inner_root =
            if inner_crate == outer_crate { own(inner_crate) } else { format!("Rattle·{inner_crate}.proofs") };
        [format!("{}{outer_path}.{outer_name}", own(outer_crate)), format!("{inner_root}{inner_path}.{inner_name}")]
    }

    /// The shares of the lifetimes have this type.
    pub fn share_types(&self) -> String {
        product((0..self.lifetimes()).map(|_| String::from("Share")))
    }

    fn numbers(&self) -> impl Iterator<Item = &Param> {
        self.params.iter().filter(|param| param.kind == Kind::Number)
    }

    /// The pieces that all these proofs have.
    pub fn shared(&self, steps: String) -> Values {
        let [outer, inner] = self.modules();
        let fits = joined(self.numbers(), "", |param| format!(" ({} : {})", param.witness, param.known()));
        let mut bound = lifetime_values(&self.params);
        bound.extend([("binders", binders(&self.params) + &fits), ("Qs", self.share_types())]);
        vec![
            ("names", fill(NAMES, &vec![("inner", inner), ("outer", outer)])),
            ("contract", fill(CONTRACT, &vec![("stayed", tuple(self.params.iter().map(Param::stays)))])),
            ("bound", fill(BOUND, &bound)),
            ("arguments", fill(ARGUMENTS, &argument_values(&self.params))),
            ("walk", fill(WALK, &self.walk_values(steps))),
        ]
    }

    fn walk_values(&self, steps: String) -> Values {
        let Call { params, .. } = self;
        let others = || params.iter().filter(|param| param.kind != Kind::Number);
        let lifetimes = self.lifetimes();
        let bound = components("κs", lifetimes).chain(components("qs", lifetimes)).chain(components("a", params.len()));
        let bound = bound.chain(self.numbers().map(Param::witnessed));
        let [inner_crate, inner_path, inner_name] = self.inner;
        let mut walk_values = row_values(params);
        walk_values.extend([
            ("premises", joined(others(), " → ", Param::known)),
            ("values", values(params)),
            ("witnesses", joined(others(), " ", |param| param.witness.clone())),
            ("steps", steps),
            ("bound", joined(bound, " ", |component| component)),
            ("witnessed", joined(others(), " ", Param::witnessed)),
            ("outer", hyphened(self.outer[2])),
            ("called", hyphened(&format!("{inner_crate}{inner_path}·{inner_name}").replace('.', "·"))),
        ]);
        walk_values
    }

    /// The record of the source, of the declared lifetime.
    pub fn source_record(&self) -> String {
        let lifetimes = self.lifetimes();
        fill(SOURCE_RECORD, &vec![("lifetimes", lifetimes.to_string()), ("declared", (lifetimes - 1).to_string())])
    }

    // ---- the exit

    /// What is left at the exit.
    fn left(&self) -> String {
        let result = [self.callee.owns(), self.alive()];
        let lasts = self
            .given()
            .into_iter()
            .rev()
            .map(|(param, [last, _])| format!("‵ (finally u8 ({} .name) {last})", param.name));
        list(result.into_iter().chain(lasts))
    }

    /// The steps from what is left to what is said at the exit. Only what was given up is had of the parameters.
    fn ends(&self, said: &str, [says, joins]: [bool; 2]) -> String {
        let of_given = |of: usize| {
            let text = move |param: &Param| {
                let given = self.given().into_iter().find(|(given, _)| given.place == param.place);
                String::from(given.map_or("tt", |(_, names)| names[of]))
            };
            tuple(self.params.iter().map(text))
        };
        let (Exit { clauses, passed, .. }, [answer, value]) = (&self.exit, self.callee.answer);
        let ends = format!("ends-at 𝓤 H A outer.ended stayed ({clauses}) W ((κs, qs, tt, {passed}), tt)");

        let count = self.given().len();
        let mut at = Context::new([RESULT, ALIVE].into_iter().chain((0..count).rev().map(last)));
        at.say(format!("suffices ! _ ({ends} {value} {answer} {} {}) $", of_given(0), of_given(1)));
        at.line_if(says);
        at.say(format!("says ! {said} $"));
        at.line();
        at.take(&[ALIVE]);
        at.turn(&[ALIVE], &[]);
        at.say("frame ! $");
        at.nothing(OWNED);
        at.line_if(joins);
        let mut given = count;
        for param in self.params.iter().rev() {
            if param.kind == Kind::Given {
                given -= 1;
                at.join("fjoin", last(given), OWNED);
            } else {
                at.say("nothing ! $ fjoin ! $");
            }
        }
        at.turn(&[OWNED, RESULT], &[]);
        at.say("frame ! $ done !");
        assert!(at.held().is_empty(), "all that is left is used");
        at.text(6)
    }

    /// The names of the last lists.
    fn lists(&self) -> String {
        joined(self.given(), " ", |(_, [last, _])| last.into())
    }

    /// The definition of what is said at the exit.
    pub fn says(&self, said: String) -> String {
        let Callee { answers, answer: [x, _], .. } = self.callee;
        fill(SAID, &vec![("answer", answers.into()), ("lists", self.lists()), ("x", x.into()), ("said", said)])
    }

    /// What the exit owes, as a lemma. What it says follows from `e`, what the callee says. A new line may stand before
    /// what the lemma concludes, and in its steps before what is said and before what is joined.
    pub fn exits(&self, said: &str, [concludes, says, joins]: [bool; 3]) -> String {
        let length =
            |(param, [last, _]): (&Param, [&str; 2])| format!(" → length {last} ≡ length (now {})", param.name);
        let [x, w] = self.callee.answer.map(String::from);
        let values = vec![
            ("x", x),
            ("w", w),
            ("answer", self.callee.answers.into()),
            ("lists", self.lists()),
            ("lengths", joined(self.given(), "", length)),
            ("breaks", String::from(if concludes { "yes" } else { "" })),
            ("left", self.left()),
            ("ends", self.ends(said, [says, joins])),
        ];
        fill(EXITS, &values)
    }

    // ---- the walk

    /// The function is entered. A local whose place has a name is given with it.
    pub fn enters(&self, named: Option<usize>) -> Context {
        let mut at = Context::new(locals(self.locals).into_iter().chain([ENTRY]));
        for local in 0..self.locals {
            let name = if named == Some(local) { sub("l", local) } else { String::from("_") };
            at.open(format!("alloc1 ! (λ {name}."));
        }
        at.say("alloc0 ! $ params1 ! $");
        at.line();
        at
    }

    /// The parameters are passed.
    pub fn passes(&self, at: &mut Context, typed: impl Fn(&Param) -> String) {
        for param in &self.params {
            let place = at.place((CELL, param.place + 1));
            at.say(format!("pass1 ! (init ! {place} refl ({})) $", typed(param)));
            at.line();
        }
        at.say("pass0 ! $");
        at.line();
    }

    /// Each slice that is given up is lent on: pointer and slice are the next locals, and the slice is passed in place of
    /// the parameter. The local after those.
    pub fn lends(&self, at: &mut Context, mut next: usize, handed: &mut [usize]) -> usize {
        for (param, _) in self.given() {
            at.lend(param.place + 1, next, &param.witness);
            handed[param.place] = next + 1;
            next += 2;
        }
        next
    }

    /// What the parameters own is taken apart: the last stands first.
    pub fn opens(&self, at: &mut Context) {
        for param in &self.params {
            at.split("fsplit", OWNED, [owned(param), OWNED]);
            at.take(&[OWNED]);
        }
    }

    /// What is held at the entry is turned into what the callee asks, by a lemma; it is called on these locals and
    /// returns. `to` is the ghost value of the call.
    pub fn calls_apart(&self, at: &mut Context, [lemma, to, arguments]: [&str; 3], locals: &[usize]) {
        at.take(&[ENTRY]);
        at.turn(&[ENTRY], &[PRE]);
        at.say(format!("use1 W (raw ({} .pre {to})) {lemma} $", self.callee.contract));
        at.line();
        self.callee.calls(at, to, locals);
        self.callee.returns(at, &self.alive(), "κs", arguments);
    }

    /// What was ensured is said, at some last lists of the callee's parameters.
    pub fn hears(&self, at: &mut Context, lifetimes: &str, arguments: &str, callee: usize) {
        let last_type = |place| {
            let given = self.given().iter().any(|(param, _)| param.place == place);
            String::from(if given { "List ℕ" } else { "Unit {0}" })
        };
        let said = self.said();
        let module = self.callee.module;
        let lasts = format!("‵ (lasts {module}.ended {lifetimes} {arguments} z) ⊛ raw (fact 𝓤 ({said}))");
        at.say("split ! $");
        at.take(&[ENSURED]);
        at.turn(&[ENSURED], &[OWNED, FACT]);
        at.open(format!(
            "use1 W (some (λ (z : {}). {lasts})) (id⊢ 𝓤 _) $ pick ! (λ z.",
            product((0..callee).map(last_type))
        ));
        at.line();
        at.say("split ! $");
        at.take(&[FACT]);
        at.turn(&[FACT], &[]);
        at.open(format!("heard ! ({said}) (λ e."));
        at.line();
        self.had_at_last(at);
    }

    /// Of what the callee's parameters own at last, the last lists of the slices that are given up are had.
    fn had_at_last(&self, at: &mut Context) {
        let mut given = self.given().into_iter().enumerate().peekable();
        for place in 0.. {
            let Some((number, (param, [_, length]))) = given.peek() else { break };
            let one = ("one", place);
            at.split("fsplit", OWNED, [one, OWNED]);
            if param.place == place {
                let equal = ("equal", place);
                at.split("fsplit", one, [last(*number), equal]);
                at.take(&[equal]);
                at.turn(&[equal], &[]);
                at.open(format!("feqL ! (λ {length}."));
                at.take(&[OWNED]);
                given.next();
            } else {
                at.drop(one);
            }
        }
        at.drop(OWNED);
        at.line();
    }

    /// What the callee says, of the last lists in `z`.
    pub fn said(&self) -> String {
        format!("{} {}{}", self.bound("Said"), self.callee.answer[0], self.last_lists())
    }

    /// `Said` or `exits`, applied to what comes before the answer.
    fn bound(&self, of: &'static str) -> String {
        joined([&of].into_iter().chain(self.exit.bound), " ", |bound| String::from(*bound))
    }

    fn last_lists(&self) -> String {
        joined(self.given(), "", |(param, _)| format!(" ({})", component("z", param.place)))
    }

    /// The result is looked at, and stands in local 0; all locals are freed, and the exit is reached.
    pub fn leaves(&self, mut at: Context) -> String {
        let (Callee { letter, answer: [answer, value], .. }, is) = (&self.callee, self.exit.is);
        self.callee.peeks(&mut at, is);
        at.line();
        let typed = format!("(EL.lawful {letter}.the-type {letter}′.the-laws 𝓤 H A W tt .typed {answer} _ {is} .0)");
        at.say(format!("land ! {} $", at.init(0, &typed)));
        at.line();
        at.say(format!("returns ! {} $", at.look(0)));
        (0..self.locals).rev().for_each(|local| at.forget(local));
        at.line();
        (0..self.locals).for_each(|local| at.free(local));
        at.say("free0 ! $");
        at.line();
        let lengths = joined(self.given(), "", |(_, [_, length])| format!(" {length}"));
        at.close(&format!("by ! ({} {answer} {value}{} e{lengths})", self.bound("exits"), self.last_lists()));
        let count = self.given().len();
        at.turn(&[RESULT, ALIVE], &[]);
        at.turn(&(0..count).rev().map(last).collect::<Vec<_>>(), &[]);
        assert!(at.held().is_empty(), "what is left is what the exit asks");
        at.text(8)
    }
}
