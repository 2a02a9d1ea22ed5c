//! `RecordWalk` of `crates/frame`: a pass over a lent list of records. A judge says what is to be done; a loop copies
//! each record out of the list and hands it to the step, with the planes lent again for each call and the total so far.
//! The step returns the new total, and the last callee puts it into the answer.

use crate::Proof;
use crate::callee::{Asked, Callee, OF_TABLES, asks};
use crate::context::{ALIVE, CELL, Context, ENSURED, Held, OWNED, PRE, RESULT, RETURNED, locals, slice_typed};
use crate::mir;
use crate::params::Kind::{Kept, Number, Plain, Records};
use crate::params::{Param, lifetime_values, lifetimes, number_made, params, row_values};
use crate::text::{
    Values, alive, component, components, fill, indented, joined, list, parenthesized, product, sub, subs, tuple,
};

const TEMPLATE: &str = include_str!("../templates/records.txt");

/// The fields of the planes, by their numbers.
const PLANES: [&str; 3] = ["y", "u", "v"];
/// How wide a line of steps is while another begins on it.
const WIDTH: usize = 200;

/// What no turn touches of the list.
const LIST: Held = ("list", 0);

fn plane(number: usize) -> Held {
    ("plane", number)
}

fn token(number: usize) -> Held {
    ("token", number)
}

/// Of a plane that is lent again: the lifetime of the call, the plane at this lifetime, what is had back when it ends,
/// and the plane's last list.
fn lent_for(number: usize) -> Held {
    ("lent", number)
}

fn lent_again(number: usize) -> Held {
    ("again", number)
}

fn back(number: usize) -> Held {
    ("back", number)
}

fn last(number: usize) -> Held {
    ("last", number)
}

/// The judge, which says what is to be done.
const JUDGE: Asked = Asked {
    callee: Callee {
        module: "judge",
        clauses: "judge.clauses 𝓤 H A mem run",
        contract: "Judged 𝓤 H A mem run",
        known: "known-judge",
        fm: OF_TABLES,
        answer: ["r", "w"],
        answers: "Batch",
        letter: "P",
    },
    to: "to-plan",
    asks: "goes-plan",
    arguments: "asked",
    said: "r ≡ batch",
    heard: ["said", "e"],
};

/// The last callee, which puts the total into the judge's answer.
const COUNTED: Asked = Asked {
    callee: Callee {
        module: "counted",
        clauses: "counted.clauses 𝓤 H A mem run",
        contract: "Counted 𝓤 H A mem run",
        known: "known-counted",
        fm: OF_TABLES,
        answer: ["x", "w"],
        answers: "PassAnswer",
        letter: "N",
    },
    to: "(to-count (n .0))",
    asks: "(goes-count (n .0) (n .1))",
    arguments: "(summed (n .0))",
    said: "x ≡ withTotal (r .answer) (total (n .0))",
    heard: ["summed-up (n .0)", "ex"],
};

struct Walk {
    params: Vec<Param>,
    /// The local of the list, and the number of its lifetime.
    list: usize,
    list_lifetime: usize,
    // the locals after the parameters
    batch: usize,
    total: usize,
    index: usize,
    lengths: usize,
    test: usize,
    lent: usize,
    offset: usize,
    pointer: usize,
    record: usize,
    count: usize,
}

impl Walk {
    fn new() -> Walk {
        let mut params = params(&[
            ("y₀", Kept),
            ("y₁", Kept),
            ("y₂", Kept),
            ("lay", Plain("PlaneLayout", "G")),
            ("ms", Records),
            ("cfg", Plain("FrameFilterConfig", "F")),
            ("st", Number),
            ("al", Number),
        ]);
        for param in &mut params {
            (param.value, param.witness) = match param.kind {
                Kept => (sub("s", param.lifetime), sub("room", param.lifetime)),
                Records => (String::from("sl"), String::from("rooml")),
                Plain(_, letter) => (format!("mach{letter} {}", param.name), format!("{}-is", param.name)),
                _ => continue,
            };
        }
        let records = params.iter().find(|param| param.kind == Records).expect("a list is passed");
        let slices = params.iter().filter(|param| param.kind.is_slice()).count();
        let batch = params.len() + 1;
        let (total, index) = (batch + 1, batch + 2);
        let lengths = index + 1;
        let test = lengths + slices;
        let lent = test + 1;
        let offset = lent + 2 * PLANES.len();
        let (pointer, record, count) = (offset + 1, offset + 2, offset + 3);
        let (list, list_lifetime) = (records.place + 1, records.lifetime);
        Walk { list, list_lifetime, batch, total, index, lengths, test, lent, offset, pointer, record, count, params }
    }

    // ---- what is passed

    fn slices(&self) -> impl Iterator<Item = &Param> {
        self.params.iter().filter(|param| param.kind.is_slice())
    }

    /// The parameters that are not slices.
    fn plain(&self) -> impl Iterator<Item = &Param> {
        self.params.iter().filter(|param| !param.kind.is_slice())
    }

    /// Of what the judge is passed: all but the settings, of a slice its length.
    fn judged(&self) -> Vec<(&Param, String)> {
        let value =
            |param: &Param| if param.kind.is_slice() { format!("length {}", param.name) } else { param.name.into() };
        self.params.iter().filter(|param| param.name != "cfg").map(|param| (param, value(param))).collect()
    }

    /// The structs that the step is passed between the planes and the macroblock.
    fn stepped(&self) -> Vec<&Param> {
        self.params.iter().filter(|param| matches!(param.kind, Plain(..))).collect()
    }

    /// The local of a slice's length.
    fn length(&self, slice: &Param) -> usize {
        self.lengths + slice.lifetime
    }

    /// What `counted` is passed after n steps: the batch and the total.
    fn counted() -> Vec<(Param, String)> {
        let known = [("r", "machP r", "is"), ("total n", "vint w64 (total n)", "sum-fits n most")];
        let params = params(&[("r", Plain("Batch", "P")), ("total", Number)]);
        let of = |(param, (name, value, witness)): (Param, (&str, &str, &str))| {
            (Param { value: value.into(), witness: witness.into(), ..param }, String::from(name))
        };
        params.into_iter().zip(known).map(of).collect()
    }

    /// The locals that are passed to the judge, to the step and to `counted`.
    fn judge_locals(&self) -> Vec<usize> {
        let local = |param: &Param| if param.kind.is_slice() { self.length(param) } else { param.place + 1 };
        self.judged().into_iter().map(|(param, _)| local(param)).collect()
    }

    fn step_locals(&self) -> Vec<usize> {
        let planes = (0..PLANES.len()).map(|number| self.lent + 2 * number + 1);
        let structs = self.stepped().into_iter().map(|param| param.place + 1);
        planes.chain(structs).chain([self.index, self.record, self.total]).collect()
    }

    fn counted_locals(&self) -> [usize; 2] {
        [self.batch, self.total]
    }

    // ---- the locals

    fn types(&self) -> Vec<String> {
        let words = (self.total..self.test).map(|_| "word");
        let lent = PLANES.iter().flat_map(|_| mir::LENT);
        let after = ["P′.mir"].into_iter().chain(words).chain(["tyBool"]).chain(lent);
        let after = after.chain(["word", "tyPtr", "T′.mir"]).map(String::from);
        let types: Vec<_> =
            [String::from("N′.mir")].into_iter().chain(self.params.iter().map(mir::ty)).chain(after).collect();
        assert!(types.len() == self.count, "each local has its type");
        types
    }

    /// What is held of the locals, eight on a line: of those that have a value, this.
    fn cells(&self, value: impl Fn(usize) -> Option<String>) -> String {
        let types = self.types();
        let cell = |(what, local): Held| {
            let (ty, place) = (parenthesized(&types[local]), sub("l", local));
            match value(local) {
                Some(value) if what == CELL => format!("‵ (fat fullShare {ty} {place} 0 {value})"),
                None if what == CELL => format!("‵ (froom {ty} {place} 0)"),
                _ => format!("‵ (fdies {ty} {place})"),
            }
        };
        let cells: Vec<_> = locals(self.count).into_iter().map(cell).collect();
        joined(cells.chunks(8), "\n          ∷ ", |line| line.join(" ∷ "))
    }

    /// The value of a local once the judge has returned. The total and the macroblock's number have one after so many
    /// steps.
    fn value(&self, local: usize, steps: Option<&str>) -> Option<String> {
        let length = self.slices().find(|slice| self.length(slice) == local);
        match local {
            _ if (1..=self.params.len()).contains(&local) => Some(parenthesized(&self.params[local - 1].value)),
            _ if local == self.batch => Some(String::from("(machP r)")),
            _ if local == self.total => steps.map(|steps| format!("(vint w64 (total {steps}))")),
            _ if local == self.index => steps.map(|steps| format!("(vint w64 (place-of {steps}))")),
            _ => length.map(|slice| format!("(vint w64 (length {}))", slice.name)),
        }
    }

    /// Everything that is held between two turns.
    fn held(&self) -> Vec<Held> {
        let planes = (0..PLANES.len()).map(plane);
        planes.chain((0..self.lifetimes()).map(token)).chain([LIST]).collect()
    }

    fn lifetimes(&self) -> usize {
        lifetimes(&self.params)
    }

    fn held_text(&self, steps: &str) -> String {
        let planes = PLANES
            .iter()
            .enumerate()
            .map(|(number, field)| format!("‵ ({})", owns(number, &format!("(after {steps} .{field})"))));
        let tokens = self.tokens().into_iter().map(|(lifetime, share)| format!("‵ (flft {lifetime} {share})"));
        joined(planes.chain(tokens).chain([String::from("‵ Shr")]), " ∷ ", |held| held)
    }

    fn tokens(&self) -> Vec<(String, String)> {
        (0..self.lifetimes()).map(|number| (sub("κ", number), sub("q", number))).collect()
    }

    // ---- steps

    /// From what is held after the last turn to what is said at the exit.
    fn exits(&self) -> String {
        let of_params = |plane: &str| {
            let text = |param: &Param| match param.kind {
                Kept => format!("{plane} n .{}", PLANES[param.lifetime]),
                _ => String::from("tt"),
            };
            tuple(self.params.iter().map(text))
        };
        let mut at = Context::new([RESULT].into_iter().chain(self.held()));
        let ends = "ends-at 𝓤 H A filter.ended stayed (clauses K 𝓤) W bound w x";
        at.say(format!("suffices ! _ ({ends} {} {}) $", of_params("after"), of_params("same")));
        at.say("says ! (passed K lay cfg ms st al p₀ r e n en x ex) $");
        at.nothing(ALIVE);
        (0..self.lifetimes()).rev().for_each(|number| at.join("join", token(number), ALIVE));
        at.turn(&[ALIVE], &[]);
        at.say("frame ! $");
        at.note("nothing is kept of the list and of what was passed by value");
        at.drop(LIST);
        at.nothing(OWNED);
        for param in self.params.iter().rev() {
            match param.kind {
                Kept => at.join("fjoin", plane(param.lifetime), OWNED),
                _ => at.say("nothing ! $ fjoin ! $"),
            }
        }
        at.turn(&[OWNED, RESULT], &[]);
        at.say("frame ! $ done !");
        assert!(at.held().is_empty(), "all that is held is used");
        at.filled(8, WIDTH)
    }

    /// The test of the loop is done, and known.
    fn tests(&self, at: &mut Context, then: &str) {
        let value = format!("(bin ! {} {} tt)", at.var(self.index), at.field(self.batch, 2));
        at.assign(&value, self.test, "(tt, tt)");
        self.rewrites(at, self.test, "y : Bool", "(vbool y)", "t");
        at.say(format!("{then} ! {} $", at.var(self.test)));
    }

    /// The value of a local is written otherwise.
    fn rewrites(&self, at: &mut Context, local: usize, binder: &str, value: &str, equal: &str) {
        at.rewrite(local, &self.types()[local], [binder, value, equal]);
    }

    /// A turn that does a step.
    fn more(&self) -> String {
        let before: Vec<Held> = self.held().into_iter().chain(locals(self.count)).collect();
        let mut at = Context::new(before.clone());
        self.tests(&mut at, "stays");
        self.points(&mut at);
        at.note("the record is copied out of the list");
        self.copies(&mut at);
        at.note("each plane is lent again, for a lifetime of the call");
        (0..PLANES.len()).for_each(|number| lends_again(&mut at, number));
        at.note("what the callee asks is put together");
        self.hands(&mut at);
        self.steps_on(&mut at);
        hears_step(&mut at);
        self.totals(&mut at);
        at.note("the lifetimes are ended, and the planes come back at their last lists");
        (0..PLANES.len()).for_each(|number| comes_back(&mut at, number));
        at.note("the next turn");
        let fits = "record { fits = next-fits }";
        let (index, store) = (at.var(self.index), at.store(self.index, &format!("(tt, {fits})")));
        at.say(format!("assigns-last ! (bin ! {index} (lit ! tt) ({fits})) {store} $"));
        self.rewrites(&mut at, self.index, "j : ℕ", "(vint w64 j)", "(add-assoc (r .from) (n .0) 1)");
        (self.test..self.count).for_each(|local| at.forget(local));
        at.drop(OWNED);
        at.drop(ALIVE);
        at.front(&self.held());
        assert!(at.held() == before, "as before the turn");
        at.close("again ! Nearer At n next nearer");
        at.filled(10, WIDTH)
    }

    /// Pointer and slice of each plane, and the pointer to the record.
    fn points(&self, at: &mut Context) {
        for number in 0..PLANES.len() {
            at.lend(number + 1, self.lent + 2 * number, &sub("room", number));
        }
        let far = "record { fits = far }";
        let offset = format!("(bin ! {} (lit ! tt) ({far}))", at.var(self.index));
        at.assign(&offset, self.offset, &format!("(tt, {far})"));
        let pointer = format!("(bin ! {} {} tt)", at.field(self.list, 0), at.var(self.offset));
        at.assign(&pointer, self.pointer, "(tt, tt)");
        self.rewrites(at, self.pointer, "p : ℕ", "(vptr bl p)", "(sym (place-is 8 ol i))");
    }

    /// The record is copied out of the list.
    fn copies(&self, at: &mut Context) {
        let list_token = token(self.list_lifetime);
        at.front(&[LIST, list_token]);
        let row = "R (Is R) (shows 𝓤 H A R) (LL.vals T.the-type T′.the-laws) (LL.tells T.the-type T′.the-laws)";
        at.open(format!("looks-slice ! tt {row} (LL.copy T.the-type T′.the-copy 𝓤 H A W) ms bl ol (λ q″."));
        at.open(format!("elem-out ! {row} q″ ms i noRecord bl ol listed (λ g."));
        let record = ("record", 0);
        let opened = [record, ("record's own", 0), ("other records", 0), ("open list", 0), LIST];
        at.turn(&[LIST, list_token], &opened);
        let through = format!("(from ! (hop ! {} (stop !)))", at.look(self.pointer));
        let copied = format!("(of-opd ! (load ! {through} (look-raw ! {} refl)))", at.place(record));
        let typed = "(LL.lawful T.the-type T′.the-laws 𝓤 H A W .typed (elem (n .0)) _ g .0)";
        at.assign(&copied, self.record, typed);
        at.say(
            "elem-back ! R q″ ms i noRecord (mach (elem (n .0)) ∷ []) bl ol listed $ shuts-slice ! tt R q″ ms bl ol $",
        );
        at.turn(&opened, &[list_token, LIST]);
    }

    /// What the step asks is put together: what lives, and what its arguments own.
    fn hands(&self, at: &mut Context) {
        at.nothing(ALIVE);
        (0..PLANES.len()).rev().for_each(|number| at.join("join", lent_for(number), ALIVE));
        at.line();
        let structs = joined(self.stepped().into_iter().rev(), " ", |param| param.made(param.name));
        let element = "owned ! R (Is R) (LL.makes T.the-type T′.the-plain 𝓤 H A) (elem (n .0)) _ g $ fjoin ! $";
        let total = number_made("(total (n .0))", "sum-fits (n .0) (n .1)");
        at.turn(&[], &[OWNED]);
        at.say(format!("nothing ! $ {total} {element} {} {structs}", number_made("i", "i-fits")));
        at.line();
        (0..PLANES.len()).rev().for_each(|number| at.join("fjoin", lent_again(number), OWNED));
        at.front(&[ALIVE, OWNED]);
        at.line();
        let bound = step_bound();
        at.say(format!("use2 W (raw (Stepped K 𝓤 H A .pre (to-step {bound}))) (goes-step {bound} fine) $"));
        at.turn(&[ALIVE, OWNED], &[PRE]);
    }

    /// The step is called, and returns.
    fn steps_on(&self, at: &mut Context) {
        let (bound, operands) = (step_bound(), at.operands(&self.step_locals()));
        at.open(format!(
            "calls-at ! (fmOf 𝓤 H (W .laws) 𝓣) (Stepped K 𝓤 H A) known (to-step {bound}) {operands} (λ w."
        ));
        let held = format!("({} ⊛ ‵ (usize .own z (w ∷ []))) ⊛ raw (Ensured {bound} z)", step_alive());
        at.open(format!("use1 W (later (some (λ (z : ℕ). {held}))) (id⊢ 𝓤 _) $ await ! tt $ pick ! (λ z."));
        at.turn(&[PRE], &[RETURNED, ENSURED]);
    }

    /// The new total stands in the place of the old.
    fn totals(&self, at: &mut Context) {
        at.front(&[RETURNED]);
        at.split("split", RETURNED, [ALIVE, RESULT]);
        at.front(&[RESULT]);
        at.open("peeks ! usize (Is usize) (shows 𝓤 H A usize) z (w ∷ []) (λ z-is.");
        at.drop(RESULT);
        let typed = "(uint-lawful 𝓤 H A W w64 .typed z _ z-is .0)";
        at.say(format!("land ! {} $", at.store(self.total, typed)));
        let counted = "ap (vint w64) (one-total K lay cfg ms st al p₀ (r .from) (n .0) z (ez .smoothed))";
        let equal = format!("(ap only (uint-tells w64 z _ z-is) ∙ {counted})");
        self.rewrites(at, self.total, "v : Val", "v", &equal);
    }

    /// The turn that leaves the loop, and the rest of the body.
    fn over(&self) -> String {
        let mut at = Context::new(self.held().into_iter().chain(locals(self.count)));
        self.tests(&mut at, "leaves-loop");
        at.say("exec ! C Λ En t-8 (atRet En Post) $");
        COUNTED.answers(&mut at, &self.counted_locals(), "x-is");
        at.line();
        let typed = "(EL.lawful N.the-type N′.the-laws 𝓤 H A W tt .typed x _ x-is .0)";
        at.say(format!("land ! {} $ returns ! {} $", at.init(0, typed), at.look(0)));
        (0..=self.test).for_each(|local| at.forget(local));
        (0..self.count).for_each(|local| at.free(local));
        at.close("free0 ! $ by ! (exits (n .0) whole-done x w ex)");
        at.turn(&[RESULT], &[]);
        assert!(at.held() == self.held(), "what is left is what the exit asks");
        at.filled(10, WIDTH)
    }

    /// From the judge's return to the loop: what the parameters own is taken apart.
    fn after_judge(&self) -> String {
        let mut at = Context::new(locals(self.count).into_iter().chain([ALIVE, OWNED]));
        at.assign("(of-opd ! (lit ! tt))", self.total, "(tt, record { fits = zero-fits })");
        at.assign(&format!("(of-opd ! {})", at.field(self.batch, 1)), self.index, "(tt, record { fits = from-fits })");
        let (whole, place, rest, reserve) =
            (("whole list", 0), ("list's place", 0), ("list's rest", 0), ("reserve", 0));
        for param in &self.params[..self.list] {
            let one = if param.kind == Kept { plane(param.lifetime) } else { whole };
            at.front(&[OWNED]);
            at.split("fsplit", OWNED, [one, OWNED]);
            if let Plain(..) = param.kind {
                at.drop(one);
            }
        }
        at.split("fsplit", whole, [place, rest]);
        at.front(&[rest]);
        at.split("fsplit", rest, [reserve, LIST]);
        [reserve, place, OWNED].into_iter().for_each(|held| at.drop(held));
        for number in 0..self.lifetimes() {
            at.front(&[ALIVE]);
            at.split("split", ALIVE, [token(number), ALIVE]);
        }
        at.drop(ALIVE);
        at.front(&self.held());
        for (number, field) in PLANES.iter().enumerate() {
            let equal = format!("(ap (λ (p : Planes). p .{field}) (no-step K lay cfg ms st al p₀ (r .from)))");
            let place = at.place(plane(number));
            at.say(format!("rewrite ! {place} (λ (l : List ℕ). ‵ ({})) {equal} refl $", owns(number, "l")));
        }
        let none = "(no-total K lay cfg ms st al p₀ (r .from))";
        self.rewrites(&mut at, self.total, "s : ℕ", "(vint w64 s)", none);
        self.rewrites(&mut at, self.index, "j : ℕ", "(vint w64 j)", "(sym (add-zero (r .from)))");
        at.say("looped");
        at.filled(10, WIDTH)
    }

    /// From the entry to the judge's return.
    fn walk(&self) -> String {
        let places = subs("l", 0..self.count);
        let mut at = Context::new(locals(self.count).into_iter().chain([ALIVE, OWNED]));
        at.open(format!("(λ {places}."));
        at.line();
        for slice in self.slices() {
            let typed = format!("(tt, record {{ fits = {} .0 }})", slice.witness);
            at.assign(&format!("(of-opd ! {})", at.field(slice.place + 1, 1)), self.length(slice), &typed);
            at.line();
        }
        JUDGE.calls(&mut at, &self.judge_locals(), self.batch);
        at.close(&format!("by ! (after-judge r e (spelled r w is) 𝓣 known-step known-counted {places} .prf)"));
        at.text(8)
    }

    // ---- the text

    /// The MIR.
    fn code(&self) -> Values {
        let sets = joined(self.slices(), " (", |slice| {
            format!("set {} (rvOpd (part {} 1))", self.length(slice), slice.place + 1)
        });
        let types: Vec<_> = self.types();
        vec![
            ("mir", mir::names(&self.params)),
            ("params", self.params.len().to_string()),
            ("batch", self.batch.to_string()),
            ("total", self.total.to_string()),
            ("index", self.index.to_string()),
            ("lengths", self.lengths.to_string()),
            ("last_length", (self.test - 1).to_string()),
            ("test", self.test.to_string()),
            ("offset", self.offset.to_string()),
            ("pointer", self.pointer.to_string()),
            ("list", self.list.to_string()),
            ("record", self.record.to_string()),
            ("last", (self.count - 1).to_string()),
            ("lends", mir::lends(&self.params, self.lent)),
            ("step_vars", mir::operands(&self.step_locals())),
            ("judge_vars", mir::operands(&self.judge_locals())),
            ("counted_vars", mir::operands(&self.counted_locals())),
            ("sets_lengths", sets),
            ("types", joined(&types, " ", |ty| parenthesized(ty))),
            ("env", list(types.iter().enumerate().map(|(local, ty)| format!("({ty}, {})", sub("l", local))))),
        ]
    }

    /// What the contracts name of the arguments.
    fn contracts(&self) -> Values {
        let at = |place| component("a", place);
        // the step has the structs after the planes, then the macroblock, its record and the total
        let after_structs = PLANES.len() + self.stepped().len();
        vec![
            ("at_y", at(0)),
            ("at_u", at(1)),
            ("at_v", at(2)),
            ("at_layout", at(PLANES.len())),
            ("at_list", at(self.list - 1)),
            ("at_config", at(self.list)),
            ("at_start", at(self.list + 1)),
            ("at_allowance", at(self.list + 2)),
            ("step_config", at(after_structs - 1)),
            ("step_place", at(after_structs)),
            ("step_record", at(after_structs + 1)),
            ("step_total", at(after_structs + 2)),
        ]
    }

    /// The parameters, and what the judge is passed.
    fn passed(&self) -> Values {
        let planes = || 0..PLANES.len();
        let each = |text: fn(&Param) -> String| tuple(self.params.iter().map(text));
        let binder = |number| {
            let [b, o, gamma, y] = ["b", "o", "γ", "y"].map(|letter| sub(letter, number));
            format!("({b} {o} : ℕ) ({gamma} : GName) ({y} : List ℕ)")
        };
        let known = |param: &Param| match param.kind {
            Kept => format!("({} : Room u8 (length {}))", param.witness, param.name),
            Records => format!("({} : Room R (length {}))", param.witness, param.name),
            _ => format!("({} : {})", param.witness, param.known()),
        };
        let named = |param: &Param| match param.kind {
            Kept => format!("{} {} {}", sub("x", param.lifetime), sub("γ", param.lifetime), param.name),
            Records => String::from("xl"),
            _ => param.name.into(),
        };
        let value_of = |(param, value): &(&Param, String)| {
            if param.kind.is_slice() { format!("vint w64 ({value}) ∷ []") } else { format!("{} ∷ []", param.value) }
        };
        let rows = list(self.params.iter().map(Param::row));
        let judged = self.judged();
        vec![
            ("stayed", each(Param::stays)),
            ("plane_binders", joined(planes(), " ", binder)),
            ("value_binders", joined(self.plain(), " ", |param| format!("({} : {})", param.name, param.ty()))),
            ("known", joined(self.slices().chain(self.plain()), " ", known)),
            ("planes", joined(planes(), "", names)),
            ("firsts", subs("y", planes())),
            ("Arg", product(self.params.iter().map(Param::ty))),
            ("a", tuple(self.params.iter().map(named))),
            ("at", each(|param| format!("{} ∷ []", param.value))),
            ("judged", joined(&judged, " ", |(_, value)| parenthesized(value))),
            ("asked", tuple(judged.iter().map(|(_, value)| value.clone()))),
            ("asked_at", tuple(judged.iter().map(value_of))),
            ("entered", format!("{} ∷ ‵ (owns ({rows}) a at) ∷ []", alive(self.tokens()))),
            ("list_kappa", sub("κ", self.list_lifetime)),
        ]
    }

    /// What the step is passed after n steps.
    fn handed(&self) -> Values {
        let planes = || 0..PLANES.len();
        let lent_row = |number: usize| self.params[number].row_at(&format!("({} ∷ [])", sub("ν", number)));
        let handed =
            planes().map(|number| format!("{} {} (after n .{})", sub("x", number), sub("δ", number), PLANES[number]));
        let handed = handed.chain(self.stepped().into_iter().map(|param| param.name.into()));
        let handed = handed.chain(["place-of n", "elem n", "total n"].map(String::from));
        let handed_at = planes().map(|number| sub("s", number));
        let handed_at = handed_at.chain(self.stepped().into_iter().map(|param| param.value.clone()));
        let of_step = ["vint w64 (place-of n)", "mach (elem n)", "vint w64 (total n)"];
        let handed_at = handed_at.chain(of_step.map(String::from));
        let handed_rows = planes().map(lent_row).chain(self.stepped().into_iter().map(Param::row));
        let handed_rows = handed_rows.chain(["usize", "R", "usize"].map(String::from));
        let lasts = planes().map(|_| "List ℕ").chain((0..self.stepped().len() + of_step.len()).map(|_| "Unit {0}"));
        vec![
            ("nus", subs("ν", planes())),
            ("deltas", subs("δ", planes())),
            ("νs", tuple(planes().map(|number| format!("{} ∷ []", sub("ν", number))))),
            ("handed", tuple(handed.collect::<Vec<_>>())),
            ("handed_at", tuple(handed_at.map(|value| value + " ∷ []").collect::<Vec<_>>())),
            ("full_shares", tuple(planes().map(|_| String::from("fullShare")))),
            ("had", format!("{} ∷ ‵ (owns ({}) handed handed-at) ∷ []", step_alive(), list(handed_rows))),
            ("planes_after", joined(PLANES, " ", |field| format!("(after n .{field})"))),
            ("planes_now", joined(PLANES, " ", |field| format!("(after (n .0) .{field})"))),
            ("Lasts", product(lasts.map(String::from).collect::<Vec<_>>())),
            ("lasts", joined(planes(), " ", |number| format!("({})", component("zs", number)))),
        ]
    }

    /// What `counted` is passed after n steps, and what it answers.
    fn counts() -> Values {
        let counted = Walk::counted();
        let passed: Vec<_> = counted.iter().map(|(param, value)| (param, parenthesized(value))).collect();
        vec![
            ("summed", tuple(counted.iter().map(|(_, value)| value.clone()))),
            ("summed_at", tuple(counted.iter().map(|(param, _)| format!("{} ∷ []", param.value)))),
            ("goes_count", indented(&asks(&passed), 2)),
            ("answer", COUNTED.callee.owns()),
        ]
    }

    /// The walk, and what it is for.
    fn steps(&self) -> Values {
        let lifetime_arguments = ["κs", "qs"].into_iter().flat_map(|of| components(of, self.lifetimes()));
        let slice = |slice: &Param| {
            let reference = component("a", slice.place);
            joined(["ptr .0", "ptr .1", "name", "now"], " ", |part| format!("({reference} .{part})"))
        };
        let arguments =
            self.slices().map(slice).chain(self.plain().map(|param| format!("({})", component("a", param.place))));
        let typed = |param: &Param| match param.kind {
            Kept | Records => format!("({})", slice_typed(&param.witness)),
            _ => format!("({})", param.typed()),
        };
        vec![
            ("goes_plan", asks(&self.judged())),
            ("held", self.held_text("n")),
            ("exits", self.exits()),
            ("places", subs("l", 0..self.count)),
            ("cells", self.cells(|local| self.value(local, Some("n")))),
            ("held_at", self.held_text("(n .0)")),
            ("more", self.more()),
            ("over", self.over()),
            ("got", self.cells(|local| self.value(local, None))),
            ("after_judge", self.after_judge()),
            ("value_list", list(self.params.iter().map(|param| parenthesized(&param.value)))),
            ("values", joined(&self.params, " ", |param| parenthesized(&param.value))),
            ("typed", joined(&self.params, " ", typed)),
            ("walk", self.walk()),
            ("lifetime_arguments", joined(lifetime_arguments, " ", |argument| argument)),
            ("arguments", joined(arguments, " ", |argument| argument)),
            ("witnesses", joined(self.slices().chain(self.plain()), " ", Param::witnessed)),
        ]
    }
}

/// The names of the reference to a plane and of its machine value.
fn names(number: usize) -> String {
    let [b, o, x, y, s] = ["b", "o", "x", "y", "s"].map(|letter| sub(letter, number));
    let reference = format!("record {{ ptr = ({b}, {o}); name = δ; now = l }}");
    let reference = format!("  abbrev {x} : GName → List ℕ → RefT (List ℕ)\n  {x} δ l = {reference}\n");
    let value = format!("  abbrev {s} : Val\n  {s} = sliceVal ({b}, {o}) (length {y})\n");
    format!("{reference}\n{value}\n")
}

/// What the parameter of a plane owns, at its first name and lifetime and this list.
fn owns(number: usize, list: &str) -> String {
    owns_as(number, &sub("κ", number), &sub("γ", number), list)
}

fn owns_as(number: usize, lifetime: &str, name: &str, list: &str) -> String {
    let reference = format!("({} {name} {list})", sub("x", number));
    format!("MutSlice (named {number}) {lifetime} u8 .own {reference} ({} ∷ [])", sub("s", number))
}

/// The loan of a plane for the lifetime of a call.
fn borrow(number: usize) -> String {
    let [kappa, nu, q, gamma, b, o] = ["κ", "ν", "q", "γ", "b", "o"].map(|letter| sub(letter, number));
    format!("u8 {kappa} ({nu} ∷ []) {q} {gamma} {b} {o}")
}

fn at_length(number: usize, list: &str) -> String {
    format!("𝓤 H A W (named {number}) (named {number}) {list} (length {})", sub("y", number))
}

/// What the lemmas on the call of the step are applied to.
fn step_bound() -> String {
    format!("{} {} (n .0)", subs("ν", 0..PLANES.len()), subs("δ", 0..PLANES.len()))
}

/// A plane is lent again, for a lifetime of the call.
fn lends_again(at: &mut Context, number: usize) {
    let [now, same] = ["after", "same"].map(|what| format!("({what} (n .0) .{})", PLANES[number]));
    at.turn(&[], &[lent_for(number)]);
    at.open(format!("lft-new ! tt (λ {}.", sub("ν", number)));
    at.front(&[plane(number), token(number)]);
    let lifetime = format!("({} ∷ [])", sub("ν", number));
    let own = owns_as(number, &lifetime, "δ", &now);
    let borrow = borrow(number);
    let again = format!("‵ (LentAgain {borrow} δ {now})");
    let lends = format!("(lends-at {borrow} {} (sym {same}))", at_length(number, &now));
    let delta = sub("δ", number);
    let held = format!("(later (some (λ (δ : GName). ‵ ({own}) ⊛ {again})))");
    at.open(format!("use2 W {held} {lends} $ await ! tt $ pick ! (λ {delta}. split ! $"));
    at.turn(&[plane(number), token(number)], &[lent_again(number), back(number)]);
}

/// What the step ensures is known, at some last lists of the planes.
fn hears_step(at: &mut Context) {
    let (bound, fact) = (step_bound(), ("fact", 0));
    at.say("split ! $");
    at.front(&[ENSURED]);
    let lasts = format!("‵ (Last {bound} zs) ⊛ raw (fact 𝓤 (Said {bound} z zs))");
    at.open(format!("use1 W (some (λ (zs : Lasts {bound}). {lasts})) (id⊢ 𝓤 _) $ pick ! (λ zs."));
    at.turn(&[ENSURED], &[OWNED, fact]);
    at.line();
    at.say("split ! $");
    at.front(&[fact]);
    at.turn(&[fact], &[]);
    at.open(format!("heard ! (Said {bound} z zs) (λ ez."));
    for (number, field) in PLANES.iter().enumerate() {
        let (one, equal) = (("one", number), ("equal", number));
        at.front(&[OWNED]);
        at.split("fsplit", OWNED, [one, OWNED]);
        at.split("fsplit", one, [last(number), equal]);
        at.front(&[equal]);
        at.turn(&[equal], &[]);
        at.open(format!("feqL ! (λ l{field}."));
    }
}

/// The lifetime of a plane's loan is ended, and the plane comes back at its last list.
fn comes_back(at: &mut Context, number: usize) {
    let field = PLANES[number];
    let [now, same] = ["after", "same"].map(|what| format!("({what} (n .0) .{field})"));
    let (ended, after) = (("ended", number), format!("({})", component("zs", number)));
    at.front(&[ALIVE]);
    at.line();
    at.say("split ! $ lft-end ! tt $");
    at.turn(&[ALIVE], &[ended, ALIVE]);
    at.front(&[ended, back(number), last(number)]);
    let [kappa, q, delta, room] = ["κ", "q", "δ", "room"].map(|letter| sub(letter, number));
    let got = format!("(later (‵ ({}) ⊛ ‵ (flft {kappa} {q})))", owns(number, &after));
    let length = format!("{} (sym {same})", at_length(number, &now));
    let comes = format!("comes-at {} {length} {delta} {after} {room} l{field}", borrow(number));
    at.say(format!("use3 W {got} ({comes}) $ await ! tt $ split ! $"));
    at.turn(&[ended, back(number), last(number)], &[plane(number), token(number)]);
    let step = "one-step K lay cfg ms st al p₀ (r .from) (n .0)";
    let equal = format!("(ap (λ (p : Planes). p .{field}) (ez .planes ∙ {step}))");
    let (place, own) = (at.place(plane(number)), owns(number, "l′"));
    at.say(format!("rewrite ! {place} (λ (l′ : List ℕ). ‵ ({own})) {equal} refl $"));
}

/// What lives during the call of the step.
fn step_alive() -> String {
    alive((0..PLANES.len()).map(|number| (format!("({} ∷ [])", sub("ν", number)), String::from("fullShare"))))
}

/// The proof, and of the function how many locals and parameters it has.
pub fn proof() -> (Proof, usize, usize) {
    let walk = Walk::new();
    let of_params = [lifetime_values(&walk.params), row_values(&walk.params)].concat();
    let code = [walk.code(), walk.contracts()].concat();
    let passed = [walk.passed(), walk.handed(), Walk::counts()].concat();
    let values = [of_params, code, passed, walk.steps()].concat();
    let proof = Proof { path: String::from("crates/frame/proofs/RecordWalk.antt"), text: fill(TEMPLATE, &values) };
    (proof, walk.count, walk.params.len())
}
