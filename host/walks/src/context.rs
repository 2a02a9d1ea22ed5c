//! What is held at a point of a walk, in its order, and the steps so far. A step names what it is about; the place
//! where that stands is counted here.

use crate::text::{joined, list, sub};

/// Something held: what it is, and which of them.
pub type Held = (&'static str, usize);

/// The cell of a local, with its value or room for one.
pub const CELL: &str = "cell";
/// The permission to free the cell of a local.
const DIES: &str = "dies";

/// All that is held at the entry, beside the locals.
pub const ENTRY: Held = ("entry", 0);
/// The lifetimes that live, and what is owned.
pub const ALIVE: Held = ("alive", 0);
pub const OWNED: Held = ("owned", 0);
/// What a callee asks.
pub const PRE: Held = ("pre", 0);
/// What lives and the result, once the callee has returned, and what it ensures.
pub const RETURNED: Held = ("returned", 0);
pub const ENSURED: Held = ("ensured", 0);
pub const RESULT: Held = ("result", 0);

/// What is held of that many locals: the last stands first.
pub fn locals(count: usize) -> Vec<Held> {
    (0..count).rev().flat_map(|local| [(CELL, local), (DIES, local)]).collect()
}

enum Step {
    Said(String),
    Break,
    Note(String),
}

pub struct Context {
    held: Vec<Held>,
    steps: Vec<Step>,
    open: usize,
}

impl Context {
    pub fn new(held: impl IntoIterator<Item = Held>) -> Context {
        Context { held: held.into_iter().collect(), steps: Vec::new(), open: 0 }
    }

    pub fn held(&self) -> &[Held] {
        &self.held
    }

    pub fn place(&self, wanted: Held) -> usize {
        let place = self.held.iter().position(|held| *held == wanted);
        place.unwrap_or_else(|| panic!("{wanted:?} is not held"))
    }

    // ---- the text

    pub fn say(&mut self, step: impl Into<String>) {
        self.steps.push(Step::Said(step.into()));
    }

    /// A step that opens a parenthesis, which `close` closes.
    pub fn open(&mut self, step: impl Into<String>) {
        self.say(step);
        self.open += 1;
    }

    /// The last step, and what closes all that is open.
    pub fn close(&mut self, step: &str) {
        self.say(format!("{step}{}", ")".repeat(self.open)));
        self.open = 0;
    }

    /// What follows stands on a line of its own.
    pub fn line(&mut self) {
        self.steps.push(Step::Break);
    }

    pub fn line_if(&mut self, breaks: bool) {
        if breaks {
            self.line();
        }
    }

    pub fn note(&mut self, note: &str) {
        self.steps.push(Step::Note(format!("-- {note}")));
    }

    /// The steps, with a new line also where one would be wider than this.
    pub fn filled(self, indent: usize, width: usize) -> String {
        assert!(self.open == 0, "a parenthesis is open");
        let mut lines = Vec::new();
        let mut line = String::new();
        for step in self.steps {
            let ends = match &step {
                Step::Said(said) => line.chars().count() + said.chars().count() > width,
                Step::Break | Step::Note(_) => true,
            };
            if ends && !line.is_empty() {
                lines.push(std::mem::take(&mut line));
            }
            match step {
                Step::Said(said) if line.is_empty() => line = said,
                Step::Said(said) => line = line + " " + &said,
                Step::Break => {}
                Step::Note(note) => lines.push(note),
            }
        }
        lines.extend(Some(line).filter(|line| !line.is_empty()));
        joined(lines, "\n", |line| " ".repeat(indent) + &line)
    }

    /// The steps, with a new line only where one was asked for.
    pub fn text(self, indent: usize) -> String {
        self.filled(indent, usize::MAX)
    }

    // ---- what is held

    /// These are brought to the front, in this order.
    pub fn take(&mut self, wanted: &[Held]) {
        let places = wanted.iter().map(|held| self.place(*held).to_string());
        self.say(format!("move ! ({}) $", list(places)));
        self.held.retain(|held| !wanted.contains(held));
        self.held.splice(0..0, wanted.iter().copied());
    }

    /// `take`, unless they stand there already.
    pub fn front(&mut self, wanted: &[Held]) {
        if !self.held.starts_with(wanted) {
            self.take(wanted);
        }
    }

    /// What the next step makes of the first things that are held.
    pub fn turn(&mut self, before: &[Held], after: &[Held]) {
        assert!(self.held.starts_with(before), "{before:?} stand first in {:?}", self.held);
        self.held.splice(0..before.len(), after.iter().copied());
    }

    pub fn drop(&mut self, wanted: Held) {
        self.front(&[wanted]);
        self.turn(&[wanted], &[]);
        self.say("drop ! $");
    }

    /// The first thing held is taken apart, by `split` or `fsplit`.
    pub fn split(&mut self, step: &str, whole: Held, parts: [Held; 2]) {
        self.turn(&[whole], &parts);
        self.say(format!("{step} ! $"));
    }

    /// `part` is brought before `whole` and put into it, by `join` or `fjoin`.
    pub fn join(&mut self, step: &str, part: Held, whole: Held) {
        self.take(&[part, whole]);
        self.turn(&[part, whole], &[whole]);
        self.say(format!("{step} ! $"));
    }

    /// The empty assertion is held too.
    pub fn nothing(&mut self, name: Held) {
        self.turn(&[], &[name]);
        self.say("nothing ! $");
    }

    // ---- locals

    pub fn look(&self, local: usize) -> String {
        format!("(look ! {} refl)", self.place((CELL, local)))
    }

    fn look_in(&self, local: usize, field: usize) -> String {
        format!("(look-in ! {} (sub ! {field} refl (whole !)))", self.place((CELL, local)))
    }

    /// The value of a local.
    pub fn var(&self, local: usize) -> String {
        format!("(load ! (from ! (stop !)) {})", self.look(local))
    }

    /// The value of a field of a local.
    pub fn field(&self, local: usize, field: usize) -> String {
        format!("(load ! (from ! (fld ! refl (stop !))) {})", self.look_in(local, field))
    }

    /// A local as the place that is assigned for the first time.
    pub fn init(&self, local: usize, typed: &str) -> String {
        format!("(from ! (stop !)) (init ! {} refl {typed})", self.place((CELL, local)))
    }

    /// A local that has a value, as the place that is assigned.
    pub fn store(&self, local: usize, typed: &str) -> String {
        format!("(from ! (stop !)) (store ! {} refl {typed})", self.place((CELL, local)))
    }

    pub fn assign(&mut self, value: &str, local: usize, typed: &str) {
        self.say(format!("assigns ! {value} {} $", self.init(local, typed)));
    }

    /// The value of a local of this type is written otherwise: as what is said of the binder's name, by an equality.
    pub fn rewrite(&mut self, local: usize, ty: &str, [binder, value, equal]: [&str; 3]) {
        let (place, name) = (self.place((CELL, local)), sub("l", local));
        self.say(format!("rewrite ! {place} (λ ({binder}). ‵ (fat fullShare {ty} {name} 0 {value})) {equal} refl $"));
    }

    /// The locals that are passed, in their order.
    pub fn operands(&self, locals: &[usize]) -> String {
        let operand = |rest, local: &usize| format!("(and-then ! {} {rest})", self.var(*local));
        locals.iter().rev().fold(String::from("(no-more !)"), operand)
    }

    /// The slice in a local is lent again: first its pointer, then the slice in the next local.
    pub fn lend(&mut self, slice: usize, pointer: usize, room: &str) {
        let address = format!("(addr ! (from ! (fld ! refl (hop ! {} (stop !)))))", self.look_in(slice, 0));
        self.assign(&address, pointer, "(tt, tt)");
        self.line();
        let (pointer_value, length) = (self.var(pointer), self.field(slice, 1));
        let pair = format!("(agg ! (and-then ! {pointer_value} (and-then ! {length} (no-more !))))");
        self.assign(&pair, pointer + 1, &format!("({})", slice_typed(room)));
        self.line();
    }

    pub fn forget(&mut self, local: usize) {
        self.say(format!("forget ! {} refl $", self.place((CELL, local))));
    }

    pub fn free(&mut self, local: usize) {
        let cell = [(CELL, local), (DIES, local)];
        self.take(&cell);
        self.turn(&cell, &[]);
        self.say("free1 ! $");
    }
}

/// That a slice of this room is typed.
pub fn slice_typed(room: &str) -> String {
    format!("tt, (tt, (record {{ fits = {room} .0 }}, tt))")
}
