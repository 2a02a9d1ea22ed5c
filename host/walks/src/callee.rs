//! A function that a walk calls, in the words of the proof.

use crate::context::{ALIVE, Context, ENSURED, OWNED, PRE, RESULT, RETURNED};
use crate::params::Param;

pub struct Callee {
    /// Its module, its clauses, its contract, and that it meets it.
    pub module: &'static str,
    pub clauses: &'static str,
    pub contract: &'static str,
    pub known: &'static str,
    /// What `calls-at` asks of all calls.
    pub fm: &'static str,
    /// Names of the answer and of its machine value.
    pub answer: [&'static str; 2],
    /// The type of the answer, and the letter of its module.
    pub answers: &'static str,
    pub letter: &'static str,
}

/// The callee of the proofs that have the template `walk.txt`.
pub const INNER: Callee = Callee {
    module: "inner",
    clauses: "inner.clauses 𝓤 H A mem run",
    contract: "Inner 𝓤 H A mem run",
    known: "known",
    fm: "fm",
    answer: ["x", "w"],
    answers: "PassAnswer",
    letter: "S",
};

/// What `calls-at` asks of all calls, in a proof that is given the tables.
pub const OF_TABLES: &str = "(fmOf 𝓤 H (W .laws) 𝓣)";

impl Callee {
    /// What the answer owns.
    pub fn owns(&self) -> String {
        let (letter, [answer, value]) = (self.letter, self.answer);
        format!("‵ ({letter}.the-row .own {answer} ({value} ∷ []))")
    }

    /// What it asks is held, and it is called on these locals. `to` is the ghost value of the call.
    pub fn calls(&self, at: &mut Context, to: &str, locals: &[usize]) {
        let Callee { fm, contract, known, answer: [_, value], .. } = self;
        let operands = at.operands(locals);
        at.turn(&[PRE], &[]);
        at.open(format!("calls-at ! {fm} ({contract}) {known} {to} {operands} (λ {value}."));
        at.line();
    }

    /// It returns: what it ensures, and what lives with the result, are held.
    pub fn returns(&self, at: &mut Context, alive: &str, lifetimes: &str, arguments: &str) {
        let Callee { module, clauses, answers, answer: [answer, _], .. } = self;
        let ensured = format!("raw (ensured 𝓤 H A {module}.ended ({clauses}) {lifetimes} {arguments} tt {answer})");
        let held = format!("({alive} ⊛ {}) ⊛ {ensured}", self.owns());
        at.turn(&[], &[RETURNED, ENSURED]);
        at.open(format!(
            "use1 W (later (some (λ ({answer} : {answers}). {held}))) (id⊢ 𝓤 _) $ await ! tt $ pick ! (λ {answer}."
        ));
        at.line();
    }

    /// What was ensured is said of the answer alone, by a lemma, and gets a name.
    pub fn hears(&self, at: &mut Context, said: &str, [lemma, name]: [&str; 2]) {
        at.say("split ! $");
        at.take(&[ENSURED]);
        at.turn(&[ENSURED], &[]);
        let answer = self.answer[0];
        at.open(format!("use1 W (raw (fact 𝓤 ({said}))) ({lemma} {answer}) $ heard ! ({said}) (λ {name}."));
    }

    /// The answer is looked at: what is known of its machine value gets a name.
    pub fn peeks(&self, at: &mut Context, name: &str) {
        let (letter, [answer, value]) = (self.letter, self.answer);
        let row = format!("{letter}.the-row (Is {letter}.the-row) (shows 𝓤 H A {letter}.the-row)");
        at.open(format!("peeks ! {row} {answer} ({value} ∷ []) (λ {name}."));
    }
}

/// A callee that takes plain values and answers one. What it asks is made of nothing, and what is kept of its return is
/// the answer and what is said of it.
pub struct Asked {
    pub callee: Callee,
    /// The ghost value of the call, the lemma that what is asked is had, and what is passed.
    pub to: &'static str,
    pub asks: &'static str,
    pub arguments: &'static str,
    /// What is said of the answer, the lemma by which it is, and its name.
    pub said: &'static str,
    pub heard: [&'static str; 2],
}

impl Asked {
    /// It is called on these locals, and returns: what is said of its answer is known, and so is what the answer's
    /// machine value is, by this name. The answer is the first thing held.
    pub fn answers(&self, at: &mut Context, locals: &[usize], is: &str) {
        let Asked { callee, to, asks, arguments, said, heard } = self;
        at.say(format!("use0 W (raw ({} .pre {to})) {asks} $", callee.contract));
        at.turn(&[], &[PRE]);
        at.line();
        callee.calls(at, to, locals);
        callee.returns(at, "‵ ftrue", "tt", arguments);
        callee.hears(at, said, *heard);
        let none = ("no lifetimes", 0);
        at.split("split", RETURNED, [none, RESULT]);
        at.drop(none);
        callee.peeks(at, is);
    }

    /// It is called on these locals, and its answer, a struct, stands in a local.
    pub fn calls(&self, at: &mut Context, locals: &[usize], into: usize) {
        self.answers(at, locals, "is");
        at.drop(RESULT);
        at.line();
        let (letter, answer) = (self.callee.letter, self.callee.answer[0]);
        let the = format!("{letter}.the-type {letter}′.the-laws");
        let typed = format!("(LL.lawful {the} 𝓤 H A W .typed {answer} _ is .0)");
        at.say(format!("land ! {} $", at.init(into, &typed)));
        at.line();
        let equal = format!("(ap only (LL.tells {the} {answer} _ is))");
        at.rewrite(into, &format!("{letter}′.mir"), ["z : Val", "z", &equal]);
        at.line();
    }
}

/// From nothing to what is asked by a callee that takes plain values: these, of these parameters.
pub fn asks(passed: &[(&Param, String)]) -> String {
    let mut at = Context::new([]);
    at.say("qed W [] ∵");
    at.nothing(OWNED);
    for (param, value) in passed.iter().rev() {
        at.say(param.made(value));
        at.line();
    }
    at.nothing(ALIVE);
    at.say("join ! $ frame ! $ done !");
    at.text(6)
}
