//! The parameters of a walked function, and what a walk says of each.

use crate::context::slice_typed;
use crate::text::{Values, component, joined, list, parenthesized, sub, subs, tuple};

#[derive(Clone, Copy, PartialEq)]
pub enum Kind {
    /// A slice of bytes that is read.
    Read,
    /// The same, of the lifetime that the function declares.
    ReadDeclared,
    /// A slice of bytes that is given up for good.
    Given,
    /// A slice of bytes that is had again at the exit.
    Kept,
    /// A slice of records that is read.
    Records,
    /// An array of four records. Lent as a slice it has a lifetime of its own, after all others.
    Four,
    /// A struct of plain values: its type and the letter of its module.
    Plain(&'static str, &'static str),
    /// A struct that holds slices of the declared lifetime.
    Source,
    /// A `usize`.
    Number,
}

use Kind::{Four, Given, Kept, Number, Plain, Read, ReadDeclared, Records, Source};

impl Kind {
    pub fn is_slice(self) -> bool {
        matches!(self, Read | ReadDeclared | Given | Kept | Records)
    }
}

#[derive(Clone)]
pub struct Param {
    pub name: &'static str,
    pub kind: Kind,
    /// The place of the parameter, counted from 0.
    pub place: usize,
    /// The number of its lifetime.
    pub lifetime: usize,
    /// Its machine value.
    pub value: String,
    /// What is known of it on entry.
    pub witness: String,
}

/// The parameters of this list. Each slice has the next lifetime, and the declared lifetime comes after those.
pub fn params(list: &[(&'static str, Kind)]) -> Vec<Param> {
    let elided = |kind: &Kind| matches!(kind, Read | Given | Kept | Records);
    let all = list.iter().filter(|(_, kind)| elided(kind)).count();
    let mut next = 0;
    let mut param = |place: usize, name: &'static str, kind: Kind| {
        let lifetime = if elided(&kind) { next } else { all };
        next += usize::from(elided(&kind));
        let (value, witness) = match kind {
            Read | ReadDeclared | Records => (format!("vs {name}"), format!("i-{name}")),
            Given | Kept => (format!("vs {name}"), format!("r-{name}")),
            Four => (String::from("mA"), format!("i-{name}")),
            Plain(_, letter) => (format!("m{letter}"), format!("i-{name}")),
            Source => (String::from("mS"), String::from("wt")),
            Number => (format!("vint w64 {name}"), format!("{name}-fits")),
        };
        Param { name, kind, place, lifetime, value, witness }
    };
    list.iter().enumerate().map(|(place, (name, kind))| param(place, name, *kind)).collect()
}

/// How many lifetimes the parameters have.
pub fn lifetimes(params: &[Param]) -> usize {
    let refers = |param: &&Param| !matches!(param.kind, Four | Plain(..) | Number);
    params.iter().filter(refers).map(|param| param.lifetime + 1).max().unwrap_or(0)
}

impl Param {
    pub fn kappa(&self) -> String {
        sub("κ", self.lifetime)
    }

    pub fn ty(&self) -> String {
        String::from(match self.kind {
            Read | ReadDeclared | Given | Kept => "RefT (List ℕ)",
            Records => "RefT (List MacroblockModes)",
            Four => "List MacroblockModes",
            Plain(ty, _) => ty,
            Source => "SourcePlanes",
            Number => "ℕ",
        })
    }

    /// Its row at this lifetime.
    pub fn row_at(&self, lifetime: &str) -> String {
        let number = self.lifetime;
        match self.kind {
            Read | ReadDeclared => format!("ShrSlice (named {number}) {lifetime} u8"),
            Given | Kept => format!("MutSlice (named {number}) {lifetime} u8"),
            Records => format!("ShrSlice (named {number}) {lifetime} R"),
            Four => String::from("Four"),
            Plain(_, letter) => format!("{letter}.the-row"),
            Source => String::from("B κs"),
            Number => String::from("usize"),
        }
    }

    pub fn row(&self) -> String {
        self.row_at(&self.kappa())
    }

    /// How it stays or goes until the exit.
    pub fn stays(&self) -> String {
        let number = self.lifetime;
        match self.kind {
            Given => format!("gave-slice ({number} ∷ []) tt (plain (λ _. u8))"),
            Kept => format!("stay-slice ({number} ∷ []) tt (plain (λ _. u8))"),
            _ => String::from("stay-dropped _ yes"),
        }
    }

    /// That it goes so, in a function of so many lifetimes.
    pub fn goes(&self, lifetimes: usize) -> String {
        let (start, number) = (format!("𝓤 H A W {lifetimes}"), self.lifetime);
        let dropped = match self.kind {
            Given => return format!("goes-gave-slice {start} {number} tt (plain (λ _. u8))"),
            Kept => return format!("goes-slice {start} {number} tt (plain (λ _. u8))"),
            Read | ReadDeclared => format!("shrSliceOf ({number} ∷ []) tt (plain (λ _. u8))"),
            Records => format!("shrSliceOf ({number} ∷ []) tt (plain (λ _. R))"),
            Source => String::from("plain B"),
            Four | Plain(..) | Number => format!("plain (λ _. {})", self.row()),
        };
        format!("goes-dropped {start} ({dropped}) yes (λ κs x f. refl)")
    }

    /// What its value owns, which needs nothing. Of a slice the value is its length.
    pub fn made(&self, value: &str) -> String {
        match self.kind {
            Plain(_, letter) => {
                let makes = format!("(LL.makes {letter}.the-type {letter}′.the-plain 𝓤 H A)");
                format!("owned ! {letter}.the-row (Is {letter}.the-row) {makes} {value} _ {} $ fjoin ! $", self.witness)
            }
            Number => number_made(value, &self.witness),
            _ => number_made(&parenthesized(value), &format!("{} .0", self.witness)),
        }
    }

    pub fn vals(&self) -> String {
        match self.kind {
            Read | ReadDeclared | Given | Kept | Records => String::from("slice-vals"),
            Four => String::from("array-vals (LL.vals T.the-type T′.the-laws)"),
            Plain(_, letter) => format!("LL.vals {letter}.the-type {letter}′.the-laws"),
            Source => String::from("LL.vals (D κs) (L κs)"),
            Number => String::from("uint-vals w64"),
        }
    }

    pub fn tells(&self) -> String {
        let slice = format!("(named {}) ({})", self.lifetime, component("κs", self.lifetime));
        match self.kind {
            Read | ReadDeclared => format!("shr-slice-tells {slice} u8"),
            Given | Kept => format!("mut-slice-tells {slice} u8"),
            Records => format!("shr-slice-tells {slice} R"),
            Four => String::from("array-tells R (LL.vals T.the-type T′.the-laws) (LL.tells T.the-type T′.the-laws) 4"),
            Plain(_, letter) => format!("LL.tells {letter}.the-type {letter}′.the-laws"),
            Source => String::from("LL.tells (D κs) (L κs)"),
            Number => String::from("uint-tells w64"),
        }
    }

    /// What its witness is of. Of a number it stands beside the parameters, not before the walk.
    pub fn known(&self) -> String {
        let Param { name, value, .. } = self;
        match self.kind {
            Read | ReadDeclared | Records => format!("Is ({}) {name} ({value} ∷ [])", self.row()),
            Given | Kept => format!("Room u8 (length (now {name}))"),
            Four | Plain(..) => format!("Is {} {name} ({value} ∷ [])", self.row()),
            Source => format!("Holds (hasTy (T′.mir (named {})) {value}) × WT {value}", self.lifetime),
            Number => format!("{name} < 2 ^ 64"),
        }
    }

    /// The witness, from what is known of all parameters.
    pub fn witnessed(&self) -> String {
        let (a, are) = (component("a", self.place), component("are", self.place));
        match self.kind {
            Given | Kept | Records => format!("({are} .0 .1)"),
            Number => format!("({are} .1)"),
            Source => format!("(LL.lawful (D κs) (L κs) 𝓤 H A W .typed ({a}) _ ({are}) .0)"),
            Read | ReadDeclared | Four | Plain(..) => format!("({are})"),
        }
    }

    /// That its machine value is typed, without parentheses around it.
    pub fn typed(&self) -> String {
        let Param { name, witness, value, .. } = self;
        match self.kind {
            Read | ReadDeclared => {
                let lawful = format!("shr-slice-lawful 𝓤 H A W (named {}) {} u8", self.lifetime, self.kappa());
                format!("{lawful} .typed {name} ({value} ∷ []) {witness} .0")
            }
            Given | Kept | Records => slice_typed(witness),
            Four => {
                let each = "(LL.lawful T.the-type T′.the-laws 𝓤 H A W)";
                format!("array-lawful 𝓤 H A W R {each} 4 .typed {name} _ {witness} .0")
            }
            Plain(_, letter) => {
                format!("LL.lawful {letter}.the-type {letter}′.the-laws 𝓤 H A W .typed {name} _ {witness} .0")
            }
            Source => witness.clone(),
            Number => format!("tt, record {{ fits = {witness} }}"),
        }
    }
}

/// What a number owns, which needs nothing: that it fits is known.
pub fn number_made(value: &str, fits: &str) -> String {
    format!("owned ! usize (Is usize) (uint-makes 𝓤 H A W w64) {value} _ (refl, {fits}) $ fjoin ! $")
}

/// The lifetimes of the parameters and their shares.
pub fn lifetime_values(params: &[Param]) -> Values {
    let count = lifetimes(params);
    let each = |letter| tuple((0..count).map(|number| sub(letter, number)));
    vec![
        ("kappas", subs("κ", 0..count)),
        ("shares", subs("q", 0..count)),
        ("lifetimes", count.to_string()),
        ("κs", each("κ")),
        ("qs", each("q")),
    ]
}

/// What is known of each parameter's row: its machine values, that there are no others, and how it goes.
pub fn row_values(params: &[Param]) -> Values {
    let count = lifetimes(params);
    vec![
        ("slots", tuple(params.iter().map(Param::vals))),
        ("tells", tuple(params.iter().map(Param::tells))),
        ("goes", tuple(params.iter().map(|param| param.goes(count)))),
    ]
}

/// What each parameter is, as a list of a proof.
pub fn values(params: &[Param]) -> String {
    list(params.iter().map(|param| param.value.clone()))
}

/// `(a b : A) (c : C)`: neighbours of one type together.
pub fn binders(params: &[Param]) -> String {
    let groups = params.chunk_by(|one, next| one.ty() == next.ty());
    joined(groups, " ", |group| format!("({} : {})", joined(group, " ", |param| param.name.into()), group[0].ty()))
}
