//! The faults of `faults.txt`, and the wrong libraries that they make.

use std::fmt;

const TEXT: &str = include_str!("../faults.txt");

/// What is wrong, as `faults.txt` names it.
#[derive(Clone, Copy, Debug, PartialEq)]
pub enum Kind {
    Answer,
    Refusal,
    OutParameter,
    LentByte,
}

const KINDS: [(&str, Kind); 4] = [
    ("answer", Kind::Answer),
    ("refusal", Kind::Refusal),
    ("out-parameter", Kind::OutParameter),
    ("lent byte", Kind::LentByte),
];

impl fmt::Display for Kind {
    fn fmt(&self, f: &mut fmt::Formatter<'_>) -> fmt::Result {
        let name = KINDS.iter().find(|(_, kind)| kind == self).map(|(name, _)| name);
        f.write_str(name.expect("every kind has a name"))
    }
}

/// One fault in one C function.
#[derive(Clone, Debug, PartialEq)]
pub struct Wrong {
    /// The number that chooses it, from 1.
    pub number: usize,
    pub function: String,
    pub kind: Kind,
    pub what: String,
    /// In C.
    pub body: String,
}

/// Every wrong library.
pub fn all() -> Vec<Wrong> {
    read(TEXT).unwrap_or_else(|error| panic!("faults.txt: {error}"))
}

fn read(text: &str) -> Result<Vec<Wrong>, String> {
    let (mut functions, mut all) = (Vec::new(), Vec::new());
    let mut lines = text.lines().filter(|line| !line.is_empty() && !line.starts_with('#'));
    while let Some(line) = lines.next() {
        if let Some(names) = line.strip_prefix('[').and_then(|rest| rest.strip_suffix(']')) {
            functions = names.split(' ').map(|name| format!("vp8lf_{name}")).collect();
            continue;
        }
        let (kind, what) = kind(line).ok_or_else(|| format!("no kind in '{line}'"))?;
        let body =
            lines.next().and_then(|body| body.strip_prefix("    ")).ok_or_else(|| format!("no C after '{line}'"))?;
        if functions.is_empty() {
            return Err(format!("no function before '{line}'"));
        }
        for function in &functions {
            let (number, function) = (all.len() + 1, function.clone());
            all.push(Wrong { number, function, kind, what: String::from(what), body: String::from(body) });
        }
    }
    Ok(all)
}

/// The kind that a line names, and what is wrong.
fn kind(line: &str) -> Option<(Kind, &str)> {
    let (name, what) = line.split_once(": ")?;
    KINDS.into_iter().find(|(kind, _)| *kind == name).map(|(_, kind)| (kind, what))
}

#[cfg(test)]
mod tests {
    use super::*;
    use signatures::{Function, Type, of_the_header};

    fn kinds(function: &Function) -> Vec<Kind> {
        all().iter().filter(|wrong| wrong.function == function.name).map(|wrong| wrong.kind).collect()
    }

    #[test]
    fn each_function_of_the_header_has_two_wrong_libraries() {
        for function in of_the_header() {
            let count = kinds(&function).len();
            assert!(count >= 2, "{} has {count} wrong libraries", function.name);
        }
    }

    /// A pointer is followed by a length, or is an out-parameter.
    #[test]
    fn out_parameters_and_lent_bytes_have_one_each() {
        for function in of_the_header() {
            let pointers = function.parameters.iter().filter(|parameter| !matches!(parameter.of, Type::Number(_)));
            let length = |name: &str| format!("{name}_len");
            let has_length = |name: &str| function.parameters.iter().any(|other| other.name == length(name));
            for pointer in pointers {
                let kind = if has_length(&pointer.name) { Kind::LentByte } else { Kind::OutParameter };
                assert!(kinds(&function).contains(&kind), "{} has no wrong library of {kind:?}", function.name);
            }
        }
    }

    #[test]
    fn each_wrong_library_is_of_the_header_and_has_a_name_of_its_own() {
        let (functions, all) = (of_the_header(), all());
        for wrong in &all {
            let name = &wrong.function;
            assert!(functions.iter().any(|function| function.name == *name), "{name} is not in the header");
            let same = all.iter().filter(|other| (&other.function, &other.what) == (name, &wrong.what));
            assert_eq!(same.count(), 1, "{name}: {}", wrong.what);
        }
    }

    #[test]
    fn a_fault_of_another_form_is_an_error() {
        assert_eq!(read("[a b]\nanswer: c\n    CALL;\n").map(|all| all.len()), Ok(2));
        for text in
            ["answer: c\n    CALL;\n", "[a]\nother: c\n    CALL;\n", "[a]\nanswer: c\nCALL;\n", "[a]\nanswer: c\n"]
        {
            assert!(read(text).is_err(), "{text}");
        }
    }
}
