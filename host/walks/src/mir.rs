//! The MIR of a walked function, where the proof writes it out: planes and a list of records are lent to the function.

use crate::params::Kind::{Four, Given, Kept, Number, Plain, Read, ReadDeclared, Records, Source};
use crate::params::Param;
use crate::text::{fill, joined, list};

const TEMPLATE: &str = include_str!("../templates/mir.txt");

/// The types of the pointer and of the slice of a plane that is lent on.
pub const LENT: [&str; 2] = ["ref9", "sliceTy ref9"];

fn planes(params: &[Param]) -> impl Iterator<Item = &Param> {
    params.iter().filter(|param| matches!(param.kind, Given | Kept))
}

/// The names of types and operands.
pub fn names(params: &[Param]) -> String {
    let records = params.iter().find(|param| param.kind == Records).expect("a list is passed");
    let slice = |plane: &Param| {
        let (name, ty) = (ty(plane), format!("tyRef (named {}) mut (tyInt w8)", plane.lifetime));
        format!("abbrev {name} : Ty\n{name} = sliceTy ({ty})\n\n")
    };
    fill(TEMPLATE, &vec![("slices", joined(planes(params), "", slice)), ("list", records.lifetime.to_string())])
}

/// The type of a parameter.
pub fn ty(param: &Param) -> String {
    match param.kind {
        Given | Kept => format!("slice{}", param.lifetime),
        Records => String::from("sliceL"),
        Plain(_, letter) => format!("{letter}′.mir"),
        Number => String::from("word"),
        Read | ReadDeclared | Four | Source => panic!("{} has no type here", param.name),
    }
}

/// The planes are lent on: pointer and slice of each are the next two locals, from this one on.
pub fn lends(params: &[Param], first: usize) -> String {
    joined(planes(params).enumerate(), " ", |(number, plane)| {
        format!("(lent {} {}", plane.place + 1, first + 2 * number)
    })
}

/// The values of these locals.
pub fn operands(locals: &[usize]) -> String {
    list(locals.iter().map(|local| format!("var {local}")))
}
