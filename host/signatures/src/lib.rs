//! The signatures of the C functions as three texts have them: the Rattle sources, the C header and the Rust's foreign
//! declarations. Each is read into what crosses the boundary in C's terms, so that they can be compared.

mod c;
mod declared;
mod text;

use std::fmt;
use std::fs;
use std::path::PathBuf;

/// Where the three stand in the repository.
const RATTLE: &str = "crates/loop_filter/src";
const HEADER: &str = "include/vp8_loop_filter.h";
const RUST: &str = "rust/vp8_loop_filter-sys/src/lib.rs";

/// The numbers that cross: as Rattle and Rust name them, and as C does.
const NUMBERS: [(&str, &str); 10] = [
    ("bool", "bool"),
    ("u8", "uint8_t"),
    ("i8", "int8_t"),
    ("u16", "uint16_t"),
    ("i16", "int16_t"),
    ("u32", "uint32_t"),
    ("i32", "int32_t"),
    ("u64", "uint64_t"),
    ("i64", "int64_t"),
    ("usize", "size_t"),
];

/// What crosses for one parameter of a C function. A number has C's name.
#[derive(Clone, Copy, Debug, PartialEq)]
pub enum Type {
    Number(&'static str),
    /// A pointer to numbers that are not written.
    Read(&'static str),
    /// A pointer to numbers that may be written.
    Written(&'static str),
}

#[derive(Clone, Debug, PartialEq)]
pub struct Parameter {
    pub name: String,
    pub of: Type,
}

#[derive(Clone, Debug, PartialEq)]
pub struct Function {
    pub name: String,
    pub parameters: Vec<Parameter>,
    /// C's name of the number that is returned, if any is.
    pub returns: Option<&'static str>,
}

impl fmt::Display for Parameter {
    fn fmt(&self, f: &mut fmt::Formatter<'_>) -> fmt::Result {
        match self.of {
            Type::Number(number) => write!(f, "{number} {}", self.name),
            Type::Read(number) => write!(f, "const {number} *{}", self.name),
            Type::Written(number) => write!(f, "{number} *{}", self.name),
        }
    }
}

/// The texts of the three.
#[derive(Clone)]
pub struct Texts {
    pub rattle: String,
    pub header: String,
    pub rust: String,
}

impl Texts {
    /// Those of the repository.
    pub fn read() -> Texts {
        Texts { rattle: rattle(), header: file(HEADER), rust: file(RUST) }
    }

    /// Where the three differ. None if they agree and declare some function.
    pub fn differences(&self) -> Vec<String> {
        let read = |from: &str, functions: Result<Vec<Function>, String>| {
            functions.map_err(|error| vec![format!("{from}: {error}")])
        };
        let all = || {
            let rattle = read(RATTLE, declared::exported(&self.rattle))?;
            let header = read(HEADER, c::prototypes(&self.header))?;
            let rust = read(RUST, declared::foreign(&self.rust))?;
            Ok::<_, Vec<String>>([
                against((RATTLE, &rattle), (HEADER, &header)),
                against((RATTLE, &rattle), (RUST, &rust)),
            ])
        };
        all().map_or_else(|error| error, |found| found.concat())
    }
}

/// The functions of the header of the repository.
pub fn of_the_header() -> Vec<Function> {
    c::prototypes(&file(HEADER)).unwrap_or_else(|error| panic!("{HEADER}: {error}"))
}

fn in_repository(path: &str) -> PathBuf {
    PathBuf::from(env!("CARGO_MANIFEST_DIR")).join("../..").join(path)
}

fn file(path: &str) -> String {
    fs::read_to_string(in_repository(path)).unwrap_or_else(|error| panic!("{path}: {error}"))
}

/// All Rattle sources of the crate that hosts link.
fn rattle() -> String {
    let entries = fs::read_dir(in_repository(RATTLE)).unwrap_or_else(|error| panic!("{RATTLE}: {error}"));
    let mut paths: Vec<PathBuf> = entries.map(|entry| entry.expect("an entry").path()).collect();
    paths.sort();
    let sources = paths.iter().filter(|path| path.extension().is_some_and(|extension| extension == "rt"));
    sources.map(|path| fs::read_to_string(path).expect("a source")).collect()
}

/// Where the functions of two texts differ, each named by where it stands.
fn against((one, first): (&str, &[Function]), (other, second): (&str, &[Function])) -> Vec<String> {
    let find = |functions: &[Function], name: &str| functions.iter().find(|function| function.name == name).cloned();
    let mut differences = Vec::new();
    if first.is_empty() {
        differences.push(format!("{one} has no C function"));
    }
    for function in first {
        match find(second, &function.name) {
            Some(found) => differences.extend(difference((one, function), (other, &found))),
            None => differences.push(format!("{} is in {one}, not in {other}", function.name)),
        }
    }
    let missing = second.iter().filter(|function| find(first, &function.name).is_none());
    differences.extend(missing.map(|function| format!("{} is in {other}, not in {one}", function.name)));
    differences
}

/// The first difference of two signatures.
fn difference((one, first): (&str, &Function), (other, second): (&str, &Function)) -> Option<String> {
    let name = &first.name;
    if first.returns != second.returns {
        let said = |function: &Function| function.returns.unwrap_or("void");
        return Some(format!("{name} returns {} in {one}, {} in {other}", said(first), said(second)));
    }
    let most = first.parameters.len().max(second.parameters.len());
    let said = |function: &Function, at: usize| {
        function.parameters.get(at).map_or(String::from("missing"), Parameter::to_string)
    };
    let at = (0..most).find(|at| first.parameters.get(*at) != second.parameters.get(*at))?;
    Some(format!("{name}, parameter {}: {} in {one}, {} in {other}", at + 1, said(first, at), said(second, at)))
}

/// An error if a function occurs twice.
fn each_once(functions: Vec<Function>) -> Result<Vec<Function>, String> {
    let mut names: Vec<&str> = functions.iter().map(|function| function.name.as_str()).collect();
    names.sort();
    match names.windows(2).find(|pair| pair[0] == pair[1]) {
        Some(pair) => Err(format!("{} is declared twice", pair[0])),
        None => Ok(functions),
    }
}
