//! A must-fail edit, and the functions that it makes wrong.

use std::path::Path;

/// A replacement in a file of the crate.
pub struct Replacement {
    pub file: String,
    pub old: String,
    pub new: String,
}

/// The replacements of an edit's text, in its order.
pub fn replacements(text: &str) -> Vec<Replacement> {
    let (mut file, mut old) = (String::new(), String::new());
    let mut found = Vec::new();
    for line in text.lines() {
        if let Some(name) = line.strip_prefix("file: ") {
            file = name.to_string();
        } else if let Some(text) = line.strip_prefix("old: ") {
            old = text.to_string();
        } else if let Some(text) = line.strip_prefix("new:") {
            let new = text.strip_prefix(' ').unwrap_or(text).to_string();
            found.push(Replacement { file: file.clone(), old: std::mem::take(&mut old), new });
        }
    }
    found
}

/// What an edit makes of a crate.
pub struct Edited {
    /// The files that it changes, below the crate's directory, and their texts with all replacements.
    pub texts: Vec<(String, String)>,
    /// `module::function` of each place in `src` that it changes, as the prover names it within the crate. A place before every
    /// function, as a constant, has none.
    pub functions: Vec<String>,
}

/// Applies the edit to the crate's texts.
pub fn edited(crate_dir: &Path, edit: &[Replacement]) -> Result<Edited, String> {
    let mut texts: Vec<(String, String)> = Vec::new();
    let mut functions = Vec::new();
    for replacement in edit {
        if !texts.iter().any(|(file, _)| *file == replacement.file) {
            let path = crate_dir.join(&replacement.file);
            let text = std::fs::read_to_string(&path).map_err(|reason| format!("{}: {reason}", path.display()))?;
            texts.push((replacement.file.clone(), text));
        }
        let (file, text) = texts.iter_mut().find(|(file, _)| *file == replacement.file).expect("it was read above");
        let at = text.find(&replacement.old).ok_or_else(|| format!("{file} has no '{}'", replacement.old))?;
        if file.starts_with("src/")
            && let Some(function) = function_at(text, at)
        {
            let of_type = function.split_once("::").and_then(|(kind, _)| declares(crate_dir, kind));
            functions.push(format!("{}::{function}", of_type.unwrap_or_else(|| module(file))));
        }
        text.replace_range(at..at + replacement.old.len(), &replacement.new);
    }
    functions.sort();
    functions.dedup();
    Ok(Edited { texts, functions })
}

/// `src/a/b.rt` is the module `a::b`.
fn module(file: &str) -> String {
    file.trim_start_matches("src/").trim_end_matches(".rt").replace('/', "::")
}

/// The module that declares a type: the prover names its methods there, wherever they are written.
fn declares(crate_dir: &Path, kind: &str) -> Option<String> {
    let mut files = std::fs::read_dir(crate_dir.join("src")).ok()?.flatten();
    files.find_map(|file| {
        let text = std::fs::read_to_string(file.path()).ok()?;
        let here = |line: &str| {
            let line = line.trim_start_matches("pub(crate) ").trim_start_matches("pub ");
            ["struct ", "enum "].iter().any(|of| line.strip_prefix(of).is_some_and(|name| word(name) == kind))
        };
        text.lines().any(here).then(|| module(&format!("src/{}", file.file_name().to_string_lossy())))
    })
}

/// The function whose signature, contract or body `at` lies in.
fn function_at(text: &str, at: usize) -> Option<String> {
    let end = text[at..].find('\n').map_or(text.len(), |length| at + length);
    let mut kind = None;
    let mut function = None;
    for line in text[..end].lines() {
        if let Some(name) = block(line) {
            kind = Some(name);
        } else if line == "}" && kind.is_some() {
            kind = None;
        } else if let Some(name) = declared(line) {
            function = Some(kind.as_ref().map_or(name.to_string(), |kind| format!("{kind}::{name}")));
        } else if line.starts_with("const ") {
            function = None;
        }
    }
    function
}

/// An `impl` that a line begins, as the prover names it: by its type, and by its trait with its argument after that.
fn block(line: &str) -> Option<String> {
    let rest = line.strip_prefix("impl")?;
    let name = match rest.strip_prefix('<') {
        Some(generic) => generic.split_once("> ")?.1,
        None => rest.strip_prefix(' ')?,
    };
    let Some((of, kind)) = name.split_once(" for ") else { return Some(word(name).to_string()) };
    let argument = of.split_once('<').map_or("", |(_, argument)| word(argument));
    let argument = if argument.len() > 1 { capital(argument) } else { String::new() };
    Some(format!("{}{}{argument}", capital(word(kind)), word(of)))
}

fn capital(name: &str) -> String {
    let (first, rest) = name.split_at(name.len().min(1));
    first.to_uppercase() + rest
}

/// The name of the function that a line begins.
fn declared(line: &str) -> Option<&str> {
    let line = line.trim_start();
    let (before, after) = line.split_once("fn ")?;
    let words = before.split_whitespace().all(|part| part.starts_with("pub") || part == "extern" || part == "\"C\"");
    words.then(|| word(after))
}

fn word(text: &str) -> &str {
    let end = text.find(|c: char| !c.is_alphanumeric() && c != '_').unwrap_or(text.len());
    &text[..end]
}

#[cfg(test)]
mod tests {
    use super::*;

    const TEXT: &str = "const A: u8 = 3;\n\n// fn in a comment\npub fn first(a: u8) -> u8\n    ensures { one }\n{\n    a\n}\n\nimpl Limits {\n    pub fn derive() {\n        two\n    }\n}\n\nimpl Filter for Normal {\n    fn run() {\n        four\n    }\n}\n\nimpl<'a> Filter for Wide<'a> {\n    fn run() {\n        five\n    }\n}\n\nimpl From<Limit> for u8 {\n    fn from() {\n        six\n    }\n}\n\n#[unsafe(no_mangle)]\npub extern \"C\" fn last(\n    a: u8,\n) {\n    three\n}\n";

    fn at(words: &str) -> Option<String> {
        function_at(TEXT, TEXT.find(words).expect("the text has it"))
    }

    #[test]
    fn a_place_belongs_to_the_function_before_it() {
        assert_eq!(at("const"), None);
        assert_eq!(at("one").as_deref(), Some("first"));
        assert_eq!(at("two").as_deref(), Some("Limits::derive"));
        assert_eq!(at("four").as_deref(), Some("NormalFilter::run"));
        assert_eq!(at("five").as_deref(), Some("WideFilter::run"));
        assert_eq!(at("six").as_deref(), Some("U8FromLimit::from"));
        assert_eq!(at("three").as_deref(), Some("last"));
    }

    #[test]
    fn an_edit_is_its_replacements() {
        let edit = replacements("file: src/a.rt\nold:     x\nnew:     y\nold: z\nnew:\n");
        assert_eq!(edit.len(), 2);
        assert_eq!((edit[0].file.as_str(), edit[0].old.as_str(), edit[0].new.as_str()), ("src/a.rt", "    x", "    y"));
        assert_eq!((edit[1].file.as_str(), edit[1].old.as_str(), edit[1].new.as_str()), ("src/a.rt", "z", ""));
    }

    #[test]
    fn a_file_is_a_module() {
        assert_eq!(module("src/a/b.rt"), "a::b");
    }
}
