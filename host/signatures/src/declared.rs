//! C functions as Rattle exports them and as Rust declares them. A parameter is `name: type` in both.

use crate::text::Tokens;
use crate::{Function, NUMBERS, Parameter, Type, each_once};

/// What a Rattle source exports.
pub fn exported(text: &str) -> Result<Vec<Function>, String> {
    let mut tokens = Tokens::of(text);
    let mut functions = Vec::new();
    while tokens.skip_past(&["extern", "\"C\"", "fn"]) {
        functions.push(function(&mut tokens)?);
    }
    each_once(functions)
}

/// What the blocks `extern "C" { .. }` of a Rust source declare.
pub fn foreign(text: &str) -> Result<Vec<Function>, String> {
    let mut tokens = Tokens::of(text);
    let mut functions = Vec::new();
    while tokens.skip_past(&["extern", "\"C\"", "{"]) {
        while !tokens.take("}") {
            match tokens.next().as_deref() {
                Some("fn") => {
                    functions.push(function(&mut tokens)?);
                    tokens.expect(";")?;
                }
                Some(_) => {}
                None => return Err(String::from("a block of declarations does not end")),
            }
        }
    }
    each_once(functions)
}

/// From its name to its type.
fn function(tokens: &mut Tokens) -> Result<Function, String> {
    let name = tokens.word()?;
    let named = |error: String| format!("{name}: {error}");
    if tokens.take("<") {
        tokens.expect(">").map_err(named)?;
    }
    tokens.expect("(").map_err(named)?;
    let mut parameters = Vec::new();
    while !tokens.take(")") {
        parameters.extend(parameter(tokens).map_err(named)?);
        if tokens.peek() != Some(")") {
            tokens.expect(",").map_err(named)?;
        }
    }
    let mut returns = None;
    if tokens.take("-") {
        tokens.expect(">").map_err(named)?;
        returns = Some(number(tokens).map_err(named)?);
    }
    Ok(Function { name, parameters, returns })
}

/// A slice crosses as a pointer and a length, a reference as a pointer.
fn parameter(tokens: &mut Tokens) -> Result<Vec<Parameter>, String> {
    let name = tokens.word()?;
    tokens.expect(":")?;
    let reference = tokens.take("&");
    if !reference && !tokens.take("*") {
        return Ok(vec![Parameter { name, of: Type::Number(number(tokens)?) }]);
    }
    let written = tokens.take("mut");
    if !reference && !written {
        tokens.expect("const")?;
    }
    let slice = reference && tokens.take("[");
    let number = number(tokens)?;
    let of = if written { Type::Written(number) } else { Type::Read(number) };
    if !slice {
        return Ok(vec![Parameter { name, of }]);
    }
    tokens.expect("]")?;
    let length = Parameter { name: format!("{name}_len"), of: Type::Number("size_t") };
    Ok(vec![Parameter { name, of }, length])
}

/// C's name of a number.
fn number(tokens: &mut Tokens) -> Result<&'static str, String> {
    let word = tokens.word()?;
    let known = NUMBERS.into_iter().find(|(here, _)| *here == word);
    known.map(|(_, c)| c).ok_or_else(|| format!("{word} before {} is no number that crosses", tokens.around()))
}
