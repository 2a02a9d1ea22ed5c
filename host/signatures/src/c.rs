//! Prototypes of a C header.

use crate::text::Tokens;
use crate::{Function, NUMBERS, Parameter, Type, each_once};

/// Every function that is declared and not defined there. An error if some declaration is no prototype that is known.
pub fn prototypes(text: &str) -> Result<Vec<Function>, String> {
    let mut tokens = Tokens::of(text);
    let mut functions = Vec::new();
    while let Some(first) = tokens.peek() {
        match first {
            "extern" => {
                tokens.next();
                tokens.expect("\"C\"")?;
                tokens.expect("{")?;
            }
            "}" => _ = tokens.next(),
            "enum" | "struct" | "static" | "typedef" => skip_definition(&mut tokens)?,
            _ => functions.push(prototype(&mut tokens)?),
        }
    }
    each_once(functions)
}

/// Steps over a type with its fields or its numbers, or a function with its body.
fn skip_definition(tokens: &mut Tokens) -> Result<(), String> {
    let (mut depth, mut function) = (0, false);
    loop {
        match tokens.next().as_deref() {
            Some("(") if depth == 0 => function = true,
            Some("{") => depth += 1,
            Some("}") => {
                depth -= 1;
                if depth == 0 && function {
                    return Ok(());
                }
            }
            Some(";") if depth == 0 => return Ok(()),
            Some(_) => {}
            None => return Err(String::from("a definition does not end")),
        }
    }
}

fn prototype(tokens: &mut Tokens) -> Result<Function, String> {
    let returns = if tokens.take("void") { None } else { Some(number(tokens)?) };
    let name = tokens.word()?;
    let named = |error: String| format!("{name}: {error}");
    let parameters = parameters(tokens).map_err(named)?;
    tokens.expect(";").map_err(named)?;
    Ok(Function { name, parameters, returns })
}

fn parameters(tokens: &mut Tokens) -> Result<Vec<Parameter>, String> {
    let mut parameters = Vec::new();
    tokens.expect("(")?;
    loop {
        let constant = tokens.take("const");
        let number = number(tokens)?;
        let of = match (tokens.take("*"), constant) {
            (true, true) => Type::Read(number),
            (true, false) => Type::Written(number),
            (false, false) => Type::Number(number),
            (false, true) => return Err(format!("a constant number before {}", tokens.around())),
        };
        parameters.push(Parameter { name: tokens.word()?, of });
        if tokens.take(")") {
            return Ok(parameters);
        }
        tokens.expect(",")?;
    }
}

fn number(tokens: &mut Tokens) -> Result<&'static str, String> {
    let word = tokens.word()?;
    let known = NUMBERS.into_iter().find(|(_, c)| *c == word);
    known.map(|(_, c)| c).ok_or_else(|| format!("{word} before {} is no number that crosses", tokens.around()))
}

#[cfg(test)]
mod tests {
    use super::*;

    #[test]
    fn what_is_defined_is_passed_over() {
        let text = "#define CALL(x) \\\n    vp8lf_no(x);\nextern \"C\" {\nstruct pair { uint8_t a, b; };\ntypedef struct pair pair;\n\
                    static inline uint8_t first(struct pair p) { if (p.a) { return vp8lf_one(true); } return 0; }\n\
                    uint8_t vp8lf_one(bool a); /* vp8lf_two(b); */\n}\n";
        let names: Vec<String> =
            prototypes(text).expect("prototypes").into_iter().map(|function| function.name).collect();
        assert_eq!(names, ["vp8lf_one"]);
    }

    #[test]
    fn what_is_not_understood_is_an_error() {
        for text in
            ["uint8_t a(bool b)", "uint8_t a(bool);", "float a(bool b);", "uint8_t a(const bool b);", "struct a {"]
        {
            assert!(prototypes(text).is_err(), "{text}");
        }
    }
}
