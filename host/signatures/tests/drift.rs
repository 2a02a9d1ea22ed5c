//! The three texts agree, and a damaged copy of any of them does not.

use signatures::{Function, Texts, of_the_header};

#[test]
fn rattle_header_and_rust_agree() {
    agreeing();
}

/// The text with two words exchanged wherever they stand.
fn exchanged(text: &str, one: &str, other: &str) -> String {
    let is_word = |letter: char| letter.is_ascii_alphanumeric() || letter == '_';
    let (mut result, mut rest) = (String::new(), text);
    while let Some(start) = rest.find(is_word) {
        let end = rest[start..].find(|letter| !is_word(letter)).map_or(rest.len(), |len| start + len);
        let word = match &rest[start..end] {
            word if word == one => other,
            word if word == other => one,
            word => word,
        };
        result += &rest[..start];
        result += word;
        rest = &rest[end..];
    }
    result + rest
}

/// Which of the three texts is damaged.
type Chosen = fn(&mut Texts) -> &mut String;

const CHOSEN: [(&str, Chosen); 3] =
    [("Rattle", |texts| &mut texts.rattle), ("header", |texts| &mut texts.header), ("Rust", |texts| &mut texts.rust)];

/// The texts of the repository, which agree.
fn agreeing() -> Texts {
    let texts = Texts::read();
    assert_eq!(texts.differences(), [""; 0]);
    texts
}

/// Damages each text alone. Each must differ from the others.
#[track_caller]
fn caught(what: &str, damage: impl Fn(&str) -> String) {
    let texts = agreeing();
    for (name, chosen) in CHOSEN {
        let mut damaged = texts.clone();
        let text = chosen(&mut damaged);
        *text = damage(text);
        assert!(!damaged.differences().is_empty(), "{what} in the {name} text is not caught");
    }
}

/// The same names in all three texts, slices aside, whose lengths Rattle does not name.
fn named_in_all(function: &Function) -> Vec<&str> {
    let names = function.parameters.iter().map(|parameter| parameter.name.as_str());
    names.filter(|name| !name.ends_with("_len")).collect()
}

#[test]
fn two_parameters_exchanged_throughout_a_text() {
    for (one, other) in [("width", "height"), ("ref_delta_golden", "ref_delta_altref"), ("segments", "flags")] {
        caught(&format!("{one} for {other}"), |text| exchanged(text, one, other));
    }
}

/// Not only those that are easily confused: each parameter of each function with the one after it.
#[test]
fn neighbours_exchanged_throughout_a_text() {
    let mut pairs: Vec<(String, String)> = Vec::new();
    for function in of_the_header() {
        let names = named_in_all(&function);
        pairs.extend(names.windows(2).map(|pair| (pair[0].to_string(), pair[1].to_string())));
    }
    pairs.sort();
    pairs.dedup();
    assert!(pairs.len() > 50, "{} pairs", pairs.len());
    for (one, other) in &pairs {
        caught(&format!("{one} for {other}"), |text| exchanged(text, one, other));
    }
}

#[test]
fn two_functions_exchanged() {
    let (one, other) = ("vp8lf_subblock_filter", "vp8lf_u2s");
    caught("a function for another", |text| exchanged(text, one, other));
}

#[test]
fn a_function_renamed() {
    for function in of_the_header() {
        caught(&function.name, |text| exchanged(text, &function.name, "vp8lf_other"));
    }
}

/// Damages one text by exchanging a part of it, once.
#[track_caller]
fn part_is_caught(text: Chosen, from: &str, to: &str) {
    let mut texts = agreeing();
    let text = text(&mut texts);
    assert!(text.contains(from), "'{from}' is not in the text");
    *text = text.replacen(from, to, 1);
    assert!(!texts.differences().is_empty(), "'{to}' for '{from}' is not caught");
}

#[test]
fn types_and_constness_of_the_header() {
    for (from, to) in [
        ("int8_t vp8lf_u2s", "uint8_t vp8lf_u2s"),
        ("void vp8lf_derive", "uint8_t vp8lf_derive"),
        ("int32_t *adjustment", "uint32_t *adjustment"),
        ("int32_t *adjustment", "const int32_t *adjustment"),
        ("int32_t *adjustment", "int32_t adjustment"),
        ("size_t vp8lf_interior_limits", "uint8_t vp8lf_interior_limits"),
        ("uint8_t *limits", "const uint8_t *limits"),
        ("uint8_t *limits, size_t limits_len", "uint8_t *limits"),
        ("const int16_t *coeffs", "int16_t *coeffs"),
        ("const uint8_t *modes", "uint8_t *modes"),
        ("size_t base", "uint64_t base"),
        ("size_t seg_len, size_t base", "size_t base, size_t seg_len"),
        ("size_t seg_len, size_t base", "size_t base"),
        ("int16_t segment_level_0", "int8_t segment_level_0"),
        ("bool key_frame", "uint8_t key_frame"),
        ("uint64_t *sum", "uint32_t *sum"),
        ("uint8_t *sharpness, uint64_t *sum", "uint8_t *sharpness, size_t *sum"),
        ("uint8_t *level", "uint8_t *level, uint8_t *more"),
    ] {
        part_is_caught(|texts| &mut texts.header, from, to);
    }
}

#[test]
fn types_and_constness_of_rattle() {
    for (from, to) in [
        ("fn vp8lf_u2s(v: u8) -> i8", "fn vp8lf_u2s(v: u8) -> u8"),
        ("fn vp8lf_u2s(v: u8) -> i8", "fn vp8lf_u2s(v: u8)"),
        ("limits: &mut [u8]) -> usize", "limits: &[u8]) -> usize"),
        ("limits: &mut [u8]) -> usize", "limits: &mut [u8]) -> u64"),
        ("adjustment: &mut i32", "adjustment: &i32"),
        ("coeffs: &[i16]", "coeffs: &mut [i16]"),
        ("coeffs: &[i16]", "coeffs: &i16"),
        ("base: usize", "base: u64"),
        // Of the error sum and of the full search; functions that are not exported have a sum too.
        ("src_uv_stride: usize,\n    sum: &mut u64", "src_uv_stride: usize,\n    sum: &mut u32"),
        (
            "scratch_v: &mut [u8],\n    level: &mut u8,\n    sharpness: &mut u8,\n    sum: &mut u64",
            "scratch_v: &mut [u8],\n    level: &mut u8,\n    sharpness: &mut u8,\n    sum: &mut usize",
        ),
    ] {
        part_is_caught(|texts| &mut texts.rattle, from, to);
    }
}

#[test]
fn types_and_constness_of_the_rust() {
    for (from, to) in [
        ("fn vp8lf_u2s(v: u8) -> i8", "fn vp8lf_u2s(v: u8) -> u8"),
        ("limits: *mut u8", "limits: *const u8"),
        ("limits_len: usize) -> usize", "limits_len: usize) -> u8"),
        ("coeffs: *const i16", "coeffs: *mut i16"),
        ("coeffs_len: usize", "coeffs_len: u32"),
        ("seg: *mut u8", "seg: *const u8"),
        ("sharpness: *mut u8,\n        sum: *mut u64", "sharpness: *mut u8,\n        sum: *mut usize"),
    ] {
        part_is_caught(|texts| &mut texts.rust, from, to);
    }
}

/// A declaration that is not understood is no agreement.
#[test]
fn a_declaration_of_another_form() {
    part_is_caught(|texts| &mut texts.header, "int8_t vp8lf_u2s", "struct vp8lf_pair vp8lf_u2s");
    part_is_caught(|texts| &mut texts.header, "uint8_t *level", "uint8_t **level");
    part_is_caught(|texts| &mut texts.header, "int8_t vp8lf_u2s", "int8_t vp8lf_u2s(uint8_t v); int8_t vp8lf_u2s");
    part_is_caught(|texts| &mut texts.rust, "v: u8", "v: Option<u8>");
}
