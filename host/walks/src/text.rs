//! Pieces of a proof's text, and templates.

const DIGITS: [char; 10] = ['₀', '₁', '₂', '₃', '₄', '₅', '₆', '₇', '₈', '₉'];

/// A letter with a number below it.
pub fn sub(letter: &str, number: usize) -> String {
    let digits = number.to_string().into_bytes().into_iter().map(|digit| DIGITS[usize::from(digit - b'0')]);
    letter.chars().chain(digits).collect()
}

/// The same letter with each of the numbers.
pub fn subs(letter: &str, numbers: impl IntoIterator<Item = usize>) -> String {
    numbers.into_iter().map(|number| sub(letter, number)).collect::<Vec<_>>().join(" ")
}

/// What `each` says of every item, with a separator between.
pub fn joined<T>(items: impl IntoIterator<Item = T>, separator: &str, each: impl FnMut(T) -> String) -> String {
    items.into_iter().map(each).collect::<Vec<_>>().join(separator)
}

/// `(a, (b, end))`.
pub fn tuple_to(items: impl IntoIterator<Item = String, IntoIter: DoubleEndedIterator>, end: &str) -> String {
    items.into_iter().rev().fold(String::from(end), |rest, item| format!("({item}, {rest})"))
}

/// `(a, (b, tt))`.
pub fn tuple(items: impl IntoIterator<Item = String, IntoIter: DoubleEndedIterator>) -> String {
    tuple_to(items, "tt")
}

/// The type `A × (B × End)`.
pub fn product_to(types: impl IntoIterator<Item = String, IntoIter: DoubleEndedIterator>, end: &str) -> String {
    let mut types = types.into_iter().rev();
    let last = types.next().map_or(String::from(end), |ty| format!("{ty} × {end}"));
    types.fold(last, |rest, ty| format!("{ty} × ({rest})"))
}

/// The type `A × (B × Unit {0})`.
pub fn product(types: impl IntoIterator<Item = String, IntoIter: DoubleEndedIterator>) -> String {
    product_to(types, "Unit {0}")
}

/// `a ∷ b ∷ []`.
pub fn list(items: impl IntoIterator<Item = String>) -> String {
    items.into_iter().map(|item| item + " ∷ ").collect::<String>() + "[]"
}

/// The component of a tuple at a place, counted from 0.
pub fn component(tuple: &str, place: usize) -> String {
    format!("{tuple}{} .0", " .1".repeat(place))
}

/// The first so many components of a tuple, each as an argument.
pub fn components(tuple: &str, count: usize) -> impl Iterator<Item = String> {
    (0..count).map(move |place| format!("({})", component(tuple, place)))
}

/// A term as an argument.
pub fn parenthesized(text: &str) -> String {
    if text.contains(' ') { format!("({text})") } else { text.into() }
}

/// Each line of the text so much further to the right.
pub fn indented(text: &str, spaces: usize) -> String {
    joined(text.split('\n'), "\n", |line| if line.is_empty() { String::new() } else { " ".repeat(spaces) + line })
}

/// What is known of lifetimes that live: `(‵ (flft κ q) ⊛ .. ⊛ ‵ ftrue)`.
pub fn alive(lifetimes: impl IntoIterator<Item = (String, String)>) -> String {
    format!("({}‵ ftrue)", joined(lifetimes, "", |(lifetime, share)| format!("‵ (flft {lifetime} {share}) ⊛ ")))
}

/// The values that a template asks for, by their names.
pub type Values = Vec<(&'static str, String)>;

/// The template with `⟦name⟧` replaced by the value of that name, and `⟦name?text⟧` by the text if the value is not
/// empty, by nothing if it is. Every value has to be asked for, and every name to have one.
pub fn fill(template: &str, values: &Values) -> String {
    let mut filled = String::new();
    let mut used = vec![false; values.len()];
    let mut rest = template;
    while let Some((before, after)) = rest.split_once('⟦') {
        let (asked, after) = after.split_once('⟧').expect("a placeholder ends");
        let (name, text) = asked.split_once('?').map_or((asked, None), |(name, text)| (name, Some(text)));
        let place = values.iter().position(|(known, _)| *known == name);
        let place = place.unwrap_or_else(|| panic!("no value has the name {name}"));
        used[place] = true;
        let value = &values[place].1;
        filled += before;
        match text {
            None => filled += value,
            Some(text) if !value.is_empty() => filled += text,
            Some(_) => {}
        }
        rest = after;
    }
    let unused = values.iter().zip(used).find(|(_, used)| !used);
    assert!(unused.is_none(), "no placeholder has the name {}", unused.unwrap().0.0);
    filled + rest
}
