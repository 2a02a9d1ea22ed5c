//! What the prover said of a crate that an edit has made wrong.

/// Errors that only follow: of another function's refusal, or of a proof that names what the changed code does not have.
const FOLLOWS: [&str; 4] = ["was not admitted", "has no `", "has no field", "is not in scope"];

/// The prover refuses the function itself: an error that follows from nothing else stands in its proof; or it is not proved though all
/// that it calls is, or the prover's search does not come to what it owes.
pub fn refuses(log: &str, crate_name: &str, function: &str) -> bool {
    let proof = format!("proofs/{}/", function.replace("::", "/"));
    let in_proof = |line: &str| line.trim_start_matches("./").strip_prefix(&proof).is_some_and(is_error);
    if log.lines().any(|line| in_proof(line) && !FOLLOWS.iter().any(|words| line.contains(words))) {
        return true;
    }
    let verdict = format!("fn {crate_name}::{function}: ");
    let unclosed = |said: &str| said.starts_with("no proof") && said.contains("`search` did not prove `");
    let alone = |said: &str| said == "not proved" && !log.lines().any(in_proof);
    log.lines().filter_map(|line| line.strip_prefix(&verdict)).any(|said| alone(said) || unclosed(said))
}

/// `FILE.antt:LINE:COLUMN: error: ..`, after the directory of a proof.
fn is_error(rest: &str) -> bool {
    let Some((file, said)) = rest.split_once(".antt:") else { return false };
    let place = said.trim_start_matches(|c: char| c.is_ascii_digit() || c == ':');
    !file.contains('/') && place.starts_with(" error")
}

#[cfg(test)]
mod tests {
    use super::*;

    const LOG: &str = "./proofs/a/f/Answers.antt:3:4: error: `returns`: differ\n\
        ./proofs/a/g/Answers.antt:3:4: error: `g`: `close` was not admitted, so this cannot be checked\n\
        ./proofs/a/m/Invariants.antt:3:4: error: `c` has no field `pick`\n\
        ./proofs/a/j/k/Answers.antt:3:4: error: `returns`: differ\n\
        ./proofs/a/f/Answers.antt:3:4: note: the two sides may simply be different\n\
        fn k::a::f: not proved; it calls `k::a::i`, which is not proved\n\
        fn k::a::g: not proved; it calls `k::a::f`, which is not proved\n\
        fn k::a::h: proved\n\
        fn k::a::i: not proved\n\
        fn k::a::j: no proof: expected answers in ./proofs/a/j/Answers.antt; `search` did not prove `returns-then-b`\n\
        fn k::a::l: no proof: expected answers in ./proofs/a/l/Answers.antt\n\
        fn k::a::m: not proved\n";

    #[test]
    fn a_refusal_is_the_functions_own() {
        let refused = ["f", "g", "h", "i", "j", "l", "m"].map(|function| refuses(LOG, "k", &format!("a::{function}")));
        assert_eq!(refused, [true, false, false, true, true, false, false]);
        assert!(!refuses(LOG, "k", "b::f"));
        assert!(!refuses("./proofs/a/j/k/Answers.antt:3:4: error: differ\n", "k", "a::j"));
    }
}
