//! Writes proofs that walk a function's code by hand and count, at every step, where what is held stands.
//!
//! They are in the language of the kit `rattle-kit-5b-plain`, whose prover walks most functions itself, but not where a struct holds
//! references (the searches and sums over a record of the source in `crates/source`), where a list of structs is lent (`RecordWalk` of
//! `crates/frame`, with `WalkEntry`, by which it enters its function, and `FrameWalk` of `crates/frame_calls`), nor where an array of
//! structs is lent as a slice (`key_four`, `inter_four`, `key_frame_four` and `inter_frame_four` of `crates/replay`). The prover of the
//! kit that the crates are proved with walks these too, so the walks stand in `walked`, each under its path in the repository, and no
//! crate has them. A walk moves what is held by its number, and the numbers follow from the parameters; so the parameters are listed
//! here, and the numbers are counted. What is the same in all walks of a form stands in `templates`; a name in ⟦ ⟧ is replaced by what
//! is made for it.
//!
//! Without arguments it writes the walks anew. With `--check` it makes them anew and compares them with the files.

mod apart;
mod call;
mod callee;
mod context;
mod entry;
mod four;
mod frames;
mod made;
mod mir;
mod params;
mod records;
mod text;

use std::path::{Path, PathBuf};
use std::process::ExitCode;

/// A file that is written.
pub struct Proof {
    /// From the root of the repository, for a kit that asks for it.
    path: String,
    text: String,
}

fn proofs() -> Vec<Proof> {
    let mut proofs = apart::proofs();
    proofs.extend(made::proofs());
    proofs.extend(four::proofs());
    let (walk, locals, params) = records::proof();
    proofs.extend([entry::proof(locals, params), walk, frames::proof()]);
    proofs
}

impl Proof {
    /// Where it stands, below a directory.
    fn place(&self, root: &Path) -> PathBuf {
        root.join(format!("{}.txt", self.path))
    }

    fn write(&self, root: &Path) -> Result<(), String> {
        let place = self.place(root);
        let folder = place.parent().expect("a file stands in a folder");
        std::fs::create_dir_all(folder).map_err(|error| format!("{}: {error}", folder.display()))?;
        std::fs::write(place, &self.text).map_err(|error| format!("{}: {error}", self.path))
    }

    fn check(&self, root: &Path) -> Result<(), String> {
        let stands = std::fs::read_to_string(self.place(root)).map_err(|error| format!("{}: {error}", self.path))?;
        match difference(&self.text, &stands) {
            None => Ok(()),
            Some((line, made, stands)) => {
                Err(format!("{}: line {line} is not what is made\nmade:   {made}\nstands: {stands}", self.path))
            }
        }
    }
}

/// The first line that differs: its number, what was made and what stands there.
fn difference<'a>(made: &'a str, stands: &'a str) -> Option<(usize, &'a str, &'a str)> {
    let (mut made, mut stands) = (made.split('\n'), stands.split('\n'));
    for number in 1.. {
        match (made.next(), stands.next()) {
            (None, None) => break,
            (made, stands) if made == stands => {}
            (made, stands) => return Some((number, made.unwrap_or("no line"), stands.unwrap_or("no line"))),
        }
    }
    None
}

fn main() -> ExitCode {
    let arguments: Vec<String> = std::env::args().skip(1).collect();
    let each = match arguments.iter().map(String::as_str).collect::<Vec<_>>()[..] {
        [] => Proof::write,
        ["--check"] => Proof::check,
        _ => {
            eprintln!("walks: the only argument is --check");
            return ExitCode::from(2);
        }
    };
    let root = Path::new(env!("CARGO_MANIFEST_DIR")).join("walked");
    let failures: Vec<String> = proofs().iter().filter_map(|proof| each(proof, &root).err()).collect();
    failures.iter().for_each(|failure| eprintln!("walks: {failure}"));
    if failures.is_empty() { ExitCode::SUCCESS } else { ExitCode::FAILURE }
}

#[cfg(test)]
mod tests {
    use super::*;

    /// A directory with the proofs as they are made.
    fn written(name: &str) -> std::path::PathBuf {
        let root = std::env::temp_dir().join(format!("walks-{}-{name}", std::process::id()));
        for proof in proofs() {
            proof.write(&root).expect("a file that can be written");
        }
        root
    }

    #[test]
    fn a_changed_character_is_found() {
        let root = written("changed");
        for proof in proofs() {
            assert_eq!(proof.check(&root), Ok(()));
            let count = proof.text.chars().count();
            for place in [0, count / 3, count / 2, count - 1] {
                let character = |(number, old)| match old {
                    _ if number != place => old,
                    '1' => '2',
                    _ => '1',
                };
                let changed: String = proof.text.chars().enumerate().map(character).collect();
                std::fs::write(proof.place(&root), changed).expect("a file that can be written");
                let line = 1 + proof.text.chars().take(place).filter(|character| *character == '\n').count();
                let failure = proof.check(&root).expect_err("a difference");
                assert!(
                    failure.starts_with(&format!("{}: line {line} is not what is made\n", proof.path)),
                    "{failure}"
                );
            }
            proof.write(&root).expect("a file that can be written");
        }
        std::fs::remove_dir_all(root).expect("a directory that can be removed");
    }

    #[test]
    fn a_missing_file_or_end_is_found() {
        let root = written("missing");
        for proof in proofs() {
            std::fs::write(proof.place(&root), proof.text.trim_end()).expect("a file that can be written");
            assert!(proof.check(&root).is_err());
            std::fs::remove_file(proof.place(&root)).expect("a file that can be removed");
            assert!(proof.check(&root).is_err());
        }
        std::fs::remove_dir_all(root).expect("a directory that can be removed");
    }

    #[test]
    fn each_search_counts_its_own_parameters() {
        let text = |name: &str| proofs().into_iter().find(|proof| proof.path.contains(name)).expect("a proof").text;
        let (key, inter) = (text("select_filter_level_of"), text("select_filter_level_inter_of"));
        // the inter search has two lists more: each is a local, and each local has two places
        assert!(key.contains("pass1 ! (init ! 48 refl") && !key.contains("pass1 ! (init ! 50 refl"));
        assert!(inter.contains("pass1 ! (init ! 52 refl") && !inter.contains("pass1 ! (init ! 54 refl"));
        assert!(key.contains("abbrev κs : Lfts 10\n") && inter.contains("abbrev κs : Lfts 12\n"));
    }

    #[test]
    fn each_walk_counts_its_own_locals() {
        // the result, the parameters and what is made or copied; but for the sum also pointer and slice of each plane
        let walks = [
            ("reconstruction_ssd_from", 1 + 11 + 2),
            ("select_filter_params_from", 1 + 18 + 2 + 6),
            ("FrameWalk", 1 + 8 + 1 + 6),
            ("key_frame_four", 1 + 8 + 1 + 6 + 2),
        ];
        for (name, locals) in walks {
            let proof = proofs().into_iter().find(|proof| proof.path.contains(name)).expect("a proof");
            for step in ["alloc1 !", "forget !", "free1 ! $"] {
                assert_eq!(proof.text.matches(step).count(), locals, "{step} in {name}");
            }
        }
    }

    #[test]
    fn a_frame_call_is_called_as_its_pass_is() {
        let text = |name: &str| proofs().into_iter().find(|proof| proof.path.contains(name)).expect("a proof").text;
        for (pass, frame_call) in [("key_four", "key_frame_four"), ("inter_four", "inter_frame_four")] {
            let (pass, frame_call) = (text(pass), text(frame_call));
            let walked = |text: &str| text.split("\n\n").find(|part| part.contains("    walk :")).map(String::from);
            assert!(walked(&pass).is_some() && walked(&pass) == walked(&frame_call));
            assert!(frame_call.contains("Frame (frameCall ") && !pass.contains("frameCall"));
        }
    }
}
