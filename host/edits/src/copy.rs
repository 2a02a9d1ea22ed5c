//! A copy of the crates, in which edits are tried.

use std::path::{Path, PathBuf};
use std::process::{Command, Stdio};

/// What a check of a crate reads.
const PARTS: [&str; 3] = ["src", "specs", "proofs"];

/// The copy goes when this goes.
pub struct Copy {
    root: PathBuf,
}

/// What `rt check` came to.
pub struct Checked {
    pub proved: bool,
    /// All that it printed.
    pub log: String,
}

impl Copy {
    /// In a new directory outside the repository, since `rt ci` takes every proof below its top for one of the repository's.
    pub fn of(repository: &Path, number: usize) -> Result<Copy, String> {
        let copy = Copy { root: std::env::temp_dir().join(format!("edits-{}-{number}", std::process::id())) };
        for name in ["crates.txt", "HANDLES"] {
            if repository.join(name).exists() {
                copied(&repository.join(name), &copy.root.join(name))?;
            }
        }
        for dir in crate::entries(&repository.join("crates"))? {
            for part in PARTS.iter().filter(|part| dir.join(part).is_dir()) {
                let to = copy.crate_dir(&crate::last(&dir)).join(part);
                all_copied(&dir.join(part), &to)?;
            }
        }
        Ok(copy)
    }

    pub fn crate_dir(&self, name: &str) -> PathBuf {
        self.root.join("crates").join(name)
    }

    /// `rt check` of a crate, over what earlier checks kept of it.
    pub fn check(&self, name: &str) -> Result<Checked, String> {
        let mut command = Command::new("rt");
        command.args(["check", "--jobs", "1"]).current_dir(self.crate_dir(name)).stdin(Stdio::null());
        let output = command.output().map_err(|reason| format!("rt: {reason}"))?;
        let printed = [output.stdout, output.stderr].map(|bytes| String::from_utf8_lossy(&bytes).into_owned());
        Ok(Checked { proved: output.status.success(), log: printed.concat() })
    }

    /// Removes what checks of a crate kept for further ones, which takes hundreds of megabytes.
    pub fn done_with(&self, name: &str) {
        let _ = std::fs::remove_dir_all(self.crate_dir(name).join("out/incremental"));
    }
}

impl Drop for Copy {
    fn drop(&mut self) {
        let _ = std::fs::remove_dir_all(&self.root);
    }
}

fn all_copied(from: &Path, to: &Path) -> Result<(), String> {
    for path in crate::entries(from)? {
        let to = to.join(crate::last(&path));
        if path.is_dir() { all_copied(&path, &to)? } else { copied(&path, &to)? }
    }
    Ok(())
}

fn copied(from: &Path, to: &Path) -> Result<(), String> {
    let fault = |reason| format!("{}: {reason}", to.display());
    std::fs::create_dir_all(to.parent().expect("a file in a directory")).map_err(fault)?;
    std::fs::copy(from, to).map(|_| ()).map_err(fault)
}
