//! Builds the archive that has every wrong library in it, and the programs that are linked with it.

use crate::faults::Wrong;
use crate::shims;
use signatures::Function;
use std::env;
use std::ffi::OsStr;
use std::fs;
use std::path::{Path, PathBuf};
use std::process::{Command, Stdio};

/// What is linked with the wrong libraries.
pub struct Built {
    pub compare: PathBuf,
    pub header_test: PathBuf,
}

fn host() -> PathBuf {
    PathBuf::from(env!("CARGO_MANIFEST_DIR")).join("..").canonicalize().expect("the directory of the hosts")
}

/// The library as it is: where VP8LF_LIB_DIR says, or where `./build-library` puts it.
fn archive() -> PathBuf {
    let named = env::var_os("VP8LF_LIB_DIR").filter(|name| !name.is_empty()).map(PathBuf::from);
    named.unwrap_or_else(|| host().join("../target/staticlib")).join("libloop_filter.a")
}

/// Builds all of it below `target/wrong`.
pub fn build(functions: &[Function], all: &[Wrong]) -> Result<Built, String> {
    let directory = host().join("target/wrong");
    let in_directory = |name: &str| directory.join(name);
    fs::create_dir_all(&directory).map_err(|error| error.to_string())?;
    let written = |name: &str, text: String| fs::write(in_directory(name), text).map_err(|error| error.to_string());
    written("shims.c", shims::text(functions, all))?;
    written("renames", shims::renames(functions))?;
    let (wrong, include) = (in_directory("libloop_filter.a"), host().join("../include"));
    let renames = format!("--redefine-syms={}", in_directory("renames").display());
    run(Command::new("objcopy").arg(renames).arg(archive()).arg(&wrong))?;
    let cc = || strict_c(&include);
    run(cc().arg("-O2").arg("-c").arg(in_directory("shims.c")).arg("-o").arg(in_directory("shims.o")))?;
    run(Command::new("ar").arg("rs").arg(&wrong).arg(in_directory("shims.o")))?;
    let header_test = in_directory("header_test");
    run(cc().arg(host().join("c/header_test.c")).arg(&wrong).arg("-o").arg(&header_test))?;
    run(&mut cargo(&directory))?;
    Ok(Built { compare: in_directory("build/release/compare"), header_test })
}

/// `cargo build` of `compare`, linked with the archive in this directory.
fn cargo(directory: &Path) -> Command {
    let cargo = env::var_os("CARGO").unwrap_or_else(|| "cargo".into());
    let mut command = Command::new(cargo);
    command.current_dir(host()).args(["build", "-p", "compare", "--quiet", "--offline", "--release"]);
    command.env("VP8LF_LIB_DIR", directory).env("CARGO_TARGET_DIR", directory.join("build"));
    command
}

fn strict_c(include: &Path) -> Command {
    let mut command = Command::new("cc");
    command.args(["-std=gnu99", "-Wall", "-Wextra", "-Werror"]).arg("-I").arg(include);
    command
}

/// Runs a command that has to succeed.
fn run(command: &mut Command) -> Result<(), String> {
    let name = Path::new(command.get_program()).file_name().map(OsStr::to_owned).unwrap_or_default();
    let named = |what: String| format!("{}: {what}", name.display());
    let output = command.stdin(Stdio::null()).output().map_err(|error| named(error.to_string()))?;
    if output.status.success() {
        return Ok(());
    }
    Err(named(String::from_utf8_lossy(&output.stderr).into_owned()))
}
