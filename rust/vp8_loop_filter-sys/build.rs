//! Links `libloop_filter.a` from the directory that VP8LF_LIB_DIR names, or from `target/staticlib` of the repository.

use std::env;
use std::path::{Path, PathBuf};

fn main() {
    println!("cargo::rerun-if-changed=build.rs");
    println!("cargo::rerun-if-env-changed=VP8LF_LIB_DIR");
    match directory() {
        Ok(directory) => {
            println!("cargo::rustc-link-search=native={}", directory.display());
            println!("cargo::rustc-link-lib=static=loop_filter");
        }
        Err(reason) => println!("cargo::error={reason}"),
    }
}

/// The directory that has the library, or why there is none.
fn directory() -> Result<PathBuf, String> {
    let named = env::var_os("VP8LF_LIB_DIR").filter(|name| !name.is_empty()).map(PathBuf::from);
    let directory = match &named {
        Some(directory) if directory.is_relative() => {
            return Err(format!("VP8LF_LIB_DIR names '{}', which is not an absolute path", directory.display()));
        }
        Some(directory) => directory.clone(),
        None => repository().join("target/staticlib"),
    };
    let archive = directory.join("libloop_filter.a");
    // Cargo runs this program again when the file appears.
    println!("cargo::rerun-if-changed={}", archive.display());
    match (archive.is_file(), named) {
        (true, _) => Ok(directory),
        (false, Some(directory)) => {
            Err(format!("VP8LF_LIB_DIR names '{}', which has no libloop_filter.a", directory.display()))
        }
        (false, None) => Err(format!(
            "{} is missing: run `./build-library` in the repository, or name the directory of \
             libloop_filter.a in VP8LF_LIB_DIR",
            archive.display()
        )),
    }
}

fn repository() -> PathBuf {
    let package = env::var("CARGO_MANIFEST_DIR").expect("cargo names CARGO_MANIFEST_DIR");
    Path::new(&package).ancestors().nth(2).expect("rust/vp8_loop_filter-sys").to_path_buf()
}
