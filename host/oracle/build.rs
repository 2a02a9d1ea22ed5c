//! Writes a second copy of `loop_filter.rs` with one child module appended, which reaches the private functions.

use std::path::Path;
use std::{env, fs};

const ORIGINAL: &str = "original/loop_filter.rs";

const CHILD: &str = r#"
/// The private functions that comparisons need.
pub mod opened {
    /// The run kernel over `N` windows, taps in -128..=127.
    pub fn normal_filter_run<const N: usize>(
        taps: &mut [[i16; N]; 8],
        hev_threshold: u8,
        interior_limit: u8,
        edge_limit: u8,
        mb_edge: bool,
    ) {
        super::normal_filter_run(taps, hev_threshold, interior_limit, edge_limit, mb_edge)
    }

    /// Whether the normal test passes on the samples p3 to q3.
    pub fn filter_yes(interior_limit: u8, edge_limit: u8, taps: [u8; 8]) -> bool {
        let [p3, p2, p1, p0, q0, q1, q2, q3] = taps.map(|t| super::u2s(t) as i32);
        super::filter_yes(interior_limit, edge_limit, p3, p2, p1, p0, q0, q1, q2, q3)
    }

    /// Whether the samples p3 to q3 have high variance.
    pub fn hev(hev_threshold: u8, taps: [u8; 8]) -> bool {
        let [_, _, p1, p0, q0, q1, _, _] = taps.map(|t| super::u2s(t) as i32);
        super::hev(hev_threshold, p1, p0, q0, q1)
    }
}
"#;

// `include!` takes no file with inner documentation, so the file included only names the module's path.
const MODULE: &str = r#"
#[path = "loop_filter_opened.rs"]
#[allow(dead_code, clippy::all)]
mod loop_filter_opened;
"#;

fn main() {
    println!("cargo::rerun-if-changed={ORIGINAL}");
    println!("cargo::rerun-if-changed=build.rs");
    let out = env::var("OUT_DIR").expect("cargo names OUT_DIR");
    let out = Path::new(&out);
    let text = fs::read_to_string(ORIGINAL).expect("the original is readable");
    fs::write(out.join("loop_filter_opened.rs"), text + CHILD).expect("OUT_DIR is writable");
    fs::write(out.join("opened_module.rs"), MODULE).expect("OUT_DIR is writable");
}
