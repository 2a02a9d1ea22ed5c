//! Sets `libvpx` where the linker finds a static library of libvpx that has the SSE2 loop filter. Its functions are internal:
//! a shared library does not offer them.

use std::path::Path;
use std::process::Command;

const ARCHIVE: &str = "-l:libvpx.a";
const PROBE: &str = "void vp8_loop_filter_mbv_sse2(void), vp8_loop_filter_bvs_sse2(void);
int main(int words, char **word)
{
    if (words > 1 && word[1][0])
        words > 2 ? vp8_loop_filter_mbv_sse2() : vp8_loop_filter_bvs_sse2();
    return 0;
}
";

fn main() {
    println!("cargo::rerun-if-changed=build.rs");
    println!("cargo::rustc-check-cfg=cfg(libvpx)");
    if links() {
        println!("cargo::rustc-cfg=libvpx");
        println!("cargo::rustc-link-arg={ARCHIVE}");
    }
}

/// Whether a C program links with the archive. Whatever stands in the way, the program is built without it.
fn links() -> bool {
    let directory = std::env::var("OUT_DIR").expect("cargo names OUT_DIR");
    let (text, program) = (Path::new(&directory).join("probe.c"), Path::new(&directory).join("probe"));
    let mut command = Command::new("cc");
    command.arg(&text).arg(ARCHIVE).arg("-o").arg(&program);
    std::fs::write(&text, PROBE).is_ok() && command.output().is_ok_and(|output| output.status.success())
}
