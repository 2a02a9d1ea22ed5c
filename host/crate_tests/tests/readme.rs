//! The README's lines of C and Rust are those of programs that are compiled and run.

const README: &str = include_str!("../../../README.md");
const C: &str = include_str!("../../../examples/filter.c");
const RUST: &str = include_str!("../../../rust/vp8_loop_filter/examples/rows.rs");
const TEST: &str = include_str!("../../../test");

/// The lines between the two marks of an example.
fn passage(example: &str) -> String {
    let lines = example.lines().skip_while(|line| !line.contains("README: from here")).skip(1);
    lines.take_while(|line| !line.contains("README: to here")).map(|line| format!("{line}\n")).collect()
}

#[test]
fn lines_of_c() {
    let passage = passage(C);
    assert!(passage.contains("vp8lf_loop_filter("), "the passage filters");
    assert!(README.contains(&passage), "README.md has not these lines of examples/filter.c:\n{passage}");
}

#[test]
fn lines_of_rust() {
    let passage = passage(RUST);
    assert!(passage.contains("FramePass::of_frame("), "the passage filters");
    assert!(README.contains(&passage), "README.md has not these lines of examples/rows.rs:\n{passage}");
}

/// `./test` runs the command that links the example.
#[test]
fn command_that_links() {
    let command = README.lines().map(str::trim).find(|line| line.starts_with("cc ")).expect("a command");
    assert!(C.contains(command), "examples/filter.c has not the README's command\n{command}");
    assert!(TEST.contains(command), "./test has not the README's command\n{command}");
}
