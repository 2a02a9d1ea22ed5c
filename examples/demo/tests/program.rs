//! The program as a user runs it.

use std::path::{Path, PathBuf};
use std::process::{Command, Stdio};

/// The program, with pictures to a directory of its own.
fn demo(name: &str) -> (Command, PathBuf) {
    let directory = Path::new(env!("CARGO_TARGET_TMPDIR")).join(name);
    let mut command = Command::new(env!("CARGO_BIN_EXE_demo"));
    command.arg(&directory);
    (command, directory)
}

/// The repository's film is equal, and no word says that anything was decoded.
#[test]
fn the_film_is_equal() {
    let (mut command, _) = demo("film");
    let output = command.output().expect("it starts");
    let text = String::from_utf8(output.stdout).expect("text");
    assert!(output.status.success(), "{text}");
    let frames = film::kept().iter().map(|stream| stream.frames.len()).sum::<usize>() + film::bench().len();
    assert!(text.ends_with(&format!("\n{frames} of {frames} frames are equal to the recorded result\n")), "{text}");
    let left = film::kept().iter().flat_map(|stream| &stream.frames).filter(|frame| frame.left_alone()).count();
    assert!(left > 0 && text.contains(&format!("\n{left} of {frames} frames have header level 0")), "{text}");
    assert!(text.contains("loop_filter_frame_from"), "{text}");
    assert!(!text.contains("decoded"), "{text}");
}

/// The positions smoothed in the frames of a film add up to those of the film, and a frame that is left has none.
#[test]
fn the_positions_add_up() {
    let (mut command, _) = demo("positions");
    let text = String::from_utf8(command.output().expect("it starts").stdout).expect("text");
    let mut table = text.lines().skip_while(|line| !line.starts_with("film "));
    let column = table.next().and_then(|head| head.find("positions smoothed")).expect("a column");
    let mut films: Vec<(&str, [usize; 2])> = Vec::new();
    for row in table.take_while(|line| !line.is_empty()) {
        let name = row.split(' ').next().expect("a film");
        let (of_frame, of_film) = row[column..].split_once(" of ").expect("two numbers");
        let (of_film, rest) = of_film.split_once(' ').expect("more columns");
        let [part, all] = [of_frame, of_film].map(|number| number.trim().parse::<usize>().expect("a number"));
        assert!(part == 0 || !rest.trim().starts_with("left"), "{row}");
        match films.last_mut().filter(|film| film.0 == name) {
            Some(film) => film.1[0] += part,
            None => films.push((name, [part, all])),
        }
    }
    assert_eq!(films.len(), film::kept().len() + 1);
    films.iter().for_each(|(name, [sum, all])| assert_eq!(sum, all, "{name}"));
    assert!(films.iter().filter(|film| film.1[0] > 0).count() > 8);
}

/// A reader that has gone: the pictures are written all the same, and nothing is said of it.
#[test]
fn a_closed_pipe_is_no_failure() {
    let (mut command, directory) = demo("closed");
    let mut child = command.stdout(Stdio::piped()).stderr(Stdio::piped()).spawn().expect("it starts");
    drop(child.stdout.take());
    let output = child.wait_with_output().expect("it ends");
    assert_eq!((output.status.code(), String::from_utf8_lossy(&output.stderr).as_ref()), (Some(0), ""));
    let picture = std::fs::read(directory.join("key-normal-after.png")).expect("a picture");
    assert!(picture.starts_with(b"\x89PNG"));
}

/// A file of 12 kilobytes whose header promises 65,535 x 65,535 macroblocks.
#[test]
fn a_promised_size_is_refused() {
    let path = Path::new(env!("CARGO_TARGET_TMPDIR")).join("promised.vplf");
    let mut film = b"VPLF\x01\x00\x40\x00\x00\x00\x00\x00\xFF\xFF\xFF\xFF".to_vec();
    film.resize(12 * 1024, 1);
    std::fs::write(&path, film).expect("a file");
    let (mut command, _) = demo("promised");
    let output = command.arg(&path).output().expect("it starts");
    let text = String::from_utf8_lossy(&output.stderr).into_owned();
    let reason = "is no .vplf film: byte 12: expected 1 to 1024 columns of macroblocks, found 65535\n";
    assert!(output.status.code() == Some(1) && text.ends_with(reason), "{text}");
}
