//! Filters film frames row by row, draws what changed and which rows were final when, and shows three refusals.
//!
//! `demo DIRECTORY` takes the film of the repository, `demo DIRECTORY FILM.vplf` that file. Pictures go to the directory,
//! those of a file to one below it with the file's name.

mod output;
mod pictures;
mod png;
mod row_by_row;

use film::{Frame, Stream};
use output::{line, progress};
use row_by_row::{Arrived, Outcome, config, filter_some, row_by_row};
use std::path::Path;
use std::process::ExitCode;

fn main() -> ExitCode {
    let arguments: Vec<String> = std::env::args().skip(1).collect();
    let done = match &arguments[..] {
        [directory] => show(&repository_film(), Path::new(directory), false),
        [directory, path] => read(path).and_then(|stream| {
            let directory = Path::new(directory).join(&stream.name);
            show(&[stream], &directory, true)
        }),
        _ => {
            eprintln!("usage: demo DIRECTORY [FILM.vplf]");
            return ExitCode::from(2);
        }
    };
    match done {
        Ok(()) => ExitCode::SUCCESS,
        Err(reason) => {
            eprintln!("demo: {reason}");
            ExitCode::FAILURE
        }
    }
}

fn repository_film() -> Vec<Stream> {
    let mut film = film::kept();
    film.push(Stream { name: String::from("bench_1280x720"), frames: film::bench() });
    film
}

fn read(path: &str) -> Result<Stream, String> {
    let bytes = std::fs::read(path).map_err(|error| format!("{path}: {error}"))?;
    let packed = bytes.starts_with(&[0xFD, b'7', b'z', b'X', b'Z']);
    let hint = if packed { "; unpack it first: xz -dk FILM.vplf.xz" } else { "" };
    let frames = film::read(&bytes).map_err(|fault| format!("{path} is no .vplf film: {fault}{hint}"))?;
    let name = Path::new(path).file_stem().unwrap_or_default().to_string_lossy().into_owned();
    Ok(Stream { name, frames })
}

/// A frame and what came of it.
struct Shown<'a> {
    stream: &'a str,
    frame: &'a Frame,
    outcome: Outcome,
}

fn show(film: &[Stream], directory: &Path, long: bool) -> Result<(), String> {
    let shown = filter(film, long);
    if long {
        progress("\n");
    }
    let shown = shown?;
    print_table(&shown)?;
    refusals(shown[0].frame)?;
    write_pictures(&shown, directory)?;
    let equal = shown.iter().filter(|shown| shown.outcome.equal).count();
    let left = shown.iter().filter(|shown| shown.frame.left_alone()).count();
    line(format!(
        "\n{left} of {} frames have header level 0: their recorded result is the frame as it was",
        shown.len()
    ))?;
    line(format!("{equal} of {} frames are equal to the recorded result", shown.len()))?;
    if equal < shown.len() { Err(String::from("the filter and the film differ")) } else { Ok(()) }
}

fn filter(film: &[Stream], long: bool) -> Result<Vec<Shown<'_>>, String> {
    let mut shown = Vec::new();
    for stream in film {
        for (i, frame) in stream.frames.iter().enumerate() {
            if long {
                progress(format!("\rframe {} of {}", i + 1, stream.frames.len()));
            }
            let place = |reason| format!("{}, frame {}: {reason}", stream.name, frame.place());
            shown.push(Shown { stream: &stream.name, frame, outcome: row_by_row(frame).map_err(place)? });
        }
    }
    Ok(shown)
}

fn print_table(shown: &[Shown<'_>]) -> Result<(), String> {
    line("The recorded planes of each frame are filtered and sent, one row of macroblocks a call.")?;
    line(
        "The calls are loop_filter_frame_from and loop_filter_inter_frame_from: as in a decoder, header level 0 turns",
    )?;
    line("the filter off. 'left' marks such a frame, which must come out as it came.")?;
    line("'positions smoothed' has those of the frame, of all that were smoothed in the frames of its film.\n")?;
    let wide = shown.iter().map(|shown| shown.stream.len()).max().unwrap_or(0);
    line(format!(
        "{:wide$}  frame  kind          macroblocks     samples changed  positions smoothed  equal  luma rows final after each call",
        "film"
    ))?;
    for Shown { stream, frame, outcome } in shown {
        let macroblocks = format!("{} x {}", frame.columns(), frame.rows());
        let samples = format!("{} of {}", outcome.changed, 384 * frame.columns() * frame.rows());
        let of_film = shown.iter().filter(|shown| shown.stream == *stream);
        let all: usize = of_film.map(|shown| shown.outcome.smoothed).sum();
        let positions = format!("{} of {all}", outcome.smoothed);
        line(format!(
            "{stream:wide$}  {:5}  {:12}  {macroblocks:>11}  {samples:>18}  {positions:>18}  {:5}  {}",
            frame.place(),
            kind(frame),
            match (outcome.equal, frame.left_alone()) {
                (true, true) => "left",
                (true, false) => "yes",
                (false, _) => "NO",
            },
            finals(outcome)
        ))?;
    }
    Ok(())
}

fn kind(frame: &Frame) -> String {
    let config = frame.config();
    let pass = if config.key_frame { "key" } else { "inter" };
    format!("{pass} {}", if config.simple { "simple" } else { "normal" })
}

/// The first and last of many.
fn finals(outcome: &Outcome) -> String {
    let rows: Vec<String> = outcome.finals.iter().map(|rows| rows.luma.to_string()).collect();
    match &rows[..] {
        [first, second, third, .., last] if rows.len() > 9 => format!("{first} {second} {third} .. {last}"),
        _ => rows.join(" "),
    }
}

/// Three calls that are refused and leave the planes as they were.
fn refusals(frame: &Frame) -> Result<(), String> {
    line("\nThree calls on the first frame that are refused, and change nothing:")?;
    let n = frame.columns() * frame.rows();

    let mut short = Arrived::whole(frame)?;
    short.planes.y.truncate(short.planes.y.len() - short.planes.y_stride);
    refusal("the luma plane comes a row short", frame, short, 0)?;

    let mut missing = Arrived::whole(frame)?;
    missing.modes.pop();
    refusal("the record of a macroblock is missing", frame, missing, 0)?;

    refusal("the start lies behind the last macroblock", frame, Arrived::whole(frame)?, n + 1)
}

fn refusal(what: &str, frame: &Frame, mut arrived: Arrived, start: usize) -> Result<(), String> {
    let before = arrived.planes.clone();
    match filter_some(&mut arrived, &config(frame), start, 1) {
        Ok(_) => Err(format!("{what}: not refused")),
        Err(_) if arrived.planes != before => Err(format!("{what}: refused, but samples changed")),
        Err(refusal) => line(format!("  {what}:\n    {refusal}")),
    }
}

/// Writes the pictures of the frame of each kind of which most samples changed.
fn write_pictures(shown: &[Shown<'_>], directory: &Path) -> Result<(), String> {
    let failed = |path: &Path, error| format!("{}: {error}", path.display());
    std::fs::create_dir_all(directory).map_err(|error| failed(directory, error))?;
    line(format!("\nPictures in {}, of the frame of each kind of which most samples changed:", directory.display()))?;
    for pick in ["key normal", "inter normal", "key simple", "inter simple"] {
        let of_kind = shown.iter().filter(|shown| kind(shown.frame) == pick && shown.outcome.changed > 0);
        let Some(Shown { stream, frame, outcome }) = of_kind.max_by_key(|shown| shown.outcome.changed) else {
            continue;
        };
        let name = pick.replace(' ', "-");
        for (end, picture) in pictures::pictures(frame, outcome) {
            let path = directory.join(format!("{name}-{end}.png"));
            std::fs::write(&path, png::png(&picture)).map_err(|error| failed(&path, error))?;
        }
        line(format!("  {name}-{{before,after,changed,final}}.png  {stream}, frame {}", frame.place()))?;
    }
    line("  changed: red where luma changed, blue where chroma alone did, lighter for more")?;
    line("  final: coloured from blue to red by the call after which the row was final;")?;
    line("         at the left border the rows of macroblocks, black and white in turn")
}
