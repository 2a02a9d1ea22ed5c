//! Packs some frames of a `.vplf` file: `pack IN.vplf OUT.vplk PLACE..`, each place the number of a frame in its stream.

use std::process::ExitCode;

fn main() -> ExitCode {
    let arguments: Vec<String> = std::env::args().skip(1).collect();
    let [input, output, places @ ..] = &arguments[..] else {
        eprintln!("usage: pack IN.vplf OUT.vplk PLACE..");
        return ExitCode::from(2);
    };
    match pack(input, output, places) {
        Ok(()) => ExitCode::SUCCESS,
        Err(reason) => {
            eprintln!("pack: {reason}");
            ExitCode::FAILURE
        }
    }
}

fn pack(input: &str, output: &str, places: &[String]) -> Result<(), String> {
    let bytes = std::fs::read(input).map_err(|error| format!("{input}: {error}"))?;
    let film = film::read(&bytes).map_err(|fault| format!("{input}: {fault}"))?;
    let mut frames = Vec::new();
    for place in places {
        let frame = film.iter().find(|frame| frame.place().to_string() == *place);
        frames.push(frame.ok_or(format!("{input} has no frame {place}"))?.clone());
    }
    let packed = film::pack(&frames);
    println!("{output}: {} frames, {} bytes", frames.len(), packed.len());
    std::fs::write(output, packed).map_err(|error| format!("{output}: {error}"))
}
