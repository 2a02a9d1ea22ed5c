//! What the program is asked to do.

pub const USAGE: &str = "usage: bench [REPETITIONS] [--noise AMPLITUDE] \
    [--libvpx | --halting | --full-search | --frame-calls | --coefficients]";

#[derive(Debug, PartialEq)]
pub struct Options {
    pub repetitions: usize,
    /// How far noise moves a sample at most.
    pub noise: u8,
    pub part: Part,
}

/// What is timed.
#[derive(Clone, Copy, Debug, PartialEq)]
pub enum Part {
    /// All but libvpx.
    All,
    /// The library against libvpx alone.
    Libvpx,
    /// Halting through the Rust crate alone.
    Halting,
    /// The full search alone.
    FullSearch,
    /// The frame calls alone.
    FrameCalls,
    /// The coefficient test alone.
    Coefficients,
}

impl Options {
    pub fn read(mut words: impl Iterator<Item = String>) -> Option<Options> {
        let mut options = Options { repetitions: 20, noise: 0, part: Part::All };
        let mut parts = Vec::new();
        while let Some(word) = words.next() {
            match word.as_str() {
                "--noise" => options.noise = words.next()?.parse().ok()?,
                "--libvpx" => parts.push(Part::Libvpx),
                "--halting" => parts.push(Part::Halting),
                "--full-search" => parts.push(Part::FullSearch),
                "--frame-calls" => parts.push(Part::FrameCalls),
                "--coefficients" => parts.push(Part::Coefficients),
                number => options.repetitions = number.parse().ok().filter(|number| *number > 0)?,
            }
        }
        match parts[..] {
            [] => Some(options),
            [part] => Some(Options { part, ..options }),
            _ => None,
        }
    }
}

#[cfg(test)]
mod tests {
    use super::*;

    #[test]
    fn words() {
        let read = |words: &str| Options::read(words.split_whitespace().map(String::from));
        assert_eq!(read(""), Some(Options { repetitions: 20, noise: 0, part: Part::All }));
        assert_eq!(read("--noise 2 7 --libvpx"), Some(Options { repetitions: 7, noise: 2, part: Part::Libvpx }));
        assert_eq!(read("--full-search 1"), Some(Options { repetitions: 1, noise: 0, part: Part::FullSearch }));
        assert_eq!(read("3 --frame-calls"), Some(Options { repetitions: 3, noise: 0, part: Part::FrameCalls }));
        assert_eq!(read("--coefficients"), Some(Options { repetitions: 20, noise: 0, part: Part::Coefficients }));
        for wrong in
            ["0", "-1", "--noise", "--noise 256", "--libvp", "--libvpx --halting", "--full-search --halting", "x"]
        {
            assert_eq!(read(wrong), None, "{wrong}");
        }
    }
}
