use std::fmt;

/// Why a file is no film: what was expected at which byte, and what stands there.
#[derive(Clone, Debug, PartialEq)]
pub struct Fault {
    pub at: usize,
    pub expected: String,
    pub found: String,
}

impl Fault {
    pub(crate) fn new(at: usize, expected: impl fmt::Display, found: impl fmt::Display) -> Fault {
        Fault { at, expected: expected.to_string(), found: found.to_string() }
    }
}

impl fmt::Display for Fault {
    fn fmt(&self, f: &mut fmt::Formatter<'_>) -> fmt::Result {
        write!(f, "byte {}: expected {}, found {}", self.at, self.expected, self.found)
    }
}

impl std::error::Error for Fault {}
