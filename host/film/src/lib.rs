//! Recorded inputs and outputs of the loop filter. `README.md` has the formats and where the frames come from.

mod coding;
#[cfg(test)]
mod damaged;
mod fault;
mod vplf;
mod vplk;

pub use fault::Fault;
use oracle::FrameFilterConfig;
pub use vplf::{read, write};
pub use vplk::pack;
use vplk::unpack;

const HEADER: usize = 64;
const MAGIC: &[u8] = b"VPLF\x01\x00\x40\x00";
const MAGIC_WORDS: &str = "\"VPLF\", version 1 and header length 64, each of the two in 2 bytes";

/// The most columns, and the most rows, of macroblocks (document 01, refusal 1).
const SIDE: usize = 1024;

/// A frame before the loop filter, and the checksum of its planes after it.
#[derive(Clone, Debug, PartialEq)]
pub struct Frame {
    header: [u8; HEADER],
    pub modes: Vec<u8>,
    pub references: Vec<u8>,
    pub inter_modes: Vec<u8>,
    pub segments: Vec<u8>,
    pub flags: Vec<u8>,
    /// y, u and v, with strides of 16 and 8 times the columns.
    pub planes: [Vec<u8>; 3],
    pub after: u64,
}

/// The frames of a stream, or some of them.
pub struct Stream {
    pub name: String,
    pub frames: Vec<Frame>,
}

impl Stream {
    /// Whether the filter and segmentation headers were rewritten at random.
    pub fn mutated(&self) -> bool {
        self.name.starts_with("mut")
    }
}

macro_rules! kept {
    ($($name:literal),* $(,)?) => {
        vec![$(Stream {
            name: String::from($name),
            frames: unpack(include_bytes!(concat!("../frames/", $name, ".vplk"))).expect(concat!($name, " is whole")),
        }),*]
    };
}

/// The film that the repository keeps.
pub fn kept() -> Vec<Stream> {
    kept![
        "altref_test2_175x143",
        "mut05s1_p0_life_64x64",
        "mut10s2_p0_grad_320x240",
        "mut14s4_prof2_life_64x64",
        "mut17s5_altref_test2_175x143",
        "p0_life_64x64",
        "p0_test2_16x16",
        "prof1_life_64x64",
        "prof3_life_64x64",
        "roi4_test2_64x64",
        "roi5_mandel_161x97",
    ]
}

/// The frames for timing, a key frame and an inter frame.
pub fn bench() -> Vec<Frame> {
    kept!["bench_1280x720"].remove(0).frames
}

impl Frame {
    /// A frame whose lists and planes are empty. A fault is told from the header's first byte.
    fn headed(header: [u8; HEADER]) -> Result<Frame, Fault> {
        if let Some(at) = (0..MAGIC.len()).find(|at| header[*at] != MAGIC[*at]) {
            return Err(Fault::new(at, MAGIC_WORDS, format!("{:?}", &header[..MAGIC.len()])));
        }
        let frame = Frame {
            header,
            modes: Vec::new(),
            references: Vec::new(),
            inter_modes: Vec::new(),
            segments: Vec::new(),
            flags: Vec::new(),
            planes: [const { Vec::new() }; 3],
            after: 0,
        };
        let (width, height) = (16 * frame.columns(), 16 * frame.rows());
        let most = [("columns of macroblocks", SIDE), ("rows of macroblocks", SIDE)];
        let most = most.into_iter().chain([("visible columns", width), ("visible rows", height)]);
        for (at, (what, most)) in (12..).step_by(2).zip(most) {
            let found = frame.number(at) as usize;
            if !(1..=most).contains(&found) {
                return Err(Fault::new(at, format!("1 to {most} {what}"), found));
            }
        }
        Ok(frame)
    }

    fn macroblocks(&self) -> usize {
        self.columns() * self.rows()
    }

    /// Gives the lists and planes their lengths, all 0.
    fn allocate(&mut self) {
        let n = self.macroblocks();
        self.lists_mut().into_iter().for_each(|list| list.resize(n, 0));
        self.planes.iter_mut().zip([16, 8, 8]).for_each(|(plane, side)| plane.resize(side * side * n, 0));
    }

    fn lists_mut(&mut self) -> [&mut Vec<u8>; 5] {
        [&mut self.modes, &mut self.references, &mut self.inter_modes, &mut self.segments, &mut self.flags]
    }

    fn number(&self, at: usize) -> u16 {
        u16::from_le_bytes([self.header[at], self.header[at + 1]])
    }

    /// Its number in the stream.
    pub fn place(&self) -> u32 {
        u32::from_le_bytes(*self.header[8..].first_chunk().expect("4 bytes"))
    }

    /// Columns of macroblocks.
    pub fn columns(&self) -> usize {
        self.number(12) as usize
    }

    /// Rows of macroblocks.
    pub fn rows(&self) -> usize {
        self.number(14) as usize
    }

    /// The visible width and height.
    pub fn visible(&self) -> (usize, usize) {
        (self.number(16) as usize, self.number(18) as usize)
    }

    /// Whether the header level is 0 and the RFC's decoder leaves the frame as it was.
    pub fn left_alone(&self) -> bool {
        self.header[56] != 0
    }

    pub fn config(&self) -> FrameFilterConfig {
        let mark = |at: usize| self.header[at] != 0;
        let signed = |at: usize| self.number(at) as i16;
        FrameFilterConfig::default()
            .with_simple(mark(20))
            .with_loop_filter_level(self.header[21])
            .with_sharpness_level(self.header[22])
            .with_key_frame(mark(23))
            .with_segmentation_enabled(mark(24))
            .with_segment_abs(mark(25))
            .with_delta_enabled(mark(26))
            .with_segment_lf_level([28, 30, 32, 34].map(signed))
            .with_ref_delta_current(signed(36))
            .with_ref_delta_last(signed(38))
            .with_ref_delta_golden(signed(40))
            .with_ref_delta_altref(signed(42))
            .with_bpred_mode_delta(signed(44))
            .with_zero_mv_mode_delta(signed(46))
            .with_other_mv_mode_delta(signed(48))
            .with_split_mv_mode_delta(signed(50))
    }
}

/// FNV-1a of 64 bits over y, u and v.
pub fn checksum(planes: &[Vec<u8>; 3]) -> u64 {
    planes
        .iter()
        .flatten()
        .fold(0xCBF2_9CE4_8422_2325, |sum, sample| (sum ^ *sample as u64).wrapping_mul(0x100_0000_01B3))
}

#[cfg(test)]
mod tests {
    use super::*;

    /// The published values of FNV-1a for "" and "foobar".
    #[test]
    fn checksums() {
        let sum =
            |text: &[u8]| checksum(&[text[..text.len() / 2].to_vec(), Vec::new(), text[text.len() / 2..].to_vec()]);
        assert_eq!(sum(b""), 0xCBF2_9CE4_8422_2325);
        assert_eq!(sum(b"foobar"), 0x8594_4171_F739_67E8);
    }
}
