//! Pictures, what the Rust makes of them, and document 01's conditions for a call of a pass.

use oracle::{FrameFilterConfig, InterMode, IntraUvMode, IntraYMode, KeyframePlanes, MacroblockModes, RefFrame};
use oracle::{filter_frame_flags, filter_inter_frame_flags, loop_filter};
use rules::random::Random;
pub use rules::{LARGEST, Layout, SIDE};

/// y, u and v.
pub type Planes = [Vec<u8>; 3];

/// How long the planes of a picture are in the program, and its scratch planes.
pub const LENGTHS: [usize; 3] = [1280, 352, 348];
pub const SCRATCH: [usize; 3] = [1264, 344, 352];

/// The number of a refusal, or two numbers.
pub type Answer = Result<[usize; 2], u8>;

#[derive(Clone, Copy, Debug, PartialEq)]
pub enum Pass {
    Key,
    Inter,
}

pub const PASSES: [Pass; 2] = [Pass::Key, Pass::Inter];

/// The Rust's own records of a picture's macroblocks.
#[derive(Clone)]
pub struct Records {
    pub modes: Vec<MacroblockModes>,
    pub flags: Vec<bool>,
    pub references: Vec<Option<RefFrame>>,
    pub inter_modes: Vec<Option<InterMode>>,
}

impl Records {
    pub fn new() -> Records {
        Records { modes: Vec::new(), flags: Vec::new(), references: Vec::new(), inter_modes: Vec::new() }
    }

    pub fn push(&mut self, mode: u8, segment: Option<u8>, flag: bool, reference: u8, inter_mode: u8) {
        self.modes.push(MacroblockModes {
            segment_id: segment,
            mb_skip_coeff: false,
            y_mode: y_mode(mode),
            subblock_modes: None,
            uv_mode: IntraUvMode::Dc,
        });
        self.flags.push(flag);
        self.references.push(ref_frame(reference));
        self.inter_modes.push(inter(inter_mode));
    }

    pub fn level(&self, pass: Pass, m: usize, config: &FrameFilterConfig) -> u8 {
        let MacroblockModes { segment_id, y_mode, .. } = self.modes[m];
        let (reference, inter_mode) = (self.references[m], self.inter_modes[m]);
        match pass {
            Pass::Key => loop_filter::calculate_mb_filter_level(config, segment_id, y_mode),
            Pass::Inter => {
                loop_filter::calculate_mb_filter_level_inter(config, segment_id, reference, inter_mode, y_mode)
            }
        }
    }
}

/// Document 01, Option lists.
pub fn y_mode(byte: u8) -> IntraYMode {
    use IntraYMode::*;
    [Dc, V, H, Tm, B][byte as usize]
}

pub fn ref_frame(byte: u8) -> Option<RefFrame> {
    use RefFrame::*;
    [None, Some(Last), Some(Golden), Some(AltRef)][byte as usize]
}

pub fn inter(byte: u8) -> Option<InterMode> {
    use InterMode::*;
    [None, Some(Zero), Some(Nearest), Some(Near), Some(New), Some(Split)][byte as usize]
}

/// The byte lists of a picture: modes, segments, flags, references, inter modes.
#[derive(Clone, Debug)]
pub struct Lists(pub [Vec<u8>; 5]);

impl Lists {
    /// Document 01, refusal 6, in the lists that the pass reads.
    pub fn bad(&self, pass: Pass) -> bool {
        let read = if pass == Pass::Key { &self.0[..3] } else { &self.0 };
        read.iter().zip(LARGEST).any(|(list, largest)| list.iter().any(|byte| *byte > largest))
    }

    /// The Rust's records, where 6 does not refuse. A key pass reads neither references nor inter modes.
    pub fn records(&self, pass: Pass) -> Records {
        let mut records = Records::new();
        let [modes, segments, flags, references, inter_modes] = &self.0;
        for m in 0..modes.len() {
            let segment = (segments[m] != 0).then_some(segments[m]);
            let (reference, inter_mode) = match pass {
                Pass::Key => (0, 0),
                Pass::Inter => (references[m], inter_modes[m]),
            };
            records.push(modes[m], segment, flags[m] != 0, reference, inter_mode);
        }
        records
    }

    pub fn any(random: &mut Random, n: usize) -> Lists {
        let mut list = |choices: &[u8]| (0..n).map(|_| random.one_of(choices)).collect();
        Lists([
            list(&[0, 1, 2, 3, 4, 4]),
            list(&[0, 1, 2, 3, 4, 255]),
            list(&[0, 0, 1, 255]),
            list(&[0, 1, 2, 3]),
            list(&[0, 1, 2, 3, 4, 5]),
        ])
    }
}

/// Planes of a layout, and the settings and records for a pass over them.
#[derive(Clone)]
pub struct Picture {
    pub pass: Pass,
    pub layout: Layout,
    pub planes: Planes,
    pub records: Records,
    pub config: FrameFilterConfig,
}

impl Picture {
    pub fn rust_planes(&self) -> KeyframePlanes {
        let [y, u, v] = self.planes.clone();
        let Layout { columns: mb_cols, rows: mb_rows, y_stride, uv_stride } = self.layout;
        KeyframePlanes { y, u, v, y_stride, uv_stride, mb_cols, mb_rows }
    }

    fn run(&self, planes: &mut KeyframePlanes, records: &Records, config: &FrameFilterConfig) {
        let Records { modes, flags, references, inter_modes } = records;
        match self.pass {
            Pass::Key => filter_frame_flags(planes, modes, flags, config),
            Pass::Inter => filter_inter_frame_flags(planes, modes, flags, references, inter_modes, config),
        }
    }

    /// What the Rust's pass leaves of the whole grid.
    pub fn unbroken(&self) -> Planes {
        let mut planes = self.rust_planes();
        self.run(&mut planes, &self.records, &self.config);
        [planes.y, planes.u, planes.v]
    }

    /// What the Rust's macroblocks of a range leave: for each in turn its pass with every other macroblock at level 0.
    /// The levels that the Rust calculates go in as absolute levels of segments.
    pub fn steps(&self, range: std::ops::Range<usize>) -> Planes {
        let (mut planes, mut records) = (self.rust_planes(), self.records.clone());
        records.modes.iter_mut().for_each(|record| record.segment_id = Some(0));
        for m in range {
            let level = self.records.level(self.pass, m, &self.config);
            let config = self.config.with_delta_enabled(false).with_segmentation_enabled(true).with_segment_abs(true);
            let config = config.with_segment_lf_level([0, level as i16, 0, 0]);
            records.modes[m].segment_id = Some(1);
            if level > 0 {
                self.run(&mut planes, &records, &config);
            }
            records.modes[m].segment_id = Some(0);
        }
        [planes.y, planes.u, planes.v]
    }
}

/// Document 01's answer of a pass on planes of the program's lengths and lists of four entries, of which 6 refuses some if
/// `bad`.
pub fn rule(layout: &Layout, bad: bool, start: usize, allowance: usize) -> Answer {
    rules::pass(layout, LENGTHS, |n| n != 4, bad, start, allowance)
}

/// A grid of four macroblocks whose planes fit the program's, scratch planes too.
pub fn layout(random: &mut Random, kind: usize) -> Layout {
    let more = |random: &mut Random, most: usize| if random.yes() { random.below(most + 1) } else { 0 };
    let (columns, rows, most) = [(1, 4, [3, 2]), (2, 2, [7, 5]), (4, 1, [16, 12])][kind % 3];
    Layout {
        columns,
        rows,
        y_stride: 16 * columns + more(random, most[0]),
        uv_stride: 8 * columns + more(random, most[1]),
    }
}

/// Blocks of samples that differ by at most `step` from `base`, and noise below `spread`.
#[derive(Clone, Copy)]
pub struct Texture {
    pub block: usize,
    pub step: usize,
    pub base: i32,
    pub spread: usize,
}

/// Textures of any kind; now and then any bytes. Outside the grid any bytes.
pub fn planes(random: &mut Random, layout: &Layout) -> Planes {
    std::array::from_fn(|p| {
        let any = random.below(12) == 0;
        let texture = Texture {
            block: random.one_of(&[4, 4, 8, 16]),
            step: random.one_of(&[2, 4, 8, 20, 50]),
            base: random.one_of(&[0, 60, 128, 200, 255]),
            spread: random.one_of(&[1, 2, 3, 6]),
        };
        if any { (0..LENGTHS[p]).map(|_| random.byte()).collect() } else { plane(random, layout, p, texture) }
    })
}

/// Steps of many heights, so that another level filters another set of edges.
pub fn telling_planes(random: &mut Random, layout: &Layout) -> Planes {
    std::array::from_fn(|p| plane(random, layout, p, Texture { block: 4, step: 24, base: 128, spread: 2 }))
}

fn plane(random: &mut Random, layout: &Layout, p: usize, texture: Texture) -> Vec<u8> {
    let mut samples: Vec<u8> = (0..LENGTHS[p]).map(|_| random.byte()).collect();
    let Texture { block, step, base, spread } = texture;
    let (wide, high) = (SIDE[p] * layout.columns, SIDE[p] * layout.rows);
    let blocks = wide.div_ceil(block);
    let offsets: Vec<i32> =
        (0..blocks * high.div_ceil(block)).map(|_| random.below(2 * step + 1) as i32 - step as i32).collect();
    for row in 0..high {
        for column in 0..wide {
            let offset = offsets[row / block * blocks + column / block];
            let sample = (base + offset + random.below(spread) as i32).clamp(0, 255);
            samples[row * layout.stride(p) + column] = sample as u8;
        }
    }
    samples
}

/// The program's own picture, of a length.
pub fn stripes(lengths: [usize; 3]) -> Planes {
    lengths.map(|length| (0..length).map(|i| if i % 7 < 3 { 100 } else { 108 }).collect())
}
