//! The coding of the kept film: an adaptive binary range coder over the bytes of the frames.
//!
//! One walk over the bytes serves both directions: [`Writer`] codes the bit that it is given, [`Reader`] answers the
//! bit that was coded. Samples are predicted from their neighbours to the left and above.

use crate::{Frame, HEADER};

/// Codes a header: writes `header`, or answers the one read.
pub fn code_header(coder: &mut impl Coder, model: &mut Model, header: [u8; HEADER]) -> [u8; HEADER] {
    std::array::from_fn(|index| model.header.code(coder, index, header[index]))
}

/// Codes the rest of a frame of known size: writes it, or fills it with what was read.
pub fn code_frame(coder: &mut impl Coder, model: &mut Model, frame: &mut Frame) {
    let columns = frame.columns();
    let mut after = frame.after.to_le_bytes();
    for byte in &mut after {
        *byte = model.checksums.code(coder, 0, *byte);
    }
    frame.after = u64::from_le_bytes(after);
    for (list, entries) in frame.lists_mut().into_iter().enumerate() {
        code_list(coder, &mut model.lists, list, entries, columns);
    }
    for (plane, side) in frame.planes.iter_mut().zip([16, 8, 8]) {
        code_samples(coder, &mut model.samples[(side == 8) as usize], plane, columns * side);
    }
}

/// The chances of the bits, by context.
pub struct Model {
    header: Bytes,
    checksums: Bytes,
    lists: Bytes,
    /// Of luma, and of chroma.
    samples: [Bytes; 2],
}

impl Model {
    pub fn new() -> Model {
        let samples = || Bytes::new(ACTIVITIES * 3);
        Model {
            header: Bytes::new(HEADER),
            checksums: Bytes::new(1),
            lists: Bytes::new(5 * 64),
            samples: [samples(), samples()],
        }
    }
}

/// The context is the list and its entries to the left and above.
fn code_list(coder: &mut impl Coder, model: &mut Bytes, list: usize, entries: &mut [u8], columns: usize) {
    for i in 0..entries.len() {
        let near = |back: usize| if i >= back { entries[i - back].min(7) as usize } else { 0 };
        let context = list * 64 + near(1) * 8 + near(columns);
        entries[i] = model.code(coder, context, entries[i]);
    }
}

const ACTIVITIES: usize = 9;

/// The difference to the median of left, above and left + above - corner. The context is how much these differ and
/// how good the last prediction was.
fn code_samples(coder: &mut impl Coder, model: &mut Bytes, plane: &mut [u8], width: usize) {
    let mut last_error = 0u8;
    for i in 0..plane.len() {
        let (row, column) = (i / width, i % width);
        let (left, above, corner) = match (row, column) {
            (0, 0) => (128, 128, 128),
            (0, _) => (plane[i - 1], plane[i - 1], plane[i - 1]),
            (_, 0) => (plane[i - width], plane[i - width], plane[i - width]),
            _ => (plane[i - 1], plane[i - width], plane[i - width - 1]),
        };
        let straight = left as i32 + above as i32 - corner as i32;
        let predicted = straight.clamp(left.min(above) as i32, left.max(above) as i32) as u8;
        let activity = left.abs_diff(corner) as u32 + above.abs_diff(corner) as u32;
        let activity = (u32::BITS - activity.leading_zeros()) as usize;
        let surprise = (last_error > 1) as usize + (last_error > 8) as usize;
        let context = activity.min(ACTIVITIES - 1) * 3 + surprise;
        let error = model.code(coder, context, plane[i].wrapping_sub(predicted));
        last_error = (error as i8).unsigned_abs();
        plane[i] = predicted.wrapping_add(error);
    }
}

/// For each context, the chance of each bit of a byte after the bits before it: the mean of a chance that follows
/// fast and one that follows slowly.
struct Bytes(Vec<[Chance; 256]>);

type Chance = [u16; 2];

impl Bytes {
    fn new(contexts: usize) -> Bytes {
        Bytes(vec![[[1 << 15; 2]; 256]; contexts])
    }

    fn code(&mut self, coder: &mut impl Coder, context: usize, byte: u8) -> u8 {
        let chances = &mut self.0[context];
        let mut bits = 1;
        for place in (0..8).rev() {
            let chance = &mut chances[bits];
            // Of 4096, that the bit is 0.
            let zero = ((chance[0] as u32 + chance[1] as u32) >> 5).clamp(1, 4095);
            let bit = coder.code(zero, byte >> place & 1 == 1);
            for (chance, speed) in chance.iter_mut().zip([4, 7]) {
                if bit { *chance -= *chance >> speed } else { *chance += (u16::MAX - *chance) >> speed }
            }
            bits = bits * 2 + bit as usize;
        }
        bits as u8
    }
}

pub trait Coder {
    /// Codes `bit`, whose chance of being 0 is `zero` of 4096, or answers the bit that was coded.
    fn code(&mut self, zero: u32, bit: bool) -> bool;
}

pub struct Writer {
    low: u64,
    range: u32,
    bytes: Vec<u8>,
}

impl Writer {
    pub fn new() -> Writer {
        Writer { low: 0, range: u32::MAX, bytes: Vec::new() }
    }

    fn shift(&mut self) {
        if self.low >> 32 == 1 {
            // A carry runs through the bytes written.
            for byte in self.bytes.iter_mut().rev() {
                *byte = byte.wrapping_add(1);
                if *byte != 0 {
                    break;
                }
            }
        }
        self.bytes.push((self.low >> 24) as u8);
        self.low = (self.low & 0x00FF_FFFF) << 8;
    }

    pub fn finish(mut self) -> Vec<u8> {
        (0..4).for_each(|_| self.shift());
        self.bytes
    }
}

impl Coder for Writer {
    fn code(&mut self, zero: u32, bit: bool) -> bool {
        let split = (self.range >> 12) * zero;
        if bit {
            self.low += split as u64;
            self.range -= split;
        } else {
            self.range = split;
        }
        while self.range < 1 << 24 {
            self.range <<= 8;
            self.shift();
        }
        bit
    }
}

pub struct Reader<'a> {
    code: u32,
    range: u32,
    bytes: std::slice::Iter<'a, u8>,
    missing: bool,
}

impl Reader<'_> {
    pub fn new(bytes: &[u8]) -> Reader<'_> {
        let mut reader = Reader { code: 0, range: u32::MAX, bytes: bytes.iter(), missing: false };
        (0..4).for_each(|_| reader.shift());
        reader
    }

    fn shift(&mut self) {
        let byte = self.bytes.next();
        self.missing |= byte.is_none();
        self.code = self.code << 8 | byte.copied().unwrap_or(0) as u32;
    }

    /// The bytes that are not read yet.
    pub fn left(&self) -> usize {
        self.bytes.len()
    }

    /// Whether bytes behind the last were asked for.
    pub fn missing(&self) -> bool {
        self.missing
    }
}

impl Coder for Reader<'_> {
    fn code(&mut self, zero: u32, _bit: bool) -> bool {
        let split = (self.range >> 12) * zero;
        let bit = self.code >= split;
        if bit {
            self.code -= split;
            self.range -= split;
        } else {
            self.range = split;
        }
        while self.range < 1 << 24 {
            self.range <<= 8;
            self.shift();
        }
        bit
    }
}
