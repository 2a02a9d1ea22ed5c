//! What the filter reads of a macroblock, and the byte lists that the library takes for it.

use crate::entries::ByteLists;
use crate::refusal::Refusal;

/// The luma mode of a macroblock (RFC 6386, section 11.2). `Split` macroblocks have mode `B` too.
#[derive(Debug, Clone, Copy, PartialEq, Eq, Hash, Default)]
#[allow(missing_docs)]
pub enum IntraYMode {
    #[default]
    Dc,
    V,
    H,
    Tm,
    B,
}

/// The frame that a macroblock is predicted from (RFC 6386, section 16.2).
#[derive(Debug, Clone, Copy, PartialEq, Eq, Hash)]
#[allow(missing_docs)]
pub enum RefFrame {
    Last,
    Golden,
    AltRef,
}

/// How a macroblock with a reference is predicted (RFC 6386, section 16.2).
#[derive(Debug, Clone, Copy, PartialEq, Eq, Hash)]
#[allow(missing_docs)]
pub enum InterMode {
    Zero,
    Nearest,
    Near,
    New,
    Split,
}

/// What the filter reads of a macroblock's modes. A caller's own record is taken too, if this one is `From` it.
#[derive(Debug, Clone, Copy, PartialEq, Eq, Hash, Default)]
pub struct MacroblockModes {
    /// The luma mode.
    pub y_mode: IntraYMode,
    /// The segment. `None` counts as 0, a number above 3 as 3.
    pub segment_id: Option<u8>,
}

impl From<&MacroblockModes> for MacroblockModes {
    fn from(modes: &MacroblockModes) -> MacroblockModes {
        *modes
    }
}

/// The dequantized coefficients of a macroblock.
#[derive(Debug, Clone, Copy, PartialEq, Eq, Default)]
#[allow(missing_docs)]
pub struct MbCoeffs {
    pub y2: [i16; 16],
    pub y: [[i16; 16]; 16],
    pub u: [[i16; 16]; 4],
    pub v: [[i16; 16]; 4],
}

/// What the filter reads of the macroblocks of an inter frame, besides their modes.
#[derive(Debug, Clone, Copy)]
pub struct InterFilterInfo<'a> {
    /// The reference of each macroblock, in raster order. `None`: predicted from its own frame.
    pub ref_frames: &'a [Option<RefFrame>],
    /// The inter mode of each macroblock, in raster order.
    pub inter_modes: &'a [Option<InterMode>],
}

pub(crate) fn mode_byte(mode: IntraYMode) -> u8 {
    match mode {
        IntraYMode::Dc => 0,
        IntraYMode::V => 1,
        IntraYMode::H => 2,
        IntraYMode::Tm => 3,
        IntraYMode::B => 4,
    }
}

pub(crate) fn reference_byte(reference: Option<RefFrame>) -> u8 {
    match reference {
        None => 0,
        Some(RefFrame::Last) => 1,
        Some(RefFrame::Golden) => 2,
        Some(RefFrame::AltRef) => 3,
    }
}

pub(crate) fn inter_mode_byte(mode: Option<InterMode>) -> u8 {
    match mode {
        None => 0,
        Some(InterMode::Zero) => 1,
        Some(InterMode::Nearest) => 2,
        Some(InterMode::Near) => 3,
        Some(InterMode::New) => 4,
        Some(InterMode::Split) => 5,
    }
}

/// More entries than any grid has that is not refused. Longer lists are cut to this, which keeps their length wrong.
const TOO_MANY: usize = 1024 * 1024 + 1;

fn bytes<T>(list: impl IntoIterator<Item = T>, byte: impl Fn(T) -> u8) -> Vec<u8> {
    list.into_iter().take(TOO_MANY).map(byte).collect()
}

/// The byte lists of a picture, or of some of its macroblocks.
#[derive(Debug)]
pub(crate) struct Lists {
    modes: Vec<u8>,
    segments: Vec<u8>,
    flags: Vec<u8>,
    /// References and inter modes.
    inter: Option<[Vec<u8>; 2]>,
    /// What the caller lent, by name, and its length.
    pub lent: Vec<(&'static str, usize)>,
}

impl Lists {
    pub fn new<M>(
        modes: &[M],
        has_coeffs: impl ExactSizeIterator<Item = bool>,
        inter: Option<&InterFilterInfo<'_>>,
    ) -> Lists
    where
        MacroblockModes: for<'m> From<&'m M>,
    {
        let records: Vec<MacroblockModes> = modes.iter().take(TOO_MANY).map(MacroblockModes::from).collect();
        let mut lent = vec![("modes", modes.len()), ("coefficients", has_coeffs.len())];
        if let Some(info) = inter {
            lent.extend([("references", info.ref_frames.len()), ("inter modes", info.inter_modes.len())]);
        }
        Lists {
            modes: bytes(&records, |record| mode_byte(record.y_mode)),
            segments: bytes(&records, |record| record.segment_id.unwrap_or(0)),
            flags: bytes(has_coeffs, u8::from),
            inter: inter.map(|info| {
                let references = bytes(info.ref_frames, |reference| reference_byte(*reference));
                [references, bytes(info.inter_modes, |mode| inter_mode_byte(*mode))]
            }),
            lent,
        }
    }

    pub fn bytes(&self) -> ByteLists<'_> {
        let Lists { modes, segments, flags, inter, .. } = self;
        ByteLists { modes, segments, flags, inter: inter.as_ref().map(|lists| lists.each_ref().map(Vec::as_slice)) }
    }
    /// Puts the lists of some macroblocks, from the first one on, into those of a picture with this many. All have as
    /// many entries.
    pub fn put(&mut self, first: usize, some: &Lists, macroblocks: usize) -> Result<(), Refusal> {
        let (_, len) = some.lent[0];
        if let Some((name, other)) = some.lent.iter().find(|(_, other)| *other != len) {
            return Err(Refusal::wrong_length(format!("the list of {name} has {other} entries, that of modes {len}")));
        }
        if macroblocks.checked_sub(first).is_none_or(|left| left < len) {
            let records = format!("{len} records from macroblock {first} on came");
            return Err(Refusal::wrong_length(format!("{records}, the picture has {macroblocks} macroblocks")));
        }
        let place = first..first + len;
        self.modes[place.clone()].copy_from_slice(&some.modes);
        self.segments[place.clone()].copy_from_slice(&some.segments);
        self.flags[place.clone()].copy_from_slice(&some.flags);
        if let (Some([references, inter_modes]), Some([some_references, some_modes])) = (&mut self.inter, &some.inter) {
            references[place.clone()].copy_from_slice(some_references);
            inter_modes[place].copy_from_slice(some_modes);
        }
        Ok(())
    }
}
