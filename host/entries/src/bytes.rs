//! What the bytes of the lists stand for in the Rust (document 01, Option lists). `None`: refusal 6.

use crate::Lists;
use oracle::{InterMode, IntraUvMode, IntraYMode, MacroblockModes, RefFrame};

pub fn mode(byte: u8) -> Option<IntraYMode> {
    use IntraYMode::*;
    [Dc, V, H, Tm, B].get(byte as usize).copied()
}

pub fn reference(byte: u8) -> Option<Option<RefFrame>> {
    use RefFrame::*;
    [None, Some(Last), Some(Golden), Some(AltRef)].get(byte as usize).copied()
}

pub fn inter_mode(byte: u8) -> Option<Option<InterMode>> {
    use InterMode::*;
    [None, Some(Zero), Some(Nearest), Some(Near), Some(New), Some(Split)].get(byte as usize).copied()
}

/// The Rust's lists for the bytes of a picture.
pub struct Records {
    pub modes: Vec<MacroblockModes>,
    pub has_coeffs: Vec<bool>,
    pub references: Vec<Option<RefFrame>>,
    pub inter_modes: Vec<Option<InterMode>>,
}

impl Records {
    pub fn of(lists: &Lists) -> Option<Records> {
        let record = |(byte, segment): (&u8, &u8)| {
            Some(MacroblockModes {
                segment_id: (*segment != 0).then_some(*segment),
                mb_skip_coeff: false,
                y_mode: mode(*byte)?,
                subblock_modes: None,
                uv_mode: IntraUvMode::Dc,
            })
        };
        Some(Records {
            modes: lists.modes.iter().zip(lists.segments).map(record).collect::<Option<_>>()?,
            has_coeffs: lists.flags.iter().map(|flag| *flag != 0).collect(),
            references: lists.references.iter().map(|byte| reference(*byte)).collect::<Option<_>>()?,
            inter_modes: lists.inter_modes.iter().map(|byte| inter_mode(*byte)).collect::<Option<_>>()?,
        })
    }
}
