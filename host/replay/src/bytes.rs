//! The bytes of a record, as `crates/replay/src/input.rt` reads them.

use crate::picture::{Answer, Layout};
use oracle::FrameFilterConfig;

/// The bytes of one recorded call.
#[derive(Default)]
pub struct Bytes(pub Vec<u8>);

impl Bytes {
    pub fn byte(mut self, byte: u8) -> Bytes {
        self.0.push(byte);
        self
    }

    pub fn bytes(mut self, bytes: &[u8]) -> Bytes {
        self.0.extend(bytes);
        self
    }

    /// The largest size is written as the largest number of four bytes.
    pub fn size(self, size: usize) -> Bytes {
        let number = match size {
            usize::MAX => u32::MAX,
            _ => u32::try_from(size).ok().filter(|number| *number < u32::MAX).expect("a size that can be written"),
        };
        self.bytes(&number.to_le_bytes())
    }

    pub fn signed32(self, number: i32) -> Bytes {
        self.bytes(&((number as i64 + (1 << 31)) as u32).to_le_bytes())
    }

    pub fn signed16(self, number: i16) -> Bytes {
        self.bytes(&((number as i32 + (1 << 15)) as u16).to_le_bytes())
    }

    pub fn signed8(self, number: i8) -> Bytes {
        self.byte((number as i16 + (1 << 7)) as u8)
    }

    /// Layout, and start and allowance or width and height.
    pub fn place(self, layout: &Layout, first: usize, second: usize) -> Bytes {
        let Layout { columns, rows, y_stride, uv_stride } = *layout;
        [columns, rows, y_stride, uv_stride, first, second].into_iter().fold(self, Bytes::size)
    }

    pub fn settings(self, c: &FrameFilterConfig) -> Bytes {
        let marks = [c.segmentation_enabled, c.segment_abs, c.delta_enabled].map(u8::from);
        let deltas = [c.ref_delta_current, c.bpred_mode_delta, c.ref_delta_last, c.ref_delta_golden];
        let more = [c.ref_delta_altref, c.zero_mv_mode_delta, c.other_mv_mode_delta, c.split_mv_mode_delta];
        let head = [c.simple.into(), c.key_frame.into(), c.loop_filter_level, c.sharpness_level];
        let numbers = [c.segment_lf_level, deltas, more];
        numbers.into_iter().flatten().fold(self.bytes(&head).bytes(&marks), Bytes::signed16)
    }

    /// The number of the refusal, or 0 and two numbers.
    pub fn answer(self, answer: Answer) -> Bytes {
        let [first, second] = answer.unwrap_or_default();
        self.byte(answer.err().unwrap_or(0)).size(first).size(second)
    }
}
