//! One frame as a board meets it: a row of macroblocks arrives, here from recorded planes, is filtered, and the rows that
//! are final by then are sent down, while the rows below are still missing.

use film::Frame;
use vp8_loop_filter::{
    Done, FinalRows, FrameFilterConfig, InterMode, IntraYMode, KeyframePlanes, MacroblockModes, RefFrame, Refusal,
    final_rows, loop_filter_frame_from, loop_filter_inter_frame_from,
};

/// What came of a frame.
pub struct Outcome {
    /// y, u and v as they were sent.
    pub sent: [Vec<u8>; 3],
    /// The rows that were final after each call.
    pub finals: Vec<FinalRows>,
    /// The samples that the filter changed.
    pub changed: usize,
    /// The positions that it smoothed: the calls' parts added up.
    pub smoothed: usize,
    /// Whether what was sent is the recorded result, or the frame as it came where the decoder left it so.
    pub equal: bool,
}

/// What has arrived of a frame.
pub struct Arrived {
    pub planes: KeyframePlanes,
    pub modes: Vec<MacroblockModes>,
    pub has_coeffs: Vec<bool>,
    pub ref_frames: Vec<Option<RefFrame>>,
    pub inter_modes: Vec<Option<InterMode>>,
}

impl Arrived {
    /// Nothing yet: grey samples and default records.
    pub fn nothing(frame: &Frame) -> Arrived {
        let (mb_cols, mb_rows) = (frame.columns(), frame.rows());
        let n = mb_cols * mb_rows;
        let (y, u, v) = (vec![128; 256 * n], vec![128; 64 * n], vec![128; 64 * n]);
        Arrived {
            planes: KeyframePlanes { y, u, v, y_stride: 16 * mb_cols, uv_stride: 8 * mb_cols, mb_cols, mb_rows },
            modes: vec![MacroblockModes::default(); n],
            has_coeffs: vec![false; n],
            ref_frames: vec![None; n],
            inter_modes: vec![None; n],
        }
    }

    /// The whole frame.
    pub fn whole(frame: &Frame) -> Result<Arrived, String> {
        let mut arrived = Arrived::nothing(frame);
        (0..frame.rows()).try_for_each(|row| arrived.row(frame, row))?;
        Ok(arrived)
    }

    /// Puts in a row of macroblocks: its samples before the filter and its records.
    fn row(&mut self, frame: &Frame, row: usize) -> Result<(), String> {
        let planes = [&mut self.planes.y, &mut self.planes.u, &mut self.planes.v];
        for ((plane, recorded), side) in planes.into_iter().zip(&frame.planes).zip([16, 8, 8]) {
            let len = side * side * frame.columns();
            plane[row * len..][..len].copy_from_slice(&recorded[row * len..][..len]);
        }
        for i in row * frame.columns()..(row + 1) * frame.columns() {
            let y_mode = mode(frame.modes[i]).ok_or_else(|| format!("there is no mode {}", frame.modes[i]))?;
            self.modes[i] = MacroblockModes { y_mode, segment_id: Some(frame.segments[i]) };
            self.has_coeffs[i] = frame.flags[i] != 0;
            let (reference, inter) = (frame.references[i], frame.inter_modes[i]);
            self.ref_frames[i] = ref_frame(reference).ok_or_else(|| format!("there is no reference {reference}"))?;
            self.inter_modes[i] = inter_mode(inter).ok_or_else(|| format!("there is no inter mode {inter}"))?;
        }
        Ok(())
    }
}

/// Takes in, filters and sends a frame, one call for each row of macroblocks.
pub fn row_by_row(frame: &Frame) -> Result<Outcome, String> {
    let config = config(frame);
    let mut arrived = Arrived::nothing(frame);
    let sent = [Vec::new(), Vec::new(), Vec::new()];
    let mut outcome = Outcome { sent, finals: Vec::new(), changed: 0, smoothed: 0, equal: false };
    let mut next = 0;
    for row in 0..frame.rows() {
        arrived.row(frame, row)?;
        let told = |refusal: Refusal| refusal.to_string();
        let done = filter_some(&mut arrived, &config, next, frame.columns()).map_err(told)?;
        next = done.next;
        outcome.smoothed += done.smoothed;
        let rows = final_rows(&arrived.planes, next).map_err(told)?;
        send(&arrived.planes, rows, &mut outcome.sent);
        outcome.finals.push(rows);
    }
    let samples = outcome.sent.iter().flatten().zip(frame.planes.iter().flatten());
    outcome.changed = samples.filter(|(after, before)| after != before).count();
    outcome.equal = match frame.left_alone() {
        true => outcome.sent == frame.planes,
        false => film::checksum(&outcome.sent) == frame.after,
    };
    Ok(outcome)
}

/// Filters from a start by the frame call, which header level 0 turns off.
pub fn filter_some(
    arrived: &mut Arrived,
    config: &FrameFilterConfig,
    start: usize,
    allowance: usize,
) -> Result<Done, Refusal> {
    let Arrived { planes, modes, has_coeffs, ref_frames, inter_modes } = arrived;
    if config.key_frame {
        loop_filter_frame_from(planes, modes, has_coeffs, config, start, allowance)
    } else {
        loop_filter_inter_frame_from(planes, modes, has_coeffs, ref_frames, inter_modes, config, start, allowance)
    }
}

/// Sends the rows that are final and not yet sent.
fn send(planes: &KeyframePlanes, rows: FinalRows, sent: &mut [Vec<u8>; 3]) {
    let [y, u, v] = sent;
    y.extend(&planes.y[y.len()..rows.luma * planes.y_stride]);
    u.extend(&planes.u[u.len()..rows.chroma * planes.uv_stride]);
    v.extend(&planes.v[v.len()..rows.chroma * planes.uv_stride]);
}

/// The settings of a frame.
pub fn config(frame: &Frame) -> FrameFilterConfig {
    let recorded = frame.config();
    let [ref_delta_current, ref_delta_last, ref_delta_golden, ref_delta_altref] = recorded.ref_deltas();
    let [bpred_mode_delta, zero_mv_mode_delta, other_mv_mode_delta, split_mv_mode_delta] = recorded.mode_deltas();
    FrameFilterConfig {
        simple: recorded.simple,
        key_frame: recorded.key_frame,
        loop_filter_level: recorded.loop_filter_level,
        sharpness_level: recorded.sharpness_level,
        segmentation_enabled: recorded.segmentation_enabled,
        segment_abs: recorded.segment_abs,
        segment_lf_level: recorded.segment_lf_level,
        delta_enabled: recorded.delta_enabled,
        ref_delta_current,
        bpred_mode_delta,
        ref_delta_last,
        ref_delta_golden,
        ref_delta_altref,
        zero_mv_mode_delta,
        other_mv_mode_delta,
        split_mv_mode_delta,
    }
}

fn mode(byte: u8) -> Option<IntraYMode> {
    use IntraYMode::*;
    [Dc, V, H, Tm, B].get(byte as usize).copied()
}

fn ref_frame(byte: u8) -> Option<Option<RefFrame>> {
    use RefFrame::*;
    [None, Some(Last), Some(Golden), Some(AltRef)].get(byte as usize).copied()
}

fn inter_mode(byte: u8) -> Option<Option<InterMode>> {
    use InterMode::*;
    [None, Some(Zero), Some(Nearest), Some(Near), Some(New), Some(Split)].get(byte as usize).copied()
}
