//! A pass that is prepared once and halted as often as its caller likes.

use crate::config::FrameFilterConfig;
use crate::entries::Form;
use crate::macroblock::{InterFilterInfo, Lists, MacroblockModes};
use crate::passes::{Done, FinalRows, call, final_rows};
use crate::planes::{Planes, PlanesMut};
use crate::refusal::{Lent, Refusal, answer};

/// A pass over one picture, to be halted and gone on with. The records of the picture are turned into the library's
/// lists once, and planes and lists are judged when the pass is made: what is refused is refused there, and no later
/// call of its own is.
///
/// Its calls together leave what one unbroken pass leaves. While rows below are still decoded, their samples go in by
/// [`planes_mut`](Self::planes_mut) and their records by [`put`](Self::put): rows that [`final_rows`](Self::final_rows)
/// counts do not depend on macroblocks from [`next`](Self::next) on. That a row once counted stays through all of this is
/// the theorem `while-decoding` of `crates/calls/proofs/SentRows.antt`.
///
/// ```
/// use vp8_loop_filter::{FrameFilterConfig, FramePass, IntraYMode, KeyframePlanes, MacroblockModes};
///
/// let (y, u, v) = (vec![100; 16 * 48], vec![128; 8 * 24], vec![128; 8 * 24]);
/// let mut planes = KeyframePlanes { y, u, v, y_stride: 16, uv_stride: 8, mb_cols: 1, mb_rows: 3 };
/// let config = FrameFilterConfig::default().with_key_frame(true).with_loop_filter_level(24);
///
/// let nothing_yet = [MacroblockModes::default(); 3];
/// let mut pass = FramePass::new(&mut planes, &nothing_yet, &[false; 3], None, &config)?;
/// let mut sendable = Vec::new();
/// while !pass.is_done() {
///     // Here the next row of macroblocks is decoded.
///     let row = pass.next();
///     let [y, _, _] = pass.planes_mut();
///     y[256 * row..256 * (row + 1)].fill(90 + row as u8);
///     pass.put(row, &[MacroblockModes { y_mode: IntraYMode::B, segment_id: None }], &[true], None)?;
///
///     pass.advance(1)?;
///     sendable.push(pass.final_rows()?.luma);
/// }
/// assert_eq!(sendable, [13, 29, 48]);
/// assert_eq!(pass.smoothed(), 128 + 160 + 160);
/// # Ok::<(), vp8_loop_filter::Refusal>(())
/// ```
#[derive(Debug)]
pub struct FramePass<'a> {
    form: Form,
    planes: PlanesMut<'a>,
    lists: Lists,
    config: FrameFilterConfig,
    next: usize,
    smoothed: usize,
}

impl<'a> FramePass<'a> {
    /// The pass of a key frame, or with `inter` that of an inter frame, with no macroblock done. Can be refused with 1,
    /// 2, 3 or 5.
    pub fn new<P, M>(
        planes: &'a mut P,
        modes: &[M],
        has_coeffs: &[bool],
        inter: Option<&InterFilterInfo<'_>>,
        config: &FrameFilterConfig,
    ) -> Result<FramePass<'a>, Refusal>
    where
        PlanesMut<'a>: From<&'a mut P>,
        MacroblockModes: for<'m> From<&'m M>,
    {
        Self::judged(Form::Pass, planes.into(), Lists::new(modes, has_coeffs.iter().copied(), inter), config)
    }

    /// The same of the frame call, which a decoder takes: header level 0 turns the filter off, as
    /// [`loop_filter_frame`](crate::loop_filter_frame) says. Its macroblocks are gone through all the same, and
    /// [`next`](Self::next) and [`final_rows`](Self::final_rows) tell what they tell of any pass; that rows once counted
    /// stay is the theorems `key-frame-while-decoding` and `inter-frame-while-decoding` of
    /// `crates/frame_calls/proofs/FrameDemand3.antt`.
    pub fn of_frame<P, M>(
        planes: &'a mut P,
        modes: &[M],
        has_coeffs: &[bool],
        inter: Option<&InterFilterInfo<'_>>,
        config: &FrameFilterConfig,
    ) -> Result<FramePass<'a>, Refusal>
    where
        PlanesMut<'a>: From<&'a mut P>,
        MacroblockModes: for<'m> From<&'m M>,
    {
        Self::judged(Form::Frame, planes.into(), Lists::new(modes, has_coeffs.iter().copied(), inter), config)
    }

    /// No macroblock done, and not refused.
    fn judged(
        form: Form,
        planes: PlanesMut<'a>,
        lists: Lists,
        config: &FrameFilterConfig,
    ) -> Result<FramePass<'a>, Refusal> {
        let mut pass = FramePass { form, planes, lists, config: *config, next: 0, smoothed: 0 };
        pass.advance(0)?;
        Ok(pass)
    }

    /// Filters at most `allowance` macroblocks more, in raster order. A pass that was made is not refused.
    pub fn advance(&mut self, allowance: usize) -> Result<Done, Refusal> {
        let FramePass { form, planes, lists, config, next, smoothed } = self;
        let (number, done) = call(*form, planes, lists, config, *next, allowance);
        answer(number, || Lent::from(&*planes).and_lists(&lists.lent).and_start(*next))?;
        *next = done.next;
        *smoothed += done.smoothed;
        Ok(done)
    }

    /// The next macroblock to be filtered, in raster order; when all are done, their number.
    pub fn next(&self) -> usize {
        self.next
    }

    /// How many positions were smoothed so far: the sum of [`Done::smoothed`] over the calls.
    pub fn smoothed(&self) -> usize {
        self.smoothed
    }

    /// Whether all macroblocks are done.
    pub fn is_done(&self) -> bool {
        self.next >= self.macroblocks()
    }

    /// How many leading rows of samples are final.
    pub fn final_rows(&self) -> Result<FinalRows, Refusal> {
        final_rows(&self.planes, self.next)
    }

    /// The picture, as far as it is filtered.
    pub fn planes(&self) -> Planes<'_> {
        Planes::from(&self.planes)
    }

    /// The samples of y, u and v, for those of macroblocks that are not yet filtered.
    pub fn planes_mut(&mut self) -> [&mut [u8]; 3] {
        [&mut *self.planes.y, &mut *self.planes.u, &mut *self.planes.v]
    }

    /// Puts in the records of macroblocks from `first` on, in place of those that they had. Without `inter` the
    /// references and inter modes stay; a key frame reads none. Refused with 5 if the lists differ in length or the
    /// picture has not that many macroblocks.
    pub fn put<M>(
        &mut self,
        first: usize,
        modes: &[M],
        has_coeffs: &[bool],
        inter: Option<&InterFilterInfo<'_>>,
    ) -> Result<(), Refusal>
    where
        MacroblockModes: for<'m> From<&'m M>,
    {
        let macroblocks = self.macroblocks();
        self.lists.put(first, &Lists::new(modes, has_coeffs.iter().copied(), inter), macroblocks)
    }

    /// The number of macroblocks. The grid of a pass is 1024 by 1024 at most, or has none.
    fn macroblocks(&self) -> usize {
        self.planes.mb_cols.saturating_mul(self.planes.mb_rows)
    }
}
