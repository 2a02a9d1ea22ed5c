//! The full search: every level with every sharpness.

use crate::config::FrameFilterConfig;
use crate::entries;
use crate::macroblock::{InterFilterInfo, Lists, MacroblockModes};
use crate::planes::{Planes, Scratch, SourcePlanes};
use crate::refusal::{Lent, Refusal, answer};
use crate::search::with_scratch;

/// What a full search chose.
#[derive(Debug, Clone, Copy, PartialEq, Eq)]
pub struct Best {
    /// The level, 0 to 63. 0 is the unfiltered reconstruction.
    pub level: u8,
    /// The sharpness, 0 to 7.
    pub sharpness: u8,
    /// The error sum of the pass with this pair, as [`reconstruction_ssd`](crate::reconstruction_ssd) counts it.
    pub sum: u64,
}

/// The level and sharpness whose pass over the reconstruction comes nearest to the source, of all pairs: unfiltered, and
/// every level 1 to 63 with every sharpness 0 to 7. Of equal ones the unfiltered reconstruction is chosen, then the lower
/// level, then the lower sharpness. Unfiltered is level 0 with the base sharpness, the lesser of `base`'s own and 7.
///
/// The sum is at most that of the pair that [`select_filter_params`](crate::select_filter_params) chooses, which tries
/// 31 pairs at most. This call tries 505, and is for stills: a megapixel takes about a second with the normal filter and
/// half a second with the simple one, on one core of an x86-64 machine.
///
/// `inter` is given for an inter frame. Can be refused with 1, 2, 3, 8, 9 or 10; lists of wrong length and a grid without
/// columns or rows answer level 0, the base sharpness and the sum of the reconstruction.
///
/// ```
/// use vp8_loop_filter::{FrameFilterConfig, KeyframePlanes, MacroblockModes, SourcePlanes};
/// use vp8_loop_filter::{filter_frame_flags, full_search, reconstruction_ssd};
///
/// let (y, u, v) = (vec![100; 32 * 16], vec![128; 16 * 8], vec![128; 16 * 8]);
/// let mut planes = KeyframePlanes { y, u, v, y_stride: 32, uv_stride: 16, mb_cols: 2, mb_rows: 1 };
/// planes.y.chunks_mut(32).for_each(|row| row[16..].fill(108));
/// let smooth: Vec<u8> = (0..16).flat_map(|_| (0..32).map(|column| 96 + column / 2)).collect();
/// let (u, v) = (planes.u.clone(), planes.v.clone());
/// let source = SourcePlanes { width: 32, height: 16, y: &smooth, u: &u, v: &v, y_stride: 32, uv_stride: 16 };
///
/// let (modes, base) = ([MacroblockModes::default(); 2], FrameFilterConfig::default().with_key_frame(true));
/// let best = full_search(&planes, &modes, &[false; 2], &base, &source, None)?;
/// assert!(best.sum < reconstruction_ssd(&planes, &source)?);
///
/// let config = base.with_loop_filter_level(best.level).with_sharpness_level(best.sharpness);
/// filter_frame_flags(&mut planes, &modes, &[false; 2], &config)?;
/// assert_eq!(reconstruction_ssd(&planes, &source)?, best.sum);
/// # Ok::<(), vp8_loop_filter::Refusal>(())
/// ```
pub fn full_search<'a, P, M>(
    planes: &'a P,
    modes: &[M],
    has_coeffs: &[bool],
    base: &FrameFilterConfig,
    src: &SourcePlanes<'_>,
    inter: Option<&InterFilterInfo<'_>>,
) -> Result<Best, Refusal>
where
    Planes<'a>: From<&'a P>,
    MacroblockModes: for<'m> From<&'m M>,
{
    let planes = Planes::from(planes);
    let lists = Lists::new(modes, has_coeffs.iter().copied(), inter);
    with_scratch(&planes, |scratch| best(&planes, &lists, base, src, scratch))
}

/// [`full_search`] in lent scratch, whose grid is left as the chosen pass leaves the reconstruction, or as an unfiltered
/// copy of it for level 0. Scratch outside the grid stays.
pub fn full_search_in<'a, P, M>(
    planes: &'a P,
    modes: &[M],
    has_coeffs: &[bool],
    base: &FrameFilterConfig,
    src: &SourcePlanes<'_>,
    inter: Option<&InterFilterInfo<'_>>,
    scratch: Scratch<'_>,
) -> Result<Best, Refusal>
where
    Planes<'a>: From<&'a P>,
    MacroblockModes: for<'m> From<&'m M>,
{
    let lists = Lists::new(modes, has_coeffs.iter().copied(), inter);
    best(&Planes::from(planes), &lists, base, src, scratch)
}

fn best(
    planes: &Planes<'_>,
    lists: &Lists,
    base: &FrameFilterConfig,
    src: &SourcePlanes<'_>,
    mut scratch: Scratch<'_>,
) -> Result<Best, Refusal> {
    let mut best = Best { level: 0, sharpness: 0, sum: 0 };
    let (lists, Best { level, sharpness, sum }) = (lists.bytes(), &mut best);
    let number = entries::full_search(planes, src, &lists, base, &mut scratch, level, sharpness, sum);
    answer(number, || Lent::from(planes).and_scratch(&scratch).and_source(src)).map(|()| best)
}
