//! The error sum of a reconstruction, and the search for level and sharpness.

use crate::config::FrameFilterConfig;
use crate::entries;
use crate::macroblock::{InterFilterInfo, Lists, MacroblockModes};
use crate::planes::{Planes, Scratch, SourcePlanes};
use crate::refusal::{Lent, Refusal, answer, needed};

/// What a search chose.
#[derive(Debug, Clone, Copy, PartialEq, Eq)]
pub struct Choice {
    /// The level, 0 to 63.
    pub level: u8,
    /// The sharpness, 0 to 7.
    pub sharpness: u8,
    /// The candidates scored at a level above 0: 19 to 30.
    pub candidates: usize,
}

/// The sum of squared differences over the source's width and height, luma and both chroma planes. Can be refused with
/// 1, 2, 3, 8, 9 or 10.
///
/// ```
/// use vp8_loop_filter::{KeyframePlanes, SourcePlanes, reconstruction_ssd};
///
/// let (y, u, v) = (vec![100; 256], vec![128; 64], vec![128; 64]);
/// let planes = KeyframePlanes { y, u, v, y_stride: 16, uv_stride: 8, mb_cols: 1, mb_rows: 1 };
/// let (y, u, v) = (&[103; 256], &[128; 64], &[127; 64]);
/// let source = SourcePlanes { width: 15, height: 9, y, u, v, y_stride: 16, uv_stride: 8 };
/// assert_eq!(reconstruction_ssd(&planes, &source)?, 15 * 9 * 9 + 8 * 5);
///
/// let refusal = reconstruction_ssd(&planes, &SourcePlanes { width: 17, ..source }).unwrap_err();
/// let expected = "refused (8): the source has 17 x 9 samples, a grid of 1 x 1 macroblocks covers 16 x 16";
/// assert_eq!(refusal.to_string(), expected);
/// # Ok::<(), vp8_loop_filter::Refusal>(())
/// ```
pub fn reconstruction_ssd<'a, P>(planes: &'a P, src: &SourcePlanes<'_>) -> Result<u64, Refusal>
where
    Planes<'a>: From<&'a P>,
{
    let planes = Planes::from(planes);
    let mut sum = 0;
    let number = entries::reconstruction_ssd(&planes, src, &mut sum);
    answer(number, || Lent::from(&planes).and_source(src)).map(|()| sum)
}

/// The level and sharpness whose pass over the reconstruction comes nearest to the source, of the pairs that the search
/// tries: level 0, which is unfiltered; 4, 8 to 60 and 63 at the base sharpness, the lesser of `base`'s own and 7; the
/// levels within 3 of the best; the other sharpness values at the best level. The earlier of equal ones stays. `inter` is
/// given for an inter frame. Can be refused with 1, 2, 3, 8, 9 or 10; lists of wrong length and a grid without columns or
/// rows answer level 0 and the base sharpness.
pub fn select_filter_params<'a, P, M>(
    planes: &'a P,
    modes: &[M],
    has_coeffs: &[bool],
    base: &FrameFilterConfig,
    src: &SourcePlanes<'_>,
    inter: Option<&InterFilterInfo<'_>>,
) -> Result<(u8, u8), Refusal>
where
    Planes<'a>: From<&'a P>,
    MacroblockModes: for<'m> From<&'m M>,
{
    let planes = Planes::from(planes);
    let lists = Lists::new(modes, has_coeffs.iter().copied(), inter);
    let choice = with_scratch(&planes, |scratch| pair(&planes, &lists, base, src, scratch))?;
    Ok((choice.level, choice.sharpness))
}

/// [`select_filter_params`] in lent scratch, whose grid is left as the chosen pass leaves the reconstruction, or as an
/// unfiltered copy of it for level 0.
///
/// ```
/// use vp8_loop_filter::{FrameFilterConfig, KeyframePlanes, MacroblockModes, Scratch, SourcePlanes};
/// use vp8_loop_filter::{filter_frame_flags, select_filter_params_in};
///
/// let (y, u, v) = (vec![100; 32 * 16], vec![128; 16 * 8], vec![128; 16 * 8]);
/// let mut planes = KeyframePlanes { y, u, v, y_stride: 32, uv_stride: 16, mb_cols: 2, mb_rows: 1 };
/// planes.y.chunks_mut(32).for_each(|row| row[16..].fill(108));
/// let smooth: Vec<u8> = (0..16).flat_map(|_| (0..32).map(|column| 96 + column / 2)).collect();
/// let (y, u, v) = (&smooth[..], &planes.u[..], &planes.v[..]);
/// let source = SourcePlanes { width: 32, height: 16, y, u, v, y_stride: 32, uv_stride: 16 };
///
/// let (mut y, mut u, mut v) = (vec![0; 32 * 16], vec![0; 16 * 8], vec![0; 16 * 8]);
/// let scratch = Scratch { y: &mut y, u: &mut u, v: &mut v };
/// let (modes, base) = ([MacroblockModes::default(); 2], FrameFilterConfig::default().with_key_frame(true));
/// let choice = select_filter_params_in(&planes, &modes, &[false; 2], &base, &source, None, scratch)?;
///
/// let config = base.with_loop_filter_level(choice.level).with_sharpness_level(choice.sharpness);
/// filter_frame_flags(&mut planes, &modes, &[false; 2], &config)?;
/// assert_eq!((y, u, v), (planes.y, planes.u, planes.v));
/// # Ok::<(), vp8_loop_filter::Refusal>(())
/// ```
pub fn select_filter_params_in<'a, P, M>(
    planes: &'a P,
    modes: &[M],
    has_coeffs: &[bool],
    base: &FrameFilterConfig,
    src: &SourcePlanes<'_>,
    inter: Option<&InterFilterInfo<'_>>,
    scratch: Scratch<'_>,
) -> Result<Choice, Refusal>
where
    Planes<'a>: From<&'a P>,
    MacroblockModes: for<'m> From<&'m M>,
{
    let lists = Lists::new(modes, has_coeffs.iter().copied(), inter);
    pair(&Planes::from(planes), &lists, base, src, scratch)
}

/// The level that [`select_filter_params`] answers.
pub fn select_filter_level<'a, P, M>(
    planes: &'a P,
    modes: &[M],
    has_coeffs: &[bool],
    base: &FrameFilterConfig,
    src: &SourcePlanes<'_>,
    inter: Option<&InterFilterInfo<'_>>,
) -> Result<u8, Refusal>
where
    Planes<'a>: From<&'a P>,
    MacroblockModes: for<'m> From<&'m M>,
{
    let planes = Planes::from(planes);
    let lists = Lists::new(modes, has_coeffs.iter().copied(), inter);
    with_scratch(&planes, |mut scratch| {
        let (lists, mut level, mut candidates) = (lists.bytes(), 0, 0);
        let number = entries::select(&planes, src, &lists, base, &mut scratch, &mut level, None, &mut candidates);
        answer(number, || Lent::from(&planes).and_scratch(&scratch).and_source(src)).map(|()| level)
    })
}

/// The search for level and sharpness.
fn pair(
    planes: &Planes<'_>,
    lists: &Lists,
    base: &FrameFilterConfig,
    src: &SourcePlanes<'_>,
    mut scratch: Scratch<'_>,
) -> Result<Choice, Refusal> {
    let mut choice = Choice { level: 0, sharpness: 0, candidates: 0 };
    let (lists, Choice { level, sharpness, candidates }) = (lists.bytes(), &mut choice);
    let number = entries::select(planes, src, &lists, base, &mut scratch, level, Some(sharpness), candidates);
    answer(number, || Lent::from(planes).and_scratch(&scratch).and_source(src)).map(|()| choice)
}

/// Calls with scratch as long as the grid needs, and no longer than the reconstruction. A scratch plane that memory
/// does not suffice for is empty, which the search refuses with 3.
pub(crate) fn with_scratch<T>(planes: &Planes<'_>, call: impl FnOnce(Scratch<'_>) -> T) -> T {
    let plane = |plane: &[u8], side: u128, stride: usize| {
        let least = needed(side * planes.mb_rows as u128, stride, side * planes.mb_cols as u128);
        let len = usize::try_from(least).unwrap_or(usize::MAX).min(plane.len());
        let mut scratch = Vec::new();
        if scratch.try_reserve_exact(len).is_ok() {
            scratch.resize(len, 0);
        }
        scratch
    };
    let mut y = plane(planes.y, 16, planes.y_stride);
    let mut u = plane(planes.u, 8, planes.uv_stride);
    let mut v = plane(planes.v, 8, planes.uv_stride);
    call(Scratch { y: &mut y, u: &mut u, v: &mut v })
}
