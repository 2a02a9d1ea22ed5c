//! Why a call was refused.

use crate::planes::{Planes, PlanesMut, Scratch, SourcePlanes};
use std::fmt;

/// Why a call was refused. The kinds are the numbers 1 to 10 of the C header, in its order.
#[derive(Debug, Clone, Copy, PartialEq, Eq, Hash)]
#[non_exhaustive]
pub enum RefusalKind {
    /// 1: columns or rows above 1024.
    GridTooLarge,
    /// 2: luma stride below 16 × columns, chroma stride below 8 × columns, or either above 65,536.
    BadStride,
    /// 3: a plane or scratch plane shorter than (rows of samples - 1) × stride + samples a row, counted over the grid.
    ShortPlane,
    /// 4: a kernel window that does not fit into its slice at its base.
    NoWindow,
    /// 5: a list whose length is not columns × rows.
    WrongLength,
    /// 6: a byte that stands for no mode, reference or inter mode. The enums of this crate have no such value.
    BadEntry,
    /// 7: a start above columns × rows.
    StartTooLarge,
    /// 8: source width above 16 × columns or height above 16 × rows.
    SourceTooLarge,
    /// 9: in a source with samples, a stride below the row or above 65,536, or a plane too short by the rule of 3.
    BadSource,
    /// 10: an error sum that exceeds 64 bits.
    SumTooLarge,
    /// A number that this version of the crate does not know.
    Unknown,
}

impl RefusalKind {
    /// The kind with a number. 0 is none.
    fn of(number: u8) -> RefusalKind {
        use RefusalKind::*;
        let kinds = [
            GridTooLarge,
            BadStride,
            ShortPlane,
            NoWindow,
            WrongLength,
            BadEntry,
            StartTooLarge,
            SourceTooLarge,
            BadSource,
            SumTooLarge,
        ];
        let place = usize::from(number).wrapping_sub(1);
        kinds.get(place).copied().unwrap_or(Unknown)
    }
}

/// A refused call: its kind and number, and what was expected and what came. A refused call changes nothing that it was
/// lent.
#[derive(Debug, Clone, PartialEq, Eq)]
pub struct Refusal {
    number: u8,
    message: String,
}

impl Refusal {
    /// Why the call was refused.
    pub fn kind(&self) -> RefusalKind {
        RefusalKind::of(self.number)
    }

    /// The number of the C header.
    pub fn number(&self) -> u8 {
        self.number
    }

    /// What was expected and what came.
    pub fn message(&self) -> &str {
        &self.message
    }

    /// The refusal of records that do not fit into their picture.
    pub(crate) fn wrong_length(message: String) -> Refusal {
        Refusal { number: 5, message }
    }
}

impl fmt::Display for Refusal {
    fn fmt(&self, f: &mut fmt::Formatter<'_>) -> fmt::Result {
        write!(f, "refused ({}): {}", self.number, self.message)
    }
}

impl std::error::Error for Refusal {}

/// `Ok` for 0, else the refusal with that number of a call that was lent this.
pub(crate) fn answer(number: u8, lent: impl FnOnce() -> Lent) -> Result<(), Refusal> {
    if number == 0 { Ok(()) } else { Err(Refusal { number, message: lent().message(number) }) }
}

/// What a call was lent, in numbers.
#[derive(Default)]
pub(crate) struct Lent {
    mb_cols: usize,
    mb_rows: usize,
    y_stride: usize,
    uv_stride: usize,
    planes: Vec<Plane>,
    lists: Vec<(&'static str, usize)>,
    start: usize,
    source: Option<Source>,
    window: Option<Window>,
}

struct Plane {
    name: &'static str,
    len: usize,
    /// Samples of a macroblock's side.
    side: usize,
    stride: usize,
}

struct Source {
    width: usize,
    height: usize,
    /// Name, length, stride, width and height of each plane.
    planes: [(&'static str, usize, usize, usize, usize); 3],
}

struct Window {
    size: usize,
    base: usize,
    len: usize,
}

impl From<&Planes<'_>> for Lent {
    fn from(planes: &Planes<'_>) -> Lent {
        let Planes { y, u, v, y_stride, uv_stride, mb_cols, mb_rows } = *planes;
        let lent = Lent { mb_cols, mb_rows, y_stride, uv_stride, ..Lent::default() };
        lent.and_planes([("luma plane", y.len()), ("U plane", u.len()), ("V plane", v.len())])
    }
}

impl From<&PlanesMut<'_>> for Lent {
    fn from(planes: &PlanesMut<'_>) -> Lent {
        Lent::from(&Planes::from(planes))
    }
}

impl Lent {
    pub fn window(size: usize, base: usize, len: usize) -> Lent {
        Lent { window: Some(Window { size, base, len }), ..Lent::default() }
    }

    fn and_planes(mut self, planes: [(&'static str, usize); 3]) -> Lent {
        let shapes = [(16, self.y_stride), (8, self.uv_stride), (8, self.uv_stride)];
        let all = planes.into_iter().zip(shapes);
        self.planes.extend(all.map(|((name, len), (side, stride))| Plane { name, len, side, stride }));
        self
    }

    pub fn and_scratch(self, scratch: &Scratch<'_>) -> Lent {
        let Scratch { y, u, v } = scratch;
        self.and_planes([("luma scratch plane", y.len()), ("U scratch plane", u.len()), ("V scratch plane", v.len())])
    }

    pub fn and_lists(self, lists: &[(&'static str, usize)]) -> Lent {
        Lent { lists: lists.to_vec(), ..self }
    }

    pub fn and_start(self, start: usize) -> Lent {
        Lent { start, ..self }
    }

    pub fn and_source(self, source: &SourcePlanes<'_>) -> Lent {
        let SourcePlanes { width, height, y, u, v, y_stride, uv_stride } = *source;
        let (half_width, half_height) = (width.div_ceil(2), height.div_ceil(2));
        let planes = [
            ("luma", y.len(), y_stride, width, height),
            ("U", u.len(), uv_stride, half_width, half_height),
            ("V", v.len(), uv_stride, half_width, half_height),
        ];
        Lent { source: Some(Source { width, height, planes }), ..self }
    }

    fn message(&self, number: u8) -> String {
        let found = match RefusalKind::of(number) {
            RefusalKind::GridTooLarge => Some(self.grid_too_large()),
            RefusalKind::BadStride => self.bad_stride(),
            RefusalKind::ShortPlane => self.short_plane(),
            RefusalKind::NoWindow => self.no_window(),
            RefusalKind::WrongLength => self.wrong_length(),
            RefusalKind::BadEntry => Some(String::from("a byte stands for no mode, reference or inter mode")),
            RefusalKind::StartTooLarge => Some(self.start_too_large()),
            RefusalKind::SourceTooLarge => self.source_too_large(),
            RefusalKind::BadSource => self.bad_source(),
            RefusalKind::SumTooLarge => Some(String::from("the error sum exceeds 64 bits")),
            RefusalKind::Unknown => None,
        };
        found.unwrap_or_else(|| String::from("the library gave no other reason than this number"))
    }

    fn grid(&self) -> String {
        format!("a grid of {} x {} macroblocks", self.mb_cols, self.mb_rows)
    }

    fn grid_too_large(&self) -> String {
        format!("{} came, at most 1024 columns and 1024 rows are taken", self.grid())
    }

    fn bad_stride(&self) -> Option<String> {
        let strides = [("luma", self.y_stride, 16), ("chroma", self.uv_stride, 8)];
        strides.into_iter().find_map(|(name, stride, side)| {
            let least = product(side, self.mb_cols);
            let grid = format!("{} macroblock columns need", self.mb_cols);
            stride_text(stride, least).map(|range| format!("the {name} stride is {stride}, {grid} {range}"))
        })
    }

    fn short_plane(&self) -> Option<String> {
        self.planes.iter().find_map(|&Plane { name, len, side, stride }| {
            let least = needed(product(side, self.mb_rows), stride, product(side, self.mb_cols));
            let short = (len as u128) < least;
            short.then(|| format!("the {name} has {len} bytes, {} with stride {stride} needs {least}", self.grid()))
        })
    }

    fn no_window(&self) -> Option<String> {
        let Window { size, base, len } = self.window.as_ref()?;
        Some(format!("a window of {size} bytes at base {base} does not fit into a slice of {len} bytes"))
    }

    fn wrong_length(&self) -> Option<String> {
        let expected = product(self.mb_cols, self.mb_rows);
        let (name, len) = self.lists.iter().find(|(_, len)| *len as u128 != expected)?;
        Some(format!("the list of {name} has {len} entries, {} needs {expected}", self.grid()))
    }

    fn start_too_large(&self) -> String {
        let most = product(self.mb_cols, self.mb_rows);
        format!("the start is {}, {} takes at most {most}", self.start, self.grid())
    }

    fn source_too_large(&self) -> Option<String> {
        let Source { width, height, .. } = self.source.as_ref()?;
        let (most_width, most_height) = (product(16, self.mb_cols), product(16, self.mb_rows));
        Some(format!("the source has {width} x {height} samples, {} covers {most_width} x {most_height}", self.grid()))
    }

    fn bad_source(&self) -> Option<String> {
        let planes = &self.source.as_ref()?.planes;
        let strides = planes.iter().find_map(|&(name, _, stride, width, _)| {
            let range = stride_text(stride, width as u128)?;
            Some(format!("the stride of the source's {name} plane is {stride}, a width of {width} needs {range}"))
        });
        strides.or_else(|| {
            planes.iter().find_map(|&(name, len, stride, width, height)| {
                let least = needed(height as u128, stride, width as u128);
                let shape = format!("{width} x {height} samples with stride {stride} need {least}");
                ((len as u128) < least).then(|| format!("the source's {name} plane has {len} bytes, {shape}"))
            })
        })
    }
}

const LARGEST_STRIDE: u128 = 65536;

/// The range of a stride that lies outside it.
fn stride_text(stride: usize, least: u128) -> Option<String> {
    let inside = (least..=LARGEST_STRIDE).contains(&(stride as u128));
    (!inside).then(|| format!("{least} to {LARGEST_STRIDE}"))
}

fn product(a: usize, b: usize) -> u128 {
    a as u128 * b as u128
}

/// The bytes of a plane with this many rows of samples and samples a row.
pub(crate) fn needed(rows: u128, stride: usize, samples: u128) -> u128 {
    rows.saturating_sub(1).saturating_mul(stride as u128).saturating_add(samples)
}
