//! The planes of a picture, owned and borrowed.

/// A picture that owns its planes.
#[derive(Debug, Clone, PartialEq, Eq)]
pub struct KeyframePlanes {
    /// Luma, 16 by 16 samples a macroblock.
    pub y: Vec<u8>,
    /// Chroma U, 8 by 8 samples a macroblock.
    pub u: Vec<u8>,
    /// Chroma V, 8 by 8 samples a macroblock.
    pub v: Vec<u8>,
    /// From a sample of `y` to the one below it.
    pub y_stride: usize,
    /// From a sample of `u` or `v` to the one below it.
    pub uv_stride: usize,
    /// Columns of macroblocks.
    pub mb_cols: usize,
    /// Rows of macroblocks.
    pub mb_rows: usize,
}

/// A picture whose planes are lent to be written. Bytes outside the grid stay as they are.
#[derive(Debug)]
pub struct PlanesMut<'a> {
    /// Luma.
    pub y: &'a mut [u8],
    /// Chroma U.
    pub u: &'a mut [u8],
    /// Chroma V.
    pub v: &'a mut [u8],
    /// From a sample of `y` to the one below it.
    pub y_stride: usize,
    /// From a sample of `u` or `v` to the one below it.
    pub uv_stride: usize,
    /// Columns of macroblocks.
    pub mb_cols: usize,
    /// Rows of macroblocks.
    pub mb_rows: usize,
}

/// A picture whose planes are lent to be read.
#[derive(Debug, Clone, Copy)]
pub struct Planes<'a> {
    /// Luma.
    pub y: &'a [u8],
    /// Chroma U.
    pub u: &'a [u8],
    /// Chroma V.
    pub v: &'a [u8],
    /// From a sample of `y` to the one below it.
    pub y_stride: usize,
    /// From a sample of `u` or `v` to the one below it.
    pub uv_stride: usize,
    /// Columns of macroblocks.
    pub mb_cols: usize,
    /// Rows of macroblocks.
    pub mb_rows: usize,
}

/// The picture that a reconstruction is measured against.
#[derive(Debug, Clone, Copy)]
pub struct SourcePlanes<'a> {
    /// Width in samples.
    pub width: usize,
    /// Height in samples.
    pub height: usize,
    /// Luma.
    pub y: &'a [u8],
    /// Chroma U, half as wide and high, rounded up.
    pub u: &'a [u8],
    /// Chroma V, half as wide and high, rounded up.
    pub v: &'a [u8],
    /// From a sample of `y` to the one below it.
    pub y_stride: usize,
    /// From a sample of `u` or `v` to the one below it.
    pub uv_stride: usize,
}

/// Three planes for a search to work in, with the strides of its reconstruction.
#[derive(Debug)]
pub struct Scratch<'a> {
    /// Luma.
    pub y: &'a mut [u8],
    /// Chroma U.
    pub u: &'a mut [u8],
    /// Chroma V.
    pub v: &'a mut [u8],
}

/// The same record with each plane borrowed anew by the given method.
macro_rules! borrowed {
    ($record:ident, $planes:expr, $borrow:ident) => {
        $record {
            y: $planes.y.$borrow(),
            u: $planes.u.$borrow(),
            v: $planes.v.$borrow(),
            y_stride: $planes.y_stride,
            uv_stride: $planes.uv_stride,
            mb_cols: $planes.mb_cols,
            mb_rows: $planes.mb_rows,
        }
    };
}

impl<'a> From<&'a mut KeyframePlanes> for PlanesMut<'a> {
    fn from(planes: &'a mut KeyframePlanes) -> PlanesMut<'a> {
        borrowed!(PlanesMut, planes, as_mut_slice)
    }
}

impl<'a> From<&'a mut PlanesMut<'_>> for PlanesMut<'a> {
    fn from(planes: &'a mut PlanesMut<'_>) -> PlanesMut<'a> {
        borrowed!(PlanesMut, planes, as_mut)
    }
}

impl<'a> From<&'a KeyframePlanes> for Planes<'a> {
    fn from(planes: &'a KeyframePlanes) -> Planes<'a> {
        borrowed!(Planes, planes, as_slice)
    }
}

impl<'a> From<&'a PlanesMut<'_>> for Planes<'a> {
    fn from(planes: &'a PlanesMut<'_>) -> Planes<'a> {
        borrowed!(Planes, planes, as_ref)
    }
}

impl<'a> From<&'a Planes<'_>> for Planes<'a> {
    fn from(planes: &'a Planes<'_>) -> Planes<'a> {
        *planes
    }
}
