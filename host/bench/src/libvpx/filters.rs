//! libvpx's SSE2 filters over a frame: macroblock by macroblock in raster order, as its own loop over a frame calls them.

use crate::Case;
use entries::Lists;
use oracle::{KeyframePlanes, LoopFilterParams};
use std::ffi::c_int;
use std::time::{Duration, Instant};

/// libvpx's `loop_filter_info`: each limit 16 times.
#[repr(C)]
struct Limits {
    mblim: *const u8,
    blim: *const u8,
    lim: *const u8,
    hev_thr: *const u8,
}

type Normal = unsafe extern "C" fn(*mut u8, *mut u8, *mut u8, c_int, c_int, *const Limits);
type Simple = unsafe extern "C" fn(*mut u8, c_int, *const u8);

unsafe extern "C" {
    fn vp8_loop_filter_mbv_sse2(y: *mut u8, u: *mut u8, v: *mut u8, stride: c_int, uv: c_int, limits: *const Limits);
    fn vp8_loop_filter_bv_sse2(y: *mut u8, u: *mut u8, v: *mut u8, stride: c_int, uv: c_int, limits: *const Limits);
    fn vp8_loop_filter_mbh_sse2(y: *mut u8, u: *mut u8, v: *mut u8, stride: c_int, uv: c_int, limits: *const Limits);
    fn vp8_loop_filter_bh_sse2(y: *mut u8, u: *mut u8, v: *mut u8, stride: c_int, uv: c_int, limits: *const Limits);
    fn vp8_loop_filter_simple_vertical_edge_sse2(y: *mut u8, stride: c_int, limit: *const u8);
    fn vp8_loop_filter_bvs_sse2(y: *mut u8, stride: c_int, limit: *const u8);
    fn vp8_loop_filter_simple_horizontal_edge_sse2(y: *mut u8, stride: c_int, limit: *const u8);
    fn vp8_loop_filter_bhs_sse2(y: *mut u8, stride: c_int, limit: *const u8);
}

/// In the order of a macroblock: its left edge, the vertical ones inside, its upper edge, the horizontal ones inside.
const NORMAL: [Normal; 4] =
    [vp8_loop_filter_mbv_sse2, vp8_loop_filter_bv_sse2, vp8_loop_filter_mbh_sse2, vp8_loop_filter_bh_sse2];
const SIMPLE: [Simple; 4] = [
    vp8_loop_filter_simple_vertical_edge_sse2,
    vp8_loop_filter_bvs_sse2,
    vp8_loop_filter_simple_horizontal_edge_sse2,
    vp8_loop_filter_bhs_sse2,
];

/// The samples around a plane, on each side, as libvpx has them: its filters read beyond the edge that they filter.
const BORDER: usize = 32;

/// A plane with a border. Its rows begin where 32 divides the address.
struct Plane {
    bytes: Vec<u8>,
    first: usize,
    stride: usize,
    width: usize,
    height: usize,
}

impl Plane {
    fn new(width: usize, height: usize) -> Plane {
        let stride = (width + 2 * BORDER).next_multiple_of(64);
        let bytes = vec![0; stride * (height + 2 * BORDER) + 64 + BORDER];
        let first = stride * BORDER + bytes.as_ptr().align_offset(64) + BORDER;
        Plane { bytes, first, stride, width, height }
    }

    fn fill(&mut self, samples: &[u8]) {
        for (row, samples) in samples.chunks_exact(self.width).enumerate() {
            self.bytes[self.first + row * self.stride..][..self.width].copy_from_slice(samples);
        }
    }

    fn samples(&self) -> Vec<u8> {
        let row = |row: usize| &self.bytes[self.first + row * self.stride..][..self.width];
        (0..self.height).flat_map(row).copied().collect()
    }

    /// The first sample of a macroblock, whose side in this plane is `side`.
    fn macroblock(&mut self, column: usize, row: usize, side: usize) -> *mut u8 {
        assert!(side * (column + 1) <= self.width && side * (row + 1) <= self.height);
        self.bytes.as_mut_ptr().wrapping_add(self.first + side * row * self.stride + side * column)
    }
}

#[repr(align(16))]
struct Wide([u8; 16]);

/// The filters over a frame in which each macroblock has the same limits.
struct Filters {
    simple: bool,
    mblim: Wide,
    blim: Wide,
    lim: Wide,
    hev_thr: Wide,
}

impl Filters {
    fn new(case: &Case) -> Filters {
        let config = &case.config;
        let limits = LoopFilterParams::derive(config.loop_filter_level, config.sharpness_level, config.key_frame);
        let wide = |limit: u8| Wide([limit; 16]);
        Filters {
            simple: config.simple,
            mblim: wide(limits.mbedge_limit),
            blim: wide(limits.sub_bedge_limit),
            lim: wide(limits.interior_limit),
            hev_thr: wide(limits.hev_threshold),
        }
    }

    fn frame(&self, planes: &mut [Plane; 3], case: &Case, columns: usize) {
        let [mblim, blim, lim, hev_thr] =
            [&self.mblim, &self.blim, &self.lim, &self.hev_thr].map(|wide| wide.0.as_ptr());
        let limits = Limits { mblim, blim, lim, hev_thr };
        for (m, (mode, flag)) in case.modes.iter().zip(&case.flags).enumerate() {
            let (column, row, inner) = (m % columns, m / columns, *mode == 4 || *flag != 0);
            self.macroblock(planes, column, row, [column > 0, inner, row > 0, inner], &limits);
        }
    }

    fn macroblock(&self, planes: &mut [Plane; 3], column: usize, row: usize, edges: [bool; 4], limits: &Limits) {
        let [y, u, v] = planes;
        let [stride, uv_stride] = [y.stride, u.stride].map(|stride| stride as c_int);
        let (y, u, v) = (y.macroblock(column, row, 16), u.macroblock(column, row, 8), v.macroblock(column, row, 8));
        for edge in (0..4).filter(|edge| edges[*edge]) {
            // SAFETY: the macroblock lies in the planes, with a border on all sides; its luma rows begin where 16 divides
            // the address; each limit points to 16 bytes.
            unsafe {
                if self.simple {
                    SIMPLE[edge](y, stride, if edge % 2 == 0 { limits.mblim } else { limits.blim });
                } else {
                    NORMAL[edge](y, u, v, stride, uv_stride, limits);
                }
            }
        }
    }
}

/// The smallest times of the library and of libvpx. They take turns in being first.
pub fn times(case: &Case, repetitions: usize) -> [Duration; 2] {
    let frame = case.frame;
    let (columns, rows) = (frame.columns(), frame.rows());
    let lists = Lists {
        modes: &case.modes,
        segments: &frame.segments,
        flags: &case.flags,
        references: &frame.references,
        inter_modes: &frame.inter_modes,
    };
    let (filters, n) = (Filters::new(case), columns * rows);
    let mut bordered = [16, 8, 8].map(|side| Plane::new(side * columns, side * rows));
    let mut times = [Duration::MAX; 2];
    for turn in 0..2 * repetitions {
        let libvpx = (turn / 2 + turn) % 2 == 1;
        let [y, u, v] = frame.planes.clone();
        let (y_stride, uv_stride) = (16 * columns, 8 * columns);
        let mut planes = KeyframePlanes { y, u, v, y_stride, uv_stride, mb_cols: columns, mb_rows: rows };
        bordered.iter_mut().zip(&frame.planes).for_each(|(plane, samples)| plane.fill(samples));
        let start = Instant::now();
        if libvpx {
            filters.frame(&mut bordered, case, columns)
        } else {
            case.run_library(&mut planes, &lists, n)
        }
        times[libvpx as usize] = times[libvpx as usize].min(start.elapsed());
        if !libvpx {
            filters.frame(&mut bordered, case, columns);
            let left = bordered.each_ref().map(Plane::samples);
            assert!(left == [planes.y, planes.u, planes.v], "{case}: the library and libvpx leave the same planes");
        }
    }
    times
}

#[cfg(test)]
mod tests {
    use super::*;
    use crate::Inner;

    /// `times` compares them.
    #[test]
    fn libvpx_leaves_the_same_planes() {
        for frame in &film::bench() {
            for simple in [false, true] {
                assert!(times(&Case::new(frame, simple, 24, Inner::Coded), 1) != [Duration::MAX; 2]);
            }
        }
    }

    #[test]
    fn planes_keep_their_samples() {
        let mut plane = Plane::new(48, 32);
        let samples: Vec<u8> = (0..48 * 32).map(|i| i as u8).collect();
        plane.fill(&samples);
        assert!(plane.samples() == samples && plane.macroblock(2, 1, 16).align_offset(16) == 0);
    }
}
