//! The bench figures of document 01 on the Rust. O speaks of a start, which the Rust does not have.

use oracle::loop_filter::{calculate_mb_filter_level, mb_filter, s2u, simple_segment, subblock_filter, u2s};
use oracle::{
    FrameFilterConfig, IntraUvMode, IntraYMode, KeyframePlanes, LoopFilterParams, MacroblockModes, filter_frame_flags,
    opened,
};

fn derive(level: u8, sharpness: u8, key: bool) -> [u8; 4] {
    let p = LoopFilterParams::derive(level, sharpness, key);
    [p.interior_limit, p.hev_threshold, p.mbedge_limit, p.sub_bedge_limit]
}

#[test]
fn a_to_f_limits() {
    assert_eq!(derive(63, 0, true), [63, 2, 193, 189], "A");
    assert_eq!(derive(0, 0, true), [1, 0, 5, 1], "B");
    assert_eq!(derive(32, 4, true), [5, 1, 73, 69], "C");
    assert_eq!(derive(32, 5, false), [4, 2, 72, 68], "D");
    assert_eq!(derive(3, 5, true), [1, 0, 11, 7], "E");
    assert_eq!(derive(255, 0, true), [255, 2, 255, 255], "F");
}

fn level(header: u8, segment_adds: i16, reference_delta: i16) -> u8 {
    let config = FrameFilterConfig::default()
        .with_loop_filter_level(header)
        .with_segmentation_enabled(true)
        .with_segment_lf_level([segment_adds; 4])
        .with_delta_enabled(true)
        .with_ref_delta_current(reference_delta);
    calculate_mb_filter_level(&config, None, IntraYMode::Dc)
}

#[test]
fn g_and_h_levels() {
    assert_eq!(level(10, -20, 5), 5, "G");
    assert_eq!(level(60, 10, -10), 53, "H");
}

fn simple(edge_limit: u8, mut window: [u8; 4]) -> [u8; 4] {
    simple_segment(edge_limit, &mut window, 0);
    window
}

#[test]
fn i_and_j_simple() {
    assert_eq!(simple(20, [100, 100, 108, 108]), [100, 102, 106, 108], "I");
    assert_eq!(simple(19, [100, 100, 108, 108]), [100, 100, 108, 108], "I");
    assert_eq!(simple(8, [100, 100, 104, 100]), [100, 101, 102, 100], "J");
}

#[test]
fn k_and_l_normal() {
    let mut k = [100, 100, 100, 100, 108, 108, 108, 108];
    mb_filter(0, 1, 20, &mut k, 0);
    assert_eq!(k, [100, 101, 102, 103, 105, 106, 107, 108], "K");
    let mut l = [108, 108, 108, 108, 100, 100, 100, 100];
    subblock_filter(0, 1, 20, &mut l, 0);
    assert_eq!(l, [108, 108, 107, 105, 103, 101, 100, 100], "L");
}

/// Planes of a grid, luma and chroma with a gentle slope and a step of 8 every 16 and 8 columns.
fn planes(mb_cols: usize, mb_rows: usize) -> KeyframePlanes {
    let plane = |side: usize| -> Vec<u8> {
        let (width, height) = (mb_cols * side, mb_rows * side);
        (0..width * height).map(|i| (100 + i % width / side * 8 + i / width % 3) as u8).collect()
    };
    KeyframePlanes {
        y: plane(16),
        u: plane(8),
        v: plane(8),
        y_stride: mb_cols * 16,
        uv_stride: mb_cols * 8,
        mb_cols,
        mb_rows,
    }
}

fn macroblock(y_mode: IntraYMode, segment: u8) -> MacroblockModes {
    MacroblockModes {
        segment_id: Some(segment),
        mb_skip_coeff: false,
        y_mode,
        subblock_modes: None,
        uv_mode: IntraUvMode::Dc,
    }
}

#[test]
fn m_one_macroblock_without_inner_edges_is_left_alone() {
    for (level, simple) in (0..=255).flat_map(|level| [(level, false), (level, true)]) {
        let config =
            FrameFilterConfig::default().with_loop_filter_level(level).with_simple(simple).with_key_frame(true);
        let mut filtered = planes(1, 1);
        filter_frame_flags(&mut filtered, &[macroblock(IntraYMode::Dc, 0)], &[false], &config);
        assert_eq!(filtered, planes(1, 1), "level {level}");
    }
}

/// The first macroblock alone is the pass whose second macroblock has level 0.
#[test]
fn n_what_is_final_after_one_of_two_macroblocks() {
    let config = FrameFilterConfig::default()
        .with_key_frame(true)
        .with_segmentation_enabled(true)
        .with_segment_abs(true)
        .with_segment_lf_level([63, 0, 0, 0]);
    let pass = |second: u8| {
        let mut filtered = planes(2, 1);
        let modes = [macroblock(IntraYMode::B, 0), macroblock(IntraYMode::B, second)];
        filter_frame_flags(&mut filtered, &modes, &[false; 2], &config);
        filtered
    };
    let (halted, unbroken) = (pass(1), pass(0));
    let equal =
        |a: &[u8], b: &[u8], stride: usize, column: usize| (column..a.len()).step_by(stride).all(|i| a[i] == b[i]);
    let luma = |column| equal(&halted.y, &unbroken.y, 32, column);
    let chroma = |column| equal(&halted.u, &unbroken.u, 16, column) && equal(&halted.v, &unbroken.v, 16, column);
    assert!((0..=12).all(luma) && !luma(13), "N, luma");
    assert!((0..=4).all(chroma) && !chroma(5), "N, chroma");
}

/// The opened run kernel agrees with the two window kernels, at windows of 16 positions.
#[test]
fn the_opened_run_is_the_window_kernels() {
    let mut state = 1u64;
    let mut next = || {
        state = state.wrapping_mul(6364136223846793005).wrapping_add(1442695040888963407);
        (state >> 33) as u8
    };
    let mut filtered = 0;
    for round in 0..20_000 {
        let windows = [[0u8; 8]; 16].map(|w| w.map(|_| 100 + next() % 12));
        let (threshold, interior, edge, mb_edge) = (next() % 8, next() % 16, next(), round % 2 == 0);
        let mut taps: [[i16; 16]; 8] = std::array::from_fn(|k| std::array::from_fn(|n| u2s(windows[n][k]) as i16));
        opened::normal_filter_run(&mut taps, threshold, interior, edge, mb_edge);
        for (n, window) in windows.iter().enumerate() {
            let mut expected = *window;
            let kernel = if mb_edge { mb_filter } else { subblock_filter };
            kernel(threshold, interior, edge, &mut expected, 0);
            let run: [u8; 8] = std::array::from_fn(|k| s2u(taps[k][n] as i32));
            assert_eq!(run, expected);
            assert!(opened::filter_yes(interior, edge, *window) || expected == *window);
            filtered += (expected != *window) as u32;
        }
    }
    assert!(filtered > 10_000);
}
