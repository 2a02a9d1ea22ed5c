//! Each refusal with its number and text, nothing changed by it, and no panic at the largest arguments.

use vp8_loop_filter::*;

const MOST: usize = usize::MAX;

/// 2 x 1 macroblocks.
fn picture() -> KeyframePlanes {
    let samples = |len: u32| (0..len).map(|i| (i * 7 % 13) as u8 + 100).collect();
    let (y, u, v) = (samples(512), samples(128), samples(128));
    KeyframePlanes { y, u, v, y_stride: 32, uv_stride: 16, mb_cols: 2, mb_rows: 1 }
}

fn config() -> FrameFilterConfig {
    FrameFilterConfig::default().with_loop_filter_level(40)
}

fn source(planes: &KeyframePlanes) -> SourcePlanes<'_> {
    let KeyframePlanes { y, u, v, y_stride, uv_stride, .. } = planes;
    SourcePlanes { width: 32, height: 16, y, u, v, y_stride: *y_stride, uv_stride: *uv_stride }
}

/// The text of the refusal that both passes give, halted and whole, which leave the planes alone.
#[track_caller]
fn pass_refusal(planes: KeyframePlanes, modes: usize, flags: usize, inter: usize, start: usize) -> String {
    let modes = vec![MacroblockModes { y_mode: IntraYMode::B, segment_id: None }; modes];
    let (flags, references, inter_modes) = (vec![true; flags], vec![None; inter], vec![None; inter]);
    let mut lent = planes.clone();
    let text = filter_inter_frame_from(&mut lent, &modes, &flags, &references, &inter_modes, &config(), start, MOST)
        .unwrap_err()
        .to_string();
    if inter == planes.mb_cols.saturating_mul(planes.mb_rows) {
        let key = filter_frame_from(&mut lent, &modes, &flags, &config(), start, MOST).unwrap_err();
        assert_eq!(key.to_string(), text);
    }
    let inter = InterFilterInfo { ref_frames: &references, inter_modes: &inter_modes };
    if start == 0 {
        let prepared = FramePass::new(&mut lent, &modes, &flags, Some(&inter), &config()).unwrap_err();
        assert_eq!(prepared.to_string(), text);
    }
    for level in [0, 40] {
        let refused = frame_refusals(&mut lent, &modes, &flags, &inter, &config().with_loop_filter_level(level), start);
        refused.iter().for_each(|refusal| assert_eq!(*refusal, text, "a frame call at header level {level}"));
    }
    assert_eq!(lent, planes);
    text
}

/// The texts of the refusals that the frame calls give, halted, and prepared from start 0.
fn frame_refusals(
    planes: &mut KeyframePlanes,
    modes: &[MacroblockModes],
    flags: &[bool],
    inter: &InterFilterInfo<'_>,
    config: &FrameFilterConfig,
    start: usize,
) -> Vec<String> {
    let InterFilterInfo { ref_frames, inter_modes } = inter;
    let mut refusals =
        vec![loop_filter_inter_frame_from(planes, modes, flags, ref_frames, inter_modes, config, start, MOST).err()];
    if ref_frames.len() == planes.mb_cols.saturating_mul(planes.mb_rows) {
        refusals.push(loop_filter_frame_from(planes, modes, flags, config, start, MOST).err());
    }
    if start == 0 {
        refusals.push(FramePass::of_frame(planes, modes, flags, Some(inter), config).err());
    }
    refusals.into_iter().map(|refusal| refusal.expect("a refusal").to_string()).collect()
}

#[test]
fn accepted() {
    let mut planes = picture();
    let modes = [MacroblockModes { y_mode: IntraYMode::B, segment_id: None }; 2];
    assert_eq!(filter_frame_flags(&mut planes, &modes, &[true; 2], &config()), Ok(()));
    assert_ne!(planes, picture());
    assert_eq!(
        filter_frame_from(&mut planes, &modes, &[true; 2], &config(), 2, 5),
        Ok(Done { count: 0, next: 2, smoothed: 0 })
    );
}

#[test]
fn refused_passes() {
    let grid = |mb_cols, mb_rows| KeyframePlanes { mb_cols, mb_rows, ..picture() };
    assert_eq!(
        pass_refusal(grid(1025, 3), 2, 2, 2, 0),
        "refused (1): a grid of 1025 x 3 macroblocks came, at most 1024 columns and 1024 rows are taken"
    );
    assert_eq!(
        pass_refusal(KeyframePlanes { y_stride: 31, ..picture() }, 2, 2, 2, 0),
        "refused (2): the luma stride is 31, 2 macroblock columns need 32 to 65536"
    );
    assert_eq!(
        pass_refusal(KeyframePlanes { uv_stride: 65537, ..picture() }, 2, 2, 2, 0),
        "refused (2): the chroma stride is 65537, 2 macroblock columns need 16 to 65536"
    );
    assert_eq!(
        pass_refusal(KeyframePlanes { y: vec![9; 511], ..picture() }, 2, 2, 2, 0),
        "refused (3): the luma plane has 511 bytes, a grid of 2 x 1 macroblocks with stride 32 needs 512"
    );
    assert_eq!(
        pass_refusal(KeyframePlanes { v: vec![9; 127], ..picture() }, 2, 2, 2, 0),
        "refused (3): the V plane has 127 bytes, a grid of 2 x 1 macroblocks with stride 16 needs 128"
    );
    assert_eq!(
        pass_refusal(picture(), 3, 2, 2, 0),
        "refused (5): the list of modes has 3 entries, a grid of 2 x 1 macroblocks needs 2"
    );
    assert_eq!(
        pass_refusal(picture(), 2, 1, 2, 0),
        "refused (5): the list of coefficients has 1 entries, a grid of 2 x 1 macroblocks needs 2"
    );
    assert_eq!(
        pass_refusal(picture(), 2, 2, 0, 0),
        "refused (5): the list of references has 0 entries, a grid of 2 x 1 macroblocks needs 2"
    );
    assert_eq!(
        pass_refusal(picture(), 2, 2, 2, 3),
        "refused (7): the start is 3, a grid of 2 x 1 macroblocks takes at most 2"
    );
}

#[test]
fn refused_kernels() {
    let mut window = [1, 2, 3, 4, 5, 6, 7];
    let at = |base| format!("refused (4): a window of 8 bytes at base {base} does not fit into a slice of 7 bytes");
    assert_eq!(mb_filter(1, 2, 3, &mut window, 0).unwrap_err().to_string(), at(0));
    assert_eq!(subblock_filter(1, 2, 3, &mut window, MOST).unwrap_err().to_string(), at(MOST));
    assert_eq!(common_adjust(true, &mut window, 4).unwrap_err().kind(), RefusalKind::NoWindow);
    assert_eq!(simple_segment(255, &mut [], 0).unwrap_err().kind(), RefusalKind::NoWindow);
    assert_eq!(mb_filter_passed(1, 2, 3, &mut window, 0).unwrap_err().to_string(), at(0));
    assert_eq!(subblock_filter_passed(1, 2, 3, &mut window, MOST).unwrap_err().to_string(), at(MOST));
    assert_eq!(simple_segment_passed(255, &mut [], 0).unwrap_err().kind(), RefusalKind::NoWindow);
    assert_eq!(window, [1, 2, 3, 4, 5, 6, 7]);
}

#[test]
fn refused_sums_and_searches() {
    let planes = picture();
    let good = source(&planes);
    let text = |source: &SourcePlanes<'_>| {
        let refusal = reconstruction_ssd(&planes, source).unwrap_err();
        let modes = [MacroblockModes::default(); 2];
        assert_eq!(select_filter_params(&planes, &modes, &[true; 2], &config(), source, None), Err(refusal.clone()));
        assert_eq!(select_filter_level(&planes, &modes, &[true; 2], &config(), source, None), Err(refusal.clone()));
        assert_eq!(full_search(&planes, &modes, &[true; 2], &config(), source, None), Err(refusal.clone()));
        refusal.to_string()
    };
    assert_eq!(
        text(&SourcePlanes { height: 17, ..good }),
        "refused (8): the source has 32 x 17 samples, a grid of 2 x 1 macroblocks covers 32 x 16"
    );
    assert_eq!(
        text(&SourcePlanes { y_stride: 31, ..good }),
        "refused (9): the stride of the source's luma plane is 31, a width of 32 needs 32 to 65536"
    );
    assert_eq!(
        text(&SourcePlanes { u: &good.u[1..], ..good }),
        "refused (9): the source's U plane has 127 bytes, 16 x 8 samples with stride 16 need 128"
    );
    assert_eq!(reconstruction_ssd(&planes, &SourcePlanes { width: 0, y: &[], u: &[], v: &[], ..good }), Ok(0));
}

#[test]
fn refused_scratch() {
    let planes = picture();
    let (mut y, mut u, mut v) = (vec![7; 512], vec![7; 127], vec![7; 128]);
    let scratch = Scratch { y: &mut y, u: &mut u, v: &mut v };
    let (modes, source) = ([MacroblockModes::default(); 2], source(&planes));
    let refusal = select_filter_params_in(&planes, &modes, &[true; 2], &config(), &source, None, scratch).unwrap_err();
    assert_eq!(
        refusal.to_string(),
        "refused (3): the U scratch plane has 127 bytes, a grid of 2 x 1 macroblocks with stride 16 needs 128"
    );
    let scratch = Scratch { y: &mut y, u: &mut u, v: &mut v };
    assert_eq!(full_search_in(&planes, &modes, &[true; 2], &config(), &source, None, scratch), Err(refusal));
    assert!([y, u, v].iter().flatten().all(|&byte| byte == 7));
}

/// Lists of wrong length and a picture without rows are answered as if no pass changed anything.
#[test]
fn full_searches_without_a_pass() {
    let (planes, other) = (picture(), KeyframePlanes { y: vec![101; 512], ..picture() });
    let (source, modes) = (source(&other), [MacroblockModes::default(); 2]);
    let config = config().with_sharpness_level(200);
    let sum = reconstruction_ssd(&planes, &source).unwrap();
    let unfiltered = Best { level: 0, sharpness: 7, sum };
    assert!(sum > 0);
    assert_eq!(full_search(&planes, &modes, &[true; 3], &config, &source, None), Ok(unfiltered));
    let inter = InterFilterInfo { ref_frames: &[None; 2], inter_modes: &[None; 1] };
    assert_eq!(full_search(&planes, &modes, &[true; 2], &config, &source, Some(&inter)), Ok(unfiltered));
    let (planes, source) = (KeyframePlanes { mb_rows: 0, ..picture() }, SourcePlanes { height: 0, ..source });
    let nothing = Best { level: 0, sharpness: 7, sum: 0 };
    assert_eq!(full_search(&planes, &modes, &[true; 2], &config, &source, None), Ok(nothing));
}

/// Records that do not fit are refused, and the pass is what it was.
#[test]
fn refused_records() {
    let (mut planes, mut expected) = (picture(), picture());
    let modes = [MacroblockModes { y_mode: IntraYMode::B, segment_id: None }; 2];
    filter_frame_flags(&mut expected, &modes, &[false; 2], &config()).unwrap();
    let mut pass = FramePass::new(&mut planes, &modes, &[false; 2], None, &config()).unwrap();
    let dc = [MacroblockModes::default(); 3];
    let mut text = |first, modes: usize, flags: usize| {
        let refusal = pass.put(first, &dc[..modes], &[true; 3][..flags], None).unwrap_err();
        assert_eq!((refusal.kind(), refusal.number()), (RefusalKind::WrongLength, 5));
        refusal.to_string()
    };
    assert_eq!(text(0, 2, 1), "refused (5): the list of coefficients has 1 entries, that of modes 2");
    assert_eq!(text(0, 3, 3), "refused (5): 3 records from macroblock 0 on came, the picture has 2 macroblocks");
    assert_eq!(text(2, 1, 1), "refused (5): 1 records from macroblock 2 on came, the picture has 2 macroblocks");
    let most = format!("refused (5): 0 records from macroblock {MOST} on came, the picture has 2 macroblocks");
    assert_eq!(text(MOST, 0, 0), most);
    assert_eq!(pass.put(2, &dc[..0], &[], None), Ok(()));
    let done = pass.advance(MOST).unwrap();
    assert_eq!(done, Done { count: 2, next: 2, smoothed: pass.smoothed() });
    assert_eq!(planes, expected);
}

/// A picture without columns has no macroblock to do, whatever the lists.
#[test]
fn a_pass_over_nothing() {
    let mut planes = KeyframePlanes { mb_cols: 0, mb_rows: MOST, ..picture() };
    let mut pass = FramePass::new(&mut planes, &[MacroblockModes::default(); 5], &[true; 3], None, &config()).unwrap();
    assert!(pass.is_done());
    assert_eq!(pass.advance(7), Ok(Done { count: 0, next: 0, smoothed: 0 }));
    assert_eq!(pass.final_rows(), Ok(FinalRows { luma: 0, chroma: 0 }));
    assert_eq!(pass.put(0, &[MacroblockModes::default()], &[true], None).unwrap_err().number(), 5);
    assert_eq!(planes, KeyframePlanes { mb_cols: 0, mb_rows: MOST, ..picture() });
}

/// Records without size: a list of them has any length.
struct Nothing;

impl From<&Nothing> for MacroblockModes {
    fn from(_: &Nothing) -> MacroblockModes {
        MacroblockModes::default()
    }
}

fn every_search(planes: &KeyframePlanes, modes: &[Nothing], source: &SourcePlanes<'_>) {
    let inter = InterFilterInfo { ref_frames: &[None; 2], inter_modes: &[None; 2] };
    for inter in [None, Some(&inter)] {
        let _ = select_filter_params(planes, modes, &[true; 2], &config(), source, inter);
        let _ = select_filter_level(planes, modes, &[true; 2], &config(), source, inter);
        let _ = full_search(planes, modes, &[true; 2], &config(), source, inter);
    }
}

/// Every number at its largest, and lists and planes of length 0.
#[test]
fn largest_arguments() {
    let sizes = [0, 1, 2, 1024, 1025, MOST / 16, MOST];
    let endless = [const { Nothing }; MOST];
    let modes = [&endless[..0], &endless[..2]];
    let full = picture();
    for mb_cols in sizes {
        for mb_rows in sizes {
            for stride in sizes {
                let of = |planes: KeyframePlanes| KeyframePlanes {
                    mb_cols,
                    mb_rows,
                    y_stride: stride,
                    uv_stride: stride,
                    ..planes
                };
                let empty = KeyframePlanes { y: Vec::new(), u: Vec::new(), v: Vec::new(), ..picture() };
                for mut planes in [of(picture()), of(empty)] {
                    for start in sizes {
                        let _ = final_rows(&planes, start);
                        for modes in modes {
                            let _ = filter_frame_from(&mut planes, modes, &[true; 2], &config(), start, MOST);
                        }
                    }
                    for width in sizes {
                        let source = SourcePlanes { width, height: stride, y_stride: stride, ..source(&full) };
                        let _ = reconstruction_ssd(&planes, &source);
                        modes.into_iter().for_each(|modes| every_search(&planes, modes, &source));
                    }
                }
            }
        }
    }
    let refusal = filter_frame_flags(&mut picture(), &endless, &[true; 2], &config()).unwrap_err();
    assert_eq!(
        refusal.to_string(),
        format!("refused (5): the list of modes has {MOST} entries, a grid of 2 x 1 macroblocks needs 2")
    );
    let refusal = final_rows(&KeyframePlanes { mb_cols: MOST, mb_rows: MOST, ..picture() }, 0).unwrap_err();
    assert_eq!(refusal.kind(), RefusalKind::GridTooLarge);
}

/// The number of the header for each kind that a call of this crate can be refused with.
#[test]
fn kinds_and_numbers() {
    let planes = picture();
    let good = source(&planes);
    let modes = [MacroblockModes::default(); 2];
    let pass = |mut planes: KeyframePlanes, flags: &[bool], start| {
        filter_frame_from(&mut planes, &modes, flags, &config(), start, 1).unwrap_err()
    };
    let refusals = [
        (1, RefusalKind::GridTooLarge, pass(KeyframePlanes { mb_cols: 1025, ..picture() }, &[true; 2], 0)),
        (2, RefusalKind::BadStride, pass(KeyframePlanes { y_stride: 31, ..picture() }, &[true; 2], 0)),
        (3, RefusalKind::ShortPlane, pass(KeyframePlanes { u: Vec::new(), ..picture() }, &[true; 2], 0)),
        (4, RefusalKind::NoWindow, mb_filter(1, 2, 3, &mut [0; 7], 0).unwrap_err()),
        (5, RefusalKind::WrongLength, pass(picture(), &[true; 3], 0)),
        (7, RefusalKind::StartTooLarge, pass(picture(), &[true; 2], 3)),
        (8, RefusalKind::SourceTooLarge, reconstruction_ssd(&planes, &SourcePlanes { width: 33, ..good }).unwrap_err()),
        (9, RefusalKind::BadSource, reconstruction_ssd(&planes, &SourcePlanes { v: &[], ..good }).unwrap_err()),
    ];
    for (number, kind, refusal) in refusals {
        assert_eq!((refusal.number(), refusal.kind()), (number, kind));
        assert!(refusal.to_string().starts_with(&format!("refused ({number}): ")));
    }
}
