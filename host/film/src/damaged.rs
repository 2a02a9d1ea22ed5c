//! Damaged films: the readers answer, and a stream's reader never asks for more memory than a small multiple of the file.

use crate::vplf::tests::written;
use crate::vplk::HELD;
use crate::{Fault, Frame, HEADER, kept, pack, read, unpack};
use rules::random::Random;
use std::alloc::{GlobalAlloc, Layout, System};
use std::cell::Cell;

/// The system's allocator, which counts what a thread asks for.
struct Counting;

thread_local! {
    static ASKED: Cell<usize> = const { Cell::new(0) };
}

// SAFETY: every call goes to the system's allocator as it came.
unsafe impl GlobalAlloc for Counting {
    unsafe fn alloc(&self, layout: Layout) -> *mut u8 {
        ASKED.set(ASKED.get() + layout.size());
        // SAFETY: the caller's layout, as `alloc` asks.
        unsafe { System.alloc(layout) }
    }

    unsafe fn dealloc(&self, at: *mut u8, layout: Layout) {
        // SAFETY: what `alloc` gave, by the same layout.
        unsafe { System.dealloc(at, layout) }
    }
}

#[global_allocator]
static ALLOCATOR: Counting = Counting;

/// The bytes that a call asks for, those that it frees included.
fn asked<T>(call: impl FnOnce() -> T) -> (T, usize) {
    let before = ASKED.get();
    let answer = call();
    (answer, ASKED.get() - before)
}

/// Reads a file that may be damaged. Lists, planes and the planes after the filter are less than the file; the list of
/// frames grows by doubling, and a fault has two short texts.
fn read_damaged(bytes: &[u8]) -> Result<Vec<Frame>, Fault> {
    let (answer, asked) = asked(|| read(bytes));
    assert!(asked <= 3 * bytes.len() + 2048, "{asked} bytes for a film of {}", bytes.len());
    if let Err(fault) = &answer {
        assert!(fault.at <= bytes.len(), "{fault}, in a film of {} bytes", bytes.len());
    }
    answer
}

/// Two frames of one macroblock, and one of 16.
fn small_film() -> Vec<u8> {
    let mut film = kept();
    let (larger, small) = (film.remove(5), film.remove(5));
    [&small.frames[0], &larger.frames[0], &small.frames[1]].map(written).concat()
}

#[test]
fn allocations_are_counted() {
    let (list, asked) = asked(|| vec![1u8; 1000]);
    assert_eq!((list.len(), asked), (1000, 1000));
}

/// A film that ends early is refused, unless it ends with a frame.
#[test]
fn shortened_films() {
    let film = small_film();
    let frames = read_damaged(&film).expect("a film");
    let ends = [HEADER + 774, 2 * HEADER + 774 * 17, film.len()];
    assert_eq!((frames.len(), film.len()), (3, 3 * HEADER + 774 * 18));
    for len in 0..film.len() {
        match read_damaged(&film[..len]) {
            Ok(read) => assert!(read[..] == frames[..read.len()] && ends[read.len() - 1] == len, "{len} bytes"),
            Err(fault) => assert!(!ends.contains(&len) && fault.found.ends_with(" bytes"), "{len} bytes: {fault}"),
        }
    }
}

/// Each byte of each header, changed to every other.
#[test]
fn changed_headers() {
    let film = small_film();
    let frames = read_damaged(&film).expect("a film");
    let starts = [0, HEADER + 774, 2 * HEADER + 774 * 17];
    let places = (0..3).flat_map(|frame| (0..HEADER).map(move |at| (frame, at)));
    for ((frame, at), byte) in places.flat_map(|place| (0..=255).map(move |byte| (place, byte))) {
        let mut damaged = film.clone();
        damaged[starts[frame] + at] = byte;
        match read_damaged(&damaged) {
            // The same frames but for that byte.
            Ok(mut read) => {
                assert_eq!(read[frame].header[at], byte);
                read[frame].header = frames[frame].header;
                assert!(read == frames, "byte {at} as {byte}");
            }
            Err(fault) => assert!(at < 20 && fault.at >= starts[frame], "byte {at} as {byte}: {fault}"),
        }
    }
}

/// Headers that promise the largest grid, and larger ones, in a short file.
#[test]
fn promised_sizes() {
    for (side, at) in [(1024, HEADER), (1025, 12), (65535, 12)] {
        let mut film = small_film();
        film[12..16].copy_from_slice(&[side, side].map(u16::to_le_bytes).concat());
        let fault = read_damaged(&film).expect_err("no film");
        assert_eq!(fault.at, at, "{fault}");
    }
}

#[test]
fn random_damage() {
    let film = small_film();
    let mut random = Random::new(6386);
    let refused = (0..20_000).filter(|_| read_damaged(&damage(&film, &mut random)).is_err()).count();
    assert!((5_000..19_000).contains(&refused), "{refused} of 20,000 refused");
}

/// Up to four bytes at random, the first header's more often than others; the end cut off, or repeated.
fn damage(film: &[u8], random: &mut Random) -> Vec<u8> {
    let mut damaged = film.to_vec();
    for _ in 0..1 + random.below(4) {
        let within = random.one_of(&[HEADER, film.len()]);
        damaged[random.below(within)] = random.byte();
    }
    match random.below(4) {
        0 => damaged.truncate(random.below(film.len())),
        1 => damaged.extend_from_within(random.below(film.len())..),
        _ => {}
    }
    damaged
}

/// Unpacks a kept film that may be damaged. The chances of the bits take half a megabyte; frames hold what coded bytes
/// can hold, and one may go on behind the end.
fn unpack_damaged(bytes: &[u8]) -> Result<Vec<Frame>, Fault> {
    let (answer, asked) = asked(|| unpack(bytes));
    assert!(asked <= 2 * HELD * bytes.len() + 500_000, "{asked} bytes for a film of {}", bytes.len());
    answer
}

#[test]
fn shortened_kept_films() {
    let packed = pack(&kept().remove(6).frames);
    assert!((0..packed.len()).all(|len| unpack_damaged(&packed[..len]).is_err()));
}

/// A changed byte makes other frames, or none. The last three may say nothing.
#[test]
fn changed_kept_films() {
    let frames = &kept().remove(6).frames;
    let packed = pack(frames);
    for at in 0..packed.len() - 3 {
        let mut damaged = packed.clone();
        damaged[at] ^= 0x55;
        assert!(unpack_damaged(&damaged).as_ref() != Ok(frames), "byte {at}");
    }
}
