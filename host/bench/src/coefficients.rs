//! What the coefficient test and the first coefficient's place take, against the Rust's test of the same macroblocks.

use oracle::MbCoeffs;
use std::hint::black_box;
use std::time::{Duration, Instant};

/// Few enough to stay in the cache, as the numbers of a macroblock do that was decoded just now.
const BLOCKS: usize = 32;
/// How often a repetition goes through them.
const ROUNDS: usize = 200;

/// Prints one line for each place of the first number that is not 0: the time of the Rust's test of one macroblock, and the
/// library's as parts of it.
pub fn compare(repetitions: usize) {
    println!();
    println!("the coefficients of a macroblock, the least of {repetitions}");
    println!("{:<34} {:>9} {:>8} {:>8}", "first number that is not 0", "Rust", "test", "place");
    for (name, place) in [("the first", 0), ("the middle one", 200), ("the last", 399), ("none", 400)] {
        let blocks = [block_with(place); BLOCKS];
        let [rust, test, first] = times(&blocks, place, repetitions).map(|time| time.as_secs_f64());
        let nanoseconds = format!("{:.1} ns", rust * 1e9 / (BLOCKS * ROUNDS) as f64);
        println!("{name:<34} {nanoseconds:>9} {:>8.3} {:>8.3}", test / rust, first / rust);
    }
}

/// A macroblock as the Rust and as the library take it.
#[derive(Clone, Copy)]
struct Block {
    record: MbCoeffs,
    list: [i16; 400],
}

/// What is asked of a macroblock.
type Question = fn(&Block) -> usize;

/// All numbers before the place are 0, and the others are not.
fn block_with(place: usize) -> Block {
    let mut block = Block { record: MbCoeffs::default(), list: [0; 400] };
    let MbCoeffs { y2, y, u, v, .. } = &mut block.record;
    let numbers = [&mut y2[..], y.as_flattened_mut(), u.as_flattened_mut(), v.as_flattened_mut()].into_iter().flatten();
    numbers.zip(&mut block.list).skip(place).for_each(|(number, listed)| (*number, *listed) = (-3, -3));
    block
}

/// The smallest times of the Rust's test, of the library's test and of the place. They take turns.
fn times(blocks: &[Block; BLOCKS], place: usize, repetitions: usize) -> [Duration; 3] {
    let has = (place < 400) as usize;
    let variants: [(Question, usize); 3] = [
        (|block| oracle::mb_has_coeffs(&block.record) as usize, has),
        (|block| entries::mb_has_coeffs(&block.list) as usize, has),
        (|block| entries::first_coeff(&block.list), place),
    ];
    let mut times = [Duration::MAX; 3];
    for repetition in 0..repetitions {
        for turn in 0..variants.len() {
            let variant = (turn + repetition) % variants.len();
            let (question, expected) = variants[variant];
            let start = Instant::now();
            let sum: usize = (0..ROUNDS).flat_map(|_| black_box(blocks)).map(question).sum();
            times[variant] = times[variant].min(start.elapsed());
            assert_eq!(sum, expected * BLOCKS * ROUNDS, "the answers for place {place}");
        }
    }
    times
}
