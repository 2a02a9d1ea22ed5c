//! Noise on the recorded frames: film of another camera, on which other windows pass the filters' tests.

use film::Frame;
use rules::random::Random;

const SEED: u64 = 0x6E6F_6973;

/// Moves each sample by a number from -amplitude to amplitude, each as likely, and stops at 0 and 255. The same frames and
/// amplitude give the same samples.
pub fn add(frames: &mut [Frame], amplitude: u8) {
    if amplitude == 0 {
        return;
    }
    println!("uniform noise of -{amplitude} to {amplitude} on each sample");
    let (mut random, amplitude) = (Random::new(SEED), amplitude as i16);
    for sample in frames.iter_mut().flat_map(|frame| &mut frame.planes).flatten() {
        let by = random.below(2 * amplitude as usize + 1) as i16 - amplitude;
        *sample = (*sample as i16 + by).clamp(0, 255) as u8;
    }
}

#[cfg(test)]
mod tests {
    use super::*;
    use std::collections::BTreeSet;

    /// Every number occurs, and none beyond; some samples stop at 0.
    #[test]
    fn samples_move() {
        let before = film::bench();
        for amplitude in [1, 2, 4, 255] {
            let mut frames = before.clone();
            add(&mut frames, amplitude);
            let pairs = before.iter().flat_map(|frame| &frame.planes).flatten();
            let pairs = pairs.zip(frames.iter().flat_map(|frame| &frame.planes).flatten());
            let moves: BTreeSet<i16> = pairs.map(|(before, after)| *after as i16 - *before as i16).collect();
            let most = amplitude as i16;
            assert!(moves.iter().all(|by| by.abs() <= most), "{amplitude}");
            assert!(amplitude == 255 || moves == (-most..=most).collect(), "{amplitude}: {moves:?}");
        }
    }

    #[test]
    fn no_noise_and_the_same_noise() {
        let before = film::bench();
        let [mut none, mut first, mut second] = [0, 1, 2].map(|_| before.clone());
        add(&mut none, 0);
        add(&mut first, 2);
        add(&mut second, 2);
        assert!(none == before && first != before && first == second);
    }
}
