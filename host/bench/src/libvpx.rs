//! Times the library's passes against libvpx's SSE2 filters, where a static library of libvpx is installed.

#[cfg(libvpx)]
mod filters;

use film::Frame;

#[cfg(not(libvpx))]
pub fn compare(_frames: &[Frame], _repetitions: usize) {
    println!("libvpx: not compared. cc found no libvpx.a with the SSE2 filters when this program was built.");
    println!("Once it is installed (Debian: libvpx-dev), touch host/bench/build.rs.");
}

/// Prints one line a case: the library's time, libvpx's, and their ratio. They leave the same planes.
#[cfg(libvpx)]
pub fn compare(frames: &[Frame], repetitions: usize) {
    use crate::{Case, Inner, LEVELS};

    let inners = [Inner::All, Inner::Coded, Inner::Few];
    println!("against libvpx's SSE2 filters, the least of {repetitions} repetitions");
    println!("{:<34} {:>9} {:>9} {:>8}", "pass, filter, level, inner edges", "library", "libvpx", "ratio");
    let mut ratios = Vec::new();
    let cases = frames.iter().flat_map(|frame| [false, true].map(|simple| (frame, simple)));
    let cases = cases.flat_map(|kind| LEVELS.map(|level| (kind, level)));
    for (((frame, simple), level), inner) in cases.flat_map(|kind| inners.map(|inner| (kind, inner))) {
        let case = Case::new(frame, simple, level, inner);
        let [library, libvpx] = filters::times(&case, repetitions).map(|time| time.as_secs_f64() * 1000.0);
        let [left, right] = [library, libvpx].map(|time| format!("{time:.3} ms"));
        println!("{:<34} {left:>9} {right:>9} {:>8.2}", case.to_string(), library / libvpx);
        ratios.push((simple, library / libvpx));
    }
    means(&ratios);
}

#[cfg(libvpx)]
fn means(ratios: &[(bool, f64)]) {
    for (name, simple) in [("normal", false), ("simple", true)] {
        let mean = crate::geometric_mean(ratios.iter().filter(|ratio| ratio.0 == simple).map(|ratio| ratio.1));
        println!("{:<54} {mean:>8.2}", format!("geometric mean, {name}"));
    }
}
