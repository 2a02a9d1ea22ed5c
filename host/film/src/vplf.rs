//! `.vplf` files: a stream.

use crate::{Fault, Frame, HEADER, checksum};

/// The bytes of a macroblock: six list entries, its samples before the filter and what the filter adds to them.
const MACROBLOCK: usize = 6 + 2 * 384;

/// The frames of a `.vplf` file, at least one. Nothing is allocated for a frame before its bytes are known to be there.
pub fn read(bytes: &[u8]) -> Result<Vec<Frame>, Fault> {
    let mut frames = Vec::new();
    let mut rest = bytes;
    while !rest.is_empty() || frames.is_empty() {
        let at = bytes.len() - rest.len();
        let frame = read_frame(&mut rest);
        frames.push(frame.map_err(|fault| Fault { at: at + fault.at, ..fault })?);
    }
    Ok(frames)
}

/// Reads a frame off the front of the bytes. A fault is told from the frame's first byte.
fn read_frame(bytes: &mut &[u8]) -> Result<Frame, Fault> {
    let short = |at: usize, expected: String, left: usize| Fault::new(at, expected, format!("{left} bytes"));
    let Some((header, rest)) = bytes.split_first_chunk() else {
        return Err(short(0, format!("a header of {HEADER} bytes"), bytes.len()));
    };
    let mut frame = Frame::headed(*header)?;
    let n = frame.macroblocks();
    let Some((mut body, rest)) = rest.split_at_checked(MACROBLOCK * n) else {
        let expected = format!("{MACROBLOCK} bytes for each of {n} macroblocks, {} together", MACROBLOCK * n);
        return Err(short(HEADER, expected, rest.len()));
    };
    *bytes = rest;
    let mut part = |len: usize| body.split_off(..len).expect("a part of the body");
    [frame.modes, frame.references, frame.inter_modes, frame.segments] = [n; 4].map(|len| part(len).to_vec());
    // Whether some coefficient was decoded. The Rust asks whether any of the 400 is not 0, which is the next list.
    part(n);
    frame.flags = part(n).to_vec();
    frame.planes = [256, 64, 64].map(|samples| part(samples * n).to_vec());
    let mut after = frame.planes.clone();
    for (sample, added) in after.iter_mut().flatten().zip(part(384 * n)) {
        *sample = sample.wrapping_add(*added);
    }
    frame.after = checksum(&after);
    Ok(frame)
}

/// A frame as a `.vplf` file has it, with the planes that the filter leaves. The list of flags of decoded coefficients,
/// which is not kept, is the other one again.
pub fn write(frame: &Frame, after: &[Vec<u8>; 3]) -> Vec<u8> {
    let lists = [&frame.modes, &frame.references, &frame.inter_modes, &frame.segments, &frame.flags, &frame.flags];
    let parts = lists.into_iter().chain(&frame.planes).flatten().copied();
    let samples = after.iter().flatten().zip(frame.planes.iter().flatten());
    let added = samples.map(|(after, before)| after.wrapping_sub(*before));
    frame.header.into_iter().chain(parts).chain(added).collect()
}

#[cfg(test)]
pub(crate) mod tests {
    use super::*;

    /// A frame of which the filter takes 3 from the last sample of v.
    pub fn written(frame: &Frame) -> Vec<u8> {
        let mut bytes = write(frame, &frame.planes);
        *bytes.last_mut().expect("a sample") = 253;
        bytes
    }

    #[test]
    fn a_frame_is_read() {
        let frame = crate::kept().remove(0).frames.remove(0);
        let bytes = written(&frame);
        let mut after = frame.planes.clone();
        let last = after[2].last_mut().expect("a sample");
        *last = last.wrapping_sub(3);
        assert_eq!(bytes, write(&frame, &after));
        let expected = Frame { after: checksum(&after), ..frame };
        assert_eq!(read(&[&bytes[..], &bytes].concat()), Ok(vec![expected.clone(), expected]));
    }

    /// Each fault with its place in the file: the first byte that is not as it should be, of the second frame too.
    #[test]
    fn faults_are_told() {
        let frame = crate::kept().remove(6).frames.remove(0);
        let one = written(&frame);
        let told = |bytes: &[u8]| read(bytes).expect_err("no film").to_string();
        let changed = |at: usize, number: u16| {
            let mut bytes = [&one[..], &one].concat();
            bytes[at..at + 2].copy_from_slice(&number.to_le_bytes());
            told(&bytes)
        };
        let second = one.len();
        assert_eq!(second, 838);
        assert_eq!(told(&[]), "byte 0: expected a header of 64 bytes, found 0 bytes");
        assert_eq!(told(&one[..63]), "byte 0: expected a header of 64 bytes, found 63 bytes");
        let short = "expected 774 bytes for each of 1 macroblocks, 774 together, found 773 bytes";
        assert_eq!(told(&one[..837]), format!("byte 64: {short}"));
        assert_eq!(told(&[&one[..], &one[..837]].concat()), format!("byte {}: {short}", second + 64));
        let magic = "expected \"VPLF\", version 1 and header length 64, each of the two in 2 bytes";
        assert_eq!(changed(4, 2), format!("byte 4: {magic}, found [86, 80, 76, 70, 2, 0, 64, 0]"));
        assert_eq!(changed(12, 65535), "byte 12: expected 1 to 1024 columns of macroblocks, found 65535");
        assert_eq!(changed(14, 1025), "byte 14: expected 1 to 1024 rows of macroblocks, found 1025");
        assert_eq!(changed(second + 12, 0), "byte 850: expected 1 to 1024 columns of macroblocks, found 0");
        assert_eq!(changed(16, 17), "byte 16: expected 1 to 16 visible columns, found 17");
        assert_eq!(changed(18, 0), "byte 18: expected 1 to 16 visible rows, found 0");
        let most = "expected 774 bytes for each of 1024 macroblocks, 792576 together, found 1612 bytes";
        assert_eq!(changed(12, 1024), format!("byte 64: {most}"));
    }
}
