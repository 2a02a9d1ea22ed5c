//! `.vplk` files: kept frames, coded.

use crate::coding::{Model, Reader, Writer, code_frame, code_header};
use crate::{Fault, Frame, HEADER};

/// What one coded byte holds at most, in bytes: no bit is likelier than 4095 in 4096, so a bit takes 1 / 22,720 of a byte
/// or more.
pub const HELD: usize = 2840;

/// The number of frames, then the coded frames.
pub fn pack(frames: &[Frame]) -> Vec<u8> {
    let (mut writer, mut model) = (Writer::new(), Model::new());
    for frame in frames {
        let header = code_header(&mut writer, &mut model, frame.header);
        let mut again = Frame { header, ..frame.clone() };
        code_frame(&mut writer, &mut model, &mut again);
    }
    let count = u16::try_from(frames.len()).expect("some frames of a stream");
    [&count.to_le_bytes()[..], &writer.finish()].concat()
}

/// The frames of a `.vplk` file. A fault in a coded frame is told at the byte that the reader has come to.
pub fn unpack(bytes: &[u8]) -> Result<Vec<Frame>, Fault> {
    let Some((count, coded)) = bytes.split_first_chunk() else {
        return Err(Fault::new(0, "the number of frames in 2 bytes", format!("{} bytes", bytes.len())));
    };
    let (mut reader, mut model) = (Reader::new(coded), Model::new());
    let mut frames = Vec::new();
    for _ in 0..u16::from_le_bytes(*count) {
        let header = code_header(&mut reader, &mut model, [0; HEADER]);
        let at = bytes.len() - reader.left();
        let mut frame = Frame::headed(header).map_err(|fault| Fault { at, ..fault })?;
        let (n, most) = (frame.macroblocks(), HELD * coded.len());
        if 389 * n > most {
            return Err(Fault::new(at, format!("a frame of {most} bytes or fewer"), format!("{n} macroblocks")));
        }
        frame.allocate();
        code_frame(&mut reader, &mut model, &mut frame);
        frames.push(frame);
        if reader.missing() {
            return Err(Fault::new(bytes.len(), "more of a coded frame", "the end"));
        }
    }
    match reader.left() {
        0 => Ok(frames),
        left => Err(Fault::new(bytes.len() - left, "the end", format!("{left} bytes"))),
    }
}

#[cfg(test)]
mod tests {
    use super::*;
    use crate::coding::Coder;

    #[test]
    fn kept_film_packs_to_itself() {
        for stream in crate::kept() {
            assert!(!stream.frames.is_empty(), "{}", stream.name);
            assert_eq!(unpack(&pack(&stream.frames)).expect("packed"), stream.frames, "{}", stream.name);
        }
    }

    #[test]
    fn faults_are_told() {
        let packed = pack(&crate::kept().remove(5).frames[..1]);
        assert!(unpack(&packed).is_ok());
        let told = |bytes: &[u8]| unpack(bytes).expect_err("no film").to_string();
        let (len, half) = (packed.len(), packed.len() / 2);
        assert_eq!(told(&packed[..1]), "byte 0: expected the number of frames in 2 bytes, found 1 bytes");
        assert_eq!(told(&packed[..half]), format!("byte {half}: expected more of a coded frame, found the end"));
        assert_eq!(told(&[&packed[..], &[0]].concat()), format!("byte {len}: expected the end, found 1 bytes"));
    }

    /// Bits of the likeliest kind, a 1 where the chance of 0 is 1 in 4096.
    #[test]
    fn what_a_coded_byte_holds() {
        let mut writer = Writer::new();
        (0..8 * HELD * 1000).for_each(|_| _ = writer.code(1, true));
        let taken = writer.finish().len();
        assert!((1000..1010).contains(&taken), "{taken}");
    }
}
