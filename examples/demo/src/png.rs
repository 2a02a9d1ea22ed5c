//! PNG files of 8-bit RGB, uncompressed.

/// A picture: three bytes a pixel, row by row.
pub struct Picture {
    pub width: usize,
    pub height: usize,
    pub rgb: Vec<u8>,
}

/// The bytes of the file.
pub fn png(picture: &Picture) -> Vec<u8> {
    let size = |n: usize| (n as u32).to_be_bytes();
    // 8 bits a channel, RGB, and the one method each of compression, filter and interlace.
    let header = [&size(picture.width)[..], &size(picture.height), &[8, 2, 0, 0, 0]].concat();
    // Each row begins with its filter, 0 for none.
    let rows: Vec<u8> = picture.rgb.chunks(3 * picture.width).flat_map(|row| [&[0], row].concat()).collect();
    let parts = [chunk(b"IHDR", &header), chunk(b"IDAT", &zlib(&rows)), chunk(b"IEND", &[])];
    [&b"\x89PNG\r\n\x1a\n"[..], &parts.concat()].concat()
}

fn chunk(kind: &[u8; 4], data: &[u8]) -> Vec<u8> {
    let body = [&kind[..], data].concat();
    [&(data.len() as u32).to_be_bytes()[..], &body, &crc32(&body).to_be_bytes()].concat()
}

/// A zlib stream of stored blocks.
fn zlib(data: &[u8]) -> Vec<u8> {
    let blocks: Vec<&[u8]> = if data.is_empty() { vec![data] } else { data.chunks(u16::MAX as usize).collect() };
    let mut stream = vec![0x78, 0x01];
    for (i, block) in blocks.iter().enumerate() {
        let len = block.len() as u16;
        stream.push((i + 1 == blocks.len()) as u8);
        stream.extend(len.to_le_bytes());
        stream.extend((!len).to_le_bytes());
        stream.extend(*block);
    }
    stream.extend(adler32(data).to_be_bytes());
    stream
}

fn crc32(data: &[u8]) -> u32 {
    let step = |crc: u32| if crc & 1 == 1 { 0xEDB8_8320 ^ (crc >> 1) } else { crc >> 1 };
    let table: Vec<u32> = (0..256).map(|byte| (0..8).fold(byte, |crc, _| step(crc))).collect();
    !data.iter().fold(!0, |crc, &byte| table[(crc as u8 ^ byte) as usize] ^ (crc >> 8))
}

fn adler32(data: &[u8]) -> u32 {
    let (a, b) = data.iter().fold((1, 0), |(a, b), &byte| {
        let a = (a + byte as u32) % 65521;
        (a, (b + a) % 65521)
    });
    b << 16 | a
}

#[cfg(test)]
mod tests {
    use super::*;

    #[test]
    fn published_checksums() {
        assert_eq!(crc32(b"123456789"), 0xCBF4_3926);
        assert_eq!(crc32(b"IEND"), 0xAE42_6082);
        assert_eq!(adler32(b"Wikipedia"), 0x11E6_0398);
    }

    #[test]
    fn blocks() {
        assert_eq!(zlib(&[]), [0x78, 1, 1, 0, 0, 255, 255, 0, 0, 0, 1]);
        let long = zlib(&[7; 65536]);
        assert_eq!(long[2..7], [0, 255, 255, 0, 0]);
        assert_eq!(long[7 + 65535..7 + 65535 + 6], [1, 1, 0, 254, 255, 7]);
        assert_eq!(long.len(), 2 + 5 + 65535 + 5 + 1 + 4);
    }
}
