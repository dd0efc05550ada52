//! PNG pictures whose pixels are numbers of palette entries, stored without compression.

/// The bytes before all chunks.
const SIGNATURE: &[u8] = b"\x89PNG\r\n\x1a\n";

/// Depth of 8 bits, pixels by palette; the usual compression, filter and order of rows.
const BY_PALETTE: [u8; 5] = [8, 3, 0, 0, 0];

/// The most bytes of a stored block.
const BLOCK: usize = 65_535;

/// A picture: three bytes for each palette entry, and a byte for each pixel, row by row.
pub fn indexed(width: u32, height: u32, palette: &[u8], index: &[u8]) -> Vec<u8> {
    let header = [width.to_be_bytes().as_slice(), &height.to_be_bytes(), &BY_PALETTE].concat();
    // Before each row stands the number of its filter: 0, none.
    let rows: Vec<u8> = index.chunks(width as usize).flat_map(|row| [&[0], row].concat()).collect();
    let chunks =
        [chunk(b"IHDR", &header), chunk(b"PLTE", palette), chunk(b"IDAT", &stored(&rows)), chunk(b"IEND", b"")];
    [SIGNATURE, &chunks.concat()].concat()
}

/// A chunk: its length, its name, its bytes, and the check of name and bytes.
fn chunk(name: &[u8; 4], bytes: &[u8]) -> Vec<u8> {
    let checked = [name.as_slice(), bytes].concat();
    [(bytes.len() as u32).to_be_bytes().as_slice(), &checked, &cyclic_check(&checked).to_be_bytes()].concat()
}

/// Bytes as a zlib stream of stored blocks: each with a mark of the last one, its length and that length inverted.
fn stored(bytes: &[u8]) -> Vec<u8> {
    let mut stream = vec![0x78, 0x01];
    let blocks = bytes.chunks(BLOCK);
    let last = blocks.len() - 1;
    for (number, block) in blocks.enumerate() {
        let length = block.len() as u16;
        stream.push(u8::from(number == last));
        stream.extend(length.to_le_bytes());
        stream.extend((!length).to_le_bytes());
        stream.extend(block);
    }
    stream.extend(adler_check(bytes).to_be_bytes());
    stream
}

/// The check of a chunk, CRC-32.
fn cyclic_check(bytes: &[u8]) -> u32 {
    let shifted = |rest: u32, _| (rest >> 1) ^ (0xedb8_8320 * (rest & 1));
    !bytes.iter().fold(!0, |rest, byte| (0..8).fold(rest ^ u32::from(*byte), shifted))
}

/// The check of a zlib stream, Adler-32.
fn adler_check(bytes: &[u8]) -> u32 {
    let (sum, sums) = bytes.iter().fold((1, 0), |(sum, sums), byte| {
        let sum = (sum + u32::from(*byte)) % 65_521;
        (sum, (sums + sum) % 65_521)
    });
    sums << 16 | sum
}

#[cfg(test)]
mod tests {
    use super::{adler_check, cyclic_check, stored};

    #[test]
    fn the_checks_have_their_known_values() {
        assert_eq!(cyclic_check(b"123456789"), 0xcbf4_3926);
        assert_eq!(cyclic_check(b"IEND"), 0xae42_6082);
        assert_eq!(adler_check(b"Wikipedia"), 0x11e6_0398);
    }

    #[test]
    fn long_streams_have_several_blocks() {
        let stream = stored(&[7; 65_536]);
        assert_eq!(stream[..8], [0x78, 0x01, 0, 0xff, 0xff, 0, 0, 7]);
        assert_eq!(stream[2 + 5 + 65_535..][..6], [1, 1, 0, 0xfe, 0xff, 7]);
        assert_eq!(stream.len(), 2 + 2 * 5 + 65_536 + 4);
    }
}
