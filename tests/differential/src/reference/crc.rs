//! The reflected CRC-32 with polynomial EDB88320, sixteen bytes at a time.

pub const POLYNOMIAL: u32 = 0xEDB8_8320;
const SLICES: usize = 16;

/// `TABLES[k][b]` is what byte `b` contributes when `k` more bytes follow it.
static TABLES: [[u32; 256]; SLICES] = tables();

const fn tables() -> [[u32; 256]; SLICES] {
    let mut tables = [[0u32; 256]; SLICES];
    let mut byte = 0;
    while byte < 256 {
        let mut rest = byte as u32;
        let mut bit = 0;
        while bit < 8 {
            rest = if rest & 1 == 1 {
                (rest >> 1) ^ POLYNOMIAL
            } else {
                rest >> 1
            };
            bit += 1;
        }
        tables[0][byte] = rest;
        byte += 1;
    }
    let mut slice = 1;
    while slice < SLICES {
        let mut byte = 0;
        while byte < 256 {
            let before = tables[slice - 1][byte];
            tables[slice][byte] = (before >> 8) ^ tables[0][(before & 0xFF) as usize];
            byte += 1;
        }
        slice += 1;
    }
    tables
}

pub fn crc32(bytes: &[u8]) -> u32 {
    let mut rest = !0u32;
    let mut blocks = bytes.chunks_exact(SLICES);
    for block in &mut blocks {
        // Twelve of the sixteen bytes do not wait for the block before.
        let mut sum = 0;
        for k in 4..SLICES {
            sum ^= TABLES[SLICES - 1 - k][block[k] as usize];
        }
        let [a, b, c, d] = (rest ^ u32::from_le_bytes([block[0], block[1], block[2], block[3]])).to_le_bytes();
        let first = TABLES[15][a as usize] ^ TABLES[14][b as usize];
        let second = TABLES[13][c as usize] ^ TABLES[12][d as usize];
        rest = sum ^ (first ^ second);
    }
    for &byte in blocks.remainder() {
        rest = (rest >> 8) ^ TABLES[0][((rest ^ u32::from(byte)) & 0xFF) as usize];
    }
    !rest
}
