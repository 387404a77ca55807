//! Column types, and pages as bytes.

use super::crc::crc32;
use super::Number;

pub const ELEMENTS: u64 = 131_072;

/// Elements that a split takes at a time.
const BLOCK: usize = 256;

const SWITCH: u32 = 0x03;
const BIT: u32 = 0x06;

/// What happens to an element before its bytes are laid down.
#[derive(Clone, Copy, PartialEq, Eq)]
enum Step {
    None,
    Delta,
    Zigzag,
}

#[derive(Clone, Copy)]
struct Encoding {
    bytes: usize,
    split: bool,
    step: Step,
}

/// The bits of one stored element; none for an unknown type.
pub fn stored_bits(column_type: u32) -> Option<u16> {
    Some(match column_type {
        0x01 | 0x07 | 0x0A | 0x0E | 0x10 | 0x13 | 0x16 | 0x1A => 64,
        0x02 | 0x08 | 0x0B | 0x0F | 0x11 | 0x14 | 0x17 | 0x1B => 32,
        0x09 | 0x0C | 0x12 | 0x15 | 0x18 | 0x1C => 16,
        0x04 | 0x05 | 0x0D | 0x19 => 8,
        SWITCH => 96,
        BIT => 1,
        _ => return None,
    })
}

fn encoding(column_type: u32, bits: u16) -> Encoding {
    Encoding {
        bytes: usize::from(bits / 8),
        split: matches!(column_type, 0x0E..=0x15 | 0x1A..=0x1C),
        step: match column_type {
            0x0E | 0x0F => Step::Delta,
            0x1A..=0x1C => Step::Zigzag,
            _ => Step::None,
        },
    }
}

/// Type and ceiling: the first two checks of both directions. Gives the
/// stored bits, the elements and the bytes of the page without its checksum.
fn measure(column_type: u32, elements: u64) -> Result<(u16, usize, usize), Number> {
    if column_type == SWITCH {
        return Err(23);
    }
    let bits = stored_bits(column_type).ok_or(23u32)?;
    if elements > ELEMENTS {
        return Err(10);
    }
    let elements = elements as usize;
    Ok((bits, elements, (elements * usize::from(bits)).div_ceil(8)))
}

/// The checks that need no byte of the page.
pub fn known(column_type: u32, elements: u64) -> Result<(), Number> {
    measure(column_type, elements).map(drop)
}

/// The part of a slice of `length` that a page call uses.
fn part(start: u64, elements: usize, length: usize) -> Result<std::ops::Range<usize>, Number> {
    match start.checked_add(elements as u64) {
        Some(end) if end <= length as u64 => Ok(start as usize..end as usize),
        _ => Err(20),
    }
}

pub fn decode(
    column_type: u32,
    elements: u64,
    checksum: bool,
    page: &[u8],
    words: &mut [u64],
    start: u64,
) -> Result<(), Number> {
    let (bits, elements, size) = measure(column_type, elements)?;
    if page.len() != size + if checksum { 4 } else { 0 } {
        return Err(21);
    }
    let (content, stored) = page.split_at(size);
    if checksum && crc32(content).to_le_bytes() != stored {
        return Err(22);
    }
    if column_type == BIT && elements % 8 != 0 && content[size - 1] >> (elements % 8) != 0 {
        return Err(24);
    }
    let range = part(start, elements, words.len())?;
    let out = &mut words[range];
    if column_type == BIT {
        unpack(content, out);
        return Ok(());
    }
    let encoding = encoding(column_type, bits);
    match (encoding.bytes, encoding.split) {
        (1, _) => join_whole::<1>(content, out),
        (2, false) => join_whole::<2>(content, out),
        (4, false) => join_whole::<4>(content, out),
        (_, false) => join_whole::<8>(content, out),
        (2, true) => join_planes::<2>(content, out),
        (4, true) => join_planes::<4>(content, out),
        (_, true) => join_planes::<8>(content, out),
    }
    match encoding.step {
        Step::None => {}
        Step::Delta => {
            let mask = mask(bits);
            let mut sum = 0u64;
            for word in out {
                sum = sum.wrapping_add(*word) & mask;
                *word = sum;
            }
        }
        Step::Zigzag => {
            let mask = mask(bits);
            for word in out {
                *word = unzigzag(*word) & mask;
            }
        }
    }
    Ok(())
}

/// The page is decoded, and those of its elements counted that are true.
pub fn count_true(elements: u64, checksum: bool, page: &[u8]) -> Result<u64, Number> {
    known(BIT, elements)?;
    let mut words = vec![0; elements as usize];
    decode(BIT, elements, checksum, page, &mut words, 0)?;
    Ok(words.iter().filter(|&&word| word == 1).count() as u64)
}

pub fn encode(
    column_type: u32,
    elements: u64,
    checksum: bool,
    words: &[u64],
    start: u64,
    page: &mut [u8],
) -> Result<usize, Number> {
    let (bits, elements, size) = measure(column_type, elements)?;
    let range = part(start, elements, words.len())?;
    let written = size + if checksum { 4 } else { 0 };
    if page.len() < written {
        return Err(20);
    }
    let words = &words[range];
    let mask = mask(bits);
    // One sum over all elements instead of an early way out: it vectorises.
    if words.iter().fold(0, |bits, word| bits | word) & !mask != 0 {
        return Err(25);
    }
    let (content, rest) = page.split_at_mut(size);
    if column_type == BIT {
        pack(words, content);
    } else {
        lay(encoding(column_type, bits), words, content);
    }
    if checksum {
        rest[..4].copy_from_slice(&crc32(content).to_le_bytes());
    }
    Ok(written)
}

/// The bits that an element of this width may have.
fn mask(bits: u16) -> u64 {
    u64::MAX >> (64 - bits)
}

/// Zigzag of a signed element that leaves `unused` bits of the word; what
/// stands above its width is not stored.
fn zigzag(word: u64, unused: u32) -> u64 {
    let signed = (word << unused) as i64 >> unused;
    ((signed << 1) ^ (signed >> 63)) as u64
}

fn unzigzag(word: u64) -> u64 {
    (word >> 1) ^ (word & 1).wrapping_neg()
}

fn lay(encoding: Encoding, words: &[u64], content: &mut [u8]) {
    match (encoding.bytes, encoding.split) {
        (1, _) => part_whole::<1>(words, content),
        (2, false) => part_whole::<2>(words, content),
        (4, false) => part_whole::<4>(words, content),
        (_, false) => part_whole::<8>(words, content),
        (2, true) => part_planes::<2>(encoding.step, words, content),
        (4, true) => part_planes::<4>(encoding.step, words, content),
        (_, true) => part_planes::<8>(encoding.step, words, content),
    }
}

fn join_whole<const K: usize>(content: &[u8], out: &mut [u64]) {
    for (word, bytes) in out.iter_mut().zip(content.chunks_exact(K)) {
        let mut whole = [0; 8];
        whole[..K].copy_from_slice(bytes);
        *word = u64::from_le_bytes(whole);
    }
}

fn join_planes<const K: usize>(content: &[u8], out: &mut [u64]) {
    let elements = out.len();
    let planes: [&[u8]; K] = std::array::from_fn(|k| &content[k * elements..][..elements]);
    for (i, word) in out.iter_mut().enumerate() {
        *word = (0..K).fold(0, |word, k| word | u64::from(planes[k][i]) << (8 * k));
    }
}

fn part_whole<const K: usize>(words: &[u64], content: &mut [u8]) {
    for (bytes, word) in content.chunks_exact_mut(K).zip(words) {
        bytes.copy_from_slice(&word.to_le_bytes()[..K]);
    }
}

/// Elements are prepared a block at a time, then each plane gets its part of
/// the block.
fn part_planes<const K: usize>(step: Step, words: &[u64], content: &mut [u8]) {
    let elements = words.len();
    let mut before = 0;
    let mut stored = [0; BLOCK];
    for (number, block) in words.chunks(BLOCK).enumerate() {
        let stored = &mut stored[..block.len()];
        match step {
            Step::None => stored.copy_from_slice(block),
            Step::Delta => {
                stored[0] = block[0].wrapping_sub(before);
                for (stored, pair) in stored[1..].iter_mut().zip(block.windows(2)) {
                    *stored = pair[1].wrapping_sub(pair[0]);
                }
                before = block[block.len() - 1];
            }
            Step::Zigzag => {
                for (stored, word) in stored.iter_mut().zip(block) {
                    *stored = zigzag(*word, 64 - 8 * K as u32);
                }
            }
        }
        for k in 0..K {
            let plane = &mut content[k * elements + number * BLOCK..][..stored.len()];
            for (byte, word) in plane.iter_mut().zip(&*stored) {
                *byte = (*word >> (8 * k)) as u8;
            }
        }
    }
}

fn unpack(content: &[u8], out: &mut [u64]) {
    for (words, &byte) in out.chunks_mut(8).zip(content) {
        for (i, word) in words.iter_mut().enumerate() {
            *word = u64::from(byte >> i & 1);
        }
    }
}

fn pack(words: &[u64], content: &mut [u8]) {
    for (byte, words) in content.iter_mut().zip(words.chunks(8)) {
        *byte = words
            .iter()
            .enumerate()
            .fold(0, |byte, (i, word)| byte | (*word as u8) << i);
    }
}
