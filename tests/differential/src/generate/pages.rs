//! Cases for page calls and for the checksum.

use super::random::Random;
use super::Generator;
use crate::reference::crc::crc32;
use crate::reference::pages::{stored_bits, ELEMENTS};

pub struct DecodeCase {
    pub column_type: u32,
    pub elements: u64,
    pub checksum: u32,
    pub page: Vec<u8>,
    /// Lent words.
    pub words: usize,
    pub start: u64,
}

pub struct EncodeCase {
    pub column_type: u32,
    pub elements: u64,
    pub checksum: u32,
    pub words: Vec<u64>,
    pub start: u64,
    /// Lent bytes.
    pub page: usize,
    pub result: usize,
}

pub struct CrcCase {
    pub bytes: Vec<u8>,
    /// Bytes to leave out in front, so that every alignment comes.
    pub skip: usize,
}

/// Mostly a type that has pages.
fn column_type(random: &mut Random) -> u32 {
    match random.below(40) {
        0 => random.pick(&[0, 3, 29, 30, 0xFF, 0x0101]),
        1 => random.pick(&[0x1_0000, 0x1_0001, 0x1_0006, 0xFFFF, 0x8000_0001, u32::MAX]),
        2 => random.number() as u32,
        3..=5 => 6,
        _ => {
            let column_type = 1 + random.below(28) as u32;
            if column_type == 3 {
                6
            } else {
                column_type
            }
        }
    }
}

fn elements(random: &mut Random) -> u64 {
    match random.below(256) {
        0..=3 => random.below(5_000),
        4..=20 => (1 << random.below(11)) + random.below(3) - 1,
        21..=23 => ELEMENTS + 1 + random.below(16),
        24 => random.number(),
        25 => random.pick(&[1 << 58, 1 << 61, 1 << 63, u64::MAX, u64::MAX - 7]),
        26..=50 => random.below(200),
        51..=60 => 0,
        _ => random.below(24),
    }
}

/// The first cases of a period are large: each type at the ceiling, and what
/// is around it.
fn type_and_elements(random: &mut Random, place: u64) -> (u32, u64) {
    match place {
        0..=27 => (place as u32 + 1, ELEMENTS),
        28..=30 => (column_type(random), ELEMENTS - 1 - random.below(16)),
        31 => (column_type(random), ELEMENTS + 1),
        _ => (column_type(random), elements(random)),
    }
}

/// Any number other than 0 asks for a checksum.
fn checksum(random: &mut Random) -> u32 {
    match random.below(8) {
        0 => random.pick(&[2, 256, 0x1_0000, 0x8000_0000, u32::MAX]),
        1..=3 => 1,
        _ => 0,
    }
}

/// Lent words and a start: mostly enough of them, at times not.
fn words_and_start(random: &mut Random, elements: u64) -> (usize, u64) {
    // More elements than the ceiling are refused before any room is looked at.
    let elements = match elements {
        0..=ELEMENTS => elements,
        _ if random.one_in(64) => ELEMENTS + 1,
        _ => random.below(32),
    };
    let start = random.below(6);
    let exact = start + elements;
    match random.below(48) {
        0 => (exact.saturating_sub(1) as usize, start),
        1 => (random.up_to(exact) as usize, start),
        2 => (
            exact as usize,
            random.pick(&[u64::MAX, u64::MAX - elements, (u64::MAX - elements).wrapping_add(1)]),
        ),
        3 => (exact as usize, random.number()),
        4 => (exact as usize, start + 1),
        5 => (0, 0),
        6..=20 => (exact as usize, start),
        _ => (exact as usize + random.index(6), start),
    }
}

fn page_bytes(column_type: u32, elements: u64) -> Option<usize> {
    let bits = stored_bits(column_type).filter(|_| elements <= ELEMENTS)?;
    Some((elements as usize * usize::from(bits)).div_ceil(8))
}

impl Generator {
    pub fn decode_case(&mut self) -> DecodeCase {
        let random = &mut self.random;
        let (column_type, elements) = type_and_elements(random, self.place);
        let checksum = checksum(random);
        let size = page_bytes(column_type, elements).unwrap_or_else(|| random.index(20));
        let mut page = random.bytes(size);
        // Small numbers too, so that deltas and signs are not all wild.
        if random.one_in(8) {
            page.iter_mut().for_each(|byte| *byte &= 1);
        }
        if column_type == 6 && !elements.is_multiple_of(8) && !random.one_in(5) {
            if let Some(last) = page.last_mut() {
                *last &= (1 << (elements % 8)) - 1;
            }
        }
        if checksum != 0 {
            let mut stored = crc32(&page);
            if random.one_in(12) {
                stored ^= 1 << random.below(32);
            }
            page.extend_from_slice(&stored.to_le_bytes());
        }
        match random.below(48) {
            0 => page.push(random.next() as u8),
            1 => drop(page.pop()),
            2 => {
                let length = random.index(page.len() + 8);
                page.resize(length, 0);
            }
            3 => {
                let length = random.index(40);
                page = random.bytes(length);
            }
            _ => {}
        }
        let (words, start) = words_and_start(random, elements);
        DecodeCase {
            column_type,
            elements,
            checksum,
            page,
            words,
            start,
        }
    }

    pub fn encode_case(&mut self) -> EncodeCase {
        let random = &mut self.random;
        let (column_type, elements) = type_and_elements(random, self.place);
        let checksum = checksum(random);
        let (word_count, start) = words_and_start(random, elements);
        let bits = stored_bits(column_type).unwrap_or(8).min(64);
        let mask = u64::MAX >> (64 - bits);
        let wild = random.one_in(2);
        let mut words: Vec<u64> = (0..word_count)
            .map(|_| {
                if wild {
                    random.next() & mask
                } else {
                    random.number() & mask
                }
            })
            .collect();
        if random.one_in(8) && word_count > 0 {
            // Not every word is part of the page, so that this may be harmless.
            let at = random.index(word_count);
            words[at] = match random.below(3) {
                0 => mask.wrapping_add(1),
                1 => words[at] | 1 << 63,
                _ => random.next(),
            };
        }
        let exact = page_bytes(column_type, elements).unwrap_or(12) + if checksum != 0 { 4 } else { 0 };
        let page = match random.below(24) {
            0 => exact.saturating_sub(1),
            1 => exact.saturating_sub(4),
            2 => random.index(exact + 1),
            3..=12 => exact,
            _ => exact + random.index(12),
        };
        EncodeCase {
            column_type,
            elements,
            checksum,
            words,
            start,
            page,
            result: self.result(1),
        }
    }

    pub fn crc_case(&mut self) -> CrcCase {
        let random = &mut self.random;
        let length = match self.place {
            0 => 1_048_576,
            1 => 1_048_577 + random.index(64),
            2..=9 => random.index(70_000),
            _ => match random.below(32) {
                0 => random.index(4_000),
                1..=9 => random.index(300),
                _ => random.index(50),
            },
        };
        CrcCase {
            bytes: random.bytes(length + 16),
            skip: random.index(17),
        }
    }
}
