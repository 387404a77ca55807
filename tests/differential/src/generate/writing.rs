//! Tables to be written: right ones, those of envelopes that were read, and
//! ones with something wrong.

pub mod footers;
pub mod headers;
pub mod page_lists;

use super::random::Random;
use super::Generator;
use crate::reference::envelope::ENVELOPE_CEILING;

/// Numbers at the ends of places.
const ENDS: [u64; 16] = [
    0,
    (1 << 16) - 1,
    1 << 16,
    (1 << 30) - 1,
    1 << 30,
    (1 << 31) - 1,
    1 << 31,
    (1 << 32) - 1,
    1 << 32,
    (1 << 32) + 1,
    (1 << 60) - 1,
    1 << 60,
    1 << 61,
    1 << 63,
    u64::MAX - 1,
    u64::MAX,
];

/// Bits above places: cut off, they leave the number as it was.
const ABOVE: [u32; 9] = [1, 16, 30, 31, 32, 48, 60, 61, 63];

/// So many numbers `listed` has for each word.
const LISTED: u64 = (ENDS.len() + ABOVE.len() + 2) as u64;

/// One of the numbers that every word gets in its turn.
fn listed(number: u64, old: u64) -> u64 {
    let number = number as usize;
    match number.checked_sub(ENDS.len()) {
        None => ENDS[number],
        Some(above) if above < ABOVE.len() => old ^ 1 << ABOVE[above],
        Some(above) if above == ABOVE.len() => old.wrapping_add(1),
        Some(_) => old.wrapping_sub(1),
    }
}

/// Another number, mostly too wide for some place.
fn other(random: &mut Random, old: u64) -> u64 {
    match random.below(5) {
        0 => random.number(),
        _ => listed(random.below(LISTED), old),
    }
}

/// Replaces a word of the tables, any of them as likely.
fn other_word(random: &mut Random, tables: &mut [&mut Vec<u64>]) {
    let words: usize = tables.iter().map(|table| table.len()).sum();
    if words == 0 {
        return;
    }
    let at = random.index(words);
    if let Some(word) = tables.iter_mut().flat_map(|table| table.iter_mut()).nth(at) {
        *word = other(random, *word);
    }
}

/// A row's place in a table, if it has any.
fn any_row(random: &mut Random, table: &[u64], words: usize) -> Option<usize> {
    let rows = table.len() / words;
    (rows > 0).then(|| random.index(rows) * words)
}

/// Takes a row away, doubles it, or puts another one in its place.
fn other_rows(random: &mut Random, table: &mut Vec<u64>, words: usize) {
    let Some(at) = any_row(random, table, words) else {
        return;
    };
    let row = table[at..at + words].to_vec();
    match random.below(3) {
        0 => drop(table.drain(at..at + words)),
        1 => drop(table.splice(at..at, row)),
        _ => {
            let other = any_row(random, table, words).unwrap_or(at);
            table.copy_within(other..other + words, at);
            table[other..other + words].copy_from_slice(&row);
        }
    }
}

/// Words that are no row.
fn left_over(random: &mut Random, table: &mut Vec<u64>, words: usize) {
    if random.one_in(4) {
        let count = random.index(words);
        table.extend((0..count).map(|_| random.number()));
    }
}

impl Generator {
    /// The lent bytes for an envelope of this length.
    fn out(&mut self, length: u128) -> usize {
        let random = &mut self.random;
        // Longer ones are refused, whatever is lent.
        let exact = match usize::try_from(length) {
            Ok(length) if length <= ENVELOPE_CEILING => length,
            _ if random.one_in(16) => ENVELOPE_CEILING + random.index(16),
            _ => random.index(200),
        };
        match random.below(16) {
            0 => exact.saturating_sub(1),
            1 => 0,
            2 => random.index(exact + 1),
            3 => exact.saturating_sub(4),
            4 => exact + 1,
            5..=9 => exact + random.index(40),
            _ => exact,
        }
    }
}
