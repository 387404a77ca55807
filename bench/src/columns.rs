//! Columns of many small pages: the library's one call beside single calls for
//! one page after the other, and beside Rust loops with the same checks.

use crate::{contest, line_beside, per_element, Times, ELEMENTS};
use differential::generate::random::Random;
pub use differential::reference::columns::PAGES;
use differential::reference::columns::ROW_WORDS;
use differential::reference::crc::crc32;
use differential::reference::pages::{self, stored_bits};
use differential::{calls, reference};
use std::hint::black_box;

const SWITCH: u32 = 3;
const BIT: u32 = 6;

/// So many elements each page has; together they are as many as those of the
/// large pages of this benchmark.
pub const PAGE_ELEMENTS: usize = ELEMENTS / PAGES;

/// Calls `page` for each row with the rest of the words, which it shortens by
/// its own.
fn each_page<'a>(
    table: &[u64],
    mut words: &'a mut [u64],
    page: impl Fn([u64; ROW_WORDS], &'a mut [u64]) -> Result<&'a mut [u64], u32>,
) -> Result<usize, (u32, usize)> {
    let rows = table.chunks_exact(ROW_WORDS);
    let count = rows.len();
    if count > PAGES {
        return Err((10, PAGES));
    }
    for (index, row) in rows.enumerate() {
        let row = row.try_into().expect("a row");
        words = page(row, words).map_err(|number| (number, index))?;
    }
    Ok(count)
}

/// The bytes of a page with its check bytes, if they are inside the file.
fn range(file: &[u8], [offset, size, _, checksum]: [u64; ROW_WORDS]) -> Result<&[u8], u32> {
    let check_bytes = if checksum != 0 { 4 } else { 0 };
    let end = offset.checked_add(size).and_then(|end| end.checked_add(check_bytes));
    let end = end.filter(|&end| end <= file.len() as u64).ok_or(18u32)?;
    Ok(&file[offset as usize..end as usize])
}

/// A column as one would decode it in Rust: the checks of a page, then whole
/// elements or planes into its words, the planes put together in the given way.
fn decode(
    column_type: u32,
    table: &[u64],
    file: &[u8],
    words: &mut [u64],
    planes: impl Fn(&[u8], &mut [u64]),
) -> Result<usize, (u32, usize)> {
    each_page(table, words, |row, words| {
        let [_, size, elements, checksum] = row;
        let bits = stored_bits(column_type)
            .filter(|_| column_type != SWITCH)
            .ok_or(23u32)?;
        if elements > pages::ELEMENTS {
            return Err(10);
        }
        let (content, stored) = range(file, row)?.split_at(size as usize);
        if size != (elements * u64::from(bits)).div_ceil(8) {
            return Err(21);
        }
        if checksum != 0 && crc32(content).to_le_bytes() != stored {
            return Err(22);
        }
        let unused = elements % 8;
        if column_type == BIT && unused != 0 && content[size as usize - 1] >> unused != 0 {
            return Err(24);
        }
        let (out, rest) = words.split_at_mut_checked(elements as usize).ok_or(20u32)?;
        fill(column_type, bits, content, out, &planes);
        Ok(rest)
    })
}

fn fill(column_type: u32, bits: u16, content: &[u8], out: &mut [u64], planes: impl Fn(&[u8], &mut [u64])) {
    let split = matches!(column_type, 0x0E..=0x15 | 0x1A..=0x1C);
    match (bits, split) {
        (1, _) => unpack(content, out),
        (8, _) => out
            .iter_mut()
            .zip(content)
            .for_each(|(word, &byte)| *word = byte.into()),
        (16, false) => whole(content, out, |bytes| u16::from_le_bytes(bytes).into()),
        (32, false) => whole(content, out, |bytes| u32::from_le_bytes(bytes).into()),
        (_, false) => whole_words(content, out),
        (_, true) => planes(content, out),
    }
    let mask = u64::MAX >> (64 - bits);
    match column_type {
        0x0E | 0x0F => {
            let mut sum = 0u64;
            for word in out {
                sum = sum.wrapping_add(*word) & mask;
                *word = sum;
            }
        }
        0x1A..=0x1C => out
            .iter_mut()
            .for_each(|word| *word = (*word >> 1 ^ (*word & 1).wrapping_neg()) & mask),
        _ => {}
    }
}

fn whole<const K: usize>(content: &[u8], out: &mut [u64], number: impl Fn([u8; K]) -> u64) {
    for (word, bytes) in out.iter_mut().zip(content.chunks_exact(K)) {
        *word = number(bytes.try_into().expect("so many bytes"));
    }
}

/// Whole words, eight at a time: a call of memcpy for each page takes longer.
fn whole_words(content: &[u8], out: &mut [u64]) {
    let (mut eights, contents) = (out.chunks_exact_mut(8), content.chunks_exact(64));
    let rest = contents.remainder();
    for (words, content) in (&mut eights).zip(contents) {
        whole(content, words, u64::from_le_bytes);
    }
    whole(rest, eights.into_remainder(), u64::from_le_bytes);
}

/// One plane after the other.
fn in_turn(content: &[u8], out: &mut [u64]) {
    let elements = out.len().max(1);
    for (plane, bytes) in content.chunks_exact(elements).enumerate() {
        let words = out.iter_mut().zip(bytes);
        if plane == 0 {
            words.for_each(|(word, &byte)| *word = byte.into());
        } else {
            words.for_each(|(word, &byte)| *word |= u64::from(byte) << (8 * plane));
        }
    }
}

/// One element after the other, a byte of each plane.
fn side_by_side(content: &[u8], out: &mut [u64]) {
    let elements = out.len();
    let plane = |k: usize| &content[k * elements..][..elements];
    let words = out.iter_mut();
    match content.len().checked_div(elements) {
        Some(2) => {
            for ((word, &a), &b) in words.zip(plane(0)).zip(plane(1)) {
                *word = u16::from_le_bytes([a, b]).into();
            }
        }
        Some(4) => {
            for ((((word, &a), &b), &c), &d) in words.zip(plane(0)).zip(plane(1)).zip(plane(2)).zip(plane(3)) {
                *word = u32::from_le_bytes([a, b, c, d]).into();
            }
        }
        Some(_) => {
            let planes: [&[u8]; 8] = std::array::from_fn(plane);
            for (i, word) in words.enumerate() {
                *word = u64::from_le_bytes(std::array::from_fn(|k| planes[k][i]));
            }
        }
        None => {}
    }
}

fn unpack(content: &[u8], out: &mut [u64]) {
    let mut eights = out.chunks_exact_mut(8);
    for (words, &byte) in (&mut eights).zip(content) {
        for (i, word) in words.iter_mut().enumerate() {
            *word = u64::from(byte >> i & 1);
        }
    }
    let last = content.last().copied().unwrap_or(0);
    for (i, word) in eights.into_remainder().iter_mut().enumerate() {
        *word = u64::from(last >> i & 1);
    }
}

/// The same with the independent decoder of pages.
fn by_pages(column_type: u32, table: &[u64], file: &[u8], words: &mut [u64]) -> Result<usize, (u32, usize)> {
    each_page(table, words, |row, words| {
        let [_, _, elements, checksum] = row;
        pages::known(column_type, elements)?;
        pages::decode(column_type, elements, checksum != 0, range(file, row)?, words, 0)?;
        Ok(&mut words[elements as usize..])
    })
}

/// The library's single call for one page after the other, the range of each
/// tested by its caller.
fn single_calls(column_type: u32, table: &[u64], file: &[u8], words: &mut [u64]) -> Result<usize, (u32, usize)> {
    let mut start = 0;
    for (index, row) in table.chunks_exact(ROW_WORDS).enumerate() {
        let row: [u64; ROW_WORDS] = row.try_into().expect("a row");
        let [_, _, elements, checksum] = row;
        let page = range(file, row).map_err(|number| (number, index))?;
        let refused = calls::decode_page(column_type, elements, (checksum != 0).into(), page, words, start);
        if refused != 0 {
            return Err((refused % 256, index));
        }
        start += elements;
    }
    Ok(table.len() / ROW_WORDS)
}

/// The table of a column and the file with its pages, one after the other.
fn column(random: &mut Random, column_type: u32, checksum: bool) -> (Vec<u64>, Vec<u8>) {
    let bits = usize::from(stored_bits(column_type).expect("a known type"));
    let size = PAGE_ELEMENTS * bits / 8;
    // Half a memory page before the first, so that no load waits for a store.
    let (mut table, mut file) = (Vec::new(), vec![0; 2_048]);
    for _ in 0..PAGES {
        table.extend([file.len(), size, PAGE_ELEMENTS, checksum.into()].map(|number| number as u64));
        let page = random.bytes(size);
        file.extend_from_slice(&page);
        if checksum {
            file.extend(crc32(&page).to_le_bytes());
        }
    }
    (table, file)
}

/// The types that are measured, and whether their pages have checksums: 64 and 32
/// bits whole, 32 bits split, 64 bits split with deltas and with zigzag, 16 bits
/// split, 8 bits, and Bit.
const COLUMNS: [(u32, bool); 10] = [
    (0x07, false),
    (0x08, false),
    (0x11, false),
    (0x0E, false),
    (0x1A, false),
    (0x12, false),
    (0x0D, false),
    (0x06, false),
    (0x07, true),
    (0x11, true),
];

/// The name of the library's single calls in the table.
const SINGLE: &str = "single";

/// The lent words and the result of a column call.
type Lent = (Vec<u64>, [u64; 1]);

/// One of the Rust loops, or single calls.
type Decode<'a> = &'a dyn Fn(&mut [u64]) -> Result<usize, (u32, usize)>;

/// What it leaves where it accepts.
fn leave((words, result): &mut Lent, decode: Decode) {
    *result = [decode(words).expect("a right column") as u64];
}

/// The times of one column.
fn times(column_type: u32, table: &[u64], file: &[u8]) -> Times {
    let singles: Decode = &|words| single_calls(column_type, black_box(table), file, words);
    let turn: Decode = &|words| decode(column_type, black_box(table), file, words, in_turn);
    let zip: Decode = &|words| decode(column_type, black_box(table), file, words, side_by_side);
    let pages: Decode = &|words| by_pages(column_type, black_box(table), file, words);
    let mut lent: Lent = (vec![0; ELEMENTS], [0; 1]);
    let times = contest(
        &mut lent,
        &|(words, result)| {
            let answer = calls::decode_column(column_type, black_box(table), file, words, result);
            assert_eq!(answer, 0);
        },
        &[
            (SINGLE, &|lent| leave(lent, singles)),
            ("Rust", &|lent| leave(lent, turn)),
            ("Rust, zip", &|lent| leave(lent, zip)),
            ("Rust pages", &|lent| leave(lent, pages)),
        ],
        8 * ELEMENTS,
    );
    let mut due = vec![0; ELEMENTS];
    let (answer, result) = reference::decode_column(column_type, table, file, &mut due);
    assert!(answer == 0 && lent == (due, result));
    times
}

/// Two lines for each column: beside the fastest of the Rust loops, and beside
/// single calls.
pub fn lines(random: &mut Random) {
    for (column_type, checksum) in COLUMNS {
        let (table, file) = column(random, column_type, checksum);
        let times = times(column_type, &table, &file);
        let with = if checksum { ", checksums" } else { "" };
        let speed = per_element(times.ours);
        let (single, rust) = times.parted(SINGLE);
        line_beside(&format!("column {column_type:02X}{with}"), &speed, &times, rust);
        line_beside("  beside single calls", &speed, &times, single);
    }
}

/// They keep the rules: the reference leaves the same on the cases of the
/// differential test.
#[cfg(test)]
mod tests {
    use super::*;
    use differential::compare::{ColumnCall, Comparer};
    use differential::generate::Kind;
    use differential::reference::{refusal, PAGE};

    fn compare(call: ColumnCall) {
        let mut comparer = Comparer::new();
        comparer.decode_column = call;
        for case in 0..20_000 {
            comparer
                .run(1, Kind::Column, case)
                .unwrap_or_else(|difference| panic!("{difference}"));
        }
    }

    /// An answer as the exported call gives it, and the result.
    fn answer(decoded: Result<usize, (u32, usize)>) -> (u32, u64) {
        match decoded {
            Ok(count) => (0, count as u64),
            Err((number, index)) => (refusal(PAGE, number), index as u64),
        }
    }

    /// The call by what is decoded, where there is a result.
    fn told(result: &mut [u64], decoded: impl FnOnce() -> Result<usize, (u32, usize)>) -> u32 {
        let Some(first) = result.first_mut() else {
            return u32::MAX;
        };
        let (answer, index) = answer(decoded());
        *first = index;
        answer
    }

    #[test]
    fn they_answer_as_the_reference() {
        compare(|column_type, pages, file, words, result| {
            told(result, || decode(column_type, pages, file, words, in_turn))
        });
        compare(|column_type, pages, file, words, result| {
            told(result, || decode(column_type, pages, file, words, side_by_side))
        });
        compare(|column_type, pages, file, words, result| told(result, || by_pages(column_type, pages, file, words)));
    }

    /// Single calls alone do not know how many pages there may be, and 18 comes
    /// before 23 and 10 where the caller tests the range; the pages measured are
    /// right ones.
    #[test]
    fn single_calls_decode_right_columns() {
        let mut random = Random::new(2);
        for (column_type, checksum) in COLUMNS {
            let (table, file) = column(&mut random, column_type, checksum);
            let (mut words, mut due) = (vec![0; ELEMENTS], vec![0; ELEMENTS]);
            assert_eq!(single_calls(column_type, &table, &file, &mut words), Ok(PAGES));
            assert_eq!(decode(column_type, &table, &file, &mut due, in_turn), Ok(PAGES));
            assert!(words == due);
        }
    }
}
