//! Page lists from tables.

use super::{fit, Draft, AROUND, LIST};
use crate::reference::header::{Header, COLUMNS};
use crate::reference::page_list::{totals_agree, PAGES, PAGE_WORDS};
use crate::reference::Number;

/// A word and a locator.
const PAGE: u128 = 4 + 4 + 8;

/// The rows of a table; words behind the last whole row are not part of it.
pub fn rows(pages: &[u64]) -> &[[u64; PAGE_WORDS]] {
    pages.as_chunks().0
}

/// The bytes that the envelope would have with all rows.
pub fn length(columns: usize, rows: usize) -> u128 {
    AROUND + LIST + columns as u128 * LIST + rows as u128 * PAGE
}

pub fn write(
    header: &Header,
    entries: u64,
    file_length: u64,
    pages: &[[u64; PAGE_WORDS]],
    out: &mut [u8],
) -> Result<usize, Number> {
    let columns = header.columns.len();
    let mut draft = Draft::new(length(columns, pages.len()), 1)?;
    let ordered = pages.windows(2).all(|two| two[0][0] <= two[1][0]);
    if !ordered || pages.iter().any(|row| row[0] >= columns as u64) {
        return Err(14);
    }
    let mut totals = [0u64; COLUMNS as usize];
    draft.list(columns, COLUMNS as usize, |draft| {
        let (mut rest, mut room) = (pages, PAGES);
        for (number, column) in header.columns.iter().enumerate() {
            let count = rest.iter().take_while(|row| row[0] == number as u64).count();
            let (own, others) = rest.split_at(count);
            draft.list(count, room, |draft| {
                for row in own {
                    page(draft, row, column.bits, file_length)?;
                    totals[number] += row[1];
                }
                Ok(())
            })?;
            rest = others;
            room -= count;
        }
        Ok(())
    })?;
    totals_agree(header, &totals, entries)?;
    draft.finish(out)
}

/// A page of a column with elements of so many bits.
fn page(draft: &mut Draft, row: &[u64; PAGE_WORDS], bits: u16, file_length: u64) -> Result<(), Number> {
    let [_, elements, checksum, size, offset] = *row;
    fit(elements, 30)?;
    fit(checksum, 1)?;
    draft.u32(elements | checksum << 30)?;
    let due = (elements * u64::from(bits)).div_ceil(8);
    draft.locator(size, offset, 4 * checksum, file_length, || size == due)
}
