//! Page lists: the pages of every column in one cluster.

use super::envelope::intact;
use super::footer::NO_CHECKSUM;
use super::header::{Header, ALIAS, COLUMNS, REPETITIVE};
use super::pages::stored_bits;
use super::Number;

/// The highest minimum version that is read.
const SUPPORTED: u16 = 1;

pub const PAGES: usize = 16_384;

pub const PAGE_WORDS: usize = 5;

#[derive(Clone, Copy)]
pub struct Page {
    pub column: u32,
    pub elements: u32,
    pub checksum: bool,
    pub size: u32,
    pub offset: u64,
}

/// Reads a page list for a cluster row with these entries and this checksum,
/// which is compared as soon as the list's own is known to be right.
pub fn read(header: &Header, bytes: &[u8], entries: u64, checksum: u64, file_length: u64) -> Result<Vec<Page>, Number> {
    let envelope = intact(bytes)?;
    if checksum != NO_CHECKSUM && checksum != u64::from(envelope.checksum) {
        return Err(26);
    }
    let mut payload = envelope.open(SUPPORTED)?.payload;
    let (mut columns, count) = payload.list_up_to(COLUMNS)?;
    if count as usize != header.columns.len() {
        return Err(19);
    }
    let mut pages: Vec<Page> = Vec::new();
    let mut totals = [0u64; COLUMNS as usize];
    for (number, column) in header.columns.iter().enumerate() {
        let (mut list, count) = columns.list()?;
        if count as usize > PAGES - pages.len() {
            return Err(10);
        }
        pages.reserve(count as usize);
        for _ in 0..count {
            let word = list.u32()?;
            if word >> 31 != 0 {
                return Err(12);
            }
            let elements = word & 0x3FFF_FFFF;
            // For a known type its record's bits are the type's.
            let size = (u64::from(elements) * u64::from(column.bits)).div_ceil(8);
            let checksum = word >> 30 != 0;
            // The four check bytes are not in the size, but in the file.
            let behind = if checksum { 4 } else { 0 };
            let offset = list.locator(size, behind, file_length)?;
            pages.push(Page {
                column: number as u32,
                elements,
                checksum,
                size: size as u32,
                offset,
            });
            totals[number] += u64::from(elements);
        }
        list.finish()?;
    }
    columns.finish()?;
    payload.finish()?;
    totals_agree(header, &totals, entries)?;
    Ok(pages)
}

/// The first column of every plain top-level field has one element per entry.
pub(super) fn totals_agree(header: &Header, totals: &[u64], entries: u64) -> Result<(), Number> {
    let mut seen = [false; super::header::FIELDS as usize];
    for (column, total) in header.columns.iter().zip(totals) {
        let number = column.field as usize;
        if std::mem::replace(&mut seen[number], true) {
            continue;
        }
        let field = &header.fields[number];
        if field.parent as usize == number
            && field.flags & (REPETITIVE | ALIAS) == 0
            && stored_bits(u32::from(column.column_type)).is_some()
            && *total != entries
        {
            return Err(19);
        }
    }
    Ok(())
}

pub fn store(list: &[Page], pages: &mut [u64]) -> Result<(), Number> {
    if pages.len() / PAGE_WORDS < list.len() {
        return Err(20);
    }
    for (row, page) in pages.chunks_exact_mut(PAGE_WORDS).zip(list) {
        row.copy_from_slice(&[
            u64::from(page.column),
            u64::from(page.elements),
            u64::from(page.checksum),
            u64::from(page.size),
            page.offset,
        ]);
    }
    Ok(())
}
