//! Writers of envelopes as one would write them for speed: the rules are
//! checked in a pass over the tables, and a second pass writes straight into the
//! lent bytes. An error is the answer of the exported call.

use differential::calls::{FooterTables, HeaderTables, PageListTable};
use differential::reference::crc::crc32;
use differential::reference::footer::{CLUSTERS, METADATA, MOST_ENTRIES, NO_CHECKSUM};
use differential::reference::header::{self, Header, ALIASES, COLUMNS, FIELDS};
use differential::reference::page_list::PAGES;
use differential::reference::pages::stored_bits;
use differential::reference::{refusal, FOOTER, HEADER, PAGE_LIST};

const CEILING: u64 = 1_048_576;

/// Writes front to back.
struct Pen<'a> {
    out: &'a mut [u8],
    at: usize,
}

impl<'a> Pen<'a> {
    /// An envelope of this version that fills the bytes.
    fn new(out: &'a mut [u8], version: u16) -> Self {
        let mut pen = Pen { out, at: 0 };
        pen.put(version.to_le_bytes());
        pen.put(1u16.to_le_bytes());
        pen
    }

    #[inline(always)]
    fn put<const N: usize>(&mut self, bytes: [u8; N]) {
        self.out[self.at..self.at + N].copy_from_slice(&bytes);
        self.at += N;
    }

    #[inline(always)]
    fn string(&mut self, strings: &[u8], text: &[u64]) {
        let (place, length) = (text[0] as usize, text[1] as usize);
        self.put((length as u32).to_le_bytes());
        self.out[self.at..self.at + length].copy_from_slice(&strings[place..place + length]);
        self.at += length;
    }

    /// The head of a list of so many items in so many bytes.
    fn list(&mut self, items: usize, bytes: usize) {
        self.put((-(8 + bytes as i32)).to_le_bytes());
        self.put((items as u32).to_le_bytes());
    }

    fn seal(self) {
        let (content, checksum) = self.out.split_at_mut(self.at);
        checksum.copy_from_slice(&crc32(content).to_le_bytes());
    }
}

fn narrow(number: u64, bits: u32) -> Result<(), u32> {
    if number >> bits == 0 {
        Ok(())
    } else {
        Err(25)
    }
}

fn ensure(holds: bool, number: u32) -> Result<(), u32> {
    if holds {
        Ok(())
    } else {
        Err(number)
    }
}

fn text_is_right(strings: &[u8], text: &[u64]) -> Result<(), u32> {
    let end = text[0].checked_add(text[1]).filter(|&end| end <= strings.len() as u64);
    let end = end.ok_or(7u32)? as usize;
    std::str::from_utf8(&strings[text[0] as usize..end]).map_or(Err(9), |_| Ok(()))
}

/// The bytes of a field record.
fn field_bytes(row: &[u64; 15]) -> u64 {
    let repetition = if row[4] & 1 == 1 { 8 } else { 0 };
    let strings = row[7].saturating_add(row[9]).saturating_add(row[11]);
    strings.saturating_add(row[13]).saturating_add(36 + repetition)
}

/// Whether all chains of parents end, each followed up to where an earlier one came.
fn chains_end(fields: &[[u64; 15]]) -> bool {
    let mut passed_by = [0u16; FIELDS as usize];
    for first in 0..fields.len() {
        let mut at = first;
        while passed_by[at] == 0 {
            passed_by[at] = first as u16 + 1;
            let parent = fields[at][2] as usize;
            if parent == at {
                break;
            }
            if passed_by[parent] == first as u16 + 1 {
                return false;
            }
            at = parent;
        }
    }
    true
}

pub fn header(tables: HeaderTables, out: &mut [u8]) -> Result<usize, u32> {
    write_header(tables, out).map_err(|number| refusal(HEADER, number))
}

fn write_header(tables: HeaderTables, out: &mut [u8]) -> Result<usize, u32> {
    let HeaderTables { strings, texts, .. } = tables;
    let fields: &[[u64; 15]] = tables.fields.as_chunks().0;
    let columns: &[[u64; 4]] = tables.columns.as_chunks().0;
    let aliases: &[[u64; 2]] = tables.aliases.as_chunks().0;
    let rows = 16 * columns.len() as u64 + 12 * aliases.len() as u64;
    let field_total = fields.iter().map(field_bytes).fold(0, u64::saturating_add);
    let length = texts[1].saturating_add(texts[3]).saturating_add(field_total);
    let length = length.saturating_add(48 + rows);
    ensure(length <= CEILING, 1)?;
    text_is_right(strings, &texts[..2])?;
    text_is_right(strings, &texts[2..])?;
    ensure(fields.len() <= FIELDS as usize, 10)?;
    for row in fields {
        narrow(row[0], 32)?;
        narrow(row[1], 32)?;
        narrow(row[2], 32)?;
        ensure(row[2] < fields.len() as u64, 14)?;
        narrow(row[3], 16)?;
        ensure(row[3] <= 4, 12)?;
        narrow(row[4], 16)?;
        ensure(row[4] <= 3, 12)?;
        for text in row[6..14].chunks_exact(2) {
            text_is_right(strings, text)?;
        }
    }
    ensure(columns.len() <= COLUMNS as usize, 10)?;
    for row in columns {
        narrow(row[0], 16)?;
        narrow(row[1], 16)?;
        ensure(
            stored_bits(row[0] as u32).is_none_or(|bits| u64::from(bits) == row[1]),
            13,
        )?;
        narrow(row[2], 32)?;
        ensure(row[2] < fields.len() as u64, 14)?;
        narrow(row[3], 32)?;
        ensure(row[3] <= 7, 12)?;
    }
    ensure(aliases.len() <= ALIASES as usize, 10)?;
    for row in aliases {
        narrow(row[0], 32)?;
        ensure(row[0] < columns.len() as u64, 14)?;
        narrow(row[1], 32)?;
        let target = fields.get(row[1] as usize);
        ensure(target.is_some_and(|field| field[4] & 2 != 0), 14)?;
    }
    ensure(chains_end(fields), 15)?;

    let length = length as usize;
    let mut pen = Pen::new(out.get_mut(..length).ok_or(20u32)?, 1);
    pen.put([0; 8]);
    pen.string(strings, &texts[..2]);
    pen.string(strings, &texts[2..]);
    pen.list(fields.len(), field_total as usize);
    for row in fields {
        pen.put((field_bytes(row) as u32).to_le_bytes());
        pen.put((row[0] as u32).to_le_bytes());
        pen.put((row[1] as u32).to_le_bytes());
        pen.put((row[2] as u32).to_le_bytes());
        pen.put((row[3] as u16).to_le_bytes());
        pen.put((row[4] as u16).to_le_bytes());
        if row[4] & 1 == 1 {
            pen.put(row[5].to_le_bytes());
        }
        for text in row[6..14].chunks_exact(2) {
            pen.string(strings, text);
        }
    }
    pen.list(columns.len(), 16 * columns.len());
    for row in columns {
        let words = u128::from(row[0]) | u128::from(row[1]) << 16 | u128::from(row[2]) << 32 | u128::from(row[3]) << 64;
        pen.put((words << 32 | 16).to_le_bytes());
    }
    pen.list(aliases.len(), 12 * aliases.len());
    for row in aliases {
        pen.put(12u32.to_le_bytes());
        pen.put((row[0] | row[1] << 32).to_le_bytes());
    }
    pen.seal();
    Ok(length)
}

fn link_is_right(size: u64, offset: u64, file_length: u64) -> Result<(), u32> {
    narrow(size, 31)?;
    let end = offset.checked_add(size);
    ensure(end.is_some_and(|end| end <= file_length), 18)
}

/// The two sizes and the offset of a link.
fn link(size: u64, offset: u64) -> [u8; 16] {
    (u128::from(size | size << 32) | u128::from(offset) << 64).to_le_bytes()
}

pub fn footer(tables: FooterTables, out: &mut [u8]) -> Result<usize, u32> {
    let header = header::read(tables.header).map_err(|number| refusal(HEADER, number))?;
    write_footer(tables, header.checksum, out).map_err(|number| refusal(FOOTER, number))
}

fn write_footer(tables: FooterTables, header_checksum: u32, out: &mut [u8]) -> Result<usize, u32> {
    let file_length = tables.file_length;
    let clusters: &[[u64; 5]] = tables.clusters.as_chunks().0;
    let metadata: &[[u64; 2]] = tables.metadata.as_chunks().0;
    let checksums = clusters.first().is_some_and(|row| row[4] != NO_CHECKSUM);
    ensure(clusters.iter().all(|row| (row[4] != NO_CHECKSUM) == checksums), 19)?;
    let record = if checksums { 40 } else { 36 };
    let length = 52 + record * clusters.len() + 16 * metadata.len();
    ensure(length as u64 <= CEILING, 1)?;
    ensure(clusters.len() <= CLUSTERS as usize, 10)?;
    let mut sum = 0;
    for row in clusters {
        ensure(row[0] == sum, 19)?;
        narrow(row[1], 60)?;
        sum += row[1];
        ensure(sum <= MOST_ENTRIES, 19)?;
        link_is_right(row[2], row[3], file_length)?;
        if checksums {
            narrow(row[4], 32)?;
        }
    }
    ensure(metadata.len() <= METADATA as usize, 10)?;
    for row in metadata {
        link_is_right(row[0], row[1], file_length)?;
    }

    let mut pen = Pen::new(out.get_mut(..length).ok_or(20u32)?, if checksums { 2 } else { 1 });
    pen.put([0; 8]);
    pen.put(header_checksum.to_le_bytes());
    pen.list(0, 0);
    pen.list(0, 0);
    pen.list(clusters.len(), record * clusters.len());
    for row in clusters {
        pen.put((record as u32).to_le_bytes());
        pen.put(row[0].to_le_bytes());
        pen.put(row[1].to_le_bytes());
        pen.put(link(row[2], row[3]));
        if checksums {
            pen.put((row[4] as u32).to_le_bytes());
        }
    }
    pen.list(metadata.len(), 16 * metadata.len());
    for row in metadata {
        pen.put(link(row[0], row[1]));
    }
    pen.seal();
    Ok(length)
}

pub fn page_list(table: PageListTable, out: &mut [u8]) -> Result<usize, u32> {
    let header = header::read(table.header).map_err(|number| refusal(HEADER, number))?;
    write_page_list(table, &header, out).map_err(|number| refusal(PAGE_LIST, number))
}

fn write_page_list(table: PageListTable, header: &Header, out: &mut [u8]) -> Result<usize, u32> {
    let pages: &[[u64; 5]] = table.pages.as_chunks().0;
    let columns = &header.columns;
    let length = 16 + 8 * columns.len() + 16 * pages.len();
    ensure(length as u64 <= CEILING, 1)?;
    ensure(pages.is_sorted_by_key(|row| row[0]), 14)?;
    ensure(pages.last().is_none_or(|row| row[0] < columns.len() as u64), 14)?;
    // The pages of each column, and its elements in all.
    let (mut counts, mut totals) = ([0usize; COLUMNS as usize], [0u64; COLUMNS as usize]);
    for row in pages {
        counts[row[0] as usize] += 1;
    }
    let (mut rest, mut all) = (pages, 0);
    for (number, column) in columns.iter().enumerate() {
        let own;
        (own, rest) = rest.split_at(counts[number]);
        all += own.len();
        ensure(all <= PAGES, 10)?;
        for &[_, elements, checksum, size, offset] in own {
            narrow(elements, 30)?;
            narrow(checksum, 1)?;
            narrow(size, 31)?;
            ensure(size == (elements * u64::from(column.bits)).div_ceil(8), 17)?;
            let end = offset.checked_add(size + 4 * checksum);
            ensure(end.is_some_and(|end| end <= table.file_length), 18)?;
            totals[number] += elements;
        }
    }
    let mut seen = [false; FIELDS as usize];
    for (column, total) in columns.iter().zip(totals) {
        let number = column.field as usize;
        let field = &header.fields[number];
        let first = !std::mem::replace(&mut seen[number], true);
        let counted = first && field.parent as usize == number && field.flags & 3 == 0;
        let known = stored_bits(u32::from(column.column_type)).is_some();
        ensure(!(counted && known) || total == table.entries, 19)?;
    }

    let mut pen = Pen::new(out.get_mut(..length).ok_or(20u32)?, 1);
    pen.list(columns.len(), 8 * columns.len() + 16 * pages.len());
    let mut rest = pages;
    for &count in &counts[..columns.len()] {
        let own;
        (own, rest) = rest.split_at(count);
        pen.list(count, 16 * count);
        let at = pen.at;
        let places = pen.out[at..at + 16 * count].chunks_exact_mut(16);
        for (place, &[_, elements, checksum, size, offset]) in places.zip(own) {
            let word = elements | checksum << 30 | size << 32;
            place.copy_from_slice(&(u128::from(word) | u128::from(offset) << 64).to_le_bytes());
        }
        pen.at += 16 * count;
    }
    pen.seal();
    Ok(length)
}

/// They keep the rules: the reference leaves the same on the cases of the
/// differential test.
#[cfg(test)]
mod tests {
    use super::*;
    use differential::compare::Comparer;
    use differential::generate::Kind;

    fn answer(written: Result<usize, u32>, result: &mut [u64]) -> u32 {
        result[0] = written.unwrap_or(0) as u64;
        written.map_or_else(|answer| answer, |_| 0)
    }

    #[test]
    fn they_answer_as_the_reference() {
        let mut comparer = Comparer::new();
        comparer.write_header = Box::new(|tables, out, result| match result.len() {
            0 => u32::MAX,
            _ => answer(header(tables, out), result),
        });
        comparer.write_footer = Box::new(|tables, out, result| match result.len() {
            0 => u32::MAX,
            _ => answer(footer(tables, out), result),
        });
        comparer.write_page_list = Box::new(|table, out, result| match result.len() {
            0 => u32::MAX,
            _ => answer(page_list(table, out), result),
        });
        for kind in [Kind::WriteHeader, Kind::WriteFooter, Kind::WritePageList] {
            for case in 0..20_000 {
                comparer
                    .run(1, kind, case)
                    .unwrap_or_else(|difference| panic!("{difference}"));
            }
        }
    }
}
