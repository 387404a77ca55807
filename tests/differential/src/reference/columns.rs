//! A column: its pages out of a part of a file, one after the other.

#[cfg(test)]
mod lines;

use super::{pages, Number};

/// Offset, size without check bytes, elements, and whether a checksum follows.
pub const ROW_WORDS: usize = 4;

pub const PAGES: usize = 256;

const CHECK_BYTES: u128 = 4;

/// A row, its numbers as they are given.
#[derive(Clone, Copy)]
struct Row {
    offset: u64,
    size: u64,
    elements: u64,
    checksum: bool,
}

impl Row {
    fn of(words: &[u64]) -> Self {
        Row {
            offset: words[0],
            size: words[1],
            elements: words[2],
            checksum: words[3] != 0,
        }
    }

    /// The bytes of the page, check bytes included, if they are all there.
    fn bytes<'a>(&self, file: &'a [u8]) -> Result<&'a [u8], Number> {
        let start = u128::from(self.offset);
        let end = start + u128::from(self.size) + if self.checksum { CHECK_BYTES } else { 0 };
        if end > file.len() as u128 {
            return Err(18);
        }
        Ok(&file[start as usize..end as usize])
    }
}

/// Decodes page after page from the first of `words` on. An error has the
/// number and the index of the refused page; else the number of pages is given.
pub fn decode(column_type: u32, table: &[u64], file: &[u8], words: &mut [u64]) -> Result<usize, (Number, usize)> {
    let rows = table.len() / ROW_WORDS;
    if rows > PAGES {
        return Err((10, PAGES));
    }
    let mut start = 0;
    for (index, row) in table.chunks_exact(ROW_WORDS).map(Row::of).enumerate() {
        let decoded = pages::known(column_type, row.elements)
            .and_then(|()| row.bytes(file))
            .and_then(|page| pages::decode(column_type, row.elements, row.checksum, page, words, start));
        decoded.map_err(|number| (number, index))?;
        start += row.elements;
    }
    Ok(rows)
}
