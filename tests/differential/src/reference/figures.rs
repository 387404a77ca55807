//! Figures over page lists: for each column of the header how many pages there
//! are, their elements, their stored sizes, and how many have a checksum.

#[cfg(test)]
mod lines;

use super::footer::NO_CHECKSUM;
use super::page_list::Page;
use super::{header, page_list, Number, HEADER, PAGE_LIST};

/// Pages, elements, stored sizes without check bytes, pages with a checksum.
pub const ROW_WORDS: usize = 4;

/// So many lists a report takes, refused ones too.
pub const LISTS: u64 = 1_024;

/// Lists accepted and lists refused.
pub type Counts = [u64; 2];

/// The figures of one page.
fn of_page(page: &Page) -> [u128; ROW_WORDS] {
    [1, page.elements.into(), page.size.into(), page.checksum.into()]
}

/// How many columns the header has, and the pages of the list.
fn read(header: &[u8], list: &[u8], entries: u64, file_length: u64) -> Result<(usize, Vec<Page>), (u32, Number)> {
    let header = header::read(header).map_err(|number| (HEADER, number))?;
    let pages = page_list::read(&header, list, entries, NO_CHECKSUM, file_length);
    Ok((header.columns.len(), pages.map_err(|number| (PAGE_LIST, number))?))
}

/// Adds a list to the report and to the counts. An error has the envelope and
/// the number; the lists that the reader refuses are counted too.
pub fn add(
    header: &[u8],
    list: &[u8],
    entries: u64,
    file_length: u64,
    [accepted, refused]: &mut Counts,
    report: &mut [u64],
) -> Result<(), (u32, Number)> {
    if u128::from(*accepted) + u128::from(*refused) >= u128::from(LISTS) {
        return Err((PAGE_LIST, 10));
    }
    let (columns, pages) = read(header, list, entries, file_length).inspect_err(|_| *refused += 1)?;
    if report.len() / ROW_WORDS < columns {
        return Err((PAGE_LIST, 20));
    }
    let report = &mut report[..columns * ROW_WORDS];
    let mut sums: Vec<u128> = report.iter().map(|&figure| figure.into()).collect();
    for page in &pages {
        let row = &mut sums[page.column as usize * ROW_WORDS..][..ROW_WORDS];
        for (sum, figure) in row.iter_mut().zip(of_page(page)) {
            *sum += figure;
        }
    }
    if sums.iter().any(|&sum| sum > u128::from(u64::MAX)) {
        return Err((PAGE_LIST, 10));
    }
    for (figure, sum) in report.iter_mut().zip(sums) {
        *figure = sum as u64;
    }
    *accepted += 1;
    Ok(())
}
