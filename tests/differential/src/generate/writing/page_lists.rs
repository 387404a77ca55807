//! Tables of page lists.

use super::{any_row, left_over, listed, other, other_rows, other_word, LISTED};
use crate::generate::random::Random;
use crate::generate::{edges, models, Generator};
use crate::reference::page_list::{PAGES, PAGE_WORDS};
use crate::reference::read_page_list;
use crate::reference::writing::page_list::length;
use crate::writer::{Header, List, Page, PageList};

const COLUMN: usize = 0;
const ELEMENTS: usize = 1;
const CHECKSUM: usize = 2;
const SIZE: usize = 3;
const OFFSET: usize = 4;

/// What is lent to the writer of a page list.
#[derive(Clone, Default)]
pub struct WritePageListCase {
    pub header: Vec<u8>,
    pub entries: u64,
    pub file_length: u64,
    pub pages: Vec<u64>,
    /// Bytes.
    pub out: usize,
    pub result: usize,
}

/// The words of a page list's rows.
fn table(model: &PageList) -> Vec<u64> {
    let columns = model.columns.items.iter().enumerate();
    let pages = columns.flat_map(|(column, list)| list.items.iter().map(move |page| (column, page)));
    let rows = pages.flat_map(|(column, page)| {
        [
            column as u64,
            page.elements.into(),
            page.checksum.into(),
            page.size.into(),
            page.offset,
        ]
    });
    rows.collect()
}

/// A header and a page list for it, the entries and the file length.
type Archive = (Header, PageList, u64, u64);

/// An archive of a few columns, each of which has pages.
fn small(random: &mut Random) -> Archive {
    loop {
        let mut header = models::header(random);
        if header.fields.items.is_empty() {
            continue;
        }
        for (i, field) in header.fields.items.iter_mut().enumerate() {
            field.parent = i as u32;
        }
        let fields = header.fields.items.len();
        header.aliases.items.clear();
        header.columns.items = (0..2 + random.index(3))
            .map(|_| models::column(random, fields))
            .collect();
        let (list, entries, file_length) = models::page_list(random, &header);
        let rows: usize = list.columns.items.iter().map(|pages| pages.items.len()).sum();
        if (2..50).contains(&rows) {
            return (header, list, entries, file_length);
        }
    }
}

/// One word of a right page list replaced: every word, every number that is
/// listed.
fn one_word(random: &mut Random, place: u64) -> Option<(Archive, Vec<u64>)> {
    let (word, number) = ((place / LISTED) as usize, place % LISTED);
    if word >= PAGE_WORDS {
        return None;
    }
    let archive = small(random);
    let mut pages = table(&archive.1);
    let row = any_row(random, &pages, PAGE_WORDS).unwrap_or(0);
    pages[row + word] = listed(number, pages[row + word]);
    Some((archive, pages))
}

/// A header of so many columns, whose fields have no totals to keep, and so
/// many pages in all, those of each column about as many.
fn archive_of(random: &mut Random, columns: usize, pages: usize) -> Archive {
    let mut header = Header::default();
    header.fields.items = vec![Default::default(); 2];
    for field in &mut header.fields.items {
        (field.parent, field.flags) = (0, 1);
    }
    header.columns.items = (0..columns).map(|_| models::column(random, 2)).collect();
    let mut list = PageList::default();
    for column in 0..columns {
        let count = pages / columns + usize::from(column < pages % columns);
        let page = Page {
            elements: 8,
            size: u32::from(header.columns.items[column].bits),
            offset: random.below(1_000),
            checksum: random.one_in(2),
        };
        list.columns.items.push(List {
            items: vec![page; count],
            spare: 0,
        });
    }
    (header, list, random.number(), 1 << 40)
}

/// Counts above their ceiling, up to the longest envelope and above; orders
/// that are wrong among many rows.
fn largest(random: &mut Random, place: u64) -> Option<(Archive, Vec<u64>)> {
    // With two columns as many as the longest envelope has.
    const MOST: usize = 65_534;
    let (columns, pages) = match place {
        0 => (2, MOST),
        1 => (2, MOST + 1),
        2 => (1, MOST),
        3 => (1, MOST + 1),
        4 => (1_024, MOST - 511),
        5 => (1_024, MOST - 510),
        6 | 7 => (2, MOST + place as usize - 6),
        8 => (3, PAGES + 1),
        9..=12 => (3, PAGES + 1 + random.index(5)),
        13 => (1_024, PAGES),
        14 => (1_024, 0),
        _ => return None,
    };
    let archive = archive_of(random, columns, pages);
    let mut rows = table(&archive.1);
    match place {
        // Order after the length, but before the counts.
        6..=8 => {
            let row = random.index(pages) * PAGE_WORDS;
            rows[row + COLUMN] = random.pick(&[columns as u64, u64::MAX, 1 << 32]);
        }
        // Something wrong before or after the count that is too much.
        9..=12 => {
            other_word(random, &mut [&mut rows]);
        }
        13 => {
            let row = random.index(pages - 1) * PAGE_WORDS;
            rows[row + COLUMN] = random.pick(&[0, 1_023, 1_024]);
        }
        _ => {}
    }
    Some((archive, rows))
}

const LARGEST: u64 = 15;

/// Something wrong, at one place.
fn damage(random: &mut Random, case: &mut WritePageListCase, header: &Header) {
    let Some(row) = any_row(random, &case.pages, PAGE_WORDS) else {
        case.entries = other(random, case.entries);
        return;
    };
    let columns = header.columns.items.len() as u64;
    let page = &mut case.pages[row..row + PAGE_WORDS];
    let bits = header
        .columns
        .items
        .get(page[COLUMN] as usize)
        .map_or(8, |own| own.bits);
    match random.below(14) {
        0 => {
            page[COLUMN] = match random.below(6) {
                0 => columns,
                1 => page[COLUMN].wrapping_add(1),
                2 => page[COLUMN].wrapping_sub(1),
                3 => random.below(columns + 1),
                4 => page[COLUMN].wrapping_add(1 << 32),
                _ => other(random, page[COLUMN]),
            }
        }
        1 => other_rows(random, &mut case.pages, PAGE_WORDS),
        // More elements, or fewer, with the size that they have: totals.
        2 | 3 => {
            page[ELEMENTS] = match random.below(4) {
                0 => page[ELEMENTS].wrapping_add(1),
                1 => page[ELEMENTS].saturating_sub(1),
                2 => random.below(1 << 30),
                _ => other(random, page[ELEMENTS]),
            };
            page[SIZE] = (u128::from(page[ELEMENTS]) * u128::from(bits)).div_ceil(8) as u64;
        }
        4 => page[ELEMENTS] = other(random, page[ELEMENTS]),
        5 => {
            page[CHECKSUM] = match random.below(4) {
                0 | 1 => page[CHECKSUM] ^ 1,
                2 => random.pick(&[2, 3, 4]),
                _ => other(random, page[CHECKSUM]),
            }
        }
        6 => {
            page[SIZE] = match random.below(4) {
                0 => page[SIZE].wrapping_add(1),
                1 => page[SIZE].wrapping_sub(1),
                2 => page[SIZE].wrapping_add(1 << 31),
                _ => other(random, page[SIZE]),
            }
        }
        // At the file's end, with the check bytes or without.
        7 | 8 => {
            let end = case.file_length.wrapping_sub(page[SIZE]);
            page[OFFSET] = match random.below(4) {
                0 => end.wrapping_sub(4),
                1 => end.wrapping_sub(random.below(5)),
                2 => end.wrapping_add(1),
                _ => other(random, page[OFFSET]),
            }
        }
        9 | 10 => {
            case.entries = match random.below(3) {
                0 => case.entries.wrapping_add(1),
                1 => case.entries.wrapping_sub(1),
                _ => other(random, case.entries),
            }
        }
        11 => case.file_length = other(random, case.file_length),
        _ => {
            other_word(random, &mut [&mut case.pages]);
        }
    }
}

/// The words of a page list's rows as a reader leaves them.
fn read_back(case: &WritePageListCase, list: &[u8]) -> Option<Vec<u64>> {
    let mut pages = vec![0; case.pages.len()];
    let (answer, _) = read_page_list(&case.header, list, case.entries, case.file_length, &mut pages);
    (answer == 0).then_some(pages)
}

impl Generator {
    pub fn write_page_list_case(&mut self) -> WritePageListCase {
        let place = self.place.saturating_sub(edges::PAGE_LISTS);
        let edge = edges::page_list(&mut self.random, self.place)
            .map(|archive| {
                let pages = table(&archive.1);
                (archive, pages)
            })
            .or_else(|| largest(&mut self.random, place))
            .or_else(|| one_word(&mut self.random, place - LARGEST));
        let whole = edge.is_none();
        let ((header, list, entries, file_length), pages) = edge.unwrap_or_else(|| {
            let header = models::header(&mut self.random);
            let (list, entries, file_length) = models::page_list(&mut self.random, &header);
            let pages = table(&list);
            ((header, list, entries, file_length), pages)
        });
        let spoilt_header = whole && self.random.one_in(12);
        let mut case = WritePageListCase {
            header: self.header_bytes(&header, spoilt_header),
            entries,
            file_length,
            pages,
            out: 0,
            result: self.result(1),
        };
        if whole && self.random.one_in(2) {
            let list = self.page_list_bytes(&list, false);
            if let Some(pages) = read_back(&case, &list) {
                case.pages = pages;
            }
        }
        if whole && self.random.below(8) < 5 {
            damage(&mut self.random, &mut case, &header);
            if self.random.one_in(3) {
                damage(&mut self.random, &mut case, &header);
            }
        }
        left_over(&mut self.random, &mut case.pages, PAGE_WORDS);
        let rows = case.pages.len() / PAGE_WORDS;
        case.out = self.out(length(header.columns.items.len(), rows));
        case
    }
}
