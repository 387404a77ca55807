//! Wrong writers of page lists.

use super::{cut, exported, filled_up, first_for_all, Alter, Call, Instead, Lent, Place, Where, Wrong, CEILING};
use differential::compare::Comparer;
use differential::generate::Kind;
use differential::reference::header::{read, Column};
use differential::reference::writing::page_list::length;
use differential::reference::{write_page_list, PAGE_LIST};

const PAGES: usize = 16_384;

/// What a writer is lent, to be altered.
#[derive(Clone)]
pub struct Own {
    header: Vec<u8>,
    entries: u64,
    file_length: u64,
    pages: Vec<u64>,
}

impl Own {
    fn rows(&self) -> impl Iterator<Item = &[u64]> {
        self.pages.chunks_exact(5)
    }

    fn each_page(&mut self, change: impl FnMut(&mut [u64])) {
        self.pages.chunks_exact_mut(5).for_each(change);
    }

    /// None where the header is refused.
    fn columns(&self) -> Vec<Column> {
        read(&self.header).map(|header| header.columns).unwrap_or_default()
    }

    fn length(&self) -> u128 {
        length(self.columns().len(), self.pages.len() / 5)
    }

    fn ordered(&self) -> bool {
        let columns = self.columns().len() as u64;
        let own: Vec<u64> = self.rows().map(|row| row[0]).collect();
        own.is_sorted() && own.iter().all(|&column| column < columns)
    }

    /// The rows that name a column, in the order of their columns.
    fn put_in_order(&mut self) {
        let columns = self.columns().len() as u64;
        let mut rows: Vec<Vec<u64>> = self.rows().map(<[u64]>::to_vec).collect();
        rows.retain(|row| row[0] < columns);
        rows.sort_by_key(|row| row[0]);
        self.pages = rows.concat();
    }

    /// The size that a page is due.
    fn each_due(&mut self, mut change: impl FnMut(&mut [u64], u64)) {
        let columns = self.columns();
        self.each_page(|row| {
            let bits = columns.get(row[0] as usize).map_or(8, |column| column.bits);
            change(row, (u128::from(row[1]) * u128::from(bits)).div_ceil(8) as u64);
        });
    }
}

impl Lent for Own {
    const ENVELOPE: u32 = PAGE_LIST;
    const KIND: Kind = Kind::WritePageList;

    fn write(&self, out: &mut [u8], result: &mut [u64]) -> u32 {
        exported(result, || {
            write_page_list(&self.header, self.entries, self.file_length, &self.pages, out)
        })
    }

    fn replace(comparer: &mut Comparer, call: impl Fn(Self, &mut [u8], &mut [u64]) -> u32 + 'static) {
        comparer.write_page_list = Box::new(move |table, out, result| {
            let own = Own {
                header: table.header.to_vec(),
                entries: table.entries,
                file_length: table.file_length,
                pages: table.pages.to_vec(),
            };
            call(own, out, result)
        });
    }
}

/// The number of other tables.
fn number_of(own: &Own, alter: impl FnOnce(&mut Own)) -> u32 {
    let mut own = own.clone();
    alter(&mut own);
    own.roomy() % 256
}

/// Writers of other tables than those that they are lent.
const ALTERED: &[(&str, Alter<Own>)] = &[
    ("the first page for all", |own| first_for_all(&mut own.pages, 5)),
    ("the first page's numbers for all", |own| {
        let first = own.rows().next().map(<[u64]>::to_vec);
        if let Some(first) = first {
            own.each_page(|row| row[1..].copy_from_slice(&first[1..]));
        }
    }),
    ("the first offset for all", |own| {
        let first = own.pages.get(4).copied().unwrap_or(0);
        own.each_page(|row| row[4] = first)
    }),
    ("no pages", |own| own.pages.clear()),
    ("the first column alone", |own| {
        let count = own.rows().take_while(|row| row[0] == 0).count();
        own.pages.truncate(count * 5)
    }),
    ("all pages in the first column", |own| own.each_page(|row| row[0] = 0)),
    ("all pages in the last column", |own| {
        let last = own.columns().len().saturating_sub(1) as u64;
        own.each_page(|row| row[0] = last)
    }),
    ("columns of 32 bits", |own| {
        own.each_page(|row| row[0] = cut(row[0], 32))
    }),
    ("columns of 16 bits", |own| {
        own.each_page(|row| row[0] = cut(row[0], 16))
    }),
    ("rows are put in order", Own::put_in_order),
    ("rows that name no column are left out", |own| {
        let columns = own.columns().len() as u64;
        let rows: Vec<Vec<u64>> = own.rows().filter(|row| row[0] < columns).map(<[u64]>::to_vec).collect();
        own.pages = rows.concat()
    }),
    ("a page is in the column of the row before at least", |own| {
        let mut least = 0;
        own.each_page(|row| {
            row[0] = row[0].max(least);
            least = row[0];
        })
    }),
    ("no check bytes", |own| own.each_page(|row| row[2] = 0)),
    ("any number but 0 is a checksum", |own| {
        own.each_page(|row| row[2] = row[2].min(1))
    }),
    ("check bytes the other way round", |own| {
        own.each_page(|row| row[2] ^= 1)
    }),
    ("sizes are counted, not compared", |own| {
        own.each_due(|row, due| row[3] = due)
    }),
    ("sizes are rounded down", |own| {
        let columns = own.columns();
        own.each_due(|row, due| {
            let bits = columns.get(row[0] as usize).map_or(8, |column| column.bits);
            let down = (u128::from(row[1]) * u128::from(bits) / 8) as u64;
            row[3] = if row[3] == down { due } else { row[3] };
        })
    }),
    ("offsets of 32 bits", |own| {
        own.each_page(|row| row[4] = cut(row[4], 32))
    }),
    ("the file is longer", |own| {
        own.file_length = own.file_length.saturating_add(1)
    }),
    ("the file is shorter", |own| {
        own.file_length = own.file_length.saturating_sub(1)
    }),
    ("the file is longer by check bytes", |own| {
        own.file_length = own.file_length.saturating_add(4)
    }),
    ("the file has any length", |own| own.file_length = u64::MAX),
    ("one entry more", |own| own.entries = own.entries.saturating_add(1)),
    ("entries of 32 bits", |own| own.entries = cut(own.entries, 32)),
    ("words left over are a page", |own| filled_up(&mut own.pages, 5)),
    ("the last page is left over", |own| {
        let rows = (own.pages.len() / 5).saturating_sub(1);
        own.pages.truncate(rows * 5)
    }),
    ("16,384 pages at most are written", |own| own.pages.truncate(PAGES * 5)),
];

fn too_wide(own: &Own) -> bool {
    own.rows()
        .any(|row| row[1] >> 30 != 0 || row[2] > 1 || row[3] >> 31 != 0)
}

/// The elements of each column together.
fn totals(own: &Own) -> Vec<u64> {
    let mut totals = vec![0u64; own.columns().len()];
    for row in own.rows() {
        if let Some(total) = totals.get_mut(row[0] as usize) {
            *total = total.wrapping_add(row[1]);
        }
    }
    totals
}

/// Another number than the reference's, where this holds.
const WHERE: &[(&str, u32, Where<Own>)] = &[
    ("too little room before everything", 20, |own, _, room| {
        own.length() > room as u128
    }),
    ("too little room after the length", 20, |own, number, room| {
        own.length() > room as u128 && number != 1
    }),
    ("too little room after the order", 20, |own, number, room| {
        own.length() > room as u128 && number != 1 && number != 14
    }),
    ("too little room before the totals", 20, |own, number, room| {
        own.length() > room as u128 && number == 19
    }),
    ("order before the length", 14, |own, _, _| !own.ordered()),
    ("order after the count", 10, |own, number, _| {
        number == 14 && own.pages.len() / 5 > PAGES
    }),
    ("order of neighbours that name a column alone", 25, |own, number, _| {
        let sorted = own.rows().map(|row| row[0]).is_sorted();
        number == 14 && sorted
    }),
    ("a row that names no column is too wide", 25, |own, number, _| {
        number == 14 && own.rows().any(|row| row[0] >> 32 != 0)
    }),
    ("a column may be named again", 0, |own, number, _| {
        let columns = own.columns().len() as u64;
        number == 14 && own.rows().all(|row| row[0] < columns)
    }),
    ("rows that name no column are not counted", 14, |own, number, _| {
        let columns = own.columns().len();
        let own_rows = own.rows().filter(|row| row[0] < columns as u64).count();
        number == 1 && length(columns, own_rows) <= CEILING
    }),
    ("one byte less than the ceiling", 1, |own, _, _| own.length() == CEILING),
    ("no bytes for the columns' lists", 10, |own, number, _| {
        number == 1 && length(0, own.pages.len() / 5) <= CEILING
    }),
    ("too long is a count", 10, |_, number, _| number == 1),
    ("the count of all pages first", 10, |own, number, _| {
        number != 1 && own.ordered() && own.pages.len() / 5 > PAGES
    }),
    ("16,383 pages", 10, |own, number, _| {
        own.pages.len() / 5 == PAGES && number == 0
    }),
    ("16,384 pages in each column", 0, |own, number, _| {
        let mut counts = vec![0; own.columns().len()];
        own.rows()
            .filter_map(|row| Some(row[0] as usize).filter(|&column| column < counts.len()))
            .collect::<Vec<_>>()
            .into_iter()
            .for_each(|column| counts[column] += 1);
        number == 10 && counts.iter().all(|&count| count <= PAGES)
    }),
    ("too wide before everything", 25, |own, _, _| too_wide(own)),
    ("too wide after the order", 25, |own, number, _| {
        too_wide(own) && number != 1 && number != 14
    }),
    ("sizes of 32 bits, bit 31 is 17", 17, |own, number, _| {
        let narrow = |own: &mut Own| own.each_page(|row| row[3] &= if row[3] >> 32 == 0 { !(1 << 31) } else { !0 });
        number == 25 && number_of(own, narrow) != 25
    }),
    ("elements of 31 bits, bit 31 is 12", 12, |own, number, _| {
        number == 25 && own.rows().any(|row| row[1] >> 31 == 1)
    }),
    ("elements and bit 30 together", 17, |own, number, _| {
        number == 25
            && own
                .rows()
                .all(|row| row[1] >> 31 == 0 && row[2] < 2 && row[3] >> 31 == 0)
    }),
    ("a size before its page's word", 17, |own, number, _| {
        let wide = |row: &[u64]| row[1] >> 30 != 0 && row[3] == 0;
        number == 25 && own.rows().next().is_some_and(wide)
    }),
    ("a page ends before the file's last byte", 18, |own, number, _| {
        let last = |row: &[u64]| row[4].checked_add(row[3] + 4 * row[2]) == Some(own.file_length);
        number == 0 && own.rows().any(last)
    }),
    ("a page without bytes may stand anywhere", 0, |own, number, _| {
        let inside = |own: &mut Own| own.each_page(|row| row[4] = if row[3] == 0 && row[2] == 0 { 0 } else { row[4] });
        number == 18 && number_of(own, inside) == 0
    }),
    ("totals are not compared", 0, |_, number, _| number == 19),
    ("totals of all columns", 19, |own, number, _| {
        number == 0 && totals(own).iter().any(|&total| total != own.entries)
    }),
    ("totals of the first column alone", 0, |own, number, _| {
        number == 19 && totals(own).first() == Some(&own.entries)
    }),
    ("totals at least as many", 0, |own, number, _| {
        number == 19 && totals(own).iter().all(|&total| total >= own.entries)
    }),
    ("totals at most as many", 0, |own, number, _| {
        number == 19 && totals(own).iter().all(|&total| total <= own.entries)
    }),
    ("no pages have no totals", 0, |own, number, _| {
        number == 19 && own.pages.len() < 5
    }),
    ("words left over are refused", 20, |own, number, _| {
        number == 0 && own.pages.len() % 5 != 0
    }),
];

/// Another number, from the reference's.
const INSTEAD: &[(&str, Instead<Own>)] = &[
    ("order after the rest", |own, number| {
        match number_of(own, Own::put_in_order) {
            other if number == 14 && other != 0 => other,
            _ => number,
        }
    }),
    ("order as the rows come", |own, number| {
        let columns = own.columns().len() as u64;
        let mut last = 0;
        let good = own.rows().take_while(|row| {
            let good = row[0] >= last && row[0] < columns;
            last = row[0];
            good
        });
        let good = good.count();
        match number_of(own, |own| own.pages.truncate(good * 5)) {
            first if number == 14 && !matches!(first, 0 | 19) => first,
            _ => number,
        }
    }),
    ("the count after the pages before it", |own, number| {
        match number_of(own, |own| own.pages.truncate(PAGES * 5)) {
            first if number == 10 && !matches!(first, 0 | 19) => first,
            _ => number,
        }
    }),
    ("a range before its size", |own, number| {
        match number_of(own, |own| own.each_due(|row, due| row[3] = due)) {
            18 if number == 17 => 18,
            _ => number,
        }
    }),
    ("check bytes behind the file's end", |own, number| {
        match number_of(own, |own| own.each_page(|row| row[2] = 0)) {
            other if number == 18 => other,
            _ => number,
        }
    }),
    ("check bytes of every page", |own, number| {
        match number_of(own, |own| own.each_page(|row| row[2] = 1)) {
            18 if number == 0 => 18,
            _ => number,
        }
    }),
    ("totals before the pages", |own, number| {
        match number_of(own, |own| own.file_length = u64::MAX) {
            19 if number == 18 => 19,
            _ => number,
        }
    }),
    ("totals of fields below others too", |own, number| {
        let Ok(header) = read(&own.header) else {
            return number;
        };
        let totals = totals(own);
        let off = header.columns.iter().zip(totals).any(|(column, total)| {
            let field = &header.fields[column.field as usize];
            field.parent != column.field && field.flags == 0 && total != own.entries
        });
        if number == 0 && off {
            19
        } else {
            number
        }
    }),
];

/// Another order beside the header.
const OTHERS: &[(&str, Call<Own>)] = &[
    (
        "the header's refusal is the page list's",
        |own, out, result| match own.write(out, result) {
            answer if answer / 256 == 1 => answer + 2 * 256,
            answer => answer,
        },
    ),
    ("order before the header", |own, out, result| {
        let answer = own.write(out, result);
        if answer / 256 == 1 && !own.pages.chunks_exact(5).map(|row| row[0]).is_sorted() {
            return 3 * 256 + 14;
        }
        answer
    }),
    ("too little room before the header", |own, out, result| {
        let answer = own.write(out, result);
        if answer / 256 == 1 && length(0, own.pages.len() / 5) > out.len() as u128 {
            return 3 * 256 + 20;
        }
        answer
    }),
];

/// The places of the numbers, each with its bits.
const PLACES: &[(&str, Place<Own>)] = &[
    ("elements", |own, narrow| {
        own.each_page(|row| row[1] = narrow(row[1], 30))
    }),
    ("bit 30", |own, narrow| own.each_page(|row| row[2] = narrow(row[2], 1))),
    ("a size", |own, narrow| own.each_page(|row| row[3] = narrow(row[3], 31))),
];

pub const WRONG: Wrong<Own> = Wrong {
    altered: ALTERED,
    places: PLACES,
    refused: WHERE,
    instead: INSTEAD,
    others: OTHERS,
};
