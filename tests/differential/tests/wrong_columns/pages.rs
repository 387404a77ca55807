//! Columns of other rows or other pages: what is read of the table, what is
//! refused and in which order, which bytes a page has, and where its words go.

use super::{cut, first_of, rows, Refused, Row, Way, BIT, MOST, RIGHT, SWITCH};
use differential::compare::ColumnCall;
use differential::reference::pages::{stored_bits, ELEMENTS};

/// Rows of which something is changed.
fn each_row(table: &[u64], change: impl Fn(&mut Row)) -> Vec<Row> {
    let mut rows = rows(table);
    rows.iter_mut().for_each(change);
    rows
}

fn kept(table: &[u64], keep: impl FnMut(&Row) -> bool) -> Vec<Row> {
    let mut rows = rows(table);
    rows.retain(keep);
    rows
}

/// The rows, and one more of the words that are left over, if there are so many.
fn with_left(table: &[u64], least: usize) -> Vec<Row> {
    let mut rows = rows(table);
    let left = table.chunks_exact(4).remainder();
    if left.len() >= least {
        let mut words = left.to_vec();
        words.resize(4, 0);
        rows.push(Row::of(&words));
    }
    rows
}

fn too_many(rows: &[Row]) -> Refused {
    (RIGHT.first)(0, rows, 0)
}

fn is_unknown(column_type: u32) -> bool {
    column_type == SWITCH || stored_bits(column_type).is_none()
}

/// More than so many rows are refused.
fn most(rows: &[Row], most: usize) -> Refused {
    (rows.len() > most).then_some((10, MOST as u64))
}

/// A refusal of the first row for which the test holds, before any page.
fn any_row(rows: &[Row], number: u32, test: impl Fn(&Row) -> bool) -> Refused {
    let index = rows.iter().position(test)?;
    Some((number, index as u64))
}

pub const WRONG: &[(&str, ColumnCall)] = &[
    // The table.
    ("words left over are a row", way! { rows: |table| with_left(table, 1) }),
    (
        "three words left over are a row",
        way! { rows: |table| with_left(table, 3) },
    ),
    (
        "with words left over the last row is none",
        way! { rows: |table| {
            let mut rows = rows(table);
            rows.truncate(rows.len() - usize::from(table.len() % 4 != 0 && !rows.is_empty()));
            rows
        }},
    ),
    (
        "rows of five words",
        way! { rows: |table| table.chunks_exact(5).map(Row::of).collect() },
    ),
    (
        "the first page is left out",
        way! { rows: |table| rows(table).into_iter().skip(1).collect() },
    ),
    (
        "the last page is left out",
        way! { rows: |table| {
            let mut rows = rows(table);
            rows.pop();
            rows
        }},
    ),
    (
        "the first page alone",
        way! { rows: |table| rows(table).into_iter().take(1).collect() },
    ),
    (
        "the last page first",
        way! { rows: |table| rows(table).into_iter().rev().collect() },
    ),
    (
        "in the order of their offsets",
        way! { rows: |table| {
            let mut rows = rows(table);
            rows.sort_by_key(|row| row.offset);
            rows
        }},
    ),
    (
        "pages without elements are left out",
        way! { rows: |table| kept(table, |row| row.elements != 0) },
    ),
    (
        "a page that comes again is left out",
        way! { rows: |table| {
            let mut rows = rows(table);
            rows.dedup();
            rows
        }},
    ),
    (
        "a page that overlaps the one before is left out",
        way! { rows: |table| {
            let mut end = 0;
            kept(table, |row| {
                let behind = u128::from(row.offset) >= end;
                end = row.end();
                behind
            })
        }},
    ),
    (
        "size and elements are exchanged",
        way! { rows: |table| each_row(table, |row| std::mem::swap(&mut row.size, &mut row.elements)) },
    ),
    (
        "offset and size are exchanged",
        way! { rows: |table| each_row(table, |row| std::mem::swap(&mut row.offset, &mut row.size)) },
    ),
    (
        "the first row for all",
        way! { rows: |table| {
            let rows = rows(table);
            rows.iter().map(|_| rows[0]).collect()
        }},
    ),
    (
        "255 rows are read",
        way! { rows: |table| {
            let mut rows = rows(table);
            if rows.len() <= MOST {
                rows.truncate(255);
            }
            rows
        }},
    ),
    // Too many pages.
    ("257 pages are taken", way! { first: |_, rows, _| most(rows, MOST + 1) }),
    ("any number of pages is taken", way! { first: |_, _, _| None }),
    (
        "256 pages are refused",
        way! { first: |_, rows, _| most(rows, MOST - 1) },
    ),
    (
        "words left over count as a page too many",
        way! { first: |_, rows, _| too_many(rows), rows: |table| match table.len() {
            1_025..=1_027 => vec![RIGHT_ROW; MOST + 1],
            _ => rows(table),
        }},
    ),
    (
        "the number of pages in 8 bits",
        way! { rows: |table| {
            let rows = rows(table);
            match rows.len() {
                0..=MOST => rows,
                count => rows[..count % 256].to_vec(),
            }
        }},
    ),
    (
        "the number of pages in 16 bits",
        way! { rows: |table| {
            let rows = rows(table);
            let count = rows.len() % 65_536;
            rows[..count].to_vec()
        }},
    ),
    (
        "pages without elements are not counted",
        way! { first: |_, rows, _| {
            (rows.iter().filter(|row| row.elements != 0).count() > MOST).then_some((10, MOST as u64))
        }},
    ),
    (
        "too many pages are 20",
        way! { first: |_, rows, _| too_many(rows).map(|(_, index)| (20, index)) },
    ),
    (
        "too many pages are 18",
        way! { first: |_, rows, _| too_many(rows).map(|(_, index)| (18, index)) },
    ),
    (
        "index 0 for too many pages",
        way! { first: |_, rows, _| too_many(rows).map(|(number, _)| (number, 0)) },
    ),
    (
        "index 255 for too many pages",
        way! { first: |_, rows, _| too_many(rows).map(|(number, _)| (number, 255)) },
    ),
    (
        "index 257 for too many pages",
        way! { first: |_, rows, _| too_many(rows).map(|(number, _)| (number, 257)) },
    ),
    (
        "the last index for too many pages",
        way! { first: |_, rows, _| too_many(rows).map(|(number, _)| (number, rows.len() as u64 - 1)) },
    ),
    (
        "the number of pages for too many pages",
        way! { first: |_, rows, _| too_many(rows).map(|(number, _)| (number, rows.len() as u64)) },
    ),
    (
        "23 before too many pages",
        way! { first: |column_type, rows, _| match too_many(rows) {
            Some(_) if is_unknown(column_type) => Some((23, 0)),
            first => first,
        }},
    ),
    (
        "the first page before too many pages",
        way! { first: |_, rows, _| match too_many(rows) {
            Some(_) if rows[0].elements > 2 => Some((20, 0)),
            first => first,
        }},
    ),
    ("256 of too many pages are decoded", |t, p, f, w, r| {
        let most = p.len().min(4 * MOST);
        RIGHT.call(t, (&mut p[..most], f, w, &mut [0]));
        RIGHT.call(t, (p, f, w, r))
    }),
    // The type.
    (
        "the type in 16 bits",
        way! { column_type: |column_type| column_type & 0xFFFF },
    ),
    (
        "the type in 8 bits",
        way! { column_type: |column_type| column_type & 0xFF },
    ),
    (
        "the type in 31 bits",
        way! { column_type: |column_type| column_type & 0x7FFF_FFFF },
    ),
    (
        "Switch is read as bytes",
        way! { column_type: |column_type| if column_type == SWITCH { 4 } else { column_type } },
    ),
    (
        "29 is read as 28",
        way! { column_type: |column_type| if column_type == 29 { 28 } else { column_type } },
    ),
    (
        "no pages of an unknown type are refused",
        way! { first: |column_type, rows, _| {
            too_many(rows).or_else(|| (rows.is_empty() && is_unknown(column_type)).then_some((23, 0)))
        }},
    ),
    (
        "no pages of a type above 16 bits are refused",
        way! { first: |column_type, rows, _| {
            too_many(rows).or_else(|| (rows.is_empty() && column_type > 0xFFFF).then_some((23, 0)))
        }},
    ),
    (
        "no pages of Switch are refused",
        way! { first: |column_type, rows, _| {
            too_many(rows).or_else(|| (rows.is_empty() && column_type == SWITCH).then_some((23, 0)))
        }},
    ),
    (
        "no pages are refused",
        way! { first: |_, rows, _| {
            too_many(rows).or_else(|| rows.is_empty().then_some((21, 0)))
        }},
    ),
    (
        "an unknown type is accepted for pages without elements",
        |t, p, f, w, r| {
            let empty = rows(p).iter().all(|row| row.elements == 0 && row.size == 0);
            RIGHT.call(if empty && is_unknown(t) { 4 } else { t }, (p, f, w, r))
        },
    ),
    (
        "an unknown type is 21",
        way! { early: |turn| {
            first_of(&[(21, turn.unknown()), (10, turn.above()), (18, turn.outside())])
        }},
    ),
    // The order of one page, and of the pages.
    (
        "18 before 23",
        way! { early: |turn| {
            first_of(&[(18, turn.outside()), (23, turn.unknown()), (10, turn.above())])
        }},
    ),
    (
        "18 before 10",
        way! { early: |turn| {
            first_of(&[(23, turn.unknown()), (18, turn.outside()), (10, turn.above())])
        }},
    ),
    (
        "10 before 23",
        way! { early: |turn| {
            first_of(&[(10, turn.above()), (23, turn.unknown()), (18, turn.outside())])
        }},
    ),
    (
        "21 before 18",
        way! { early: |turn| {
            first_of(&[(23, turn.unknown()), (10, turn.above()), (21, turn.other_size()), (18, turn.outside())])
        }},
    ),
    (
        "21 before 10",
        way! { early: |turn| {
            let page = turn.other_size() && !turn.outside();
            first_of(&[(23, turn.unknown()), (21, page), (10, turn.above()), (18, turn.outside())])
        }},
    ),
    (
        "20 before 18",
        way! { early: |turn| {
            first_of(&[(23, turn.unknown()), (10, turn.above()), (20, turn.no_room()), (18, turn.outside())])
        }},
    ),
    (
        "20 before 21",
        way! { early: |turn| {
            first_of(&[(23, turn.unknown()), (10, turn.above()), (18, turn.outside()), (20, turn.no_room())])
        }},
    ),
    (
        "20 before 22 and 24",
        way! { early: |turn| {
            let due = (RIGHT.early)(turn);
            if due == 0 && !turn.other_size() && turn.no_room() { 20 } else { due }
        }},
    ),
    (
        "20 before 10",
        way! { early: |turn| {
            first_of(&[(23, turn.unknown()), (20, turn.no_room()), (10, turn.above()), (18, turn.outside())])
        }},
    ),
    (
        "24 before 22",
        way! { early: |turn| {
            let due = (RIGHT.early)(turn);
            let (page, used) = ((RIGHT.bytes)(turn), turn.row.elements % 8);
            if due != 0 || turn.column_type != BIT || turn.other_size() || used == 0 {
                return due;
            }
            first_of(&[(24, page[turn.row.size as usize - 1] >> used != 0)])
        }},
    ),
    (
        "10 of any page first",
        way! { first: |column_type, rows, _| {
            let above = any_row(rows, 10, |row| row.elements > ELEMENTS).filter(|_| !is_unknown(column_type));
            too_many(rows).or(above)
        }},
    ),
    (
        "23 at the last page",
        way! { first: |column_type, rows, _| {
            let last = rows.len().saturating_sub(1) as u64;
            too_many(rows).or_else(|| (is_unknown(column_type) && !rows.is_empty()).then_some((23, last)))
        }},
    ),
    (
        "20 for all pages together",
        way! { first: |column_type, rows, room| {
            let known = !is_unknown(column_type) && rows.iter().all(|row| row.elements <= ELEMENTS);
            let all: u128 = rows.iter().map(|row| u128::from(row.elements)).sum();
            let last = rows.len().saturating_sub(1) as u64;
            too_many(rows).or_else(|| (known && all > room as u128).then_some((20, last)))
        }},
    ),
    // The ceiling of elements.
    (
        "131,072 elements are refused",
        way! { early: |turn| {
            first_of(&[(23, turn.unknown()), (10, turn.row.elements >= ELEMENTS), (18, turn.outside())])
        }},
    ),
    (
        "131,073 elements are not 10",
        way! { early: |turn| match turn.row.elements {
            131_073 => first_of(&[(23, turn.unknown()), (18, turn.outside()), (21, true)]),
            _ => (RIGHT.early)(turn),
        }},
    ),
    (
        "no ceiling of elements",
        way! { early: |turn| {
            let size = turn.other_size();
            first_of(&[(23, turn.unknown()), (18, turn.outside()), (21, turn.above() && size)])
        }},
    ),
    (
        "131,072 elements in all pages together",
        way! { early: |turn| match (RIGHT.early)(turn) {
            0 if turn.start + turn.row.elements > ELEMENTS => 10,
            due => due,
        }},
    ),
    (
        "elements in 32 bits",
        way! { rows: |table| each_row(table, |row| row.elements &= 0xFFFF_FFFF) },
    ),
    (
        "elements in 16 bits",
        way! { rows: |table| each_row(table, |row| row.elements &= 0xFFFF) },
    ),
    (
        "elements are what the size holds",
        way! { early: |turn| {
            let due = (RIGHT.early)(turn);
            if due == 0 && turn.other_size() { 20 } else { due }
        }},
    ),
    // The range.
    (
        "sums wrap at 64 bits",
        way! { early: |turn| {
            let end = turn.row.offset.wrapping_add(turn.row.size).wrapping_add(turn.row.check_bytes());
            first_of(&[(23, turn.unknown()), (10, turn.above()), (18, end > turn.file.len() as u64)])
        }},
    ),
    (
        "the check bytes wrap at 64 bits",
        way! { early: |turn| {
            let end = match turn.row.offset.checked_add(turn.row.size) {
                Some(end) => u128::from(end.wrapping_add(turn.row.check_bytes())),
                None => u128::MAX,
            };
            first_of(&[(23, turn.unknown()), (10, turn.above()), (18, end > turn.file.len() as u128)])
        }},
    ),
    (
        "size and check bytes wrap at 64 bits",
        way! { early: |turn| {
            let size = turn.row.size.wrapping_add(turn.row.check_bytes());
            let end = u128::from(turn.row.offset) + u128::from(size);
            first_of(&[(23, turn.unknown()), (10, turn.above()), (18, end > turn.file.len() as u128)])
        }},
    ),
    (
        "sums wrap at 32 bits",
        way! { early: |turn| {
            let end = turn.row.end() as u32;
            first_of(&[(23, turn.unknown()), (10, turn.above()), (18, u64::from(end) > turn.file.len() as u64)])
        }},
    ),
    (
        "check bytes are not counted",
        way! { early: |turn| {
            let end = turn.row.end() - u128::from(turn.row.check_bytes());
            first_of(&[(23, turn.unknown()), (10, turn.above()), (18, end > turn.file.len() as u128)])
        }},
    ),
    (
        "check bytes are always counted",
        way! { early: |turn| {
            let end = u128::from(turn.row.offset) + u128::from(turn.row.size) + 4;
            first_of(&[(23, turn.unknown()), (10, turn.above()), (18, end > turn.file.len() as u128)])
        }},
    ),
    (
        "the last byte of the file is outside",
        way! { early: |turn| {
            let outside = turn.row.end() >= turn.file.len() as u128;
            first_of(&[(23, turn.unknown()), (10, turn.above()), (18, outside)])
        }},
    ),
    (
        "one byte further is not 18",
        way! { early: |turn| {
            let outside = turn.row.end() > turn.file.len() as u128 + 1;
            first_of(&[(23, turn.unknown()), (10, turn.above()), (18, outside)])
        }},
    ),
    (
        "outside the file is 21",
        way! { early: |turn| match (RIGHT.early)(turn) {
            18 => 21,
            due => due,
        }},
    ),
    (
        "the offset alone decides",
        way! { early: |turn| {
            let outside = turn.row.offset > turn.file.len() as u64;
            first_of(&[(23, turn.unknown()), (10, turn.above()), (18, outside)])
        }},
    ),
    (
        "the size alone decides",
        way! { early: |turn| {
            let outside = u128::from(turn.row.size) + u128::from(turn.row.check_bytes()) > turn.file.len() as u128;
            first_of(&[(23, turn.unknown()), (10, turn.above()), (18, outside)])
        }},
    ),
    (
        "pages without bytes stand anywhere",
        way! { early: |turn| {
            let outside = turn.outside() && (turn.row.size != 0 || turn.row.checksum != 0);
            first_of(&[(23, turn.unknown()), (10, turn.above()), (18, outside)])
        }},
    ),
    (
        "pages without elements stand anywhere",
        way! { early: |turn| {
            let outside = turn.outside() && turn.row.elements != 0;
            first_of(&[(23, turn.unknown()), (10, turn.above()), (18, outside)])
        }},
    ),
    (
        "offsets in 32 bits",
        way! { rows: |table| each_row(table, |row| row.offset &= 0xFFFF_FFFF) },
    ),
    (
        "sizes in 32 bits",
        way! { rows: |table| each_row(table, |row| row.size &= 0xFFFF_FFFF) },
    ),
    (
        "offsets in 63 bits",
        way! { rows: |table| each_row(table, |row| row.offset &= u64::MAX >> 1) },
    ),
    (
        "sizes in 63 bits",
        way! { rows: |table| each_row(table, |row| row.size &= u64::MAX >> 1) },
    ),
    (
        "pages stand one after the other",
        way! { rows: |table| {
            let mut end = 0;
            let mut rows = rows(table);
            for row in &mut rows {
                row.offset = end;
                end = row.end().min(u128::from(u64::MAX)) as u64;
            }
            rows
        }},
    ),
    // The bytes of a page.
    (
        "the size is not looked at",
        way! { bytes: |turn| {
            let needed = (u128::from(turn.row.elements) * turn.bits()).div_ceil(8) + u128::from(turn.row.check_bytes());
            let start = u128::from(turn.row.offset);
            cut(turn.file, start, start + needed)
        }},
    ),
    (
        "the page starts at the first byte of the file",
        way! { bytes: |turn| {
            cut(turn.file, 0, turn.row.end() - u128::from(turn.row.offset))
        }},
    ),
    (
        "the page starts one byte later",
        way! { bytes: |turn| {
            let (start, end) = (u128::from(turn.row.offset), turn.row.end());
            let late = u128::from(end < turn.file.len() as u128);
            cut(turn.file, start + late, end + late)
        }},
    ),
    (
        "the size has the check bytes",
        way! { bytes: |turn| {
            cut(turn.file, turn.row.offset.into(), turn.row.end() - u128::from(turn.row.check_bytes()))
        }},
    ),
    (
        "all bytes up to the end of the file",
        way! { bytes: |turn| cut(turn.file, turn.row.offset.into(), u128::MAX) },
    ),
    // The checksum.
    (
        "1 alone says that a checksum follows",
        way! { rows: |table| {
            each_row(table, |row| row.checksum = u64::from(row.checksum == 1))
        }},
    ),
    (
        "bit 0 says whether a checksum follows",
        way! { rows: |table| each_row(table, |row| row.checksum &= 1) },
    ),
    (
        "8 bits say whether a checksum follows",
        way! { rows: |table| each_row(table, |row| row.checksum &= 0xFF) },
    ),
    (
        "32 bits say whether a checksum follows",
        way! { rows: |table| {
            each_row(table, |row| row.checksum &= 0xFFFF_FFFF)
        }},
    ),
    (
        "63 bits say whether a checksum follows",
        way! { rows: |table| {
            each_row(table, |row| row.checksum &= u64::MAX >> 1)
        }},
    ),
    (
        "numbers below 2^63 say that a checksum follows",
        way! { rows: |table| {
            each_row(table, |row| row.checksum = u64::from((row.checksum as i64) > 0))
        }},
    ),
    (
        "a checksum never follows",
        way! { rows: |table| each_row(table, |row| row.checksum = 0) },
    ),
    (
        "a checksum always follows",
        way! { rows: |table| each_row(table, |row| row.checksum = 1) },
    ),
    (
        "the first page says whether checksums follow",
        way! { rows: |table| {
            let first = rows(table).first().map_or(0, |row| row.checksum);
            each_row(table, |row| row.checksum = first)
        }},
    ),
    (
        "no checksum is tested",
        way! {
            bytes: |turn| cut(turn.file, turn.row.offset.into(), turn.row.end() - u128::from(turn.row.check_bytes())),
            checksum: |_| false,
        },
    ),
    (
        "the checksum of the first page alone is tested",
        way! {
            bytes: |turn| match turn.index {
                0 => (RIGHT.bytes)(turn),
                _ => cut(turn.file, turn.row.offset.into(), turn.row.end() - u128::from(turn.row.check_bytes())),
            },
            checksum: |turn| turn.index == 0 && turn.row.checksum != 0,
        },
    ),
    (
        "checksums of pages without elements are not tested",
        way! {
            bytes: |turn| match turn.row.size {
                0 => &[],
                _ => (RIGHT.bytes)(turn),
            },
            checksum: |turn| turn.row.checksum != 0 && turn.row.size != 0,
        },
    ),
    // Where the words go.
    ("each page over the one before", way! { next: |_| 0 }),
    (
        "the third page over the second",
        way! { next: |turn| if turn.index == 0 { turn.row.elements } else { turn.start } },
    ),
    (
        "a gap of one word",
        way! { next: |turn| turn.start + turn.row.elements + 1 },
    ),
    (
        "a gap of one word behind the first page",
        way! { next: |turn| {
            turn.start + turn.row.elements + u64::from(turn.index == 0)
        }},
    ),
    (
        "pages start at every eighth word",
        way! { next: |turn| (turn.start + turn.row.elements).next_multiple_of(8) },
    ),
    (
        "one word is shared",
        way! { next: |turn| (turn.start + turn.row.elements).saturating_sub(1) },
    ),
    (
        "pages start where their bytes do",
        way! { next: |turn| turn.start + turn.row.size },
    ),
    (
        "an empty page takes a word",
        way! { next: |turn| turn.start + turn.row.elements.max(1) },
    ),
    (
        "words before a page in 16 bits",
        way! { next: |turn| (turn.start + turn.row.elements) & 0xFFFF },
    ),
    (
        "words before a page in 17 bits",
        way! { next: |turn| (turn.start + turn.row.elements) & 0x1_FFFF },
    ),
];

/// Any row, where only their number matters.
const RIGHT_ROW: Row = Row {
    offset: 0,
    size: 0,
    elements: 0,
    checksum: 0,
};
