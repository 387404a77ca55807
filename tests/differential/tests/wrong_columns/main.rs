//! Wrong decoders of columns, each of which the comparison has to find. They
//! stand in for the library's call; what is right about them is the reference's.

/// The right way but for these parts.
macro_rules! way {
    ($($part:ident: $other:expr),* $(,)?) => {
        |column_type, pages, file, words, result| {
            Way { $($part: $other,)* ..RIGHT }.call(column_type, (pages, file, words, result))
        }
    };
}

mod calls;
mod pages;

use differential::compare::{ColumnCall, Comparer};
use differential::generate::Kind;
use differential::reference::pages::{stored_bits, ELEMENTS};
use differential::reference::{decode_column, decode_page};

const TOO_SHORT: u32 = u32::MAX;
const PAGE: u32 = 4 * 256;
const MOST: usize = 256;
const SWITCH: u32 = 3;
const BIT: u32 = 6;

/// So many cases at most; the large ones are among the first.
const CASES: u64 = 20_000;

/// A row of the table.
#[derive(Clone, Copy, Debug, PartialEq, Eq)]
struct Row {
    offset: u64,
    size: u64,
    elements: u64,
    checksum: u64,
}

impl Row {
    fn of(words: &[u64]) -> Self {
        Row {
            offset: words[0],
            size: words[1],
            elements: words[2],
            checksum: words[3],
        }
    }

    fn check_bytes(&self) -> u64 {
        if self.checksum != 0 {
            4
        } else {
            0
        }
    }

    /// The end of its range, as an exact number.
    fn end(&self) -> u128 {
        u128::from(self.offset) + u128::from(self.size) + u128::from(self.check_bytes())
    }
}

/// A page when it is its turn.
struct Turn<'a> {
    column_type: u32,
    row: Row,
    index: usize,
    /// The words of the pages before it.
    start: u64,
    file: &'a [u8],
    /// All lent words.
    room: usize,
}

impl Turn<'_> {
    fn unknown(&self) -> bool {
        self.column_type == SWITCH || stored_bits(self.column_type).is_none()
    }

    fn above(&self) -> bool {
        self.row.elements > ELEMENTS
    }

    fn outside(&self) -> bool {
        self.row.end() > self.file.len() as u128
    }

    fn bits(&self) -> u128 {
        stored_bits(self.column_type).map_or(8, u128::from)
    }

    fn other_size(&self) -> bool {
        u128::from(self.row.size) != (u128::from(self.row.elements) * self.bits()).div_ceil(8)
    }

    fn no_room(&self) -> bool {
        u128::from(self.start) + u128::from(self.row.elements) > self.room as u128
    }
}

/// The first number whose test holds, or 0.
fn first_of(tests: &[(u32, bool)]) -> u32 {
    tests.iter().find(|(_, holds)| *holds).map_or(0, |(number, _)| *number)
}

/// The number and the index of a refusal, if there is one.
type Refused = Option<(u32, u64)>;

/// How a column is decoded: each part can be put out of order by itself.
struct Way {
    /// The rows of a table.
    rows: fn(&[u64]) -> Vec<Row>,
    /// What is refused before the first page, and the result then; given the
    /// type, the rows and how many words are lent.
    first: fn(u32, &[Row], usize) -> Refused,
    /// The type as it is read.
    column_type: fn(u32) -> u32,
    /// What is refused of a page before its bytes are looked at.
    early: fn(&Turn) -> u32,
    /// The bytes that the single call gets.
    bytes: for<'a> fn(&Turn<'a>) -> &'a [u8],
    /// Whether the single call is asked to test a checksum.
    checksum: fn(&Turn) -> bool,
    /// Where the next page starts.
    next: fn(&Turn) -> u64,
    /// The result where a page of so many is refused.
    refused: fn(&Turn, usize) -> u64,
    /// The result where all are accepted.
    accepted: fn(&[Row]) -> u64,
}

fn rows(table: &[u64]) -> Vec<Row> {
    table.chunks_exact(4).map(Row::of).collect()
}

/// The bytes from here to there, as far as there are any.
fn cut(file: &[u8], start: u128, end: u128) -> &[u8] {
    let place = |at: u128| at.min(file.len() as u128) as usize;
    &file[place(start)..place(end.max(start))]
}

const RIGHT: Way = Way {
    rows,
    first: |_, rows, _| (rows.len() > MOST).then_some((10, MOST as u64)),
    column_type: |column_type| column_type,
    early: |turn| first_of(&[(23, turn.unknown()), (10, turn.above()), (18, turn.outside())]),
    bytes: |turn| cut(turn.file, turn.row.offset.into(), turn.row.end()),
    checksum: |turn| turn.row.checksum != 0,
    next: |turn| turn.start + turn.row.elements,
    refused: |turn, _| turn.index as u64,
    accepted: |rows| rows.len() as u64,
};

/// What a call is lent, the type aside.
type Lent<'a> = (&'a mut [u64], &'a mut [u8], &'a mut [u64], &'a mut [u64]);

impl Way {
    fn call(&self, column_type: u32, (table, file, words, result): Lent) -> u32 {
        if result.is_empty() {
            return TOO_SHORT;
        }
        let rows = (self.rows)(table);
        let column_type = (self.column_type)(column_type);
        if let Some((number, index)) = (self.first)(column_type, &rows, words.len()) {
            result[0] = index;
            return PAGE + number;
        }
        let mut start = 0;
        for (index, &row) in rows.iter().enumerate() {
            let turn = Turn {
                column_type,
                row,
                index,
                start,
                file,
                room: words.len(),
            };
            let mut answer = (self.early)(&turn);
            if answer == 0 {
                let (page, checksum) = ((self.bytes)(&turn), (self.checksum)(&turn));
                answer = decode_page(column_type, row.elements, checksum, page, words, start) % 256;
            }
            if answer != 0 {
                result[0] = (self.refused)(&turn, rows.len());
                return PAGE + answer;
            }
            start = (self.next)(&turn);
        }
        result[0] = (self.accepted)(&rows);
        0
    }
}

/// The right call.
fn right(column_type: u32, (table, file, words, result): Lent) -> u32 {
    let Some(first) = result.first_mut() else {
        return TOO_SHORT;
    };
    let (answer, [index]) = decode_column(column_type, table, file, words);
    *first = index;
    answer
}

/// The words that the first rows of a table have, up to the refused one.
fn decoded(table: &[u64], index: u64) -> usize {
    let rows = rows(table);
    if rows.len() > MOST {
        return 0;
    }
    let pages = rows.iter().take(index as usize);
    pages.map(|row| row.elements as usize).sum()
}

/// All wrong calls, with what is wrong about them.
fn wrong() -> impl Iterator<Item = &'static (&'static str, ColumnCall)> {
    pages::WRONG.iter().chain(calls::WRONG)
}

/// The first case in which a call differs from the reference.
fn found(call: ColumnCall) -> Option<u64> {
    let mut comparer = Comparer::new();
    comparer.decode_column = call;
    (0..CASES).find(|&case| comparer.run(1, Kind::Column, case).is_err())
}

#[test]
fn each_is_found() {
    let missed: Vec<_> = wrong().filter(|(_, call)| found(*call).is_none()).collect();
    let names: Vec<_> = missed.iter().map(|(name, _)| name).collect();
    assert!(names.is_empty(), "not found: {names:?}");
}

/// What the wrong ones are made of is right.
#[test]
fn the_right_ones_are_not() {
    assert_eq!(found(|t, p, f, w, r| right(t, (p, f, w, r))), None);
    assert_eq!(found(|t, p, f, w, r| RIGHT.call(t, (p, f, w, r))), None);
}

#[test]
fn no_name_stands_twice() {
    let mut names: Vec<_> = wrong().map(|(name, _)| name).collect();
    names.sort_unstable();
    names.dedup();
    assert_eq!(names.len(), wrong().count());
}
