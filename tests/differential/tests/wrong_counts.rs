//! Wrong counts of true elements, each of which the comparison has to find. They
//! stand in for the library's call; what is right about them is the reference's.

use differential::compare::{Comparer, CountCall};
use differential::generate::Kind;
use differential::reference::count_true;
use differential::reference::crc::crc32;
use differential::reference::pages::ELEMENTS;

const TOO_SHORT: u32 = u32::MAX;
const PAGE: u32 = 4 * 256;

/// So many cases at most; the large ones are among the first.
const CASES: u64 = 20_000;

/// A page as it is handed over.
#[derive(Clone, Copy)]
struct Lent<'a> {
    elements: u64,
    checksum: u32,
    page: &'a [u8],
}

impl<'a> Lent<'a> {
    fn check_bytes(&self) -> usize {
        if self.checksum != 0 {
            4
        } else {
            0
        }
    }

    /// The bytes of its elements.
    fn size(&self) -> u64 {
        self.elements.div_ceil(8)
    }

    fn wrong_length(&self) -> bool {
        self.page.len() as u64 != self.size().saturating_add(self.check_bytes() as u64)
    }

    /// The page without its check bytes, as far as there is one.
    fn content(&self) -> &'a [u8] {
        &self.page[..self.page.len().saturating_sub(self.check_bytes())]
    }

    fn wrong_checksum(&self) -> bool {
        self.checksum != 0 && crc32(self.content()).to_le_bytes() != self.page[self.content().len()..]
    }

    fn unused(&self) -> bool {
        let used = self.elements % 8;
        used != 0 && self.content().last().is_some_and(|last| last >> used != 0)
    }
}

/// The first number whose test holds, or 0.
fn first_of(tests: &[(u32, bool)]) -> u32 {
    tests.iter().find(|(_, holds)| *holds).map_or(0, |(number, _)| *number)
}

fn ones(bytes: &[u8]) -> u64 {
    bytes.iter().map(|byte| u64::from(byte.count_ones())).sum()
}

/// How a page is counted: each part can be put out of order by itself.
struct Way {
    /// The number of the refusal, or 0.
    refused: fn(Lent) -> u32,
    /// How many elements are true.
    count: fn(Lent) -> u64,
    /// The result of a refusal.
    nothing: fn(Lent) -> u64,
}

const RIGHT: Way = Way {
    refused: |lent| {
        first_of(&[
            (10, lent.elements > ELEMENTS),
            (21, lent.wrong_length()),
            (22, lent.wrong_checksum()),
            (24, lent.unused()),
        ])
    },
    count: |lent| ones(lent.content()),
    nothing: |_| 0,
};

impl Way {
    fn call(&self, elements: u64, checksum: u32, page: &[u8], result: &mut [u64]) -> u32 {
        let Some(told) = result.first_mut() else {
            return TOO_SHORT;
        };
        let lent = Lent {
            elements,
            checksum,
            page,
        };
        let number = (self.refused)(lent);
        *told = if number == 0 {
            (self.count)(lent)
        } else {
            (self.nothing)(lent)
        };
        if number == 0 {
            0
        } else {
            PAGE + number
        }
    }
}

/// The right way but for these parts.
macro_rules! way {
    ($($part:ident: $other:expr),* $(,)?) => {
        |elements, checksum, page, result| {
            Way { $($part: $other,)* ..RIGHT }.call(elements, checksum, page, result)
        }
    };
}

/// The right call.
fn right(elements: u64, checksum: u32, page: &[u8], result: &mut [u64]) -> u32 {
    let Some(told) = result.first_mut() else {
        return TOO_SHORT;
    };
    let (answer, [count]) = count_true(elements, checksum != 0, page);
    *told = count;
    answer
}

/// The right call with another answer in place of one with this number.
fn answering((elements, checksum, page, result): (u64, u32, &[u8], &mut [u64]), of: u32, wrong: u32) -> u32 {
    match right(elements, checksum, page, result) {
        answer if answer == PAGE + of => wrong,
        answer => answer,
    }
}

/// The bytes of whole words, and those behind them.
fn words(bytes: &[u8]) -> (&[u8], &[u8]) {
    bytes.split_at(bytes.len() / 8 * 8)
}

const WRONG: &[(&str, CountCall)] = &[
    // What is counted.
    (
        "the last partial word is left out",
        way! { count: |lent| ones(words(lent.content()).0) },
    ),
    (
        "the last partial word alone",
        way! { count: |lent| ones(words(lent.content()).1) },
    ),
    (
        "the last partial word twice",
        way! { count: |lent| ones(lent.content()) + ones(words(lent.content()).1) },
    ),
    (
        "the last byte is left out",
        way! { count: |lent| lent.content().split_last().map_or(0, |(_, others)| ones(others)) },
    ),
    (
        "the last byte behind whole words is left out",
        way! { count: |lent| {
            let (whole, rest) = words(lent.content());
            ones(whole) + rest.split_last().map_or(0, |(_, others)| ones(others))
        }},
    ),
    (
        "the first byte is left out",
        way! { count: |lent| ones(lent.content().get(1..).unwrap_or_default()) },
    ),
    (
        "the first word alone",
        way! { count: |lent| ones(lent.content().chunks(8).next().unwrap_or_default()) },
    ),
    (
        "the first word is left out",
        way! { count: |lent| lent.content().chunks(8).skip(1).map(ones).sum() },
    ),
    (
        "the last whole word is left out",
        way! { count: |lent| {
            let (whole, rest) = words(lent.content());
            ones(&whole[..whole.len().saturating_sub(8)]) + ones(rest)
        }},
    ),
    (
        "the elements of whole bytes alone",
        way! { count: |lent| ones(&lent.content()[..lent.elements as usize / 8]) },
    ),
    (
        "the elements of whole words alone",
        way! { count: |lent| ones(&lent.content()[..lent.elements as usize / 64 * 8]) },
    ),
    (
        "the last element is left out",
        way! { count: |lent| {
            let last = lent.elements.wrapping_sub(1);
            let set = lent.content().last().is_some_and(|byte| byte >> (last % 8) & 1 != 0);
            ones(lent.content()) - u64::from(set)
        }},
    ),
    (
        "checksum bytes are counted as elements",
        way! { count: |lent| ones(lent.page) },
    ),
    (
        "false elements are counted",
        way! { count: |lent| lent.elements - ones(lent.content()) },
    ),
    ("all elements are counted", way! { count: |lent| lent.elements }),
    (
        "bytes that are not 0 are counted",
        way! { count: |lent| lent.content().iter().filter(|&&byte| byte != 0).count() as u64 },
    ),
    (
        "changes are counted",
        way! { count: |lent| lent.content().iter().map(|byte| u64::from((byte ^ byte >> 1).count_ones())).sum() },
    ),
    (
        "the upper half of a word is left out",
        way! { count: |lent| lent.content().chunks(8).map(|word| ones(&word[..word.len().min(4)])).sum() },
    ),
    (
        "the highest bit of a word is left out",
        way! { count: |lent| {
            let highest = |word: &[u8]| u64::from(word.get(7).is_some_and(|byte| byte >> 7 != 0));
            lent.content().chunks(8).map(|word| ones(word) - highest(word)).sum()
        }},
    ),
    (
        "a full word is none",
        way! { count: |lent| lent.content().chunks(8).map(|word| ones(word) % 64).sum() },
    ),
    (
        "a count of 16 bits",
        way! { count: |lent| ones(lent.content()) % 65_536 },
    ),
    (
        "a count of 17 bits",
        way! { count: |lent| ones(lent.content()) % ELEMENTS },
    ),
    ("a count of 8 bits", way! { count: |lent| ones(lent.content()) % 256 }),
    (
        "as many words as 8,192 bytes have",
        way! { count: |lent| ones(&lent.content()[..lent.content().len().min(8_192)]) },
    ),
    ("one more", way! { count: |lent| ones(lent.content()) + 1 }),
    ("nothing is true", way! { count: |_| 0 }),
    // What is refused.
    (
        "unused bits are counted",
        way! { refused: |lent| first_of(&[
            (10, lent.elements > ELEMENTS), (21, lent.wrong_length()), (22, lent.wrong_checksum()),
        ])},
    ),
    (
        "unused bits are left out",
        way! {
            refused: |lent| first_of(&[
                (10, lent.elements > ELEMENTS), (21, lent.wrong_length()), (22, lent.wrong_checksum()),
            ]),
            count: |lent| {
                let (page, used) = (lent.content(), lent.elements % 8);
                let unused = match (used, page.last()) {
                    (1.., Some(last)) => (last >> used).count_ones(),
                    _ => 0,
                };
                ones(page) - u64::from(unused)
            },
        },
    ),
    (
        "unused bits of a page with a checksum are counted",
        way! { refused: |lent| match (RIGHT.refused)(lent) {
            24 if lent.checksum != 0 => 0,
            number => number,
        }},
    ),
    (
        "the highest unused bit alone is tested",
        way! { refused: |lent| match (RIGHT.refused)(lent) {
            24 if lent.content().last().is_some_and(|last| last >> 7 == 0) => 0,
            number => number,
        }},
    ),
    (
        "the lowest unused bit alone is tested",
        way! { refused: |lent| match (RIGHT.refused)(lent) {
            24 if lent.content().last().is_some_and(|last| last >> (lent.elements % 8) & 1 == 0) => 0,
            number => number,
        }},
    ),
    (
        "a last byte of eight elements is tested",
        way! { refused: |lent| match (RIGHT.refused)(lent) {
            0 if lent.elements % 8 == 0 && lent.content().last().is_some_and(|&last| last != 0) => 24,
            number => number,
        }},
    ),
    (
        "a checksum is not tested",
        way! { refused: |lent| match (RIGHT.refused)(lent) {
            22 => first_of(&[(24, lent.unused())]),
            number => number,
        }},
    ),
    (
        "a checksum is asked for by 1 alone",
        |elements, checksum, page, result| right(elements, u32::from(checksum == 1), page, result),
    ),
    (
        "a checksum is asked for by odd numbers",
        |elements, checksum, page, result| right(elements, checksum & 1, page, result),
    ),
    (
        "a checksum is asked for in 16 bits",
        |elements, checksum, page, result| right(elements, checksum & 0xFFFF, page, result),
    ),
    ("a checksum is always asked for", |elements, _, page, result| {
        right(elements, 1, page, result)
    }),
    (
        "a checksum over its own bytes too",
        way! { refused: |lent| match (RIGHT.refused)(lent) {
            0 if lent.checksum != 0 && crc32(lent.page) != 0 => 22,
            number => number,
        }},
    ),
    (
        "longer pages are taken",
        way! {
            refused: |lent| match (RIGHT.refused)(lent) {
                21 if lent.content().len() as u64 > lent.size() => 0,
                number => number,
            },
            count: |lent| ones(&lent.content()[..lent.size() as usize]),
        },
    ),
    (
        "shorter pages are taken",
        way! {
            refused: |lent| match (RIGHT.refused)(lent) {
                21 if (lent.content().len() as u64) < lent.size() => 0,
                number => number,
            },
        },
    ),
    (
        "sizes are rounded down",
        way! {
            refused: |lent| first_of(&[
                (10, lent.elements > ELEMENTS),
                (21, lent.content().len() as u64 != lent.elements / 8),
                (22, lent.wrong_checksum()),
                (24, lent.unused()),
            ]),
        },
    ),
    (
        "the check bytes need not be there",
        way! { refused: |lent| match (RIGHT.refused)(lent) {
            21 if lent.page.len() as u64 == lent.size() => 0,
            number => number,
        }},
    ),
    (
        "131,073 elements",
        way! { refused: |lent| first_of(&[
            (10, lent.elements > ELEMENTS + 1), (21, lent.wrong_length()), (22, lent.wrong_checksum()), (24, lent.unused()),
        ])},
    ),
    (
        "131,071 elements",
        way! { refused: |lent| first_of(&[
            (10, lent.elements >= ELEMENTS), (21, lent.wrong_length()), (22, lent.wrong_checksum()), (24, lent.unused()),
        ])},
    ),
    ("elements in 32 bits", |elements, checksum, page, result| {
        right(elements & 0xFFFF_FFFF, checksum, page, result)
    }),
    (
        "any number of elements",
        way! { refused: |lent| first_of(&[
            (21, lent.wrong_length()), (22, lent.wrong_checksum()), (24, lent.unused()),
        ])},
    ),
    (
        "no elements are refused",
        way! { refused: |lent| match lent.elements {
            0 => 21,
            _ => (RIGHT.refused)(lent),
        }},
    ),
    // The order.
    (
        "21 before 10",
        way! { refused: |lent| first_of(&[
            (21, lent.wrong_length()), (10, lent.elements > ELEMENTS), (22, lent.wrong_checksum()), (24, lent.unused()),
        ])},
    ),
    (
        "24 before 22",
        way! { refused: |lent| first_of(&[
            (10, lent.elements > ELEMENTS), (21, lent.wrong_length()), (24, lent.unused()), (22, lent.wrong_checksum()),
        ])},
    ),
    (
        "24 before 21",
        way! { refused: |lent| first_of(&[
            (10, lent.elements > ELEMENTS), (24, lent.unused()), (21, lent.wrong_length()), (22, lent.wrong_checksum()),
        ])},
    ),
    // The answer and the result.
    ("10 is of a page list", |e, c, p, r| {
        answering((e, c, p, r), 10, 3 * 256 + 10)
    }),
    ("21 is 7", |e, c, p, r| answering((e, c, p, r), 21, PAGE + 7)),
    ("22 is 3", |e, c, p, r| answering((e, c, p, r), 22, PAGE + 3)),
    ("24 is 25", |e, c, p, r| answering((e, c, p, r), 24, PAGE + 25)),
    ("24 without its envelope", |e, c, p, r| answering((e, c, p, r), 24, 24)),
    ("the count as the answer", |e, c, p, r| match right(e, c, p, r) {
        0 => r[0] as u32,
        answer => answer,
    }),
    (
        "a refusal has the count of its bits",
        way! { nothing: |lent| ones(lent.page) },
    ),
    (
        "a refusal of unused bits has the count",
        way! { nothing: |lent| match (RIGHT.refused)(lent) {
            24 => ones(lent.content()),
            _ => 0,
        }},
    ),
    (
        "a refusal has the number of elements",
        way! { nothing: |lent| lent.elements },
    ),
    ("a refusal leaves the result", |e, c, p, r| {
        let old = r.to_vec();
        let answer = right(e, c, p, r);
        if answer != 0 {
            r.copy_from_slice(&old);
        }
        answer
    }),
    ("no result is written", |e, c, p, r| right(e, c, p, &mut r.to_vec())),
    ("no result is accepted", |e, c, p, r| match r.len() {
        0 => right(e, c, p, &mut [0]),
        _ => right(e, c, p, r),
    }),
    ("a longer result is refused", |e, c, p, r| match r.len() {
        0 | 1 => right(e, c, p, r),
        _ => TOO_SHORT,
    }),
    ("the second result word is cleared", |e, c, p, r| {
        let answer = right(e, c, p, r);
        if let Some(second) = r.get_mut(1) {
            *second = 0;
        }
        answer
    }),
    ("10 before a short result", |e, c, p, r| {
        match e > ELEMENTS && r.is_empty() {
            true => PAGE + 10,
            false => right(e, c, p, r),
        }
    }),
    ("the page is changed", |e, c, p, r| {
        let answer = right(e, c, p, r);
        if let Some(last) = p.last_mut() {
            *last ^= 1;
        }
        answer
    }),
];

/// The first case in which a call differs from the reference.
fn found(call: CountCall) -> Option<u64> {
    let mut comparer = Comparer::new();
    comparer.count_true = call;
    (0..CASES).find(|&case| comparer.run(1, Kind::CountTrue, case).is_err())
}

#[test]
fn each_is_found() {
    let missed: Vec<_> = WRONG.iter().filter(|(_, call)| found(*call).is_none()).collect();
    let names: Vec<_> = missed.iter().map(|(name, _)| name).collect();
    assert!(names.is_empty(), "not found: {names:?}");
}

/// What the wrong ones are made of is right.
#[test]
fn the_right_ones_are_not() {
    assert_eq!(
        found(|elements, checksum, page, result| right(elements, checksum, page, result)),
        None
    );
    assert_eq!(found(way! {}), None);
}

#[test]
fn no_name_stands_twice() {
    let mut names: Vec<_> = WRONG.iter().map(|(name, _)| name).collect();
    names.sort_unstable();
    names.dedup();
    assert_eq!(names.len(), WRONG.len());
}
