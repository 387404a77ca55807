//! The rules of figures on either side of the line, asked of the reference alone.

use crate::reference::crc::crc32;
use crate::reference::{count_true, refusal, report_page_list, HEADER, PAGE, PAGE_LIST};
use crate::writer::{Column, Field, Header, List, Page, PageList, Writer};

/// What stands in words that no column has.
const OLD: u64 = 0x0909_0909_0909_0909;

const FILE_LENGTH: u64 = 1 << 20;

/// A header with a Bit column, one of 32 bits and one of 16; each on a field of
/// its own, of which the first alone has as many elements as entries.
fn header() -> Vec<u8> {
    let mut header = Header::default();
    header.fields.items = [0, 1, 1]
        .into_iter()
        .zip(0..)
        .map(|(flags, parent)| Field {
            flags,
            parent,
            ..Default::default()
        })
        .collect();
    header.columns.items = [(0x06, 1), (0x14, 32), (0x15, 16)]
        .into_iter()
        .zip(0..)
        .map(|((column_type, bits), field)| Column {
            column_type,
            bits,
            field,
            ..Default::default()
        })
        .collect();
    let mut writer = Writer::default();
    writer.header(&header);
    writer.bytes
}

fn page(elements: u32, bits: u32, checksum: bool) -> Page {
    Page {
        elements,
        checksum,
        size: (elements * bits).div_ceil(8),
        offset: 8,
    }
}

fn list(columns: [Vec<Page>; 3]) -> Vec<u8> {
    let mut list = PageList::default();
    list.columns.items = columns.map(|items| List { items, spare: 0 }).to_vec();
    let mut writer = Writer::default();
    writer.page_list(&list);
    writer.bytes
}

/// Twelve entries: two Bit pages of nine and of three elements, one page of 32
/// bits with a checksum, and three of 16 bits, one of them empty.
fn first() -> Vec<u8> {
    list([
        vec![page(9, 1, true), page(3, 1, false)],
        vec![page(5, 32, true)],
        vec![page(7, 16, true), page(0, 16, true), page(1, 16, false)],
    ])
}

const FIRST: [u64; 12] = [2, 12, 3, 1, 1, 5, 20, 1, 3, 8, 16, 2];

/// Twelve entries, and no other elements.
fn second() -> Vec<u8> {
    list([vec![page(12, 1, false)], Vec::new(), Vec::new()])
}

/// The answer and the counts; the report is changed where the list is accepted.
fn add(list: &[u8], counts: [u64; 2], report: &mut [u64]) -> (u32, [u64; 2]) {
    report_page_list(&header(), list, 12, FILE_LENGTH, counts, report)
}

#[test]
fn figures_are_sums() {
    let mut report = [0; 12];
    assert_eq!(add(&first(), [0, 0], &mut report), (0, [1, 0]));
    assert_eq!(report, FIRST);
    assert_eq!(add(&second(), [1, 0], &mut report), (0, [2, 0]));
    assert_eq!(add(&first(), [2, 0], &mut report), (0, [3, 0]));
    assert_eq!(report, [5, 36, 8, 2, 2, 10, 40, 2, 6, 16, 32, 4]);
    // The other way round.
    let mut other = [0; 12];
    for (count, list) in [first(), first(), second()].iter().enumerate() {
        add(list, [count as u64, 0], &mut other);
    }
    assert_eq!(other, report);
}

#[test]
fn a_refused_list_is_counted_apart() {
    let mut report = FIRST;
    let mut damaged = first();
    damaged[10] ^= 1;
    assert_eq!(add(&damaged, [1, 0], &mut report), (refusal(PAGE_LIST, 3), [1, 1]));
    assert_eq!(add(&[], [1, 4], &mut report), (refusal(PAGE_LIST, 2), [1, 5]));
    let other = |entries, file_length, report: &mut [u64]| {
        report_page_list(&header(), &first(), entries, file_length, [3, 4], report)
    };
    assert_eq!(other(13, FILE_LENGTH, &mut report), (refusal(PAGE_LIST, 19), [3, 5]));
    assert_eq!(other(12, 31, &mut report), (refusal(PAGE_LIST, 18), [3, 5]));
    assert_eq!(other(12, 32, &mut [0; 12]), (0, [4, 4]));
    let no_header = report_page_list(&[], &first(), 12, FILE_LENGTH, [0, 0], &mut report);
    assert_eq!(no_header, (refusal(HEADER, 2), [0, 1]));
    // Before the report's own room.
    assert_eq!(add(&damaged, [0, 0], &mut []), (refusal(PAGE_LIST, 3), [0, 1]));
    assert_eq!(report, FIRST);
}

#[test]
fn as_many_lists_as_there_may_be() {
    let full = (refusal(PAGE_LIST, 10), FIRST);
    for counts in [[1_023, 0], [0, 1_023], [1_000, 23]] {
        let (mut report, [accepted, refused]) = ([0; 12], counts);
        assert_eq!(add(&first(), counts, &mut report), (0, [accepted + 1, refused]));
        assert_eq!(report, FIRST);
        let damaged = add(&first()[1..], counts, &mut report);
        assert_eq!(damaged, (refusal(PAGE_LIST, 3), [accepted, refused + 1]));
    }
    for counts in [
        [1_024, 0],
        [0, 1_024],
        [1_000, 24],
        [1_025, 0],
        [u64::MAX, 0],
        [u64::MAX, 1],
        [u64::MAX, 2],
        [1 << 63, 1 << 63],
        [u64::MAX, u64::MAX],
        [1 << 32, 0],
    ] {
        let mut report = FIRST;
        assert_eq!(add(&first(), counts, &mut report), (full.0, counts));
        // Before anything else, and counted nowhere.
        assert_eq!(add(&[], counts, &mut report), (full.0, counts));
        assert_eq!(
            report_page_list(&[], &[], 0, 0, counts, &mut []),
            (refusal(PAGE_LIST, 10), counts)
        );
        assert_eq!(report, full.1);
    }
}

#[test]
fn rows_of_a_report() {
    for words in 0..12 {
        let mut report = vec![0; words];
        assert_eq!(add(&first(), [3, 4], &mut report), (refusal(PAGE_LIST, 20), [3, 4]));
        assert_eq!(report, vec![0; words]);
    }
    for left in 1..6 {
        let mut report = [vec![0; 12], vec![OLD; left]].concat();
        assert_eq!(add(&first(), [3, 4], &mut report), (0, [4, 4]));
        assert_eq!(report, [&FIRST[..], &vec![OLD; left]].concat());
    }
    // A list without pages needs the rows too.
    let empty = list([vec![page(12, 1, false)], Vec::new(), Vec::new()]);
    assert_eq!(add(&empty, [0, 0], &mut [0; 11]).0, refusal(PAGE_LIST, 20));
    let mut writer = Writer::default();
    writer.header(&Header::default());
    let no_columns = writer.bytes.clone();
    writer.page_list(&PageList::default());
    assert_eq!(
        report_page_list(&no_columns, &writer.bytes, 0, 0, [0, 0], &mut []),
        (0, [1, 0])
    );
}

#[test]
fn figures_at_their_end() {
    for (at, figure) in FIRST.into_iter().enumerate() {
        let mut report = [0; 12];
        report[at] = u64::MAX - figure;
        assert_eq!(add(&first(), [0, 0], &mut report), (0, [1, 0]));
        assert_eq!(report[at], u64::MAX);

        let mut report = [7; 12];
        report[at] = u64::MAX - figure + 1;
        let old = report;
        assert_eq!(add(&first(), [5, 6], &mut report), (refusal(PAGE_LIST, 10), [5, 6]));
        assert_eq!(report, old);
        // A report that is too small comes before.
        assert_eq!(add(&first(), [5, 6], &mut report[..11]).0, refusal(PAGE_LIST, 20));
        // A list that adds nothing there is added.
        if at >= 4 {
            assert_eq!(add(&second(), [5, 6], &mut report), (0, [6, 6]));
        }
    }
    // Words that no column has do not count.
    let mut report = [vec![0; 12], vec![u64::MAX; 4]].concat();
    assert_eq!(add(&first(), [0, 0], &mut report), (0, [1, 0]));
    assert_eq!(report[12..], [u64::MAX; 4]);
}

#[test]
fn true_elements() {
    assert_eq!(count_true(0, false, &[]), (0, [0]));
    assert_eq!(count_true(9, false, &[1, 1]), (0, [2]));
    assert_eq!(count_true(9, false, &[0xFF, 1]), (0, [9]));
    assert_eq!(count_true(8, false, &[0xFF]), (0, [8]));
    assert_eq!(count_true(65, false, &[0xFF; 9]), (refusal(PAGE, 24), [0]));
    assert_eq!(count_true(72, false, &[0xFF; 9]), (0, [72]));
    assert_eq!(count_true(131_072, false, &[0xFF; 16_384]), (0, [131_072]));
}

#[test]
fn the_order_of_a_count() {
    let refused = |elements, checksum, page: &[u8]| {
        let (answer, result) = count_true(elements, checksum, page);
        assert_eq!((answer / 256, result), (PAGE, [0]));
        answer % 256
    };
    let sealed = |page: &[u8]| [page, &crc32(page).to_le_bytes()].concat();
    assert_eq!(refused(131_073, false, &[0; 16_385]), 10);
    assert_eq!(refused(u64::MAX, true, &[]), 10);
    assert_eq!(refused(9, false, &[1]), 21);
    assert_eq!(refused(9, false, &[1, 1, 0]), 21);
    assert_eq!(refused(9, true, &[1, 1]), 21);
    assert_eq!(refused(9, false, &sealed(&[1, 1])), 21);
    assert_eq!(refused(9, true, &[1, 3, 0, 0, 0, 0]), 22);
    assert_eq!(refused(9, true, &sealed(&[1, 3])), 24);
    assert_eq!(refused(9, false, &[1, 3]), 24);
    assert_eq!(count_true(9, true, &sealed(&[1, 1])), (0, [2]));
    // The check bytes are no elements.
    assert_eq!(count_true(0, true, &[0; 4]), (0, [0]));
    assert_eq!(count_true(8, true, &sealed(&[0])), (0, [0]));
}
