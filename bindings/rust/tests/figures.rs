//! Figures from Rust: reports of page lists, what is refused and counted, and the true elements of Bit pages.

use rntuple_check::{
    count_true, crc32, decode, encode, most, report_page_list, Envelope, Figures, ListCounts, PageListRoom, Reason,
    Refusal, Report, ReportRefusal,
};
use std::error::Error;

const HEADER: &[u8] = include_bytes!("../../../examples/fields.header");
const LIST: &[u8] = include_bytes!("../../../examples/fields.pagelist");
const STALE: &[u8] = include_bytes!("../../../examples/stale.pagelist");
const SMALLEST: &[u8] = include_bytes!("../../../examples/smallest.header");
const SMALLEST_LIST: &[u8] = include_bytes!("../../../examples/smallest.pagelist");

/// What stands in words that no call may change.
const OLD: u64 = 0x0909_0909_0909_0909;

/// The list's entries, the length of its file, and the header's columns.
const ENTRIES: u64 = 3;
const FILE_LENGTH: u64 = 4_096;
const COLUMNS: usize = 4;

const NONE: ListCounts = ListCounts {
    accepted: 0,
    refused: 0,
};

fn counts(accepted: u64, refused: u64) -> ListCounts {
    ListCounts { accepted, refused }
}

fn refused(envelope: Envelope, reason: Reason, lists: ListCounts) -> ReportRefusal {
    ReportRefusal {
        refusal: Refusal { envelope, reason },
        lists,
    }
}

/// Adds a list with these counts to a report.
fn add(list: &[u8], lists: ListCounts, report: &mut [u64]) -> Result<ListCounts, ReportRefusal> {
    report_page_list(HEADER, list, ENTRIES, FILE_LENGTH, lists, report)
}

/// What a list adds, summed up from the pages that are read.
fn sums(list: &[u8]) -> Vec<u64> {
    let mut room = PageListRoom::full();
    let mut report = vec![0; 4 * COLUMNS];
    for page in room.read(HEADER, list, ENTRIES, FILE_LENGTH).unwrap().pages.iter() {
        let row = &mut report[4 * page.column.0..][..4];
        let own = [1, page.elements as u64, page.size, page.checksum.into()];
        row.iter_mut().zip(own).for_each(|(sum, own)| *sum += own);
    }
    report
}

#[test]
fn figures_are_sums() {
    let list = sums(LIST);
    assert!(list.iter().any(|&figure| figure > 0));
    let mut words = [vec![0; 4 * COLUMNS], vec![OLD; 7]].concat();
    let mut lists = NONE;
    for number in 1..=3 {
        lists = add(LIST, lists, &mut words).unwrap();
        assert_eq!(lists, counts(number, 0));
        let due: Vec<u64> = list.iter().map(|figure| number * figure).collect();
        assert_eq!(words[..4 * COLUMNS], due);
        assert_eq!(words[4 * COLUMNS..], [OLD; 7]);
    }
}

#[test]
fn a_report_in_any_order() {
    let lists = [LIST, b"no page list", STALE, LIST, &LIST[1..], STALE, b""];
    let report = |order: &[usize]| {
        let mut report = Report::full();
        for &index in order {
            let answer = report.add(HEADER, lists[index], ENTRIES, FILE_LENGTH);
            assert_eq!(answer.is_ok(), [0, 2, 3, 5].contains(&index));
        }
        report
    };
    let first = report(&[0, 1, 2, 3, 4, 5, 6]);
    assert_eq!(first.lists(), counts(4, 3));
    let row = sums(LIST);
    assert_eq!(
        first.figures().get(0).unwrap(),
        Figures {
            pages: 4 * row[0],
            elements: 4 * row[1],
            stored_size: 4 * row[2],
            pages_with_checksum: 4 * row[3],
        }
    );
    assert_eq!(first.figures().len(), most::COLUMNS);
    assert!(first
        .figures()
        .iter()
        .skip(COLUMNS)
        .all(|figures| figures == Figures::default()));
    for order in [[6, 5, 4, 3, 2, 1, 0], [3, 0, 6, 1, 5, 2, 4], [1, 4, 6, 0, 3, 2, 5]] {
        assert!(report(&order) == first);
    }
}

#[test]
fn what_the_reader_refuses_is_counted() {
    let old: Vec<u64> = (0..4 * COLUMNS as u64).collect();
    let mut words = old.clone();
    let before = counts(5, 6);
    let list = |reason| Err(refused(Envelope::PageList, reason, counts(5, 7)));
    assert_eq!(add(b"", before, &mut words), list(Reason::EnvelopeTooShort));
    assert_eq!(add(&LIST[1..], before, &mut words), list(Reason::ChecksumDiffers));
    let mut other = |entries, file_length| report_page_list(HEADER, LIST, entries, file_length, before, &mut words);
    assert_eq!(other(ENTRIES + 1, FILE_LENGTH), list(Reason::CountsDisagree));
    assert_eq!(other(ENTRIES, 0), list(Reason::OutsideFile));
    let no_header = report_page_list(b"", LIST, ENTRIES, FILE_LENGTH, before, &mut words);
    let header = refused(Envelope::Header, Reason::EnvelopeTooShort, counts(5, 7));
    assert_eq!(no_header, Err(header));
    // Before too few rows.
    assert_eq!(add(&LIST[1..], before, &mut []), list(Reason::ChecksumDiffers));
    assert_eq!(words, old);
}

#[test]
fn too_few_rows_are_counted_nowhere() {
    for room in 0..4 * COLUMNS {
        let mut words = vec![0; room];
        assert_eq!(
            add(LIST, counts(5, 6), &mut words),
            Err(refused(Envelope::PageList, Reason::RoomTooSmall, counts(5, 6)))
        );
        assert_eq!(words, vec![0; room]);
    }
    let no_columns = report_page_list(SMALLEST, SMALLEST_LIST, 0, 0, NONE, &mut []);
    assert_eq!(no_columns, Ok(counts(1, 0)));
}

#[test]
fn as_many_lists_as_a_report_takes() {
    let most = most::LISTS as u64;
    let mut report = Report::full();
    for number in 0..most {
        let list = if number % 2 == 0 { LIST } else { b"" };
        assert_eq!(report.add(HEADER, list, ENTRIES, FILE_LENGTH).is_ok(), number % 2 == 0);
    }
    assert_eq!(report.lists(), counts(most / 2, most / 2));
    let before = report.clone();
    for list in [LIST, b""] {
        let refusal = report.add(HEADER, list, ENTRIES, FILE_LENGTH).unwrap_err();
        assert_eq!((refusal.envelope, refusal.reason.number()), (Envelope::PageList, 10));
        assert!(report == before);
    }
    for lists in [
        counts(most, 0),
        counts(0, most),
        counts(1, most - 1),
        counts(u64::MAX, 1),
        counts(u64::MAX, u64::MAX),
        counts(1 << 63, 1 << 63),
        counts(1 << 32, 0),
    ] {
        let too_many = Err(refused(Envelope::PageList, Reason::CountAboveCeiling, lists));
        assert_eq!(add(LIST, lists, &mut [0; 16]), too_many);
        assert_eq!(report_page_list(b"", b"", 0, 0, lists, &mut []), too_many);
    }
    assert_eq!(add(LIST, counts(0, most - 1), &mut [0; 16]), Ok(counts(1, most - 1)));
    assert_eq!(add(LIST, counts(most - 1, 0), &mut [0; 16]), Ok(counts(most, 0)));
}

#[test]
fn figures_at_their_end() {
    for (at, figure) in sums(LIST).into_iter().enumerate() {
        let mut words = [0; 4 * COLUMNS + 2];
        words[4 * COLUMNS] = u64::MAX;
        words[at] = u64::MAX - figure;
        assert_eq!(add(LIST, NONE, &mut words), Ok(counts(1, 0)));
        assert_eq!(words[at], u64::MAX);
        if figure == 0 {
            continue;
        }
        let old = words;
        let past = refused(Envelope::PageList, Reason::CountAboveCeiling, counts(1, 2));
        assert_eq!(add(LIST, counts(1, 2), &mut words), Err(past));
        assert_eq!(words, old);
    }
}

#[test]
fn words_of_refusals() {
    let refusal = refused(Envelope::PageList, Reason::RoomTooSmall, counts(5, 6));
    assert_eq!(
        refusal.to_string(),
        "page list refused 20: lent room too small; lists accepted 5, refused 6"
    );
    assert_eq!(refusal.source().unwrap().to_string(), refusal.refusal.to_string());
}

#[test]
fn true_elements_as_they_are_decoded() {
    let lengths = [0, 1, 7, 8, 9, 55, 63, 64, 65, 72, 127, 128, 129, 1_000, most::ELEMENTS];
    for length in lengths {
        for pattern in [0, u64::MAX, 0x8000_0000_0000_0001, 0x9E37_79B9_7F4A_7C15] {
            let elements: Vec<u64> = (0..length).map(|i| pattern >> (i % 64) & 1).collect();
            let due = elements.iter().sum::<u64>() as usize;
            for checksum in [false, true] {
                let page = encode(6, checksum, &elements).unwrap();
                assert_eq!(count_true(length, checksum, &page), Ok(due));
                assert_eq!(decode(6, length, checksum, &page), Ok(elements.clone()));
                assert_eq!(
                    count_true(length, !checksum, &page),
                    decode(6, length, !checksum, &page).map(|_| 0)
                );
            }
        }
    }
}

#[test]
fn pages_that_are_not_counted() {
    let refused = |reason| {
        let envelope = Envelope::Page;
        Err(Refusal { envelope, reason })
    };
    let sealed = |page: &[u8]| [page, &crc32(page).to_le_bytes()].concat();
    let large = vec![0; most::ELEMENTS / 8 + 1];
    assert_eq!(
        count_true(most::ELEMENTS + 1, false, &large),
        refused(Reason::CountAboveCeiling)
    );
    assert_eq!(count_true(usize::MAX, true, &[]), refused(Reason::CountAboveCeiling));
    assert_eq!(count_true(9, false, &[1]), refused(Reason::PageLength));
    assert_eq!(count_true(9, true, &[1, 1]), refused(Reason::PageLength));
    assert_eq!(
        count_true(9, true, &[1, 3, 0, 0, 0, 0]),
        refused(Reason::PageChecksumDiffers)
    );
    assert_eq!(count_true(9, true, &sealed(&[1, 3])), refused(Reason::UnusedBitsSet));
    assert_eq!(count_true(9, true, &sealed(&[1, 1])), Ok(2));
    assert_eq!(count_true(0, false, &[]), Ok(0));
    assert_eq!(count_true(0, true, &[0; 4]), Ok(0));
}
