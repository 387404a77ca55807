//! Columns from Rust: page after page, refused pages and what stays of those before them, and nothing lent.

use rntuple_check::{
    crc32, decode_column, decode_page, encode, most, ColumnNumber, ColumnPage, ColumnRefusal, Envelope, Page, Reason,
    Refusal,
};
use std::error::Error;

/// What stands in lent memory before a call.
const OLD: u64 = 0x0909_0909_0909_0909;

fn page(offset: u64, size: u64, elements: usize) -> ColumnPage {
    ColumnPage {
        offset,
        size,
        elements,
        checksum: false,
    }
}

fn checked(offset: u64, size: u64, elements: usize) -> ColumnPage {
    ColumnPage {
        checksum: true,
        ..page(offset, size, elements)
    }
}

fn refused(reason: Reason, index: usize) -> ColumnRefusal {
    let envelope = Envelope::Page;
    ColumnRefusal {
        refusal: Refusal { envelope, reason },
        index,
    }
}

/// The elements, each page's behind those of the page before; the words behind them stay.
fn column(column_type: u16, pages: &[ColumnPage], file: &[u8]) -> Result<Vec<u64>, ColumnRefusal> {
    let mut words = vec![OLD; 400];
    let elements = decode_column(column_type, pages, file, &mut words)?.to_vec();
    assert_eq!(words[..elements.len()], elements);
    assert!(words[elements.len()..].iter().all(|&word| word == OLD));
    let mut exact = vec![OLD; elements.len()];
    assert_eq!(decode_column(column_type, pages, file, &mut exact).unwrap(), elements);
    Ok(elements)
}

/// A refused column: the refusal, and the words of the pages before it.
fn left(column_type: u16, pages: &[ColumnPage], file: &[u8], room: usize) -> (ColumnRefusal, Vec<u64>) {
    let mut words = vec![OLD; room];
    let refusal = decode_column(column_type, pages, file, &mut words).unwrap_err();
    let decoded = words.iter().position(|&word| word == OLD).unwrap_or(room);
    assert!(words[decoded..].iter().all(|&word| word == OLD));
    words.truncate(decoded);
    (refusal, words)
}

#[test]
fn page_after_page() {
    let file = [1, 0, 2, 0, 3, 0, 4, 0];
    // In any order, overlapping, shared, and one without bytes at the end.
    let pages = [
        page(4, 4, 2),
        page(0, 2, 1),
        page(8, 0, 0),
        page(2, 4, 2),
        page(4, 4, 2),
    ];
    assert_eq!(column(0x09, &pages, &file), Ok(vec![3, 4, 1, 2, 3, 3, 4]));
    // Each page starts its deltas anew.
    assert_eq!(
        column(0x0F, &[page(0, 8, 2), page(0, 4, 1)], &[5, 1, 0, 0, 0, 0, 0, 0]),
        Ok(vec![5, 6, 261])
    );
}

/// The columns of all types, with and without checksums, beside their pages one by one.
#[test]
fn every_type_as_its_pages() {
    let elements: [&[u64]; 4] = [&[1, 0, 1, 1, 0], &[], &[0, 0, 1, 1, 1, 0, 1, 0, 1], &[1]];
    for column_type in (1..=28).filter(|&column_type| column_type != 3) {
        let (mut file, mut pages) = (vec![0xEE], Vec::new());
        for (index, elements) in elements.iter().enumerate() {
            let checksum = index % 2 == 0;
            let bytes = encode(column_type, checksum, elements).unwrap();
            let size = bytes.len() as u64 - if checksum { 4 } else { 0 };
            pages.push(ColumnPage {
                checksum,
                ..page(file.len() as u64, size, elements.len())
            });
            file.extend(bytes);
        }
        assert_eq!(column(column_type, &pages, &file), Ok(elements.concat()));
        pages.reverse();
        let reversed: Vec<u64> = elements.iter().rev().flat_map(|page| page.to_vec()).collect();
        assert_eq!(column(column_type, &pages, &file), Ok(reversed));

        let mut words = [OLD; 20];
        let mut start = 0;
        for page in &pages {
            let length = page.size as usize + if page.checksum { 4 } else { 0 };
            let bytes = &file[page.offset as usize..][..length];
            start += decode_page(column_type, page.elements, page.checksum, bytes, &mut words, start)
                .unwrap()
                .len();
        }
        let mut own = [OLD; 20];
        assert_eq!(
            decode_column(column_type, &pages, &file, &mut own).unwrap().len(),
            start
        );
        assert_eq!(own, words);
    }
}

#[test]
fn pages_before_a_refused_one_stay() {
    let mut file = vec![7, 8, 0xFF];
    file.extend(crc32(&[0xFF]).to_le_bytes());
    let right = page(0, 2, 2);
    for (column_type, wrong, reason) in [
        (4, page(0, 2, most::ELEMENTS + 1), Reason::CountAboveCeiling),
        (4, page(0, 2, usize::MAX), Reason::CountAboveCeiling),
        (4, page(7, 1, 1), Reason::OutsideFile),
        (4, page(8, 0, 0), Reason::OutsideFile),
        (4, page(u64::MAX, 1, 1), Reason::OutsideFile),
        (4, page(1, u64::MAX, 1), Reason::OutsideFile),
        (4, checked(3, 1, 1), Reason::OutsideFile),
        (4, checked(u64::MAX - 4, 1, 1), Reason::OutsideFile),
        (4, page(0, 2, 1), Reason::PageLength),
        (4, checked(1, 1, 1), Reason::PageChecksumDiffers),
        (4, page(0, 7, 7), Reason::RoomTooSmall),
    ] {
        for (pages, index) in [
            (&[wrong, right, right][..], 0),
            (&[right, wrong, right], 1),
            (&[right, right, wrong], 2),
            (&[right, wrong, wrong], 1),
        ] {
            let before = [7, 8].repeat(index);
            assert_eq!(left(column_type, pages, &file, 6), (refused(reason, index), before));
        }
    }
    let bits = [page(0, 1, 8), page(2, 1, 7), page(0, 1, 8)];
    let before = vec![1, 1, 1, 0, 0, 0, 0, 0];
    assert_eq!(left(6, &bits, &file, 30), (refused(Reason::UnusedBitsSet, 1), before));
    assert_eq!(column(4, &[right, checked(2, 1, 1)], &file), Ok(vec![7, 8, 0xFF]));
}

#[test]
fn types_that_have_no_pages() {
    // Before what else is wrong with the first page.
    for column_type in [0, 3, 29, 0x0104, u16::MAX] {
        for first in [page(0, 1, 1), page(9, 1, 1), page(0, 1, usize::MAX)] {
            assert_eq!(
                left(column_type, &[first], &[7], 3),
                (refused(Reason::TypeNotRead, 0), Vec::new())
            );
        }
        assert_eq!(column(column_type, &[], &[7]), Ok(Vec::new()));
    }
}

#[test]
fn as_many_pages_as_there_may_be() {
    let pages = vec![page(0, 1, 1); 1_000];
    assert_eq!(
        column(4, &pages[..most::COLUMN_PAGES], &[7]),
        Ok(vec![7; most::COLUMN_PAGES])
    );
    let too_many = (refused(Reason::CountAboveCeiling, most::COLUMN_PAGES), Vec::new());
    for count in [most::COLUMN_PAGES + 1, most::COLUMN_PAGES + 2, 512, 1_000] {
        assert_eq!(left(4, &pages[..count], &[7], 300), too_many);
        assert_eq!(left(3, &pages[..count], &[], 0), too_many);
    }
    let mut words = vec![OLD; 2 * most::ELEMENTS];
    let pages = [page(0, most::ELEMENTS as u64, most::ELEMENTS); 2];
    assert_eq!(
        decode_column(4, &pages, &vec![7; most::ELEMENTS], &mut words)
            .unwrap()
            .len(),
        2 * most::ELEMENTS
    );
    assert!(words.iter().all(|&word| word == 7));
}

#[test]
fn nothing_may_be_lent() {
    assert!(decode_column(4, &[], &[], &mut []).unwrap().is_empty());
    assert!(decode_column(4, &[page(0, 0, 0)], &[], &mut []).unwrap().is_empty());
    assert_eq!(
        left(4, &[page(1, 0, 0)], &[], 0),
        (refused(Reason::OutsideFile, 0), Vec::new())
    );
    assert_eq!(
        left(4, &[page(0, 1, 1)], &[7], 0),
        (refused(Reason::RoomTooSmall, 0), Vec::new())
    );
}

#[test]
fn rows_of_page_lists_and_words_of_refusals() {
    let row = Page {
        column: ColumnNumber(3),
        elements: 2,
        checksum: true,
        size: 8,
        offset: 40,
    };
    assert_eq!(ColumnPage::from(row), checked(40, 8, 2));
    let refusal = refused(Reason::OutsideFile, 5);
    assert_eq!(
        refusal.to_string(),
        "page 5 of the column: page refused 18: byte range not inside the file, that of a page with its check bytes"
    );
    assert_eq!(refusal.source().unwrap().to_string(), refusal.refusal.to_string());
    assert_eq!(
        refused(Reason::CountAboveCeiling, most::COLUMN_PAGES).to_string(),
        "more than 256 pages of the column: page refused 10: count above a ceiling, or a figure past 64 bits"
    );
}
