//! The rules of columns on either side of the line, asked of the reference alone.

use crate::reference::crc::crc32;
use crate::reference::pages::ELEMENTS;
use crate::reference::{decode_column, decode_page, refusal, PAGE};

/// What stands in the words before a call.
const OLD: u64 = 0x0909_0909_0909_0909;

/// The answer, the result, and the words.
fn column(column_type: u32, rows: &[[u64; 4]], file: &[u8], room: usize) -> (u32, u64, Vec<u64>) {
    let mut words = vec![OLD; room];
    let (answer, [result]) = decode_column(column_type, rows.as_flattened(), file, &mut words);
    (answer, result, words)
}

/// The answer and the result where nothing is decoded.
fn refused(column_type: u32, rows: &[[u64; 4]], file: &[u8]) -> (u32, u64) {
    let (answer, result, words) = column(column_type, rows, file, 4);
    assert_eq!(words, [OLD; 4]);
    assert_eq!(answer / 256, PAGE);
    (answer % 256, result)
}

#[test]
fn page_after_page_without_gaps() {
    let file = [1, 0, 2, 0, 3, 0, 4, 0];
    // In any order, overlapping, shared, empty.
    let rows = [
        [4, 4, 2, 0],
        [0, 2, 1, 0],
        [8, 0, 0, 0],
        [2, 4, 2, 0],
        [0, 2, 1, 0],
        [4, 4, 2, 0],
    ];
    let due = [3, 4, 1, 2, 3, 1, 3, 4, OLD];
    assert_eq!(column(0x09, &rows, &file, 9), (0, 6, due.to_vec()));
    assert_eq!(column(0x09, &rows, &file, 8), (0, 6, due[..8].to_vec()));
    // The last page has no room: its words are as they were, and those before it stay.
    let words = [&due[..6], &[OLD]].concat();
    assert_eq!(column(0x09, &rows, &file, 7), (refusal(PAGE, 20), 5, words));
    // Split, so that the first plane is 03 00 and the second 04 00.
    assert_eq!(column(0x15, &rows[..1], &file, 3), (0, 1, vec![0x0403, 0, OLD]));
    // Each page starts its deltas anew.
    let deltas = [[0, 4, 1, 0], [0, 4, 1, 0]];
    assert_eq!(column(0x0F, &deltas, &[5, 0, 0, 0], 2), (0, 2, vec![5, 5]));
}

#[test]
fn no_pages_are_accepted() {
    for column_type in [0, 3, 6, 29, 0x1_0006, u32::MAX] {
        assert_eq!(column(column_type, &[], &[], 1), (0, 0, vec![OLD]));
        // Three words are no row.
        let mut words = [OLD; 2];
        assert_eq!(decode_column(column_type, &[0, 1, 1], &[7], &mut words), (0, [0]));
        assert_eq!(words, [OLD; 2]);
    }
}

#[test]
fn too_many_pages() {
    let rows = [[0, 1, 1, 0]; 258];
    assert_eq!(column(0x04, &rows[..256], &[7], 257).1, 256);
    assert_eq!(column(0x04, &rows[..255], &[7], 255), (0, 255, vec![7; 255]));
    for count in [257, 258] {
        // Before the type, the first page and the room.
        for (column_type, file) in [(0x04, &[7][..]), (0x03, &[7]), (0x04, &[])] {
            assert_eq!(refused(column_type, &rows[..count], file), (10, 256));
        }
    }
    let mut table = rows[..256].as_flattened().to_vec();
    table.extend([0, 1, 1]);
    assert_eq!(decode_column(0x04, &table, &[7], &mut [0; 256]), (0, [256]));
}

#[test]
fn the_order_of_one_page() {
    let outside = [9, 9, ELEMENTS + 1, 1];
    assert_eq!(refused(0x03, &[outside], &[]), (23, 0));
    assert_eq!(refused(0x1_0004, &[outside], &[]), (23, 0));
    assert_eq!(refused(0x04, &[outside], &[]), (10, 0));
    assert_eq!(refused(0x04, &[[9, 9, ELEMENTS, 1]], &[]), (18, 0));
    assert_eq!(refused(0x04, &[[0, 1, ELEMENTS, 1]], &[0; 5]), (21, 0));
    assert_eq!(refused(0x06, &[[0, 1, 5, 1]], &[0xFF; 5]), (22, 0));
    assert_eq!(refused(0x06, &[[0, 1, 5, 0]], &[0xFF]), (24, 0));
    assert_eq!(refused(0x04, &[[0, 5, 5, 0]], &[0xFF; 5]), (20, 0));
}

#[test]
fn ranges_as_exact_numbers() {
    let mut file = vec![1, 2, 3];
    file.extend(crc32(&[1, 2, 3]).to_le_bytes());
    for checksum in [1, 2, 1 << 32, u64::MAX] {
        assert_eq!(column(0x05, &[[0, 3, 3, checksum]], &file, 3), (0, 1, vec![1, 2, 3]));
        assert_eq!(refused(0x05, &[[0, 3, 3, checksum]], &file[..6]), (18, 0));
        assert_eq!(refused(0x05, &[[u64::MAX - 2, 3, 3, checksum]], &file), (18, 0));
        assert_eq!(refused(0x05, &[[u64::MAX - 6, 3, 3, checksum]], &file), (18, 0));
    }
    assert_eq!(column(0x05, &[[4, 3, 3, 0]], &file, 3).0, 0);
    assert_eq!(refused(0x05, &[[5, 3, 3, 0]], &file), (18, 0));
    assert_eq!(refused(0x05, &[[u64::MAX, 1, 1, 0]], &file), (18, 0));
    assert_eq!(refused(0x05, &[[1, u64::MAX, 1, 0]], &file), (18, 0));
    assert_eq!(refused(0x05, &[[u64::MAX; 4]], &file), (10, 0));
    assert_eq!(refused(0x05, &[[1 << 32, 3, 3, 0]], &file), (18, 0));
    // A page without bytes has a place too.
    assert_eq!(column(0x05, &[[7, 0, 0, 0]], &file, 0).0, 0);
    assert_eq!(refused(0x05, &[[8, 0, 0, 0]], &file), (18, 0));
}

#[test]
fn the_first_wrong_page_decides() {
    let file = [7; 8];
    let (right, outside, length) = ([0, 2, 2, 0], [9, 0, 0, 0], [0, 2, 1, 0]);
    let left = |pages: usize| [vec![7; 2 * pages], vec![OLD; 8 - 2 * pages]].concat();
    for (rows, number, index) in [
        ([right, outside, length, right], 18, 1),
        ([right, length, outside, right], 21, 1),
        ([right, right, right, outside], 18, 3),
        ([length, right, right, outside], 21, 0),
    ] {
        assert_eq!(
            column(0x0D, &rows, &file, 8),
            (refusal(PAGE, number), index, left(index as usize))
        );
    }
}

/// Every type: the pages of a column beside single calls.
#[test]
fn as_single_calls() {
    let file: Vec<u8> = (0..200u8).map(|byte| byte.wrapping_mul(73)).collect();
    for column_type in (1..=28).filter(|&column_type| column_type != 3) {
        let bits = u64::from(crate::reference::pages::stored_bits(column_type).unwrap());
        let rows: Vec<[u64; 4]> = [(8, 3), (0, 60), (16, 0), (8, 3)]
            .map(|(elements, offset)| [offset, elements * bits / 8, elements, 0])
            .to_vec();
        let mut words = vec![OLD; 40];
        let mut start = 0;
        for &[offset, size, elements, _] in &rows {
            let page = &file[offset as usize..][..size as usize];
            assert_eq!(decode_page(column_type, elements, false, page, &mut words, start), 0);
            start += elements;
        }
        assert_eq!(column(column_type, &rows, &file, 40), (0, 4, words));
    }
}
