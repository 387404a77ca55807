//! The listings of a few fields for all ways in which they can name their
//! parents, by the library and by the reference.

use differential::calls;
use differential::compare::listing::tells;
use differential::reference::header::read;
use differential::reference::list_fields;
use differential::writer::{Column, Field, Header, Writer};

/// More than the listing of so few fields.
const ROOM: usize = 256;

/// What stands in lent bytes before a call.
const OLD: u8 = 0xA5;

/// A header of so many fields, whose names and types are not those of their numbers.
fn fields(count: u32) -> Header {
    let mut header = Header::default();
    header.fields.items = (0..count)
        .map(|number| Field {
            strings: [
                &(count - number).to_string(),
                &"t".repeat(number as usize % 3),
                "a",
                "d",
            ]
            .map(|text: &str| text.as_bytes().to_vec()),
            ..Default::default()
        })
        .collect();
    header
}

/// Compares the listing of one header; gives whether it is accepted.
fn compare(envelope: &[u8]) -> bool {
    let mut due = [OLD; ROOM];
    let (answer, [length]) = list_fields(envelope, &mut due);
    let end = length as usize;
    // An exact room among bytes that stay, and one that is a byte too small.
    for room in [end, end.saturating_sub(1), ROOM] {
        let mut out = [OLD; ROOM];
        let mut result = [!length, 7];
        let ours = calls::list_fields(envelope, &mut out[..room], &mut result);
        if answer == 0 && room < end {
            assert_eq!((ours, result), (256 + 20, [0, 7]));
            assert_eq!(out, [OLD; ROOM]);
        } else {
            assert_eq!((ours, result), (answer, [length, 7]));
            assert_eq!(out, due);
        }
    }
    if answer == 0 {
        let header = read(envelope).expect("it is accepted");
        assert_eq!(tells(&due[..end], &header, envelope), Ok(()));
    }
    answer == 0
}

/// Compares all headers of so many fields, each with no dark column and with one
/// on the fields that `dark` gives for its number; gives how many are accepted.
fn compare_all(count: u32, dark: impl Fn(u32) -> std::ops::Range<u32>) -> u64 {
    let mut header = fields(count);
    let mut writer = Writer::default();
    let mut accepted = 0;
    for choice in 0..count.pow(count) {
        let mut number = choice;
        for field in &mut header.fields.items {
            field.parent = number % count;
            number /= count;
        }
        header.columns.items.clear();
        writer.header(&header);
        accepted += u64::from(compare(&writer.bytes));
        for field in dark(choice) {
            header.columns.items = vec![Column {
                column_type: 29,
                field,
                ..Default::default()
            }];
            writer.header(&header);
            compare(&writer.bytes);
        }
    }
    accepted
}

#[test]
fn of_up_to_six_fields_dark_anywhere() {
    assert_eq!(compare_all(0, |_| 0..0), 1);
    for count in 1..=6 {
        // There are so many forests of fields with a top for each tree.
        let forests = u64::from(count + 1).pow(count - 1);
        assert_eq!(compare_all(count, |_| 0..count), forests);
    }
}

#[test]
fn of_seven_fields() {
    assert_eq!(compare_all(7, |choice| choice % 7..choice % 7 + 1), 8u64.pow(6));
}
