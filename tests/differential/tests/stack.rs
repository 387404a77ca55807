//! The stack that a listing and a report take: as much as the C header says is
//! enough for the deepest listing, for the widest, and for the largest page list.

use differential::calls::{self, ReportedList};
use differential::generate::edges::{self, MOST_COLUMNS_AND_PAGES};
use differential::generate::random::Random;
use differential::reference::{list_fields, report_page_list};
use differential::writer::{Column, Field, Header, Writer};

/// What the C header says, and what a thread needs for itself.
const LISTING: usize = (200 << 10) + OWN;
const REPORT: usize = (150 << 10) + OWN;
const OWN: usize = 32 << 10;

/// What a call gives in a thread with so much stack. Too little of it ends the
/// whole test with a signal.
fn on_stack<T: Send + 'static>(size: usize, call: impl FnOnce() -> T + Send + 'static) -> T {
    let thread = std::thread::Builder::new().stack_size(size).spawn(call);
    thread.expect("a thread").join().expect("an answer")
}

/// An envelope's bytes.
fn written(write: impl FnOnce(&mut Writer)) -> Vec<u8> {
    let mut writer = Writer::default();
    write(&mut writer);
    writer.bytes
}

/// A header of 512 fields with these parents, dark from one of them on.
fn header(parent: impl Fn(u32) -> u32) -> Vec<u8> {
    let mut header = Header::default();
    header.fields.items = (0..512)
        .map(|number| Field {
            parent: parent(number),
            strings: [b"name".to_vec(), b"type".to_vec(), Vec::new(), Vec::new()],
            ..Default::default()
        })
        .collect();
    header.columns.items = vec![Column {
        column_type: 29,
        field: 256,
        ..Default::default()
    }];
    written(|writer| writer.header(&header))
}

#[test]
fn of_512_fields() {
    let envelopes = [
        header(|number| number.saturating_sub(1)),
        header(|number| (number + 1).min(511)),
        header(|_| 0),
        header(|_| 511),
        header(|number| number),
        header(|number| number.saturating_sub(1) / 2),
    ];
    for envelope in envelopes {
        let mut due = vec![0; 300_000];
        let (answer, result) = list_fields(&envelope, &mut due);
        assert_eq!(answer, 0);
        let listing = on_stack(LISTING, move || {
            let (mut out, mut words) = (vec![0; 300_000], [0]);
            (calls::list_fields(&envelope, &mut out, &mut words), words, out)
        });
        assert!(listing == (0, result, due));
    }
}

#[test]
fn of_1024_columns_with_16384_pages() {
    let largest = edges::page_list(&mut Random::new(1), MOST_COLUMNS_AND_PAGES);
    let (header, list, entries, file_length) = largest.expect("a page list");
    let header = written(|writer| writer.header(&header));
    let list = written(|writer| writer.page_list(&list));
    let mut due = vec![0; 4 * 1_024];
    let (answer, counts) = report_page_list(&header, &list, entries, file_length, [0; 2], &mut due);
    assert_eq!((answer, counts), (0, [1, 0]));
    let reported = on_stack(REPORT, move || {
        let (mut report, mut counts) = (vec![0; 4 * 1_024], [0; 2]);
        let handed = ReportedList {
            header: &header,
            page_list: &list,
            entries,
            file_length,
            counts,
        };
        (
            calls::report_page_list(handed, &mut report, &mut counts),
            counts,
            report,
        )
    });
    assert!(reported == (0, [1, 0], due));
}
