//! All orders of a few page lists, accepted and refused ones: the report and the
//! counts are the same, by the library and by the reference.

use differential::calls::{self, ReportedList};
use differential::reference::report_page_list;
use differential::writer::{Column, Field, Header, List, Page, PageList, Writer};

const FILE_LENGTH: u64 = 1 << 40;

/// The entries of each cluster.
const ENTRIES: u64 = 7;

const COLUMNS: [(u16, u16); 3] = [(0x06, 1), (0x11, 32), (0x1A, 64)];

/// A header whose first field alone has as many elements as there are entries.
fn header() -> Vec<u8> {
    let mut header = Header::default();
    header.fields.items = (0..3)
        .map(|parent| Field {
            parent,
            flags: u16::from(parent > 0),
            ..Default::default()
        })
        .collect();
    header.columns.items = (0..)
        .zip(COLUMNS)
        .map(|(field, (column_type, bits))| Column {
            column_type,
            bits,
            field,
            ..Default::default()
        })
        .collect();
    let mut writer = Writer::default();
    writer.header(&header);
    writer.bytes
}

/// A list of pages with so many elements for each column; every second page has a
/// checksum.
fn list(columns: [&[u32]; 3]) -> Vec<u8> {
    let mut list = PageList::default();
    for (pages, (_, bits)) in columns.into_iter().zip(COLUMNS) {
        let items = pages.iter().enumerate().map(|(index, &elements)| Page {
            elements,
            checksum: index % 2 == 0,
            size: (u64::from(elements) * u64::from(bits)).div_ceil(8) as u32,
            offset: index as u64,
        });
        list.columns.items.push(List {
            items: items.collect(),
            spare: 0,
        });
    }
    let mut writer = Writer::default();
    writer.page_list(&list);
    writer.bytes
}

/// Calls `each` for all orders of what is left, behind what is taken.
fn orders(taken: &mut Vec<usize>, left: &mut Vec<usize>, each: &mut impl FnMut(&[usize])) {
    if left.is_empty() {
        return each(taken);
    }
    for at in 0..left.len() {
        let next = left.swap_remove(at);
        taken.push(next);
        orders(taken, left, each);
        taken.pop();
        left.push(next);
        let last = left.len() - 1;
        left.swap(at, last);
    }
}

#[test]
fn of_seven_lists() {
    let header = header();
    let mut damaged = list([&[7], &[1], &[1]]);
    damaged[9] ^= 1;
    let lists = [
        list([&[7], &[], &[]]),
        list([&[3, 4], &[5], &[6, 0, 1]]),
        list([&[1, 2, 3, 1], &[(1 << 29) - 1, 1], &[(1 << 28) - 1]]),
        list([&[7], &[1 << 20], &[0]]),
        list([&[8], &[5], &[5]]),
        damaged,
        Vec::new(),
    ];
    // Pages, elements, stored sizes, pages with a checksum.
    let due = (
        vec![
            8,
            28,
            1 + 2 + 4 + 1,
            5, //
            4,
            (1 << 29) + (1 << 20) + 5,
            4 * ((1 << 29) + (1 << 20) + 5),
            3, //
            5,
            (1 << 28) + 6,
            8 * ((1 << 28) + 6),
            4,
        ],
        [4, 3],
    );
    let mut count = 0;
    orders(&mut Vec::new(), &mut (0..lists.len()).collect(), &mut |order| {
        let (mut ours, mut theirs) = ((vec![0; 12], [0; 2]), (vec![0; 12], [0; 2]));
        for &index in order {
            let page_list = &lists[index];
            let list = ReportedList {
                header: &header,
                page_list,
                entries: ENTRIES,
                file_length: FILE_LENGTH,
                counts: ours.1,
            };
            let answer = calls::report_page_list(list, &mut ours.0, &mut ours.1);
            let (own, counts) = report_page_list(&header, page_list, ENTRIES, FILE_LENGTH, theirs.1, &mut theirs.0);
            theirs.1 = counts;
            assert_eq!((answer, &ours), (own, &theirs), "{order:?}");
        }
        assert_eq!(ours, due, "{order:?}");
        count += 1;
    });
    assert_eq!(count, 5_040);
}
