//! Right tables with every two of their words replaced, by each of a few
//! numbers: which of two faults is told shows the order of the rules. By the
//! library and by the reference.

use differential::calls::{self, FooterTables, HeaderTables, PageListTable};
use differential::reference::footer::NO_CHECKSUM;
use differential::reference::{write_footer, write_header, write_page_list};
use differential::writer::{Column, Field, Header, Writer};
use std::collections::BTreeMap;

/// How often each answer came.
type Answers = BTreeMap<u32, u64>;

/// Numbers that are wrong by some rule or too wide for some place.
const NUMBERS: [u64; 9] = [0, 1, 2, 5, 1 << 16, (1 << 31) - 1, 1 << 31, 1 << 32, u64::MAX];

/// What is lent, and bytes that are not.
const ROOM: usize = 400;

/// Compares with each two words replaced. The call gets the words, the bytes and
/// the result.
fn compare(
    words: &[u64],
    library: impl Fn(&[u64], &mut [u8], &mut [u64]) -> u32,
    reference: impl Fn(&[u64], &mut [u8]) -> (u32, [u64; 1]),
) -> Answers {
    let mut answers = Answers::new();
    let mut own = words.to_vec();
    for first in 0..words.len() {
        for second in first..words.len() {
            for (&one, &other) in NUMBERS
                .iter()
                .flat_map(|one| NUMBERS.iter().map(move |other| (one, other)))
            {
                (own[first], own[second]) = (one, other);
                for length in [0, ROOM] {
                    let (mut ours, mut theirs) = ([0xA5; ROOM], [0xA5; ROOM]);
                    let mut result = [9, 7];
                    let answer = library(&own, &mut ours[..length], &mut result);
                    let due = reference(&own, &mut theirs[..length]);
                    let place = || format!("words {first} and {second} are {one:X} and {other:X}");
                    assert_eq!((answer, [result[0]]), due, "{}", place());
                    assert!(ours == theirs && result[1] == 7, "{}", place());
                    *answers.entry(answer).or_default() += 1;
                }
            }
            (own[first], own[second]) = (words[first], words[second]);
        }
    }
    answers
}

/// The numbers that have to come, all of one envelope, besides acceptance.
fn assert_all(answers: &Answers, envelope: u32, numbers: &[u32]) {
    let due: Vec<u32> = std::iter::once(0)
        .chain(numbers.iter().map(|number| envelope * 256 + number))
        .collect();
    assert_eq!(answers.keys().copied().collect::<Vec<_>>(), due);
}

#[test]
fn of_headers() {
    let strings = "nameä".as_bytes();
    // Texts, two fields, two columns, an alias.
    let words: Vec<u64> = [
        &[0, 4, 4, 2][..],
        &[1, 1, 0, 1, 3, 9, 0, 4, 1, 1, 6, 0, 4, 2, 0],
        &[1, 1, 0, 1, 2, 9, 0, 4, 1, 1, 6, 0, 4, 2, 0],
        &[6, 1, 0, 0],
        &[0x14, 32, 1, 1],
        &[1, 1],
    ]
    .concat();
    let tables = |words: &[u64]| {
        let (texts, rows) = words.split_at(4);
        let (fields, rows) = rows.split_at(30);
        let (columns, aliases) = rows.split_at(8);
        let texts: [u64; 4] = texts.try_into().expect("four words");
        (texts, fields.to_vec(), columns.to_vec(), aliases.to_vec())
    };
    let answers = compare(
        &words,
        |words, out, result| {
            let (texts, fields, columns, aliases) = tables(words);
            let tables = HeaderTables {
                strings,
                texts,
                fields: &fields,
                columns: &columns,
                aliases: &aliases,
            };
            calls::write_header(tables, out, result)
        },
        |words, out| {
            let (texts, fields, columns, aliases) = tables(words);
            write_header(strings, texts, &fields, &columns, &aliases, out)
        },
    );
    assert_all(&answers, 1, &[1, 7, 9, 12, 13, 14, 15, 20, 25]);
}

/// The smallest header, and one with two columns, the first of which has to
/// have as many elements as there are entries.
fn headers() -> [Vec<u8>; 2] {
    let mut header = Header::default();
    let mut writer = Writer::default();
    writer.header(&header);
    let smallest = std::mem::take(&mut writer.bytes);
    header.fields.items = vec![Field::default()];
    let column = |column_type, bits| Column {
        column_type,
        bits,
        ..Default::default()
    };
    header.columns.items = vec![column(6, 1), column(4, 8)];
    writer.header(&header);
    [smallest, writer.bytes]
}

#[test]
fn of_footers() {
    let [header, _] = headers();
    // Two clusters, two links, the length of the file.
    for checksum in [5, NO_CHECKSUM] {
        let words = [0, 2, 1, 1, checksum, 2, 0, 1, 1, checksum, 5, 0, 0, 0, 1 << 31];
        let parts = |words: &[u64]| (words[..10].to_vec(), words[10..14].to_vec(), words[14]);
        let answers = compare(
            &words,
            |words, out, result| {
                let (clusters, metadata, file_length) = parts(words);
                let tables = FooterTables {
                    header: &header,
                    file_length,
                    clusters: &clusters,
                    metadata: &metadata,
                };
                calls::write_footer(tables, out, result)
            },
            |words, out| {
                let (clusters, metadata, file_length) = parts(words);
                write_footer(&header, file_length, &clusters, &metadata, out)
            },
        );
        assert_all(&answers, 2, &[18, 19, 20, 25]);
    }
}

#[test]
fn of_page_lists() {
    let [_, header] = headers();
    // Three pages, the entries, the length of the file.
    let words = [0, 1, 1, 1, 0, 0, 1, 0, 1, 5, 1, 2, 1, 2, 1, 2, 1 << 31];
    let answers = compare(
        &words,
        |words, out, result| {
            let table = PageListTable {
                header: &header,
                entries: words[15],
                file_length: words[16],
                pages: &words[..15],
            };
            calls::write_page_list(table, out, result)
        },
        |words, out| write_page_list(&header, words[15], words[16], &words[..15], out),
    );
    assert_all(&answers, 3, &[14, 17, 18, 19, 20, 25]);
}
