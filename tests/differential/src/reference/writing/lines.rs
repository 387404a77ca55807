//! The writers on either side of the line, asked of the reference alone.

use crate::reference::footer::NO_CHECKSUM;
use crate::reference::*;

const OLD: u8 = 0xA5;

const SMALLEST: &[u8] = include_bytes!("../../../../../examples/smallest.header");
const FIELDS: &[u8] = include_bytes!("../../../../../examples/fields.header");
const ALPHABETS: &[u8] = include_bytes!("../../../../../examples/alphabets.header");

/// What a writer leaves of so many lent bytes: the envelope, or its refusal.
/// Nothing else is changed.
fn written(room: usize, write: impl FnOnce(&mut [u8]) -> (u32, [u64; 1])) -> Result<Vec<u8>, u32> {
    let mut out = vec![OLD; room];
    let (answer, [length]) = write(&mut out);
    assert!(out[length as usize..].iter().all(|&byte| byte == OLD));
    out.truncate(length as usize);
    if answer == 0 {
        Ok(out)
    } else {
        assert_eq!(length, 0);
        Err(answer)
    }
}

/// A header to be written, made right and then changed.
#[derive(Clone)]
struct Header {
    strings: Vec<u8>,
    texts: [u64; 4],
    fields: Vec<[u64; 15]>,
    columns: Vec<[u64; 4]>,
    aliases: Vec<[u64; 2]>,
}

impl Header {
    /// Two fields, two columns, an alias; 48 + 2 * 36 + 8 + 2 * 16 + 12 bytes
    /// and those of the strings.
    fn new() -> Header {
        let mut field = [0; 15];
        field[6..10].copy_from_slice(&[0, 1, 1, 2]);
        let mut other = field;
        other[4] = 3;
        other[5] = 7;
        Header {
            strings: "nxyäz".as_bytes().to_vec(),
            texts: [0, 3, 3, 2],
            fields: vec![field, other],
            columns: vec![[6, 1, 0, 0], [0xFFFF, 5, 1, 7]],
            aliases: vec![[1, 1]],
        }
    }

    fn write(&self, room: usize) -> Result<Vec<u8>, u32> {
        let (fields, columns, aliases) = (self.fields.concat(), self.columns.concat(), self.aliases.concat());
        written(room, |out| {
            write_header(&self.strings, self.texts, &fields, &columns, &aliases, out)
        })
    }

    /// The number with this change, whatever room there is.
    fn number(&self, change: impl FnOnce(&mut Header)) -> u32 {
        let mut header = self.clone();
        change(&mut header);
        let refused = |room| match header.write(room) {
            Ok(_) => 0,
            Err(answer) => {
                assert_eq!(answer / 256, HEADER);
                answer % 256
            }
        };
        let number = refused(2_000_000);
        assert_eq!(refused(0), if number == 0 { 20 } else { number });
        number
    }
}

#[test]
fn smallest() {
    let header = written(48, |out| write_header(&[], [0; 4], &[], &[], &[], out)).expect("a header");
    assert_eq!(header, SMALLEST);
    let footer = written(60, |out| write_footer(&header, 0, &[], &[], out)).expect("a footer");
    assert_eq!(footer, include_bytes!("../../../../../examples/smallest.footer"));
    let list = written(16, |out| write_page_list(&header, 0, 0, &[], out)).expect("a page list");
    assert_eq!(list, include_bytes!("../../../../../examples/smallest.pagelist"));
    for room in [0, 1, 15, 35, 47, 51] {
        let refused = |answer: Result<Vec<u8>, u32>| answer.err().map(|answer| (answer / 256, answer % 256));
        let header_refused = refused(written(room, |out| write_header(&[], [0; 4], &[], &[], &[], out)));
        let footer_refused = refused(written(room, |out| write_footer(&header, 0, &[], &[], out)));
        let list_refused = refused(written(room, |out| write_page_list(&header, 0, 0, &[], out)));
        assert_eq!(header_refused, (room < 48).then_some((HEADER, 20)));
        assert_eq!(footer_refused, Some((FOOTER, 20)));
        assert_eq!(list_refused, (room < 16).then_some((PAGE_LIST, 20)));
    }
}

/// The examples of version 1 that have no spare bytes come out as they are,
/// with the envelope for strings.
#[test]
fn examples() {
    for envelope in [SMALLEST, FIELDS, ALPHABETS] {
        let (mut fields, mut columns, mut aliases) = ([0; 5 * 15], [0; 4 * 4], [0; 2]);
        let (answer, result) = read_header(envelope, &mut fields, &mut columns, &mut aliases);
        assert_eq!(answer, 0);
        let (fields, columns, aliases) = (
            &fields[..result[4] as usize * 15],
            &columns[..result[5] as usize * 4],
            &aliases[..result[6] as usize * 2],
        );
        let texts = [result[0], result[1], result[2], result[3]];
        let header = written(1_000, |out| {
            write_header(envelope, texts, fields, columns, aliases, out)
        });
        assert_eq!(header, Ok(envelope.to_vec()));
    }
    let footers: [&[u8]; 2] = [
        include_bytes!("../../../../../examples/fields.footer"),
        include_bytes!("../../../../../examples/paired.footer"),
    ];
    for footer in footers {
        let (mut clusters, mut metadata) = ([0; 5], [0; 2]);
        assert_eq!(
            read_footer(FIELDS, footer, 4_096, &mut clusters, &mut metadata),
            (0, [1, 1])
        );
        let back = written(1_000, |out| write_footer(FIELDS, 4_096, &clusters, &metadata, out));
        assert_eq!(back.as_deref(), Ok(footer));
    }
    let list = include_bytes!("../../../../../examples/fields.pagelist");
    let mut pages = [0; 25];
    assert_eq!(read_page_list(FIELDS, list, 3, 4_096, &mut pages), (0, [5]));
    let back = written(1_000, |out| write_page_list(FIELDS, 3, 4_096, &pages, out));
    assert_eq!(back.as_deref(), Ok(&list[..]));
}

#[test]
fn headers() {
    let header = Header::new();
    let envelope = header.write(1_000).expect("a header");
    assert_eq!(envelope.len(), 48 + 5 + 2 * (36 + 3) + 8 + 2 * 16 + 12);
    assert_eq!(header.write(envelope.len()), Ok(envelope.clone()));
    assert_eq!(header.write(envelope.len() - 1), Err(256 + 20));
    // Dark marks and a repetition without its flag are not written.
    let mut other = header.clone();
    (other.fields[0][5], other.fields[0][14], other.fields[1][14]) = (9, 1, u64::MAX);
    assert_eq!(other.write(1_000), Ok(envelope));

    let number = |change: fn(&mut Header)| header.number(change);
    assert_eq!(number(|_| ()), 0);
    // Each place, and each rule that comes after its width.
    for (word, bits, beyond) in [(0, 32, 0), (1, 32, 0), (2, 32, 14), (3, 16, 12), (4, 16, 12)] {
        assert_eq!(header.number(|own| own.fields[1][word] = 1 << bits), 25);
        assert_eq!(header.number(|own| own.fields[1][word] |= 1 << 63), 25);
        assert_eq!(header.number(|own| own.fields[1][word] = (1 << bits) - 1), beyond);
    }
    for (word, bits, beyond) in [(0, 16, 0), (1, 16, 0), (2, 32, 14), (3, 32, 12)] {
        assert_eq!(header.number(|own| own.columns[1][word] = 1 << bits), 25);
        assert_eq!(header.number(|own| own.columns[1][word] = (1 << bits) - 1), beyond);
    }
    for word in 0..2 {
        assert_eq!(header.number(|own| own.aliases[0][word] = 1 << 32), 25);
        assert_eq!(header.number(|own| own.aliases[0][word] = (1 << 32) - 1), 14);
    }
    assert_eq!(number(|own| own.fields[1][2] = 2), 14);
    assert_eq!(number(|own| own.fields[1][3] = 5), 12);
    assert_eq!(number(|own| own.fields[1][4] = 4), 12);
    assert_eq!(number(|own| own.columns[0][1] = 2), 13);
    assert_eq!(number(|own| own.columns[0][2] = 2), 14);
    assert_eq!(number(|own| own.columns[0][3] = 8), 12);
    assert_eq!(number(|own| own.aliases[0][0] = 2), 14);
    assert_eq!(number(|own| own.aliases[0][1] = 0), 14);
    // A circle is found after all rows and before the room.
    assert_eq!(number(|own| (own.fields[0][2], own.fields[1][2]) = (1, 0)), 15);
    assert_eq!(
        number(|own| (own.fields[0][2], own.fields[1][2], own.aliases[0][1]) = (1, 0, 2)),
        14
    );
    // Front to back: the earlier bytes decide.
    assert_eq!(number(|own| (own.fields[0][4], own.fields[1][0]) = (8, 1 << 32)), 12);
    assert_eq!(number(|own| (own.fields[0][13], own.fields[1][0]) = (99, 1 << 32)), 7);
    assert_eq!(number(|own| (own.fields[1][0], own.columns[0][0]) = (1 << 32, 7)), 25);
}

#[test]
fn strings() {
    let header = Header::new();
    // Six bytes are lent; one character has the two from place 3 on.
    assert_eq!(header.strings.len(), 6);
    let text = |place: u64, length: u64| header.number(|own| own.fields[1][12..14].copy_from_slice(&[place, length]));
    for (place, length, number) in [
        (0, 6, 0),
        (0, 7, 7),
        (5, 1, 0),
        (5, 2, 7),
        (6, 0, 0),
        (7, 0, 7),
        (6, 1, 7),
        (u64::MAX, 0, 7),
        (u64::MAX, 1, 7),
        (u64::MAX - 3, 4, 7),
        (u64::MAX - 3, 9, 7),
        (3, 2, 0),
        (3, 1, 9),
        (4, 1, 9),
        (4, 2, 9),
        // A character that is cut, and a place that is wrong: the place.
        (4, 9, 7),
    ] {
        assert_eq!(text(place, length), number, "place {place}, length {length}");
    }
    // Too long: by the lengths as they are given, wherever the strings are.
    let rest = header.write(1_000).expect("a header").len() as u64;
    let most = 1_048_576 - rest;
    assert_eq!(text(0, most), 7);
    assert_eq!(text(0, most + 1), 1);
    for length in [1 << 32, 1 << 63, u64::MAX, u64::MAX - rest, u64::MAX - rest + 1] {
        assert_eq!(text(0, length), 1);
    }
    assert_eq!(
        header.number(|own| (own.fields[0][7], own.fields[1][7]) = (1 << 63, 1 << 63)),
        1
    );
    // A repetition has its bytes where bit 0 is set, whatever the flags are.
    for (flags, number) in [(3, 7), (2, 7), (5, 12), (1 << 16, 25), ((1 << 16) + 1, 25)] {
        let long = |length: u64| {
            header.number(|own| {
                own.fields[1][4] = flags;
                own.fields[1][13] = length;
            })
        };
        let shorter = if flags & 1 == 0 { 8 } else { 0 };
        assert_eq!(long(most + shorter), number);
        assert_eq!(long(most + shorter + 1), 1);
    }
}

/// Every count at its ceiling and one above, before what is wrong in its rows.
#[test]
fn counts() {
    let header = Header::new();
    let mut many = header.clone();
    many.fields = vec![header.fields[1]; 512];
    many.fields[1..].iter_mut().for_each(|row| row[2] = 0);
    many.fields[0][2] = 0;
    many.columns = vec![header.columns[1]; 1_024];
    many.aliases = vec![header.aliases[0]; 256];
    assert_eq!(many.number(|_| ()), 0);
    assert_eq!(many.number(|own| own.fields.push([u64::MAX; 15])), 1);
    assert_eq!(many.number(|own| own.fields.push([0; 15])), 10);
    assert_eq!(many.number(|own| own.columns.push([u64::MAX; 4])), 10);
    assert_eq!(many.number(|own| own.aliases.push([u64::MAX; 2])), 10);
    let late = |own: &mut Header| {
        own.fields[511][3] = 5;
        own.columns.push([0; 4]);
    };
    assert_eq!(many.number(late), 12);
    // 16 bytes for a column, 48 for the rest.
    let mut columns = header.clone();
    (columns.texts, columns.fields, columns.aliases) = ([0; 4], Vec::new(), Vec::new());
    columns.columns = vec![[0; 4]; 65_533];
    assert_eq!(columns.number(|_| ()), 10);
    assert_eq!(columns.number(|own| own.columns.push([0; 4])), 1);
}

/// A footer of the smallest header, for a file of 1,000 bytes.
fn footer_number(clusters: &[[u64; 5]], metadata: &[[u64; 2]]) -> u32 {
    let (clusters, metadata) = (clusters.concat(), metadata.concat());
    let refused = |room| {
        let footer = written(room, |out| write_footer(SMALLEST, 1_000, &clusters, &metadata, out));
        footer.map_or_else(|answer| answer, |_| 0)
    };
    let answer = refused(1_048_576);
    assert_eq!(refused(0), if answer == 0 { 512 + 20 } else { answer });
    assert!(answer == 0 || answer / 256 == FOOTER);
    answer % 256
}

#[test]
fn footers() {
    let row = [0, 5, 100, 900, NO_CHECKSUM];
    let with = |word: usize, number: u64| {
        let mut row = row;
        row[word] = number;
        footer_number(&[row], &[])
    };
    assert_eq!(footer_number(&[row], &[[1_000, 0]]), 0);
    assert_eq!(with(0, 1), 19);
    assert_eq!(with(1, (1 << 60) - 1), 0);
    for bit in 60..64 {
        assert_eq!(with(1, 1 << bit), 25);
    }
    assert_eq!(with(2, 101), 18);
    assert_eq!(with(2, (1 << 31) - 1), 18);
    assert_eq!(
        (with(2, 1 << 31), with(2, (1 << 32) - 1), with(2, 1 << 32)),
        (25, 25, 25)
    );
    assert_eq!((with(3, 901), with(3, u64::MAX), with(3, u64::MAX - 99)), (18, 18, 18));
    assert_eq!((with(4, 0), with(4, (1 << 32) - 1)), (0, 0));
    assert_eq!((with(4, (1 << 32) + 1), with(4, u64::MAX)), (25, 25));
    assert_eq!(footer_number(&[], &[[1_001, 0]]), 18);
    assert_eq!(footer_number(&[], &[[1 << 31, 0]]), 25);
    // First entries and the sum of the entries.
    let next = |first: u64, entries: u64| footer_number(&[row, [first, entries, 0, 0, NO_CHECKSUM]], &[]);
    assert_eq!((next(5, 7), next(4, 7), next(6, 7)), (0, 19, 19));
    assert_eq!((next(5, (1 << 60) - 6), next(5, (1 << 60) - 5)), (0, 19));
    assert_eq!(next(5, 1 << 60), 25);
    assert_eq!(next(1 << 60, 1 << 60), 19);
}

#[test]
fn checksums() {
    let row = |checksum: u64| [0, 0, 1, 0, checksum];
    let version = |clusters: &[[u64; 5]]| {
        let clusters = clusters.concat();
        let footer = written(1_000, |out| write_footer(SMALLEST, 1_000, &clusters, &[], out)).expect("a footer");
        assert_eq!(footer[1..4], [0, 1, 0]);
        let record = if footer[0] == 2 { 40 } else { 36 };
        assert_eq!(footer.len(), 52 + clusters.len() / 5 * record);
        footer[0]
    };
    assert_eq!(version(&[]), 1);
    assert_eq!(version(&[row(NO_CHECKSUM); 2]), 1);
    assert_eq!(version(&[row(0), row((1 << 32) - 1)]), 2);
    // Mixed rows before everything else of the footer.
    for mixed in [0, 1, NO_CHECKSUM - 1, NO_CHECKSUM + 1, u64::MAX] {
        assert_eq!(footer_number(&[row(NO_CHECKSUM), row(mixed)], &[]), 19);
        assert_eq!(footer_number(&[row(mixed), row(NO_CHECKSUM)], &[]), 19);
        let wide = [1, 1 << 60, 1 << 31, 0, mixed];
        assert_eq!(footer_number(&[wide, row(NO_CHECKSUM)], &[[1 << 31, 0]]), 19);
        let mut long = vec![row(NO_CHECKSUM); 29_130];
        assert_eq!(footer_number(&long, &[]), 1);
        long[29_129] = row(mixed);
        assert_eq!(footer_number(&long, &[]), 19);
    }
    assert_eq!(footer_number(&[row(u64::MAX), row(0)], &[]), 25);
    assert_eq!(footer_number(&[row(0), row(NO_CHECKSUM + 1)], &[]), 25);
    // 52 bytes, 36 or 40 for a cluster, 16 for a link.
    let long = |count: usize, checksum: u64, links: usize| {
        footer_number(&vec![row(checksum); count], &vec![[u64::MAX, 0]; links])
    };
    assert_eq!((long(29_123, NO_CHECKSUM, 6), long(29_123, NO_CHECKSUM, 7)), (10, 1));
    assert_eq!((long(26_213, 0, 0), long(26_214, 0, 0)), (10, 1));
    assert_eq!((long(1_024, 0, 0), long(1_025, 0, 0), long(0, 0, 65)), (0, 10, 10));
    assert_eq!(footer_number(&[row(0)], &vec![[1, 0]; 64]), 0);
    let damaged = include_bytes!("../../../../../examples/damaged.header");
    let mixed = [row(0), row(NO_CHECKSUM)].concat();
    assert_eq!(
        written(0, |out| write_footer(damaged, 0, &mixed, &[], out)),
        Err(256 + 3)
    );
}

/// A page list of the example header, with three entries in a file of 1,000
/// bytes: four columns of 32, 32, 32 and 64 bits, the first two of which have
/// totals.
fn page_list_number(pages: &[[u64; 5]], entries: u64) -> u32 {
    let pages = pages.concat();
    let refused = |room| {
        let list = written(room, |out| write_page_list(FIELDS, entries, 1_000, &pages, out));
        list.map_or_else(|answer| answer, |_| 0)
    };
    let answer = refused(1_048_576);
    assert_eq!(refused(0), if answer == 0 { 768 + 20 } else { answer });
    assert!(answer == 0 || answer / 256 == PAGE_LIST);
    answer % 256
}

#[test]
fn page_lists() {
    let right = [
        [0, 2, 0, 8, 40],
        [0, 1, 1, 4, 992],
        [1, 3, 1, 12, 60],
        [3, 9, 0, 72, 928],
    ];
    let with = |row: usize, word: usize, number: u64| {
        let mut rows = right;
        rows[row][word] = number;
        page_list_number(&rows, 3)
    };
    assert_eq!(page_list_number(&right, 3), 0);
    let bytes = written(1_000, |out| write_page_list(FIELDS, 3, 1_000, &right.concat(), out));
    assert_eq!(bytes.expect("a page list").len(), 8 + 8 + 4 * 8 + 4 * 16);
    // Order of the columns, before everything else but the length.
    assert_eq!(
        (with(3, 0, 4), with(3, 0, 0), with(0, 0, 1), with(0, 0, 1 << 32)),
        (14, 14, 14, 14)
    );
    let mut rows = right;
    (rows[0][1], rows[3][0]) = (1 << 30, u64::MAX);
    assert_eq!(page_list_number(&rows, 3), 14);
    // Places, then sizes, then ranges with their check bytes.
    assert_eq!((with(0, 1, 1 << 30), with(0, 1, (1 << 30) - 1)), (25, 17));
    assert_eq!((with(0, 2, 1), with(0, 2, 2), with(0, 2, u64::MAX)), (0, 25, 25));
    assert_eq!(
        (with(0, 3, 9), with(0, 3, (1 << 31) - 1), with(0, 3, 1 << 31)),
        (17, 17, 25)
    );
    assert_eq!((with(1, 4, 993), with(1, 2, 0), with(3, 2, 1)), (18, 0, 18));
    assert_eq!(
        (with(3, 4, 929), with(3, 4, u64::MAX), with(3, 4, u64::MAX - 71)),
        (18, 18, 18)
    );
    // Totals last.
    assert_eq!((page_list_number(&right, 2), page_list_number(&right, 4)), (19, 19));
    assert_eq!(page_list_number(&right[..2], 3), 19);
    let mut rows = right;
    rows[3][4] = 929;
    assert_eq!(page_list_number(&rows, 4), 18);
    assert_eq!(page_list_number(&[], 0), 0);
}

/// All rows count for the length, and all pages for their ceiling.
#[test]
fn many_pages() {
    let none = |count: usize| vec![[2, 0, 0, 0, 0]; count];
    let rest = 8 + 8 + 4 * 8;
    let most = (1_048_576 - rest) / 16;
    assert_eq!(page_list_number(&none(16_384), 0), 0);
    assert_eq!(page_list_number(&none(16_385), 0), 10);
    assert_eq!(page_list_number(&none(most), 0), 10);
    assert_eq!(page_list_number(&none(most + 1), 0), 1);
    let mut rows = none(most);
    rows[0][0] = 3;
    assert_eq!(page_list_number(&rows, 0), 14);
    rows.push([u64::MAX; 5]);
    assert_eq!(page_list_number(&rows, 0), 1);
    // The list that is too long is refused before its pages, after those of others.
    let mut rows = none(16_385);
    rows[0][1] = 1 << 30;
    assert_eq!(page_list_number(&rows, 0), 10);
    rows[0] = [1, 1 << 30, 0, 0, 0];
    assert_eq!(page_list_number(&rows, 0), 25);
}
