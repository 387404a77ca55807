//! The listed cases on either side of the line, asked of the reference alone.

use super::crc::crc32;
use super::*;
use crate::writer::{self, seal, stored_checksum, Writer};

fn header_bytes(header: &writer::Header) -> Vec<u8> {
    let mut writer = Writer::default();
    writer.header(header);
    writer.bytes
}

fn footer_bytes(footer: &writer::Footer) -> Vec<u8> {
    let mut writer = Writer::default();
    writer.footer(footer);
    writer.bytes
}

fn page_list_bytes(page_list: &writer::PageList) -> Vec<u8> {
    let mut writer = Writer::default();
    writer.page_list(page_list);
    writer.bytes
}

fn smallest_header() -> Vec<u8> {
    header_bytes(&writer::Header::default())
}

/// The answer with full tables.
fn header_answer(envelope: &[u8]) -> u32 {
    read_header(
        envelope,
        &mut vec![0; 512 * 15],
        &mut vec![0; 1024 * 4],
        &mut vec![0; 256 * 2],
    )
    .0
}

/// The answer to a footer of the smallest header, and the rows of its clusters.
fn footer_rows(footer: &writer::Footer, file_length: u64) -> (u32, Vec<[u64; 5]>) {
    let header = smallest_header();
    let footer = writer::Footer {
        header_checksum: stored_checksum(&header),
        ..footer.clone()
    };
    let footer = footer_bytes(&footer);
    let mut clusters = vec![0; 1024 * 5];
    let (answer, [count, _]) = read_footer(&header, &footer, file_length, &mut clusters, &mut vec![0; 64 * 2]);
    let rows = clusters.chunks_exact(5).take(count as usize);
    (answer, rows.map(|row| row.try_into().expect("5 words")).collect())
}

fn footer_answer(footer: &writer::Footer, file_length: u64) -> u32 {
    footer_rows(footer, file_length).0
}

fn page_list_answer(header: &writer::Header, list: &writer::PageList, entries: u64, file_length: u64) -> u32 {
    let (header, list) = (header_bytes(header), page_list_bytes(list));
    read_page_list(&header, &list, entries, file_length, &mut vec![0; 16_384 * 5]).0
}

fn fields(parents: &[u32]) -> writer::Header {
    let mut header = writer::Header::default();
    header.fields.items = parents
        .iter()
        .map(|&parent| writer::Field {
            parent,
            ..Default::default()
        })
        .collect();
    header
}

/// The smallest header with its field list's head written over, checksum right.
fn with_list_head(size: u32, count: u32) -> Vec<u8> {
    let mut bytes = smallest_header();
    bytes[20..24].copy_from_slice(&size.to_le_bytes());
    bytes[24..28].copy_from_slice(&count.to_le_bytes());
    seal(&mut bytes);
    bytes
}

fn encoded(column_type: u32, words: &[u64]) -> Vec<u8> {
    let mut room = [0xA5; 256];
    let (answer, [written]) = encode_page(column_type, words.len() as u64, false, words, 0, &mut room);
    assert_eq!(answer, 0);
    assert!(room[written as usize..].iter().all(|&byte| byte == 0xA5));
    room[..written as usize].to_vec()
}

fn decoded(column_type: u32, elements: u64, page: &[u8]) -> Result<Vec<u64>, u32> {
    let mut words = vec![7; elements as usize];
    match decode_page(column_type, elements, false, page, &mut words, 0) {
        0 => Ok(words),
        answer => {
            assert!(words.iter().all(|&word| word == 7));
            Err(answer)
        }
    }
}

#[test]
fn check_value_of_the_checksum() {
    assert_eq!(crc32(b"123456789"), 0xCBF4_3926);
    assert_eq!(crc32(b""), 0);
    // The sliced loop against the definition, bit by bit.
    let bytes: Vec<u8> = (0..200u32).map(|i| (i * i * 7 + i) as u8).collect();
    for length in 0..bytes.len() {
        let mut rest = !0u32;
        for &byte in &bytes[..length] {
            rest ^= u32::from(byte);
            for _ in 0..8 {
                rest = if rest & 1 == 1 {
                    (rest >> 1) ^ 0xEDB8_8320
                } else {
                    rest >> 1
                };
            }
        }
        assert_eq!(crc32(&bytes[..length]), !rest);
    }
}

/// Moves from field to parent, up to the top, of all fields.
#[test]
fn moves() {
    let of = |parents: &[u32]| parent_moves(&header_bytes(&fields(parents)));
    let accepted = |moves| (ACCEPTED, [moves]);
    let refused = |number| (refusal(HEADER, number), [0]);
    for (parents, moves) in [
        (&[][..], 0),
        (&[0], 0),
        (&[0, 1], 0),
        (&[0, 0], 1),
        (&[1, 1], 1),
        (&[0, 0, 0], 2),
        (&[0, 0, 1], 3),
        (&[1, 2, 2], 3),
        (&[2, 0, 2], 3),
        (&[0, 0, 2, 2], 2),
        (&[3, 3, 1, 3], 4),
        (&[1, 2, 3, 4, 4], 10),
        (&[4, 4, 0, 0, 4, 1], 8),
    ] {
        assert_eq!(of(parents), accepted(moves), "{parents:?}");
    }
    for (parents, number) in [(&[1, 0][..], 15), (&[1], 14), (&[0, 2, 1], 15), (&[0, 0, 3], 14)] {
        assert_eq!(of(parents), refused(number), "{parents:?}");
    }

    // A chain of all fields has as many as there can be, in whatever order.
    for count in 1..=512u32 {
        let most = u64::from(count * (count - 1) / 2);
        let rising: Vec<u32> = (0..count).map(|i| i.saturating_sub(1)).collect();
        let falling: Vec<u32> = (0..count).map(|i| (i + 1).min(count - 1)).collect();
        assert_eq!((of(&rising), of(&falling)), (accepted(most), accepted(most)));
    }
    assert_eq!(
        of(&(0..512).map(|i: u32| i.saturating_sub(1)).collect::<Vec<_>>()).1,
        [130_816]
    );
    assert_eq!(of(&[511; 512]), accepted(511));
    assert_eq!(of(&(0..512).collect::<Vec<_>>()), accepted(0));
    assert_eq!(of(&(0..512).map(|i| (i + 1) % 512).collect::<Vec<_>>()), refused(15));
    assert_eq!(of(&[0; 513]), refused(10));

    // The header's own refusals; no room is lent that could be too small.
    assert_eq!(parent_moves(&[]), refused(2));
    assert_eq!(parent_moves(&vec![0; 1_048_577]), refused(1));
    let mut damaged = header_bytes(&fields(&[0, 0]));
    damaged[4] ^= 1;
    assert_eq!(parent_moves(&damaged), refused(3));
    seal(&mut damaged);
    assert_eq!(parent_moves(&damaged), refused(6));
}

/// Strings are well-formed UTF-8, each by itself.
#[test]
fn strings() {
    let answer = |name: &[u8], description: &[u8]| {
        header_answer(&header_bytes(&writer::Header {
            name: name.to_vec(),
            description: description.to_vec(),
            ..Default::default()
        }))
    };
    for good in [
        "",
        "\0\u{7F}",
        "\u{80}\u{7FF}",
        "\u{800}\u{D7FF}\u{E000}\u{FFFF}",
        "\u{10000}\u{10FFFF}",
    ] {
        assert_eq!(answer(good.as_bytes(), b"a"), 0, "{good:?}");
    }
    let bad: [&[u8]; 10] = [
        b"\x80",
        b"\xC0\x80",
        b"\xC1\xBF",
        b"\xE0\x9F\xBF",
        b"\xF0\x8F\xBF\xBF",
        b"\xED\xA0\x80",
        b"\xED\xBF\xBF",
        b"\xF4\x90\x80\x80",
        b"\xF5\x80\x80\x80",
        b"a\xE1\x80",
    ];
    for bad in bad {
        assert_eq!(answer(bad, b""), 256 + 9, "{bad:X?}");
        assert_eq!(answer(b"", bad), 256 + 9, "{bad:X?}");
    }
    // The next string's bytes would complete it.
    assert_eq!(answer(b"\xC2", b"\x80"), 256 + 9);
}

#[test]
fn frames() {
    assert_eq!(header_answer(&with_list_head(0xFFFF_FFF8, 0)), 0);
    assert_eq!(header_answer(&with_list_head(0xFFFF_FFFC, 0)), 256 + 8);
    assert_eq!(header_answer(&with_list_head(0x8000_0000, 0)), 256 + 7);
    assert_eq!(header_answer(&with_list_head(0x0000_0008, 0)), 256 + 8);
    assert_eq!(header_answer(&with_list_head(0xFFFF_FFF8, 0x1000_0000)), 256 + 8);
    assert_eq!(header_answer(&with_list_head(0xFFFF_FFF8, 513)), 256 + 10);
    assert_eq!(header_answer(&with_list_head(0xFFFF_FFF8, 1)), 256 + 7);

    // An empty record is a record, in which the first number is missing.
    let mut header = header_bytes(&fields(&[0]));
    for (size, number) in [(3u32, 8), (4, 7), (0xFFFF_FFF8, 8), (0x8000_0000, 8), (0x7FFF_FFFF, 7)] {
        header[28..32].copy_from_slice(&size.to_le_bytes());
        seal(&mut header);
        assert_eq!(header_answer(&header), 256 + number, "size {size:08X}");
    }
}

#[test]
fn zigzag() {
    for (element, stored) in [(0i16, 0u16), (-1, 1), (1, 2), (32767, 65534), (-32768, 65535)] {
        let word = u64::from(element as u16);
        assert_eq!(encoded(0x1C, &[word]), stored.to_le_bytes());
        assert_eq!(decoded(0x1C, 1, &stored.to_le_bytes()), Ok(vec![word]));
    }
    for element in [i64::MIN, -1, 0, 1, i64::MAX] {
        let stored = if element >= 0 {
            2 * i128::from(element)
        } else {
            -(2 * i128::from(element) + 1)
        } as u64;
        assert_eq!(encoded(0x1A, &[element as u64]), stored.to_le_bytes());
    }
}

#[test]
fn delta() {
    let page = [1, 0, 2, 0, 0, 0, 0, 0, 0, 0, 0, 0];
    assert_eq!(encoded(0x0F, &[1, 1, 3]), page);
    assert_eq!(decoded(0x0F, 3, &page), Ok(vec![1, 1, 3]));

    let page = [5, 0xFE, 0, 0xFF, 0, 0xFF, 0, 0xFF];
    assert_eq!(encoded(0x0F, &[5, 3]), page);
    assert_eq!(decoded(0x0F, 2, &page), Ok(vec![5, 3]));
}

#[test]
fn split() {
    assert_eq!(encoded(0x15, &[0x1234, 0xABCD]), [0x34, 0xCD, 0x12, 0xAB]);
    assert_eq!(decoded(0x15, 2, &[0x34, 0xCD, 0x12, 0xAB]), Ok(vec![0x1234, 0xABCD]));
}

#[test]
fn bits() {
    let words = [1, 0, 0, 0, 0, 0, 0, 0, 1];
    assert_eq!(encoded(0x06, &words), [1, 1]);
    assert_eq!(decoded(0x06, 9, &[1, 1]), Ok(words.to_vec()));
    assert_eq!(decoded(0x06, 9, &[1, 3]), Err(4 * 256 + 24));
}

#[test]
fn every_type_comes_back() {
    let numbers = [
        0,
        1,
        0x7F,
        0x80,
        0xFF,
        0x1234,
        0x8000,
        0xFFFF,
        0x8000_0000,
        0xFFFF_FFFF,
        1 << 63,
        u64::MAX,
        0x0123_4567_89AB_CDEF,
    ];
    for column_type in 0..40 {
        let words: Vec<u64> = match pages::stored_bits(column_type) {
            Some(bits) if bits <= 64 => numbers
                .iter()
                .map(|number| number & (u64::MAX >> (64 - bits)))
                .collect(),
            _ => {
                let answer = decode_page(column_type, 0, false, &[], &mut [], 0);
                assert_eq!(answer, 4 * 256 + 23);
                continue;
            }
        };
        let page = encoded(column_type, &words);
        assert_eq!(decoded(column_type, words.len() as u64, &page), Ok(words));
    }
}

#[test]
fn page_calls() {
    let mut words = [9u64; 4];
    // Right length, then checksum, then room, each the first that applies.
    let mut page = vec![1, 2, 3];
    page.extend_from_slice(&crc32(&[1, 2, 3]).to_le_bytes());
    assert_eq!(decode_page(0x05, 3, true, &page, &mut words, 1), 0);
    assert_eq!(words, [9, 1, 2, 3]);
    assert_eq!(decode_page(0x05, 3, false, &page, &mut words, 0), 4 * 256 + 21);
    page[0] = 0;
    assert_eq!(decode_page(0x05, 3, true, &page, &mut words, 9), 4 * 256 + 22);
    assert_eq!(decode_page(0x05, 3, false, &page[..3], &mut words, 2), 4 * 256 + 20);
    assert_eq!(decode_page(0x05, 0, false, &[], &mut words, 4), 0);
    assert_eq!(decode_page(0x05, 0, false, &[], &mut words, 5), 4 * 256 + 20);
    assert_eq!(decode_page(0x05, 1, false, &[0], &mut words, u64::MAX), 4 * 256 + 20);
    assert_eq!(decode_page(0x05, 131_073, false, &[], &mut words, 0), 4 * 256 + 10);
    assert_eq!(decode_page(0x05, 131_072, false, &[], &mut words, 0), 4 * 256 + 21);
    assert_eq!(decode_page(0x0001_0005, 0, false, &[], &mut words, 0), 4 * 256 + 23);
    assert_eq!(words, [9, 1, 2, 3]);

    let mut room = [7u8; 8];
    assert_eq!(
        encode_page(0x05, 4, true, &words, 0, &mut room[..7]),
        (4 * 256 + 20, [0])
    );
    assert_eq!(
        encode_page(0x05, 4, true, &[1, 2, 3, 256], 0, &mut room),
        (4 * 256 + 25, [0])
    );
    assert_eq!(encode_page(0x05, 4, true, &words, 1, &mut room), (4 * 256 + 20, [0]));
    assert_eq!(room, [7; 8]);
    assert_eq!(encode_page(0x05, 2, true, &words, 1, &mut room), (0, [6]));
    assert_eq!(room[..2], [1, 2]);
    assert_eq!(room[2..6], crc32(&[1, 2]).to_le_bytes());
    assert_eq!(room[6..], [7; 2]);
}

#[test]
fn smallest() {
    let header = smallest_header();
    let checksum = stored_checksum(&header);
    let footer = footer_bytes(&writer::Footer {
        header_checksum: checksum,
        ..Default::default()
    });
    let page_list = page_list_bytes(&writer::PageList::default());
    assert_eq!((header.len(), footer.len(), page_list.len()), (48, 52, 16));
    assert_eq!(
        read_header(&header, &mut [], &mut [], &mut []),
        (0, [16, 0, 20, 0, 0, 0, 0])
    );
    assert_eq!(read_footer(&header, &footer, 0, &mut [], &mut []), (0, [0, 0]));
    assert_eq!(read_page_list(&header, &page_list, 0, 0, &mut []), (0, [0]));
    assert_eq!(read_header(&[], &mut [], &mut [], &mut []), (256 + 2, [0; 7]));
}

#[test]
fn parents() {
    assert_eq!(header_answer(&header_bytes(&fields(&[1, 0]))), 256 + 15);
    assert_eq!(header_answer(&header_bytes(&fields(&[0]))), 0);
    assert_eq!(header_answer(&header_bytes(&fields(&[1]))), 256 + 14);
    // Parents later in the list.
    assert_eq!(header_answer(&header_bytes(&fields(&[1, 2, 2]))), 0);
    // A chain that runs into a cycle without being part of it.
    assert_eq!(header_answer(&header_bytes(&fields(&[0, 2, 3, 2]))), 256 + 15);
}

#[test]
fn dark_fields() {
    let mut header = fields(&[0, 0, 1, 3]);
    header.columns.items = vec![writer::Column {
        column_type: 0x1D,
        bits: 5,
        field: 2,
        ..Default::default()
    }];
    let mut table = vec![0; 4 * 15];
    let (answer, _) = read_header(&header_bytes(&header), &mut table, &mut [0; 4], &mut []);
    assert_eq!(answer, 0);
    let dark: Vec<u64> = table.chunks(15).map(|row| row[14]).collect();
    assert_eq!(dark, [1, 1, 1, 0]);
}

#[test]
fn ceilings() {
    assert_eq!(header_answer(&header_bytes(&fields(&[0; 512]))), 0);
    assert_eq!(header_answer(&header_bytes(&fields(&[0; 513]))), 256 + 10);

    let mut header = fields(&[0]);
    header.fields.items[0].flags = 0x02;
    let column = writer::Column {
        column_type: 0x06,
        bits: 1,
        ..Default::default()
    };
    header.columns.items = vec![column; 1024];
    header.aliases.items = vec![writer::Alias::default(); 256];
    assert_eq!(header_answer(&header_bytes(&header)), 0);
    header.aliases.items.push(writer::Alias::default());
    assert_eq!(header_answer(&header_bytes(&header)), 256 + 10);
    header.columns.items.push(column);
    assert_eq!(header_answer(&header_bytes(&header)), 256 + 10);

    let mut footer = writer::Footer::default();
    footer.clusters.items = vec![writer::Cluster::default(); 1024];
    footer.metadata.items = vec![writer::Link::default(); 64];
    assert_eq!(footer_answer(&footer, 0), 0);
    footer.metadata.items.push(writer::Link::default());
    assert_eq!(footer_answer(&footer, 0), 512 + 10);
    footer.metadata.items.clear();
    footer.clusters.items.push(writer::Cluster::default());
    assert_eq!(footer_answer(&footer, 0), 512 + 10);

    let mut header = fields(&[0]);
    header.columns.items = vec![column; 2];
    let mut list = writer::PageList::default();
    let pages = |count| writer::List {
        items: vec![writer::Page::default(); count],
        spare: 0,
    };
    list.columns.items = vec![pages(1), pages(16_383)];
    assert_eq!(page_list_answer(&header, &list, 0, 0), 0);
    list.columns.items[0] = pages(2);
    assert_eq!(page_list_answer(&header, &list, 0, 0), 768 + 10);
    list.columns.items.pop();
    assert_eq!(page_list_answer(&header, &list, 0, 0), 768 + 19);

    let mut header = writer::Header {
        name: vec![b'n'; 1_048_576 - 48],
        ..Default::default()
    };
    assert_eq!(header_answer(&header_bytes(&header)), 0);
    header.name.push(b'n');
    assert_eq!(header_answer(&header_bytes(&header)), 256 + 1);
}

#[test]
fn ranges() {
    let mut footer = writer::Footer::default();
    let at = |size, offset| writer::Link { size, offset };
    for (link, file_length, number) in [
        (at(10, 90), 100, 0),
        (at(10, 91), 100, 18),
        (at(0, 100), 100, 0),
        (at(0, 101), 100, 18),
        (at(1, u64::MAX - 1), u64::MAX, 0),
        (at(1, u64::MAX), u64::MAX, 18),
        (at(2, u64::MAX), 10, 18),
    ] {
        footer.metadata.items = vec![link];
        let expected = if number == 0 { 0 } else { refusal(FOOTER, number) };
        assert_eq!(footer_answer(&footer, file_length), expected);
    }
}

#[test]
fn check_bytes() {
    let mut header = fields(&[0]);
    header.columns.items = vec![writer::Column {
        column_type: 0x11,
        bits: 32,
        ..Default::default()
    }];
    let mut list = writer::PageList::default();
    let page = |elements, checksum, offset| writer::Page {
        elements,
        checksum,
        size: 4 * elements,
        offset,
    };
    let most = (1 << 29) - 1;
    for (page, file_length, number) in [
        (page(5, true, 76), 100, 0),
        (page(5, true, 77), 100, 18),
        (page(5, true, 80), 100, 18),
        (page(5, true, 81), 100, 18),
        (page(5, false, 80), 100, 0),
        (page(5, false, 81), 100, 18),
        (page(5, true, 76), 99, 18),
        (page(5, true, 76), 96, 18),
        (page(0, true, 0), 4, 0),
        (page(0, true, 0), 3, 18),
        (page(0, true, 0), 0, 18),
        (page(0, false, 0), 0, 0),
        (page(0, true, u64::MAX - 4), u64::MAX, 0),
        (page(0, true, u64::MAX - 3), u64::MAX, 18),
        (page(0, true, u64::MAX), u64::MAX, 18),
        (page(0, false, u64::MAX), u64::MAX, 0),
        (page(most, true, 0), 1 << 31, 0),
        (page(most, true, 0), (1 << 31) - 1, 18),
        (page(most, true, 1 << 31), 1 << 32, 0),
        (page(most, true, 1 << 31), (1 << 32) - 1, 18),
        (page(most, true, u64::MAX - (1 << 31)), u64::MAX, 0),
        (page(most, true, u64::MAX - (1 << 31) + 1), u64::MAX, 18),
    ] {
        list.columns.items = vec![writer::List {
            items: vec![page],
            spare: 0,
        }];
        let expected = if number == 0 { 0 } else { refusal(PAGE_LIST, number) };
        assert_eq!(
            page_list_answer(&header, &list, u64::from(page.elements), file_length),
            expected
        );
    }
}

#[test]
fn entry_counts() {
    let mut footer = writer::Footer::default();
    let cluster = |first, entries| writer::Cluster {
        first,
        entries,
        ..Default::default()
    };
    for (clusters, number) in [
        (vec![cluster(0, 5), cluster(5, 0), cluster(5, 1)], 0),
        (vec![cluster(1, 5)], 19),
        (vec![cluster(0, (1 << 60) - 1), cluster((1 << 60) - 1, 0)], 0),
        (vec![cluster(0, (1 << 60) - 1), cluster((1 << 60) - 1, 1)], 19),
        (vec![cluster(0, 1 << 60 | 1 << 61)], 17),
        (vec![cluster(0, 1 << 61)], 12),
    ] {
        footer.clusters.items = clusters;
        let expected = if number == 0 { 0 } else { refusal(FOOTER, number) };
        assert_eq!(footer_answer(&footer, 0), expected);
    }
}

/// The checksum of its page list stands in a cluster record from version 2 on.
#[test]
fn checksums_in_footers() {
    const NONE: u64 = footer::NO_CHECKSUM;
    let footer = |version, minimum, checksum, spare| {
        let mut footer = writer::Footer::default();
        (footer.outside.version, footer.outside.minimum) = (version, minimum);
        footer.clusters.items = vec![writer::Cluster {
            entries: 7,
            link: writer::Link { size: 20, offset: 80 },
            checksum,
            spare,
            ..Default::default()
        }];
        footer_rows(&footer, 100)
    };
    let accepted = |checksum| (0, vec![[0, 7, 20, 80, checksum]]);
    let refused = |number| (refusal(FOOTER, number), Vec::new());
    assert_eq!(footer(1, 1, None, 0), accepted(NONE));
    assert_eq!(footer(2, 1, Some(5), 0), accepted(5));
    assert_eq!(footer(2, 2, Some(0), 0), accepted(0));
    assert_eq!(footer(3, 2, Some(u32::MAX), 0), accepted(NONE - 1));
    assert_eq!(footer(u16::MAX, 1, Some(5), 0), accepted(5));
    // Missing, whole or in part; the minimum does not matter.
    for (version, minimum) in [(2, 1), (2, 2), (3, 1), (3, 2), (u16::MAX, 1)] {
        for bytes in 0..4 {
            assert_eq!(footer(version, minimum, None, bytes), refused(7));
        }
    }
    // In version 1 its bytes are unexplained.
    assert_eq!(footer(1, 1, Some(5), 0), refused(11));
    // Behind it, while version equals minimum and after that.
    assert_eq!(footer(2, 2, Some(5), 1), refused(11));
    assert_eq!(footer(2, 1, Some(5), 1), accepted(5));
    assert_eq!(footer(3, 2, Some(5), 9), accepted(5));
    // Minimum versions.
    assert_eq!(footer(3, 3, Some(5), 0), refused(5));
    assert_eq!(footer(4, 3, Some(5), 0), refused(5));
    assert_eq!(footer(1, 2, Some(5), 0), refused(4));
    assert_eq!(footer(2, 0, Some(5), 0), refused(4));

    // Every record has its own, and 7 is given at the first that lacks it.
    let cluster = |checksum| writer::Cluster {
        checksum,
        ..Default::default()
    };
    let mut footer = writer::Footer::default();
    footer.outside.version = 2;
    footer.clusters.items = vec![cluster(Some(1)), cluster(Some(2))];
    let rows = vec![[0, 0, 0, 0, 1], [0, 0, 0, 0, 2]];
    assert_eq!(footer_rows(&footer, 0), (0, rows));
    footer.clusters.items[1].checksum = None;
    assert_eq!(footer_rows(&footer, 0), refused(7));
    footer.clusters.items[1].first = 1;
    assert_eq!(footer_rows(&footer, 0), refused(19));
    footer.clusters.items[0].checksum = None;
    assert_eq!(footer_rows(&footer, 0), refused(7));
    footer.clusters.items.clear();
    assert_eq!(footer_rows(&footer, 0), (0, Vec::new()));
}

/// The row's checksum decides before all but the header and 1 to 3.
#[test]
fn pairing() {
    const NONE: u64 = footer::NO_CHECKSUM;
    let header = header_bytes(&fields(&[0]));
    let mut list = writer::PageList::default();
    let bytes = page_list_bytes(&list);
    let own = u64::from(stored_checksum(&bytes));
    let answer = |header: &[u8], list: &[u8], checksum| {
        let (answer, count) = read_paired_page_list(header, list, 0, checksum, 0, &mut []);
        assert_eq!(count, [0]);
        answer
    };
    let paired = |list: &[u8], checksum| answer(&header, list, checksum);
    let refused = |number| refusal(PAGE_LIST, number);

    assert_eq!(paired(&bytes, own), 0);
    assert_eq!(paired(&bytes, NONE), 0);
    let mut others = vec![0, NONE - 1, NONE + 1, own + NONE, u64::MAX];
    others.extend((0..64).map(|bit| own ^ 1 << bit));
    for other in others {
        assert_eq!(paired(&bytes, other), refused(26), "{other:08X}");
    }

    // Lists whose own checksum is at an end of its range.
    for own in [0, u32::MAX] {
        let mut bytes = bytes.clone();
        writer::force_checksum(&mut bytes, own);
        assert_eq!(crc32(&bytes[..bytes.len() - 4]), own);
        let own = u64::from(own);
        assert_eq!(paired(&bytes, own), 0);
        assert_eq!(paired(&bytes, NONE), 0);
        for other in [own ^ 0xFFFF_FFFF, own ^ 1, NONE + 1, own + 2 * NONE] {
            assert_eq!(paired(&bytes, other), refused(26), "{other:08X}");
        }
    }

    // After the header, and after 1 to 3.
    assert_eq!(answer(&[], &bytes, own ^ 1), refusal(HEADER, 2));
    assert_eq!(
        answer(&header_bytes(&fields(&[1, 0])), &bytes, own ^ 1),
        refusal(HEADER, 15)
    );
    assert_eq!(paired(&vec![0; 1_048_577], own), refused(1));
    assert_eq!(paired(&bytes[..7], own), refused(2));
    let mut damaged = bytes.clone();
    damaged[4] ^= 1;
    assert_eq!(paired(&damaged, own), refused(3));
    assert_eq!(paired(&damaged, own ^ 1), refused(3));

    // Before 4, 5 and the payload: the row's own checksum shows what is left.
    list.outside.minimum = 0;
    let minimum_0 = page_list_bytes(&list);
    (list.outside.version, list.outside.minimum) = (2, 2);
    let minimum_2 = page_list_bytes(&list);
    list = writer::PageList::default();
    list.outside.spare = 1;
    let spare = page_list_bytes(&list);
    list.outside.spare = 0;
    list.columns.items = vec![writer::List::default()];
    let columns = page_list_bytes(&list);
    for (list, number) in [(minimum_0, 4), (minimum_2, 5), (spare, 11), (columns, 19)] {
        let own = u64::from(stored_checksum(&list));
        assert_eq!(paired(&list, own ^ 1), refused(26));
        assert_eq!(paired(&list, own), refused(number));
        assert_eq!(paired(&list, NONE), refused(number));
    }
}

/// A stale page list has the same counts, and the reader accepts it by itself.
#[test]
fn stale_page_lists() {
    let mut header = fields(&[0]);
    header.columns.items = vec![writer::Column {
        column_type: 0x11,
        bits: 32,
        ..Default::default()
    }];
    let header = header_bytes(&header);
    let list = |offset| {
        let mut list = writer::PageList::default();
        let page = writer::Page {
            elements: 5,
            size: 20,
            offset,
            ..Default::default()
        };
        list.columns.items = vec![writer::List {
            items: vec![page],
            spare: 0,
        }];
        page_list_bytes(&list)
    };
    let (right, stale) = (list(40), list(60));
    let mut row = [0; 5];
    for (version, due) in [(1, 0), (2, refusal(PAGE_LIST, 26))] {
        let mut footer = writer::Footer {
            header_checksum: stored_checksum(&header),
            ..Default::default()
        };
        footer.outside.version = version;
        footer.clusters.items = vec![writer::Cluster {
            entries: 5,
            checksum: (version > 1).then(|| stored_checksum(&right)),
            ..Default::default()
        }];
        let footer = footer_bytes(&footer);
        assert_eq!(read_footer(&header, &footer, 100, &mut row, &mut []), (0, [1, 0]));
        let paired = |list: &[u8]| {
            let mut pages = [3; 5];
            let (answer, _) = read_paired_page_list(&header, list, row[1], row[4], 100, &mut pages);
            (answer, pages)
        };
        assert_eq!(read_page_list(&header, &stale, row[1], 100, &mut [0; 5]), (0, [1]));
        assert_eq!(paired(&right), (0, [0, 5, 0, 20, 40]));
        assert_eq!(paired(&stale).0, due);
        if due != 0 {
            assert_eq!(paired(&stale).1, [3; 5]);
        }
        // Counts and room are judged after it.
        let answer =
            |list: &[u8], entries, room: &mut [u64]| read_paired_page_list(&header, list, entries, row[4], 100, room).0;
        assert_eq!(answer(&right, 6, &mut [0; 5]), refusal(PAGE_LIST, 19));
        assert_eq!(answer(&right, 5, &mut [0; 4]), refusal(PAGE_LIST, 20));
        if due != 0 {
            assert_eq!(answer(&stale, 6, &mut [0; 4]), due);
        }
    }
}

#[test]
fn page_list_totals() {
    let mut header = fields(&[0, 0]);
    let column = |column_type, bits, field| writer::Column {
        column_type,
        bits,
        field,
        ..Default::default()
    };
    header.columns.items = vec![column(0x03, 96, 1), column(0x02, 32, 0), column(0x06, 1, 0)];
    let page = |elements, size| writer::Page {
        elements,
        size,
        ..Default::default()
    };
    let mut list = writer::PageList::default();
    let pages = |items: Vec<writer::Page>| writer::List { items, spare: 0 };
    list.columns.items = vec![
        pages(vec![page(1, 12)]),
        pages(vec![page(3, 12), page(2, 8)]),
        pages(vec![page(9, 2)]),
    ];
    assert_eq!(page_list_answer(&header, &list, 5, 12), 0);
    assert_eq!(page_list_answer(&header, &list, 6, 12), 768 + 19);
    assert_eq!(page_list_answer(&header, &list, 5, 11), 768 + 18);
    header.fields.items[0].flags = 0x01;
    assert_eq!(page_list_answer(&header, &list, 6, 12), 0);
    header.fields.items[0].flags = 0;
    header.columns.items[1] = column(0x00, 32, 0);
    assert_eq!(page_list_answer(&header, &list, 6, 12), 0);
    list.columns.items[2].items[0].size = 1;
    assert_eq!(page_list_answer(&header, &list, 6, 12), 768 + 17);
}

#[test]
fn spare_bytes() {
    let mut header = writer::Header::default();
    header.outside.spare = 1;
    assert_eq!(header_answer(&header_bytes(&header)), 256 + 11);
    header.outside.version = 2;
    assert_eq!(header_answer(&header_bytes(&header)), 0);
    header.outside.minimum = 2;
    assert_eq!(header_answer(&header_bytes(&header)), 256 + 5);
    header.outside.minimum = 3;
    assert_eq!(header_answer(&header_bytes(&header)), 256 + 4);
    header.outside.minimum = 0;
    assert_eq!(header_answer(&header_bytes(&header)), 256 + 4);
}

#[test]
fn small_rooms() {
    let header = header_bytes(&fields(&[0, 1]));
    let mut table = [3u64; 30];
    assert_eq!(
        read_header(&header, &mut table[..29], &mut [], &mut []),
        (256 + 20, [0; 7])
    );
    assert_eq!(table, [3; 30]);
    assert_eq!(read_header(&header, &mut table, &mut [], &mut []).0, 0);
}

/// The example files were written by another program.
#[test]
fn examples() {
    let header = include_bytes!("../../../../examples/smallest.header");
    let footer = include_bytes!("../../../../examples/smallest.footer");
    let page_list = include_bytes!("../../../../examples/smallest.pagelist");
    assert_eq!(header[..], smallest_header()[..]);
    assert_eq!(read_footer(header, footer, 0, &mut [], &mut []), (0, [0, 0]));
    assert_eq!(read_page_list(header, page_list, 0, 0, &mut []), (0, [0]));

    let read = |envelope: &[u8]| {
        let (mut fields, mut columns, mut aliases) = (vec![0; 5 * 15], vec![0; 4 * 4], vec![0; 2]);
        let (answer, result) = read_header(envelope, &mut fields, &mut columns, &mut aliases);
        let text = |place: u64, length: u64| envelope[place as usize..][..length as usize].to_vec();
        let mut names = vec![text(result[0], result[1]), text(result[2], result[3])];
        for row in fields.chunks_exact_mut(15) {
            for string in row[6..14].chunks_exact_mut(2) {
                names.push(text(string[0], string[1]));
                string[0] = 0;
            }
        }
        (answer, result[4..].to_vec(), names, fields, columns, aliases)
    };
    let fields = read(include_bytes!("../../../../examples/fields.header"));
    assert_eq!((fields.0, &fields.1[..]), (0, &[5, 4, 1][..]));
    assert_eq!(fields.2[0], b"events");
    assert_eq!(fields, read(include_bytes!("../../../../examples/newer.header")));
    assert_eq!(
        parent_moves(include_bytes!("../../../../examples/fields.header")),
        (0, [1])
    );
    assert_eq!(
        parent_moves(include_bytes!("../../../../examples/newer.header")),
        (0, [1])
    );
    assert_eq!(
        header_answer(include_bytes!("../../../../examples/damaged.header")),
        256 + 3
    );

    let header = include_bytes!("../../../../examples/fields.header");
    let footer_row = |footer: &[u8]| {
        let mut row = [0; 5];
        assert_eq!(read_footer(header, footer, 4_096, &mut row, &mut [0; 2]), (0, [1, 1]));
        row
    };
    let row = footer_row(include_bytes!("../../../../examples/paired.footer"));
    let old_row = footer_row(include_bytes!("../../../../examples/fields.footer"));
    assert_eq!(
        (old_row[..4].to_vec(), old_row[4]),
        (row[..4].to_vec(), footer::NO_CHECKSUM)
    );
    let right = include_bytes!("../../../../examples/fields.pagelist");
    let stale = include_bytes!("../../../../examples/stale.pagelist");
    let paired = |list: &[u8], row: [u64; 5]| read_paired_page_list(header, list, row[1], row[4], 4_096, &mut [0; 25]);
    assert_eq!(paired(right, row), (0, [5]));
    assert_eq!(paired(stale, row), (refusal(PAGE_LIST, 26), [0]));
    assert_eq!(paired(right, old_row), (0, [5]));
    assert_eq!(paired(stale, old_row), (0, [5]));

    let alphabets = read(include_bytes!("../../../../examples/alphabets.header"));
    assert_eq!((alphabets.0, &alphabets.1[..]), (0, &[3, 3, 0][..]));
    assert_eq!(alphabets.2[2], "энергия".as_bytes());
    assert_eq!(
        header_answer(include_bytes!("../../../../examples/surrogate.header")),
        256 + 9
    );
}
