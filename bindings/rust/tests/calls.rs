//! The calls from Rust: accepted, refused, too little room, envelopes and pages both ways, listings, and nothing lent.

use rntuple_check::{
    crc32, decode, decode_page, encode, encode_page, is_utf8, list_fields, most, new_footer, new_header, new_listing,
    new_page_list, parent_moves, read_footer, read_header, read_page_list, read_paired_page_list, write_footer,
    write_header, write_page_list, Alias, Cluster, Column, ColumnNumber, Envelope, Field, FieldNumber, FooterRoom,
    HeaderRoom, HeaderTexts, Link, Page, PageListRoom, Reason, Refusal, Text,
};

const FIELDS: &[u8] = include_bytes!("../../../examples/fields.header");
const FIELDS_FOOTER: &[u8] = include_bytes!("../../../examples/fields.footer");
const FIELDS_PAGE_LIST: &[u8] = include_bytes!("../../../examples/fields.pagelist");
const PAIRED_FOOTER: &[u8] = include_bytes!("../../../examples/paired.footer");
const STALE_PAGE_LIST: &[u8] = include_bytes!("../../../examples/stale.pagelist");
const NEWER: &[u8] = include_bytes!("../../../examples/newer.header");
const DAMAGED: &[u8] = include_bytes!("../../../examples/damaged.header");
const TREE: &[u8] = include_bytes!("../../../examples/tree.header");
const ALPHABETS: &[u8] = include_bytes!("../../../examples/alphabets.header");
const SURROGATE: &[u8] = include_bytes!("../../../examples/surrogate.header");
const SMALLEST: &[u8] = include_bytes!("../../../examples/smallest.header");
const SMALLEST_FOOTER: &[u8] = include_bytes!("../../../examples/smallest.footer");
const SMALLEST_PAGE_LIST: &[u8] = include_bytes!("../../../examples/smallest.pagelist");

/// What stands in lent memory before a call.
const OLD: u64 = 0x0909_0909_0909_0909;

fn refused(envelope: Envelope, reason: Reason) -> Refusal {
    Refusal { envelope, reason }
}

fn envelope(version: u8, minimum: u8, payload: &[u8]) -> Vec<u8> {
    let mut bytes = [&[version, 0, minimum, 0], payload].concat();
    let checksum = crc32(&bytes);
    bytes.extend(checksum.to_le_bytes());
    bytes
}

fn list(items: &[Vec<u8>]) -> Vec<u8> {
    let body = items.concat();
    let size = -(8 + body.len() as i32);
    [&size.to_le_bytes()[..], &(items.len() as u32).to_le_bytes(), &body].concat()
}

fn record(body: &[u8]) -> Vec<u8> {
    [&(4 + body.len() as u32).to_le_bytes(), body].concat()
}

fn locator(size: u32, offset: u64) -> Vec<u8> {
    [&size.to_le_bytes()[..], &offset.to_le_bytes()].concat()
}

fn link(size: u32, offset: u64) -> Vec<u8> {
    [&size.to_le_bytes()[..], &locator(size, offset)].concat()
}

fn cluster(first: u64, entries: u64, link: Vec<u8>, checksum: &[u8]) -> Vec<u8> {
    record(&[&first.to_le_bytes()[..], &entries.to_le_bytes(), &link, checksum].concat())
}

/// A footer with two clusters and one metadata link, whose last range ends at byte 1,000 of the file. Its clusters have these
/// bytes for checksums.
fn footer_of(header: &[u8], version: u8, minimum: u8, checksums: [&[u8]; 2]) -> Vec<u8> {
    let clusters = [
        cluster(0, 3, link(10, 100), checksums[0]),
        cluster(3, 4, link(20, 980), checksums[1]),
    ];
    let lists = [list(&[]), list(&[]), list(&clusters), list(&[link(5, 7)])].concat();
    envelope(
        version,
        minimum,
        &[&[0; 8], &header[header.len() - 4..], &lists].concat(),
    )
}

fn footer(header: &[u8]) -> Vec<u8> {
    footer_of(header, 1, 1, [&[], &[]])
}

/// A page list for FIELDS, with three entries: 11, 0F, 1B and 10 are its columns' types.
fn page_list() -> Vec<u8> {
    let page =
        |elements: u32, size: u32, offset: u64| [elements.to_le_bytes().to_vec(), locator(size, offset)].concat();
    envelope(
        1,
        1,
        &list(&[
            list(&[page(2, 8, 40), page(1, 4, 50)]),
            list(&[page(3 | 1 << 30, 12, 60)]),
            list(&[]),
            list(&[page(9, 72, 928)]),
        ]),
    )
}

#[test]
fn a_header_is_read() {
    let mut room = HeaderRoom::full();
    let header = room.read(FIELDS).unwrap();
    assert_eq!((header.name, header.description), ("events", "an example"));
    assert_eq!(
        (header.fields.len(), header.columns.len(), header.aliases.len()),
        (5, 4, 1)
    );
    let names: Vec<_> = header
        .fields
        .iter()
        .map(|field| (field.name, field.type_name, field.parent.0))
        .collect();
    assert_eq!(
        names,
        [
            ("energy", "float", 0),
            ("hits", "std::vector<std::int32_t>", 1),
            ("_0", "std::int32_t", 1),
            ("position", "std::array<double,3>", 3),
            ("e", "float", 4)
        ]
    );
    let position = header.fields.get(3).unwrap();
    assert_eq!(
        (position.role, position.flags, position.repetition, position.dark),
        (0, 1, 3, false)
    );
    let column = Column {
        column_type: 0x0F,
        bits: 32,
        field: FieldNumber(1),
        flags: 0,
    };
    assert_eq!(header.columns.get(1), Some(column));
    let alias = Alias {
        column: ColumnNumber(0),
        field: FieldNumber(4),
    };
    assert_eq!(header.aliases.iter().collect::<Vec<_>>(), [alias]);
    assert_eq!(header.aliases.get(1), None);
}

/// A header whose fields have these parents and nothing else.
fn header_of(parents: &[u32]) -> Vec<u8> {
    let field = |parent: &u32| record(&[&[0; 8][..], &parent.to_le_bytes(), &[0; 4], &[0; 16]].concat());
    let fields: Vec<_> = parents.iter().map(field).collect();
    envelope(1, 1, &[vec![0; 16], list(&fields), list(&[]), list(&[])].concat())
}

#[test]
fn moves_are_counted() {
    assert_eq!((parent_moves(SMALLEST), parent_moves(FIELDS)), (Ok(0), Ok(1)));
    assert_eq!(parent_moves(NEWER), Ok(1));
    for (parents, moves) in [
        (&[0][..], 0),
        (&[0, 0], 1),
        (&[1, 1], 1),
        (&[0, 1], 0),
        (&[2, 0, 2], 3),
        (&[4, 4, 0, 0, 4, 1], 8),
    ] {
        assert_eq!(parent_moves(&header_of(parents)), Ok(moves), "{parents:?}");
    }
    // A chain of all fields, numbered from its top on or towards it.
    let last = most::FIELDS as u32 - 1;
    let rising: Vec<u32> = (0..=last).map(|i| i.saturating_sub(1)).collect();
    let falling: Vec<u32> = (0..=last).map(|i| (i + 1).min(last)).collect();
    assert_eq!(parent_moves(&header_of(&rising)), Ok(130_816));
    assert_eq!(parent_moves(&header_of(&falling)), Ok(130_816));
    assert_eq!(parent_moves(&header_of(&vec![last; most::FIELDS])), Ok(last.into()));
}

/// Each chain is followed by itself in the rows.
#[test]
fn moves_are_those_of_the_rows() {
    let mut room = HeaderRoom::full();
    let mut number = 1u32;
    for count in 1..200 {
        let mut any = |bound: u32| {
            number = number.wrapping_mul(1_664_525).wrapping_add(1_013_904_223);
            (number >> 8) % bound
        };
        // No parent comes before its child, or none after it.
        let mut parents: Vec<u32> = (0..count).map(|i| i + any(count - i)).collect();
        if count % 2 == 0 {
            parents = parents.iter().rev().map(|parent| count - 1 - parent).collect();
        }
        let envelope = header_of(&parents);
        let fields = room.read(&envelope).unwrap().fields;
        let parent = |field| fields.get(field).unwrap().parent.0;
        let mut moves = 0;
        for mut at in 0..fields.len() {
            while parent(at) != at {
                at = parent(at);
                moves += 1;
            }
        }
        assert_eq!(parent_moves(&envelope), Ok(moves), "{parents:?}");
    }
}

#[test]
fn moves_of_a_refused_header() {
    let refused = |reason| Err(refused(Envelope::Header, reason));
    assert_eq!(parent_moves(&[]), refused(Reason::EnvelopeTooShort));
    assert_eq!(parent_moves(DAMAGED), refused(Reason::ChecksumDiffers));
    assert_eq!(parent_moves(SURROGATE), refused(Reason::StringWrong));
    assert_eq!(parent_moves(&header_of(&[1, 0])), refused(Reason::EndlessChain));
    assert_eq!(parent_moves(&header_of(&[1])), refused(Reason::NoSuchNumber));
    let too_many = vec![0; most::FIELDS + 1];
    assert_eq!(parent_moves(&header_of(&too_many)), refused(Reason::CountAboveCeiling));
}

/// The listing in a room that is exactly right, after one that is a byte too
/// small, and among bytes that stay.
fn listed(envelope: &[u8]) -> Result<String, Refusal> {
    let listing = new_listing(envelope)?;
    let length = listing.len();
    if let Some(less) = length.checked_sub(1) {
        let mut out = vec![9; less];
        let too_small = refused(Envelope::Header, Reason::RoomTooSmall);
        assert_eq!(list_fields(envelope, &mut out), Err(too_small));
        assert!(out.iter().all(|&byte| byte == 9));
    }
    for more in [0, 1, 1_000] {
        let mut out = vec![9; length + more];
        assert_eq!(list_fields(envelope, &mut out), Ok(length));
        assert_eq!(out[..length], *listing.as_bytes());
        assert!(out[length..].iter().all(|&byte| byte == 9));
    }
    Ok(listing)
}

#[test]
fn fields_are_listed() {
    assert_eq!(listed(SMALLEST), Ok(String::new()));
    let fields = "0 energy float\n1 hits std::vector<std::int32_t>\n  2 _0 std::int32_t\n\
                  3 position std::array<double,3>\n4 e float\n";
    assert_eq!(
        (listed(FIELDS).as_deref(), listed(NEWER).as_deref()),
        (Ok(fields), Ok(fields))
    );
    let alphabets = "0 энергия float\n1 θ double\n2 検出器 std::int32_t\n";
    assert_eq!(listed(ALPHABETS).as_deref(), Ok(alphabets));
    for (parents, listing) in [
        (&[0][..], "0  \n"),
        (&[1, 1], "1  \n  0  \n"),
        (&[0, 1, 0, 1], "0  \n  2  \n1  \n  3  \n"),
        (&[2, 0, 2], "2  \n  0  \n    1  \n"),
    ] {
        assert_eq!(listed(&header_of(parents)).as_deref(), Ok(listing), "{parents:?}");
    }
    // A chain of all fields, numbered from its top on or towards it.
    let last = most::FIELDS as u32 - 1;
    let line = |level: u32, number: u32| format!("{}{number}  \n", "  ".repeat(level as usize));
    let rising: Vec<u32> = (0..=last).map(|i| i.saturating_sub(1)).collect();
    let falling: Vec<u32> = (0..=last).map(|i| (i + 1).min(last)).collect();
    let (down, up) = ((0..=last).map(|i| line(i, i)), (0..=last).map(|i| line(i, last - i)));
    assert_eq!(listed(&header_of(&rising)), Ok(down.collect()));
    assert_eq!(listed(&header_of(&falling)), Ok(up.collect()));
}

/// The lines by the rows: those of a field's children stand right behind its own.
#[test]
fn listings_are_those_of_the_rows() {
    fn lines(fields: &[Field], at: usize, level: usize, listing: &mut String) {
        let Field {
            name, type_name, dark, ..
        } = fields[at];
        let mark = if dark { " dark" } else { "" };
        let line = format!("{at} {name} {type_name}{mark}").replace(|byte: char| byte.is_ascii_control(), "?");
        *listing += &format!("{}{line}\n", "  ".repeat(level));
        for child in (0..fields.len()).filter(|&child| child != at && fields[child].parent.0 == at) {
            lines(fields, child, level + 1, listing);
        }
    }
    let names = [
        "_0",
        "",
        "a b",
        "x\n  1 y",
        "\u{1F}\u{7F}~",
        "Größe",
        "検出器\t",
        "\u{1F6F0}\0",
    ];
    let mut number = 1u32;
    for count in 1..120usize {
        let mut any = |bound: usize| {
            number = number.wrapping_mul(1_664_525).wrapping_add(1_013_904_223);
            (number >> 8) as usize % bound
        };
        let fields: Vec<_> = (0..count)
            .map(|i| Field {
                // No parent comes before its child, or none after it.
                parent: FieldNumber(if count % 2 == 0 { i + any(count - i) } else { any(i + 1) }),
                type_name: names[any(names.len())],
                type_alias: "another",
                ..top(i, names[any(names.len())])
            })
            .collect();
        let unknown = Column {
            column_type: 29,
            bits: 7,
            field: FieldNumber(any(count)),
            flags: 0,
        };
        let envelope = new_header("", "", &fields, &[unknown], &[]).unwrap();
        let mut room = HeaderRoom::full();
        let rows: Vec<_> = room.read(&envelope).unwrap().fields.iter().collect();
        let mut listing = String::new();
        for top in (0..count).filter(|&i| rows[i].parent.0 == i) {
            lines(&rows, top, 0, &mut listing);
        }
        assert_eq!(listed(&envelope), Ok(listing));
    }
}

#[test]
fn the_longest_listings_have_room() {
    // A chain of all fields whose names are all that an envelope can have.
    let count = most::FIELDS;
    let length = (most::BYTES - 48 - 16 - 36 * count) / count;
    let name = "n".repeat(length);
    let fields: Vec<_> = (0..count)
        .map(|i| Field {
            parent: FieldNumber(i.saturating_sub(1)),
            type_name: "",
            ..top(i, &name)
        })
        .collect();
    let unknown = Column {
        column_type: 0,
        bits: 0,
        field: FieldNumber(count - 1),
        flags: 0,
    };
    let envelope = new_header("", "", &fields, &[unknown], &[]).unwrap();
    let digits = 10 + 90 * 2 + 412 * 3;
    let lines = count * (" ".len() + length + " ".len() + " dark\n".len()) + digits;
    assert_eq!(listed(&envelope).unwrap().len(), lines + 2 * 130_816);
    // One field, whose name is all that an envelope can have.
    let name = "n".repeat(most::BYTES - 48 - 36);
    let field = Field {
        type_name: "",
        ..top(0, &name)
    };
    let envelope = new_header("", "", &[field], &[], &[]).unwrap();
    assert_eq!(
        (envelope.len(), listed(&envelope)),
        (most::BYTES, Ok(format!("0 {name} \n")))
    );
}

#[test]
fn the_listing_of_a_refused_header() {
    let mut out = [9; 100];
    for (envelope, reason) in [
        (&[][..], Reason::EnvelopeTooShort),
        (&vec![0; most::BYTES + 1], Reason::EnvelopeTooLong),
        (DAMAGED, Reason::ChecksumDiffers),
        (SURROGATE, Reason::StringWrong),
        (&header_of(&[1, 0]), Reason::EndlessChain),
        (&header_of(&[1]), Reason::NoSuchNumber),
        (&header_of(&vec![0; most::FIELDS + 1]), Reason::CountAboveCeiling),
    ] {
        let refusal = refused(Envelope::Header, reason);
        assert_eq!(new_listing(envelope), Err(refusal));
        assert_eq!(list_fields(envelope, &mut out), Err(refusal));
        assert_eq!(list_fields(envelope, &mut []), Err(refusal));
    }
    assert_eq!(out, [9; 100]);
    let too_small = refused(Envelope::Header, Reason::RoomTooSmall);
    assert_eq!(list_fields(TREE, &mut []), Err(too_small));
    assert_eq!(list_fields(SMALLEST, &mut []), Ok(0));
}

#[test]
fn names_of_any_alphabet_are_read() {
    let mut room = HeaderRoom::full();
    let header = room.read(ALPHABETS).unwrap();
    assert_eq!((header.name, header.description), ("Zähler", "события детектора"));
    let names: Vec<_> = header.fields.iter().map(|field| field.name).collect();
    assert_eq!(names, ["энергия", "θ", "検出器"]);
    let refusal = HeaderRoom::full().read(SURROGATE).unwrap_err();
    assert_eq!(refusal.to_string(), "header refused 9: string is not well-formed UTF-8");
    assert!(is_utf8("検出器".as_bytes()) && is_utf8(b""));
    assert!(!is_utf8(b"\xED\xA0\x80"));
}

#[test]
fn a_newer_header_has_the_same_rows() {
    let (mut room, mut newer_room) = (HeaderRoom::full(), HeaderRoom::full());
    let (header, newer) = (room.read(FIELDS).unwrap(), newer_room.read(NEWER).unwrap());
    assert_eq!((newer.name, newer.description), (header.name, header.description));
    assert!(newer.fields.iter().eq(header.fields.iter()));
    assert!(newer.columns.iter().eq(header.columns.iter()));
    assert!(newer.aliases.iter().eq(header.aliases.iter()));
}

#[test]
fn a_refusal_says_what_and_why() {
    let refusal = HeaderRoom::full().read(DAMAGED).unwrap_err();
    assert_eq!(refusal, refused(Envelope::Header, Reason::ChecksumDiffers));
    assert_eq!(refusal.to_string(), "header refused 3: checksum differs");
    let refusal = FooterRoom::full().read(FIELDS, SMALLEST_FOOTER, 0).unwrap_err();
    assert_eq!(refusal, refused(Envelope::Footer, Reason::OtherHeader));
    assert_eq!(
        refusal.to_string(),
        "footer refused 16: footer names another header checksum"
    );
    let refusal = PageListRoom::full().read(FIELDS, SMALLEST_PAGE_LIST, 0, 0).unwrap_err();
    assert_eq!(refusal, refused(Envelope::PageList, Reason::CountsDisagree));
    let refusal = decode(3, 0, false, &[]).unwrap_err();
    assert_eq!(refusal.to_string(), "page refused 23: column type unknown, or Switch");
}

#[test]
fn the_header_is_refused_first() {
    let header = refused(Envelope::Header, Reason::ChecksumDiffers);
    assert_eq!(FooterRoom::full().read(DAMAGED, b"", 0).unwrap_err(), header);
    assert_eq!(PageListRoom::full().read(DAMAGED, b"", 0, 0).unwrap_err(), header);
    let paired = PageListRoom::full()
        .read_paired(DAMAGED, b"", &row(0, Some(1)), 0)
        .map(drop);
    assert_eq!(paired, Err(header));
}

#[test]
fn every_number_has_a_reason() {
    assert_eq!(Reason::ALL.len(), 26);
    for (i, &reason) in Reason::ALL.iter().enumerate() {
        assert_eq!(usize::from(reason.number()), i + 1);
        assert_eq!(Reason::of(reason.number()), Some(reason));
    }
    assert_eq!((Reason::of(0), Reason::of(27)), (None, None));
}

#[test]
fn room_for_the_rows_is_enough() {
    let (mut fields, mut columns, mut aliases) = ([OLD; 6 * 15 - 1], [OLD; 4 * 4 + 1], [OLD; 2]);
    let header = read_header(FIELDS, &mut fields, &mut columns, &mut aliases).unwrap();
    assert_eq!(
        (header.fields.len(), header.columns.len(), header.aliases.len()),
        (5, 4, 1)
    );
    assert!(fields[5 * 15..]
        .iter()
        .chain(&columns[4 * 4..])
        .all(|&word| word == OLD));
}

#[test]
fn too_little_room_is_refused_and_nothing_is_written() {
    for [field_words, column_words, alias_words] in [[74, 16, 2], [75, 15, 2], [75, 16, 1], [0, 0, 0]] {
        let (mut fields, mut columns, mut aliases) =
            (vec![OLD; field_words], vec![OLD; column_words], vec![OLD; alias_words]);
        let refusal = read_header(FIELDS, &mut fields, &mut columns, &mut aliases).unwrap_err();
        assert_eq!(refusal, refused(Envelope::Header, Reason::RoomTooSmall));
        assert!(fields.iter().chain(&columns).chain(&aliases).all(|&word| word == OLD));
    }
    let (mut clusters, mut metadata) = ([OLD; 9], [OLD; 2]);
    let refusal = read_footer(FIELDS, &footer(FIELDS), 1_000, &mut clusters, &mut metadata).unwrap_err();
    assert_eq!(refusal, refused(Envelope::Footer, Reason::RoomTooSmall));
    assert_eq!((clusters, metadata), ([OLD; 9], [OLD; 2]));
    let mut pages = [OLD; 19];
    let too_small = refused(Envelope::PageList, Reason::RoomTooSmall);
    let refusal = read_page_list(FIELDS, &page_list(), 3, 1_000, &mut pages).unwrap_err();
    assert_eq!(refusal, too_small);
    let refusal = read_paired_page_list(FIELDS, &page_list(), &row(3, None), 1_000, &mut pages).unwrap_err();
    assert_eq!(refusal, too_small);
    assert_eq!(pages, [OLD; 19]);
}

#[test]
fn a_footer_is_read() {
    let mut room = FooterRoom::full();
    let envelope = footer(FIELDS);
    let footer = room.read(FIELDS, &envelope, 1_000).unwrap();
    assert_eq!(footer.clusters.iter().collect::<Vec<_>>(), clusters([None, None]));
    assert_eq!(
        footer.metadata.iter().collect::<Vec<_>>(),
        [Link { size: 5, offset: 7 }]
    );
    let refusal = room.read(FIELDS, &envelope, 999).unwrap_err();
    assert_eq!(refusal, refused(Envelope::Footer, Reason::OutsideFile));
}

/// The rows of `footer_of`.
fn clusters(checksums: [Option<u32>; 2]) -> [Cluster; 2] {
    let page_list = |size, offset| Link { size, offset };
    [
        (0, 3, page_list(10, 100), checksums[0]),
        (3, 4, page_list(20, 980), checksums[1]),
    ]
    .map(|(first_entry, entries, page_list, checksum)| Cluster {
        first_entry,
        entries,
        page_list,
        checksum,
    })
}

#[test]
fn a_footer_carries_checksums_from_version_2_on() {
    let read = |version, minimum, checksums| {
        let envelope = footer_of(FIELDS, version, minimum, checksums);
        let mut room = FooterRoom::full();
        let footer = room.read(FIELDS, &envelope, 1_000)?;
        Ok(footer.clusters.iter().collect::<Vec<_>>())
    };
    let refused = |reason| Err(refused(Envelope::Footer, reason));
    let some: [&[u8]; 2] = [&[0; 4], &[0xFF; 4]];
    let rows = clusters([Some(0), Some(u32::MAX)]).to_vec();
    for (version, minimum) in [(2, 1), (2, 2), (3, 2), (255, 1)] {
        assert_eq!(read(version, minimum, some), Ok(rows.clone()));
        assert_eq!(
            read(version, minimum, [&[0; 4], &[0; 3]]),
            refused(Reason::PastContainer)
        );
    }
    assert_eq!(read(1, 1, some), refused(Reason::UnexplainedBytes));
    assert_eq!(read(2, 2, [&[0; 5], &[0; 4]]), refused(Reason::UnexplainedBytes));
    assert_eq!(read(3, 3, some), refused(Reason::MinimumNotRead));
}

/// A row with so many entries and this checksum.
fn row(entries: u64, checksum: Option<u32>) -> Cluster {
    let page_list = Link { size: 0, offset: 0 };
    Cluster {
        first_entry: 0,
        entries,
        page_list,
        checksum,
    }
}

#[test]
fn a_page_list_is_read() {
    let mut room = PageListRoom::full();
    let list = room.read(FIELDS, &page_list(), 3, 1_000).unwrap();
    let rows = [
        (0, 2, false, 8, 40),
        (0, 1, false, 4, 50),
        (1, 3, true, 12, 60),
        (3, 9, false, 72, 928),
    ];
    let rows = rows.map(|(column, elements, checksum, size, offset)| Page {
        column: ColumnNumber(column),
        elements,
        checksum,
        size,
        offset,
    });
    assert_eq!(list.pages.iter().collect::<Vec<_>>(), rows);
    let refusal = room.read(FIELDS, &page_list(), 4, 1_000).unwrap_err();
    assert_eq!(refusal, refused(Envelope::PageList, Reason::CountsDisagree));
}

#[test]
fn the_example_archive_hangs_together() {
    let mut room = FooterRoom::full();
    let cluster = room
        .read(FIELDS, FIELDS_FOOTER, 4_096)
        .unwrap()
        .clusters
        .get(0)
        .unwrap();
    assert_eq!(
        (cluster.entries, cluster.page_list.size),
        (3, FIELDS_PAGE_LIST.len() as u64)
    );
    let mut room = PageListRoom::full();
    let list = room.read(FIELDS, FIELDS_PAGE_LIST, cluster.entries, 4_096).unwrap();
    assert_eq!(list.pages.len(), 5);
    let hits = list.pages.iter().filter(|page| page.column == ColumnNumber(2));
    assert_eq!(hits.map(|page| page.elements).sum::<usize>(), 5);
}

#[test]
fn a_stale_page_list_is_refused() {
    let cluster = |footer| {
        let mut room = FooterRoom::full();
        let footer = room.read(FIELDS, footer, 4_096).unwrap();
        footer.clusters.get(0).unwrap()
    };
    let (old_row, row) = (cluster(FIELDS_FOOTER), cluster(PAIRED_FOOTER));
    let checksum = crc32(&FIELDS_PAGE_LIST[..FIELDS_PAGE_LIST.len() - 4]);
    assert_eq!(row.checksum, Some(checksum));
    assert_eq!(old_row, Cluster { checksum: None, ..row });

    let mut room = PageListRoom::full();
    let mut pages = |list, cluster| {
        let list = room.read_paired(FIELDS, list, &cluster, 4_096)?;
        Ok(list.pages.iter().collect::<Vec<_>>())
    };
    let (right, stale) = (
        pages(FIELDS_PAGE_LIST, row).unwrap(),
        pages(STALE_PAGE_LIST, old_row).unwrap(),
    );
    assert_eq!((right.len(), stale.len()), (5, 5));
    assert_eq!(right[..4], stale[..4]);
    assert_eq!((right[4].offset, stale[4].offset), (256, 384));
    assert_eq!(pages(FIELDS_PAGE_LIST, old_row), Ok(right));
    let refusal = refused(Envelope::PageList, Reason::OtherPageList);
    assert_eq!(pages(STALE_PAGE_LIST, row), Err(refusal));
    assert_eq!(
        refusal.to_string(),
        "page list refused 26: page list has another checksum than its cluster's row"
    );
    // The row's entries are the reader's.
    let more = Cluster { entries: 4, ..row };
    assert_eq!(
        pages(FIELDS_PAGE_LIST, more),
        Err(refused(Envelope::PageList, Reason::CountsDisagree))
    );
    assert_eq!(pages(STALE_PAGE_LIST, more), Err(refusal));
    // A damaged list is refused for what it is, whatever the row has.
    assert_eq!(
        pages(&STALE_PAGE_LIST[..20], row),
        Err(refused(Envelope::PageList, Reason::ChecksumDiffers))
    );
}

#[test]
fn the_smallest_are_read() {
    assert!(HeaderRoom::full().read(SMALLEST).unwrap().fields.is_empty());
    assert!(FooterRoom::full()
        .read(SMALLEST, SMALLEST_FOOTER, 0)
        .unwrap()
        .clusters
        .is_empty());
    assert!(PageListRoom::full()
        .read(SMALLEST, SMALLEST_PAGE_LIST, 0, 0)
        .unwrap()
        .pages
        .is_empty());
}

#[test]
fn envelopes_are_written_as_they_were_read() {
    for envelope in [SMALLEST, FIELDS, ALPHABETS] {
        let mut room = HeaderRoom::full();
        let header = room.read(envelope).unwrap();
        let fields: Vec<_> = header.fields.iter().collect();
        let columns: Vec<_> = header.columns.iter().collect();
        let aliases: Vec<_> = header.aliases.iter().collect();
        let written = new_header(header.name, header.description, &fields, &columns, &aliases);
        assert_eq!(written.as_deref(), Ok(envelope));
    }
    for (header, envelope) in [
        (SMALLEST, SMALLEST_FOOTER),
        (FIELDS, FIELDS_FOOTER),
        (FIELDS, PAIRED_FOOTER),
    ] {
        let mut room = FooterRoom::full();
        let footer = room.read(header, envelope, 4_096).unwrap();
        let clusters: Vec<_> = footer.clusters.iter().collect();
        let metadata: Vec<_> = footer.metadata.iter().collect();
        assert_eq!(new_footer(header, 4_096, &clusters, &metadata).as_deref(), Ok(envelope));
    }
    for (header, envelope, entries) in [
        (SMALLEST, SMALLEST_PAGE_LIST, 0),
        (FIELDS, FIELDS_PAGE_LIST, 3),
        (FIELDS, STALE_PAGE_LIST, 3),
    ] {
        let mut room = PageListRoom::full();
        let pages: Vec<_> = room
            .read(header, envelope, entries, 4_096)
            .unwrap()
            .pages
            .iter()
            .collect();
        assert_eq!(new_page_list(header, entries, 4_096, &pages).as_deref(), Ok(envelope));
    }
}

/// The lent tables go from the reader to the writer as they are, with the envelope for strings.
#[test]
fn tables_are_written_as_they_were_read() {
    let (mut fields, mut columns, mut aliases) = ([OLD; 5 * 15], [OLD; 4 * 4 + 3], [OLD; 3]);
    let header = read_header(FIELDS, &mut fields, &mut columns, &mut aliases).unwrap();
    let texts = header.texts;
    let mut out = [9; 1_000];
    let written = write_header(FIELDS, texts, &fields, &columns, &aliases, &mut out).unwrap();
    assert_eq!(written, FIELDS);
    assert!(out[FIELDS.len()..].iter().all(|&byte| byte == 9));
    let (mut clusters, mut metadata) = ([OLD; 5], [OLD; 3]);
    read_footer(FIELDS, PAIRED_FOOTER, 4_096, &mut clusters, &mut metadata).unwrap();
    let mut out = [9; 200];
    let written = write_footer(FIELDS, 4_096, &clusters, &metadata, &mut out).unwrap();
    assert_eq!(written, PAIRED_FOOTER);
    assert!(out[PAIRED_FOOTER.len()..].iter().all(|&byte| byte == 9));
    let mut pages = [OLD; 5 * 5 + 4];
    read_page_list(FIELDS, FIELDS_PAGE_LIST, 3, 4_096, &mut pages).unwrap();
    let mut out = [9; 200];
    let written = write_page_list(FIELDS, 3, 4_096, &pages, &mut out).unwrap();
    assert_eq!(written, FIELDS_PAGE_LIST);
    assert!(out[FIELDS_PAGE_LIST.len()..].iter().all(|&byte| byte == 9));
}

/// A top-level field.
fn top(number: usize, name: &str) -> Field<'_> {
    Field {
        field_version: 1,
        type_version: 2,
        parent: FieldNumber(number),
        role: 0,
        flags: 0,
        repetition: 0,
        name,
        type_name: "std::vector<…>",
        type_alias: "",
        description: "",
        dark: false,
    }
}

#[test]
fn a_written_header_has_the_rows() {
    let child = Field {
        parent: FieldNumber(0),
        flags: 1,
        repetition: u64::MAX,
        ..top(1, "дочерний")
    };
    // What is not written: a dark mark, and a repetition without its flag.
    let other = Field {
        flags: 2,
        repetition: 7,
        dark: true,
        ..top(2, "")
    };
    let fields = [top(0, "events"), child, other];
    let column = |column_type, bits, field| Column {
        column_type,
        bits,
        field: FieldNumber(field),
        flags: 5,
    };
    let columns = [column(0x06, 1, 0), column(0xFFFF, 3, 1)];
    let alias = Alias {
        column: ColumnNumber(1),
        field: FieldNumber(2),
    };
    let envelope = new_header("a", "b", &fields, &columns, &[alias]).unwrap();
    let mut room = HeaderRoom::full();
    let header = room.read(&envelope).unwrap();
    assert_eq!((header.name, header.description), ("a", "b"));
    let mut due = fields;
    (due[0].dark, due[1].dark) = (true, true);
    (due[2].dark, due[2].repetition) = (false, 0);
    assert_eq!(header.fields.iter().collect::<Vec<_>>(), due);
    assert_eq!(header.columns.iter().collect::<Vec<_>>(), columns);
    assert_eq!(header.aliases.iter().collect::<Vec<_>>(), [alias]);

    let refused = |fields: &[Field], columns: &[Column]| {
        let refusal = new_header("a", "b", fields, columns, &[]).unwrap_err();
        assert_eq!(refusal.envelope, Envelope::Header);
        refusal.reason
    };
    let circle = [top(1, "a"), top(0, "b")];
    assert_eq!(refused(&circle, &[]), Reason::EndlessChain);
    assert_eq!(refused(&circle, &[column(6, 2, 0)]), Reason::BitsOfType);
    assert_eq!(refused(&[top(1, "a")], &[]), Reason::NoSuchNumber);
    assert_eq!(refused(&[top(1 << 32, "a")], &[]), Reason::ElementTooWide);
    let role = Field { role: 5, ..top(0, "a") };
    assert_eq!(refused(&[role], &[]), Reason::NotListed);
    let many: Vec<_> = (0..=most::FIELDS).map(|i| top(i, "a")).collect();
    assert_eq!(refused(&many, &[]), Reason::CountAboveCeiling);
    let long = "n".repeat(most::BYTES - 47);
    assert_eq!(
        new_header(&long, "", &[], &[], &[]).unwrap_err().reason,
        Reason::EnvelopeTooLong
    );
    assert_eq!(
        new_header(&long[1..], "", &[], &[], &[]).map(|bytes| bytes.len()),
        Ok(most::BYTES)
    );
}

/// Strings share bytes, stand in any order, and are inside or are not.
#[test]
fn strings_are_lent_in_any_places() {
    let strings = "abcäd".as_bytes();
    let write = |place, length| {
        let texts = HeaderTexts {
            name: Text { place, length },
            description: Text { place: 1, length: 2 },
        };
        let mut out = [9; 100];
        let written = write_header(strings, texts, &[], &[], &[], &mut out).map(|envelope| envelope.to_vec());
        match &written {
            Ok(envelope) => assert!(out[envelope.len()..].iter().all(|&byte| byte == 9)),
            Err(_) => assert_eq!(out, [9; 100]),
        }
        let mut room = HeaderRoom::full();
        let header = room.read(written.as_ref().map_err(|refusal| refusal.reason)?).unwrap();
        assert_eq!(header.description, "bc");
        Ok(header.name.to_string())
    };
    assert_eq!(write(0, 6), Ok("abcäd".to_string()));
    assert_eq!(write(1, 4), Ok("bcä".to_string()));
    assert_eq!((write(6, 0), write(3, 0)), (Ok(String::new()), Ok(String::new())));
    for (place, length) in [(0, 7), (6, 1), (7, 0), (u64::MAX, 0), (u64::MAX, 1), (u64::MAX - 1, 4)] {
        assert_eq!(write(place, length), Err(Reason::PastContainer), "{place}, {length}");
    }
    for (place, length) in [(1, 3), (4, 1), (4, 2)] {
        assert_eq!(write(place, length), Err(Reason::StringWrong), "{place}, {length}");
    }
    for (place, length) in [
        (0, 1 << 20),
        (0, 1 << 32),
        (0, 1 << 63),
        (0, u64::MAX),
        (9, u64::MAX - 8),
    ] {
        assert_eq!(write(place, length), Err(Reason::EnvelopeTooLong), "{place}, {length}");
    }
}

#[test]
fn a_written_footer_has_the_rows() {
    for checksums in [[None, None], [Some(0), Some(u32::MAX)]] {
        let rows = clusters(checksums);
        let metadata = [Link { size: 5, offset: 7 }];
        let envelope = new_footer(FIELDS, 1_000, &rows, &metadata).unwrap();
        let bytes = checksums.map(|checksum| checksum.map_or(Vec::new(), |sum| sum.to_le_bytes().to_vec()));
        let version = if checksums[0].is_some() { 2 } else { 1 };
        assert_eq!(envelope, footer_of(FIELDS, version, 1, [&bytes[0], &bytes[1]]));
        let mut room = FooterRoom::full();
        let footer = room.read(FIELDS, &envelope, 1_000).unwrap();
        assert_eq!(footer.clusters.iter().collect::<Vec<_>>(), rows);
        assert_eq!(footer.metadata.iter().collect::<Vec<_>>(), metadata);
    }
    let reason = |rows: &[Cluster], metadata: &[Link]| {
        let refusal = new_footer(FIELDS, 1_000, rows, metadata).unwrap_err();
        assert_eq!(refusal.envelope, Envelope::Footer);
        refusal.reason
    };
    let [first, second] = clusters([Some(1), Some(2)]);
    assert_eq!(reason(&clusters([None, Some(1)]), &[]), Reason::CountsDisagree);
    assert_eq!(reason(&[second], &[]), Reason::CountsDisagree);
    let entries = 1 << 60;
    assert_eq!(reason(&[Cluster { entries, ..first }], &[]), Reason::ElementTooWide);
    let wide = Link {
        size: 1 << 31,
        offset: 0,
    };
    assert_eq!(reason(&[first], &[wide]), Reason::ElementTooWide);
    let outside = Link { size: 1, offset: 1_000 };
    assert_eq!(reason(&[first], &[outside]), Reason::OutsideFile);
    assert_eq!(reason(&[first, first], &[outside]), Reason::CountsDisagree);
    let many = vec![Link { size: 0, offset: 0 }; most::LINKS + 1];
    assert_eq!(reason(&[], &many), Reason::CountAboveCeiling);
    assert_eq!(new_footer(FIELDS, 0, &[], &many[1..]).unwrap().len(), 52 + 64 * 16);
    let none = vec![row(0, None); most::CLUSTERS];
    assert_eq!(new_footer(FIELDS, 0, &none, &[]).unwrap().len(), 52 + 1_024 * 36);
}

#[test]
fn a_written_page_list_has_the_rows() {
    let mut room = PageListRoom::full();
    let rows: Vec<_> = room
        .read(FIELDS, &page_list(), 3, 1_000)
        .unwrap()
        .pages
        .iter()
        .collect();
    assert_eq!(new_page_list(FIELDS, 3, 1_000, &rows).unwrap(), page_list());
    let reason = |entries, file_length, change: fn(&mut Vec<Page>)| {
        let mut rows = rows.clone();
        change(&mut rows);
        let refusal = new_page_list(FIELDS, entries, file_length, &rows).unwrap_err();
        assert_eq!(refusal.envelope, Envelope::PageList);
        refusal.reason
    };
    assert_eq!(reason(4, 1_000, |_| ()), Reason::CountsDisagree);
    assert_eq!(reason(3, 999, |_| ()), Reason::OutsideFile);
    assert_eq!(reason(3, 1_000, |rows| rows.swap(1, 2)), Reason::NoSuchNumber);
    assert_eq!(
        reason(3, 1_000, |rows| rows[3].column = ColumnNumber(4)),
        Reason::NoSuchNumber
    );
    assert_eq!(reason(3, 1_000, |rows| rows[0].size = 9), Reason::OutsideProfile);
    assert_eq!(reason(3, 1_000, |rows| rows[0].size = 1 << 31), Reason::ElementTooWide);
    assert_eq!(
        reason(3, 1_000, |rows| rows[0].elements = 1 << 30),
        Reason::ElementTooWide
    );
    let many = |rows: &mut Vec<Page>| rows.extend(vec![rows[3]; most::PAGES - 3]);
    assert_eq!(reason(3, 1_000, many), Reason::CountAboveCeiling);
    let long = |rows: &mut Vec<Page>| rows.extend(vec![rows[0]; 1 << 16]);
    assert_eq!(reason(3, 1_000, long), Reason::EnvelopeTooLong);
}

/// Header, page list and footer from rows alone; the footer's row says which page list it means.
#[test]
fn an_archive_is_written() {
    let column = Column {
        column_type: 0x14,
        bits: 32,
        field: FieldNumber(0),
        flags: 0,
    };
    let header = new_header("run", "", &[top(0, "energy")], &[column], &[]).unwrap();
    let page = |elements: usize, offset| Page {
        column: ColumnNumber(0),
        elements,
        checksum: true,
        size: 4 * elements as u64,
        offset,
    };
    let file_length = 1_000;
    let list = |offset| new_page_list(&header, 5, file_length, &[page(3, 0), page(2, offset)]).unwrap();
    let (own, stale) = (list(16), list(17));
    let cluster = Cluster {
        first_entry: 0,
        entries: 5,
        page_list: Link {
            size: own.len() as u64,
            offset: 500,
        },
        checksum: Some(crc32(&own[..own.len() - 4])),
    };
    let footer = new_footer(&header, file_length, &[cluster], &[]).unwrap();
    let mut room = FooterRoom::full();
    let row = room
        .read(&header, &footer, file_length)
        .unwrap()
        .clusters
        .get(0)
        .unwrap();
    assert_eq!(row, cluster);
    let mut room = PageListRoom::full();
    assert_eq!(
        room.read_paired(&header, &own, &row, file_length).unwrap().pages.len(),
        2
    );
    let refusal = room.read_paired(&header, &stale, &row, file_length).unwrap_err();
    assert_eq!(refusal.reason, Reason::OtherPageList);
}

#[test]
fn writing_without_room_changes_nothing() {
    let header = refused(Envelope::Header, Reason::ChecksumDiffers);
    for room in [0, 1, 15] {
        let mut out = vec![9; room];
        let (short_header, short_footer) = (32 + room, 36 + room);
        let too_small = |envelope| refused(envelope, Reason::RoomTooSmall);
        let texts = HeaderTexts::default();
        let refusal = write_header(&[], texts, &[], &[], &[], &mut vec![9; short_header]).unwrap_err();
        assert_eq!(refusal, too_small(Envelope::Header));
        let refusal = write_footer(SMALLEST, 0, &[], &[], &mut vec![9; short_footer]).unwrap_err();
        assert_eq!(refusal, too_small(Envelope::Footer));
        let refusal = write_page_list(SMALLEST, 0, 0, &[], &mut out).unwrap_err();
        assert_eq!(refusal, too_small(Envelope::PageList));
        // The header is refused before anything else.
        assert_eq!(write_footer(DAMAGED, 0, &[1; 5], &[], &mut out).unwrap_err(), header);
        assert_eq!(write_page_list(DAMAGED, 0, 0, &[1; 5], &mut out).unwrap_err(), header);
        assert!(out.iter().all(|&byte| byte == 9));
    }
    let mut out = [9; 60];
    let texts = HeaderTexts::default();
    assert_eq!(
        write_header(&[], texts, &[], &[], &[], &mut out[..48]).unwrap(),
        SMALLEST
    );
    assert_eq!(
        write_footer(SMALLEST, 0, &[], &[], &mut out[..52]).unwrap(),
        SMALLEST_FOOTER
    );
    assert_eq!(
        write_page_list(SMALLEST, 0, 0, &[], &mut out[..16]).unwrap(),
        SMALLEST_PAGE_LIST
    );
    assert_eq!(out[52..], [9; 8]);
}

#[test]
fn pages_go_both_ways() {
    for column_type in (1..=28).filter(|&column_type| column_type != 3) {
        for checksum in [false, true] {
            let bits = [1, 0, 0, 1, 1, 0, 1, 1, 0, 1, 1, 1, 0];
            let page = encode(column_type, checksum, &bits).unwrap();
            assert_eq!(
                decode(column_type, bits.len(), checksum, &page).unwrap(),
                bits,
                "type {column_type:02X}"
            );
        }
    }
    assert_eq!(
        encode(0x0F, false, &[1, 1, 3]).unwrap(),
        [1, 0, 2, 0, 0, 0, 0, 0, 0, 0, 0, 0]
    );
    assert_eq!(
        encode(0x12, false, &[0x1234, 0xABCD]).unwrap(),
        [0x34, 0xCD, 0x12, 0xAB]
    );
    assert_eq!(encode(0x1C, false, &[0xFFFF]).unwrap(), [1, 0]);
    assert_eq!(decode(0x06, 9, false, &[1, 1]).unwrap(), [1, 0, 0, 0, 0, 0, 0, 0, 1]);
}

#[test]
fn a_page_is_written_to_its_part_alone() {
    let mut words = [OLD; 5];
    assert_eq!(decode_page(4, 2, false, &[7, 8], &mut words, 1).unwrap(), [7, 8]);
    assert_eq!(words, [OLD, 7, 8, OLD, OLD]);
    let mut page = [9; 8];
    assert_eq!(encode_page(4, 2, true, &words, 1, &mut page).unwrap().len(), 6);
    assert_eq!((&page[..2], &page[6..]), (&[7, 8][..], &[9, 9][..]));
    assert_eq!(page[2..6], crc32(&[7, 8]).to_le_bytes());
}

#[test]
fn a_refused_page_changes_nothing() {
    let mut words = [OLD; 2];
    let mut decoded = |column_type, elements, checksum, page: &[u8], start| {
        let refusal = decode_page(column_type, elements, checksum, page, &mut words, start).unwrap_err();
        assert_eq!((words, refusal.envelope), ([OLD; 2], Envelope::Page));
        refusal.reason
    };
    assert_eq!(decoded(29, 1, false, &[7], 0), Reason::TypeNotRead);
    assert_eq!(
        decoded(4, most::ELEMENTS + 1, false, &[7], 0),
        Reason::CountAboveCeiling
    );
    assert_eq!(decoded(4, 1, false, &[7, 7], 0), Reason::PageLength);
    assert_eq!(decoded(4, 1, true, &[7, 0, 0, 0, 0], 0), Reason::PageChecksumDiffers);
    assert_eq!(decoded(6, 9, false, &[1, 3], 0), Reason::UnusedBitsSet);
    assert_eq!(decoded(4, 2, false, &[7, 7], 1), Reason::RoomTooSmall);
    assert_eq!(decoded(4, 0, false, &[], usize::MAX), Reason::RoomTooSmall);
    let mut page = [9; 4];
    let mut encoded = |column_type, words: &[u64], start| {
        let refusal = encode_page(column_type, 2, false, words, start, &mut page).unwrap_err();
        assert_eq!((page, refusal.envelope), ([9; 4], Envelope::Page));
        refusal.reason
    };
    assert_eq!(encoded(4, &[1, 256], 0), Reason::ElementTooWide);
    assert_eq!(encoded(4, &[1, 2], 1), Reason::RoomTooSmall);
    assert_eq!(encoded(1, &[1, 2], 0), Reason::RoomTooSmall);
    assert_eq!(
        decode(4, usize::MAX, false, &[]).unwrap_err().reason,
        Reason::CountAboveCeiling
    );
    assert_eq!(
        encode(1, true, &vec![0; most::ELEMENTS + 1]).unwrap_err().reason,
        Reason::CountAboveCeiling
    );
    assert_eq!(
        encode(1, true, &vec![0; most::ELEMENTS]).unwrap().len(),
        8 * most::ELEMENTS + 4
    );
}

#[test]
fn nothing_may_be_lent() {
    let too_short = |envelope| refused(envelope, Reason::EnvelopeTooShort);
    assert_eq!(
        read_header(&[], &mut [], &mut [], &mut []).unwrap_err(),
        too_short(Envelope::Header)
    );
    assert_eq!(
        read_footer(SMALLEST, &[], 0, &mut [], &mut []).unwrap_err(),
        too_short(Envelope::Footer)
    );
    assert_eq!(
        read_page_list(SMALLEST, &[], 0, 0, &mut []).unwrap_err(),
        too_short(Envelope::PageList)
    );
    assert!(read_header(SMALLEST, &mut [], &mut [], &mut []).is_ok());
    assert!(read_footer(SMALLEST, SMALLEST_FOOTER, 0, &mut [], &mut []).is_ok());
    assert!(read_page_list(SMALLEST, SMALLEST_PAGE_LIST, 0, 0, &mut []).is_ok());
    assert_eq!(
        read_paired_page_list(SMALLEST, &[], &row(0, Some(0)), 0, &mut []).unwrap_err(),
        too_short(Envelope::PageList)
    );
    assert!(read_paired_page_list(SMALLEST, SMALLEST_PAGE_LIST, &row(0, None), 0, &mut []).is_ok());
    for column_type in (1..=28).filter(|&column_type| column_type != 3) {
        assert!(decode_page(column_type, 0, false, &[], &mut [], 0).unwrap().is_empty());
        assert!(encode_page(column_type, 0, false, &[], 0, &mut []).unwrap().is_empty());
        assert_eq!(encode(column_type, true, &[]).unwrap(), [0; 4]);
        assert!(decode(column_type, 0, true, &[0; 4]).unwrap().is_empty());
    }
    assert_eq!(crc32(&[]), 0);
    assert_eq!(crc32(b"123456789"), 0xCBF4_3926);
}
