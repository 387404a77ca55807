//! The library beside the fastest of zlib, plain C, plain Rust, Rust's standard
//! library and the independent reader and writers, and beside memcpy of what it
//! writes; for columns and reports also beside its own other calls.

mod columns;
mod figures;
mod listers;
mod writers;

use differential::calls::{FooterTables, HeaderTables, PageListTable};
use differential::generate::random::Random;
use differential::reference::footer::{CLUSTER_WORDS, LINK_WORDS};
use differential::reference::header::{ALIAS_WORDS, COLUMN_WORDS, FIELD_WORDS};
use differential::reference::page_list::PAGE_WORDS;
use differential::reference::pages::stored_bits;
use differential::writer::{stored_checksum, Writer};
use differential::{calls, reference, writer};
use std::cell::RefCell;
use std::hint::black_box;
use std::process::ExitCode;
use std::time::Instant;

const ELEMENTS: usize = 131_072;
const SWITCH: u32 = 3;

/// Each contestant runs this many times at least, in turn with the others.
const ROUNDS: usize = 200;

/// A round of one contestant takes about this long.
const ROUND_SECONDS: f64 = 0.000_2;

extern "C" {
    fn plain_decode(column_type: i32, elements: usize, page: *const u8, words: *mut u64);
    fn plain_encode(column_type: i32, elements: usize, words: *const u64, page: *mut u8) -> i32;
    fn crc32(start: u64, bytes: *const u8, length: u32) -> u64;
}

fn zlib_crc32(bytes: &[u8]) -> u32 {
    // SAFETY: the length is the slice's own.
    unsafe { crc32(0, bytes.as_ptr(), bytes.len() as u32) as u32 }
}

fn c_decode(column_type: u32, page: &[u8], words: &mut [u64]) {
    assert!(words.len() == ELEMENTS && page.len() >= page_bytes(column_type));
    // SAFETY: both hold as many elements as are named.
    unsafe { plain_decode(column_type as i32, words.len(), page.as_ptr(), words.as_mut_ptr()) }
}

fn c_encode(column_type: u32, words: &[u64], page: &mut [u8]) -> i32 {
    assert!(words.len() == ELEMENTS && page.len() >= page_bytes(column_type));
    // SAFETY: both hold as many elements as are named.
    unsafe { plain_encode(column_type as i32, words.len(), words.as_ptr(), page.as_mut_ptr()) }
}

fn page_bytes(column_type: u32) -> usize {
    (ELEMENTS * usize::from(stored_bits(column_type).expect("a known type"))).div_ceil(8)
}

/// Something that is measured: a name, and what it does to lent memory.
type Contestant<'a, T> = (&'static str, &'a dyn Fn(&mut T));

/// The name and the best time of one of the others.
type Other = (&'static str, f64);

/// The best times of one call.
struct Times {
    ours: f64,
    others: Vec<Other>,
    /// A plain copy of as many bytes as the library writes.
    copy: f64,
}

impl Times {
    fn fastest<'a>(others: impl Iterator<Item = &'a Other>) -> Other {
        *others.min_by(|a, b| a.1.total_cmp(&b.1)).expect("somebody else")
    }

    /// The one of this name, and the fastest of the rest.
    fn parted(&self, name: &str) -> (Other, Other) {
        let (named, rest): (Vec<_>, Vec<_>) = self.others.iter().partition(|other| other.0 == name);
        (Times::fastest(named.iter()), Times::fastest(rest.iter()))
    }
}

fn seconds(repeats: usize, contestant: &mut dyn FnMut()) -> f64 {
    let start = Instant::now();
    for _ in 0..repeats {
        contestant();
    }
    start.elapsed().as_secs_f64() / repeats as f64
}

/// The best times of the library and of the others, who take turns on the
/// same lent memory and must leave the same in it. The library writes so many
/// bytes.
fn contest<T: Clone + PartialEq>(
    lent: &mut T,
    ours: &dyn Fn(&mut T),
    others: &[Contestant<T>],
    written: usize,
) -> Times {
    let blank = lent.clone();
    ours(lent);
    for (name, other) in others {
        let mut theirs = blank.clone();
        other(&mut theirs);
        assert!(theirs == *lent, "{name} leaves something else");
    }
    // Half a memory page apart, so that no load waits for the store before it.
    let mut bytes = vec![1u8; 2 * written + 3 * 4_096];
    let start = bytes.as_ptr().align_offset(4_096);
    let (source, target) = bytes[start..].split_at_mut(written.next_multiple_of(4_096) + 2_048);
    let (source, target) = (&source[..written], &mut target[..written]);

    let calls: Vec<&dyn Fn(&mut T)> = [ours]
        .into_iter()
        .chain(others.iter().map(|(_, other)| *other))
        .collect();
    let repeats = |call: &mut dyn FnMut()| ((ROUND_SECONDS / seconds(1, call)) as usize).max(1);
    let call_repeats: Vec<usize> = calls.iter().map(|call| repeats(&mut || call(lent))).collect();
    let mut copying = || black_box(&mut *target).copy_from_slice(black_box(source));
    let copy_repeats = repeats(&mut copying);
    let (mut best, mut copy) = (vec![f64::INFINITY; calls.len()], f64::INFINITY);
    for _ in 0..ROUNDS {
        for ((best, &repeats), call) in best.iter_mut().zip(&call_repeats).zip(&calls) {
            *best = best.min(seconds(repeats, &mut || call(black_box(lent))));
        }
        copy = copy.min(seconds(copy_repeats, &mut copying));
    }
    let names = others.iter().map(|(name, _)| *name);
    Times {
        ours: best[0],
        others: names.zip(best[1..].iter().copied()).collect(),
        copy,
    }
}

/// One line of the table: the library's speed, who is the fastest of the
/// others, and their times and a copy's as parts of the library's.
fn line(name: &str, speed: String, times: &Times, writes: bool) {
    let copy = if writes {
        format!("{:.2}", times.copy / times.ours)
    } else {
        "-".to_string()
    };
    line_of(name, &speed, times, Times::fastest(times.others.iter()), &copy);
}

/// A line beside this one of the others.
fn line_beside(name: &str, speed: &str, times: &Times, other: Other) {
    line_of(name, speed, times, other, &format!("{:.2}", times.copy / times.ours));
}

fn line_of(name: &str, speed: &str, times: &Times, (other, seconds): Other, copy: &str) {
    let ratio = seconds / times.ours;
    println!("{name:<26} {speed:>16} {other:>10} {ratio:>7.2} {copy:>8}");
}

fn gigabytes(bytes: usize, seconds: f64) -> String {
    format!("{:.2} GB/s", bytes as f64 / seconds * 1e-9)
}

fn per_element(seconds: f64) -> String {
    format!("{:.3} ns/element", seconds / ELEMENTS as f64 * 1e9)
}

fn per_call(seconds: f64) -> String {
    format!("{:.2} us/call", seconds * 1e6)
}

fn checksums(random: &mut Random) {
    for (name, length) in [("64 B", 64), ("1 KiB", 1_024), ("64 KiB", 65_536), ("1 MiB", 1_048_576)] {
        let bytes = random.bytes(length);
        let times = contest(
            &mut 0,
            &|sum| *sum = calls::crc32(black_box(&bytes)),
            &[
                ("zlib", &|sum| *sum = zlib_crc32(black_box(&bytes))),
                ("Rust", &|sum| *sum = reference::crc::crc32(black_box(&bytes))),
            ],
            0,
        );
        line(&format!("crc32 {name}"), gigabytes(length, times.ours), &times, false);
    }
}

/// So many bytes of characters, spaces after the last whole one.
fn filled(length: usize, mut next: impl FnMut() -> String) -> Vec<u8> {
    let mut text = String::new();
    loop {
        let word = next();
        if text.len() + word.len() > length {
            text.extend(std::iter::repeat_n(' ', length - text.len()));
            return text.into_bytes();
        }
        text.push_str(&word);
    }
}

/// Letters from this one on, among so many.
fn letters(random: &mut Random, first: u32, count: u64, length: usize) -> String {
    (0..length)
        .map(|_| char::from_u32(first + random.below(count) as u32).expect("a letter"))
        .collect()
}

/// Words of several alphabets in any order.
fn mixed_word(random: &mut Random) -> String {
    let length = 1 + random.index(9);
    let word = match random.below(6) {
        0 => letters(random, 0x430, 32, length),
        1 => letters(random, 0x3B1, 17, length),
        2 => letters(random, 0x4E00, 0x5000, length),
        3 => letters(random, 0x1F300, 0x100, 1),
        _ => letters(random, 0x61, 26, length),
    };
    word + " "
}

const LINE: &str = "Zähler für Ereignisse, αβγ, детектор, 検出器 \u{1F6F0}, detector of events in run 42; ";

fn strings(random: &mut Random) {
    let length = 65_536;
    let ascii = text(random, length);
    let repeated = filled(length, || LINE.to_string());
    let mixed = filled(length, || mixed_word(random));
    let cyrillic = filled(length, || letters(random, 0x430, 32, 7) + " ");
    let han = filled(length, || letters(random, 0x4E00, 0x5000, 5));
    for (name, bytes) in [
        ("ASCII", ascii),
        ("mixed, one line", repeated),
        ("mixed words", mixed),
        ("Cyrillic", cyrillic),
        ("Han", han),
    ] {
        let times = contest(
            &mut false,
            &|good| *good = calls::is_utf8(black_box(&bytes)) == 1,
            &[("from_utf8", &|good| {
                *good = std::str::from_utf8(black_box(&bytes)).is_ok()
            })],
            0,
        );
        line(&format!("UTF-8 {name}"), gigabytes(length, times.ours), &times, false);
    }
}

fn pages(random: &mut Random) {
    let count = ELEMENTS as u64;
    let mut words = vec![0; ELEMENTS];
    for column_type in (1..=28).filter(|&column_type| column_type != SWITCH) {
        let size = page_bytes(column_type);
        let page = random.bytes(size);
        let times = contest(
            &mut words,
            &|words| assert_eq!(calls::decode_page(column_type, count, 0, &page, words, 0), 0),
            &[
                ("C", &|words| c_decode(column_type, &page, words)),
                ("Rust", &|words| {
                    assert_eq!(reference::decode_page(column_type, count, false, &page, words, 0), 0)
                }),
            ],
            8 * ELEMENTS,
        );
        line(
            &format!("decode {column_type:02X}"),
            per_element(times.ours),
            &times,
            true,
        );

        let mut encoded = vec![0; size];
        let times = contest(
            &mut encoded,
            &|page| {
                let mut result = [0];
                let answer = calls::encode_page(column_type, count, 0, &words, 0, page, &mut result);
                assert_eq!((answer, result), (0, [size as u64]));
            },
            &[
                ("C", &|page| assert_eq!(c_encode(column_type, &words, page), 0)),
                ("Rust", &|page| {
                    assert_eq!(reference::encode_page(column_type, count, false, &words, 0, page).0, 0)
                }),
            ],
            size,
        );
        assert!(encoded == page, "type {column_type:02X} does not come back");
        line(
            &format!("encode {column_type:02X}"),
            per_element(times.ours),
            &times,
            true,
        );
    }
}

fn text(random: &mut Random, length: usize) -> Vec<u8> {
    (0..length).map(|_| b'a' + random.below(26) as u8).collect()
}

/// Cyrillic letters, in about so many bytes.
fn cyrillic(random: &mut Random, length: usize) -> Vec<u8> {
    letters(random, 0x430, 32, length / 2).into_bytes()
}

/// A header at its ceilings, with strings as they are found in data.
fn largest_header(random: &mut Random, text: fn(&mut Random, usize) -> Vec<u8>) -> Vec<u8> {
    let mut header = writer::Header {
        name: text(random, 20),
        description: text(random, 60),
        ..Default::default()
    };
    header.fields.items = (0..512u32)
        .map(|i| writer::Field {
            parent: i - i % 4,
            role: (i % 5) as u16,
            flags: 2,
            strings: [12, 24, 0, 40].map(|length| text(random, length)),
            ..Default::default()
        })
        .collect();
    header.columns.items = (0..1_024u32)
        .map(|i| {
            let column_type = 1 + i % 28;
            let bits = stored_bits(column_type).expect("a known type");
            writer::Column {
                column_type: column_type as u16,
                bits,
                field: i / 2,
                ..Default::default()
            }
        })
        .collect();
    header.aliases.items = (0..256)
        .map(|i| writer::Alias {
            column: i * 4,
            field: i * 2,
            spare: 0,
        })
        .collect();
    let mut writer = Writer::default();
    writer.header(&header);
    writer.bytes
}

fn smallest_header() -> Vec<u8> {
    let mut writer = Writer::default();
    writer.header(&writer::Header::default());
    writer.bytes
}

/// A header as of a small file, of about 400 bytes.
fn small_header(random: &mut Random) -> Vec<u8> {
    let mut header = writer::Header {
        name: text(random, 12),
        ..Default::default()
    };
    header.fields.items = (0..4u32)
        .map(|i| writer::Field {
            parent: i,
            strings: [8, 12, 0, 0].map(|length| text(random, length)),
            ..Default::default()
        })
        .collect();
    header.columns.items = (0..4u32)
        .map(|i| writer::Column {
            column_type: 13,
            bits: stored_bits(13).expect("a known type"),
            field: i,
            ..Default::default()
        })
        .collect();
    let mut writer = Writer::default();
    writer.header(&header);
    writer.bytes
}

/// The times of reading a header, and how many fields, columns and aliases it
/// has.
fn header_times(envelope: &[u8]) -> (Times, [u64; 3]) {
    let mut tables = (vec![0; 512 * 15], vec![0; 1_024 * 4], vec![0; 256 * 2], [0; 7]);
    let (_, words) = reference::read_header(
        envelope,
        &mut tables.0.clone(),
        &mut tables.1.clone(),
        &mut tables.2.clone(),
    );
    let counts = [words[4], words[5], words[6]];
    let times = contest(
        &mut tables,
        &|(fields, columns, aliases, result)| {
            assert_eq!(calls::read_header(envelope, fields, columns, aliases, result), 0);
        },
        &[("Rust", &|(fields, columns, aliases, result)| {
            let (answer, words) = reference::read_header(envelope, fields, columns, aliases);
            assert_eq!(answer, 0);
            *result = words;
        })],
        8 * (counts[0] * 15 + counts[1] * 4 + counts[2] * 2) as usize,
    );
    (times, counts)
}

fn headers(random: &mut Random) {
    let (times, counts) = header_times(&smallest_header());
    assert_eq!(counts, [0, 0, 0]);
    line("read header, smallest", per_call(times.ours), &times, false);
    let envelope = small_header(random);
    let (times, _) = header_times(&envelope);
    let name = format!("read header, {} B", envelope.len());
    line(&name, per_call(times.ours), &times, true);
    let alphabets: [(&str, fn(&mut Random, usize) -> Vec<u8>); 2] =
        [("read header, largest", text), ("the same in Cyrillic", cyrillic)];
    for (name, text) in alphabets {
        let envelope = largest_header(random, text);
        let (times, counts) = header_times(&envelope);
        assert_eq!(counts, [512, 1_024, 256]);
        line(name, gigabytes(envelope.len(), times.ours), &times, true);
    }
}

/// A header of 512 fields with these parents, and with empty strings.
fn header_of_parents(parent: fn(u32) -> u32) -> Vec<u8> {
    let mut header = writer::Header::default();
    header.fields.items = (0..512)
        .map(|i| writer::Field {
            parent: parent(i),
            ..Default::default()
        })
        .collect();
    let mut writer = Writer::default();
    writer.header(&header);
    writer.bytes
}

/// The moves of all fields to their tops by the rows of a header's fields: each
/// chain is walked by itself, from its field on.
fn walk(fields: &[u64]) -> u64 {
    let parent = |field: usize| fields[field * FIELD_WORDS + 2] as usize;
    let mut moves = 0;
    for mut at in 0..fields.len() / FIELD_WORDS {
        while parent(at) != at {
            at = parent(at);
            moves += 1;
        }
    }
    moves
}

/// The library's count of moves beside what there is without it: to read the
/// header into tables, by the library or by the independent reader, and to walk
/// in them.
fn moves(random: &mut Random) {
    let rooms = RefCell::new((
        vec![0; 512 * FIELD_WORDS],
        vec![0; 1_024 * COLUMN_WORDS],
        vec![0; 256 * ALIAS_WORDS],
        [0; 7],
    ));
    for (name, envelope, due) in [
        // From the first field on: the longest chain comes first.
        ("moves, chain of 512", header_of_parents(|i| (i + 1).min(511)), 130_816),
        (
            "the same from its top",
            header_of_parents(|i| i.saturating_sub(1)),
            130_816,
        ),
        ("moves, largest header", largest_header(random, text), 384),
    ] {
        let mut sum = 0;
        let times = contest(
            &mut sum,
            &|sum| {
                let mut result = [0];
                assert_eq!(calls::parent_moves(black_box(&envelope), &mut result), 0);
                *sum = result[0];
            },
            &[
                ("read, walk", &|sum| {
                    let (fields, columns, aliases, result) = &mut *rooms.borrow_mut();
                    let answer = calls::read_header(black_box(&envelope), fields, columns, aliases, result);
                    assert_eq!(answer, 0);
                    *sum = walk(&fields[..result[4] as usize * FIELD_WORDS]);
                }),
                ("Rust", &|sum| {
                    let (answer, [moves]) = reference::parent_moves(black_box(&envelope));
                    assert_eq!(answer, 0);
                    *sum = moves;
                }),
            ],
            0,
        );
        assert_eq!(sum, due);
        line(name, per_call(times.ours), &times, false);
    }
}

/// A header of so many fields with these parents, each with a name, a type and
/// a column.
fn header_of_fields(random: &mut Random, count: u32, parent: impl Fn(u32) -> u32) -> Vec<u8> {
    let mut header = writer::Header::default();
    header.fields.items = (0..count)
        .map(|i| writer::Field {
            parent: parent(i),
            strings: [8, 16, 0, 0].map(|length| text(random, length)),
            ..Default::default()
        })
        .collect();
    header.columns.items = (0..count)
        .map(|field| writer::Column {
            column_type: 0x11,
            bits: 32,
            field,
            ..Default::default()
        })
        .collect();
    let mut writer = Writer::default();
    writer.header(&header);
    writer.bytes
}

/// The parents of 20 collections, each of a record of eight members, numbered as
/// writers do: the collections, then their records, then the members.
fn typical(field: u32) -> u32 {
    match field {
        0..20 => field,
        20..40 => field - 20,
        _ => 20 + (field - 40) / 8,
    }
}

/// The library's listing beside what there is without it: to read the header, by
/// the library or by the independent reader, and to make the lines.
fn listings(random: &mut Random) {
    let rooms = RefCell::new((
        vec![0; 512 * FIELD_WORDS],
        vec![0; 1_024 * COLUMN_WORDS],
        vec![0; 256 * ALIAS_WORDS],
        [0; 7],
    ));
    for (name, envelope) in [
        ("list 512, one parent", header_of_fields(random, 512, |_| 0)),
        (
            "list 512, a chain",
            header_of_fields(random, 512, |i| i.saturating_sub(1)),
        ),
        (
            "the same from its end",
            header_of_fields(random, 512, |i| (i + 1).min(511)),
        ),
        (
            "list 511, binary tree",
            header_of_fields(random, 511, |i| i.saturating_sub(1) / 2),
        ),
        ("list, typical header", header_of_fields(random, 200, typical)),
        ("list, largest header", largest_header(random, text)),
    ] {
        let mut lines = vec![0; 1 << 20];
        let (answer, [length]) = reference::list_fields(&envelope, &mut lines);
        assert_eq!(answer, 0);
        lines.truncate(length as usize);
        let mut lent: Written = (vec![0; lines.len()], [0; 1]);
        let times = contest(
            &mut lent,
            &|(out, result)| assert_eq!(calls::list_fields(black_box(&envelope), out, result), 0),
            &[
                ("Rust", &|(out, result)| {
                    let length = listers::read_and_write(black_box(&envelope), out);
                    *result = [length.expect("a listing") as u64];
                }),
                ("Rust draft", &|(out, result)| {
                    let length = listers::read_and_draft(black_box(&envelope), out);
                    *result = [length.expect("a listing") as u64];
                }),
                ("read, list", &|(out, result)| {
                    let (fields, columns, aliases, read) = &mut *rooms.borrow_mut();
                    assert_eq!(
                        calls::read_header(black_box(&envelope), fields, columns, aliases, read),
                        0
                    );
                    let fields = &fields[..read[4] as usize * FIELD_WORDS];
                    *result = [listers::of_rows(&envelope, fields, out).expect("a listing") as u64];
                }),
            ],
            lines.len(),
        );
        assert!(lent == (lines, [length]));
        line(name, per_call(times.ours), &times, true);
    }
}

/// A footer at its ceilings; from version 2 on it carries checksums.
fn largest_footer(random: &mut Random, header: &[u8], version: u16) -> Vec<u8> {
    let mut footer = writer::Footer {
        header_checksum: stored_checksum(header),
        ..Default::default()
    };
    footer.outside.version = version;
    let mut link = || writer::Link {
        size: random.below(1 << 20) as u32,
        offset: random.below(1 << 39),
    };
    footer.metadata.items = (0..64).map(|_| link()).collect();
    footer.clusters.items = (0..1_024)
        .map(|i| writer::Cluster {
            first: 1_000 * i,
            entries: 1_000,
            link: link(),
            checksum: (version > 1).then_some(0x9E37_79B1 ^ i as u32),
            spare: 0,
        })
        .collect();
    let mut writer = Writer::default();
    writer.footer(&footer);
    writer.bytes
}

/// Ranges are inside a file of this length.
const FILE_LENGTH: u64 = 1 << 40;

fn footers(random: &mut Random) {
    let header = smallest_header();
    let file_length = FILE_LENGTH;
    for (name, version) in [("read footer, largest", 1), ("the same, version 2", 2)] {
        let footer = largest_footer(random, &header, version);
        let mut tables = (vec![0; 1_024 * CLUSTER_WORDS], vec![0; 64 * LINK_WORDS], [0; 2]);
        let times = contest(
            &mut tables,
            &|(clusters, metadata, result)| {
                assert_eq!(
                    calls::read_footer(&header, &footer, file_length, clusters, metadata, result),
                    0
                );
            },
            &[("Rust", &|(clusters, metadata, result)| {
                let (answer, words) = reference::read_footer(&header, &footer, file_length, clusters, metadata);
                assert_eq!(answer, 0);
                *result = words;
            })],
            8 * (1_024 * CLUSTER_WORDS + 64 * LINK_WORDS),
        );
        assert_eq!(tables.2, [1_024, 64]);
        line(name, gigabytes(header.len() + footer.len(), times.ours), &times, true);
    }
}

/// So many entries the cluster of the largest page list has.
const ENTRIES: u64 = 256 * 10_000;

/// A header of 64 columns, and a page list at its ceiling.
fn largest_page_list(random: &mut Random) -> (Vec<u8>, Vec<u8>) {
    let mut writer = Writer::default();
    let mut header = writer::Header::default();
    header.fields.items = (0..64)
        .map(|parent| writer::Field {
            parent,
            ..Default::default()
        })
        .collect();
    header.columns.items = (0..64)
        .map(|field| writer::Column {
            column_type: 0x11,
            bits: 32,
            field,
            ..Default::default()
        })
        .collect();
    writer.header(&header);
    let header = std::mem::take(&mut writer.bytes);
    let page = writer::Page {
        elements: 10_000,
        checksum: true,
        size: 40_000,
        offset: 0,
    };
    let mut pages = || {
        let items = (0..256)
            .map(|_| writer::Page {
                offset: random.below(1 << 39),
                ..page
            })
            .collect();
        writer::List { items, spare: 0 }
    };
    let mut list = writer::PageList::default();
    list.columns.items = (0..64).map(|_| pages()).collect();
    writer.page_list(&list);
    (header, writer.bytes)
}

fn page_lists(random: &mut Random) {
    let (header, list) = largest_page_list(random);
    let file_length = FILE_LENGTH;
    let entries = ENTRIES;
    let bytes = header.len() + list.len();
    let words = 16_384 * PAGE_WORDS;
    let mut tables = (vec![0; words], [0; 1]);
    // By itself, for a row with its checksum, and for a row with another.
    let own = u64::from(stored_checksum(&list));
    for (name, row, due, count) in [
        ("read page list, largest", None, 0, 16_384),
        ("read paired page list", Some(own), 0, 16_384),
        ("the same, stale", Some(own ^ 1), 3 * 256 + 26, 0),
    ] {
        let times = contest(
            &mut tables,
            &|(pages, result)| {
                let answer = match row {
                    None => calls::read_page_list(&header, &list, entries, file_length, pages, result),
                    Some(checksum) => {
                        calls::read_paired_page_list(&header, &list, entries, checksum, file_length, pages, result)
                    }
                };
                assert_eq!(answer, due);
            },
            &[("Rust", &|(pages, result)| {
                let (answer, words) = match row {
                    None => reference::read_page_list(&header, &list, entries, file_length, pages),
                    Some(checksum) => {
                        reference::read_paired_page_list(&header, &list, entries, checksum, file_length, pages)
                    }
                };
                assert_eq!(answer, due);
                *result = words;
            })],
            8 * words,
        );
        assert_eq!(tables.1, [count]);
        line(name, gigabytes(bytes, times.ours), &times, due == 0);
    }
}

/// The lent bytes and the result of a writer.
type Written = (Vec<u8>, [u64; 1]);

/// The three ways of writing: the library's call, one that checks and then
/// writes, and the reference's, which makes the envelope elsewhere and copies it.
type Library<'a> = &'a dyn Fn(&mut [u8], &mut [u64]) -> u32;
type Twice<'a> = &'a dyn Fn(&mut [u8]) -> Result<usize, u32>;
type Draft<'a> = &'a dyn Fn(&mut [u8]) -> (u32, [u64; 1]);

/// A line for a writer, which is lent as many bytes as the envelope has and has
/// to write that very envelope. It reads so many bytes besides.
fn written(name: &str, envelope: &[u8], read: usize, library: Library, twice: Twice, draft: Draft) {
    let mut lent: Written = (vec![0; envelope.len()], [0; 1]);
    let times = contest(
        &mut lent,
        &|(out, result)| assert_eq!(library(out, result), 0),
        &[
            ("Rust", &|(out, result)| {
                *result = [twice(out).expect("an envelope") as u64];
            }),
            ("Rust draft", &|(out, result)| {
                let (answer, words) = draft(out);
                assert_eq!(answer, 0);
                *result = words;
            }),
        ],
        envelope.len(),
    );
    assert!(lent.0 == envelope && lent.1 == [envelope.len() as u64]);
    line(name, gigabytes(read + envelope.len(), times.ours), &times, true);
}

fn written_header(name: &str, envelope: &[u8]) {
    let (mut fields, mut columns, mut aliases) = (vec![0; 512 * 15], vec![0; 1_024 * 4], vec![0; 256 * 2]);
    let (answer, words) = reference::read_header(envelope, &mut fields, &mut columns, &mut aliases);
    assert_eq!(answer, 0);
    let tables = HeaderTables {
        strings: envelope,
        texts: [words[0], words[1], words[2], words[3]],
        fields: &fields[..words[4] as usize * FIELD_WORDS],
        columns: &columns[..words[5] as usize * COLUMN_WORDS],
        aliases: &aliases[..words[6] as usize * ALIAS_WORDS],
    };
    let HeaderTables {
        strings,
        texts,
        fields,
        columns,
        aliases,
    } = tables;
    written(
        name,
        envelope,
        0,
        &|out, result| calls::write_header(black_box(tables), out, result),
        &|out| writers::header(black_box(tables), out),
        &|out| reference::write_header(black_box(strings), texts, fields, columns, aliases, out),
    );
}

fn written_footer(name: &str, header: &[u8], envelope: &[u8]) {
    let (mut clusters, mut metadata) = (vec![0; 1_024 * CLUSTER_WORDS], vec![0; 64 * LINK_WORDS]);
    let (answer, _) = reference::read_footer(header, envelope, FILE_LENGTH, &mut clusters, &mut metadata);
    assert_eq!(answer, 0);
    let tables = FooterTables {
        header,
        file_length: FILE_LENGTH,
        clusters: &clusters,
        metadata: &metadata,
    };
    written(
        name,
        envelope,
        header.len(),
        &|out, result| calls::write_footer(black_box(tables), out, result),
        &|out| writers::footer(black_box(tables), out),
        &|out| reference::write_footer(black_box(header), FILE_LENGTH, &clusters, &metadata, out),
    );
}

fn written_page_list(name: &str, header: &[u8], envelope: &[u8]) {
    let mut pages = vec![0; 16_384 * PAGE_WORDS];
    let (answer, _) = reference::read_page_list(header, envelope, ENTRIES, FILE_LENGTH, &mut pages);
    assert_eq!(answer, 0);
    let table = PageListTable {
        header,
        entries: ENTRIES,
        file_length: FILE_LENGTH,
        pages: &pages,
    };
    written(
        name,
        envelope,
        header.len(),
        &|out, result| calls::write_page_list(black_box(table), out, result),
        &|out| writers::page_list(black_box(table), out),
        &|out| reference::write_page_list(black_box(header), ENTRIES, FILE_LENGTH, &pages, out),
    );
}

fn written_envelopes(random: &mut Random) {
    written_header("write header, largest", &largest_header(random, text));
    written_header("the same in Cyrillic", &largest_header(random, cyrillic));
    let header = smallest_header();
    written_footer("write footer, largest", &header, &largest_footer(random, &header, 1));
    written_footer("the same, version 2", &header, &largest_footer(random, &header, 2));
    let (header, list) = largest_page_list(random);
    written_page_list("write page list, largest", &header, &list);
}

fn main() -> ExitCode {
    if !calls::LINKED {
        eprintln!("nothing to measure: built with RNT_LIB=none, without the library");
        return ExitCode::from(2);
    }
    println!("Best of {ROUNDS} rounds in which all take turns on the same buffers, which are not cleared; results are compared.");
    println!(
        "\"fastest other\" is the fastest of: zlib and Rust slicing by 16 for crc32; plain C and plain Rust loops for"
    );
    println!("pages; Rust's own test for UTF-8 (64 KiB each); the independent Rust reader for envelopes. \"ratio\" is its time");
    println!(
        "as a part of the library's: above 1 the library is faster. \"memcpy\" is that of copying as many bytes as the"
    );
    println!(
        "library writes, which is about the limit; it reads as many, a decoder of narrow elements fewer. Pages have"
    );
    println!("{ELEMENTS} elements and no checksum.");
    println!("A reader's bytes are those of all envelopes it reads, a writer's those it reads and writes.");
    println!("For moves the others are to read the header, by the library (\"read, walk\") or by the independent reader, and to");
    println!("walk each field's chain: 130,816 moves for a chain of 512.");
    println!("For writers the others check all rules in one pass and write in a second (\"Rust\"), or make the envelope elsewhere and");
    println!(
        "copy it (\"Rust draft\", the independent writer); all write the same bytes, those that are lent and no more."
    );
    println!(
        "For columns, of {} pages with {} elements each, the others are Rust loops with the same checks: split pages a",
        columns::PAGES,
        columns::PAGE_ELEMENTS
    );
    println!("plane at a time (\"Rust\") or an element at a time (\"Rust, zip\"), and the independent decoder of pages (\"Rust");
    println!("pages\"); in a line of its own, the library's single call for each page (\"single\").");
    println!("For counts of true elements the other is a Rust loop over 64-bit words, with the same checks (\"Rust\") or, in a line of its");
    println!("own, without them (\"bare\"). For reports the others read the list by the independent reader and sum up its pages (\"Rust\"),");
    println!("or, in a line of its own, by the library's reader (\"read, sum\").");
    println!("For listings the others read the header likewise (\"read, list\": by the library), gather the children of each field and");
    println!("write the lines into the lent bytes, or make them elsewhere and copy them (\"Rust draft\").");
    println!();
    println!("{:<26} {:>16} {:>10}", "", "", "fastest");
    println!(
        "{:<26} {:>16} {:>10} {:>7} {:>8}",
        "", "library", "other", "ratio", "memcpy"
    );
    let mut random = Random::new(1);
    checksums(&mut random);
    strings(&mut random);
    pages(&mut random);
    headers(&mut random);
    footers(&mut random);
    page_lists(&mut random);
    moves(&mut random);
    written_envelopes(&mut random);
    listings(&mut random);
    columns::lines(&mut random);
    figures::lines(&mut random);
    ExitCode::SUCCESS
}
