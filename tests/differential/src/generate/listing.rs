//! Headers whose fields are to be listed: trees of many shapes, with names and
//! types that are not easy to print, and dark fields at any depth.

use super::edges::{self, HEADERS};
use super::moves::{self, Shape, LARGEST};
use super::random::Random;
use super::{models, Generator};
use crate::reference::envelope::ENVELOPE_CEILING;
use crate::reference::header::{self, FIELDS};
use crate::writer::{Column, Header, Writer};

const MOST_FIELDS: usize = FIELDS as usize;

/// The room of a program that prints listings; the library knows no such number.
const PROGRAM: usize = 65_536;

pub struct ListCase {
    pub envelope: Vec<u8>,
    /// The lent bytes.
    pub out: usize,
    pub result: usize,
    /// The same content from a newer writer, if the content is unspoilt.
    pub newer: Option<Vec<u8>>,
}

/// The bytes on either side of those that are shown as another, and some that
/// mean something in a listing.
const EDGES: [u8; 16] = [
    0x00, 0x01, 0x07, 0x09, b'\n', 0x0B, b'\r', 0x1B, 0x1E, 0x1F, b' ', b'!', b'?', b'0', b'~', 0x7F,
];

/// Names and types that look like other parts of a listing.
const LOOKALIKES: [&str; 14] = [
    "_0",
    "v",
    "vec",
    "float",
    "dark",
    " dark",
    "float dark",
    " ",
    "  1 _0 float",
    "\n",
    "x\n  1 y z",
    "0",
    "?",
    "Größe θ 検 \u{1F6F0}",
];

/// A name or a type.
fn label(random: &mut Random) -> Vec<u8> {
    let length = match random.below(512) {
        0 => 250 + random.index(2_000),
        1..=16 => random.index(80),
        _ => random.index(8),
    };
    match random.below(8) {
        0 => Vec::new(),
        1 | 2 => random.pick(&LOOKALIKES).as_bytes().to_vec(),
        3 => (0..length).map(|_| random.pick(&EDGES)).collect(),
        4 => models::characters(random, length),
        // The two beside each other.
        5 => {
            let mut bytes = models::characters(random, length);
            bytes.push(random.pick(&EDGES));
            bytes.extend(models::characters(random, 4));
            bytes
        }
        6 => (0..length).map(|_| random.below(0x80) as u8).collect(),
        _ => (0..length).map(|_| b'a' + random.below(4) as u8).collect(),
    }
}

/// So many bytes, of which a few are not printed as they are.
fn long(random: &mut Random, length: usize) -> Vec<u8> {
    let mut bytes = vec![b'n'; length];
    for _ in 0..4.min(length) {
        bytes[random.index(length)] = random.pick(&EDGES);
    }
    bytes
}

/// A column of a type that is not listed.
fn unknown(field: usize) -> Column {
    Column {
        column_type: 29,
        bits: 3,
        field: field as u32,
        ..Default::default()
    }
}

/// A header with these parents and labels, dark here and there.
fn tree(random: &mut Random, (parents, _): Shape) -> Header {
    let mut header = moves::with_parents(random, parents);
    let fields = &mut header.fields.items;
    for field in fields.iter_mut() {
        for string in &mut field.strings[..2] {
            *string = label(random);
        }
    }
    if !fields.is_empty() {
        let dark = random.pick(&[0, 0, 1, 1, 2, 4]);
        let columns = (0..dark).map(|_| unknown(random.index(fields.len())));
        header.columns.items.extend(columns);
    }
    header
}

fn length(header: &Header) -> usize {
    let mut writer = Writer::default();
    writer.header(header);
    writer.bytes.len()
}

fn with_unknown(mut header: Header, field: usize) -> Header {
    header.columns.items = vec![unknown(field)];
    header.aliases.items.clear();
    header
}

/// A field that is alone; its name or its type makes up for the length.
fn alone(random: &mut Random) -> Header {
    let mut header = Header::default();
    header.fields.items = tree(random, moves::chains(1, 1)).fields.items;
    header.fields.items[0].spare = 0;
    header.fields.items[0].strings = Default::default();
    header
}

/// Listings that are long or deep, and names at the end of what there may be.
fn edge(random: &mut Random, place: u64) -> Option<Header> {
    let chain = || moves::chains(MOST_FIELDS, MOST_FIELDS);
    Some(match place {
        0..=2 => {
            let mut header = alone(random);
            let length = ENVELOPE_CEILING - length(&header) + usize::from(place == 2);
            header.fields.items[0].strings[place as usize % 2] = long(random, length);
            header
        }
        // As long as a listing can be, nearly: as deep as it can be, and all
        // else is names.
        3 | 4 => {
            let mut header = Header::default();
            let shape = if place == 3 { chain() } else { moves::mirrored(chain()) };
            header.fields.items = moves::with_parents(random, shape.0).fields.items;
            for field in &mut header.fields.items {
                field.flags = 0;
                field.spare = 0;
                field.strings = Default::default();
            }
            let bottom = if place == 3 { MOST_FIELDS - 1 } else { 0 };
            header.columns.items = vec![unknown(bottom)];
            let mut left = ENVELOPE_CEILING - length(&header);
            let share = left / (2 * MOST_FIELDS);
            for field in &mut header.fields.items {
                for string in &mut field.strings[..2] {
                    *string = long(random, share);
                    left -= share;
                }
            }
            header.fields.items[bottom].strings[1].extend(vec![b'n'; left]);
            header
        }
        5..=7 => {
            let mut header = alone(random);
            // The number, two spaces and the line end are the rest of the line.
            let length = PROGRAM - 4 + (place - 5) as usize - 1;
            let name = random.index(length + 1);
            header.fields.items[0].strings = [
                long(random, name),
                long(random, length - name),
                label(random),
                Vec::new(),
            ];
            header
        }
        // Darkness from the bottom of a chain, from its middle, and from its top.
        8 => with_unknown(tree(random, chain()), MOST_FIELDS - 1),
        9 => with_unknown(tree(random, moves::mirrored(chain())), 0),
        10 => with_unknown(tree(random, chain()), MOST_FIELDS / 2),
        11 => with_unknown(tree(random, moves::mirrored(chain())), MOST_FIELDS / 2),
        12 => with_unknown(tree(random, chain()), 0),
        13 => {
            let leaf = random.index(MOST_FIELDS);
            with_unknown(tree(random, moves::star(MOST_FIELDS)), leaf)
        }
        14 => {
            let leaf = random.index(MOST_FIELDS);
            with_unknown(tree(random, moves::mirrored(moves::star(MOST_FIELDS))), leaf)
        }
        15 => {
            let leaf = random.index(MOST_FIELDS);
            let levels = moves::shuffled(random, moves::levels(MOST_FIELDS - 1));
            with_unknown(tree(random, levels), leaf % (MOST_FIELDS - 1))
        }
        _ => return None,
    })
}

/// The bytes of a header's listing, counted field by field.
fn listed(header: &header::Header) -> usize {
    let line = |(number, field): (usize, &header::Field)| {
        let digits = if number == 0 { 1 } else { number.ilog10() as usize + 1 };
        let dark = if field.dark { " dark".len() } else { 0 };
        digits + 3 + (field.name.length + field.type_name.length) as usize + dark
    };
    2 * header.moves() as usize + header.fields.iter().enumerate().map(line).sum::<usize>()
}

impl Generator {
    pub fn list_case(&mut self) -> ListCase {
        let random = &mut self.random;
        let mut model = edges::header(random, self.place);
        if let Some(place) = self.place.checked_sub(HEADERS) {
            model = moves::largest(random, place).map(|shape| tree(random, shape));
            if let Some(place) = place.checked_sub(LARGEST) {
                model = edge(random, place);
            }
        }
        let whole = model.is_none();
        let mut model = model.unwrap_or_else(|| {
            let count = moves::count(random);
            let shape = moves::shape(random, count);
            tree(random, shape)
        });
        let lone = self.lone_spare(whole);
        if lone {
            models::one_spare_in_header(&mut self.random, &mut model);
        }
        let spoilt = whole && !lone && self.random.one_in(3);
        let envelope = self.header_bytes(&model, spoilt);
        let newer = (whole && !spoilt && self.random.one_in(3)).then(|| {
            let newer = models::newer_header(&mut self.random, &model);
            self.header_bytes(&newer, false)
        });
        ListCase {
            out: self.listing_room(&envelope),
            result: match self.random.below(32) {
                0 => 0,
                1 | 2 => 2,
                3 => 64,
                _ => 1,
            },
            envelope,
            newer,
        }
    }

    /// The lent bytes for the listing of this header: mostly enough, at times not.
    fn listing_room(&mut self, envelope: &[u8]) -> usize {
        let exact = match header::read(envelope) {
            Ok(header) => listed(&header),
            // It is refused, whatever is lent.
            Err(_) => self.random.pick(&[0, 0, 1, 30, 300]),
        };
        let random = &mut self.random;
        match random.below(4_096) {
            0 => return exact + (1 << 20),
            1 => return exact + (3 << 20),
            2..=6 => return exact + PROGRAM,
            _ => {}
        }
        match random.below(32) {
            0..=2 => exact.saturating_sub(1),
            3 => 0,
            4 => random.index(exact + 1),
            5 => exact.saturating_sub(1 + random.index(8)),
            6..=9 => exact + 1,
            10..=15 => exact + random.index(40),
            _ => exact,
        }
    }
}
