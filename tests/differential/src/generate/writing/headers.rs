//! Tables of headers.

use super::{any_row, left_over, listed, other, other_rows, other_word, LISTED};
use crate::generate::random::Random;
use crate::generate::{edges, models, Generator};
use crate::reference::envelope::ENVELOPE_CEILING;
use crate::reference::header::{self, ALIAS_WORDS, COLUMN_WORDS, FIELD_WORDS};
use crate::reference::writing::header::Tables;
use crate::writer::{Alias, Column, Field, Header};

/// Where a field row has its flags and its strings.
const FLAGS: usize = 4;
const STRINGS: [usize; 4] = [6, 8, 10, 12];

/// What is lent to the writer of a header.
#[derive(Clone, Default)]
pub struct WriteHeaderCase {
    pub strings: Vec<u8>,
    /// Place and length of the name, then of the description.
    pub texts: [u64; 4],
    pub fields: Vec<u64>,
    pub columns: Vec<u64>,
    pub aliases: Vec<u64>,
    /// Bytes.
    pub out: usize,
    pub result: usize,
}

impl WriteHeaderCase {
    pub fn tables(&self) -> Tables<'_> {
        Tables::new(&self.strings, self.texts, &self.fields, &self.columns, &self.aliases)
    }

    fn length(&self) -> u128 {
        self.tables().length()
    }

    /// The words of its tables, each with how many of them a row has.
    fn rows(&mut self) -> [(&mut Vec<u64>, usize); 3] {
        [
            (&mut self.fields, FIELD_WORDS),
            (&mut self.columns, COLUMN_WORDS),
            (&mut self.aliases, ALIAS_WORDS),
        ]
    }

    /// Place and length of some string.
    fn any_text(&mut self, random: &mut Random) -> &mut [u64] {
        match any_row(random, &self.fields, FIELD_WORDS).filter(|_| !random.one_in(4)) {
            Some(row) => {
                let at = row + random.pick(&STRINGS);
                &mut self.fields[at..at + 2]
            }
            None => {
                let at = random.pick(&[0, 2]);
                &mut self.texts[at..at + 2]
            }
        }
    }
}

/// The strings of a table that is made, and their places.
struct Strings {
    bytes: Vec<u8>,
    /// How they are laid down: 0 one after the other, 1 with bytes between
    /// that are no strings, 2 before all others, 3 where they stand already.
    way: u64,
}

impl Strings {
    fn add(&mut self, random: &mut Random, string: &[u8]) -> [u64; 2] {
        let end = self.bytes.len();
        let found = |bytes: &[u8]| bytes.windows(string.len().max(1)).position(|part| part == string);
        let place = match self.way {
            1 => {
                let gap = random.index(4);
                self.bytes.extend(random.bytes(gap));
                self.bytes.extend_from_slice(string);
                end + gap
            }
            3 => found(&self.bytes).unwrap_or_else(|| {
                self.bytes.extend_from_slice(string);
                end
            }),
            _ => {
                self.bytes.extend_from_slice(string);
                end
            }
        };
        [place as u64, string.len() as u64]
    }
}

/// The tables of a header, its strings in any places.
fn tables(random: &mut Random, model: &Header) -> WriteHeaderCase {
    let large = model.fields.items.len() > 100 || model.name.len() > 1_000;
    let mut strings = Strings {
        bytes: Vec::new(),
        way: if large { 0 } else { random.below(4) },
    };
    let mut case = WriteHeaderCase::default();
    // The other way round: what comes first stands last.
    let reversed = strings.way == 2;
    let mut rows: Vec<[u64; FIELD_WORDS]> = Vec::new();
    let mut fields: Vec<&Field> = model.fields.items.iter().collect();
    if reversed {
        fields.reverse();
    }
    for field in fields {
        let mut row = [0; FIELD_WORDS];
        row[..6].copy_from_slice(&[
            field.field_version.into(),
            field.type_version.into(),
            field.parent.into(),
            field.role.into(),
            field.flags.into(),
            // Not written without its flag, so that it may be anything.
            field.repetition,
        ]);
        for (string, at) in field.strings.iter().zip(STRINGS) {
            row[at..at + 2].copy_from_slice(&strings.add(random, string));
        }
        // Nor is the dark mark.
        row[14] = random.pick(&[0, 0, 1, u64::MAX]);
        rows.push(row);
    }
    if reversed {
        rows.reverse();
    }
    case.fields = rows.concat();
    for (string, at) in [(&model.name, 0), (&model.description, 2)] {
        case.texts[at..at + 2].copy_from_slice(&strings.add(random, string));
    }
    for column in &model.columns.items {
        let Column {
            column_type,
            bits,
            field,
            flags,
            ..
        } = *column;
        case.columns
            .extend([column_type.into(), bits.into(), u64::from(field), flags.into()]);
    }
    for alias in &model.aliases.items {
        case.aliases.extend([u64::from(alias.column), alias.field.into()]);
    }
    case.strings = strings.bytes;
    // Empty strings may stand anywhere, at the very end too.
    let end = case.strings.len() as u64;
    let texts = case.fields.chunks_exact_mut(FIELD_WORDS);
    let texts = texts.flat_map(|row| row[6..14].chunks_exact_mut(2));
    for text in texts.chain(case.texts.chunks_exact_mut(2)).filter(|text| text[1] == 0) {
        text[0] = if random.one_in(2) { end } else { random.up_to(end) };
    }
    case
}

/// The tables as a reader has left them, with the envelope for strings.
fn read_back(envelope: &[u8]) -> Option<WriteHeaderCase> {
    let header = header::read(envelope).ok()?;
    let mut case = WriteHeaderCase {
        strings: envelope.to_vec(),
        texts: [
            header.name.place.into(),
            header.name.length.into(),
            header.description.place.into(),
            header.description.length.into(),
        ],
        fields: vec![0; header.fields.len() * FIELD_WORDS],
        columns: vec![0; header.columns.len() * COLUMN_WORDS],
        aliases: vec![0; header.aliases.len() * ALIAS_WORDS],
        ..Default::default()
    };
    let stored = header.store(&mut case.fields, &mut case.columns, &mut case.aliases);
    stored.ok().map(|()| case)
}

/// A small header that has all kinds of rows, and is right.
fn small(random: &mut Random) -> Header {
    let mut header = Header {
        name: models::characters(random, 9),
        description: models::characters(random, 5),
        ..Default::default()
    };
    header.fields.items = (0..3u32)
        .map(|i| Field {
            parent: i.saturating_sub(random.below(2) as u32),
            role: random.below(5) as u16,
            flags: if i == 0 { 2 } else { random.below(4) as u16 },
            repetition: random.number(),
            strings: std::array::from_fn(|_| models::characters(random, 6)),
            ..Default::default()
        })
        .collect();
    header.columns.items = (0..3).map(|_| models::column(random, 3)).collect();
    header.aliases.items = (0..2)
        .map(|_| Alias {
            column: random.below(3) as u32,
            ..Default::default()
        })
        .collect();
    header
}

/// So many words the texts and a row of each table have.
const WORDS: u64 = (4 + FIELD_WORDS + COLUMN_WORDS + ALIAS_WORDS) as u64;

/// One word of a right header replaced: every word, every number that is listed.
fn one_word(random: &mut Random, place: u64) -> Option<WriteHeaderCase> {
    let (word, number) = (place / LISTED, place % LISTED);
    if word >= WORDS {
        return None;
    }
    let model = small(random);
    let mut case = tables(random, &model);
    let mut word = word as usize;
    if word < 4 {
        case.texts[word] = listed(number, case.texts[word]);
        return Some(case);
    }
    word -= 4;
    for (table, words) in case.rows() {
        if word < words {
            let row = any_row(random, table, words).unwrap_or(0);
            table[row + word] = listed(number, table[row + word]);
            break;
        }
        word -= words;
    }
    Some(case)
}

/// So many rows of the table with this number, all like its first.
fn repeat(case: &mut WriteHeaderCase, table: usize, rows: usize) {
    let [fields, columns, aliases] = case.rows();
    let (table, words) = [fields, columns, aliases].into_iter().nth(table).expect("a table");
    *table = table[..words].repeat(rows);
}

/// Lengths and counts at their ends, the large cases.
fn largest(random: &mut Random, place: u64) -> Option<WriteHeaderCase> {
    let model = small(random);
    let mut case = tables(random, &model);
    let ceiling = ENVELOPE_CEILING as u64;
    match place {
        // As long as an envelope may be and one byte longer, by a length that
        // is given: the string is not there.
        0 | 1 => {
            let text = case.any_text(random);
            text[1] = 0;
            let rest = case.length() as u64;
            let length = ceiling - rest + place;
            case.any_text(random)[1] += length;
        }
        // Lengths that together, or with the rest, are small where they wrap.
        2 => case.any_text(random)[1] = u64::MAX - random.below(200),
        3 => {
            case.texts[1] = 1 << 63;
            case.texts[3] = 1 << 63;
        }
        4 => {
            for (i, at) in STRINGS.into_iter().enumerate() {
                case.fields[at + 1] = [1 << 62, 1 << 63, 1 << 62, 3][i];
            }
        }
        5 => case.any_text(random)[1] = (1 << 32) + random.below(8),
        6 => {
            repeat(&mut case, 0, 512);
            let mut rows = case.fields.chunks_exact_mut(FIELD_WORDS);
            rows.by_ref().for_each(|row| row[7] = 1 << 55);
        }
        // The same lengths without a refusal by 1: a string that is not there.
        7 => {
            let text = case.any_text(random);
            let length = random.below(100);
            text.copy_from_slice(&[length.wrapping_neg(), length]);
        }
        8 => {
            let text = case.any_text(random);
            text[0] = u64::MAX - random.below(3);
        }
        // The repetition counts where bit 0 of the flags is set, whatever they are.
        9 | 10 => {
            let flags = random.pick(&[1, 3, 5, 1 + (1 << 16), u64::MAX]);
            let row = any_row(random, &case.fields, FIELD_WORDS).unwrap_or(0);
            case.fields[row + FLAGS] = flags;
            case.texts[1] = 0;
            case.texts[1] = ceiling - case.length() as u64 + (place - 9);
        }
        // Counts above their ceilings, up to the longest envelope and above.
        11 => repeat(&mut case, 1, 65_533),
        12 => {
            case = tables(random, &Header::default());
            case.columns = [1, 64, 0, 0].repeat(65_533 + random.index(2));
        }
        13 => repeat(&mut case, 0, 29_000 + random.index(200)),
        14 => repeat(&mut case, 2, 87_377 - random.index(40)),
        15 => repeat(&mut case, 2, 87_378),
        // One row too many, and another thing wrong before or after the count.
        16..=21 => {
            let table = (place - 16) as usize / 2;
            repeat(&mut case, table, [513, 1_025, 257][table]);
            let broken = match place % 2 {
                0 => table,
                _ => random.index(3),
            };
            let [fields, columns, aliases] = case.rows();
            let (words, count) = [fields, columns, aliases].into_iter().nth(broken).expect("a table");
            let row = any_row(random, words, count).unwrap_or(0);
            let at = row + random.index(count);
            words[at] = other(random, words[at]);
        }
        // More strings than an envelope has, all of them used from the end.
        22 => {
            let before = ENVELOPE_CEILING + random.index(1_000);
            let mut strings = random.bytes(before);
            strings.append(&mut case.strings);
            case.strings = strings;
            let rows = case.fields.chunks_exact_mut(FIELD_WORDS);
            let texts = rows.flat_map(|row| row[6..14].chunks_exact_mut(2));
            texts
                .chain(case.texts.chunks_exact_mut(2))
                .for_each(|text| text[0] += before as u64);
        }
        _ => return None,
    }
    Some(case)
}

const LARGEST: u64 = 23;

/// Something wrong, at one place.
fn damage(random: &mut Random, case: &mut WriteHeaderCase) {
    let [fields, columns, aliases] = [
        case.fields.len() / FIELD_WORDS,
        case.columns.len() / COLUMN_WORDS,
        case.aliases.len() / ALIAS_WORDS,
    ];
    let field = any_row(random, &case.fields, FIELD_WORDS);
    let column = any_row(random, &case.columns, COLUMN_WORDS);
    let alias = any_row(random, &case.aliases, ALIAS_WORDS);
    match (random.below(20), field, column, alias) {
        (0, Some(row), ..) => case.fields[row + 2] = fields as u64 + random.below(2),
        (1, Some(row), ..) => case.fields[row + 3] = random.pick(&[5, 6, 256, 65_535, 65_536]),
        (2, Some(row), ..) => case.fields[row + FLAGS] |= 1 << (2 + random.below(62)),
        // Any chains, circles among them.
        (3, Some(_), ..) => {
            let rows = case.fields.chunks_exact_mut(FIELD_WORDS);
            rows.for_each(|row| row[2] = random.below(fields as u64));
        }
        (4, _, Some(row), _) => case.columns[row] = random.below(40),
        (5, _, Some(row), _) => case.columns[row + 1] = random.pick(&[0, 1, 8, 16, 32, 64, 65, 96, 65_536]),
        (6, _, Some(row), _) => case.columns[row + 2] = fields as u64 + random.below(2),
        (7, _, Some(row), _) => case.columns[row + 3] |= 1 << (3 + random.below(61)),
        (8, _, _, Some(row)) => case.aliases[row] = columns as u64 + random.below(2),
        (9, _, _, Some(row)) => case.aliases[row + 1] = random.up_to(fields as u64),
        // Strings outside, by a byte or by far, and lengths that are none.
        (10, ..) => {
            let end = case.strings.len() as u64;
            let text = case.any_text(random);
            let beyond = end.saturating_sub(text[1]) + 1;
            text[0] = match random.below(4) {
                0 | 1 => beyond,
                2 => random.number(),
                _ => text[1].wrapping_neg().wrapping_add(random.below(3)),
            };
        }
        (11, ..) => {
            let text = case.any_text(random);
            text[1] = match random.below(4) {
                0 => text[1].wrapping_add(1),
                1 => text[1].saturating_sub(1),
                2 => random.below(300),
                _ => other(random, text[1]),
            };
        }
        // A string that starts or ends inside of a character.
        (12, ..) => {
            let text = case.any_text(random);
            if text[1] > 0 {
                text[0] = text[0].wrapping_add(random.below(2));
                text[1] -= 1;
            }
        }
        (13 | 14, ..) => {
            let end = case.strings.len();
            let text = case.any_text(random);
            let at = (text[0] as usize).saturating_add(random.index(text[1].clamp(1, 1 << 20) as usize));
            if at < end {
                case.strings[at] = match random.below(3) {
                    0 => random.next() as u8 | 0x80,
                    1 => random.pick(&[0x7F, 0x80, 0xBF, 0xC0, 0xC2, 0xED, 0xF4, 0xF5]),
                    _ => case.strings[at] ^ 1 << random.below(8),
                };
            }
        }
        // The lent strings end earlier.
        (15, ..) => {
            let end = random.index(case.strings.len() + 1);
            case.strings.truncate(end);
        }
        (16, ..) => {
            let [mut fields, mut columns, mut aliases] = case.rows();
            let (table, words) = match random.below(3) {
                0 => &mut fields,
                1 => &mut columns,
                _ => &mut aliases,
            };
            other_rows(random, table, *words);
        }
        // Up to the ceilings and one further.
        (17, ..) if random.one_in(16) => {
            let (table, most) = random.pick(&[(0, 512), (1, 1_024), (2, 256)]);
            if [fields, columns, aliases][table] > 0 {
                repeat(case, table, most + random.index(2));
            }
        }
        _ => {
            let tables = &mut [&mut case.fields, &mut case.columns, &mut case.aliases];
            other_word(random, tables);
        }
    }
}

impl Generator {
    pub fn write_header_case(&mut self) -> WriteHeaderCase {
        let edge = edges::header(&mut self.random, self.place).map(|model| tables(&mut self.random, &model));
        let place = self.place.saturating_sub(edges::HEADERS);
        let edge = edge
            .or_else(|| largest(&mut self.random, place))
            .or_else(|| one_word(&mut self.random, place - LARGEST));
        let whole = edge.is_none();
        let mut case = edge.unwrap_or_else(|| {
            let model = models::header(&mut self.random);
            let envelope = match self.random.one_in(2) {
                true => self.header_bytes(&model, false),
                false => Vec::new(),
            };
            read_back(&envelope).unwrap_or_else(|| tables(&mut self.random, &model))
        });
        if whole && self.random.below(8) < 5 {
            damage(&mut self.random, &mut case);
            if self.random.one_in(3) {
                damage(&mut self.random, &mut case);
            }
        }
        for (table, words) in case.rows() {
            left_over(&mut self.random, table, words);
        }
        case.out = self.out(case.length());
        case.result = self.result(1);
        case
    }
}
