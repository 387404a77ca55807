//! Wrong writers of headers.

use super::{cut, exported, filled_up, first_for_all, Alter, Instead, Lent, Place, Where, Wrong, CEILING};
use differential::compare::Comparer;
use differential::generate::Kind;
use differential::reference::pages::stored_bits;
use differential::reference::writing::header::Tables;
use differential::reference::{write_header, HEADER};

/// What a writer is lent, to be altered.
#[derive(Clone)]
pub struct Own {
    strings: Vec<u8>,
    texts: [u64; 4],
    fields: Vec<u64>,
    columns: Vec<u64>,
    aliases: Vec<u64>,
}

impl Own {
    fn length(&self) -> u128 {
        Tables::new(&self.strings, self.texts, &self.fields, &self.columns, &self.aliases).length()
    }

    /// Place and length of each string, after the number of bytes that are lent.
    fn each_text(&mut self, mut change: impl FnMut(u64, &mut [u64])) {
        let end = self.strings.len() as u64;
        let rows = self.fields.chunks_exact_mut(15);
        let texts = rows.flat_map(|row| row[6..14].chunks_exact_mut(2));
        texts
            .chain(self.texts.chunks_exact_mut(2))
            .for_each(|text| change(end, text));
    }

    fn each_field(&mut self, change: impl FnMut(&mut [u64])) {
        self.fields.chunks_exact_mut(15).for_each(change);
    }

    fn each_column(&mut self, change: impl FnMut(&mut [u64])) {
        self.columns.chunks_exact_mut(4).for_each(change);
    }

    fn each_alias(&mut self, change: impl FnMut(&mut [u64])) {
        self.aliases.chunks_exact_mut(2).for_each(change);
    }

    fn any_field(&self, test: impl FnMut(&[u64]) -> bool) -> bool {
        self.fields.chunks_exact(15).any(test)
    }
}

impl Lent for Own {
    const ENVELOPE: u32 = HEADER;
    const KIND: Kind = Kind::WriteHeader;

    fn write(&self, out: &mut [u8], result: &mut [u64]) -> u32 {
        let Own {
            strings,
            texts,
            fields,
            columns,
            aliases,
        } = self;
        exported(result, || write_header(strings, *texts, fields, columns, aliases, out))
    }

    fn replace(comparer: &mut Comparer, call: impl Fn(Self, &mut [u8], &mut [u64]) -> u32 + 'static) {
        comparer.write_header = Box::new(move |tables, out, result| {
            let own = Own {
                strings: tables.strings.to_vec(),
                texts: tables.texts,
                fields: tables.fields.to_vec(),
                columns: tables.columns.to_vec(),
                aliases: tables.aliases.to_vec(),
            };
            call(own, out, result)
        });
    }
}

fn outside(end: u64, text: &[u64]) -> bool {
    u128::from(text[0]) + u128::from(text[1]) > end.into()
}

/// Writers of other tables than those that they are lent.
const ALTERED: &[(&str, Alter<Own>)] = &[
    ("the first field for all", |own| first_for_all(&mut own.fields, 15)),
    ("the first column for all", |own| first_for_all(&mut own.columns, 4)),
    ("the first alias for all", |own| first_for_all(&mut own.aliases, 2)),
    ("no aliases", |own| own.aliases.clear()),
    ("no columns, no aliases", |own| {
        own.columns.clear();
        own.aliases.clear();
    }),
    ("no name", |own| own.texts[1] = 0),
    ("no description", |own| own.texts[3] = 0),
    ("the name twice", |own| own.texts.copy_within(0..2, 2)),
    ("no type alias", |own| own.each_field(|row| row[11] = 0)),
    ("no field's description", |own| own.each_field(|row| row[13] = 0)),
    ("type before name", |own| {
        own.each_field(|row| row[6..10].rotate_left(2))
    }),
    ("versions the other way round", |own| {
        own.each_field(|row| row.swap(0, 1))
    }),
    ("no repetition", |own| own.each_field(|row| row[5] = 0)),
    ("a repetition of 32 bits", |own| {
        own.each_field(|row| row[5] = cut(row[5], 32))
    }),
    ("a repetition without its flag is written", |own| {
        own.each_field(|row| row[4] |= u64::from(row[5] != 0 && row[4] <= 3))
    }),
    ("no repetition where it is 0", |own| {
        own.each_field(|row| row[4] &= !u64::from(row[5] == 0 && row[4] <= 3))
    }),
    ("a dark field is an alias", |own| {
        own.each_field(|row| row[4] |= if row[14] == 1 && row[4] <= 3 { 2 } else { 0 })
    }),
    ("every field is its own parent", |own| {
        let rows = own.fields.chunks_exact_mut(15).enumerate();
        rows.for_each(|(i, row)| row[2] = i as u64)
    }),
    ("a parent that is none is the field itself", |own| {
        let count = own.fields.len() as u64 / 15;
        let rows = own.fields.chunks_exact_mut(15).enumerate();
        rows.filter(|(_, row)| row[2] >= count)
            .for_each(|(i, row)| row[2] = i as u64)
    }),
    ("a role that is none is 0", |own| {
        own.each_field(|row| row[3] = if row[3] > 4 { 0 } else { row[3] })
    }),
    ("flags that are none are left out", |own| {
        own.each_field(|row| row[4] &= 3)
    }),
    ("column flags that are none are left out", |own| {
        own.each_column(|row| row[3] &= 7)
    }),
    ("the bits of its type", |own| {
        own.each_column(|row| {
            let known = u32::try_from(row[0]).ok().and_then(stored_bits);
            row[1] = known.map_or(row[1], u64::from)
        })
    }),
    ("no bits of an unknown type", |own| {
        own.each_column(|row| {
            let known = u32::try_from(row[0]).ok().and_then(stored_bits);
            row[1] = if known.is_none() { 0 } else { row[1] }
        })
    }),
    ("the places of the strings are 0", |own| {
        own.each_text(|end, text| text[0] = if outside(end, text) { text[0] } else { 0 })
    }),
    ("a string outside is empty", |own| {
        own.each_text(|end, text| {
            if outside(end, text) {
                text.fill(0)
            }
        })
    }),
    ("a string outside is cut", |own| {
        own.each_text(|end, text| {
            text[0] = text[0].min(end);
            text[1] = text[1].min(end - text[0]);
        })
    }),
    ("an empty string may stand anywhere", |own| {
        own.each_text(|_, text| text[0] = if text[1] == 0 { 0 } else { text[0] })
    }),
    ("an empty string may stand right behind", |own| {
        own.each_text(|end, text| {
            if text[1] == 0 && text[0] == end + 1 {
                text[0] = end
            }
        })
    }),
    ("an empty string at the end is outside", |own| {
        own.each_text(|end, text| {
            if text[1] == 0 && text[0] == end {
                text[0] = end + 1
            }
        })
    }),
    ("the last byte of the strings is outside", |own| {
        own.each_text(|end, text| {
            if text[0].checked_add(text[1]) == Some(end) && text[1] > 0 {
                text[0] += 1
            }
        })
    }),
    ("place and length together wrap", |own| {
        own.each_text(|end, text| {
            if outside(end, text) && text[0].wrapping_add(text[1]) <= end {
                text.fill(0)
            }
        })
    }),
    ("place and length together in 32 bits", |own| {
        own.each_text(|end, text| {
            if outside(end, text) && cut(text[0].wrapping_add(text[1]), 32) <= end {
                text.fill(0)
            }
        })
    }),
    ("string lengths of 32 bits", |own| {
        own.each_text(|_, text| text[1] = cut(text[1], 32))
    }),
    ("string lengths of 16 bits", |own| {
        own.each_text(|_, text| text[1] = cut(text[1], 16))
    }),
    ("characters that are none are left out", |own| {
        let strings = own.strings.clone();
        own.each_text(|end, text| {
            if !outside(end, text) {
                let bytes = &strings[text[0] as usize..][..text[1] as usize];
                if let Err(error) = std::str::from_utf8(bytes) {
                    text[1] = error.valid_up_to() as u64
                }
            }
        })
    }),
    ("words left over are a field", |own| filled_up(&mut own.fields, 15)),
    ("words left over are a column", |own| filled_up(&mut own.columns, 4)),
    ("words left over are an alias", |own| filled_up(&mut own.aliases, 2)),
    ("the last field is left over", |own| {
        let rows = (own.fields.len() / 15).saturating_sub(1);
        own.fields.truncate(rows * 15)
    }),
    ("512 fields at most are written", |own| own.fields.truncate(512 * 15)),
    ("1,024 columns at most are written", |own| {
        own.columns.truncate(1_024 * 4)
    }),
    ("256 aliases at most are written", |own| own.aliases.truncate(256 * 2)),
];

fn too_wide(own: &Own) -> bool {
    let fields = own.any_field(|row| {
        row[..3].iter().any(|number| number >> 32 != 0) || row[3..5].iter().any(|number| number >> 16 != 0)
    });
    let columns = own
        .columns
        .chunks_exact(4)
        .any(|row| row[..2].iter().any(|number| number >> 16 != 0) || row[2..].iter().any(|number| number >> 32 != 0));
    let aliases = own.aliases.chunks_exact(2).flatten();
    fields || columns || aliases.into_iter().any(|number| number >> 32 != 0)
}

fn too_many(own: &Own) -> bool {
    let counts = [own.fields.len() / 15, own.columns.len() / 4, own.aliases.len() / 2];
    counts.iter().zip([512, 1_024, 256]).any(|(count, most)| *count > most)
}

fn any_outside(own: &Own) -> bool {
    let end = own.strings.len() as u64;
    let texts = own.fields.chunks_exact(15).flat_map(|row| row[6..14].chunks_exact(2));
    texts.chain(own.texts.chunks_exact(2)).any(|text| outside(end, text))
}

/// The number with this many rows of each table at most.
fn of_first(own: &Own, rows: [usize; 3]) -> u32 {
    let first = |table: &[u64], words: usize, rows: usize| table[..table.len().min(rows * words)].to_vec();
    let own = Own {
        strings: own.strings.clone(),
        texts: own.texts,
        fields: first(&own.fields, 15, rows[0]),
        columns: first(&own.columns, 4, rows[1]),
        aliases: first(&own.aliases, 2, rows[2]),
    };
    own.roomy() % 256
}

fn circles(own: &Own) -> bool {
    of_first(own, [usize::MAX / 15, 0, 0]) == 15
}

/// Another number than the reference's, where this holds.
const WHERE: &[(&str, u32, Where<Own>)] = &[
    ("too little room before everything", 20, |own, _, room| {
        own.length() > room as u128
    }),
    ("too little room after the length", 20, |own, number, room| {
        own.length() > room as u128 && number != 1
    }),
    ("too little room before chains", 20, |own, number, room| {
        own.length() > room as u128 && number == 15
    }),
    ("too little room before the last alias", 20, |own, number, room| {
        let aliases = (own.aliases.len() / 2).saturating_sub(1);
        own.length() > room as u128 && number != 15 && matches!(of_first(own, [512, 1_024, aliases]), 0 | 15)
    }),
    ("too wide before everything", 25, |own, _, _| too_wide(own)),
    ("too wide after the length", 25, |own, number, _| {
        too_wide(own) && number != 1
    }),
    ("strings before everything", 7, |own, _, _| any_outside(own)),
    ("strings after the length", 7, |own, number, _| {
        any_outside(own) && number != 1
    }),
    ("chains before columns", 15, |own, number, _| {
        circles(own) && number != 1
    }),
    ("chains before the length", 15, |own, _, _| circles(own)),
    ("all counts first", 10, |own, number, _| too_many(own) && number != 1),
    ("counts before the length", 10, |own, _, _| too_many(own)),
    ("511 fields", 10, |own, number, _| {
        own.fields.len() / 15 == 512 && number == 0
    }),
    ("1,023 columns", 10, |own, number, _| {
        own.columns.len() / 4 == 1_024 && number == 0
    }),
    ("255 aliases", 10, |own, number, _| {
        own.aliases.len() / 2 == 256 && number == 0
    }),
    ("one byte less than the ceiling", 1, |own, _, _| own.length() == CEILING),
    ("one byte more than the ceiling", 7, |own, _, _| {
        own.length() == CEILING + 1
    }),
    ("the length wraps", 7, |own, number, _| {
        number == 1 && own.length() % (1 << 64) <= CEILING
    }),
    ("the length in 32 bits", 7, |own, number, _| {
        number == 1 && own.length() % (1 << 32) <= CEILING
    }),
    ("strings outside have no length", 7, |own, number, _| {
        let mut other = own.clone();
        other.each_text(|end, text| text[1] = if outside(end, text) { 0 } else { text[1] });
        number == 1 && other.length() <= CEILING
    }),
    ("no bytes for repetitions", 7, |own, number, _| {
        let mut other = own.clone();
        other.each_field(|row| row[4] &= !1);
        number == 1 && other.length() <= CEILING
    }),
    ("bytes for each repetition", 1, |own, _, _| {
        let mut other = own.clone();
        other.each_field(|row| row[4] |= 1);
        other.length() > CEILING
    }),
    (
        "no bytes for repetitions where flags are wrong",
        12,
        |own, number, _| {
            let mut other = own.clone();
            other.each_field(|row| row[4] &= if row[4] > 3 { !1 } else { !0 });
            number == 1 && other.length() <= CEILING
        },
    ),
    ("strings are ASCII", 9, |own, number, _| {
        let end = own.strings.len() as u64;
        let name = &own.texts[..2];
        number == 0 && !outside(end, name) && !own.strings[name[0] as usize..][..name[1] as usize].is_ascii()
    }),
    ("characters are not tested", 0, |_, number, _| number == 9),
    ("a string outside has other characters", 9, |_, number, _| number == 7),
    ("chains are not followed", 0, |_, number, _| number == 15),
    ("parents come earlier", 14, |own, number, _| {
        let later = own
            .fields
            .chunks_exact(15)
            .enumerate()
            .any(|(i, row)| row[2] > i as u64);
        number == 0 && later
    }),
    ("a dark mark is 0 or 1", 25, |own, number, _| {
        number == 0 && own.any_field(|row| row[14] > 1)
    }),
    ("no repetition without its flag", 12, |own, number, _| {
        number == 0 && own.any_field(|row| row[4] & 1 == 0 && row[5] != 0)
    }),
    ("no unknown types", 13, |own, number, _| {
        let unknown = |row: &[u64]| stored_bits(row[0] as u32).is_none();
        number == 0 && own.columns.chunks_exact(4).any(unknown)
    }),
    ("words left over are refused", 20, |own, number, _| {
        number == 0 && own.fields.len() % 15 + own.columns.len() % 4 + own.aliases.len() % 2 != 0
    }),
];

/// Another number, from the reference's.
const INSTEAD: &[(&str, Instead<Own>)] = &[
    ("a count after the fields", |own, number| {
        match of_first(own, [512, 0, 0]) {
            first if number == 10 && own.fields.len() > 512 * 15 && first != 0 => first,
            _ => number,
        }
    }),
    ("a count after the columns", |own, number| {
        match of_first(own, [512, 1_024, 0]) {
            first if number == 10 && own.columns.len() >= 1_025 * 4 && !matches!(first, 0 | 15) => first,
            _ => number,
        }
    }),
    ("a count after the aliases", |own, number| {
        match of_first(own, [512, 1_024, 256]) {
            first if number == 10 && own.aliases.len() >= 257 * 2 && !matches!(first, 0 | 15) => first,
            _ => number,
        }
    }),
    ("all of the strings", |own, number| {
        match std::str::from_utf8(&own.strings) {
            Err(_) if number == 0 => 9,
            _ => number,
        }
    }),
];

/// The places of the numbers, each with its bits.
const PLACES: &[(&str, Place<Own>)] = &[
    ("a field version", |own, narrow| {
        own.each_field(|row| row[0] = narrow(row[0], 32))
    }),
    ("a type version", |own, narrow| {
        own.each_field(|row| row[1] = narrow(row[1], 32))
    }),
    ("a parent", |own, narrow| {
        own.each_field(|row| row[2] = narrow(row[2], 32))
    }),
    ("a role", |own, narrow| {
        own.each_field(|row| row[3] = narrow(row[3], 16))
    }),
    ("a field's flags", |own, narrow| {
        own.each_field(|row| row[4] = narrow(row[4], 16))
    }),
    ("a type", |own, narrow| {
        own.each_column(|row| row[0] = narrow(row[0], 16))
    }),
    ("bits", |own, narrow| own.each_column(|row| row[1] = narrow(row[1], 16))),
    ("a column's field", |own, narrow| {
        own.each_column(|row| row[2] = narrow(row[2], 32))
    }),
    ("a column's flags", |own, narrow| {
        own.each_column(|row| row[3] = narrow(row[3], 32))
    }),
    ("an alias's column", |own, narrow| {
        own.each_alias(|row| row[0] = narrow(row[0], 32))
    }),
    ("an alias's field", |own, narrow| {
        own.each_alias(|row| row[1] = narrow(row[1], 32))
    }),
];

pub const WRONG: Wrong<Own> = Wrong {
    altered: ALTERED,
    places: PLACES,
    refused: WHERE,
    instead: INSTEAD,
    others: &[],
};
