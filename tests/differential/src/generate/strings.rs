//! Strings at the edges of UTF-8, by themselves and in a header that is right but for them.

use super::envelopes::HeaderCase;
use super::random::Random;
use super::{models, Generator};
use crate::reference::header;
use crate::writer::{Field, Header};

/// The bytes at which a range of the encoding begins or ends, and their neighbours.
const EDGES: [u8; 24] = [
    0x00, 0x41, 0x7F, 0x80, 0x8F, 0x90, 0x9F, 0xA0, 0xBF, 0xC0, 0xC1, 0xC2, 0xDF, 0xE0, 0xE1, 0xEC, 0xED, 0xEE, 0xEF,
    0xF0, 0xF1, 0xF3, 0xF4, 0xF5,
];

/// Strings of two bytes, all of them.
const PAIRS: u64 = 1 << 16;

/// Strings of four bytes of the edges, all of them.
const QUADRUPLES: u64 = (EDGES.len() as u64).pow(4);

/// A listed string, if there is one of this number.
fn listed(number: u64) -> Option<Vec<u8>> {
    if number < PAIRS {
        return Some((number as u16).to_be_bytes().to_vec());
    }
    let mut number = number - PAIRS;
    (number < QUADRUPLES).then(|| {
        let mut next = || {
            let byte = EDGES[(number % EDGES.len() as u64) as usize];
            number /= EDGES.len() as u64;
            byte
        };
        [next(), next(), next(), next()].to_vec()
    })
}

/// Characters of any alphabet, most often with a byte or two that are wrong.
fn nearly(random: &mut Random) -> Vec<u8> {
    let most = random.pick(&[4, 12, 40, 80, 300]);
    let mut bytes = models::characters(random, most);
    for _ in 0..random.below(3) {
        let at = random.index(bytes.len() + 1);
        match random.below(4) {
            0 => bytes.insert(at, random.pick(&EDGES)),
            1 => bytes.truncate(at),
            _ if at == bytes.len() => {}
            2 => bytes[at] = random.pick(&EDGES),
            _ => {
                bytes.remove(at);
            }
        }
    }
    bytes
}

pub struct StringCase {
    pub string: Vec<u8>,
    /// A header that has it as one of its strings.
    pub header: HeaderCase,
}

impl Generator {
    /// Every other case is the next of those that are listed, while there are any.
    pub fn string_case(&mut self) -> StringCase {
        let string = match self.case % 2 {
            0 => listed(self.case / 2),
            _ => None,
        };
        let string = string.unwrap_or_else(|| nearly(&mut self.random));
        let mut model = Header::default();
        let mut field = Field::default();
        match self.random.index(6) {
            0 => model.name.clone_from(&string),
            1 => model.description.clone_from(&string),
            place => field.strings[place - 2].clone_from(&string),
        }
        model.fields.items.push(field);
        let header = HeaderCase {
            envelope: self.header_bytes(&model, false),
            fields: header::FIELD_WORDS,
            columns: 0,
            aliases: 0,
            result: 7,
            newer: None,
        };
        StringCase { string, header }
    }
}
