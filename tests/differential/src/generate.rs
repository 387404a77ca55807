//! Seeded cases. A case depends on the seed, its kind and its number alone, so
//! that each can be made again by itself.

pub mod columns;
pub mod damage;
pub mod edges;
pub mod envelopes;
pub mod figures;
pub mod listing;
pub mod models;
pub mod moves;
pub mod pages;
pub mod pairing;
pub mod random;
pub mod strings;
pub mod writing;

use crate::writer::Writer;
use random::Random;

/// The sixteen kinds of cases.
#[derive(Clone, Copy, Debug, PartialEq, Eq)]
pub enum Kind {
    Header,
    Footer,
    PageList,
    Decode,
    Encode,
    Crc,
    String,
    Pairing,
    Moves,
    WriteHeader,
    WriteFooter,
    WritePageList,
    List,
    Column,
    Report,
    CountTrue,
}

pub const KINDS: [Kind; 16] = [
    Kind::Header,
    Kind::Footer,
    Kind::PageList,
    Kind::Decode,
    Kind::Encode,
    Kind::Crc,
    Kind::String,
    Kind::Pairing,
    Kind::Moves,
    Kind::WriteHeader,
    Kind::WriteFooter,
    Kind::WritePageList,
    Kind::List,
    Kind::Column,
    Kind::Report,
    Kind::CountTrue,
];

impl Kind {
    pub fn name(self) -> &'static str {
        match self {
            Kind::Header => "header",
            Kind::Footer => "footer",
            Kind::PageList => "page-list",
            Kind::Decode => "decode",
            Kind::Encode => "encode",
            Kind::Crc => "crc",
            Kind::String => "string",
            Kind::Pairing => "pairing",
            Kind::Moves => "moves",
            Kind::WriteHeader => "write-header",
            Kind::WriteFooter => "write-footer",
            Kind::WritePageList => "write-page-list",
            Kind::List => "list",
            Kind::Column => "column",
            Kind::Report => "report",
            Kind::CountTrue => "count-true",
        }
    }
}

/// Large cases are dear, so that they come once in this many.
pub const PERIOD: u64 = 8_192;

pub struct Generator {
    pub random: Random,
    pub writer: Writer,
    /// The case's number.
    pub case: u64,
    /// Its place in its period; the first ones are edge cases.
    pub place: u64,
}

impl Generator {
    pub fn new() -> Self {
        Generator {
            random: Random::new(0),
            writer: Writer::default(),
            case: 0,
            place: 0,
        }
    }

    /// Makes ready for a case.
    pub fn begin(&mut self, seed: u64, kind: Kind, case: u64) {
        let mut mixer = Random::new(seed ^ (kind as u64) << 56);
        let own = mixer.next() ^ case.wrapping_mul(0xD6E8_FEB8_6659_FD93);
        self.random = Random::new(own);
        self.case = case;
        self.place = case % PERIOD;
    }
}

impl Default for Generator {
    fn default() -> Self {
        Self::new()
    }
}
