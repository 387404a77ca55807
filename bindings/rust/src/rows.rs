//! The rows of the lent tables, read from their words and turned into words.

use crate::calls::Text;
use std::fmt;
use std::marker::PhantomData;

/// The number of a field, which is its index in the table of fields.
#[derive(Clone, Copy, Debug, PartialEq, Eq, Hash, PartialOrd, Ord)]
pub struct FieldNumber(pub usize);

/// The number of a column, which is its index in the table of columns.
#[derive(Clone, Copy, Debug, PartialEq, Eq, Hash, PartialOrd, Ord)]
pub struct ColumnNumber(pub usize);

/// A row of a table, made of its words and of the envelope that has its strings.
pub trait Row<'a> {
    /// How many words a row has.
    const WORDS: usize;

    /// The row that these words are.
    fn of(words: &[u64], envelope: &'a [u8]) -> Self;
}

#[derive(Clone, Copy, Debug, PartialEq, Eq)]
pub struct Field<'a> {
    pub field_version: u32,
    pub type_version: u32,
    /// Its own number, for a top-level field.
    pub parent: FieldNumber,
    pub role: u16,
    /// 0x01 repetitive, 0x02 alias.
    pub flags: u16,
    /// 0 without flag 0x01.
    pub repetition: u64,
    pub name: &'a str,
    pub type_name: &'a str,
    pub type_alias: &'a str,
    pub description: &'a str,
    /// An unknown column hangs on the field or on one below it.
    pub dark: bool,
}

#[derive(Clone, Copy, Debug, PartialEq, Eq)]
pub struct Column {
    pub column_type: u16,
    pub bits: u16,
    pub field: FieldNumber,
    pub flags: u32,
}

#[derive(Clone, Copy, Debug, PartialEq, Eq)]
pub struct Alias {
    pub column: ColumnNumber,
    pub field: FieldNumber,
}

#[derive(Clone, Copy, Debug, PartialEq, Eq)]
pub struct Cluster {
    pub first_entry: u64,
    pub entries: u64,
    pub page_list: Link,
    /// That of its page list, where the footer carries it: from version 2 on.
    pub checksum: Option<u32>,
}

impl Cluster {
    /// The last word of its row.
    pub(crate) fn checksum_word(&self) -> u64 {
        self.checksum.map_or(NO_CHECKSUM, u64::from)
    }
}

/// Stands for no checksum in a row: one more than a checksum can be.
const NO_CHECKSUM: u64 = 1 << 32;

#[derive(Clone, Copy, Debug, PartialEq, Eq)]
pub struct Link {
    pub size: u64,
    pub offset: u64,
}

#[derive(Clone, Copy, Debug, PartialEq, Eq)]
pub struct Page {
    pub column: ColumnNumber,
    pub elements: usize,
    /// Four bytes of checksum follow the page, inside the file like the page.
    pub checksum: bool,
    /// Without that checksum.
    pub size: u64,
    pub offset: u64,
}

/// What a report says of a column: sums over the page lists that were accepted.
#[derive(Clone, Copy, Debug, Default, PartialEq, Eq)]
pub struct Figures {
    pub pages: u64,
    pub elements: u64,
    /// The sizes of all pages in bytes, without their checksums.
    pub stored_size: u64,
    pub pages_with_checksum: u64,
}

/// A page of a column that is to be decoded, in a part of a file.
#[derive(Clone, Copy, Debug, PartialEq, Eq)]
pub struct ColumnPage {
    /// From the first byte of that part on.
    pub offset: u64,
    /// Without its checksum.
    pub size: u64,
    pub elements: usize,
    /// Four bytes of checksum follow the page, inside the part like the page.
    pub checksum: bool,
}

impl From<Page> for ColumnPage {
    /// The page where the part is the whole file.
    fn from(page: Page) -> Self {
        ColumnPage {
            offset: page.offset,
            size: page.size,
            elements: page.elements,
            checksum: page.checksum,
        }
    }
}

/// Puts a string behind those that are there; gives its place and length.
pub(crate) fn add(strings: &mut Vec<u8>, text: &str) -> Text {
    let place = strings.len() as u64;
    strings.extend_from_slice(text.as_bytes());
    Text {
        place,
        length: text.len() as u64,
    }
}

impl Field<'_> {
    /// Its row, and its strings behind those that are there.
    pub(crate) fn words(&self, strings: &mut Vec<u8>) -> [u64; 15] {
        let [name, type_name, type_alias, description] =
            [self.name, self.type_name, self.type_alias, self.description].map(|text| add(strings, text));
        [
            self.field_version.into(),
            self.type_version.into(),
            self.parent.0 as u64,
            self.role.into(),
            self.flags.into(),
            self.repetition,
            name.place,
            name.length,
            type_name.place,
            type_name.length,
            type_alias.place,
            type_alias.length,
            description.place,
            description.length,
            self.dark.into(),
        ]
    }
}

impl Column {
    pub(crate) fn words(&self) -> [u64; 4] {
        [
            self.column_type.into(),
            self.bits.into(),
            self.field.0 as u64,
            self.flags.into(),
        ]
    }
}

impl Alias {
    pub(crate) fn words(&self) -> [u64; 2] {
        [self.column.0 as u64, self.field.0 as u64]
    }
}

impl Link {
    pub(crate) fn words(&self) -> [u64; 2] {
        [self.size, self.offset]
    }
}

impl Cluster {
    pub(crate) fn words(&self) -> [u64; 5] {
        let Link { size, offset } = self.page_list;
        [self.first_entry, self.entries, size, offset, self.checksum_word()]
    }
}

impl Page {
    pub(crate) fn words(&self) -> [u64; 5] {
        [
            self.column.0 as u64,
            self.elements as u64,
            self.checksum.into(),
            self.size,
            self.offset,
        ]
    }
}

impl ColumnPage {
    pub(crate) const WORDS: usize = 4;

    pub(crate) fn words(&self) -> [u64; Self::WORDS] {
        [self.offset, self.size, self.elements as u64, self.checksum.into()]
    }
}

/// The string that stands there in an envelope that was accepted.
pub(crate) fn text(envelope: &[u8], Text { place, length }: Text) -> &str {
    let characters = &envelope[place as usize..][..length as usize];
    std::str::from_utf8(characters).expect("an accepted string is well-formed UTF-8")
}

impl<'a> Row<'a> for Field<'a> {
    const WORDS: usize = 15;

    fn of(words: &[u64], envelope: &'a [u8]) -> Self {
        let text = |i: usize| {
            let (place, length) = (words[i], words[i + 1]);
            text(envelope, Text { place, length })
        };
        Field {
            field_version: words[0] as u32,
            type_version: words[1] as u32,
            parent: FieldNumber(words[2] as usize),
            role: words[3] as u16,
            flags: words[4] as u16,
            repetition: words[5],
            name: text(6),
            type_name: text(8),
            type_alias: text(10),
            description: text(12),
            dark: words[14] != 0,
        }
    }
}

impl<'a> Row<'a> for Column {
    const WORDS: usize = 4;

    fn of(words: &[u64], _: &'a [u8]) -> Self {
        Column {
            column_type: words[0] as u16,
            bits: words[1] as u16,
            field: FieldNumber(words[2] as usize),
            flags: words[3] as u32,
        }
    }
}

impl<'a> Row<'a> for Alias {
    const WORDS: usize = 2;

    fn of(words: &[u64], _: &'a [u8]) -> Self {
        Alias {
            column: ColumnNumber(words[0] as usize),
            field: FieldNumber(words[1] as usize),
        }
    }
}

impl<'a> Row<'a> for Link {
    const WORDS: usize = 2;

    fn of(words: &[u64], _: &'a [u8]) -> Self {
        Link {
            size: words[0],
            offset: words[1],
        }
    }
}

impl<'a> Row<'a> for Cluster {
    const WORDS: usize = 5;

    fn of(words: &[u64], envelope: &'a [u8]) -> Self {
        Cluster {
            first_entry: words[0],
            entries: words[1],
            page_list: Link::of(&words[2..4], envelope),
            checksum: (words[4] != NO_CHECKSUM).then_some(words[4] as u32),
        }
    }
}

impl<'a> Row<'a> for Page {
    const WORDS: usize = 5;

    fn of(words: &[u64], _: &'a [u8]) -> Self {
        Page {
            column: ColumnNumber(words[0] as usize),
            elements: words[1] as usize,
            checksum: words[2] != 0,
            size: words[3],
            offset: words[4],
        }
    }
}

impl<'a> Row<'a> for Figures {
    const WORDS: usize = 4;

    fn of(words: &[u64], _: &'a [u8]) -> Self {
        Figures {
            pages: words[0],
            elements: words[1],
            stored_size: words[2],
            pages_with_checksum: words[3],
        }
    }
}

/// The rows that were read into a lent table.
pub struct Table<'a, R> {
    words: &'a [u64],
    envelope: &'a [u8],
    rows: PhantomData<R>,
}

impl<'a, R: Row<'a>> Table<'a, R> {
    /// The first rows of a table, so many as were read.
    pub(crate) fn first(count: u64, table: &'a [u64], envelope: &'a [u8]) -> Self {
        Table {
            words: &table[..count as usize * R::WORDS],
            envelope,
            rows: PhantomData,
        }
    }

    pub fn len(&self) -> usize {
        self.words.len() / R::WORDS
    }

    pub fn is_empty(&self) -> bool {
        self.words.is_empty()
    }

    pub fn get(&self, i: usize) -> Option<R> {
        (i < self.len()).then(|| R::of(&self.words[i * R::WORDS..][..R::WORDS], self.envelope))
    }

    pub fn iter(&self) -> impl ExactSizeIterator<Item = R> + 'a {
        let envelope = self.envelope;
        self.words
            .chunks_exact(R::WORDS)
            .map(move |words| R::of(words, envelope))
    }
}

impl<R> Clone for Table<'_, R> {
    fn clone(&self) -> Self {
        *self
    }
}

impl<R> Copy for Table<'_, R> {}

impl<'a, R: Row<'a> + fmt::Debug> fmt::Debug for Table<'a, R> {
    fn fmt(&self, f: &mut fmt::Formatter) -> fmt::Result {
        f.debug_list().entries(self.iter()).finish()
    }
}
