//! Writes envelopes from models of them, with right sizes, counts and
//! checksums, and remembers where each number stands, so that damage can be
//! aimed. It judges nothing, so that what breaks the rules is written too.

use crate::reference::crc::{crc32, POLYNOMIAL};

/// What stands at a place of an envelope.
#[derive(Clone, Copy, Debug, PartialEq, Eq)]
pub enum Part {
    Version,
    Minimum,
    Feature,
    StringLength,
    Characters,
    RecordSize,
    ListSize,
    ListCount,
    EmptyCount,
    FieldVersion,
    Parent,
    Role,
    FieldFlags,
    Repetition,
    ColumnType,
    Bits,
    ColumnField,
    ColumnFlags,
    AliasColumn,
    AliasField,
    HeaderChecksum,
    ListChecksum,
    FirstEntry,
    EntryCount,
    LinkSize,
    Elements,
    StoredSize,
    Offset,
    Spare,
}

#[derive(Clone, Copy, Debug)]
pub struct Mark {
    pub part: Part,
    pub place: usize,
    /// Bytes that it takes.
    pub width: usize,
}

/// What every envelope starts and ends with.
#[derive(Clone, Copy, Debug)]
pub struct Outside {
    pub version: u16,
    pub minimum: u16,
    /// Feature words with only bit 63 set, before the last word, which is 0.
    pub redundant: usize,
    /// Bytes after the payload's last known content.
    pub spare: usize,
}

impl Default for Outside {
    fn default() -> Self {
        Outside {
            version: 1,
            minimum: 1,
            redundant: 0,
            spare: 0,
        }
    }
}

/// A list frame and the bytes after its last item.
#[derive(Clone, Debug)]
pub struct List<T> {
    pub items: Vec<T>,
    pub spare: usize,
}

impl<T> Default for List<T> {
    fn default() -> Self {
        List {
            items: Vec::new(),
            spare: 0,
        }
    }
}

#[derive(Clone, Debug, Default)]
pub struct Header {
    pub outside: Outside,
    pub name: Vec<u8>,
    pub description: Vec<u8>,
    pub fields: List<Field>,
    pub columns: List<Column>,
    pub aliases: List<Alias>,
}

#[derive(Clone, Debug, Default)]
pub struct Field {
    pub field_version: u32,
    pub type_version: u32,
    pub parent: u32,
    pub role: u16,
    pub flags: u16,
    /// Written when flag 0x01 is set.
    pub repetition: u64,
    /// Name, type, type alias, description.
    pub strings: [Vec<u8>; 4],
    pub spare: usize,
}

#[derive(Clone, Copy, Debug, Default)]
pub struct Column {
    pub column_type: u16,
    pub bits: u16,
    pub field: u32,
    pub flags: u32,
    pub spare: usize,
}

#[derive(Clone, Copy, Debug, Default)]
pub struct Alias {
    pub column: u32,
    pub field: u32,
    pub spare: usize,
}

#[derive(Clone, Debug, Default)]
pub struct Footer {
    pub outside: Outside,
    pub header_checksum: u32,
    /// Spare bytes of the two lists that have to be empty.
    pub empty_spare: [usize; 2],
    pub clusters: List<Cluster>,
    pub metadata: List<Link>,
}

#[derive(Clone, Copy, Debug, Default)]
pub struct Cluster {
    pub first: u64,
    pub entries: u64,
    pub link: Link,
    /// That of its page list, as footers of version 2 and above carry it.
    pub checksum: Option<u32>,
    pub spare: usize,
}

#[derive(Clone, Copy, Debug, Default)]
pub struct Link {
    pub size: u32,
    pub offset: u64,
}

#[derive(Clone, Debug, Default)]
pub struct PageList {
    /// A page list has no feature words; `redundant` is not used.
    pub outside: Outside,
    pub columns: List<List<Page>>,
}

#[derive(Clone, Copy, Debug, Default)]
pub struct Page {
    pub elements: u32,
    pub checksum: bool,
    pub size: u32,
    pub offset: u64,
}

impl Page {
    /// Its bytes in the file, with the check bytes behind it.
    pub fn bytes(&self) -> u64 {
        u64::from(self.size) + if self.checksum { 4 } else { 0 }
    }
}

/// Puts the checksum of an envelope right.
pub fn seal(envelope: &mut [u8]) {
    if let Some(content) = envelope.len().checked_sub(4) {
        let checksum = crc32(&envelope[..content]);
        envelope[content..].copy_from_slice(&checksum.to_le_bytes());
    }
}

/// Makes version 2 of an envelope, with four more bytes at the end of its
/// payload that give it this checksum.
pub fn force_checksum(envelope: &mut Vec<u8>, checksum: u32) {
    let Some(end) = envelope.len().checked_sub(4).filter(|&end| end >= 4) else {
        return;
    };
    envelope[..2].copy_from_slice(&2u16.to_le_bytes());
    // The register has to be this before 32 steps without input; four bytes
    // of input are a difference to it at their start.
    let mut due = !checksum;
    for _ in 0..32 {
        due = match due >> 31 {
            1 => (due ^ POLYNOMIAL) << 1 | 1,
            _ => due << 1,
        };
    }
    let register = !crc32(&envelope[..end]);
    envelope.truncate(end);
    envelope.extend_from_slice(&(register ^ due).to_le_bytes());
    envelope.extend_from_slice(&checksum.to_le_bytes());
}

/// The checksum at the end of an envelope, 0 when it has none.
pub fn stored_checksum(envelope: &[u8]) -> u32 {
    envelope.last_chunk().map_or(0, |stored| u32::from_le_bytes(*stored))
}

#[derive(Default)]
pub struct Writer {
    pub bytes: Vec<u8>,
    pub marks: Vec<Mark>,
}

impl Writer {
    fn put<const N: usize>(&mut self, part: Part, number: [u8; N]) {
        self.marks.push(Mark {
            part,
            place: self.bytes.len(),
            width: N,
        });
        self.bytes.extend_from_slice(&number);
    }

    fn u16(&mut self, part: Part, number: u16) {
        self.put(part, number.to_le_bytes());
    }

    fn u32(&mut self, part: Part, number: u32) {
        self.put(part, number.to_le_bytes());
    }

    fn u64(&mut self, part: Part, number: u64) {
        self.put(part, number.to_le_bytes());
    }

    fn string(&mut self, characters: &[u8]) {
        self.u32(Part::StringLength, characters.len() as u32);
        if !characters.is_empty() {
            self.marks.push(Mark {
                part: Part::Characters,
                place: self.bytes.len(),
                width: characters.len(),
            });
        }
        self.bytes.extend_from_slice(characters);
    }

    /// Bytes that no rule explains, of any value.
    fn spare(&mut self, count: usize) {
        if count == 0 {
            return;
        }
        let place = self.bytes.len();
        self.marks.push(Mark {
            part: Part::Spare,
            place,
            width: count,
        });
        self.bytes
            .extend((place..place + count).map(|at| (at.wrapping_mul(0x9E37_79B1) >> 7) as u8));
    }

    fn record(&mut self, spare: usize, content: impl FnOnce(&mut Self)) {
        let head = self.bytes.len();
        self.u32(Part::RecordSize, 0);
        content(self);
        self.spare(spare);
        let size = (self.bytes.len() - head) as u32;
        self.bytes[head..head + 4].copy_from_slice(&size.to_le_bytes());
    }

    fn list(&mut self, part: Part, count: usize, spare: usize, items: impl FnOnce(&mut Self)) {
        let head = self.bytes.len();
        self.u32(Part::ListSize, 0);
        self.u32(part, count as u32);
        items(self);
        self.spare(spare);
        let size = ((self.bytes.len() - head) as u32).wrapping_neg();
        self.bytes[head..head + 4].copy_from_slice(&size.to_le_bytes());
    }

    fn envelope(&mut self, outside: &Outside, features: bool, payload: impl FnOnce(&mut Self)) {
        self.bytes.clear();
        self.marks.clear();
        self.u16(Part::Version, outside.version);
        self.u16(Part::Minimum, outside.minimum);
        if features {
            for _ in 0..outside.redundant {
                self.u64(Part::Feature, 1 << 63);
            }
            self.u64(Part::Feature, 0);
        }
        payload(self);
        self.spare(outside.spare);
        self.bytes.extend_from_slice(&[0; 4]);
        seal(&mut self.bytes);
    }

    pub fn header(&mut self, header: &Header) {
        self.envelope(&header.outside, true, |writer| {
            writer.string(&header.name);
            writer.string(&header.description);
            writer.list(
                Part::ListCount,
                header.fields.items.len(),
                header.fields.spare,
                |writer| {
                    for field in &header.fields.items {
                        writer.field(field);
                    }
                },
            );
            writer.list(
                Part::ListCount,
                header.columns.items.len(),
                header.columns.spare,
                |writer| {
                    for column in &header.columns.items {
                        writer.record(column.spare, |writer| {
                            writer.u16(Part::ColumnType, column.column_type);
                            writer.u16(Part::Bits, column.bits);
                            writer.u32(Part::ColumnField, column.field);
                            writer.u32(Part::ColumnFlags, column.flags);
                        });
                    }
                },
            );
            writer.list(
                Part::ListCount,
                header.aliases.items.len(),
                header.aliases.spare,
                |writer| {
                    for alias in &header.aliases.items {
                        writer.record(alias.spare, |writer| {
                            writer.u32(Part::AliasColumn, alias.column);
                            writer.u32(Part::AliasField, alias.field);
                        });
                    }
                },
            );
        });
    }

    fn field(&mut self, field: &Field) {
        self.record(field.spare, |writer| {
            writer.u32(Part::FieldVersion, field.field_version);
            writer.u32(Part::FieldVersion, field.type_version);
            writer.u32(Part::Parent, field.parent);
            writer.u16(Part::Role, field.role);
            writer.u16(Part::FieldFlags, field.flags);
            if field.flags & 0x01 != 0 {
                writer.u64(Part::Repetition, field.repetition);
            }
            for string in &field.strings {
                writer.string(string);
            }
        });
    }

    pub fn footer(&mut self, footer: &Footer) {
        self.envelope(&footer.outside, true, |writer| {
            writer.u32(Part::HeaderChecksum, footer.header_checksum);
            for spare in footer.empty_spare {
                writer.list(Part::EmptyCount, 0, spare, |_| {});
            }
            writer.list(
                Part::ListCount,
                footer.clusters.items.len(),
                footer.clusters.spare,
                |writer| {
                    for cluster in &footer.clusters.items {
                        writer.record(cluster.spare, |writer| {
                            writer.u64(Part::FirstEntry, cluster.first);
                            writer.u64(Part::EntryCount, cluster.entries);
                            writer.link(&cluster.link);
                            if let Some(checksum) = cluster.checksum {
                                writer.u32(Part::ListChecksum, checksum);
                            }
                        });
                    }
                },
            );
            writer.list(
                Part::ListCount,
                footer.metadata.items.len(),
                footer.metadata.spare,
                |writer| {
                    for link in &footer.metadata.items {
                        writer.link(link);
                    }
                },
            );
        });
    }

    fn link(&mut self, link: &Link) {
        self.u32(Part::LinkSize, link.size);
        self.u32(Part::StoredSize, link.size);
        self.u64(Part::Offset, link.offset);
    }

    pub fn page_list(&mut self, page_list: &PageList) {
        self.envelope(&page_list.outside, false, |writer| {
            let columns = &page_list.columns;
            writer.list(Part::ListCount, columns.items.len(), columns.spare, |writer| {
                for pages in &columns.items {
                    writer.list(Part::ListCount, pages.items.len(), pages.spare, |writer| {
                        for page in &pages.items {
                            writer.u32(Part::Elements, page.elements | u32::from(page.checksum) << 30);
                            writer.u32(Part::StoredSize, page.size);
                            writer.u64(Part::Offset, page.offset);
                        }
                    });
                }
            });
        });
    }
}
