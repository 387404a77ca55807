//! Models that keep the rules, up to a few parents that go in circles.

use super::random::Random;
use crate::reference::pages::stored_bits;
use crate::writer::*;

/// Sometimes a newer version, which may have spare bytes. Minimum versions go
/// up to `supported`.
fn outside(random: &mut Random, spare: &mut Spare, features: bool, supported: u16) -> Outside {
    let version = match random.below(8) {
        0..=4 => 1,
        5 => 2,
        6 => u16::MAX,
        _ => 2 + random.below(5) as u16,
    };
    let minimum = 1 + random.below(u64::from(supported.min(version))) as u16;
    // Spare bytes in some frames, in most of them, or in none.
    *spare = Spare(if version > minimum { random.pick(&[0, 2, 10]) } else { 0 });
    let redundant = if features && random.one_in(6) {
        1 + random.index(3)
    } else {
        0
    };
    Outside {
        version,
        minimum,
        redundant,
        spare: spare.count(random),
    }
}

/// How often a frame has spare bytes, out of ten.
#[derive(Clone, Copy)]
struct Spare(u64);

impl Spare {
    fn count(self, random: &mut Random) -> usize {
        if self.0 > 0 && random.below(11) <= self.0 {
            let most = random.pick(&[4, 4, 8, 24]);
            1 + random.index(most)
        } else {
            0
        }
    }
}

pub fn string(random: &mut Random) -> Vec<u8> {
    let length = match random.below(400) {
        0 => 300 + random.index(2_000),
        1..=30 => random.index(40),
        31..=200 => random.index(6),
        _ => 0,
    };
    if random.one_in(2) {
        return characters(random, length);
    }
    let mut bytes = random.bytes(length);
    for byte in &mut bytes {
        *byte &= 0x7F;
    }
    bytes
}

/// Well-formed UTF-8 of at most so many bytes, often at the ends of the encoding's ranges; short ones are often ASCII up to their last
/// characters.
pub fn characters(random: &mut Random, most: usize) -> Vec<u8> {
    let mut text = String::new();
    let ascii = if random.one_in(2) {
        most.saturating_sub(random.index(9))
    } else {
        0
    };
    loop {
        let number = match random.below(6) {
            _ if text.len() < ascii => random.below(0x80) as u32,
            0 => random.pick(&[
                0, 0x7F, 0x80, 0x7FF, 0x800, 0xFFF, 0x1000, 0xCFFF, 0xD000, 0xD7FF, 0xE000, 0xFFFF,
            ]),
            1 => random.pick(&[0x1_0000, 0x3_FFFF, 0x4_0000, 0xF_FFFF, 0x10_0000, 0x10_FFFF]),
            2 => random.below(0x11_0000) as u32,
            3 => random.below(0x800) as u32,
            _ => random.below(0x80) as u32,
        };
        let character = char::from_u32(number).unwrap_or('?');
        if text.len() + character.len_utf8() > most {
            return text.into_bytes();
        }
        text.push(character);
    }
}

fn count(random: &mut Random) -> usize {
    match random.below(64) {
        0 => random.index(40),
        1..=7 => random.index(10),
        8..=20 => 0,
        _ => 1 + random.index(3),
    }
}

/// Parents as they may stand in a list: any order, every chain ends.
pub fn parents(random: &mut Random, count: usize, chain: bool) -> Vec<u32> {
    let mut order: Vec<u32> = (0..count as u32).collect();
    for i in (1..count).rev() {
        order.swap(i, random.index(i + 1));
    }
    let mut parents = vec![0; count];
    for i in 0..count {
        let above = if chain {
            i.saturating_sub(1)
        } else {
            random.index(i + 1)
        };
        parents[order[i] as usize] = order[above];
    }
    parents
}

pub fn column(random: &mut Random, fields: usize) -> Column {
    let column_type = match random.below(12) {
        0 => random.pick(&[0, 29, 30, 0x0101, 0x0106, 0x8001, u16::MAX]),
        _ => 1 + random.below(28) as u16,
    };
    let bits =
        stored_bits(u32::from(column_type)).unwrap_or_else(|| random.pick(&[0, 1, 7, 8, 12, 32, 64, 96, u16::MAX]));
    Column {
        column_type,
        bits,
        field: random.below(fields as u64) as u32,
        flags: random.below(8) as u32,
        spare: 0,
    }
}

pub fn header(random: &mut Random) -> Header {
    let mut spare = Spare(0);
    let outside = outside(random, &mut spare, true, 1);
    let fields = count(random);
    let chain = random.one_in(8);
    let mut parents = parents(random, fields, chain);
    // Plain top-level fields matter for totals, circles for refusal 15.
    match random.below(24) {
        0 | 1 => parents
            .iter_mut()
            .for_each(|parent| *parent = random.below(fields as u64) as u32),
        2..=9 => parents
            .iter_mut()
            .enumerate()
            .for_each(|(i, parent)| *parent = i as u32),
        _ => {}
    }
    let fields: Vec<Field> = parents
        .into_iter()
        .map(|parent| Field {
            field_version: random.number() as u32,
            type_version: random.number() as u32,
            parent,
            role: random.below(5) as u16,
            flags: random.pick(&[0, 0, 0, 1, 2, 2, 3]),
            repetition: random.number(),
            strings: std::array::from_fn(|_| string(random)),
            spare: spare.count(random),
        })
        .collect();
    let columns: Vec<Column> = if fields.is_empty() {
        Vec::new()
    } else {
        (0..count(random))
            .map(|_| Column {
                spare: spare.count(random),
                ..column(random, fields.len())
            })
            .collect()
    };
    let targets: Vec<u32> = (0..fields.len() as u32)
        .filter(|&field| fields[field as usize].flags & 2 != 0)
        .collect();
    let aliases = if targets.is_empty() || columns.is_empty() || random.one_in(3) {
        Vec::new()
    } else {
        (0..count(random))
            .map(|_| Alias {
                column: random.below(columns.len() as u64) as u32,
                field: random.pick(&targets),
                spare: spare.count(random),
            })
            .collect()
    };
    Header {
        outside,
        name: string(random),
        description: string(random),
        fields: List {
            items: fields,
            spare: spare.count(random),
        },
        columns: List {
            items: columns,
            spare: spare.count(random),
        },
        aliases: List {
            items: aliases,
            spare: spare.count(random),
        },
    }
}

/// A file length that holds ranges of up to `least` bytes.
pub fn file_length(random: &mut Random, least: u64) -> u64 {
    match random.below(8) {
        0 => least,
        1 => least + random.below(4),
        2 => least.max(1 << 63),
        3 => u64::MAX,
        4 => u64::MAX - random.below(4),
        _ => least + random.below(1 << 40),
    }
}

/// An offset of a range inside the file, often up to its last byte.
pub fn offset(random: &mut Random, size: u64, file_length: u64) -> u64 {
    match random.below(4) {
        0 => 0,
        1 => file_length - size,
        _ => random.up_to(file_length - size),
    }
}

fn link_size(random: &mut Random) -> u32 {
    match random.below(8) {
        0 => 0,
        1 => 0x7FFF_FFFF,
        2 => random.number() as u32 & 0x7FFF_FFFF,
        _ => random.below(5_000) as u32,
    }
}

/// Whether the cluster records of such a footer have the checksums of their
/// page lists.
pub fn carries_checksums(outside: &Outside) -> bool {
    outside.version >= 2
}

/// Gives the footer and the file length.
pub fn footer(random: &mut Random, header_checksum: u32) -> (Footer, u64) {
    let mut spare = Spare(0);
    let outside = outside(random, &mut spare, true, 2);
    let mut clusters: Vec<Cluster> = (0..count(random))
        .map(|_| Cluster {
            link: Link {
                size: link_size(random),
                offset: 0,
            },
            checksum: carries_checksums(&outside).then(|| random.number() as u32),
            spare: spare.count(random),
            ..Default::default()
        })
        .collect();
    let mut metadata: Vec<Link> = (0..count(random))
        .map(|_| Link {
            size: link_size(random),
            offset: 0,
        })
        .collect();
    let links = || {
        clusters
            .iter()
            .map(|cluster| cluster.link.size)
            .chain(metadata.iter().map(|link| link.size))
    };
    let file_length = file_length(random, links().max().map_or(0, u64::from));
    let mut sum = 0;
    for cluster in &mut clusters {
        let left = (1 << 60) - 1 - sum;
        cluster.first = sum;
        cluster.entries = match random.below(16) {
            0 => left,
            1 => random.up_to(left),
            _ => random.below(1_000).min(left),
        };
        sum += cluster.entries;
        cluster.link.offset = offset(random, u64::from(cluster.link.size), file_length);
    }
    for link in &mut metadata {
        link.offset = offset(random, u64::from(link.size), file_length);
    }
    let footer = Footer {
        outside,
        header_checksum,
        empty_spare: [spare.count(random), spare.count(random)],
        clusters: List {
            items: clusters,
            spare: spare.count(random),
        },
        metadata: List {
            items: metadata,
            spare: spare.count(random),
        },
    };
    (footer, file_length)
}

/// Whether the column's elements have to be as many as the entries.
fn counts_entries(header: &Header, column: usize) -> bool {
    let own = header.columns.items[column];
    let field = &header.fields.items[own.field as usize];
    field.parent == own.field
        && field.flags & 3 == 0
        && stored_bits(u32::from(own.column_type)).is_some()
        && header.columns.items[..column]
            .iter()
            .all(|earlier| earlier.field != own.field)
}

pub fn page_size(elements: u32, bits: u16) -> u64 {
    (u64::from(elements) * u64::from(bits)).div_ceil(8)
}

/// The most elements of a page whose size still is a stored size.
fn most_elements(bits: u16) -> u64 {
    let most = (1 << 30) - 1;
    if bits == 0 {
        most
    } else {
        most.min(0x7FFF_FFFF * 8 / u64::from(bits))
    }
}

fn pages(random: &mut Random, bits: u16, mut elements: u64) -> Vec<Page> {
    let most = most_elements(bits);
    let mut pages = Vec::new();
    let mut cuts = random.below(3);
    while elements > 0 || random.one_in(8) {
        let whole = elements.min(most);
        let own = if cuts > 0 { random.up_to(whole) } else { whole } as u32;
        cuts = cuts.saturating_sub(1);
        elements -= u64::from(own);
        pages.push(Page {
            elements: own,
            checksum: random.one_in(2),
            size: page_size(own, bits) as u32,
            offset: 0,
        });
    }
    pages
}

/// Gives the page list, the entries and the file length.
pub fn page_list(random: &mut Random, header: &Header) -> (PageList, u64, u64) {
    let mut spare = Spare(0);
    let outside = outside(random, &mut spare, false, 1);
    let entries = match random.below(16) {
        0 => random.below(1 << 30),
        1 => 0,
        _ => random.below(100),
    };
    let mut columns: Vec<List<Page>> = (0..header.columns.items.len())
        .map(|column| {
            let elements = if counts_entries(header, column) {
                entries
            } else {
                random.below(50)
            };
            let items = pages(random, header.columns.items[column].bits, elements);
            List {
                items,
                spare: spare.count(random),
            }
        })
        .collect();
    let largest = columns.iter().flat_map(|list| &list.items).map(Page::bytes).max();
    let file_length = file_length(random, largest.unwrap_or(0));
    for page in columns.iter_mut().flat_map(|list| &mut list.items) {
        page.offset = offset(random, page.bytes(), file_length);
    }
    let columns = List {
        items: columns,
        spare: spare.count(random),
    };
    (PageList { outside, columns }, entries, file_length)
}

/// Spare bytes at the end of one container alone, any of them as likely: the
/// one thing that is wrong with it while version equals minimum.
fn one_spare(random: &mut Random, mut spares: Vec<&mut usize>) {
    let at = random.index(spares.len());
    *spares[at] += 1 + random.index(8);
}

pub fn one_spare_in_header(random: &mut Random, header: &mut Header) {
    let mut spares = vec![&mut header.outside.spare];
    spares.extend([
        &mut header.fields.spare,
        &mut header.columns.spare,
        &mut header.aliases.spare,
    ]);
    spares.extend(header.fields.items.iter_mut().map(|field| &mut field.spare));
    spares.extend(header.columns.items.iter_mut().map(|column| &mut column.spare));
    spares.extend(header.aliases.items.iter_mut().map(|alias| &mut alias.spare));
    one_spare(random, spares);
}

pub fn one_spare_in_footer(random: &mut Random, footer: &mut Footer) {
    let mut spares = vec![&mut footer.outside.spare];
    spares.extend([&mut footer.clusters.spare, &mut footer.metadata.spare]);
    spares.extend(&mut footer.empty_spare);
    spares.extend(footer.clusters.items.iter_mut().map(|cluster| &mut cluster.spare));
    one_spare(random, spares);
}

/// One cluster record without the checksum that is due, or with one that is
/// not.
pub fn one_checksum_amiss(random: &mut Random, footer: &mut Footer) {
    let clusters = &mut footer.clusters.items;
    if !clusters.is_empty() {
        let at = random.index(clusters.len());
        clusters[at].checksum = match clusters[at].checksum {
            Some(_) => None,
            None => Some(random.number() as u32),
        };
    }
}

pub fn one_spare_in_page_list(random: &mut Random, page_list: &mut PageList) {
    let mut spares = vec![&mut page_list.outside.spare, &mut page_list.columns.spare];
    spares.extend(page_list.columns.items.iter_mut().map(|list| &mut list.spare));
    one_spare(random, spares);
}

/// The same content from a newer writer: more spare bytes at frames' ends.
pub fn newer_outside(random: &mut Random, outside: &mut Outside) {
    outside.version = outside.version.saturating_add(1 + random.below(3) as u16);
    more(random, &mut outside.spare);
}

fn more(random: &mut Random, spare: &mut usize) {
    if random.one_in(2) {
        *spare += 1 + random.index(12);
    }
}

pub fn newer_header(random: &mut Random, header: &Header) -> Header {
    let mut newer = header.clone();
    newer_outside(random, &mut newer.outside);
    for list in [
        &mut newer.fields.spare,
        &mut newer.columns.spare,
        &mut newer.aliases.spare,
    ] {
        more(random, list);
    }
    newer
        .fields
        .items
        .iter_mut()
        .for_each(|field| more(random, &mut field.spare));
    newer
        .columns
        .items
        .iter_mut()
        .for_each(|column| more(random, &mut column.spare));
    newer
        .aliases
        .items
        .iter_mut()
        .for_each(|alias| more(random, &mut alias.spare));
    newer
}

pub fn newer_footer(random: &mut Random, footer: &Footer) -> Footer {
    let mut newer = footer.clone();
    newer_outside(random, &mut newer.outside);
    newer.empty_spare.iter_mut().for_each(|spare| more(random, spare));
    more(random, &mut newer.clusters.spare);
    more(random, &mut newer.metadata.spare);
    for cluster in &mut newer.clusters.items {
        more(random, &mut cluster.spare);
        // A footer that carries no checksums yet gets them with its new version.
        cluster.checksum = cluster.checksum.or_else(|| Some(random.number() as u32));
    }
    newer
}

/// A page list with the same counts, for a file of the same length, that is
/// not the same bytes: a page stands elsewhere, or only the version differs
/// where no page can.
pub fn stale_page_list(random: &mut Random, page_list: &PageList, file_length: u64) -> PageList {
    let mut stale = page_list.clone();
    let mut movable: Vec<&mut Page> = stale
        .columns
        .items
        .iter_mut()
        .flat_map(|list| &mut list.items)
        .filter(|page| page.bytes() < file_length)
        .collect();
    if movable.is_empty() {
        let version = &mut stale.outside.version;
        *version = version.checked_add(1).unwrap_or(2);
        return stale;
    }
    let at = random.index(movable.len());
    let page = &mut movable[at];
    let old = page.offset;
    page.offset = offset(random, page.bytes(), file_length);
    if page.offset == old {
        page.offset = if old == 0 { 1 } else { old - 1 };
    }
    stale
}

pub fn newer_page_list(random: &mut Random, page_list: &PageList) -> PageList {
    let mut newer = page_list.clone();
    newer_outside(random, &mut newer.outside);
    more(random, &mut newer.columns.spare);
    newer
        .columns
        .items
        .iter_mut()
        .for_each(|list| more(random, &mut list.spare));
    newer
}
