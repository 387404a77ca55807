//! Ceilings at their edge, long chains, sums at their end: the large cases.

use super::models::{self, page_size, parents};
use super::random::Random;
use crate::reference::envelope::ENVELOPE_CEILING;
use crate::writer::*;

pub const MOST_ENTRIES: u64 = (1 << 60) - 1;

/// So many edge cases `header` has.
pub const HEADERS: u64 = 18;

/// So many edge cases `page_list` has.
pub const PAGE_LISTS: u64 = 12;

/// The one with as many columns and pages as there can be, pages in each column.
pub const MOST_COLUMNS_AND_PAGES: u64 = 2;

fn fields(random: &mut Random, parents: Vec<u32>) -> Vec<Field> {
    parents
        .into_iter()
        .map(|parent| Field {
            parent,
            flags: random.pick(&[0, 2]),
            strings: [models::string(random), models::string(random), Vec::new(), Vec::new()],
            ..Default::default()
        })
        .collect()
}

fn columns(random: &mut Random, count: usize, fields: usize) -> Vec<Column> {
    (0..count).map(|_| models::column(random, fields)).collect()
}

fn with_fields(random: &mut Random, parents: Vec<u32>) -> Header {
    Header {
        fields: List {
            items: fields(random, parents),
            spare: 0,
        },
        ..Default::default()
    }
}

/// A header whose first field takes aliases.
fn with_items(random: &mut Random, field_count: usize, column_count: usize, alias_count: usize) -> Header {
    let chain = random.one_in(2);
    let parents = parents(random, field_count, chain);
    let mut header = with_fields(random, parents);
    header.fields.items[0].flags = 2;
    header.columns.items = columns(random, column_count, field_count);
    header.aliases.items = (0..alias_count)
        .map(|_| Alias {
            column: random.below(column_count as u64) as u32,
            ..Default::default()
        })
        .collect();
    header
}

fn header_length(header: &Header) -> usize {
    let mut writer = Writer::default();
    writer.header(header);
    writer.bytes.len()
}

pub fn header(random: &mut Random, place: u64) -> Option<Header> {
    Some(match place {
        0 => with_items(random, 512, 3, 2),
        1 => with_items(random, 513, 3, 2),
        2 => {
            let parents = parents(random, 512, true);
            with_fields(random, parents)
        }
        // A chain through all fields that comes back to one of them.
        3 => {
            let mut parents = parents(random, 512, true);
            let top = (0..512).find(|&i| parents[i] == i as u32).unwrap_or(0);
            parents[top] = (top as u32 + 1 + random.below(511) as u32) % 512;
            with_fields(random, parents)
        }
        4 => with_fields(random, (0..512u32).map(|i| i.saturating_sub(1)).collect()),
        5 => with_fields(random, (0..512u32).map(|i| (i + 1).min(511)).collect()),
        6 => with_items(random, 1, 1_024, 0),
        7 => with_items(random, 1, 1_025, 0),
        8 => with_items(random, 2, 1, 256),
        9 => with_items(random, 2, 1, 257),
        10 => with_items(random, 512, 1_024, 256),
        11 | 12 => {
            let mut header = with_items(random, 2, 2, 1);
            let length = ENVELOPE_CEILING - header_length(&header) + (place - 11) as usize;
            header.name = vec![b'n'; length];
            header
        }
        13 => {
            let mut header = with_items(random, 2, 2, 1);
            header.outside.version = 2;
            header.outside.spare = ENVELOPE_CEILING - header_length(&header);
            header
        }
        14 => {
            let mut header = with_items(random, 2, 2, 1);
            header.outside.version = 2;
            header.fields.items[1].spare = ENVELOPE_CEILING - header_length(&header);
            header
        }
        // Darkness from the bottom of a long chain, through all of it.
        15 => {
            let mut header = with_fields(random, (0..512u32).map(|i| (i + 1).min(511)).collect());
            header.columns.items = vec![Column {
                column_type: 29,
                bits: 3,
                field: random.below(3) as u32,
                ..Default::default()
            }];
            header
        }
        16 => with_fields(random, (0..512u32).map(|i| (i + 1) % 512).collect()),
        17 => with_fields(random, vec![511; 512]),
        _ => return None,
    })
}

pub fn footer(random: &mut Random, place: u64, header_checksum: u32) -> Option<(Footer, u64)> {
    let mut footer = Footer {
        header_checksum,
        ..Default::default()
    };
    let outside = &mut footer.outside;
    (outside.version, outside.minimum) = match place {
        7 | 8 => (2, 1),
        _ => random.pick(&[(1, 1), (2, 1), (2, 2)]),
    };
    let checksums = models::carries_checksums(outside);
    let mut file_length = 1 << 40;
    let link = |random: &mut Random| Link {
        size: 1_000,
        offset: random.below(1 << 39),
    };
    let cluster = |random: &mut Random| Cluster {
        entries: random.below(1 << 40),
        link: link(random),
        checksum: checksums.then(|| random.number() as u32),
        ..Default::default()
    };
    let (clusters, metadata) = match place {
        0 => (1_024, 2),
        1 => (1_025, 0),
        2 => (1, 64),
        3 => (1, 65),
        4..=6 => (1_024, 64),
        7..=9 => (3, 3),
        10 => (4, 0),
        _ => return None,
    };
    footer.clusters.items = (0..clusters).map(|_| cluster(random)).collect();
    footer.metadata.items = (0..metadata).map(|_| link(random)).collect();
    let mut sum = 0;
    for i in 0..clusters {
        // The last cluster takes the sum to its end, or one further.
        let cluster = &mut footer.clusters.items[i];
        if matches!(place, 5 | 6) && i + 1 == clusters {
            cluster.entries = MOST_ENTRIES - sum + (place - 5);
        }
        cluster.first = sum;
        sum += cluster.entries;
    }
    match place {
        7 | 8 => {
            let mut writer = Writer::default();
            writer.footer(&footer);
            footer.metadata.spare = ENVELOPE_CEILING - writer.bytes.len() + (place - 7) as usize;
        }
        9 => {
            file_length = u64::MAX;
            footer.metadata.items[0].offset = u64::MAX - 1_000;
            footer.metadata.items[1].offset = u64::MAX - 999;
        }
        10 => {
            // Counts that together would wrap.
            let entries = random.pick(&[1 << 59, MOST_ENTRIES, 1 << 58]);
            for (i, cluster) in footer.clusters.items.iter_mut().enumerate() {
                cluster.entries = entries;
                cluster.first = entries * i as u64;
            }
        }
        _ => {}
    }
    Some((footer, file_length))
}

/// Gives header, page list, entries and file length.
pub fn page_list(random: &mut Random, place: u64) -> Option<(Header, PageList, u64, u64)> {
    let (columns, pages) = match place {
        0 | 9 | 10 => (1, 16_384),
        1 => (1, 16_385),
        MOST_COLUMNS_AND_PAGES => (1_024, 16_384),
        3 => (1_024, 16_385),
        4 => (1_024, 0),
        5 => (1_025, 0),
        6 => (3, 16_384),
        7 => (3, 16_385),
        8 | 11 => (2, 5),
        _ => return None,
    };
    // Repetitive fields have no totals to keep.
    let mut header = with_items(random, 3, columns.min(1_024), 0);
    for (i, field) in header.fields.items.iter_mut().enumerate() {
        field.flags = 1;
        field.parent = i as u32;
    }
    let mut list = PageList::default();
    list.columns.items = vec![List::default(); columns];
    for page in 0..pages {
        let column = match place {
            2 | 3 => page % 1_024,
            _ => random.index(columns),
        };
        let bits = header.columns.items[column].bits;
        let elements = random.below(100) as u32;
        list.columns.items[column].items.push(Page {
            elements,
            checksum: random.one_in(2),
            size: page_size(elements, bits) as u32,
            offset: random.below(1_000_000),
        });
    }
    let mut entries = random.next();
    match place {
        // As long as an envelope may be, and one byte longer.
        8 | 11 => {
            list.outside.version = 2;
            let mut writer = Writer::default();
            writer.page_list(&list);
            list.columns.spare = ENVELOPE_CEILING - writer.bytes.len() + usize::from(place == 11);
        }
        // The largest total there can be, kept and missed by one.
        9 | 10 => {
            header.columns.items[0] = Column {
                column_type: 6,
                bits: 1,
                ..Default::default()
            };
            header.fields.items[0].flags = 0;
            for page in &mut list.columns.items[0].items {
                page.elements = (1 << 30) - 1;
                page.size = 1 << 27;
            }
            entries = 16_384 * ((1 << 30) - 1) + (place - 9);
        }
        _ => {}
    }
    Some((header, list, entries, 1 << 40))
}
