//! Tables of footers.

use super::{any_row, left_over, listed, other, other_rows, other_word, LISTED};
use crate::generate::envelopes::row_checksum;
use crate::generate::random::Random;
use crate::generate::{edges, models, Generator};
use crate::reference::footer::{CLUSTER_WORDS, LINK_WORDS, MOST_ENTRIES, NO_CHECKSUM};
use crate::reference::read_footer;
use crate::reference::writing::footer::Tables;
use crate::writer::{stored_checksum, Footer};

/// Where a cluster row has what is damaged by itself; a link has its size and
/// its offset from its first word on.
const ENTRIES: usize = 1;
const LINK: usize = 2;
const CHECKSUM: usize = 4;

/// What is lent to the writer of a footer.
#[derive(Clone, Default)]
pub struct WriteFooterCase {
    pub header: Vec<u8>,
    pub file_length: u64,
    pub clusters: Vec<u64>,
    pub metadata: Vec<u64>,
    /// Bytes.
    pub out: usize,
    pub result: usize,
}

impl WriteFooterCase {
    pub fn tables(&self) -> Tables<'_> {
        Tables::new(&self.clusters, &self.metadata)
    }
}

/// The tables of a footer.
fn tables(model: &Footer, file_length: u64) -> WriteFooterCase {
    let clusters = model.clusters.items.iter();
    let rows = clusters.flat_map(|cluster| {
        [
            cluster.first,
            cluster.entries,
            cluster.link.size.into(),
            cluster.link.offset,
            row_checksum(cluster),
        ]
    });
    let metadata = model.metadata.items.iter();
    WriteFooterCase {
        file_length,
        clusters: rows.collect(),
        metadata: metadata.flat_map(|link| [u64::from(link.size), link.offset]).collect(),
        ..Default::default()
    }
}

/// The tables as a reader leaves them.
fn read_back(case: &WriteFooterCase, footer: &[u8]) -> Option<WriteFooterCase> {
    let mut case = case.clone();
    case.clusters.fill(0);
    case.metadata.fill(0);
    let (header, file_length) = (&case.header, case.file_length);
    let (answer, _) = read_footer(header, footer, file_length, &mut case.clusters, &mut case.metadata);
    (answer == 0).then_some(case)
}

/// So many words the rows of the two tables have.
const WORDS: u64 = (CLUSTER_WORDS + LINK_WORDS) as u64;

/// A footer that has both kinds of rows and is right, with checksums or without.
fn small(random: &mut Random) -> WriteFooterCase {
    let mut case = WriteFooterCase {
        file_length: random.pick(&[10_000, 1 << 40, u64::MAX]),
        ..Default::default()
    };
    let checksums = random.one_in(2);
    let mut link = || {
        let size = random.below(5_000);
        [size, models::offset(random, size, case.file_length)]
    };
    let links: Vec<[u64; LINK_WORDS]> = (0..5).map(|_| link()).collect();
    let mut first = 0;
    for [size, offset] in &links[..3] {
        let entries = random.below(1_000);
        let checksum = match checksums {
            true => random.below(1 << 32),
            false => NO_CHECKSUM,
        };
        case.clusters.extend([first, entries, *size, *offset, checksum]);
        first += entries;
    }
    case.metadata = links[3..].concat();
    case
}

/// One word of a right footer replaced: every word, every number that is listed.
fn one_word(random: &mut Random, place: u64) -> Option<WriteFooterCase> {
    let (word, number) = ((place / LISTED) as usize, place % LISTED);
    if word >= WORDS as usize {
        return None;
    }
    let mut case = small(random);
    let word = match word.checked_sub(CLUSTER_WORDS) {
        None => {
            let row = any_row(random, &case.clusters, CLUSTER_WORDS).unwrap_or(0);
            &mut case.clusters[row + word]
        }
        Some(word) => {
            let row = any_row(random, &case.metadata, LINK_WORDS).unwrap_or(0);
            &mut case.metadata[row + word]
        }
    };
    *word = listed(number, *word);
    Some(case)
}

/// So many edge cases `edges::footer` has.
const EDGES: u64 = 11;

/// Counts far above their ceilings, up to the longest envelope and above.
fn largest(random: &mut Random, place: u64) -> Option<WriteFooterCase> {
    let mut case = small(random);
    case.clusters.truncate(CLUSTER_WORDS);
    case.clusters[ENTRIES] = 0;
    let mut repeat = |clusters: usize, metadata: usize, checksum: u64| {
        case.clusters[CHECKSUM] = checksum;
        case.clusters = case.clusters.repeat(clusters);
        case.metadata = case.metadata[..LINK_WORDS].repeat(metadata);
    };
    match place {
        // Without checksums 52 bytes, 36 for a cluster, 16 for a link.
        0 => repeat(29_123, 6, NO_CHECKSUM),
        1 => repeat(29_123, 7, NO_CHECKSUM),
        2 => repeat(29_124, 5, NO_CHECKSUM),
        // With checksums 40 for a cluster.
        3 => repeat(26_213, 0, 7),
        4 => repeat(26_214, 0, 7),
        // Long enough with checksums alone.
        5 => repeat(27_000, 0, random.pick(&[7, NO_CHECKSUM])),
        6 => repeat(1, 65_530, 7),
        7 => repeat(1, 65_531, 7),
        // Mixed rows are refused before the length, the last one too.
        8 => {
            repeat(29_130, 0, NO_CHECKSUM);
            let row = random.pick(&[0, 1, 29_129]) * CLUSTER_WORDS;
            case.clusters[row + CHECKSUM] = random.pick(&[0, NO_CHECKSUM + 1, u64::MAX]);
        }
        // One row too many, and something wrong with a row.
        9 | 10 => {
            repeat(1_025, 2, 7);
            other_word(random, &mut [&mut case.clusters]);
        }
        11 | 12 => {
            repeat(3, 65, 7);
            other_word(random, &mut [&mut case.clusters, &mut case.metadata]);
        }
        // No clusters at all.
        13 => repeat(0, 2, 7),
        _ => return None,
    }
    Some(case)
}

const LARGEST: u64 = 14;

/// Something wrong, at one place.
fn damage(random: &mut Random, case: &mut WriteFooterCase) {
    let cluster = any_row(random, &case.clusters, CLUSTER_WORDS);
    let metadata = any_row(random, &case.metadata, LINK_WORDS).filter(|_| random.one_in(2));
    let link = match (metadata, cluster) {
        (Some(at), _) => case.metadata.get_mut(at..at + LINK_WORDS),
        (None, Some(at)) => case.clusters.get_mut(at + LINK..at + LINK + LINK_WORDS),
        (None, None) => None,
    };
    match (random.below(12), cluster, link) {
        (0, Some(row), _) => {
            let first = &mut case.clusters[row];
            *first = match random.below(3) {
                0 => first.wrapping_add(1),
                1 => first.wrapping_sub(1),
                _ => other(random, *first),
            };
        }
        (1, Some(row), _) => {
            let entries = &mut case.clusters[row + ENTRIES];
            *entries = match random.below(3) {
                0 => entries.wrapping_add(1),
                1 => entries.wrapping_sub(1),
                _ => other(random, *entries),
            };
        }
        // The sum at its end, or one further.
        (2, Some(_), _) => {
            let last = case.clusters.len() - CLUSTER_WORDS;
            let first = case.clusters[last];
            case.clusters[last + ENTRIES] = (MOST_ENTRIES - first.min(MOST_ENTRIES)) + random.below(2);
        }
        (3 | 4, _, Some([size, _])) => {
            *size = match random.below(4) {
                0 => 1 << 31,
                1 => (1 << 31) - 1,
                2 => size.wrapping_add(1),
                _ => other(random, *size),
            }
        }
        (5 | 6, _, Some([size, offset])) => {
            let end = case.file_length.wrapping_sub(*size);
            *offset = match random.below(4) {
                0 => end,
                1 | 2 => end.wrapping_add(1),
                _ => other(random, *offset),
            }
        }
        (7 | 8, Some(row), _) => {
            let checksum = &mut case.clusters[row + CHECKSUM];
            *checksum = match random.below(8) {
                0..=2 => *checksum ^ NO_CHECKSUM,
                3 => NO_CHECKSUM,
                4 => NO_CHECKSUM + 1,
                5 => NO_CHECKSUM - 1,
                6 => u64::MAX,
                _ => other(random, *checksum),
            };
        }
        // The same in all rows.
        (9, Some(_), _) => {
            let checksum = random.pick(&[0, NO_CHECKSUM - 1, NO_CHECKSUM, NO_CHECKSUM + 1, u64::MAX]);
            let rows = case.clusters.chunks_exact_mut(CLUSTER_WORDS);
            rows.for_each(|row| row[CHECKSUM] = checksum);
        }
        (10, ..) => match random.below(3) {
            0 => other_rows(random, &mut case.clusters, CLUSTER_WORDS),
            1 => other_rows(random, &mut case.metadata, LINK_WORDS),
            _ => case.file_length = other(random, case.file_length),
        },
        _ => {
            other_word(random, &mut [&mut case.clusters, &mut case.metadata]);
        }
    }
}

impl Generator {
    pub fn write_footer_case(&mut self) -> WriteFooterCase {
        let header = models::header(&mut self.random);
        let spoilt_header = self.random.one_in(12);
        let header = self.header_bytes(&header, spoilt_header);
        let checksum = stored_checksum(&header);
        let place = self.place.saturating_sub(EDGES);
        let edge = edges::footer(&mut self.random, self.place, checksum)
            .map(|(model, file_length)| tables(&model, file_length))
            .or_else(|| largest(&mut self.random, place))
            .or_else(|| one_word(&mut self.random, place - LARGEST));
        let whole = edge.is_none();
        let mut case = edge.unwrap_or_else(|| {
            let (mut model, file_length) = models::footer(&mut self.random, checksum);
            // The rows of a newer version have checksums as those of version 2.
            model.outside = Default::default();
            model.outside.version = if model.clusters.items.iter().any(|row| row.checksum.is_some()) {
                2
            } else {
                1
            };
            let made = WriteFooterCase {
                header: header.clone(),
                ..tables(&model, file_length)
            };
            if self.random.one_in(2) {
                return made;
            }
            let footer = self.footer_bytes(&model, false);
            read_back(&made, &footer).unwrap_or(made)
        });
        case.header = header;
        if whole && self.random.below(8) < 5 {
            damage(&mut self.random, &mut case);
            if self.random.one_in(3) {
                damage(&mut self.random, &mut case);
            }
        }
        left_over(&mut self.random, &mut case.clusters, CLUSTER_WORDS);
        left_over(&mut self.random, &mut case.metadata, LINK_WORDS);
        let tables = case.tables();
        let length = tables.length(tables.checksums().unwrap_or(false));
        case.out = self.out(length);
        case.result = self.result(1);
        case
    }
}
