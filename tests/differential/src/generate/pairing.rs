//! Page lists for cluster rows: those that the row means, stale ones and
//! damaged ones, and rows without a checksum or with one that no list has.

use super::edges::{MOST_ENTRIES, PAGE_LISTS};
use super::envelopes::{row_checksum, PageListCase};
use super::{models, Generator};
use crate::reference::footer::NO_CHECKSUM;
use crate::reference::{page_list, refusal, ACCEPTED, PAGE_LIST};
use crate::writer::{force_checksum, stored_checksum, Cluster, Link};

/// A page list, and what the row has that it is read for.
pub struct PairingCase {
    pub list: PageListCase,
    /// The row's checksum, or that it has none.
    pub checksum: u64,
    /// The footer that the row is read from.
    pub row_of: Option<RowOf>,
}

/// A cluster of a footer that is accepted.
pub struct RowOf {
    pub footer: Vec<u8>,
    /// How many clusters and metadata links the footer has.
    pub rows: [usize; 2],
    pub cluster: usize,
    /// The answer to its pairing with the page list.
    pub due: u32,
}

impl Generator {
    pub fn pairing_case(&mut self) -> PairingCase {
        // Each edge twice: with the checksum of the page list, then with another.
        let edge = self.place / 2;
        if edge >= PAGE_LISTS && self.random.one_in(6) {
            return self.archive_case();
        }
        let mut list = self.page_list_at(edge);
        // Checksums at the ends of their range, and so near to none.
        if edge >= PAGE_LISTS && self.random.one_in(16) {
            let checksum = self.random.pick(&[0, 0, 1, u32::MAX]);
            force_checksum(&mut list.page_list, checksum);
        }
        let own = u64::from(stored_checksum(&list.page_list));
        let checksum = match self.place % 2 {
            0 => own,
            _ => self.other_checksum(own, u64::from(list.undamaged)),
        };
        PairingCase {
            list,
            checksum,
            row_of: None,
        }
    }

    /// None, or a number that is not the page list's or is it in part.
    fn other_checksum(&mut self, own: u64, undamaged: u64) -> u64 {
        let random = &mut self.random;
        match random.below(12) {
            0..=2 => NO_CHECKSUM,
            // The page list was damaged and sealed after the footer was written.
            3 | 4 => undamaged,
            5 => own ^ 1 << random.below(32),
            6 => own ^ 1 << (32 + random.below(32)),
            7 => own + (1 << 32),
            8 => NO_CHECKSUM ^ 1 << random.below(64),
            9 => random.pick(&[0, 1, u64::from(u32::MAX), NO_CHECKSUM + 1, u64::MAX]),
            10 => random.below(1 << 32),
            _ => random.next(),
        }
    }

    /// A footer, and the page list that one of its rows means or a stale one
    /// with the same counts: of right envelopes, so that the answer is known.
    fn archive_case(&mut self) -> PairingCase {
        let mut header = models::header(&mut self.random);
        for (i, field) in header.fields.items.iter_mut().enumerate() {
            field.parent = i as u32;
        }
        let (list, entries, pages_end) = models::page_list(&mut self.random, &header);
        let header = self.header_bytes(&header, false);
        let list_bytes = self.page_list_bytes(&list, false);
        let (mut footer, links_end) = models::footer(&mut self.random, stored_checksum(&header));
        let size = list_bytes.len() as u32;
        let file_length = pages_end.max(links_end).max(u64::from(size));
        let own = stored_checksum(&list_bytes);
        let own_cluster = Cluster {
            entries,
            link: Link {
                size,
                offset: models::offset(&mut self.random, u64::from(size), file_length),
            },
            checksum: models::carries_checksums(&footer.outside).then_some(own),
            ..Default::default()
        };
        let clusters = &mut footer.clusters.items;
        let cluster = self.random.index(clusters.len() + 1);
        clusters.insert(cluster, own_cluster);
        let (mut first, mut left) = (0, MOST_ENTRIES - entries);
        for (i, other) in clusters.iter_mut().enumerate() {
            if i != cluster {
                other.entries = other.entries.min(left);
                left -= other.entries;
            }
            other.first = first;
            first += other.entries;
        }

        let checksum = row_checksum(&own_cluster);
        let mut page_list = list_bytes;
        if self.random.one_in(2) {
            let stale = models::stale_page_list(&mut self.random, &list, file_length);
            page_list = self.page_list_bytes(&stale, false);
        }
        // One stale list in 2^32 has the same checksum.
        let pairs = checksum == NO_CHECKSUM || own == stored_checksum(&page_list);
        let rows: usize = list.columns.items.iter().map(|pages| pages.items.len()).sum();
        PairingCase {
            checksum,
            row_of: Some(RowOf {
                rows: [footer.clusters.items.len(), footer.metadata.items.len()],
                footer: self.footer_bytes(&footer, false),
                cluster,
                due: if pairs { ACCEPTED } else { refusal(PAGE_LIST, 26) },
            }),
            list: PageListCase {
                header,
                page_list,
                undamaged: own,
                entries,
                file_length,
                pages: rows * page_list::PAGE_WORDS,
                result: 1,
                newer: None,
            },
        }
    }
}
