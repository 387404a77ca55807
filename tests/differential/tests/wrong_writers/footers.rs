//! Wrong writers of footers.

use super::{
    cut, exported, filled_up, first_for_all, rewritten, Alter, Call, Instead, Lent, Place, Where, Wrong, CEILING,
};
use differential::compare::Comparer;
use differential::generate::Kind;
use differential::reference::footer::NO_CHECKSUM;
use differential::reference::writing::footer::Tables;
use differential::reference::{write_footer, FOOTER};
use differential::writer::{Header, Writer};

const MOST_ENTRIES: u64 = (1 << 60) - 1;

/// What a writer is lent, to be altered.
#[derive(Clone)]
pub struct Own {
    header: Vec<u8>,
    file_length: u64,
    clusters: Vec<u64>,
    metadata: Vec<u64>,
}

impl Own {
    fn rows(&self) -> impl Iterator<Item = &[u64]> {
        self.clusters.chunks_exact(5)
    }

    fn each_cluster(&mut self, change: impl FnMut(&mut [u64])) {
        self.clusters.chunks_exact_mut(5).for_each(change);
    }

    /// Size and offset of each link.
    fn each_link(&mut self, change: impl FnMut(&mut [u64])) {
        let clusters = self.clusters.chunks_exact_mut(5).map(|row| &mut row[2..4]);
        clusters.chain(self.metadata.chunks_exact_mut(2)).for_each(change);
    }

    fn links(&self) -> impl Iterator<Item = &[u64]> {
        self.rows().map(|row| &row[2..4]).chain(self.metadata.chunks_exact(2))
    }

    fn length(&self) -> u128 {
        let tables = Tables::new(&self.clusters, &self.metadata);
        tables.length(tables.checksums().unwrap_or(false))
    }

    fn mixed(&self) -> bool {
        Tables::new(&self.clusters, &self.metadata).checksums().is_err()
    }

    /// All rows with this checksum.
    fn with_checksums(&self, checksum: u64) -> Own {
        let mut own = self.clone();
        own.each_cluster(|row| row[4] = checksum);
        own
    }
}

impl Lent for Own {
    const ENVELOPE: u32 = FOOTER;
    const KIND: Kind = Kind::WriteFooter;

    fn write(&self, out: &mut [u8], result: &mut [u64]) -> u32 {
        exported(result, || {
            write_footer(&self.header, self.file_length, &self.clusters, &self.metadata, out)
        })
    }

    fn replace(comparer: &mut Comparer, call: impl Fn(Self, &mut [u8], &mut [u64]) -> u32 + 'static) {
        comparer.write_footer = Box::new(move |tables, out, result| {
            let own = Own {
                header: tables.header.to_vec(),
                file_length: tables.file_length,
                clusters: tables.clusters.to_vec(),
                metadata: tables.metadata.to_vec(),
            };
            call(own, out, result)
        });
    }
}

fn first_entries(own: &mut Own) {
    let mut sum = 0u64;
    own.each_cluster(|row| {
        row[0] = sum;
        sum = sum.wrapping_add(row[1]);
    });
}

/// Writers of other tables than those that they are lent.
const ALTERED: &[(&str, Alter<Own>)] = &[
    ("the first cluster for all", |own| first_for_all(&mut own.clusters, 5)),
    ("the first cluster for all, entries counted on", |own| {
        first_for_all(&mut own.clusters, 5);
        first_entries(own);
    }),
    ("the first link for all", |own| first_for_all(&mut own.metadata, 2)),
    ("no metadata", |own| own.metadata.clear()),
    ("no clusters", |own| own.clusters.clear()),
    ("first entries are counted, not compared", first_entries),
    ("first entries are not compared after the first row", |own| {
        let first = own.clusters.first().copied();
        first_entries(own);
        if let Some(first) = first {
            own.clusters[0] = first;
        }
    }),
    ("no entries", |own| {
        own.each_cluster(|row| row[1] = 0);
        first_entries(own);
    }),
    ("the offset before the size", |own| own.each_link(|link| link.reverse())),
    ("offsets of 32 bits", |own| {
        own.each_link(|link| link[1] = cut(link[1], 32))
    }),
    ("sizes of 32 bits", |own| {
        own.each_link(|link| link[0] = cut(link[0], 32))
    }),
    ("sizes of 31 bits, bit 31 left out", |own| {
        own.each_link(|link| link[0] = cut(link[0], 31))
    }),
    ("no checksums", |own| own.each_cluster(|row| row[4] = NO_CHECKSUM)),
    ("checksums of 0", |own| {
        own.each_cluster(|row| row[4] = if row[4] == NO_CHECKSUM { row[4] } else { 0 })
    }),
    ("checksums of 31 bits", |own| {
        own.each_cluster(|row| row[4] = if row[4] < NO_CHECKSUM { cut(row[4], 31) } else { row[4] })
    }),
    ("the first row says whether there are checksums", |own| {
        let none = own.clusters.get(4) == Some(&NO_CHECKSUM);
        own.each_cluster(|row| match none {
            true => row[4] = NO_CHECKSUM,
            false if row[4] == NO_CHECKSUM => row[4] = 0,
            false => {}
        })
    }),
    ("the last row says whether there are checksums", |own| {
        let none = own.rows().last().is_some_and(|row| row[4] == NO_CHECKSUM);
        own.each_cluster(|row| match none {
            true => row[4] = NO_CHECKSUM,
            false if row[4] == NO_CHECKSUM => row[4] = 0,
            false => {}
        })
    }),
    ("every number above a checksum is none", |own| {
        own.each_cluster(|row| row[4] = row[4].min(NO_CHECKSUM))
    }),
    ("all bits set are none", |own| {
        own.each_cluster(|row| row[4] = if row[4] == u64::MAX { NO_CHECKSUM } else { row[4] })
    }),
    ("0 is no checksum", |own| {
        own.each_cluster(|row| row[4] = if row[4] == 0 { NO_CHECKSUM } else { row[4] })
    }),
    ("the largest checksum is none", |own| {
        own.each_cluster(|row| {
            row[4] = if row[4] == u64::from(u32::MAX) {
                NO_CHECKSUM
            } else {
                row[4]
            }
        })
    }),
    ("none is too wide", |own| {
        own.each_cluster(|row| row[4] = if row[4] == NO_CHECKSUM { u64::MAX } else { row[4] })
    }),
    ("no checksum is one of 0", |own| {
        own.each_cluster(|row| row[4] = if row[4] == NO_CHECKSUM { 0 } else { row[4] })
    }),
    ("the file is longer", |own| {
        own.file_length = own.file_length.saturating_add(1)
    }),
    ("the file is shorter", |own| {
        own.file_length = own.file_length.saturating_sub(1)
    }),
    ("the file has any length", |own| own.file_length = u64::MAX),
    ("offset and size together wrap", |own| {
        let end = own.file_length;
        own.each_link(|link| {
            if link[0] >> 31 == 0 && link[1].checked_add(link[0]).is_none() && link[1].wrapping_add(link[0]) <= end {
                link[1] = 0;
            }
        })
    }),
    ("the offset alone is inside", |own| {
        let end = own.file_length;
        own.each_link(|link| {
            link[1] = if link[1] <= end {
                link[1].min(end.saturating_sub(link[0]))
            } else {
                link[1]
            }
        })
    }),
    ("words left over are a cluster", |own| filled_up(&mut own.clusters, 5)),
    ("words left over are a link", |own| filled_up(&mut own.metadata, 2)),
    ("the last cluster is left over", |own| {
        let rows = (own.clusters.len() / 5).saturating_sub(1);
        own.clusters.truncate(rows * 5)
    }),
    ("1,024 clusters at most are written", |own| {
        own.clusters.truncate(1_024 * 5)
    }),
    ("64 links at most are written", |own| own.metadata.truncate(64 * 2)),
    ("the header is not read", |own| {
        let mut writer = Writer::default();
        writer.header(&Header::default());
        own.header = writer.bytes
    }),
];

fn too_wide(own: &Own) -> bool {
    own.links().any(|link| link[0] >> 31 != 0) || own.rows().any(|row| row[1] >> 60 != 0 || row[4] > NO_CHECKSUM)
}

/// The number with this many rows of each table at most.
fn of_first(own: &Own, clusters: usize, links: usize) -> u32 {
    let first = |table: &[u64], words: usize, rows: usize| table[..table.len().min(rows * words)].to_vec();
    let own = Own {
        header: own.header.clone(),
        file_length: own.file_length,
        clusters: first(&own.clusters, 5, clusters),
        metadata: first(&own.metadata, 2, links),
    };
    own.roomy() % 256
}

/// Another number than the reference's, where this holds.
const WHERE: &[(&str, u32, Where<Own>)] = &[
    ("too little room before everything", 20, |own, _, room| {
        own.length() > room as u128
    }),
    ("too little room before mixed rows alone", 20, |own, _, room| {
        own.length() > room as u128 && own.mixed()
    }),
    ("too little room after the length", 20, |own, number, room| {
        own.length() > room as u128 && number != 1 && !own.mixed()
    }),
    ("too little room before the last link", 20, |own, _, room| {
        let links = (own.metadata.len() / 2).saturating_sub(1);
        own.length() > room as u128 && of_first(own, 1_024, links) == 0
    }),
    ("mixed rows after the length", 1, |own, _, _| {
        own.mixed() && own.length() > CEILING
    }),
    ("mixed rows after the count", 10, |own, _, _| {
        own.mixed() && own.clusters.len() / 5 > 1_024
    }),
    ("mixed rows with a number that is no checksum", 25, |own, _, _| {
        own.mixed() && own.rows().any(|row| row[4] > NO_CHECKSUM)
    }),
    ("mixed rows are too wide", 25, |own, _, _| own.mixed()),
    ("mixed rows are found in the first two alone", 0, |own, _, _| {
        let mut first = own.rows().take(2).map(|row| row[4] == NO_CHECKSUM);
        let none = first.next().unwrap_or(true);
        own.mixed() && first.all(|other| other == none)
    }),
    ("the length without checksums", 10, |own, number, _| {
        number == 1 && own.with_checksums(NO_CHECKSUM).length() <= CEILING
    }),
    ("the length always with checksums", 1, |own, _, _| {
        !own.mixed() && own.with_checksums(0).length() > CEILING
    }),
    ("one byte less than the ceiling", 1, |own, _, _| {
        own.length() == CEILING && !own.mixed()
    }),
    ("too long is a count", 10, |_, number, _| number == 1),
    ("too wide before everything", 25, |own, _, _| too_wide(own)),
    ("too wide after the length", 25, |own, number, _| {
        too_wide(own) && !own.mixed() && number != 1
    }),
    ("a cluster's checksum before its link", 25, |own, number, _| {
        let wide = |row: &[u64]| row[4] > NO_CHECKSUM && row[2] >> 31 == 0;
        number == 18 && own.rows().next().is_some_and(wide) && own.clusters.first() == Some(&0)
    }),
    ("sizes of 32 bits, bit 31 is 17", 17, |own, number, _| {
        let narrow = |own: &Own| {
            let mut own = own.clone();
            own.each_link(|link| link[0] &= if link[0] >> 32 == 0 { !(1 << 31) } else { !0 });
            own
        };
        number == 25 && narrow(own).roomy() % 256 != 25
    }),
    ("entry counts of 64 bits, bit 60 is 17", 17, |own, number, _| {
        number == 25 && own.rows().any(|row| row[1] >> 60 & 1 == 1)
    }),
    (
        "entry counts of 64 bits, the highest bits are 12",
        12,
        |own, number, _| number == 25 && own.rows().any(|row| row[1] >> 60 == 2),
    ),
    ("the sum before the count's width", 19, |own, number, _| {
        let first = own.rows().next();
        number == 25 && first.is_some_and(|row| row[0] == 0 && row[1] > MOST_ENTRIES)
    }),
    ("the sum may reach one less", 19, |own, number, _| {
        let sum: u128 = own.rows().map(|row| u128::from(row[1])).sum();
        number == 0 && sum == MOST_ENTRIES.into()
    }),
    ("the sum may reach one more", 0, |own, number, _| {
        let sum: u128 = own.rows().map(|row| u128::from(row[1])).sum();
        number == 19 && !own.mixed() && sum == u128::from(MOST_ENTRIES) + 1
    }),
    ("the sum wraps", 0, |own, number, _| {
        let sum: u128 = own.rows().map(|row| u128::from(row[1])).sum();
        number == 19 && !own.mixed() && sum > u64::MAX.into()
    }),
    ("a range ends before the file's last byte", 18, |own, number, _| {
        let last = |link: &[u64]| link[0].checked_add(link[1]) == Some(own.file_length);
        number == 0 && own.links().any(last)
    }),
    ("an empty range may stand anywhere", 0, |own, number, _| {
        let mut other = own.clone();
        other.each_link(|link| link[1] = if link[0] == 0 { 0 } else { link[1] });
        number == 18 && other.roomy() == 0
    }),
    ("all counts first", 10, |own, number, _| {
        let above = own.clusters.len() / 5 > 1_024 || own.metadata.len() / 2 > 64;
        above && number != 1 && !own.mixed()
    }),
    ("1,023 clusters", 10, |own, number, _| {
        own.clusters.len() / 5 == 1_024 && number == 0
    }),
    ("63 links", 10, |own, number, _| {
        own.metadata.len() / 2 == 64 && number == 0
    }),
    ("no clusters are refused", 19, |own, number, _| {
        number == 0 && own.clusters.len() < 5
    }),
    ("words left over are refused", 20, |own, number, _| {
        number == 0 && own.clusters.len() % 5 + own.metadata.len() % 2 != 0
    }),
];

/// Another number, from the reference's.
const INSTEAD: &[(&str, Instead<Own>)] = &[
    ("mixed rows where they stand", |own, number| {
        match own.with_checksums(NO_CHECKSUM).roomy() % 256 {
            other if own.mixed() && other != 0 => other,
            _ => number,
        }
    }),
    ("a count after the clusters", |own, number| {
        match of_first(own, 1_024, 0) {
            first if number == 10 && own.clusters.len() / 5 > 1_024 && first != 0 => first,
            _ => number,
        }
    }),
    ("a count after the links", |own, number| {
        match of_first(own, 1_024, 64) {
            first if number == 10 && own.metadata.len() / 2 > 64 && first != 0 => first,
            _ => number,
        }
    }),
];

/// Footers with other bytes.
const OTHERS: &[(&str, Call<Own>)] = &[
    ("version 2 without clusters", |own, out, result| {
        rewritten(&|out, result| own.write(out, result), out, result, |footer| {
            if own.clusters.len() < 5 {
                footer[0] = 2
            }
        })
    }),
    ("version 2, minimum 2", |own, out, result| {
        rewritten(&|out, result| own.write(out, result), out, result, |footer| {
            footer[2] = footer[0]
        })
    }),
    ("version 1 with checksums", |own, out, result| {
        rewritten(&|out, result| own.write(out, result), out, result, |footer| {
            footer[0] = 1
        })
    }),
    ("always version 2", |own, out, result| {
        rewritten(&|out, result| own.write(out, result), out, result, |footer| {
            footer[0] = 2
        })
    }),
    ("no header's checksum", |own, out, result| {
        rewritten(&|out, result| own.write(out, result), out, result, |footer| {
            footer[12..16].fill(0)
        })
    }),
    ("the header's refusal is the footer's", |own, out, result| {
        match own.write(out, result) {
            answer if answer / 256 == 1 => answer + 256,
            answer => answer,
        }
    }),
    ("mixed rows before the header", |own, out, result| {
        let answer = own.write(out, result);
        if answer / 256 == 1 && own.mixed() {
            return 2 * 256 + 19;
        }
        answer
    }),
    ("too little room before the header", |own, out, result| {
        let answer = own.write(out, result);
        if answer / 256 == 1 && own.length() > out.len() as u128 {
            return 2 * 256 + 20;
        }
        answer
    }),
];

/// The places of the numbers, each with its bits.
const PLACES: &[(&str, Place<Own>)] = &[
    ("an entry count", |own, narrow| {
        own.each_cluster(|row| row[1] = narrow(row[1], 60))
    }),
    ("a size", |own, narrow| {
        own.each_link(|link| link[0] = narrow(link[0], 31))
    }),
    ("a cluster's size", |own, narrow| {
        own.each_cluster(|row| row[2] = narrow(row[2], 31))
    }),
    ("a metadata link's size", |own, narrow| {
        let links = own.metadata.chunks_exact_mut(2);
        links.for_each(|link| link[0] = narrow(link[0], 31))
    }),
    ("a checksum", |own, narrow| {
        own.each_cluster(|row| {
            if row[4] != NO_CHECKSUM {
                row[4] = narrow(row[4], 32)
            }
        })
    }),
];

pub const WRONG: Wrong<Own> = Wrong {
    altered: ALTERED,
    places: PLACES,
    refused: WHERE,
    instead: INSTEAD,
    others: OTHERS,
};
