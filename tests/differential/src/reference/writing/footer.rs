//! Footers from tables.

use super::{fit, Draft, AROUND, LIST, RECORD};
use crate::reference::footer::{CLUSTERS, CLUSTER_WORDS, LINK_WORDS, METADATA, MOST_ENTRIES, NO_CHECKSUM};
use crate::reference::Number;

/// Two sizes and an offset.
const LINK: u128 = 4 + 4 + 8;

/// What is written of a footer: tables by row.
#[derive(Clone, Copy)]
pub struct Tables<'a> {
    pub clusters: &'a [[u64; CLUSTER_WORDS]],
    pub metadata: &'a [[u64; LINK_WORDS]],
}

impl<'a> Tables<'a> {
    /// Words behind the last whole row are not part of a table.
    pub fn new(clusters: &'a [u64], metadata: &'a [u64]) -> Self {
        Tables {
            clusters: clusters.as_chunks().0,
            metadata: metadata.as_chunks().0,
        }
    }

    /// Whether the rows have checksums of page lists: all of them or none.
    pub fn checksums(&self) -> Result<bool, Number> {
        let with = self.clusters.iter().filter(|row| row[4] != NO_CHECKSUM).count();
        match with {
            0 => Ok(false),
            _ if with == self.clusters.len() => Ok(true),
            _ => Err(19),
        }
    }

    /// The bytes that the envelope would have.
    pub fn length(&self, checksums: bool) -> u128 {
        let checksum = if checksums { 4 } else { 0 };
        let clusters = self.clusters.len() as u128 * (RECORD + 8 + 8 + LINK + checksum);
        let metadata = self.metadata.len() as u128 * LINK;
        AROUND + 8 + 4 + LIST + LIST + LIST + clusters + LIST + metadata
    }

    pub fn write(&self, header_checksum: u32, file_length: u64, out: &mut [u8]) -> Result<usize, Number> {
        let checksums = self.checksums()?;
        let version = if checksums { 2 } else { 1 };
        let mut draft = Draft::new(self.length(checksums), version)?;
        draft.u64(0);
        draft.u32(header_checksum.into())?;
        // Extension headers, then column groups: there are none.
        draft.list(0, 0, |_| Ok(()))?;
        draft.list(0, 0, |_| Ok(()))?;
        draft.list(self.clusters.len(), CLUSTERS as usize, |draft| {
            let mut sum = 0;
            for row in self.clusters {
                draft.record(|draft| cluster(draft, row, sum, checksums, file_length))?;
                sum += row[1];
            }
            Ok(())
        })?;
        draft.list(self.metadata.len(), METADATA as usize, |draft| {
            let mut rows = self.metadata.iter();
            rows.try_for_each(|&[size, offset]| draft.link(size, offset, file_length))
        })?;
        draft.finish(out)
    }
}

/// A cluster after earlier ones with `sum` entries, which are at most MOST_ENTRIES.
fn cluster(
    draft: &mut Draft,
    row: &[u64; CLUSTER_WORDS],
    sum: u64,
    checksums: bool,
    file_length: u64,
) -> Result<(), Number> {
    let [first, entries, size, offset, checksum] = *row;
    if first != sum {
        return Err(19);
    }
    draft.u64(first);
    // The four bits above are flags, and none is set.
    fit(entries, 60)?;
    if sum + entries > MOST_ENTRIES {
        return Err(19);
    }
    draft.u64(entries);
    draft.link(size, offset, file_length)?;
    if checksums {
        draft.u32(checksum)?;
    }
    Ok(())
}
