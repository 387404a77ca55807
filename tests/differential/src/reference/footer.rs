//! Footers: clusters and metadata links.

use super::envelope::{intact, Container};
use super::header::Header;
use super::Number;

/// The highest minimum version that is read.
const SUPPORTED: u16 = 2;

/// Footers from this version on carry the checksums of page lists.
const CHECKSUMS: u16 = 2;

pub const CLUSTERS: u32 = 1_024;
pub const METADATA: u32 = 64;

pub const CLUSTER_WORDS: usize = 5;
pub const LINK_WORDS: usize = 2;

/// In a row, where the footer carries no checksum of the page list.
pub const NO_CHECKSUM: u64 = 1 << 32;

pub const MOST_ENTRIES: u64 = (1 << 60) - 1;

#[derive(Clone, Copy)]
pub struct Cluster {
    pub first: u64,
    pub entries: u64,
    pub link: Link,
    /// That of its page list, if the footer carries it.
    pub checksum: Option<u32>,
}

#[derive(Clone, Copy)]
pub struct Link {
    pub size: u32,
    pub offset: u64,
}

pub struct Footer {
    pub clusters: Vec<Cluster>,
    pub metadata: Vec<Link>,
}

pub fn read(header: &Header, bytes: &[u8], file_length: u64) -> Result<Footer, Number> {
    let envelope = intact(bytes)?.open(SUPPORTED)?;
    let checksums = envelope.version >= CHECKSUMS;
    let mut payload = envelope.payload;
    payload.features()?;
    if payload.u32()? != header.checksum {
        return Err(16);
    }
    // Extension headers, then column groups: neither is supported.
    for _ in 0..2 {
        let (list, count) = payload.list()?;
        if count != 0 {
            return Err(17);
        }
        list.finish()?;
    }

    let (mut list, count) = payload.list_up_to(CLUSTERS)?;
    let mut clusters = Vec::with_capacity(count as usize);
    let mut sum = 0;
    for _ in 0..count {
        let cluster = cluster(list.record()?, sum, file_length, checksums)?;
        sum += cluster.entries;
        clusters.push(cluster);
    }
    list.finish()?;

    let (mut list, count) = payload.list_up_to(METADATA)?;
    let mut metadata = Vec::with_capacity(count as usize);
    for _ in 0..count {
        metadata.push(link(&mut list, file_length)?);
    }
    list.finish()?;

    payload.finish()?;
    Ok(Footer { clusters, metadata })
}

fn link(container: &mut Container, file_length: u64) -> Result<Link, Number> {
    let (size, offset) = container.link(file_length)?;
    Ok(Link { size, offset })
}

/// A cluster after earlier ones with `sum` entries.
fn cluster(mut record: Container, sum: u64, file_length: u64, checksums: bool) -> Result<Cluster, Number> {
    let first = record.u64()?;
    if first != sum {
        return Err(19);
    }
    let word = record.u64()?;
    if word & (1 << 60) != 0 {
        return Err(17);
    }
    if word >> 61 != 0 {
        return Err(12);
    }
    // Both are below 2^60, so that the sum cannot wrap.
    if sum + word > MOST_ENTRIES {
        return Err(19);
    }
    let link = link(&mut record, file_length)?;
    let checksum = if checksums { Some(record.u32()?) } else { None };
    record.finish()?;
    Ok(Cluster {
        first,
        entries: word,
        link,
        checksum,
    })
}

impl Footer {
    pub fn store(&self, clusters: &mut [u64], metadata: &mut [u64]) -> Result<(), Number> {
        if clusters.len() / CLUSTER_WORDS < self.clusters.len() || metadata.len() / LINK_WORDS < self.metadata.len() {
            return Err(20);
        }
        for (row, cluster) in clusters.chunks_exact_mut(CLUSTER_WORDS).zip(&self.clusters) {
            row.copy_from_slice(&[
                cluster.first,
                cluster.entries,
                u64::from(cluster.link.size),
                cluster.link.offset,
                cluster.checksum.map_or(NO_CHECKSUM, u64::from),
            ]);
        }
        for (row, link) in metadata.chunks_exact_mut(LINK_WORDS).zip(&self.metadata) {
            row.copy_from_slice(&[u64::from(link.size), link.offset]);
        }
        Ok(())
    }
}
