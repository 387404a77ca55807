//! Envelopes, frames, strings and locators.

use super::crc::crc32;
use super::Number;

pub const ENVELOPE_CEILING: usize = 1_048_576;

/// An envelope of a right size with a right checksum, its versions not judged.
pub struct Intact<'a> {
    /// All bytes before the checksum.
    content: &'a [u8],
    pub checksum: u32,
}

/// An opened envelope: nothing of its payload is read yet.
pub struct Envelope<'a> {
    pub version: u16,
    pub payload: Container<'a>,
    pub checksum: u32,
}

/// A string as its place in the envelope.
#[derive(Clone, Copy, Debug, Default, PartialEq, Eq)]
pub struct Text {
    pub place: u32,
    pub length: u32,
}

/// Part of an envelope that is read front to back: the payload, or what a
/// frame's size covers. `bytes` starts with the envelope's first byte and ends
/// with the container, so that `at` is a place in the envelope.
pub struct Container<'a> {
    bytes: &'a [u8],
    at: usize,
    /// Whether bytes after the known content are refused.
    exact: bool,
}

/// Size and checksum of an envelope.
pub fn intact(bytes: &[u8]) -> Result<Intact<'_>, Number> {
    if bytes.len() > ENVELOPE_CEILING {
        return Err(1);
    }
    if bytes.len() < 8 {
        return Err(2);
    }
    let (content, stored) = bytes.split_at(bytes.len() - 4);
    let checksum = u32::from_le_bytes([stored[0], stored[1], stored[2], stored[3]]);
    if crc32(content) != checksum {
        return Err(3);
    }
    Ok(Intact { content, checksum })
}

impl<'a> Intact<'a> {
    /// The versions, of which minimum versions up to `supported` are read.
    pub fn open(self, supported: u16) -> Result<Envelope<'a>, Number> {
        let Intact { content, checksum } = self;
        let version = u16::from_le_bytes([content[0], content[1]]);
        let minimum = u16::from_le_bytes([content[2], content[3]]);
        if minimum == 0 || minimum > version {
            return Err(4);
        }
        if minimum > supported {
            return Err(5);
        }
        Ok(Envelope {
            version,
            payload: Container {
                bytes: content,
                at: 4,
                exact: version == minimum,
            },
            checksum,
        })
    }
}

/// Bytes that a string may have: well-formed UTF-8.
pub fn is_string(bytes: &[u8]) -> bool {
    std::str::from_utf8(bytes).is_ok()
}

impl<'a> Container<'a> {
    #[inline(always)]
    fn take<const N: usize>(&mut self) -> Result<[u8; N], Number> {
        let taken = self.bytes[self.at..].first_chunk::<N>().ok_or(7u32)?;
        self.at += N;
        Ok(*taken)
    }

    #[inline(always)]
    pub fn u16(&mut self) -> Result<u16, Number> {
        self.take().map(u16::from_le_bytes)
    }

    #[inline(always)]
    pub fn u32(&mut self) -> Result<u32, Number> {
        self.take().map(u32::from_le_bytes)
    }

    #[inline(always)]
    pub fn u64(&mut self) -> Result<u64, Number> {
        self.take().map(u64::from_le_bytes)
    }

    /// Feature words: another follows while bit 63 is set, no other bit is known.
    pub fn features(&mut self) -> Result<(), Number> {
        loop {
            let word = self.u64()?;
            if word << 1 != 0 {
                return Err(6);
            }
            if word == 0 {
                return Ok(());
            }
        }
    }

    pub fn string(&mut self) -> Result<Text, Number> {
        let length = self.u32()?;
        let bytes = self.bytes[self.at..].get(..length as usize).ok_or(7u32)?;
        if !is_string(bytes) {
            return Err(9);
        }
        let place = self.at as u32;
        self.at += bytes.len();
        Ok(Text { place, length })
    }

    /// The container of a frame whose head starts at `head`; this one goes on behind it.
    #[inline(always)]
    fn frame(&mut self, head: usize, size: u32) -> Result<Container<'a>, Number> {
        let end = head + size as usize;
        let bytes = self.bytes.get(..end).ok_or(7u32)?;
        let content = Container {
            bytes,
            at: self.at,
            exact: self.exact,
        };
        self.at = end;
        Ok(content)
    }

    pub fn record(&mut self) -> Result<Container<'a>, Number> {
        let head = self.at;
        let size = self.u32()? as i32;
        if size < 4 {
            return Err(8);
        }
        self.frame(head, size as u32)
    }

    /// A list and its count, of which the caller knows the ceiling.
    pub fn list(&mut self) -> Result<(Container<'a>, u32), Number> {
        let head = self.at;
        let size = self.u32()? as i32;
        if size > -8 {
            return Err(8);
        }
        let mut content = self.frame(head, size.unsigned_abs())?;
        let word = content.u32()?;
        if word >> 28 != 0 {
            return Err(8);
        }
        Ok((content, word))
    }

    pub fn list_up_to(&mut self, ceiling: u32) -> Result<(Container<'a>, u32), Number> {
        let (content, count) = self.list()?;
        if count > ceiling {
            return Err(10);
        }
        Ok((content, count))
    }

    /// A locator whose stored size has to be `size`, of a range that has to lie
    /// inside the file with the `behind` bytes that follow it; gives its offset.
    #[inline(always)]
    pub fn locator(&mut self, size: u64, behind: u64, file_length: u64) -> Result<u64, Number> {
        let stored = self.u32()?;
        if stored >> 31 != 0 || u64::from(stored) != size {
            return Err(17);
        }
        let offset = self.u64()?;
        match offset.checked_add(size + behind) {
            Some(end) if end <= file_length => Ok(offset),
            _ => Err(18),
        }
    }

    /// A link; gives its size and offset.
    pub fn link(&mut self, file_length: u64) -> Result<(u32, u64), Number> {
        let size = self.u32()?;
        let offset = self.locator(u64::from(size), 0, file_length)?;
        Ok((size, offset))
    }

    /// The known content has ended.
    #[inline(always)]
    pub fn finish(self) -> Result<(), Number> {
        if self.exact && self.at < self.bytes.len() {
            return Err(11);
        }
        Ok(())
    }
}
