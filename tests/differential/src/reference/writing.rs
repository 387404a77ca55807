//! Envelopes from tables. A table is refused with the number that its bytes
//! would earn, so that they are laid down front to back, and each number is
//! judged where it would stand.

pub mod footer;
pub mod header;
pub mod page_list;

#[cfg(test)]
mod lines;

use super::crc::crc32;
use super::envelope::{is_string, ENVELOPE_CEILING};
use super::Number;

/// Versions, and the checksum behind the payload.
pub const AROUND: u128 = 4 + 4;

/// The heads of frames.
pub const RECORD: u128 = 4;
pub const LIST: u128 = 8;

/// The minimum version of all that is written.
const MINIMUM: u16 = 1;

/// An envelope up to the place that was reached. Nothing is in the lent bytes
/// before it is whole.
pub struct Draft {
    bytes: Vec<u8>,
    /// As many as it will have.
    length: usize,
}

/// Whether a number is wider than so many bits.
pub fn fit(number: u64, bits: u32) -> Result<(), Number> {
    match number.checked_shr(bits) {
        None | Some(0) => Ok(()),
        Some(_) => Err(25),
    }
}

impl Draft {
    /// The beginning of an envelope that will have so many bytes.
    pub fn new(length: u128, version: u16) -> Result<Draft, Number> {
        if length > ENVELOPE_CEILING as u128 {
            return Err(1);
        }
        let length = length as usize;
        let mut bytes = Vec::with_capacity(length);
        bytes.extend_from_slice(&version.to_le_bytes());
        bytes.extend_from_slice(&MINIMUM.to_le_bytes());
        Ok(Draft { bytes, length })
    }

    pub fn u16(&mut self, number: u64) -> Result<(), Number> {
        fit(number, 16)?;
        self.bytes.extend_from_slice(&(number as u16).to_le_bytes());
        Ok(())
    }

    pub fn u32(&mut self, number: u64) -> Result<(), Number> {
        fit(number, 32)?;
        self.bytes.extend_from_slice(&(number as u32).to_le_bytes());
        Ok(())
    }

    pub fn u64(&mut self, number: u64) {
        self.bytes.extend_from_slice(&number.to_le_bytes());
    }

    /// A string of the lent strings.
    pub fn string(&mut self, strings: &[u8], place: u64, length: u64) -> Result<(), Number> {
        self.u32(length)?;
        let end = u128::from(place) + u128::from(length);
        if end > strings.len() as u128 {
            return Err(7);
        }
        let characters = &strings[place as usize..end as usize];
        if !is_string(characters) {
            return Err(9);
        }
        self.bytes.extend_from_slice(characters);
        Ok(())
    }

    /// A locator of a range that has to lie inside the file with the `behind`
    /// bytes that follow it; what else is asked of its size comes between.
    pub fn locator(
        &mut self,
        size: u64,
        offset: u64,
        behind: u64,
        file_length: u64,
        size_is_right: impl FnOnce() -> bool,
    ) -> Result<(), Number> {
        fit(size, 31)?;
        if !size_is_right() {
            return Err(17);
        }
        self.u32(size)?;
        if u128::from(offset) + u128::from(size) + u128::from(behind) > u128::from(file_length) {
            return Err(18);
        }
        self.u64(offset);
        Ok(())
    }

    /// A link, whose two sizes are the same number.
    pub fn link(&mut self, size: u64, offset: u64, file_length: u64) -> Result<(), Number> {
        self.u32(size)?;
        self.locator(size, offset, 0, file_length, || true)
    }

    /// A record frame around what is laid down.
    pub fn record(&mut self, content: impl FnOnce(&mut Self) -> Result<(), Number>) -> Result<(), Number> {
        let head = self.bytes.len();
        self.bytes.extend_from_slice(&[0; 4]);
        content(self)?;
        let size = (self.bytes.len() - head) as i32;
        self.bytes[head..head + 4].copy_from_slice(&size.to_le_bytes());
        Ok(())
    }

    /// A list frame of so many items, of which there may be `most`.
    pub fn list(
        &mut self,
        count: usize,
        most: usize,
        items: impl FnOnce(&mut Self) -> Result<(), Number>,
    ) -> Result<(), Number> {
        if count > most {
            return Err(10);
        }
        let head = self.bytes.len();
        self.bytes.extend_from_slice(&[0; 4]);
        self.bytes.extend_from_slice(&(count as u32).to_le_bytes());
        items(self)?;
        let size = -((self.bytes.len() - head) as i32);
        self.bytes[head..head + 4].copy_from_slice(&size.to_le_bytes());
        Ok(())
    }

    /// Nothing else is refused: with its checksum the envelope goes to the
    /// lent bytes, if they are enough. Gives its length.
    pub fn finish(mut self, out: &mut [u8]) -> Result<usize, Number> {
        let checksum = crc32(&self.bytes);
        self.bytes.extend_from_slice(&checksum.to_le_bytes());
        assert_eq!(self.bytes.len(), self.length, "the length that was counted");
        let out = out.get_mut(..self.length).ok_or(20u32)?;
        out.copy_from_slice(&self.bytes);
        Ok(self.length)
    }
}
