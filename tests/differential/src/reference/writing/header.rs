//! Headers from tables.

use super::{Draft, AROUND, LIST, RECORD};
use crate::reference::header::{
    chains_end, ALIAS, ALIASES, ALIAS_WORDS, COLUMNS, COLUMN_WORDS, FIELDS, FIELD_WORDS, REPETITIVE,
};
use crate::reference::pages::stored_bits;
use crate::reference::Number;

/// Where a field row has its parent, its flags and its first string.
const PARENT: usize = 2;
const FLAGS: usize = 4;
const STRINGS: usize = 6;

const LAST_ROLE: u64 = 4;
const COLUMN_FLAGS: u64 = 0x07;

/// Place and length of the name, then of the description.
pub type Texts = [u64; 4];

/// What is written of a header: the lent strings, and tables by row.
#[derive(Clone, Copy)]
pub struct Tables<'a> {
    pub strings: &'a [u8],
    pub texts: Texts,
    pub fields: &'a [[u64; FIELD_WORDS]],
    pub columns: &'a [[u64; COLUMN_WORDS]],
    pub aliases: &'a [[u64; ALIAS_WORDS]],
}

impl<'a> Tables<'a> {
    /// Words behind the last whole row are not part of a table.
    pub fn new(strings: &'a [u8], texts: Texts, fields: &'a [u64], columns: &'a [u64], aliases: &'a [u64]) -> Self {
        Tables {
            strings,
            texts,
            fields: fields.as_chunks().0,
            columns: columns.as_chunks().0,
            aliases: aliases.as_chunks().0,
        }
    }

    /// The bytes that the envelope would have, string lengths as they are given.
    pub fn length(&self) -> u128 {
        let string = |text: &[u64]| 4 + u128::from(text[1]);
        let strings = |texts: &[u64]| texts.chunks_exact(2).map(string).sum::<u128>();
        let field = |row: &[u64; FIELD_WORDS]| {
            let repetition = if row[FLAGS] & u64::from(REPETITIVE) != 0 { 8 } else { 0 };
            RECORD + 4 + 4 + 4 + 2 + 2 + repetition + strings(&row[STRINGS..STRINGS + 8])
        };
        let columns = self.columns.len() as u128 * (RECORD + 2 + 2 + 4 + 4);
        let aliases = self.aliases.len() as u128 * (RECORD + 4 + 4);
        let fields = self.fields.iter().map(field).sum::<u128>();
        AROUND + 8 + strings(&self.texts) + LIST + fields + LIST + columns + LIST + aliases
    }

    pub fn write(&self, out: &mut [u8]) -> Result<usize, Number> {
        let mut draft = Draft::new(self.length(), 1)?;
        draft.u64(0);
        for text in self.texts.chunks_exact(2) {
            draft.string(self.strings, text[0], text[1])?;
        }
        draft.list(self.fields.len(), FIELDS as usize, |draft| {
            let mut rows = self.fields.iter();
            rows.try_for_each(|row| draft.record(|draft| self.field(draft, row)))
        })?;
        draft.list(self.columns.len(), COLUMNS as usize, |draft| {
            let mut rows = self.columns.iter();
            rows.try_for_each(|row| draft.record(|draft| self.column(draft, row)))
        })?;
        draft.list(self.aliases.len(), ALIASES as usize, |draft| {
            let mut rows = self.aliases.iter();
            rows.try_for_each(|row| draft.record(|draft| self.alias(draft, row)))
        })?;
        chains_end(self.fields.len(), |field| self.fields[field][PARENT] as usize)?;
        draft.finish(out)
    }

    fn field(&self, draft: &mut Draft, row: &[u64; FIELD_WORDS]) -> Result<(), Number> {
        let [field_version, type_version, parent, role, flags, repetition, ..] = *row;
        draft.u32(field_version)?;
        draft.u32(type_version)?;
        draft.u32(parent)?;
        if parent >= self.fields.len() as u64 {
            return Err(14);
        }
        draft.u16(role)?;
        if role > LAST_ROLE {
            return Err(12);
        }
        draft.u16(flags)?;
        if flags & !u64::from(REPETITIVE | ALIAS) != 0 {
            return Err(12);
        }
        if flags & u64::from(REPETITIVE) != 0 {
            draft.u64(repetition);
        }
        for text in row[STRINGS..STRINGS + 8].chunks_exact(2) {
            draft.string(self.strings, text[0], text[1])?;
        }
        Ok(())
    }

    fn column(&self, draft: &mut Draft, row: &[u64; COLUMN_WORDS]) -> Result<(), Number> {
        let [column_type, bits, field, flags] = *row;
        draft.u16(column_type)?;
        draft.u16(bits)?;
        if stored_bits(column_type as u32).is_some_and(|known| u64::from(known) != bits) {
            return Err(13);
        }
        draft.u32(field)?;
        if field >= self.fields.len() as u64 {
            return Err(14);
        }
        draft.u32(flags)?;
        if flags & !COLUMN_FLAGS != 0 {
            return Err(12);
        }
        Ok(())
    }

    fn alias(&self, draft: &mut Draft, row: &[u64; ALIAS_WORDS]) -> Result<(), Number> {
        let [column, field] = *row;
        draft.u32(column)?;
        if column >= self.columns.len() as u64 {
            return Err(14);
        }
        draft.u32(field)?;
        match self.fields.get(field as usize) {
            Some(target) if target[FLAGS] & u64::from(ALIAS) != 0 => Ok(()),
            _ => Err(14),
        }
    }
}
