//! Headers: fields, columns and aliases.

use super::envelope::{intact, Container, Text};
use super::pages::stored_bits;
use super::Number;

/// The highest minimum version that is read.
const SUPPORTED: u16 = 1;

pub const FIELDS: u32 = 512;
pub const COLUMNS: u32 = 1_024;
pub const ALIASES: u32 = 256;

pub const FIELD_WORDS: usize = 15;
pub const COLUMN_WORDS: usize = 4;
pub const ALIAS_WORDS: usize = 2;

pub const REPETITIVE: u16 = 0x01;
pub const ALIAS: u16 = 0x02;

#[derive(Clone, Copy)]
pub struct Field {
    pub field_version: u32,
    pub type_version: u32,
    pub parent: u32,
    pub role: u16,
    pub flags: u16,
    pub repetition: u64,
    pub name: Text,
    pub type_name: Text,
    pub type_alias: Text,
    pub description: Text,
    pub dark: bool,
}

#[derive(Clone, Copy)]
pub struct Column {
    pub column_type: u16,
    pub bits: u16,
    pub field: u32,
    pub flags: u32,
}

#[derive(Clone, Copy)]
pub struct Alias {
    pub column: u32,
    pub field: u32,
}

pub struct Header {
    pub name: Text,
    pub description: Text,
    pub fields: Vec<Field>,
    pub columns: Vec<Column>,
    pub aliases: Vec<Alias>,
    pub checksum: u32,
}

pub fn read(bytes: &[u8]) -> Result<Header, Number> {
    let mut envelope = intact(bytes)?.open(SUPPORTED)?;
    let payload = &mut envelope.payload;
    payload.features()?;
    let name = payload.string()?;
    let description = payload.string()?;

    let (mut list, count) = payload.list_up_to(FIELDS)?;
    let mut fields = Vec::with_capacity(count as usize);
    for _ in 0..count {
        fields.push(field(list.record()?, count)?);
    }
    list.finish()?;

    let (mut list, count) = payload.list_up_to(COLUMNS)?;
    let mut columns = Vec::with_capacity(count as usize);
    for _ in 0..count {
        columns.push(column(list.record()?, fields.len())?);
    }
    list.finish()?;

    let (mut list, count) = payload.list_up_to(ALIASES)?;
    let mut aliases = Vec::with_capacity(count as usize);
    for _ in 0..count {
        aliases.push(alias(list.record()?, &fields, columns.len())?);
    }
    list.finish()?;

    envelope.payload.finish()?;
    chains_end(fields.len(), |field| fields[field].parent as usize)?;
    mark_dark(&mut fields, &columns);
    Ok(Header {
        name,
        description,
        fields,
        columns,
        aliases,
        checksum: envelope.checksum,
    })
}

fn field(mut record: Container, fields: u32) -> Result<Field, Number> {
    let field_version = record.u32()?;
    let type_version = record.u32()?;
    let parent = record.u32()?;
    if parent >= fields {
        return Err(14);
    }
    let role = record.u16()?;
    if role > 4 {
        return Err(12);
    }
    let flags = record.u16()?;
    if flags & !(REPETITIVE | ALIAS) != 0 {
        return Err(12);
    }
    let repetition = if flags & REPETITIVE != 0 { record.u64()? } else { 0 };
    let name = record.string()?;
    let type_name = record.string()?;
    let type_alias = record.string()?;
    let description = record.string()?;
    record.finish()?;
    Ok(Field {
        field_version,
        type_version,
        parent,
        role,
        flags,
        repetition,
        name,
        type_name,
        type_alias,
        description,
        dark: false,
    })
}

fn column(mut record: Container, fields: usize) -> Result<Column, Number> {
    let column_type = record.u16()?;
    let bits = record.u16()?;
    if stored_bits(u32::from(column_type)).is_some_and(|known| known != bits) {
        return Err(13);
    }
    let field = record.u32()?;
    if field as usize >= fields {
        return Err(14);
    }
    let flags = record.u32()?;
    if flags > 7 {
        return Err(12);
    }
    record.finish()?;
    Ok(Column {
        column_type,
        bits,
        field,
        flags,
    })
}

fn alias(mut record: Container, fields: &[Field], columns: usize) -> Result<Alias, Number> {
    let column = record.u32()?;
    if column as usize >= columns {
        return Err(14);
    }
    let field = record.u32()?;
    match fields.get(field as usize) {
        Some(target) if target.flags & ALIAS != 0 => {}
        _ => return Err(14),
    }
    record.finish()?;
    Ok(Alias { column, field })
}

/// Whether every chain of parents comes to a field that is its own parent.
/// Each walk stops at a field that an earlier one has passed, so that all of
/// them together take one step per field.
pub(super) fn chains_end(fields: usize, parent: impl Fn(usize) -> usize) -> Result<(), Number> {
    let mut passed_by = [0u16; FIELDS as usize];
    for first in 0..fields {
        let walk = first as u16 + 1;
        let mut at = first;
        while passed_by[at] == 0 {
            passed_by[at] = walk;
            let parent = parent(at);
            if parent == at {
                break;
            }
            if passed_by[parent] == walk {
                return Err(15);
            }
            at = parent;
        }
    }
    Ok(())
}

/// Marks the fields of unknown columns and all fields above them.
fn mark_dark(fields: &mut [Field], columns: &[Column]) {
    for column in columns {
        if stored_bits(u32::from(column.column_type)).is_some() {
            continue;
        }
        let mut at = column.field as usize;
        while !fields[at].dark {
            fields[at].dark = true;
            at = fields[at].parent as usize;
        }
    }
}

impl Header {
    /// The moves from each field to its self-parented top, all of them
    /// together: every chain is walked by itself, from its field on.
    pub fn moves(&self) -> u64 {
        let mut moves = 0;
        for first in 0..self.fields.len() {
            let mut at = first;
            while self.fields[at].parent as usize != at {
                at = self.fields[at].parent as usize;
                moves += 1;
            }
        }
        moves
    }

    pub fn store(&self, fields: &mut [u64], columns: &mut [u64], aliases: &mut [u64]) -> Result<(), Number> {
        if fields.len() / FIELD_WORDS < self.fields.len()
            || columns.len() / COLUMN_WORDS < self.columns.len()
            || aliases.len() / ALIAS_WORDS < self.aliases.len()
        {
            return Err(20);
        }
        for (row, field) in fields.chunks_exact_mut(FIELD_WORDS).zip(&self.fields) {
            row.copy_from_slice(&[
                u64::from(field.field_version),
                u64::from(field.type_version),
                u64::from(field.parent),
                u64::from(field.role),
                u64::from(field.flags),
                field.repetition,
                u64::from(field.name.place),
                u64::from(field.name.length),
                u64::from(field.type_name.place),
                u64::from(field.type_name.length),
                u64::from(field.type_alias.place),
                u64::from(field.type_alias.length),
                u64::from(field.description.place),
                u64::from(field.description.length),
                u64::from(field.dark),
            ]);
        }
        for (row, column) in columns.chunks_exact_mut(COLUMN_WORDS).zip(&self.columns) {
            row.copy_from_slice(&[
                u64::from(column.column_type),
                u64::from(column.bits),
                u64::from(column.field),
                u64::from(column.flags),
            ]);
        }
        for (row, alias) in aliases.chunks_exact_mut(ALIAS_WORDS).zip(&self.aliases) {
            row.copy_from_slice(&[u64::from(alias.column), u64::from(alias.field)]);
        }
        Ok(())
    }
}
