//! Written envelopes: compared byte by byte, read back, and set beside what the
//! reader says of the same bytes.

use super::{dump, exported, name, Comparer, Note};
use crate::calls::{self, FooterTables, HeaderTables, PageListTable};
use crate::generate::writing::footers::WriteFooterCase;
use crate::generate::writing::headers::WriteHeaderCase;
use crate::generate::writing::page_lists::WritePageListCase;
use crate::reference::envelope::ENVELOPE_CEILING;
use crate::reference::footer::{CLUSTER_WORDS, LINK_WORDS, NO_CHECKSUM};
use crate::reference::header::{self, ALIAS_WORDS, COLUMN_WORDS, FIELD_WORDS};
use crate::reference::page_list::PAGE_WORDS;
use crate::reference::{self, HEADER};
use crate::writer::{stored_checksum, Alias, Cluster, Column, Field, Footer, Header, Link, List, Page, PageList};

/// A room that is too small is no refusal of a reader that has enough.
const ROOM: u32 = 20;

/// Words of each table in a report.
const DUMPED: usize = 600;

/// The bytes of a string that lies in the lent ones.
fn text(strings: &[u8], text: &[u64]) -> Option<Vec<u8>> {
    let place = usize::try_from(text[0]).ok()?;
    let end = place.checked_add(usize::try_from(text[1]).ok()?)?;
    Some(strings.get(place..end)?.to_vec())
}

fn narrow<T: TryFrom<u64>>(number: u64) -> Option<T> {
    T::try_from(number).ok()
}

/// A number of so many bits, if it is none that is wider.
fn bits(number: u64, bits: u32) -> Option<u64> {
    (number >> bits == 0).then_some(number)
}

/// The header that the tables tell, right or wrong, if every number fits and
/// every string is there.
fn header_model(case: &WriteHeaderCase) -> Option<Header> {
    let strings = &case.strings;
    let field = |row: &[u64]| {
        let mut texts = row[6..14].chunks_exact(2).map(|pair| text(strings, pair));
        let mut next = || texts.next()?;
        Some(Field {
            field_version: narrow(row[0])?,
            type_version: narrow(row[1])?,
            parent: narrow(row[2])?,
            role: narrow(row[3])?,
            flags: narrow(row[4])?,
            repetition: row[5],
            strings: [next()?, next()?, next()?, next()?],
            spare: 0,
        })
    };
    let column = |row: &[u64]| {
        Some(Column {
            column_type: narrow(row[0])?,
            bits: narrow(row[1])?,
            field: narrow(row[2])?,
            flags: narrow(row[3])?,
            spare: 0,
        })
    };
    let alias = |row: &[u64]| {
        Some(Alias {
            column: narrow(row[0])?,
            field: narrow(row[1])?,
            spare: 0,
        })
    };
    Some(Header {
        outside: Default::default(),
        name: text(strings, &case.texts[..2])?,
        description: text(strings, &case.texts[2..])?,
        fields: list(case.fields.chunks_exact(FIELD_WORDS).map(field))?,
        columns: list(case.columns.chunks_exact(COLUMN_WORDS).map(column))?,
        aliases: list(case.aliases.chunks_exact(ALIAS_WORDS).map(alias))?,
    })
}

fn list<T>(items: impl Iterator<Item = Option<T>>) -> Option<List<T>> {
    Some(List {
        items: items.collect::<Option<_>>()?,
        spare: 0,
    })
}

fn link(row: &[u64]) -> Option<Link> {
    Some(Link {
        size: bits(row[0], 31)? as u32,
        offset: row[1],
    })
}

/// The footer that the tables tell, right or wrong, if every number fits and
/// the rows are not mixed.
fn footer_model(case: &WriteFooterCase) -> Option<Footer> {
    let rows = || case.clusters.chunks_exact(CLUSTER_WORDS);
    let version = if rows().next().is_some_and(|row| row[4] != NO_CHECKSUM) {
        2
    } else {
        1
    };
    let cluster = |row: &[u64]| {
        let checksum = match version {
            1 => (row[4] == NO_CHECKSUM).then_some(None)?,
            _ => Some(narrow(row[4])?),
        };
        Some(Cluster {
            first: row[0],
            entries: bits(row[1], 60)?,
            link: link(&row[2..4])?,
            checksum,
            spare: 0,
        })
    };
    let mut footer = Footer {
        header_checksum: stored_checksum(&case.header),
        clusters: list(rows().map(cluster))?,
        metadata: list(case.metadata.chunks_exact(LINK_WORDS).map(link))?,
        ..Default::default()
    };
    footer.outside.version = version;
    Some(footer)
}

/// The page list that the table tells, right or wrong, if every number fits and
/// the rows are in order.
fn page_list_model(case: &WritePageListCase, columns: usize) -> Option<PageList> {
    let mut list = PageList::default();
    list.columns.items = vec![List::default(); columns];
    let mut last = 0;
    for row in case.pages.chunks_exact(PAGE_WORDS) {
        let column: usize = narrow(row[0])?;
        if column < last || column >= columns {
            return None;
        }
        last = column;
        list.columns.items[column].items.push(Page {
            elements: bits(row[1], 30)? as u32,
            checksum: bits(row[2], 1)? == 1,
            size: bits(row[3], 31)? as u32,
            offset: row[4],
        });
    }
    Some(list)
}

/// The rows of a table without the words left over.
fn rows(table: &[u64], words: usize) -> &[u64] {
    &table[..table.len() / words * words]
}

impl Comparer {
    /// What the writer answers is what the reader answers to the same bytes,
    /// room aside, and what was written is those bytes.
    fn beside_reader(&mut self, writer: u32, reader: u32, bytes: &[u8]) -> Result<(), String> {
        let due = if writer % 256 == ROOM { 0 } else { writer };
        if reader != due {
            let (writer, reader) = (name(writer), name(reader));
            return Err(format!(
                "the writer's answer is {writer}, the reader's to these bytes {reader}\n{}",
                dump("bytes", bytes)
            ));
        }
        if writer == 0 && self.written() != bytes {
            return Err(format!("other bytes than the tables tell\n{}", dump("bytes", bytes)));
        }
        if due != 0 {
            self.tally.note(Note::ReadersNumber);
        }
        Ok(())
    }

    /// The envelope or the listing that the library has written.
    pub(super) fn written(&mut self) -> Vec<u8> {
        let length = self.result.ours()[0] as usize;
        self.bytes.ours()[..length].to_vec()
    }

    fn read_back(&mut self, same: bool, answer: u32, envelope: &[u8]) -> Result<(), String> {
        if same {
            self.tally.note(Note::ReadBack);
            return Ok(());
        }
        let (answer, envelope) = (name(answer), dump("written", envelope));
        Err(format!("what is written reads otherwise\nlibrary {answer}\n{envelope}"))
    }

    pub(super) fn write_header(&mut self, case: &WriteHeaderCase) -> Result<(), String> {
        let seed = self.seed();
        self.bytes.lend(case.out, seed);
        self.result.lend(case.result, seed ^ 1);
        let WriteHeaderCase {
            strings,
            texts,
            fields,
            columns,
            aliases,
            ..
        } = case;
        let out = &mut self.bytes;
        let theirs = exported(self.result.reference(), || {
            reference::write_header(strings, *texts, fields, columns, aliases, out.reference())
        });
        let lent = self.shelves[0].lend(strings, seed);
        let tables = HeaderTables {
            strings: lent,
            texts: *texts,
            fields,
            columns,
            aliases,
        };
        let ours = (self.write_header)(tables, out.ours(), self.result.ours());
        self.settle_bytes(ours, theirs)?;
        if ours == calls::RESULT_TOO_SHORT || case.tables().length() > 2 * ENVELOPE_CEILING as u128 {
            return Ok(());
        }
        if let Some(model) = header_model(case) {
            self.generator.writer.header(&model);
            let bytes = std::mem::take(&mut self.generator.writer.bytes);
            let mut tables = [fields, columns, aliases].map(|table| vec![0; table.len()]);
            let [fields, columns, aliases] = &mut tables;
            let reader = calls::read_header(&bytes, fields, columns, aliases, &mut [0; 7]);
            self.beside_reader(ours, reader, &bytes)?;
        }
        match ours {
            0 => self.header_back(case),
            _ => Ok(()),
        }
    }

    /// The written header gives the tables back: strings by characters, no
    /// repetition without its flag, and dark marks by their rule.
    fn header_back(&mut self, case: &WriteHeaderCase) -> Result<(), String> {
        let envelope = self.written();
        let words = [FIELD_WORDS, COLUMN_WORDS, ALIAS_WORDS];
        let given = [&case.fields, &case.columns, &case.aliases];
        let given: [&[u64]; 3] = std::array::from_fn(|table| rows(given[table], words[table]));
        let [mut fields, mut columns, mut aliases] = given.map(|table| vec![0; table.len()]);
        let mut result = [0; 7];
        let answer = calls::read_header(&envelope, &mut fields, &mut columns, &mut aliases, &mut result);
        let counts: [u64; 3] = std::array::from_fn(|table| (given[table].len() / words[table]) as u64);
        let same_texts = |old: &[u64], new: &[u64]| {
            let mut pairs = old.chunks_exact(2).zip(new.chunks_exact(2));
            pairs.all(|(old, new)| text(&case.strings, old) == text(&envelope, new))
        };
        let mut same = answer == 0 && result[4..] == counts && same_texts(&case.texts, &result[..4]);
        same &= columns == given[1] && aliases == given[2];
        let dark = header::read(&envelope).map(|header| header.fields).unwrap_or_default();
        same &= dark.len() as u64 == counts[0];
        let field_rows = given[0].chunks_exact(FIELD_WORDS).zip(fields.chunks_exact(FIELD_WORDS));
        same &= field_rows.zip(dark).all(|((old, new), due)| {
            let repetition = if old[4] & 1 == 1 { old[5] } else { 0 };
            old[..5] == new[..5]
                && new[5] == repetition
                && same_texts(&old[6..14], &new[6..14])
                && new[14] == u64::from(due.dark)
        });
        self.read_back(same, answer, &envelope)
    }

    pub(super) fn write_footer(&mut self, case: &WriteFooterCase) -> Result<(), String> {
        let seed = self.seed();
        self.bytes.lend(case.out, seed);
        self.result.lend(case.result, seed ^ 1);
        let WriteFooterCase {
            header,
            file_length,
            clusters,
            metadata,
            ..
        } = case;
        let out = &mut self.bytes;
        let theirs = exported(self.result.reference(), || {
            reference::write_footer(header, *file_length, clusters, metadata, out.reference())
        });
        let lent = self.shelves[0].lend(header, seed);
        let tables = FooterTables {
            header: lent,
            file_length: *file_length,
            clusters,
            metadata,
        };
        let ours = (self.write_footer)(tables, out.ours(), self.result.ours());
        self.settle_bytes(ours, theirs)?;
        if ours == calls::RESULT_TOO_SHORT || ours / 256 == HEADER {
            return Ok(());
        }
        let mut tables = [clusters, metadata].map(|table| vec![0; table.len()]);
        let mut read = |footer: &[u8]| {
            let [clusters, metadata] = &mut tables;
            calls::read_footer(header, footer, *file_length, clusters, metadata, &mut [0; 2])
        };
        if let Some(model) = footer_model(case) {
            self.generator.writer.footer(&model);
            let bytes = std::mem::take(&mut self.generator.writer.bytes);
            let reader = read(&bytes);
            self.beside_reader(ours, reader, &bytes)?;
        }
        if ours != 0 {
            return Ok(());
        }
        let envelope = self.written();
        let answer = read(&envelope);
        let due = [rows(clusters, CLUSTER_WORDS), rows(metadata, LINK_WORDS)];
        let same = due
            .iter()
            .zip(&tables)
            .all(|(due, table)| table[..due.len()] == **due && table[due.len()..].iter().all(|&word| word == 0));
        if same && due[0].get(4).is_some_and(|&checksum| checksum != NO_CHECKSUM) {
            self.tally.note(Note::CarriesChecksums);
        }
        self.read_back(same && answer == 0, answer, &envelope)
    }

    pub(super) fn write_page_list(&mut self, case: &WritePageListCase) -> Result<(), String> {
        let seed = self.seed();
        self.bytes.lend(case.out, seed);
        self.result.lend(case.result, seed ^ 1);
        let WritePageListCase {
            header,
            entries,
            file_length,
            pages,
            ..
        } = case;
        let out = &mut self.bytes;
        let theirs = exported(self.result.reference(), || {
            reference::write_page_list(header, *entries, *file_length, pages, out.reference())
        });
        let lent = self.shelves[0].lend(header, seed);
        let table = PageListTable {
            header: lent,
            entries: *entries,
            file_length: *file_length,
            pages,
        };
        let ours = (self.write_page_list)(table, out.ours(), self.result.ours());
        self.settle_bytes(ours, theirs)?;
        if ours == calls::RESULT_TOO_SHORT || ours / 256 == HEADER {
            return Ok(());
        }
        let mut table = vec![0; pages.len()];
        let mut read =
            |list: &[u8]| calls::read_page_list(header, list, *entries, *file_length, &mut table, &mut [0; 1]);
        let columns = header::read(header).map_or(0, |header| header.columns.len());
        if let Some(model) = page_list_model(case, columns) {
            self.generator.writer.page_list(&model);
            let bytes = std::mem::take(&mut self.generator.writer.bytes);
            let reader = read(&bytes);
            self.beside_reader(ours, reader, &bytes)?;
        }
        if ours != 0 {
            return Ok(());
        }
        let envelope = self.written();
        let answer = read(&envelope);
        let due = rows(pages, PAGE_WORDS);
        let same = answer == 0 && table[..due.len()] == *due && table[due.len()..].iter().all(|&word| word == 0);
        self.read_back(same, answer, &envelope)
    }
}

fn dump_table(name: &str, table: &[u64], words: usize) -> String {
    let mut text = format!("{name}, {} words:\n", table.len());
    for row in table[..table.len().min(DUMPED)].chunks(words) {
        text += &format!("  {row:X?}\n");
    }
    if table.len() > DUMPED {
        text += "  and so on\n";
    }
    text
}

pub(super) fn dump_header(case: &WriteHeaderCase) -> String {
    format!("lent bytes {}\ntexts {:X?}\n", case.out, case.texts)
        + &dump_table("fields", &case.fields, FIELD_WORDS)
        + &dump_table("columns", &case.columns, COLUMN_WORDS)
        + &dump_table("aliases", &case.aliases, ALIAS_WORDS)
        + &dump("strings", &case.strings)
}

pub(super) fn dump_footer(case: &WriteFooterCase) -> String {
    format!("lent bytes {} file length {}\n", case.out, case.file_length)
        + &dump_table("clusters", &case.clusters, CLUSTER_WORDS)
        + &dump_table("metadata", &case.metadata, LINK_WORDS)
        + &dump("header", &case.header)
}

pub(super) fn dump_page_list(case: &WritePageListCase) -> String {
    let WritePageListCase {
        out,
        entries,
        file_length,
        ..
    } = case;
    format!("lent bytes {out} entries {entries} file length {file_length}\n")
        + &dump_table("pages", &case.pages, PAGE_WORDS)
        + &dump("header", &case.header)
}
