//! An independent implementation of the rules, written from their text alone.
//! Each call returns the exported call's answer and result words.

pub mod columns;
pub mod crc;
pub mod envelope;
pub mod figures;
pub mod footer;
pub mod header;
pub mod listing;
pub mod page_list;
pub mod pages;
pub mod writing;

#[cfg(test)]
mod lines;

/// The number of a refusal; which envelope it belongs to is known to the caller.
pub type Number = u32;

/// Number 0 is acceptance.
pub const ACCEPTED: u32 = 0;

/// A refusal of the given envelope as one word.
pub fn refusal(envelope: u32, number: Number) -> u32 {
    envelope * 256 + number
}

pub const HEADER: u32 = 1;
pub const FOOTER: u32 = 2;
pub const PAGE_LIST: u32 = 3;
pub const PAGE: u32 = 4;

/// Reads a header into flat tables.
pub fn read_header(envelope: &[u8], fields: &mut [u64], columns: &mut [u64], aliases: &mut [u64]) -> (u32, [u64; 7]) {
    match header::read(envelope).and_then(|header| {
        header.store(fields, columns, aliases)?;
        Ok(header)
    }) {
        Err(number) => (refusal(HEADER, number), [0; 7]),
        Ok(header) => (
            ACCEPTED,
            [
                header.name.place as u64,
                header.name.length as u64,
                header.description.place as u64,
                header.description.length as u64,
                header.fields.len() as u64,
                header.columns.len() as u64,
                header.aliases.len() as u64,
            ],
        ),
    }
}

/// The moves of all fields of a header to their tops. There is no room that
/// could be too small.
pub fn parent_moves(header: &[u8]) -> (u32, [u64; 1]) {
    match header::read(header) {
        Err(number) => (refusal(HEADER, number), [0]),
        Ok(header) => (ACCEPTED, [header.moves()]),
    }
}

/// Lists the fields of a header into lent bytes; gives the bytes written.
pub fn list_fields(envelope: &[u8], out: &mut [u8]) -> (u32, [u64; 1]) {
    let header = header::read(envelope);
    written(HEADER, header.and_then(|header| listing::write(&header, envelope, out)))
}

/// Reads a footer into flat tables, after its header.
pub fn read_footer(
    header: &[u8],
    footer: &[u8],
    file_length: u64,
    clusters: &mut [u64],
    metadata: &mut [u64],
) -> (u32, [u64; 2]) {
    let header = match header::read(header) {
        Ok(header) => header,
        Err(number) => return (refusal(HEADER, number), [0; 2]),
    };
    match footer::read(&header, footer, file_length).and_then(|footer| {
        footer.store(clusters, metadata)?;
        Ok(footer)
    }) {
        Err(number) => (refusal(FOOTER, number), [0; 2]),
        Ok(footer) => (ACCEPTED, [footer.clusters.len() as u64, footer.metadata.len() as u64]),
    }
}

/// Reads a page list into a flat table, after its header: as for a row that
/// has no checksum.
pub fn read_page_list(
    header: &[u8],
    page_list: &[u8],
    entries: u64,
    file_length: u64,
    pages: &mut [u64],
) -> (u32, [u64; 1]) {
    read_paired_page_list(header, page_list, entries, footer::NO_CHECKSUM, file_length, pages)
}

/// Reads the page list of a cluster row into a flat table, after its header.
pub fn read_paired_page_list(
    header: &[u8],
    page_list: &[u8],
    entries: u64,
    checksum: u64,
    file_length: u64,
    pages: &mut [u64],
) -> (u32, [u64; 1]) {
    let header = match header::read(header) {
        Ok(header) => header,
        Err(number) => return (refusal(HEADER, number), [0; 1]),
    };
    match page_list::read(&header, page_list, entries, checksum, file_length).and_then(|list| {
        page_list::store(&list, pages)?;
        Ok(list.len() as u64)
    }) {
        Err(number) => (refusal(PAGE_LIST, number), [0; 1]),
        Ok(count) => (ACCEPTED, [count]),
    }
}

/// Adds a page list to a report, after reading its header; gives the lists
/// accepted and refused after it, also where it is refused.
pub fn report_page_list(
    header: &[u8],
    page_list: &[u8],
    entries: u64,
    file_length: u64,
    counts: figures::Counts,
    report: &mut [u64],
) -> (u32, figures::Counts) {
    let mut after = counts;
    let added = figures::add(header, page_list, entries, file_length, &mut after, report);
    match added {
        Ok(()) => (ACCEPTED, after),
        Err((envelope, number)) => (refusal(envelope, number), after),
    }
}

/// Writes a header from flat tables; gives the bytes written.
pub fn write_header(
    strings: &[u8],
    texts: writing::header::Texts,
    fields: &[u64],
    columns: &[u64],
    aliases: &[u64],
    out: &mut [u8],
) -> (u32, [u64; 1]) {
    let tables = writing::header::Tables::new(strings, texts, fields, columns, aliases);
    written(HEADER, tables.write(out))
}

/// Writes a footer from flat tables, after reading its header.
pub fn write_footer(
    header: &[u8],
    file_length: u64,
    clusters: &[u64],
    metadata: &[u64],
    out: &mut [u8],
) -> (u32, [u64; 1]) {
    let header = match header::read(header) {
        Ok(header) => header,
        Err(number) => return (refusal(HEADER, number), [0]),
    };
    let tables = writing::footer::Tables::new(clusters, metadata);
    written(FOOTER, tables.write(header.checksum, file_length, out))
}

/// Writes a page list from a flat table, after reading its header.
pub fn write_page_list(
    header: &[u8],
    entries: u64,
    file_length: u64,
    pages: &[u64],
    out: &mut [u8],
) -> (u32, [u64; 1]) {
    let header = match header::read(header) {
        Ok(header) => header,
        Err(number) => return (refusal(HEADER, number), [0]),
    };
    let pages = writing::page_list::rows(pages);
    written(
        PAGE_LIST,
        writing::page_list::write(&header, entries, file_length, pages, out),
    )
}

/// What a writer of this envelope answers.
fn written(envelope: u32, length: Result<usize, Number>) -> (u32, [u64; 1]) {
    match length {
        Ok(length) => (ACCEPTED, [length as u64]),
        Err(number) => (refusal(envelope, number), [0]),
    }
}

/// Decodes a page into `words` from `start` on.
pub fn decode_page(column_type: u32, elements: u64, checksum: bool, page: &[u8], words: &mut [u64], start: u64) -> u32 {
    match pages::decode(column_type, elements, checksum, page, words, start) {
        Ok(()) => ACCEPTED,
        Err(number) => refusal(PAGE, number),
    }
}

/// Decodes the pages of a column into `words`, from its first word on; gives
/// the index of the refused page, else the number of pages.
pub fn decode_column(column_type: u32, pages: &[u64], file: &[u8], words: &mut [u64]) -> (u32, [u64; 1]) {
    match columns::decode(column_type, pages, file, words) {
        Ok(count) => (ACCEPTED, [count as u64]),
        Err((number, index)) => (refusal(PAGE, number), [index as u64]),
    }
}

/// How many elements of a Bit page are true.
pub fn count_true(elements: u64, checksum: bool, page: &[u8]) -> (u32, [u64; 1]) {
    match pages::count_true(elements, checksum, page) {
        Ok(count) => (ACCEPTED, [count]),
        Err(number) => (refusal(PAGE, number), [0]),
    }
}

/// Encodes a page from `words` at `start`; gives the bytes written.
pub fn encode_page(
    column_type: u32,
    elements: u64,
    checksum: bool,
    words: &[u64],
    start: u64,
    page: &mut [u8],
) -> (u32, [u64; 1]) {
    match pages::encode(column_type, elements, checksum, words, start, page) {
        Ok(written) => (ACCEPTED, [written as u64]),
        Err(number) => (refusal(PAGE, number), [0]),
    }
}
