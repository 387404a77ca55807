//! The C calls with slices for pointers and lengths.

use crate::most;
use crate::refusal::{ColumnRefusal, Refusal, ReportRefusal};
use crate::rows::{text, Alias, Cluster, Column, ColumnPage, Field, Link, Page, Table};

mod c {
    extern "C" {
        pub fn rnt_read_header(
            envelope: *const u8,
            envelope_length: usize,
            fields: *mut u64,
            field_words: usize,
            columns: *mut u64,
            column_words: usize,
            aliases: *mut u64,
            alias_words: usize,
            result: *mut u64,
            result_words: usize,
        ) -> u32;
        pub fn rnt_parent_moves(header: *const u8, header_length: usize, result: *mut u64, result_words: usize) -> u32;
        pub fn rnt_list_fields(
            header: *const u8,
            header_length: usize,
            out: *mut u8,
            out_length: usize,
            result: *mut u64,
            result_words: usize,
        ) -> u32;
        pub fn rnt_read_footer(
            header: *const u8,
            header_length: usize,
            footer: *const u8,
            footer_length: usize,
            file_length: u64,
            clusters: *mut u64,
            cluster_words: usize,
            metadata: *mut u64,
            metadata_words: usize,
            result: *mut u64,
            result_words: usize,
        ) -> u32;
        pub fn rnt_read_page_list(
            header: *const u8,
            header_length: usize,
            page_list: *const u8,
            page_list_length: usize,
            entries: u64,
            file_length: u64,
            pages: *mut u64,
            page_words: usize,
            result: *mut u64,
            result_words: usize,
        ) -> u32;
        pub fn rnt_read_paired_page_list(
            header: *const u8,
            header_length: usize,
            page_list: *const u8,
            page_list_length: usize,
            entries: u64,
            checksum: u64,
            file_length: u64,
            pages: *mut u64,
            page_words: usize,
            result: *mut u64,
            result_words: usize,
        ) -> u32;
        pub fn rnt_report_page_list(
            header: *const u8,
            header_length: usize,
            page_list: *const u8,
            page_list_length: usize,
            entries: u64,
            file_length: u64,
            accepted: u64,
            refused: u64,
            report: *mut u64,
            report_words: usize,
            result: *mut u64,
            result_words: usize,
        ) -> u32;
        pub fn rnt_write_header(
            strings: *const u8,
            strings_length: usize,
            name_place: u64,
            name_length: u64,
            description_place: u64,
            description_length: u64,
            fields: *const u64,
            field_words: usize,
            columns: *const u64,
            column_words: usize,
            aliases: *const u64,
            alias_words: usize,
            out: *mut u8,
            out_length: usize,
            result: *mut u64,
            result_words: usize,
        ) -> u32;
        pub fn rnt_write_footer(
            header: *const u8,
            header_length: usize,
            file_length: u64,
            clusters: *const u64,
            cluster_words: usize,
            metadata: *const u64,
            metadata_words: usize,
            out: *mut u8,
            out_length: usize,
            result: *mut u64,
            result_words: usize,
        ) -> u32;
        pub fn rnt_write_page_list(
            header: *const u8,
            header_length: usize,
            entries: u64,
            file_length: u64,
            pages: *const u64,
            page_words: usize,
            out: *mut u8,
            out_length: usize,
            result: *mut u64,
            result_words: usize,
        ) -> u32;
        pub fn rnt_decode_page(
            column_type: u32,
            elements: u64,
            checksum: u32,
            page: *const u8,
            page_length: usize,
            words: *mut u64,
            word_count: usize,
            start: u64,
        ) -> u32;
        pub fn rnt_decode_column(
            column_type: u32,
            pages: *const u64,
            page_words: usize,
            file: *const u8,
            file_length: usize,
            words: *mut u64,
            word_count: usize,
            result: *mut u64,
            result_words: usize,
        ) -> u32;
        pub fn rnt_count_true(
            elements: u64,
            checksum: u32,
            page: *const u8,
            page_length: usize,
            result: *mut u64,
            result_words: usize,
        ) -> u32;
        pub fn rnt_encode_page(
            column_type: u32,
            elements: u64,
            checksum: u32,
            words: *const u64,
            word_count: usize,
            start: u64,
            page: *mut u8,
            page_room: usize,
            result: *mut u64,
            result_words: usize,
        ) -> u32;
        pub fn rnt_crc32(bytes: *const u8, length: usize) -> u32;
        pub fn rnt_is_utf8(bytes: *const u8, length: usize) -> u32;
    }
}

// Every call below passes each slice's own pointer and length. What is written
// is lent by `&mut`, so that it overlaps nothing else. An empty slice has a
// pointer that the library does not use.

fn accepted(answer: u32) -> Result<(), Refusal> {
    Refusal::of(answer).map_or(Ok(()), Err)
}

/// Where a string stands in the envelope that was read, or in the strings that
/// are lent to be written.
#[derive(Clone, Copy, Debug, Default, PartialEq, Eq)]
pub struct Text {
    /// The place of its first byte.
    pub place: u64,
    /// Its bytes.
    pub length: u64,
}

/// The two texts of a header that belong to no field.
#[derive(Clone, Copy, Debug, Default, PartialEq, Eq)]
pub struct HeaderTexts {
    pub name: Text,
    pub description: Text,
}

/// An accepted header: its texts, and the rows that were read.
#[derive(Clone, Copy, Debug)]
pub struct Header<'a> {
    pub name: &'a str,
    pub description: &'a str,
    /// Where these two stand in the envelope, as [`write_header`] takes them.
    pub texts: HeaderTexts,
    pub fields: Table<'a, Field<'a>>,
    pub columns: Table<'a, Column>,
    pub aliases: Table<'a, Alias>,
}

/// Reads a header into lent tables, whose rows have 15, 4 and 2 words.
pub fn read_header<'a>(
    envelope: &'a [u8],
    fields: &'a mut [u64],
    columns: &'a mut [u64],
    aliases: &'a mut [u64],
) -> Result<Header<'a>, Refusal> {
    let mut result = [0; 7];
    // SAFETY: see above.
    accepted(unsafe {
        c::rnt_read_header(
            envelope.as_ptr(),
            envelope.len(),
            fields.as_mut_ptr(),
            fields.len(),
            columns.as_mut_ptr(),
            columns.len(),
            aliases.as_mut_ptr(),
            aliases.len(),
            result.as_mut_ptr(),
            result.len(),
        )
    })?;
    let texts = HeaderTexts {
        name: Text {
            place: result[0],
            length: result[1],
        },
        description: Text {
            place: result[2],
            length: result[3],
        },
    };
    Ok(Header {
        name: text(envelope, texts.name),
        description: text(envelope, texts.description),
        texts,
        fields: Table::first(result[4], fields, envelope),
        columns: Table::first(result[5], columns, envelope),
        aliases: Table::first(result[6], aliases, envelope),
    })
}

/// The moves from the fields of a header to their tops, all of them together:
/// one from a field to its parent, one more to the parent's parent, and so on up
/// to the first field that is its own parent. With `n` fields they are at most
/// `n * (n - 1) / 2`, so never more than 130,816.
///
/// No memory is lent, so that [`Reason::RoomTooSmall`](crate::Reason::RoomTooSmall)
/// is never given; every other refusal is that of [`read_header`].
///
/// ```
/// use rntuple_check::{parent_moves, Reason};
///
/// // Of its five fields one hangs on another, which is a top.
/// let header = include_bytes!("../../../examples/fields.header");
/// assert_eq!(parent_moves(header)?, 1);
///
/// let damaged = include_bytes!("../../../examples/damaged.header");
/// assert_eq!(parent_moves(damaged).unwrap_err().reason, Reason::ChecksumDiffers);
/// # Ok::<(), rntuple_check::Refusal>(())
/// ```
pub fn parent_moves(envelope: &[u8]) -> Result<u64, Refusal> {
    let mut result = [0; 1];
    // SAFETY: see above.
    accepted(unsafe { c::rnt_parent_moves(envelope.as_ptr(), envelope.len(), result.as_mut_ptr(), result.len()) })?;
    Ok(result[0])
}

/// Lists the fields of a header as a tree, in lines that people can read, into
/// the first bytes of `out`, and gives how many bytes those are. A field's line
/// comes first, then the listings of its children, smaller numbers first;
/// top-level fields stand in the order of their numbers. A line has two spaces
/// for each level, the field's number, a space, its name, a space, its type name,
/// ` dark` where the field is dark, and a line end. Bytes below 32 and byte 127
/// of the names are written as `?`, so that the listing is UTF-8 without other
/// control bytes than its line ends. [`new_listing`](crate::new_listing) makes
/// the room too.
///
/// Refusals are those of [`read_header`] with room for its rows; last, `out` is
/// too small. A refusal changes nothing, and the bytes behind the listing stay.
///
/// ```
/// use rntuple_check::{list_fields, Reason};
///
/// let header = include_bytes!("../../../examples/tree.header");
/// let mut out = [0; 300];
/// let length = list_fields(header, &mut out)?;
/// let listing = std::str::from_utf8(&out[..length]).unwrap();
/// assert_eq!(listing.lines().next(), Some("0 run std::uint32_t"));
///
/// let refusal = list_fields(header, &mut out[..length - 1]).unwrap_err();
/// assert_eq!(refusal.reason, Reason::RoomTooSmall);
/// # Ok::<(), rntuple_check::Refusal>(())
/// ```
pub fn list_fields(envelope: &[u8], out: &mut [u8]) -> Result<usize, Refusal> {
    let mut result = [0; 1];
    // SAFETY: see above.
    accepted(unsafe {
        c::rnt_list_fields(
            envelope.as_ptr(),
            envelope.len(),
            out.as_mut_ptr(),
            out.len(),
            result.as_mut_ptr(),
            result.len(),
        )
    })?;
    Ok(result[0] as usize)
}

/// An accepted footer: the rows that were read.
#[derive(Clone, Copy, Debug)]
pub struct Footer<'a> {
    pub clusters: Table<'a, Cluster>,
    pub metadata: Table<'a, Link>,
}

/// Reads a footer under its header, for a file of this length, into lent
/// tables, whose rows have 5 and 2 words.
pub fn read_footer<'a>(
    header: &[u8],
    footer: &[u8],
    file_length: u64,
    clusters: &'a mut [u64],
    metadata: &'a mut [u64],
) -> Result<Footer<'a>, Refusal> {
    let mut result = [0; 2];
    // SAFETY: see above.
    accepted(unsafe {
        c::rnt_read_footer(
            header.as_ptr(),
            header.len(),
            footer.as_ptr(),
            footer.len(),
            file_length,
            clusters.as_mut_ptr(),
            clusters.len(),
            metadata.as_mut_ptr(),
            metadata.len(),
            result.as_mut_ptr(),
            result.len(),
        )
    })?;
    Ok(Footer {
        clusters: Table::first(result[0], clusters, &[]),
        metadata: Table::first(result[1], metadata, &[]),
    })
}

/// An accepted page list: the rows that were read, column by column.
#[derive(Clone, Copy, Debug)]
pub struct PageList<'a> {
    pub pages: Table<'a, Page>,
}

/// Reads the page list of a cluster with so many entries, under its header,
/// for a file of this length, into a lent table, whose rows have 5 words.
pub fn read_page_list<'a>(
    header: &[u8],
    page_list: &[u8],
    entries: u64,
    file_length: u64,
    pages: &'a mut [u64],
) -> Result<PageList<'a>, Refusal> {
    let mut result = [0; 1];
    // SAFETY: see above.
    accepted(unsafe {
        c::rnt_read_page_list(
            header.as_ptr(),
            header.len(),
            page_list.as_ptr(),
            page_list.len(),
            entries,
            file_length,
            pages.as_mut_ptr(),
            pages.len(),
            result.as_mut_ptr(),
            result.len(),
        )
    })?;
    Ok(PageList {
        pages: Table::first(result[0], pages, &[]),
    })
}

/// Reads the page list of a cluster, as [`read_page_list`] does with the
/// cluster's entries. Where the cluster has a checksum, a page list with another
/// one is refused, however right it is: it is not the one that the footer means.
pub fn read_paired_page_list<'a>(
    header: &[u8],
    page_list: &[u8],
    cluster: &Cluster,
    file_length: u64,
    pages: &'a mut [u64],
) -> Result<PageList<'a>, Refusal> {
    let mut result = [0; 1];
    // SAFETY: see above.
    accepted(unsafe {
        c::rnt_read_paired_page_list(
            header.as_ptr(),
            header.len(),
            page_list.as_ptr(),
            page_list.len(),
            cluster.entries,
            cluster.checksum_word(),
            file_length,
            pages.as_mut_ptr(),
            pages.len(),
            result.as_mut_ptr(),
            result.len(),
        )
    })?;
    Ok(PageList {
        pages: Table::first(result[0], pages, &[]),
    })
}

/// How many page lists a report has taken: those accepted, and those refused.
#[derive(Clone, Copy, Debug, Default, PartialEq, Eq, Hash)]
pub struct ListCounts {
    pub accepted: u64,
    pub refused: u64,
}

/// Adds the figures of a page list to a report, whose rows have 4 words for each
/// column of the header: pages, elements, stored sizes without checksums, and pages
/// with a checksum. [`Report`](crate::Report) keeps the words and the counts.
///
/// A report is begun with zeros and with the counts 0 and 0. After that `lists` are
/// the counts that the call before gave, on acceptance or with its refusal, and
/// every call has the same header. The figures are then exact sums over the accepted
/// lists, in whatever order the lists come.
///
/// Refused are, in this order: a list too many, when the report has taken 1,024,
/// refused ones too ([`Reason::CountAboveCeiling`](crate::Reason::CountAboveCeiling));
/// what [`read_page_list`] refuses with room enough, which alone is counted as a
/// refused list; a report with fewer rows than the header has columns
/// ([`Reason::RoomTooSmall`](crate::Reason::RoomTooSmall)); and a figure that would
/// pass 64 bits ([`Reason::CountAboveCeiling`](crate::Reason::CountAboveCeiling)). A
/// refusal changes nothing of the report. Words behind the rows of the header's
/// columns stay.
///
/// ```
/// use rntuple_check::{report_page_list, ListCounts, Reason};
///
/// let header = include_bytes!("../../../examples/fields.header");
/// let list = include_bytes!("../../../examples/fields.pagelist");
/// // Four columns.
/// let mut report = [0; 16];
/// let lists = report_page_list(header, list, 3, 4_096, ListCounts::default(), &mut report)?;
/// assert_eq!(lists, ListCounts { accepted: 1, refused: 0 });
/// assert_eq!(report[..4], [1, 3, 12, 1]);
///
/// // Its elements are not four: the list is counted, and adds nothing.
/// let refused = report_page_list(header, list, 4, 4_096, lists, &mut report).unwrap_err();
/// assert_eq!(refused.refusal.reason, Reason::CountsDisagree);
/// assert_eq!(refused.lists, ListCounts { accepted: 1, refused: 1 });
/// assert_eq!(report[..4], [1, 3, 12, 1]);
/// # Ok::<(), rntuple_check::ReportRefusal>(())
/// ```
pub fn report_page_list(
    header: &[u8],
    page_list: &[u8],
    entries: u64,
    file_length: u64,
    lists: ListCounts,
    report: &mut [u64],
) -> Result<ListCounts, ReportRefusal> {
    let mut result = [0; 2];
    // SAFETY: see above.
    let answer = unsafe {
        c::rnt_report_page_list(
            header.as_ptr(),
            header.len(),
            page_list.as_ptr(),
            page_list.len(),
            entries,
            file_length,
            lists.accepted,
            lists.refused,
            report.as_mut_ptr(),
            report.len(),
            result.as_mut_ptr(),
            result.len(),
        )
    };
    let [accepted, refused] = result;
    let lists = ListCounts { accepted, refused };
    match Refusal::of(answer) {
        None => Ok(lists),
        Some(refusal) => Err(ReportRefusal { refusal, lists }),
    }
}

/// Writes a header from tables as [`read_header`] leaves them, rows of 15, 4 and
/// 2 words, into the first bytes of `out`, and gives the bytes written. The
/// strings of the rows and of `texts` stand in `strings`, anywhere and in any
/// order; an envelope that was read will do, with the places that were read.
/// [`new_header`](crate::new_header) takes rows and makes the rest.
///
/// What is written is accepted by [`read_header`] and gives the same rows. Two
/// words of a field are not written: its dark mark and a repetition without flag
/// 0x01. Tables that break a rule get the reason that the bytes would get; a
/// string that is not inside `strings` is
/// [`Reason::PastContainer`](crate::Reason::PastContainer), a number too wide for
/// its place [`Reason::ElementTooWide`](crate::Reason::ElementTooWide), and `out`
/// is too small only where nothing else is wrong. A refusal changes nothing.
///
/// ```
/// use rntuple_check::{write_header, HeaderTexts, Reason};
///
/// let mut out = [0; 64];
/// let header = write_header(b"", HeaderTexts::default(), &[], &[], &[], &mut out)?;
/// assert_eq!(header, include_bytes!("../../../examples/smallest.header"));
///
/// let refusal = write_header(b"", HeaderTexts::default(), &[0; 15], &[1, 8, 0, 0], &[], &mut out).unwrap_err();
/// assert_eq!(refusal.reason, Reason::BitsOfType);
/// # Ok::<(), rntuple_check::Refusal>(())
/// ```
pub fn write_header<'a>(
    strings: &[u8],
    texts: HeaderTexts,
    fields: &[u64],
    columns: &[u64],
    aliases: &[u64],
    out: &'a mut [u8],
) -> Result<&'a mut [u8], Refusal> {
    let HeaderTexts { name, description } = texts;
    let mut result = [0; 1];
    // SAFETY: see above.
    accepted(unsafe {
        c::rnt_write_header(
            strings.as_ptr(),
            strings.len(),
            name.place,
            name.length,
            description.place,
            description.length,
            fields.as_ptr(),
            fields.len(),
            columns.as_ptr(),
            columns.len(),
            aliases.as_ptr(),
            aliases.len(),
            out.as_mut_ptr(),
            out.len(),
            result.as_mut_ptr(),
            result.len(),
        )
    })?;
    Ok(&mut out[..result[0] as usize])
}

/// Writes a footer of this header, for a file of this length, from tables as
/// [`read_footer`] leaves them, rows of 5 and 2 words, into the first bytes of
/// `out`, and gives the bytes written. It is of version 2 where each cluster has
/// the checksum of its page list, of version 1 where none has; some with and some
/// without are [`Reason::CountsDisagree`](crate::Reason::CountsDisagree).
/// [`new_footer`](crate::new_footer) takes rows and makes the rest.
///
/// What is refused, and what is read back, is as for [`write_header`]; the header
/// is refused first.
pub fn write_footer<'a>(
    header: &[u8],
    file_length: u64,
    clusters: &[u64],
    metadata: &[u64],
    out: &'a mut [u8],
) -> Result<&'a mut [u8], Refusal> {
    let mut result = [0; 1];
    // SAFETY: see above.
    accepted(unsafe {
        c::rnt_write_footer(
            header.as_ptr(),
            header.len(),
            file_length,
            clusters.as_ptr(),
            clusters.len(),
            metadata.as_ptr(),
            metadata.len(),
            out.as_mut_ptr(),
            out.len(),
            result.as_mut_ptr(),
            result.len(),
        )
    })?;
    Ok(&mut out[..result[0] as usize])
}

/// Writes the page list of a cluster with so many entries, under its header, for
/// a file of this length, from a table as [`read_page_list`] leaves it, rows of 5
/// words in the order of their columns, into the first bytes of `out`, and gives
/// the bytes written. [`new_page_list`](crate::new_page_list) takes rows and makes
/// the rest.
///
/// What is refused, and what is read back, is as for [`write_header`]; the header
/// is refused first.
pub fn write_page_list<'a>(
    header: &[u8],
    entries: u64,
    file_length: u64,
    pages: &[u64],
    out: &'a mut [u8],
) -> Result<&'a mut [u8], Refusal> {
    let mut result = [0; 1];
    // SAFETY: see above.
    accepted(unsafe {
        c::rnt_write_page_list(
            header.as_ptr(),
            header.len(),
            entries,
            file_length,
            pages.as_ptr(),
            pages.len(),
            out.as_mut_ptr(),
            out.len(),
            result.as_mut_ptr(),
            result.len(),
        )
    })?;
    Ok(&mut out[..result[0] as usize])
}

/// Decodes a page, which includes its checksum where one follows, into the
/// lent words from `start` on, and gives that part of them.
pub fn decode_page<'a>(
    column_type: u16,
    elements: usize,
    checksum: bool,
    page: &[u8],
    words: &'a mut [u64],
    start: usize,
) -> Result<&'a mut [u64], Refusal> {
    // SAFETY: see above.
    accepted(unsafe {
        c::rnt_decode_page(
            column_type.into(),
            elements as u64,
            checksum.into(),
            page.as_ptr(),
            page.len(),
            words.as_mut_ptr(),
            words.len(),
            start as u64,
        )
    })?;
    Ok(&mut words[start..][..elements])
}

/// Decodes the pages of a column, at most 256, out of a part of a file into the
/// lent words: from the first word on, page after page without gaps. Gives the
/// words that they fill.
///
/// The answer and the words are those of [`decode_page`] for one page after the
/// other, up to the first that is refused. A page that is not inside `file`, with
/// its check bytes if it has any, is
/// [`Reason::OutsideFile`](crate::Reason::OutsideFile). More than 256 pages are
/// refused before anything else, with the index 256; no pages are accepted,
/// whatever the type is.
///
/// A refusal leaves earlier work, as no other call does: the pages before the
/// refused one stay decoded in `words`, and all other words are as they were.
///
/// ```
/// use rntuple_check::{decode_column, ColumnPage, Reason};
///
/// // Two pages of 16-bit elements, split; the one that comes first stands behind.
/// let file = [0x78, 0x56, 0x34, 0xCD, 0x12, 0xAB];
/// let page = |offset, elements| ColumnPage { offset, size: 2 * elements as u64, elements, checksum: false };
/// let mut words = [0; 4];
/// assert_eq!(decode_column(0x12, &[page(2, 2), page(0, 1)], &file, &mut words)?, [0x1234, 0xABCD, 0x5678]);
///
/// // The second page ends behind the file part; the first one is there.
/// let mut words = [0; 4];
/// let refused = decode_column(0x12, &[page(0, 1), page(3, 2)], &file, &mut words).unwrap_err();
/// assert_eq!((refused.refusal.reason, refused.index), (Reason::OutsideFile, 1));
/// assert_eq!(words, [0x5678, 0, 0, 0]);
/// # Ok::<(), rntuple_check::ColumnRefusal>(())
/// ```
pub fn decode_column<'a>(
    column_type: u16,
    pages: &[ColumnPage],
    file: &[u8],
    words: &'a mut [u64],
) -> Result<&'a mut [u64], ColumnRefusal> {
    // One row more than there may be: more of them are refused likewise.
    let mut rows = [[0; ColumnPage::WORDS]; most::COLUMN_PAGES + 1];
    let count = pages.len().min(rows.len());
    for (row, page) in rows.iter_mut().zip(pages) {
        *row = page.words();
    }
    let table = rows[..count].as_flattened();
    let mut result = [0; 1];
    // SAFETY: see above.
    let answer = unsafe {
        c::rnt_decode_column(
            column_type.into(),
            table.as_ptr(),
            table.len(),
            file.as_ptr(),
            file.len(),
            words.as_mut_ptr(),
            words.len(),
            result.as_mut_ptr(),
            result.len(),
        )
    };
    let index = result[0] as usize;
    accepted(answer).map_err(|refusal| ColumnRefusal { refusal, index })?;
    let elements = pages.iter().map(|page| page.elements).sum();
    Ok(&mut words[..elements])
}

/// How many elements of a Bit page are true; the page includes its checksum where
/// one follows. What [`decode_page`] refuses of such a page, with room enough, is
/// refused.
///
/// ```
/// use rntuple_check::{count_true, Reason};
///
/// // True, seven false, true.
/// assert_eq!(count_true(9, false, &[0x01, 0x01])?, 2);
/// let refusal = count_true(9, false, &[0x01, 0x03]).unwrap_err();
/// assert_eq!(refusal.reason, Reason::UnusedBitsSet);
/// # Ok::<(), rntuple_check::Refusal>(())
/// ```
pub fn count_true(elements: usize, checksum: bool, page: &[u8]) -> Result<usize, Refusal> {
    let mut result = [0; 1];
    // SAFETY: see above.
    accepted(unsafe {
        c::rnt_count_true(
            elements as u64,
            checksum.into(),
            page.as_ptr(),
            page.len(),
            result.as_mut_ptr(),
            result.len(),
        )
    })?;
    Ok(result[0] as usize)
}

/// Encodes so many elements, from `start` on, into the first bytes of the lent
/// page, with its checksum where one is asked for, and gives the bytes written.
pub fn encode_page<'a>(
    column_type: u16,
    elements: usize,
    checksum: bool,
    words: &[u64],
    start: usize,
    page: &'a mut [u8],
) -> Result<&'a mut [u8], Refusal> {
    let mut result = [0; 1];
    // SAFETY: see above.
    accepted(unsafe {
        c::rnt_encode_page(
            column_type.into(),
            elements as u64,
            checksum.into(),
            words.as_ptr(),
            words.len(),
            start as u64,
            page.as_mut_ptr(),
            page.len(),
            result.as_mut_ptr(),
            result.len(),
        )
    })?;
    Ok(&mut page[..result[0] as usize])
}

/// The CRC-32 of envelopes and pages.
pub fn crc32(bytes: &[u8]) -> u32 {
    // SAFETY: see above.
    unsafe { c::rnt_crc32(bytes.as_ptr(), bytes.len()) }
}

/// Whether the bytes are well-formed UTF-8, as a header's strings have to be.
pub fn is_utf8(bytes: &[u8]) -> bool {
    // SAFETY: see above.
    unsafe { c::rnt_is_utf8(bytes.as_ptr(), bytes.len()) == 1 }
}
