//! The exported calls of the library under test.

/// Whether the library is linked. If not, the calls below are the reference's
/// own, and comparing them with it says nothing.
pub const LINKED: bool = cfg!(not(reference_only));

/// The answer where the lent result is too short.
pub const RESULT_TOO_SHORT: u32 = u32::MAX;

#[cfg(not(reference_only))]
mod exported {
    extern "C" {
        pub fn rnt_read_header(
            envelope: *const u8,
            envelope_length: usize,
            fields: *mut u64,
            field_words: usize,
            columns: *mut u64,
            column_words: usize,
            aliases: *mut u64,
            alias_words: usize,
            result: *mut u64,
            result_words: usize,
        ) -> u32;
        pub fn rnt_parent_moves(header: *const u8, header_length: usize, result: *mut u64, result_words: usize) -> u32;
        pub fn rnt_list_fields(
            header: *const u8,
            header_length: usize,
            out: *mut u8,
            out_length: usize,
            result: *mut u64,
            result_words: usize,
        ) -> u32;
        pub fn rnt_read_footer(
            header: *const u8,
            header_length: usize,
            footer: *const u8,
            footer_length: usize,
            file_length: u64,
            clusters: *mut u64,
            cluster_words: usize,
            metadata: *mut u64,
            metadata_words: usize,
            result: *mut u64,
            result_words: usize,
        ) -> u32;
        pub fn rnt_read_page_list(
            header: *const u8,
            header_length: usize,
            page_list: *const u8,
            page_list_length: usize,
            entries: u64,
            file_length: u64,
            pages: *mut u64,
            page_words: usize,
            result: *mut u64,
            result_words: usize,
        ) -> u32;
        pub fn rnt_read_paired_page_list(
            header: *const u8,
            header_length: usize,
            page_list: *const u8,
            page_list_length: usize,
            entries: u64,
            checksum: u64,
            file_length: u64,
            pages: *mut u64,
            page_words: usize,
            result: *mut u64,
            result_words: usize,
        ) -> u32;
        pub fn rnt_report_page_list(
            header: *const u8,
            header_length: usize,
            page_list: *const u8,
            page_list_length: usize,
            entries: u64,
            file_length: u64,
            accepted: u64,
            refused: u64,
            report: *mut u64,
            report_words: usize,
            result: *mut u64,
            result_words: usize,
        ) -> u32;
        pub fn rnt_write_header(
            strings: *const u8,
            strings_length: usize,
            name_place: u64,
            name_length: u64,
            description_place: u64,
            description_length: u64,
            fields: *const u64,
            field_words: usize,
            columns: *const u64,
            column_words: usize,
            aliases: *const u64,
            alias_words: usize,
            out: *mut u8,
            out_length: usize,
            result: *mut u64,
            result_words: usize,
        ) -> u32;
        pub fn rnt_write_footer(
            header: *const u8,
            header_length: usize,
            file_length: u64,
            clusters: *const u64,
            cluster_words: usize,
            metadata: *const u64,
            metadata_words: usize,
            out: *mut u8,
            out_length: usize,
            result: *mut u64,
            result_words: usize,
        ) -> u32;
        pub fn rnt_write_page_list(
            header: *const u8,
            header_length: usize,
            entries: u64,
            file_length: u64,
            pages: *const u64,
            page_words: usize,
            out: *mut u8,
            out_length: usize,
            result: *mut u64,
            result_words: usize,
        ) -> u32;
        pub fn rnt_decode_page(
            column_type: u32,
            elements: u64,
            checksum: u32,
            page: *const u8,
            page_length: usize,
            words: *mut u64,
            word_count: usize,
            start: u64,
        ) -> u32;
        pub fn rnt_decode_column(
            column_type: u32,
            pages: *const u64,
            page_words: usize,
            file: *const u8,
            file_length: usize,
            words: *mut u64,
            word_count: usize,
            result: *mut u64,
            result_words: usize,
        ) -> u32;
        pub fn rnt_count_true(
            elements: u64,
            checksum: u32,
            page: *const u8,
            page_length: usize,
            result: *mut u64,
            result_words: usize,
        ) -> u32;
        pub fn rnt_encode_page(
            column_type: u32,
            elements: u64,
            checksum: u32,
            words: *const u64,
            word_count: usize,
            start: u64,
            page: *mut u8,
            page_room: usize,
            result: *mut u64,
            result_words: usize,
        ) -> u32;
        pub fn rnt_crc32(bytes: *const u8, length: usize) -> u32;
        pub fn rnt_is_utf8(bytes: *const u8, length: usize) -> u32;
    }
}

/// The same signatures, answered by the reference.
#[cfg(reference_only)]
mod exported {
    use crate::calls::RESULT_TOO_SHORT;
    use crate::reference;
    use std::slice::{from_raw_parts, from_raw_parts_mut};

    fn answer<const N: usize>(result: &mut [u64], call: impl FnOnce() -> (u32, [u64; N])) -> u32 {
        if result.len() < N {
            return RESULT_TOO_SHORT;
        }
        let (answer, words) = call();
        result[..N].copy_from_slice(&words);
        answer
    }

    #[allow(clippy::too_many_arguments)]
    pub unsafe fn rnt_read_header(
        envelope: *const u8,
        envelope_length: usize,
        fields: *mut u64,
        field_words: usize,
        columns: *mut u64,
        column_words: usize,
        aliases: *mut u64,
        alias_words: usize,
        result: *mut u64,
        result_words: usize,
    ) -> u32 {
        answer(from_raw_parts_mut(result, result_words), || {
            reference::read_header(
                from_raw_parts(envelope, envelope_length),
                from_raw_parts_mut(fields, field_words),
                from_raw_parts_mut(columns, column_words),
                from_raw_parts_mut(aliases, alias_words),
            )
        })
    }

    pub unsafe fn rnt_parent_moves(
        header: *const u8,
        header_length: usize,
        result: *mut u64,
        result_words: usize,
    ) -> u32 {
        answer(from_raw_parts_mut(result, result_words), || {
            reference::parent_moves(from_raw_parts(header, header_length))
        })
    }

    pub unsafe fn rnt_list_fields(
        header: *const u8,
        header_length: usize,
        out: *mut u8,
        out_length: usize,
        result: *mut u64,
        result_words: usize,
    ) -> u32 {
        answer(from_raw_parts_mut(result, result_words), || {
            reference::list_fields(
                from_raw_parts(header, header_length),
                from_raw_parts_mut(out, out_length),
            )
        })
    }

    #[allow(clippy::too_many_arguments)]
    pub unsafe fn rnt_read_footer(
        header: *const u8,
        header_length: usize,
        footer: *const u8,
        footer_length: usize,
        file_length: u64,
        clusters: *mut u64,
        cluster_words: usize,
        metadata: *mut u64,
        metadata_words: usize,
        result: *mut u64,
        result_words: usize,
    ) -> u32 {
        answer(from_raw_parts_mut(result, result_words), || {
            reference::read_footer(
                from_raw_parts(header, header_length),
                from_raw_parts(footer, footer_length),
                file_length,
                from_raw_parts_mut(clusters, cluster_words),
                from_raw_parts_mut(metadata, metadata_words),
            )
        })
    }

    #[allow(clippy::too_many_arguments)]
    pub unsafe fn rnt_read_page_list(
        header: *const u8,
        header_length: usize,
        page_list: *const u8,
        page_list_length: usize,
        entries: u64,
        file_length: u64,
        pages: *mut u64,
        page_words: usize,
        result: *mut u64,
        result_words: usize,
    ) -> u32 {
        answer(from_raw_parts_mut(result, result_words), || {
            reference::read_page_list(
                from_raw_parts(header, header_length),
                from_raw_parts(page_list, page_list_length),
                entries,
                file_length,
                from_raw_parts_mut(pages, page_words),
            )
        })
    }

    #[allow(clippy::too_many_arguments)]
    pub unsafe fn rnt_read_paired_page_list(
        header: *const u8,
        header_length: usize,
        page_list: *const u8,
        page_list_length: usize,
        entries: u64,
        checksum: u64,
        file_length: u64,
        pages: *mut u64,
        page_words: usize,
        result: *mut u64,
        result_words: usize,
    ) -> u32 {
        answer(from_raw_parts_mut(result, result_words), || {
            reference::read_paired_page_list(
                from_raw_parts(header, header_length),
                from_raw_parts(page_list, page_list_length),
                entries,
                checksum,
                file_length,
                from_raw_parts_mut(pages, page_words),
            )
        })
    }

    #[allow(clippy::too_many_arguments)]
    pub unsafe fn rnt_report_page_list(
        header: *const u8,
        header_length: usize,
        page_list: *const u8,
        page_list_length: usize,
        entries: u64,
        file_length: u64,
        accepted: u64,
        refused: u64,
        report: *mut u64,
        report_words: usize,
        result: *mut u64,
        result_words: usize,
    ) -> u32 {
        answer(from_raw_parts_mut(result, result_words), || {
            reference::report_page_list(
                from_raw_parts(header, header_length),
                from_raw_parts(page_list, page_list_length),
                entries,
                file_length,
                [accepted, refused],
                from_raw_parts_mut(report, report_words),
            )
        })
    }

    #[allow(clippy::too_many_arguments)]
    pub unsafe fn rnt_write_header(
        strings: *const u8,
        strings_length: usize,
        name_place: u64,
        name_length: u64,
        description_place: u64,
        description_length: u64,
        fields: *const u64,
        field_words: usize,
        columns: *const u64,
        column_words: usize,
        aliases: *const u64,
        alias_words: usize,
        out: *mut u8,
        out_length: usize,
        result: *mut u64,
        result_words: usize,
    ) -> u32 {
        answer(from_raw_parts_mut(result, result_words), || {
            reference::write_header(
                from_raw_parts(strings, strings_length),
                [name_place, name_length, description_place, description_length],
                from_raw_parts(fields, field_words),
                from_raw_parts(columns, column_words),
                from_raw_parts(aliases, alias_words),
                from_raw_parts_mut(out, out_length),
            )
        })
    }

    #[allow(clippy::too_many_arguments)]
    pub unsafe fn rnt_write_footer(
        header: *const u8,
        header_length: usize,
        file_length: u64,
        clusters: *const u64,
        cluster_words: usize,
        metadata: *const u64,
        metadata_words: usize,
        out: *mut u8,
        out_length: usize,
        result: *mut u64,
        result_words: usize,
    ) -> u32 {
        answer(from_raw_parts_mut(result, result_words), || {
            reference::write_footer(
                from_raw_parts(header, header_length),
                file_length,
                from_raw_parts(clusters, cluster_words),
                from_raw_parts(metadata, metadata_words),
                from_raw_parts_mut(out, out_length),
            )
        })
    }

    #[allow(clippy::too_many_arguments)]
    pub unsafe fn rnt_write_page_list(
        header: *const u8,
        header_length: usize,
        entries: u64,
        file_length: u64,
        pages: *const u64,
        page_words: usize,
        out: *mut u8,
        out_length: usize,
        result: *mut u64,
        result_words: usize,
    ) -> u32 {
        answer(from_raw_parts_mut(result, result_words), || {
            reference::write_page_list(
                from_raw_parts(header, header_length),
                entries,
                file_length,
                from_raw_parts(pages, page_words),
                from_raw_parts_mut(out, out_length),
            )
        })
    }

    #[allow(clippy::too_many_arguments)]
    pub unsafe fn rnt_decode_page(
        column_type: u32,
        elements: u64,
        checksum: u32,
        page: *const u8,
        page_length: usize,
        words: *mut u64,
        word_count: usize,
        start: u64,
    ) -> u32 {
        let page = from_raw_parts(page, page_length);
        reference::decode_page(
            column_type,
            elements,
            checksum != 0,
            page,
            from_raw_parts_mut(words, word_count),
            start,
        )
    }

    #[allow(clippy::too_many_arguments)]
    pub unsafe fn rnt_decode_column(
        column_type: u32,
        pages: *const u64,
        page_words: usize,
        file: *const u8,
        file_length: usize,
        words: *mut u64,
        word_count: usize,
        result: *mut u64,
        result_words: usize,
    ) -> u32 {
        answer(from_raw_parts_mut(result, result_words), || {
            let pages = from_raw_parts(pages, page_words);
            let file = from_raw_parts(file, file_length);
            reference::decode_column(column_type, pages, file, from_raw_parts_mut(words, word_count))
        })
    }

    pub unsafe fn rnt_count_true(
        elements: u64,
        checksum: u32,
        page: *const u8,
        page_length: usize,
        result: *mut u64,
        result_words: usize,
    ) -> u32 {
        answer(from_raw_parts_mut(result, result_words), || {
            reference::count_true(elements, checksum != 0, from_raw_parts(page, page_length))
        })
    }

    #[allow(clippy::too_many_arguments)]
    pub unsafe fn rnt_encode_page(
        column_type: u32,
        elements: u64,
        checksum: u32,
        words: *const u64,
        word_count: usize,
        start: u64,
        page: *mut u8,
        page_room: usize,
        result: *mut u64,
        result_words: usize,
    ) -> u32 {
        answer(from_raw_parts_mut(result, result_words), || {
            let words = from_raw_parts(words, word_count);
            let page = from_raw_parts_mut(page, page_room);
            reference::encode_page(column_type, elements, checksum != 0, words, start, page)
        })
    }

    pub unsafe fn rnt_crc32(bytes: *const u8, length: usize) -> u32 {
        reference::crc::crc32(from_raw_parts(bytes, length))
    }

    pub unsafe fn rnt_is_utf8(bytes: *const u8, length: usize) -> u32 {
        u32::from(reference::envelope::is_string(from_raw_parts(bytes, length)))
    }
}

pub fn read_header(
    envelope: &[u8],
    fields: &mut [u64],
    columns: &mut [u64],
    aliases: &mut [u64],
    result: &mut [u64],
) -> u32 {
    // SAFETY: each pointer comes with its slice's own length, and the slices are disjoint.
    unsafe {
        exported::rnt_read_header(
            envelope.as_ptr(),
            envelope.len(),
            fields.as_mut_ptr(),
            fields.len(),
            columns.as_mut_ptr(),
            columns.len(),
            aliases.as_mut_ptr(),
            aliases.len(),
            result.as_mut_ptr(),
            result.len(),
        )
    }
}

pub fn parent_moves(header: &[u8], result: &mut [u64]) -> u32 {
    // SAFETY: as above.
    unsafe { exported::rnt_parent_moves(header.as_ptr(), header.len(), result.as_mut_ptr(), result.len()) }
}

pub fn list_fields(header: &[u8], out: &mut [u8], result: &mut [u64]) -> u32 {
    // SAFETY: as above.
    unsafe {
        exported::rnt_list_fields(
            header.as_ptr(),
            header.len(),
            out.as_mut_ptr(),
            out.len(),
            result.as_mut_ptr(),
            result.len(),
        )
    }
}

pub fn read_footer(
    header: &[u8],
    footer: &[u8],
    file_length: u64,
    clusters: &mut [u64],
    metadata: &mut [u64],
    result: &mut [u64],
) -> u32 {
    // SAFETY: as above.
    unsafe {
        exported::rnt_read_footer(
            header.as_ptr(),
            header.len(),
            footer.as_ptr(),
            footer.len(),
            file_length,
            clusters.as_mut_ptr(),
            clusters.len(),
            metadata.as_mut_ptr(),
            metadata.len(),
            result.as_mut_ptr(),
            result.len(),
        )
    }
}

pub fn read_page_list(
    header: &[u8],
    page_list: &[u8],
    entries: u64,
    file_length: u64,
    pages: &mut [u64],
    result: &mut [u64],
) -> u32 {
    // SAFETY: as above.
    unsafe {
        exported::rnt_read_page_list(
            header.as_ptr(),
            header.len(),
            page_list.as_ptr(),
            page_list.len(),
            entries,
            file_length,
            pages.as_mut_ptr(),
            pages.len(),
            result.as_mut_ptr(),
            result.len(),
        )
    }
}

pub fn read_paired_page_list(
    header: &[u8],
    page_list: &[u8],
    entries: u64,
    checksum: u64,
    file_length: u64,
    pages: &mut [u64],
    result: &mut [u64],
) -> u32 {
    // SAFETY: as above.
    unsafe {
        exported::rnt_read_paired_page_list(
            header.as_ptr(),
            header.len(),
            page_list.as_ptr(),
            page_list.len(),
            entries,
            checksum,
            file_length,
            pages.as_mut_ptr(),
            pages.len(),
            result.as_mut_ptr(),
            result.len(),
        )
    }
}

/// A page list that is handed to a report, with the report's counts so far.
#[derive(Clone, Copy)]
pub struct ReportedList<'a> {
    pub header: &'a [u8],
    pub page_list: &'a [u8],
    pub entries: u64,
    pub file_length: u64,
    /// Lists accepted and refused.
    pub counts: [u64; 2],
}

pub fn report_page_list(list: ReportedList, report: &mut [u64], result: &mut [u64]) -> u32 {
    let ReportedList {
        header,
        page_list,
        entries,
        file_length,
        counts: [accepted, refused],
    } = list;
    // SAFETY: as above.
    unsafe {
        exported::rnt_report_page_list(
            header.as_ptr(),
            header.len(),
            page_list.as_ptr(),
            page_list.len(),
            entries,
            file_length,
            accepted,
            refused,
            report.as_mut_ptr(),
            report.len(),
            result.as_mut_ptr(),
            result.len(),
        )
    }
}

/// What is lent to the writer of a header, besides the bytes that it writes.
#[derive(Clone, Copy)]
pub struct HeaderTables<'a> {
    pub strings: &'a [u8],
    /// Place and length of the name, then of the description.
    pub texts: [u64; 4],
    pub fields: &'a [u64],
    pub columns: &'a [u64],
    pub aliases: &'a [u64],
}

pub fn write_header(tables: HeaderTables, out: &mut [u8], result: &mut [u64]) -> u32 {
    let HeaderTables {
        strings,
        texts: [name_place, name_length, description_place, description_length],
        fields,
        columns,
        aliases,
    } = tables;
    // SAFETY: as above.
    unsafe {
        exported::rnt_write_header(
            strings.as_ptr(),
            strings.len(),
            name_place,
            name_length,
            description_place,
            description_length,
            fields.as_ptr(),
            fields.len(),
            columns.as_ptr(),
            columns.len(),
            aliases.as_ptr(),
            aliases.len(),
            out.as_mut_ptr(),
            out.len(),
            result.as_mut_ptr(),
            result.len(),
        )
    }
}

/// What is lent to the writer of a footer.
#[derive(Clone, Copy)]
pub struct FooterTables<'a> {
    pub header: &'a [u8],
    pub file_length: u64,
    pub clusters: &'a [u64],
    pub metadata: &'a [u64],
}

pub fn write_footer(tables: FooterTables, out: &mut [u8], result: &mut [u64]) -> u32 {
    let FooterTables {
        header,
        file_length,
        clusters,
        metadata,
    } = tables;
    // SAFETY: as above.
    unsafe {
        exported::rnt_write_footer(
            header.as_ptr(),
            header.len(),
            file_length,
            clusters.as_ptr(),
            clusters.len(),
            metadata.as_ptr(),
            metadata.len(),
            out.as_mut_ptr(),
            out.len(),
            result.as_mut_ptr(),
            result.len(),
        )
    }
}

/// What is lent to the writer of a page list.
#[derive(Clone, Copy)]
pub struct PageListTable<'a> {
    pub header: &'a [u8],
    pub entries: u64,
    pub file_length: u64,
    pub pages: &'a [u64],
}

pub fn write_page_list(table: PageListTable, out: &mut [u8], result: &mut [u64]) -> u32 {
    let PageListTable {
        header,
        entries,
        file_length,
        pages,
    } = table;
    // SAFETY: as above.
    unsafe {
        exported::rnt_write_page_list(
            header.as_ptr(),
            header.len(),
            entries,
            file_length,
            pages.as_ptr(),
            pages.len(),
            out.as_mut_ptr(),
            out.len(),
            result.as_mut_ptr(),
            result.len(),
        )
    }
}

pub fn decode_page(column_type: u32, elements: u64, checksum: u32, page: &[u8], words: &mut [u64], start: u64) -> u32 {
    // SAFETY: as above.
    unsafe {
        exported::rnt_decode_page(
            column_type,
            elements,
            checksum,
            page.as_ptr(),
            page.len(),
            words.as_mut_ptr(),
            words.len(),
            start,
        )
    }
}

pub fn decode_column(column_type: u32, pages: &[u64], file: &[u8], words: &mut [u64], result: &mut [u64]) -> u32 {
    // SAFETY: as above.
    unsafe {
        exported::rnt_decode_column(
            column_type,
            pages.as_ptr(),
            pages.len(),
            file.as_ptr(),
            file.len(),
            words.as_mut_ptr(),
            words.len(),
            result.as_mut_ptr(),
            result.len(),
        )
    }
}

pub fn count_true(elements: u64, checksum: u32, page: &[u8], result: &mut [u64]) -> u32 {
    // SAFETY: as above.
    unsafe {
        exported::rnt_count_true(
            elements,
            checksum,
            page.as_ptr(),
            page.len(),
            result.as_mut_ptr(),
            result.len(),
        )
    }
}

pub fn encode_page(
    column_type: u32,
    elements: u64,
    checksum: u32,
    words: &[u64],
    start: u64,
    page: &mut [u8],
    result: &mut [u64],
) -> u32 {
    // SAFETY: as above.
    unsafe {
        exported::rnt_encode_page(
            column_type,
            elements,
            checksum,
            words.as_ptr(),
            words.len(),
            start,
            page.as_mut_ptr(),
            page.len(),
            result.as_mut_ptr(),
            result.len(),
        )
    }
}

pub fn crc32(bytes: &[u8]) -> u32 {
    // SAFETY: as above.
    unsafe { exported::rnt_crc32(bytes.as_ptr(), bytes.len()) }
}

pub fn is_utf8(bytes: &[u8]) -> u32 {
    // SAFETY: as above.
    unsafe { exported::rnt_is_utf8(bytes.as_ptr(), bytes.len()) }
}
