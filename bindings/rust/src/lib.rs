//! Safe functions over the proved checker of RNTuple archives: slices in, rows
//! or a refusal out.
//!
//! The functions of this crate take the memory that is written as slices, as
//! the library does. [`HeaderRoom`], [`FooterRoom`], [`PageListRoom`],
//! [`Report`], [`decode`], [`encode`], [`new_listing`], [`new_header`],
//! [`new_footer`] and [`new_page_list`] make that memory, of a size that is never
//! too small.
//!
//! ```
//! use rntuple_check::{HeaderRoom, Reason};
//!
//! let envelope = include_bytes!("../../../examples/fields.header");
//! let mut room = HeaderRoom::full();
//! let header = room.read(envelope)?;
//! assert_eq!(header.name, "events");
//! assert_eq!(header.fields.len(), 5);
//! assert_eq!(header.fields.get(0).unwrap().name, "energy");
//!
//! let refusal = room.read(b"no header").unwrap_err();
//! assert_eq!(refusal.reason, Reason::ChecksumDiffers);
//! assert_eq!(refusal.to_string(), "header refused 3: checksum differs");
//! # Ok::<(), rntuple_check::Refusal>(())
//! ```
//!
//! A cluster of a footer says which page list it means, so that an old one does
//! not pass for it:
//!
//! ```
//! use rntuple_check::{FooterRoom, PageListRoom, Reason};
//!
//! let header = include_bytes!("../../../examples/fields.header");
//! let footer = include_bytes!("../../../examples/paired.footer");
//! let file_length = 4_096;
//! let mut footer_room = FooterRoom::full();
//! let cluster = footer_room.read(header, footer, file_length)?.clusters.get(0).unwrap();
//!
//! let mut room = PageListRoom::full();
//! let list = include_bytes!("../../../examples/fields.pagelist");
//! assert_eq!(room.read_paired(header, list, &cluster, file_length)?.pages.len(), 5);
//! let stale = include_bytes!("../../../examples/stale.pagelist");
//! let refusal = room.read_paired(header, stale, &cluster, file_length).unwrap_err();
//! assert_eq!(refusal.reason, Reason::OtherPageList);
//! # Ok::<(), rntuple_check::Refusal>(())
//! ```
//!
//! Rows can be written as an envelope, by the rules by which it is read:
//!
//! ```
//! use rntuple_check::{new_page_list, PageListRoom, Reason};
//!
//! let header = include_bytes!("../../../examples/fields.header");
//! let list = include_bytes!("../../../examples/fields.pagelist");
//! let mut room = PageListRoom::full();
//! let mut pages: Vec<_> = room.read(header, list, 3, 4_096)?.pages.iter().collect();
//! assert_eq!(new_page_list(header, 3, 4_096, &pages)?, list);
//!
//! // Its last page elsewhere, and then behind the end of the file.
//! pages[4].offset = 384;
//! let stale = include_bytes!("../../../examples/stale.pagelist");
//! assert_eq!(new_page_list(header, 3, 4_096, &pages)?, stale);
//! pages[4].offset = 4_096;
//! let refusal = new_page_list(header, 3, 4_096, &pages).unwrap_err();
//! assert_eq!(refusal.reason, Reason::OutsideFile);
//! # Ok::<(), rntuple_check::Refusal>(())
//! ```
//!
//! A report sums up the page lists of a header, column by column:
//!
//! ```
//! use rntuple_check::{Figures, ListCounts, Report};
//!
//! let header = include_bytes!("../../../examples/fields.header");
//! let list = include_bytes!("../../../examples/fields.pagelist");
//! let mut report = Report::full();
//! report.add(header, list, 3, 4_096)?;
//! report.add(header, b"no page list", 3, 4_096).unwrap_err();
//! report.add(header, list, 3, 4_096)?;
//! assert_eq!(report.lists(), ListCounts { accepted: 2, refused: 1 });
//! let first = Figures { pages: 2, elements: 6, stored_size: 24, pages_with_checksum: 2 };
//! assert_eq!(report.figures().get(0), Some(first));
//! # Ok::<(), rntuple_check::Refusal>(())
//! ```
//!
//! What is proved is the library: its answers and all that it writes. This
//! crate is tested. The rules are in `docs/PROFILE.md`.

mod calls;
mod refusal;
mod room;
mod rows;

pub use calls::{
    count_true, crc32, decode_column, decode_page, encode_page, is_utf8, list_fields, parent_moves, read_footer,
    read_header, read_page_list, read_paired_page_list, report_page_list, write_footer, write_header, write_page_list,
    Footer, Header, HeaderTexts, ListCounts, PageList, Text,
};
pub use refusal::{ColumnRefusal, Envelope, Reason, Refusal, ReportRefusal};
pub use room::{
    decode, encode, new_footer, new_header, new_listing, new_page_list, FooterRoom, HeaderRoom, PageListRoom, Report,
};
pub use rows::{Alias, Cluster, Column, ColumnNumber, ColumnPage, Field, FieldNumber, Figures, Link, Page, Row, Table};

/// The most bytes and rows that an accepted envelope can have, the most elements
/// of one page, the most pages of one column call, and the most page lists of one
/// report.
pub mod most {
    pub const BYTES: usize = 1_048_576;
    pub const FIELDS: usize = 512;
    pub const COLUMNS: usize = 1_024;
    pub const ALIASES: usize = 256;
    pub const CLUSTERS: usize = 1_024;
    pub const LINKS: usize = 64;
    pub const PAGES: usize = 16_384;
    pub const ELEMENTS: usize = 131_072;
    pub const COLUMN_PAGES: usize = 256;
    pub const LISTS: usize = 1_024;
}
