//! Counts of true elements beside Rust loops over machine words, and reports of
//! page lists beside reading the list and summing up its pages.

use crate::{contest, gigabytes, largest_page_list, line_of, Times, ENTRIES, FILE_LENGTH};
use differential::calls::{self, ReportedList};
use differential::generate::random::Random;
use differential::reference::crc::crc32;
use differential::reference::figures::{Counts, LISTS, ROW_WORDS};
use differential::reference::footer::NO_CHECKSUM;
use differential::reference::page_list::{self, PAGES, PAGE_WORDS};
use differential::reference::{header, pages, refusal, HEADER, PAGE_LIST};
use differential::writer::{self, Writer};
use std::cell::RefCell;
use std::hint::black_box;

/// The bits of the bytes that are set, eight bytes at a time.
#[inline(always)]
fn ones(content: &[u8]) -> u64 {
    let words = content.chunks_exact(8);
    let rest: u64 = words.remainder().iter().map(|byte| u64::from(byte.count_ones())).sum();
    let whole = words.map(|word| u64::from_le_bytes(word.try_into().expect("eight bytes")));
    rest + whole.map(|word| u64::from(word.count_ones())).sum::<u64>()
}

/// The true elements of a Bit page as one would count them in Rust: the checks of
/// a page, then its bits. It is called as the library is, which no compiler puts
/// into its caller: for a small page that matters.
#[inline(never)]
fn count(elements: u64, checksum: bool, page: &[u8]) -> Result<u64, u32> {
    if elements > pages::ELEMENTS {
        return Err(10);
    }
    let size = (elements as usize).div_ceil(8);
    if page.len() != size + if checksum { 4 } else { 0 } {
        return Err(21);
    }
    let (content, stored) = page.split_at(size);
    if checksum && crc32(content).to_le_bytes() != stored {
        return Err(22);
    }
    let used = elements % 8;
    if used != 0 && content[size - 1] >> used != 0 {
        return Err(24);
    }
    Ok(ones(content))
}

/// The name of the loop without checks in the table.
const BARE: &str = "bare";

/// The times of a page of so many elements, without a checksum.
fn count_times(random: &mut Random, elements: usize) -> Times {
    let page = random.bytes(elements.div_ceil(8));
    let elements = elements as u64;
    let mut sum = 0;
    let times = contest(
        &mut sum,
        &|sum| {
            let mut result = [0];
            let answer = calls::count_true(black_box(elements), 0, black_box(&page), &mut result);
            assert_eq!(answer, 0);
            *sum = result[0];
        },
        &[
            ("Rust", &|sum| {
                *sum = count(black_box(elements), false, black_box(&page)).expect("a right page");
            }),
            (BARE, &|sum| *sum = ones(black_box(&page))),
        ],
        0,
    );
    assert_eq!(sum, page.iter().map(|byte| u64::from(byte.count_ones())).sum::<u64>());
    times
}

/// A small page and the largest beside the loop with the same checks, and the
/// largest beside the one without.
fn count_lines(random: &mut Random) {
    for elements in [512, pages::ELEMENTS as usize] {
        let times = count_times(random, elements);
        let (bare, rust) = times.parted(BARE);
        let speed = gigabytes(elements / 8, times.ours);
        line_of(&format!("count true, {elements}"), &speed, &times, rust, "-");
        // Of a small page the checks are a good part.
        if elements > 512 {
            line_of("  beside no checks", &speed, &times, bare, "-");
        }
    }
}

/// A report as one would add to it in Rust: the independent reader, the room of the
/// report, and the sums, all of them before one is stored. An error is the answer
/// of the exported call.
fn report(list: ReportedList, report: &mut [u64]) -> Result<Counts, (u32, Counts)> {
    let [accepted, refused] = list.counts;
    let own = |number| (refusal(PAGE_LIST, number), list.counts);
    if accepted.checked_add(refused).is_none_or(|lists| lists >= LISTS) {
        return Err(own(10));
    }
    let apart = |envelope| move |number| (refusal(envelope, number), [accepted, refused + 1]);
    let header = header::read(list.header).map_err(apart(HEADER))?;
    let pages = page_list::read(&header, list.page_list, list.entries, NO_CHECKSUM, list.file_length);
    let pages = pages.map_err(apart(PAGE_LIST))?;
    let report = report.get_mut(..header.columns.len() * ROW_WORDS).ok_or(own(20))?;
    let mut sums = report.to_vec();
    for page in &pages {
        let row = &mut sums[page.column as usize * ROW_WORDS..][..ROW_WORDS];
        let figures = [1, page.elements.into(), page.size.into(), page.checksum.into()];
        add(row, figures).ok_or(own(10))?;
    }
    report.copy_from_slice(&sums);
    Ok([accepted + 1, refused])
}

/// Adds the figures of a page to those of its column, if they have room.
fn add(row: &mut [u64], figures: [u64; ROW_WORDS]) -> Option<()> {
    for (sum, figure) in row.iter_mut().zip(figures) {
        *sum = sum.checked_add(figure)?;
    }
    Some(())
}

/// The library reads the list into a table, whose rows are then summed up, as the
/// sums of right lists.
fn read_and_sum(list: ReportedList, report: &mut [u64], pages: &mut [u64]) -> Counts {
    let mut count = [0];
    let answer = calls::read_page_list(
        list.header,
        list.page_list,
        list.entries,
        list.file_length,
        pages,
        &mut count,
    );
    assert_eq!(answer, 0);
    for page in pages.chunks_exact(PAGE_WORDS).take(count[0] as usize) {
        let row = &mut report[page[0] as usize * ROW_WORDS..][..ROW_WORDS];
        add(row, [1, page[1], page[3], page[2]]).expect("figures that have room");
    }
    [list.counts[0] + 1, list.counts[1]]
}

/// A header of 16 columns, and a page list with one page of each.
fn small_page_list(random: &mut Random) -> (Vec<u8>, Vec<u8>) {
    let mut writer = Writer::default();
    let mut header = writer::Header::default();
    header.fields.items = (0..16)
        .map(|parent| writer::Field {
            parent,
            ..Default::default()
        })
        .collect();
    header.columns.items = (0..16)
        .map(|field| writer::Column {
            column_type: 0x11,
            bits: 32,
            field,
            ..Default::default()
        })
        .collect();
    writer.header(&header);
    let header = std::mem::take(&mut writer.bytes);
    let mut list = writer::PageList::default();
    list.columns.items = (0..16)
        .map(|_| writer::List {
            items: vec![writer::Page {
                elements: 10_000,
                checksum: true,
                size: 40_000,
                offset: random.below(1 << 39),
            }],
            spare: 0,
        })
        .collect();
    writer.page_list(&list);
    (header, writer.bytes)
}

/// The name of the library's own reading in the table.
const READ: &str = "read, sum";

/// The lent report and the result.
type Lent = (Vec<u64>, Counts);

/// The times of a list under a header of so many columns.
fn report_times(list: ReportedList, columns: usize) -> Times {
    let table = RefCell::new(vec![0; PAGES * PAGE_WORDS]);
    let mut lent: Lent = (vec![0; columns * ROW_WORDS], [0; 2]);
    contest(
        &mut lent,
        &|(words, result)| assert_eq!(calls::report_page_list(black_box(list), words, result), 0),
        &[
            (READ, &|(words, result)| {
                *result = read_and_sum(black_box(list), words, &mut table.borrow_mut());
            }),
            ("Rust", &|(words, result)| {
                *result = report(black_box(list), words).expect("a right list");
            }),
        ],
        8 * columns * ROW_WORDS,
    )
}

/// Two lines for each list: beside the independent reader, and beside the library's
/// own reading.
fn report_lines(random: &mut Random) {
    let (small, largest) = (small_page_list(random), largest_page_list(random));
    for (name, (header, page_list), columns, entries) in [
        ("report, 16 pages", &small, 16, 10_000),
        ("report, 16,384 pages", &largest, 64, ENTRIES),
    ] {
        let list = ReportedList {
            header,
            page_list,
            entries,
            file_length: FILE_LENGTH,
            counts: [0, 0],
        };
        let times = report_times(list, columns);
        let (read, rust) = times.parted(READ);
        let speed = gigabytes(header.len() + page_list.len(), times.ours);
        line_of(name, &speed, &times, rust, "-");
        line_of("  beside reading it", &speed, &times, read, "-");
    }
}

pub fn lines(random: &mut Random) {
    count_lines(random);
    report_lines(random);
}

/// They keep the rules: the reference leaves the same on the cases of the
/// differential test.
#[cfg(test)]
mod tests {
    use super::*;
    use differential::compare::Comparer;
    use differential::generate::Kind;
    use differential::reference::PAGE;

    fn compare(comparer: &mut Comparer, kind: Kind) {
        for case in 0..20_000 {
            comparer
                .run(1, kind, case)
                .unwrap_or_else(|difference| panic!("{difference}"));
        }
    }

    /// The call by what is counted, where there is a result.
    fn told(result: &mut [u64], counted: impl FnOnce() -> Result<u64, u32>) -> u32 {
        let Some(first) = result.first_mut() else {
            return u32::MAX;
        };
        let counted = counted();
        *first = counted.unwrap_or(0);
        counted.map_or_else(|number| refusal(PAGE, number), |_| 0)
    }

    #[test]
    fn counts_are_those_of_the_reference() {
        let mut comparer = Comparer::new();
        comparer.count_true = |elements, checksum, page, result| told(result, || count(elements, checksum != 0, page));
        compare(&mut comparer, Kind::CountTrue);
    }

    #[test]
    fn reports_are_those_of_the_reference() {
        let mut comparer = Comparer::new();
        comparer.report_page_list = |list, words, result| {
            if result.len() < 2 {
                return u32::MAX;
            }
            let (answer, counts) = report(list, words).map_or_else(|refused| refused, |counts| (0, counts));
            result[..2].copy_from_slice(&counts);
            answer
        };
        compare(&mut comparer, Kind::Report);
    }

    /// Reading and summing up does so for right lists alone.
    #[test]
    fn right_lists_are_read_and_summed_up() {
        let mut random = Random::new(2);
        let (small, largest) = (small_page_list(&mut random), largest_page_list(&mut random));
        for ((header, page_list), entries) in [(&small, 10_000), (&largest, ENTRIES)] {
            let list = ReportedList {
                header,
                page_list,
                entries,
                file_length: FILE_LENGTH,
                counts: [5, 6],
            };
            let (mut words, mut due) = (vec![7; 64 * ROW_WORDS], vec![7; 64 * ROW_WORDS]);
            let mut table = vec![0; PAGES * PAGE_WORDS];
            assert_eq!(report(list, &mut due), Ok([6, 6]));
            assert_eq!(read_and_sum(list, &mut words, &mut table), [6, 6]);
            assert!(words == due);
        }
    }
}
