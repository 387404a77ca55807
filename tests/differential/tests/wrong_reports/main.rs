//! Wrong reports of page lists, each of which the comparison has to find. They
//! stand in for the library's call; what is right about them is the reference's.

/// The right way but for these parts.
macro_rules! way {
    ($($part:ident: $other:expr),* $(,)?) => {
        |list, report, result| Way { $($part: $other,)* ..RIGHT }.call(list, report, result)
    };
}

mod calls;
mod figures;

use differential::calls::ReportedList;
use differential::compare::{Comparer, ReportCall};
use differential::generate::Kind;
use differential::reference::figures::Counts;
use differential::reference::footer::NO_CHECKSUM;
use differential::reference::page_list::Page;
use differential::reference::{header, page_list, report_page_list};

const TOO_SHORT: u32 = u32::MAX;
const HEADER: u32 = 256;
const PAGE_LIST: u32 = 3 * 256;
const MOST: u64 = 1_024;

/// So many cases at most; the large ones are among the first.
const CASES: u64 = 20_000;

/// What decides on a list, in its turn.
#[derive(Clone, Copy, Debug, PartialEq, Eq)]
enum Check {
    /// The report takes no further list.
    Full,
    /// The reader refuses the list or its header.
    Reader,
    /// The report has too few rows.
    Room,
    /// A figure has no room in its word.
    Figure,
}

/// How many columns the header has, if it is accepted, and the pages of the list,
/// or the reader's answer.
type Read = (Option<usize>, Result<Vec<Page>, u32>);

/// How a list is added: each part can be put out of order by itself.
struct Way {
    /// Whether a report with these counts takes no further list.
    full: fn(Counts) -> bool,
    /// The list as it is read, for a report of so many words.
    read: fn(ReportedList, usize) -> Read,
    /// How many rows so many words have.
    rows: fn(usize) -> usize,
    /// How many rows so many columns with these pages need.
    needed: fn(usize, &[Page]) -> usize,
    /// The pages whose figures are added, of so many columns.
    pages: fn(Vec<Page>, usize) -> Vec<Page>,
    /// What a page adds to its column.
    figures: fn(&Page) -> [u64; 4],
    /// A figure and what is added to it, if that has room; its place in the
    /// report comes first.
    sum: fn(usize, u64, u128) -> Option<u64>,
    /// What decides first, and so on.
    order: [Check; 4],
    /// The answer where this decides; the reader's own is given.
    answer: fn(Check, u32) -> u32,
    /// The counts afterwards, by what decides and the answer; by none where the
    /// list is added.
    counts: fn(Counts, Option<Check>, u32) -> Counts,
}

fn read(list: ReportedList, _: usize) -> Read {
    let header = match header::read(list.header) {
        Ok(header) => header,
        Err(number) => return (None, Err(HEADER + number)),
    };
    let pages = page_list::read(&header, list.page_list, list.entries, NO_CHECKSUM, list.file_length);
    (Some(header.columns.len()), pages.map_err(|number| PAGE_LIST + number))
}

fn figures(page: &Page) -> [u64; 4] {
    [1, page.elements.into(), page.size.into(), page.checksum.into()]
}

fn exact(_: usize, old: u64, added: u128) -> Option<u64> {
    u64::try_from(u128::from(old) + added).ok()
}

fn counted([accepted, refused]: Counts, decides: Option<Check>, _: u32) -> Counts {
    match decides {
        None => [accepted + 1, refused],
        Some(Check::Reader) => [accepted, refused + 1],
        _ => [accepted, refused],
    }
}

const RIGHT: Way = Way {
    full: |[accepted, refused]| u128::from(accepted) + u128::from(refused) >= u128::from(MOST),
    read,
    rows: |words| words / 4,
    needed: |columns, _| columns,
    pages: |pages, _| pages,
    figures,
    sum: exact,
    order: [Check::Full, Check::Reader, Check::Room, Check::Figure],
    answer: |check, readers| match check {
        Check::Full | Check::Figure => PAGE_LIST + 10,
        Check::Reader => readers,
        Check::Room => PAGE_LIST + 20,
    },
    counts: counted,
};

impl Way {
    /// What the report would be, as far as it has rows.
    fn sums(&self, pages: &[Page], report: &[u64]) -> Vec<Option<u64>> {
        let mut added = vec![0u128; report.len()];
        for page in pages {
            let row = added.iter_mut().skip(page.column as usize * 4);
            row.zip((self.figures)(page))
                .for_each(|(sum, figure)| *sum += u128::from(figure));
        }
        let sums = report.iter().zip(added).enumerate();
        sums.map(|(at, (&old, added))| (self.sum)(at, old, added)).collect()
    }

    fn call(&self, list: ReportedList, report: &mut [u64], result: &mut [u64]) -> u32 {
        if result.len() < 2 {
            return TOO_SHORT;
        }
        let (columns, pages) = (self.read)(list, report.len());
        let (readers, pages) = match pages {
            Ok(pages) => (0, pages),
            Err(answer) => (answer, Vec::new()),
        };
        let needed = columns.map_or(0, |columns| (self.needed)(columns, &pages));
        let pages = (self.pages)(pages, columns.unwrap_or(0));
        let used = (columns.unwrap_or(0) * 4).min(report.len());
        let sums = self.sums(&pages, &report[..used]);
        let holds = |check: &Check| match check {
            Check::Full => (self.full)(list.counts),
            Check::Reader => readers != 0,
            Check::Room => (self.rows)(report.len()) < needed,
            Check::Figure => sums.contains(&None),
        };
        let decides = self.order.into_iter().find(holds);
        let answer = decides.map_or(0, |check| (self.answer)(check, readers));
        if decides.is_none() {
            let sums = sums.into_iter().map(|sum| sum.expect("a figure that has room"));
            report.iter_mut().zip(sums).for_each(|(figure, sum)| *figure = sum);
        }
        result[..2].copy_from_slice(&(self.counts)(list.counts, decides, answer));
        answer
    }
}

/// The right call.
fn right(list: ReportedList, report: &mut [u64], result: &mut [u64]) -> u32 {
    if result.len() < 2 {
        return TOO_SHORT;
    }
    let ReportedList {
        header,
        page_list,
        entries,
        file_length,
        counts,
    } = list;
    let (answer, counts) = report_page_list(header, page_list, entries, file_length, counts, report);
    result[..2].copy_from_slice(&counts);
    answer
}

/// All wrong calls, with what is wrong about them.
fn wrong() -> impl Iterator<Item = &'static (&'static str, ReportCall)> {
    figures::WRONG.iter().chain(calls::WRONG)
}

/// The first case in which a call differs from the reference.
fn found(call: ReportCall) -> Option<u64> {
    let mut comparer = Comparer::new();
    comparer.report_page_list = call;
    (0..CASES).find(|&case| comparer.run(1, Kind::Report, case).is_err())
}

#[test]
fn each_is_found() {
    let missed: Vec<_> = wrong().filter(|(_, call)| found(*call).is_none()).collect();
    let names: Vec<_> = missed.iter().map(|(name, _)| name).collect();
    assert!(names.is_empty(), "not found: {names:?}");
}

/// What the wrong ones are made of is right.
#[test]
fn the_right_ones_are_not() {
    assert_eq!(found(right), None);
    assert_eq!(found(way! {}), None);
}

#[test]
fn no_name_stands_twice() {
    let mut names: Vec<_> = wrong().map(|(name, _)| name).collect();
    names.sort_unstable();
    names.dedup();
    assert_eq!(names.len(), wrong().count());
}
