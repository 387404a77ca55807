//! Columns: compared word by word, and decoded again by single calls.

use super::{dump, exported, name, Cell, Comparer, Note, DUMPED, GUARD};
use crate::calls;
use crate::generate::columns::ColumnCase;
use crate::reference::columns::{PAGES, ROW_WORDS};
use crate::reference::{self, refusal, PAGE};
use std::fmt::Write;
use std::hint::black_box;

/// A copy of what is lent to be read, among other numbers that are not part of it.
pub(super) struct Copied<T> {
    whole: Vec<T>,
    skip: usize,
    length: usize,
    old: Vec<T>,
}

impl<T: Cell> Copied<T> {
    pub(super) fn new(lent: &[T], skip: usize, seed: u64) -> Self {
        let around = |index| T::pattern(seed, index);
        let mut whole: Vec<T> = (0..skip).map(around).collect();
        whole.extend_from_slice(lent);
        whole.extend((0..GUARD).map(around));
        Copied {
            old: whole.clone(),
            whole,
            skip,
            length: lent.len(),
        }
    }

    pub(super) fn lend(&mut self) -> &mut [T] {
        &mut self.whole[self.skip..][..self.length]
    }

    pub(super) fn check(&mut self, name: &str) -> Result<(), String> {
        // The library is given pointers: what it may have written is read again.
        if *black_box(&mut self.whole) == self.old {
            return Ok(());
        }
        Err(format!("{name}: changed"))
    }
}

/// What single calls leave, made for one page after the other up to the first
/// that is refused: the answer, its index or the number of pages, and how many
/// words are decoded. A page that is not inside the file part cannot be handed
/// over. It is asked for without its bytes: that gives 23 and 10 where they
/// apply, and otherwise 18 is due.
fn single_calls(case: &ColumnCase, words: &mut [u64]) -> (u32, u64, usize) {
    let rows = case.pages.chunks_exact(ROW_WORDS);
    let count = rows.len() as u64;
    let mut start = 0;
    for (index, row) in (0..).zip(rows) {
        let &[offset, size, elements, checksum] = row else {
            unreachable!("rows are of one length");
        };
        let length = u128::from(size) + if checksum != 0 { 4 } else { 0 };
        let inside = u128::from(offset) + length <= case.file.len() as u128;
        let call = |page: &[u8], words: &mut [u64]| {
            calls::decode_page(case.column_type, elements, u32::from(checksum != 0), page, words, start)
        };
        let answer = if inside {
            call(&case.file[offset as usize..][..length as usize], words)
        } else {
            match call(&[], &mut []) {
                early if [23, 10].contains(&(early % 256)) => early,
                _ => refusal(PAGE, 18),
            }
        };
        if answer != 0 {
            return (answer, index, start as usize);
        }
        start += elements;
    }
    (0, count, start as usize)
}

impl Comparer {
    pub(super) fn column(&mut self, case: &ColumnCase) -> Result<(), String> {
        let seed = self.seed();
        let words = &mut self.tables[0];
        words.lend(case.words, seed);
        let mut again = words.reference().to_vec();
        self.result.lend(case.result, seed ^ 1);
        let theirs = exported(self.result.reference(), || {
            reference::decode_column(case.column_type, &case.pages, &case.file, words.reference())
        });
        let mut pages = Copied::new(&case.pages, 0, seed ^ 2);
        let mut file = Copied::new(&case.file, (seed % 8) as usize, seed ^ 3);
        let ours = (self.decode_column)(
            case.column_type,
            pages.lend(),
            file.lend(),
            words.ours(),
            self.result.ours(),
        );
        let short = theirs == calls::RESULT_TOO_SHORT;
        let too_many = case.pages.len() / ROW_WORDS > PAGES;
        let singles = (!short && !too_many).then(|| single_calls(case, &mut again));
        let used = singles.map_or(0, |(_, _, decoded)| decoded);
        let checked = if ours == theirs {
            self.result
                .check("result", 0..usize::from(!short))
                .and_then(|()| words.check("words", 0..used))
                .and_then(|()| pages.check("pages"))
                .and_then(|()| file.check("file part"))
        } else {
            Err("answers differ".to_string())
        };
        let told = |what| format!("{what}\nlibrary {}\nreference {}\n", name(ours), name(theirs));
        checked.map_err(told)?;
        self.tally.count(theirs);
        let Some((answer, index, _)) = singles else {
            return Ok(());
        };
        self.as_single_calls((ours, answer), index, &again).map_err(told)
    }

    /// The library's one call beside its single calls: both answers, the index
    /// that the single calls give, and the words that they leave.
    fn as_single_calls(&mut self, answers: (u32, u32), index: u64, words: &[u64]) -> Result<(), String> {
        let (ours, singles) = answers;
        if ours != singles || self.result.ours()[0] != index || self.tables[0].ours() != words {
            return Err(format!("single calls give {} at {index}", name(singles)));
        }
        self.tally.note(Note::SingleCalls);
        match (ours, index) {
            (0, 2..) => self.tally.note(Note::SeveralPages),
            (1.., 1..) => self.tally.note(Note::LaterPage),
            _ => {}
        }
        Ok(())
    }
}

pub(super) fn dump_column(case: &ColumnCase) -> String {
    let mut text = format!(
        "type {:02X} words {} result words {}\n",
        case.column_type, case.words, case.result
    );
    for (index, row) in case.pages.chunks(ROW_WORDS).enumerate().take(DUMPED / 16) {
        let _ = writeln!(text, "page {index}: {row:?}");
    }
    text + &dump("file part", &case.file)
}
