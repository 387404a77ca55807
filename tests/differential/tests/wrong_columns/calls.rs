//! Calls with another answer or another result, or that leave something else in
//! what is lent.

use super::{decoded, right, rows, Lent, Row, Way, PAGE, RIGHT, SWITCH, TOO_SHORT};
use differential::compare::ColumnCall;
use differential::reference::pages::stored_bits;
use differential::reference::{decode_column, decode_page};

/// The right call with another answer in place of one with this number.
fn answering(column_type: u32, lent: Lent, of: u32, wrong: u32) -> u32 {
    match right(column_type, lent) {
        answer if answer == PAGE + of => wrong,
        answer => answer,
    }
}

/// The right call and what it leaves changed where it refuses: the words, how
/// many of them are decoded, the table and the result.
fn refusing(column_type: u32, lent: Lent, change: impl FnOnce(&mut [u64], usize, &[u64], &mut [u64])) -> u32 {
    let (table, file, words, result) = lent;
    let answer = right(column_type, (table, file, words, result));
    if answer != 0 && answer != TOO_SHORT {
        let used = decoded(table, result[0]);
        change(words, used, table, result);
    }
    answer
}

/// The same where it accepts.
fn accepting(column_type: u32, lent: Lent, change: impl FnOnce(&mut [u64], usize, &[u64], &mut [u64])) -> u32 {
    let (table, file, words, result) = lent;
    let answer = right(column_type, (table, file, words, result));
    if answer == 0 {
        let used = decoded(table, result[0]);
        change(words, used, table, result);
    }
    answer
}

/// The bytes of a page without its check bytes, if they are there.
fn content<'a>(row: &Row, file: &'a [u8]) -> Option<&'a [u8]> {
    let end = usize::try_from(row.offset.checked_add(row.size)?).ok()?;
    file.get(row.offset as usize..end)
}

/// Where a page is refused, it is decoded all the same, as far as there is room
/// for all of it.
fn decoding_refused(column_type: u32, (table, file, words, result): Lent, of: u32) -> u32 {
    let answer = right(column_type, (table, file, words, result));
    if answer == PAGE + of && rows(table).len() <= super::MOST {
        let row = rows(table)[result[0] as usize];
        if let Some(page) = content(&row, file) {
            let start = decoded(table, result[0]) as u64;
            let mut page = page.to_vec();
            let used = row.elements % 8;
            if let (super::BIT, 1.., Some(last)) = (column_type, used, page.last_mut()) {
                *last &= (1 << used) - 1;
            }
            decode_page(column_type, row.elements, false, &page, words, start);
        }
    }
    answer
}

/// Goes on behind refused pages; the answer and the result are those of the
/// first or of the last refusal.
fn going_on(column_type: u32, (table, file, words, result): Lent, first: bool) -> u32 {
    let Some(told) = result.first_mut() else {
        return TOO_SHORT;
    };
    let rows = rows(table);
    let (due, [index]) = decode_column(column_type, table, file, words);
    *told = index;
    if due == 0 || rows.len() > super::MOST {
        return due;
    }
    let mut answer = due;
    let mut start = decoded(table, index);
    for at in index as usize + 1..rows.len() {
        let room = words.len();
        let row = &mut table[4 * at..][..4];
        match decode_column(column_type, row, file, &mut words[start.min(room)..]) {
            (0, _) => start += rows[at].elements as usize,
            (refused, _) if !first => (answer, *told) = (refused, at as u64),
            _ => {}
        }
    }
    answer
}

/// Each page has all words for itself.
fn room_for_each(column_type: u32, (table, file, words, result): Lent) -> u32 {
    if result.is_empty() || rows(table).len() > super::MOST {
        return right(column_type, (table, file, words, result));
    }
    let mut start = 0;
    for (index, row) in table.chunks_exact(4).enumerate() {
        let mut page = vec![0; words.len()];
        let (answer, _) = decode_column(column_type, row, file, &mut page);
        if answer != 0 {
            result[0] = index as u64;
            return answer;
        }
        let elements = row[2] as usize;
        for (word, &element) in words.iter_mut().skip(start).zip(&page[..elements]) {
            *word = element;
        }
        start += elements;
    }
    result[0] = rows(table).len() as u64;
    0
}

/// Deltas go on over the ends of pages.
fn carrying(column_type: u32, lent: Lent) -> u32 {
    let (table, file, words, result) = lent;
    let answer = right(column_type, (table, file, words, result));
    if !matches!(column_type, 0x0E | 0x0F) || answer == TOO_SHORT || rows(table).len() > super::MOST {
        return answer;
    }
    let mask = if column_type == 0x0F { 0xFFFF_FFFF } else { u64::MAX };
    let (mut start, mut before) = (0, 0u64);
    for row in rows(table).iter().take(result[0] as usize) {
        let page = &mut words[start..][..row.elements as usize];
        page.iter_mut()
            .for_each(|word| *word = word.wrapping_add(before) & mask);
        before = page.last().copied().unwrap_or(before);
        start += page.len();
    }
    answer
}

/// The words of each page but the first are changed.
fn later_pages(column_type: u32, lent: Lent, change: impl Fn(&mut [u64], usize)) -> u32 {
    let (table, file, words, result) = lent;
    let answer = right(column_type, (table, file, words, result));
    if answer == TOO_SHORT || rows(table).len() > super::MOST {
        return answer;
    }
    let mut start = 0;
    for (index, row) in rows(table).iter().take(result[0] as usize).enumerate() {
        let elements = row.elements as usize;
        if index > 0 {
            change(&mut words[start..][..elements], index);
        }
        start += elements;
    }
    answer
}

pub const WRONG: &[(&str, ColumnCall)] = &[
    // The room.
    ("room for each page by itself", |t, p, f, w, r| {
        room_for_each(t, (p, f, w, r))
    }),
    ("an exact room is too small", |t, p, f, w, r| {
        let old = w.to_vec();
        let answer = right(t, (p, f, w, r));
        let last = rows(p).last().map_or(0, |row| row.elements as usize);
        if answer == 0 && last > 0 && decoded(p, r[0]) == w.len() {
            let start = w.len() - last;
            w[start..].copy_from_slice(&old[start..]);
            r[0] -= 1;
            return PAGE + 20;
        }
        answer
    }),
    ("one word too few is enough", |t, p, f, w, r| {
        let mut more = w.to_vec();
        more.push(0);
        let answer = right(t, (p, f, &mut more, r));
        w.copy_from_slice(&more[..w.len()]);
        answer
    }),
    ("20 for a page without elements behind a full room", |t, p, f, w, r| {
        let answer = right(t, (p, f, w, r));
        let last = rows(p).last().map(|row| row.elements);
        if answer == 0 && last == Some(0) && decoded(p, r[0]) == w.len() {
            r[0] -= 1;
            return PAGE + 20;
        }
        answer
    }),
    ("20 for no room at all", |t, p, f, w, r| {
        match (w.len(), right(t, (p, f, w, r))) {
            (0, 0) if r[0] > 0 => {
                r[0] = 0;
                PAGE + 20
            }
            (_, answer) => answer,
        }
    }),
    ("as much of the last page as there is room for", |t, p, f, w, r| {
        let mut more = w.to_vec();
        more.resize(w.len() + 131_072, 0);
        let mut own = [0];
        let answer = right(t, (p, f, w, r));
        if answer == PAGE + 20 {
            right(t, (p, f, &mut more, &mut own));
            w.copy_from_slice(&more[..w.len()]);
        }
        answer
    }),
    // The words of the pages.
    ("deltas go on over the ends of pages", |t, p, f, w, r| {
        carrying(t, (p, f, w, r))
    }),
    ("the first page alone is written", |t, p, f, w, r| {
        let old = w.to_vec();
        let answer = right(t, (p, f, w, r));
        let first = if answer == TOO_SHORT {
            0
        } else {
            decoded(p, r[0].min(1))
        };
        w[first..].copy_from_slice(&old[first..]);
        answer
    }),
    ("the other pages are zeros", |t, p, f, w, r| {
        later_pages(t, (p, f, w, r), |page, _| page.fill(0))
    }),
    ("the other pages are reversed", |t, p, f, w, r| {
        later_pages(t, (p, f, w, r), |page, _| page.reverse())
    }),
    ("the 200th page is zeros", |t, p, f, w, r| {
        later_pages(t, (p, f, w, r), |page, index| {
            if index == 200 {
                page.fill(0);
            }
        })
    }),
    ("the last element of the last page is missing", |t, p, f, w, r| {
        let old = w.to_vec();
        accepting(t, (p, f, w, r), |words, used, _, _| {
            if let Some(last) = used.checked_sub(1) {
                words[last] = old[last];
            }
        })
    }),
    ("at the end of the words", |t, p, f, w, r| {
        let old = w.to_vec();
        accepting(t, (p, f, w, r), |words, used, _, _| {
            let start = words.len() - used;
            words.copy_within(..used, start);
            words[..start].copy_from_slice(&old[..start]);
        })
    }),
    ("nothing is written", |t, p, f, w, r| {
        right(t, (p, f, &mut w.to_vec(), r))
    }),
    ("the word behind is cleared", |t, p, f, w, r| {
        accepting(t, (p, f, w, r), |words, used, _, _| {
            if let Some(behind) = words.get_mut(used) {
                *behind = 0;
            }
        })
    }),
    ("all words behind are cleared", |t, p, f, w, r| {
        accepting(t, (p, f, w, r), |words, used, _, _| words[used..].fill(0))
    }),
    ("the last lent word is cleared", |t, p, f, w, r| {
        accepting(t, (p, f, w, r), |words, used, _, _| {
            if let Some(last) = words[used..].last_mut() {
                *last = 0;
            }
        })
    }),
    ("a word behind the lent ones is changed", |t, p, f, w, r| {
        let answer = right(t, (p, f, w, r));
        if answer == 0 {
            // SAFETY: in the comparison there are words behind those that are lent.
            unsafe { *w.as_mut_ptr().add(w.len()) ^= 1 };
        }
        answer
    }),
    // What a refusal leaves.
    ("a refusal undoes all pages", |t, p, f, w, r| {
        let old = w.to_vec();
        refusing(t, (p, f, w, r), |words, _, _, _| words.copy_from_slice(&old))
    }),
    ("a refusal undoes the page before", |t, p, f, w, r| {
        let old = w.to_vec();
        refusing(t, (p, f, w, r), |words, used, table, result| {
            let start = decoded(table, result[0].saturating_sub(1));
            words[start..used].copy_from_slice(&old[start..used]);
        })
    }),
    ("20 undoes all pages", |t, p, f, w, r| {
        let old = w.to_vec();
        let answer = right(t, (p, f, w, r));
        if answer == PAGE + 20 {
            w.copy_from_slice(&old);
        }
        answer
    }),
    ("18 undoes all pages", |t, p, f, w, r| {
        let old = w.to_vec();
        let answer = right(t, (p, f, w, r));
        if answer == PAGE + 18 {
            w.copy_from_slice(&old);
        }
        answer
    }),
    ("a refusal clears all pages", |t, p, f, w, r| {
        refusing(t, (p, f, w, r), |words, used, _, _| words[..used].fill(0))
    }),
    ("the first word of a refused page is cleared", |t, p, f, w, r| {
        refusing(t, (p, f, w, r), |words, used, _, _| {
            if let Some(first) = words.get_mut(used) {
                *first = 0;
            }
        })
    }),
    ("a refusal clears the words behind", |t, p, f, w, r| {
        refusing(t, (p, f, w, r), |words, used, _, _| words[used..].fill(0))
    }),
    ("a page with another checksum is decoded", |t, p, f, w, r| {
        decoding_refused(t, (p, f, w, r), 22)
    }),
    ("a page with unused bits is decoded", |t, p, f, w, r| {
        decoding_refused(t, (p, f, w, r), 24)
    }),
    ("it goes on behind a refused page", |t, p, f, w, r| {
        going_on(t, (p, f, w, r), true)
    }),
    ("the last refusal is told", |t, p, f, w, r| {
        going_on(t, (p, f, w, r), false)
    }),
    ("too many pages clear a word", |t, p, f, w, r| {
        let answer = right(t, (p, f, w, r));
        if rows(p).len() > super::MOST && answer != TOO_SHORT {
            if let Some(first) = w.first_mut() {
                *first = 0;
            }
        }
        answer
    }),
    ("pages are all tested before one is decoded", |t, p, f, w, r| {
        let mut own = w.to_vec();
        let answer = right(t, (p, f, &mut own, r));
        if answer == 0 {
            w.copy_from_slice(&own);
        }
        answer
    }),
    // The index and the count.
    (
        "the index behind the refused page",
        way! { refused: |turn, _| turn.index as u64 + 1 },
    ),
    (
        "the index before the refused page",
        way! { refused: |turn, _| turn.index.saturating_sub(1) as u64 },
    ),
    ("a refusal's index is 0", way! { refused: |_, _| 0 }),
    (
        "a refusal's index is the number of pages",
        way! { refused: |_, count| count as u64 },
    ),
    (
        "a refusal's index is the last page's",
        way! { refused: |_, count| count as u64 - 1 },
    ),
    (
        "a refusal's index is from the end",
        way! { refused: |turn, count| (count - 1 - turn.index) as u64 },
    ),
    (
        "a refusal's index is the words before it",
        way! { refused: |turn, _| turn.start },
    ),
    (
        "a refusal's index is its row's place",
        way! { refused: |turn, _| 4 * turn.index as u64 },
    ),
    (
        "a refusal's index is its offset",
        way! { refused: |turn, _| turn.row.offset },
    ),
    (
        "a refusal's index in 4 bits",
        way! { refused: |turn, _| turn.index as u64 % 16 },
    ),
    (
        "the index of the last page",
        way! { accepted: |rows| rows.len().saturating_sub(1) as u64 },
    ),
    ("one page more", way! { accepted: |rows| rows.len() as u64 + 1 }),
    (
        "the number of elements",
        way! { accepted: |rows| rows.iter().map(|row| row.elements).sum() },
    ),
    (
        "the number of bytes",
        way! { accepted: |rows| rows.iter().map(|row| row.size).sum() },
    ),
    (
        "the number of words of the table",
        way! { accepted: |rows| 4 * rows.len() as u64 },
    ),
    (
        "the number of pages with elements",
        way! { accepted: |rows| {
            rows.iter().filter(|row| row.elements != 0).count() as u64
        }},
    ),
    (
        "the accepted number of pages in 8 bits",
        way! { accepted: |rows| rows.len() as u64 % 256 },
    ),
    ("acceptance is 0", way! { accepted: |_| 0 }),
    ("acceptance is 256", way! { accepted: |_| 256 }),
    // The answer.
    ("18 is accepted", |t, p, f, w, r| answering(t, (p, f, w, r), 18, 0)),
    ("20 is accepted", |t, p, f, w, r| answering(t, (p, f, w, r), 20, 0)),
    ("21 is accepted", |t, p, f, w, r| answering(t, (p, f, w, r), 21, 0)),
    ("24 is accepted", |t, p, f, w, r| answering(t, (p, f, w, r), 24, 0)),
    ("22 is 3", |t, p, f, w, r| answering(t, (p, f, w, r), 22, PAGE + 3)),
    ("18 is of a page list", |t, p, f, w, r| {
        answering(t, (p, f, w, r), 18, 3 * 256 + 18)
    }),
    ("10 is of a page list", |t, p, f, w, r| {
        answering(t, (p, f, w, r), 10, 3 * 256 + 10)
    }),
    ("18 without its envelope", |t, p, f, w, r| {
        answering(t, (p, f, w, r), 18, 18)
    }),
    ("Switch is 18", |t, p, f, w, r| match (t, right(t, (p, f, w, r))) {
        (SWITCH, answer) if answer == PAGE + 23 => PAGE + 18,
        (_, answer) => answer,
    }),
    ("the number alone", |t, p, f, w, r| match right(t, (p, f, w, r)) {
        TOO_SHORT => TOO_SHORT,
        answer => answer % 256,
    }),
    ("refused where unknown, whatever the pages", |t, p, f, w, r| {
        let answer = right(t, (p, f, w, r));
        if answer != TOO_SHORT && stored_bits(t).is_none() {
            return PAGE + 23;
        }
        answer
    }),
    // The result, and what is lent to be read.
    ("a refusal leaves the result", |t, p, f, w, r| {
        let old = r.first().copied();
        refusing(t, (p, f, w, r), |_, _, _, result| {
            if let Some(old) = old {
                result[0] = old;
            }
        })
    }),
    ("acceptance leaves the result", |t, p, f, w, r| {
        let old = r.first().copied();
        accepting(t, (p, f, w, r), |_, _, _, result| {
            if let Some(old) = old {
                result[0] = old;
            }
        })
    }),
    ("no result is written", |t, p, f, w, r| {
        right(t, (p, f, w, &mut r.to_vec()))
    }),
    ("the last result word gets it", |t, p, f, w, r| {
        let mut own = [0];
        if r.is_empty() {
            return TOO_SHORT;
        }
        let answer = right(t, (p, f, w, &mut own));
        if let Some(last) = r.last_mut() {
            *last = own[0];
        }
        answer
    }),
    ("the second result word is cleared", |t, p, f, w, r| {
        let answer = right(t, (p, f, w, r));
        if let Some(second) = r.get_mut(1) {
            *second = 0;
        }
        answer
    }),
    ("a longer result is refused", |t, p, f, w, r| match r.len() {
        0 | 1 => right(t, (p, f, w, r)),
        _ => TOO_SHORT,
    }),
    ("no result is accepted", |t, p, f, w, r| match r.len() {
        0 => decode_column(t, p, f, w).0,
        _ => right(t, (p, f, w, r)),
    }),
    ("a short result decodes the pages", |t, p, f, w, r| match r.len() {
        0 => {
            decode_column(t, p, f, w);
            TOO_SHORT
        }
        _ => right(t, (p, f, w, r)),
    }),
    ("too many pages before a short result", |t, p, f, w, r| {
        match rows(p).len() {
            257.. if r.is_empty() => PAGE + 10,
            _ => right(t, (p, f, w, r)),
        }
    }),
    ("no pages need no result", |t, p, f, w, r| match rows(p).len() {
        0 if r.is_empty() => 0,
        _ => right(t, (p, f, w, r)),
    }),
    ("a row of the table is changed", |t, p, f, w, r| {
        let answer = right(t, (p, f, w, r));
        if let Some(word) = p.get_mut(3) {
            *word = u64::from(*word == 0);
        }
        answer
    }),
    ("a word left over is changed", |t, p, f, w, r| {
        let answer = right(t, (p, f, w, r));
        if let Some(word) = p.chunks_exact_mut(4).into_remainder().last_mut() {
            *word ^= 1;
        }
        answer
    }),
    ("the file part is changed", |t, p, f, w, r| {
        let answer = right(t, (p, f, w, r));
        if let Some(last) = f.last_mut() {
            *last ^= 1;
        }
        answer
    }),
];
