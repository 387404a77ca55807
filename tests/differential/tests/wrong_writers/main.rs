//! Wrong writers of headers, footers and page lists, each of which the
//! comparison has to find. They stand in for the library's calls; what is right
//! about them is the reference's.

mod footers;
mod headers;
mod page_lists;

use differential::compare::Comparer;
use differential::generate::Kind;
use differential::writer::seal;

const TOO_SHORT: u32 = u32::MAX;

/// The most bytes of an envelope.
const CEILING: u128 = 1_048_576;

/// So many cases at most; the large ones are among the first.
const CASES: u64 = 20_000;
const LARGE: u64 = 50;

/// A call without what it is lent: the bytes and the result.
type Write<'a> = &'a dyn Fn(&mut [u8], &mut [u64]) -> u32;

/// A call of which something is wrong with the bytes or the result, whatever it
/// writes.
type Anyway = fn(Write, &mut [u8], &mut [u64]) -> u32;

/// The number of a refusal that is no acceptance, and no result that is too short.
fn number(answer: u32) -> Option<u32> {
    (answer != TOO_SHORT && answer != 0).then_some(answer % 256)
}

/// The call with another answer in place of those that have this number.
fn instead(write: Write, out: &mut [u8], result: &mut [u64], of: u32, wrong: u32) -> u32 {
    let answer = write(out, result);
    match number(answer) {
        Some(number) if number == of => answer - number + wrong,
        _ => answer,
    }
}

/// The call with other bytes where it accepts; the checksum is put right.
fn rewritten(write: Write, out: &mut [u8], result: &mut [u64], change: impl FnOnce(&mut [u8])) -> u32 {
    let answer = write(out, result);
    if answer == 0 {
        let envelope = &mut out[..result[0] as usize];
        change(envelope);
        seal(envelope);
    }
    answer
}

/// The bytes that are needed where nothing else is refused.
fn needed(write: Write) -> Option<usize> {
    let (mut out, mut result) = (vec![0; CEILING as usize], [0]);
    (write(&mut out, &mut result) == 0).then(|| result[0] as usize)
}

/// What every writer may do wrong.
const ANY: &[(&str, Anyway)] = &[
    ("nothing is written", |write, out, result| {
        write(&mut out.to_vec(), result)
    }),
    ("the first eight bytes alone", |write, out, result| {
        let mut room = out.to_vec();
        let answer = write(&mut room, result);
        let first = out.len().min(8);
        out[..first].copy_from_slice(&room[..first]);
        answer
    }),
    ("all but the last byte", |write, out, result| {
        let mut room = out.to_vec();
        let answer = write(&mut room, result);
        if answer == 0 {
            let last = result[0] as usize - 1;
            out[..last].copy_from_slice(&room[..last]);
        }
        answer
    }),
    ("the byte behind is cleared", |write, out, result| {
        let answer = write(out, result);
        if answer == 0 {
            if let Some(behind) = out.get_mut(result[0] as usize) {
                *behind = 0;
            }
        }
        answer
    }),
    ("the last lent byte is cleared", |write, out, result| {
        let answer = write(out, result);
        if answer == 0 && out.len() as u64 > result[0] {
            *out.last_mut().expect("a byte") = 0;
        }
        answer
    }),
    ("the room is cleared first", |write, out, result| {
        let answer = write(out, result);
        if answer == 0 {
            out[result[0] as usize..].fill(0);
        }
        answer
    }),
    ("a refusal clears the room", |write, out, result| {
        let answer = write(out, result);
        if number(answer).is_some() {
            out.fill(0);
        }
        answer
    }),
    ("a refusal leaves the versions", |write, out, result| {
        let answer = write(out, result);
        if number(answer).is_some() && out.len() >= 4 {
            out[..4].copy_from_slice(&[1, 0, 1, 0]);
        }
        answer
    }),
    ("too little room is filled", |write, out, result| {
        let answer = write(out, result);
        if number(answer) == Some(20) {
            let mut room = vec![0; CEILING as usize];
            write(&mut room, &mut [0]);
            let length = out.len();
            out.copy_from_slice(&room[..length]);
        }
        answer
    }),
    ("no checksum", |write, out, result| {
        let answer = write(out, result);
        if answer == 0 {
            let end = result[0] as usize;
            out[end - 4..end].fill(0);
        }
        answer
    }),
    ("the checksum of the payload alone", |write, out, result| {
        let answer = write(out, result);
        if answer == 0 {
            seal(&mut out[4..result[0] as usize]);
        }
        answer
    }),
    ("version 3", |write, out, result| {
        rewritten(write, out, result, |envelope| envelope[0] = 3)
    }),
    ("minimum 2", |write, out, result| {
        rewritten(write, out, result, |envelope| envelope[2] = 2)
    }),
    ("one byte longer", |write, out, result| {
        let answer = write(out, result);
        if answer == 0 && out.len() as u64 > result[0] {
            result[0] += 1;
            seal(&mut out[..result[0] as usize]);
        }
        answer
    }),
    ("the bytes without the checksum", |write, out, result| {
        let answer = write(out, result);
        if answer == 0 {
            result[0] -= 4;
        }
        answer
    }),
    ("the bytes that are lent", |write, out, result| {
        let answer = write(out, result);
        if answer == 0 {
            result[0] = out.len() as u64;
        }
        answer
    }),
    ("too little room is accepted", |write, out, result| {
        instead(write, out, result, 20, 0)
    }),
    ("too little room says how much", |write, out, result| {
        let answer = write(out, result);
        if number(answer) == Some(20) {
            result[0] = needed(write).unwrap_or(0) as u64;
        }
        answer
    }),
    ("exact room is too little", |write, out, result| {
        if needed(write) == Some(out.len()) {
            return write(&mut [], result);
        }
        write(out, result)
    }),
    ("more room than needed is refused", |write, out, result| {
        if needed(write).is_some_and(|needed| needed < out.len()) {
            return write(&mut [], result);
        }
        write(out, result)
    }),
    ("too wide is too little room", |write, out, result| {
        instead(write, out, result, 25, 20)
    }),
    ("too long is too little room", |write, out, result| {
        instead(write, out, result, 1, 20)
    }),
    ("a count is no length", |write, out, result| {
        instead(write, out, result, 10, 1)
    }),
    ("too many are accepted", |write, out, result| {
        instead(write, out, result, 10, 20)
    }),
    ("the number alone", |write, out, result| match write(out, result) {
        TOO_SHORT => TOO_SHORT,
        answer => answer % 256,
    }),
    ("another envelope", |write, out, result| match write(out, result) {
        answer if number(answer).is_none() => answer,
        answer => answer % 256 + 4 * 256,
    }),
    ("a refusal writes no result", |write, out, result| {
        let before = result.first().copied();
        let answer = write(out, result);
        if let (Some(_), Some(before)) = (number(answer), before) {
            result[0] = before;
        }
        answer
    }),
    ("a refusal leaves 1", |write, out, result| {
        let answer = write(out, result);
        if number(answer).is_some() {
            result[0] = 1;
        }
        answer
    }),
    ("no result is written", |write, out, result| {
        write(out, &mut result.to_vec())
    }),
    ("the word behind the result is cleared", |write, out, result| {
        let answer = write(out, result);
        if let Some(second) = result.get_mut(1) {
            *second = 0;
        }
        answer
    }),
    ("a longer result is refused", |write, out, result| match result.len() {
        1 => write(out, result),
        _ => TOO_SHORT,
    }),
    ("no result is accepted", |write, out, result| match result.len() {
        0 => write(out, &mut [0]),
        _ => write(out, result),
    }),
    ("without a result bytes are written", |write, out, result| {
        if result.is_empty() {
            write(out, &mut [0]);
        }
        write(out, result)
    }),
    ("a refusal before the result", |write, out, result| {
        let answer = write(&mut out.to_vec(), &mut [0]);
        match number(answer) {
            Some(_) if result.is_empty() => answer,
            _ => write(out, result),
        }
    }),
];

/// What a writer is lent, in a copy that may be altered.
trait Lent: Sized + 'static {
    /// The envelope of its own refusals.
    const ENVELOPE: u32;
    const KIND: Kind;

    /// The reference's call, which is right.
    fn write(&self, out: &mut [u8], result: &mut [u64]) -> u32;

    /// Puts a call in the place of the library's.
    fn replace(comparer: &mut Comparer, call: impl Fn(Self, &mut [u8], &mut [u64]) -> u32 + 'static);

    /// What is answered with room enough.
    fn roomy(&self) -> u32 {
        self.write(&mut vec![0; CEILING as usize], &mut [0])
    }
}

/// What is written is other tables than those that are lent.
type Alter<T> = fn(&mut T);

/// What is written has other numbers in one place, those that are too wide.
type Place<T> = fn(&mut T, Narrow);

/// Whether another number comes in place of the reference's (0 where there is
/// none, room aside), with so many lent bytes. The header is accepted.
type Where<T> = fn(&T, u32, usize) -> bool;

/// The number that comes in place of the reference's.
type Instead<T> = fn(&T, u32) -> u32;

/// Anything else.
type Call<T> = fn(T, &mut [u8], &mut [u64]) -> u32;

/// The wrong writers of an envelope.
struct Wrong<T: 'static> {
    altered: &'static [(&'static str, Alter<T>)],
    places: &'static [(&'static str, Place<T>)],
    refused: &'static [(&'static str, u32, Where<T>)],
    instead: &'static [(&'static str, Instead<T>)],
    others: &'static [(&'static str, Call<T>)],
}

/// The reference's answer as an exported call gives it.
fn exported(result: &mut [u64], call: impl FnOnce() -> (u32, [u64; 1])) -> u32 {
    let Some(first) = result.first_mut() else {
        return TOO_SHORT;
    };
    let (answer, [written]) = call();
    *first = written;
    answer
}

/// The reference's call with another number, from what is lent, its own number
/// and the lent bytes.
fn numbered<T: Lent>(lent: &T, out: &mut [u8], result: &mut [u64], number: impl Fn(&T, u32, usize) -> u32) -> u32 {
    let answer = lent.roomy();
    let own = answer % 256;
    let of_header = answer != 0 && answer / 256 != T::ENVELOPE;
    if result.is_empty() || of_header {
        return lent.write(out, result);
    }
    let other = number(lent, own, out.len());
    if other == own {
        return lent.write(out, result);
    }
    // Where there is none, the call accepts, and nothing is written.
    result[0] = 0;
    if other == 0 {
        0
    } else {
        T::ENVELOPE * 256 + other
    }
}

/// Whether some case shows that a call is wrong, a small one where there is one.
fn found<T: Lent>(call: impl Fn(T, &mut [u8], &mut [u64]) -> u32 + 'static) -> bool {
    let mut comparer = Comparer::new();
    T::replace(&mut comparer, call);
    let mut cases = (LARGE..CASES).chain(0..LARGE);
    cases.any(|case| comparer.run(1, T::KIND, case).is_err())
}

/// Each of the wrong ones is found.
fn each_is_found<T: Lent>(wrong: &Wrong<T>) {
    let mut missed = Vec::new();
    let mut settle = |name: &str, found: bool| {
        if !found {
            missed.push(name.to_string());
        }
    };
    for &(name, alter) in wrong.altered {
        let call = move |mut lent: T, out: &mut [u8], result: &mut [u64]| {
            alter(&mut lent);
            lent.write(out, result)
        };
        settle(name, found(call));
    }
    for (way, narrow) in [("cut", cut as Narrow), ("judged first", largest)] {
        for &(name, change) in wrong.places {
            let call = move |mut lent: T, out: &mut [u8], result: &mut [u64]| {
                change(&mut lent, narrow);
                lent.write(out, result)
            };
            settle(&format!("{name}, {way}"), found(call));
        }
    }
    for &(name, other, holds) in wrong.refused {
        let call = move |lent: T, out: &mut [u8], result: &mut [u64]| {
            numbered(&lent, out, result, |lent, number, room| {
                if holds(lent, number, room) {
                    other
                } else {
                    number
                }
            })
        };
        settle(name, found(call));
    }
    for &(name, instead) in wrong.instead {
        let call = move |lent: T, out: &mut [u8], result: &mut [u64]| {
            numbered(&lent, out, result, |lent, number, _| instead(lent, number))
        };
        settle(name, found(call));
    }
    for &(name, call) in wrong.others {
        settle(name, found(call));
    }
    for &(name, wrong) in ANY {
        let call = move |lent: T, out: &mut [u8], result: &mut [u64]| {
            wrong(&|out, result| lent.write(out, result), out, result)
        };
        settle(name, found(call));
    }
    assert!(missed.is_empty(), "not found: {missed:?}");
}

/// What the wrong ones are made of is right.
fn the_right_ones_are_not<T: Lent>() {
    assert!(!found(|lent: T, out, result| lent.write(out, result)));
    assert!(!found(|lent: T, out, result| numbered(
        &lent,
        out,
        result,
        |_, number, _| number
    )));
    assert!(!found(|lent: T, out, result| {
        rewritten(&|out, result| lent.write(out, result), out, result, |_| ())
    }));
}

#[test]
fn of_headers() {
    each_is_found(&headers::WRONG);
    the_right_ones_are_not::<headers::Own>();
}

#[test]
fn of_footers() {
    each_is_found(&footers::WRONG);
    the_right_ones_are_not::<footers::Own>();
}

#[test]
fn of_page_lists() {
    each_is_found(&page_lists::WRONG);
    the_right_ones_are_not::<page_lists::Own>();
}

/// What becomes of a number that is too wide for so many bits.
type Narrow = fn(u64, u32) -> u64;

/// A number that is cut to so many bits.
fn cut(number: u64, bits: u32) -> u64 {
    number & ((1 << bits) - 1)
}

/// The largest of so many bits in place of a number that is wider.
fn largest(number: u64, bits: u32) -> u64 {
    number.min((1 << bits) - 1)
}

/// A table with its first row in place of all.
fn first_for_all(table: &mut [u64], words: usize) {
    for row in 1..table.len() / words {
        table.copy_within(0..words, row * words);
    }
}

/// A table with zeros up to a whole row.
fn filled_up(table: &mut Vec<u64>, words: usize) {
    table.resize(table.len().next_multiple_of(words), 0);
}
