//! Wrong counts of moves, each of which the comparison has to find. They stand
//! in for the library's call; what is right about them is the reference's.

use differential::compare::{Comparer, MovesCall};
use differential::generate::Kind;
use differential::reference::header::{read, Field};
use differential::reference::parent_moves;

const TOO_SHORT: u32 = u32::MAX;

/// So many cases at most.
const CASES: u64 = 20_000;

/// The moves of one field.
fn moves(fields: &[Field], first: usize) -> u64 {
    let mut at = first;
    let mut moves = 0;
    while fields[at].parent as usize != at {
        at = fields[at].parent as usize;
        moves += 1;
    }
    moves
}

/// The moves of these fields together.
fn sum(fields: &[Field], which: impl Iterator<Item = usize>) -> u64 {
    which.map(|first| moves(fields, first)).sum()
}

fn all(fields: &[Field]) -> u64 {
    sum(fields, 0..fields.len())
}

/// The call with another count for accepted headers.
fn counting(header: &[u8], result: &mut [u64], count: impl FnOnce(&[Field]) -> u64) -> u32 {
    let Some(first) = result.first_mut() else {
        return TOO_SHORT;
    };
    let (answer, [right]) = parent_moves(header);
    *first = right;
    if let Ok(header) = read(header) {
        *first = count(&header.fields);
    }
    answer
}

/// The call with another answer to headers that are refused with this number.
fn answering(header: &[u8], result: &mut [u64], number: u32, wrong: u32) -> u32 {
    match counting(header, result, all) {
        answer if answer == 256 + number => wrong,
        answer => answer,
    }
}

/// So many of the fields count, the first ones.
fn up_to(fields: &[Field], most: usize) -> u64 {
    sum(fields, 0..fields.len().min(most))
}

fn tops(fields: &[Field]) -> usize {
    (0..fields.len()).filter(|&i| fields[i].parent as usize == i).count()
}

/// A chain ends at a parent for which this does not hold.
fn while_moving(fields: &[Field], on: impl Fn(usize, usize) -> bool) -> u64 {
    let mut moves = 0;
    for first in 0..fields.len() {
        let mut at = first;
        while fields[at].parent as usize != at && on(at, fields[at].parent as usize) {
            at = fields[at].parent as usize;
            moves += 1;
        }
    }
    moves
}

/// Each chain up to its first field that an earlier one has passed.
fn up_to_passed(fields: &[Field]) -> u64 {
    let mut passed = vec![false; fields.len()];
    let mut moves = 0;
    for first in 0..fields.len() {
        let mut at = first;
        while !passed[at] && fields[at].parent as usize != at {
            passed[at] = true;
            at = fields[at].parent as usize;
            moves += 1;
        }
        passed[at] = true;
    }
    moves
}

/// What an earlier chain has counted is added, where the parent comes before
/// its child alone.
fn one_pass(fields: &[Field]) -> u64 {
    let mut known = vec![0; fields.len()];
    for (i, field) in fields.iter().enumerate() {
        if field.parent as usize != i {
            known[i] = known[field.parent as usize] + 1;
        }
    }
    known.iter().sum()
}

const WRONG: &[(&str, MovesCall)] = &[
    ("always 0", |h, r| counting(h, r, |_| 0)),
    ("as many as there can be", |h, r| {
        counting(h, r, |f| (f.len() * f.len().saturating_sub(1) / 2) as u64)
    }),
    ("the first field alone", |h, r| counting(h, r, |f| up_to(f, 1))),
    ("the last field alone", |h, r| {
        counting(h, r, |f| sum(f, f.len().saturating_sub(1)..f.len()))
    }),
    ("all but the first", |h, r| counting(h, r, |f| all(f) - up_to(f, 1))),
    ("all but the last", |h, r| {
        counting(h, r, |f| up_to(f, f.len().saturating_sub(1)))
    }),
    ("the longest chain alone", |h, r| {
        counting(h, r, |f| (0..f.len()).map(|i| moves(f, i)).max().unwrap_or(0))
    }),
    ("a top counts one", |h, r| counting(h, r, |f| all(f) + tops(f) as u64)),
    ("fields of the chain, not moves", |h, r| {
        counting(h, r, |f| all(f) + f.len() as u64)
    }),
    ("the move to a top is none", |h, r| {
        counting(h, r, |f| {
            while_moving(f, |_, parent| f[parent].parent as usize != parent)
        })
    }),
    ("one move for each that is no top", |h, r| {
        counting(h, r, |f| (f.len() - tops(f)) as u64)
    }),
    ("up to the first field that was passed", |h, r| {
        counting(h, r, up_to_passed)
    }),
    ("parents come earlier", |h, r| {
        counting(h, r, |f| while_moving(f, |at, parent| parent < at))
    }),
    ("parents come later", |h, r| {
        counting(h, r, |f| while_moving(f, |at, parent| parent > at))
    }),
    ("in one pass, as if parents came earlier", |h, r| {
        counting(h, r, one_pass)
    }),
    ("two moves at most", |h, r| {
        counting(h, r, |f| (0..f.len()).map(|i| moves(f, i).min(2)).sum())
    }),
    ("a chain's moves in 8 bits", |h, r| {
        counting(h, r, |f| (0..f.len()).map(|i| moves(f, i) % 256).sum())
    }),
    ("510 moves at most", |h, r| {
        counting(h, r, |f| (0..f.len()).map(|i| moves(f, i).min(510)).sum())
    }),
    ("the sum in 8 bits", |h, r| counting(h, r, |f| all(f) % 256)),
    ("the sum in 16 bits", |h, r| counting(h, r, |f| all(f) % 65_536)),
    ("the sum in 17 bits, less one", |h, r| {
        counting(h, r, |f| all(f).min(130_815))
    }),
    ("256 fields", |h, r| counting(h, r, |f| up_to(f, 256))),
    ("511 fields", |h, r| counting(h, r, |f| up_to(f, 511))),
    ("no alias fields", |h, r| {
        counting(h, r, |f| sum(f, (0..f.len()).filter(|&i| f[i].flags & 2 == 0)))
    }),
    ("no repetitive fields", |h, r| {
        counting(h, r, |f| sum(f, (0..f.len()).filter(|&i| f[i].flags & 1 == 0)))
    }),
    ("no dark fields", |h, r| {
        counting(h, r, |f| sum(f, (0..f.len()).filter(|&i| !f[i].dark)))
    }),
    ("no fields are refused", |h, r| {
        let answer = counting(h, r, all);
        match read(h) {
            Ok(header) if !r.is_empty() && header.fields.is_empty() => 256 + 10,
            _ => answer,
        }
    }),
    ("512 fields are refused", |h, r| {
        let answer = counting(h, r, all);
        match read(h) {
            Ok(header) if header.fields.len() == 512 => 256 + 10,
            _ => answer,
        }
    }),
    ("a refusal is 20", |h, r| match counting(h, r, all) {
        answer if answer == 0 || answer == TOO_SHORT => answer,
        _ => 256 + 20,
    }),
    ("too many fields are 20", |h, r| answering(h, r, 10, 256 + 20)),
    ("a circle is accepted", |h, r| answering(h, r, 15, 0)),
    ("a circle is 14", |h, r| answering(h, r, 15, 256 + 14)),
    ("unexplained bytes are accepted", |h, r| answering(h, r, 11, 0)),
    ("another checksum is accepted", |h, r| answering(h, r, 3, 0)),
    ("too long is accepted", |h, r| answering(h, r, 1, 0)),
    ("too short is 3", |h, r| answering(h, r, 2, 256 + 3)),
    ("the envelope is 2", |h, r| match counting(h, r, all) {
        answer if answer == 0 || answer == TOO_SHORT => answer,
        answer => answer + 256,
    }),
    ("the number alone", |h, r| match counting(h, r, all) {
        TOO_SHORT => TOO_SHORT,
        answer => answer % 256,
    }),
    ("a refusal writes nothing", |h, r| {
        let before = r.first().copied();
        let answer = counting(h, r, all);
        if let (1.., Some(before)) = (answer, before) {
            r[0] = before;
        }
        answer
    }),
    ("a refusal leaves 1", |h, r| {
        let answer = counting(h, r, all);
        if answer != 0 && !r.is_empty() {
            r[0] = 1;
        }
        answer
    }),
    ("nothing is written", |h, r| {
        if r.is_empty() {
            return TOO_SHORT;
        }
        parent_moves(h).0
    }),
    ("the word behind is cleared", |h, r| {
        let answer = counting(h, r, all);
        if let Some(second) = r.get_mut(1) {
            *second = 0;
        }
        answer
    }),
    ("the last word gets it", |h, r| {
        let mut own = [0];
        let answer = counting(h, &mut own, all);
        match r.last_mut() {
            Some(last) => *last = own[0],
            None => return TOO_SHORT,
        }
        answer
    }),
    ("a longer result is refused", |h, r| match r.len() {
        1 => counting(h, r, all),
        _ => TOO_SHORT,
    }),
    ("no result is accepted", |h, r| match r.len() {
        0 => parent_moves(h).0,
        _ => counting(h, r, all),
    }),
    ("the header before the result", |h, r| match parent_moves(h).0 {
        0 => counting(h, r, all),
        refusal => {
            if let Some(first) = r.first_mut() {
                *first = 0;
            }
            refusal
        }
    }),
];

/// The first case in which a call differs from the reference.
fn found(call: MovesCall) -> Option<u64> {
    let mut comparer = Comparer::new();
    comparer.parent_moves = call;
    (0..CASES).find(|&case| comparer.run(1, Kind::Moves, case).is_err())
}

#[test]
fn each_is_found() {
    let missed: Vec<_> = WRONG.iter().filter(|(_, call)| found(*call).is_none()).collect();
    let names: Vec<_> = missed.iter().map(|(name, _)| name).collect();
    assert!(names.is_empty(), "not found: {names:?}");
}

/// What the wrong ones are made of is right.
#[test]
fn the_right_one_is_not() {
    assert_eq!(found(|header, result| counting(header, result, all)), None);
}
