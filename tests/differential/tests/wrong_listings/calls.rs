//! Calls with another room, another answer or another result, or that leave
//! something else in the lent bytes.

use super::{needed, right, Call, ROOM, TOO_SHORT};
use differential::compare::ListCall;
use differential::reference::header::read;
use differential::reference::list_fields;

/// The right call with another answer in place of this one.
fn answering(call: Call, of: u32, wrong: u32) -> u32 {
    match right(call) {
        answer if answer == of => wrong,
        answer => answer,
    }
}

/// The call with what an accepted one leaves changed afterwards.
fn afterwards((header, out, result): Call, change: impl FnOnce(&mut [u8], usize)) -> u32 {
    let answer = right((header, out, result));
    if answer == 0 {
        change(out, result[0] as usize);
    }
    answer
}

/// What is left where the room is too small.
fn with_20((header, out, result): Call, change: impl FnOnce(&mut [u8], &mut [u64], Vec<u8>)) -> u32 {
    let answer = right((header, out, result));
    if answer == ROOM {
        change(out, result, needed(header).unwrap_or_default());
    }
    answer
}

/// Writes as much as there is room for, from the front.
fn fill(out: &mut [u8], lines: &[u8]) {
    let length = out.len().min(lines.len());
    out[..length].copy_from_slice(&lines[..length]);
}

pub const WRONG: &[(&str, ListCall)] = &[
    // The room.
    ("20 for one byte too early", |h, o, r| {
        let room = o.len().saturating_sub(1);
        right((h, &mut o[..room], r))
    }),
    ("20 for an exact room", |h, o, r| match needed(h) {
        Some(lines) if !r.is_empty() && !lines.is_empty() && lines.len() == o.len() => {
            r[0] = 0;
            ROOM
        }
        _ => right((h, o, r)),
    }),
    ("20 for no room at all", |h, o, r| match o.len() {
        0 if right((h, &mut [], r)) == 0 => {
            r[0] = 0;
            ROOM
        }
        _ => right((h, o, r)),
    }),
    ("one byte too few is enough", |h, o, r| match needed(h) {
        Some(lines) if !r.is_empty() && lines.len() == o.len() + 1 => {
            fill(o, &lines);
            r[0] = o.len() as u64;
            0
        }
        _ => right((h, o, r)),
    }),
    ("cut to the room", |h, o, r| match needed(h) {
        Some(lines) if !r.is_empty() => {
            fill(o, &lines);
            r[0] = lines.len().min(o.len()) as u64;
            0
        }
        _ => right((h, o, r)),
    }),
    ("20 above 65,536 bytes", |h, o, r| {
        let room = o.len().min(65_536);
        right((h, &mut o[..room], r))
    }),
    ("20 above 1,048,576 bytes", |h, o, r| {
        let room = o.len().min(1_048_576);
        right((h, &mut o[..room], r))
    }),
    ("a room of more than 65,536 bytes in 16 bits", |h, o, r| match o.len() {
        0..=65_535 => right((h, o, r)),
        length => right((h, &mut o[..length % 65_536], r)),
    }),
    ("20 before the header", |h, o, r| match o.len() {
        0 if !r.is_empty() && right((h, &mut [], r)) != 0 => ROOM,
        _ => right((h, o, r)),
    }),
    ("20 before a circle", |h, o, r| match right((h, o, r)) {
        answer if answer == 256 + 15 && o.len() < 20 => ROOM,
        answer => answer,
    }),
    ("20 is accepted", |h, o, r| answering((h, o, r), ROOM, 0)),
    ("with 20, the first byte is written", |h, o, r| {
        with_20((h, o, r), |out, _, lines| fill(out, &lines[..1]))
    }),
    ("with 20, as much as there is room for", |h, o, r| {
        with_20((h, o, r), |out, _, lines| fill(out, &lines))
    }),
    ("with 20, the last byte is cleared", |h, o, r| {
        with_20((h, o, r), |out, _, _| {
            if let Some(last) = out.last_mut() {
                *last ^= 1;
            }
        })
    }),
    ("with 20, the result is what is needed", |h, o, r| {
        with_20((h, o, r), |_, result, lines| result[0] = lines.len() as u64)
    }),
    ("with 20, the result is the room", |h, o, r| {
        with_20((h, o, r), |out, result, _| result[0] = out.len() as u64)
    }),
    // What is left of the lent bytes.
    ("the byte behind is cleared", |h, o, r| {
        afterwards((h, o, r), |out, length| {
            if let Some(behind) = out.get_mut(length) {
                *behind ^= 1;
            }
        })
    }),
    ("the last lent byte is cleared", |h, o, r| {
        afterwards((h, o, r), |out, length| {
            if let Some(last) = out[length..].last_mut() {
                *last ^= 1;
            }
        })
    }),
    ("all bytes behind are cleared", |h, o, r| {
        afterwards((h, o, r), |out, length| out[length..].fill(0))
    }),
    ("a byte behind the lent ones is changed", |h, o, r| {
        let answer = right((h, o, r));
        if answer == 0 {
            // SAFETY: in the comparison there are bytes behind those that are lent.
            unsafe { *o.as_mut_ptr().add(o.len()) ^= 1 };
        }
        answer
    }),
    ("all but the last byte", |h, o, r| {
        let old = o.to_vec();
        afterwards((h, o, r), |out, length| {
            if let Some(last) = length.checked_sub(1) {
                out[last] = old[last] ^ 1;
            }
        })
    }),
    ("nothing is written", |h, o, r| right((h, &mut o.to_vec(), r))),
    ("at the end of the room", |h, o, r| {
        let old = o.to_vec();
        afterwards((h, o, r), |out, length| {
            let start = out.len() - length;
            out.copy_within(..length, start);
            out[..start].copy_from_slice(&old[..start]);
        })
    }),
    ("a refusal clears a byte", |h, o, r| {
        let answer = right((h, o, r));
        if answer != 0 && answer != TOO_SHORT {
            if let Some(first) = o.first_mut() {
                *first ^= 1;
            }
        }
        answer
    }),
    ("a short result writes the listing", |h, o, r| match r.len() {
        0 => {
            list_fields(h, o);
            TOO_SHORT
        }
        _ => right((h, o, r)),
    }),
    // The answer and the result.
    ("no fields are refused", |h, o, r| match right((h, o, r)) {
        0 if r[0] == 0 => 256 + 10,
        answer => answer,
    }),
    ("512 fields are refused", |h, o, r| {
        let answer = right((h, o, r));
        match read(h) {
            Ok(header) if header.fields.len() == 512 && answer == 0 => 256 + 10,
            _ => answer,
        }
    }),
    ("dark fields are refused", |h, o, r| {
        let answer = right((h, o, r));
        match read(h) {
            Ok(header) if header.fields.iter().any(|field| field.dark) && answer == 0 => 256 + 13,
            _ => answer,
        }
    }),
    ("a circle is accepted", |h, o, r| answering((h, o, r), 256 + 15, 0)),
    ("a circle is 14", |h, o, r| answering((h, o, r), 256 + 15, 256 + 14)),
    ("unexplained bytes are accepted", |h, o, r| {
        answering((h, o, r), 256 + 11, 0)
    }),
    ("another checksum is accepted", |h, o, r| {
        answering((h, o, r), 256 + 3, 0)
    }),
    ("too many fields are 20", |h, o, r| answering((h, o, r), 256 + 10, ROOM)),
    ("the envelope is 2", |h, o, r| match right((h, o, r)) {
        answer if answer == 0 || answer == TOO_SHORT => answer,
        answer => answer + 256,
    }),
    ("20 without its envelope", |h, o, r| answering((h, o, r), ROOM, 20)),
    ("the number alone", |h, o, r| match right((h, o, r)) {
        TOO_SHORT => TOO_SHORT,
        answer => answer % 256,
    }),
    ("a refusal leaves the result", |h, o, r| {
        let before = r.first().copied();
        let answer = right((h, o, r));
        if let (1.., Some(before)) = (answer, before) {
            r[0] = before;
        }
        answer
    }),
    ("no result is written", |h, o, r| {
        let mut own = r.to_vec();
        right((h, o, &mut own))
    }),
    ("the result counts fields", |h, o, r| {
        let answer = right((h, o, r));
        if answer == 0 {
            r[0] = read(h).map_or(0, |header| header.fields.len() as u64);
        }
        answer
    }),
    ("the result is one less", |h, o, r| {
        let answer = right((h, o, r));
        if answer == 0 {
            r[0] = r[0].saturating_sub(1);
        }
        answer
    }),
    ("the result in 16 bits", |h, o, r| {
        let answer = right((h, o, r));
        if answer == 0 {
            r[0] %= 65_536;
        }
        answer
    }),
    ("the last result word gets it", |h, o, r| {
        let mut own = [0];
        if r.is_empty() {
            return TOO_SHORT;
        }
        let answer = right((h, o, &mut own));
        if let Some(last) = r.last_mut() {
            *last = own[0];
        }
        answer
    }),
    ("the word behind the result is cleared", |h, o, r| {
        let answer = right((h, o, r));
        if let Some(second) = r.get_mut(1) {
            *second = 0;
        }
        answer
    }),
    ("the 64th result word is cleared", |h, o, r| {
        let answer = right((h, o, r));
        if let Some(last) = r.get_mut(63) {
            *last = 0;
        }
        answer
    }),
    ("a longer result is refused", |h, o, r| match r.len() {
        0 | 1 => right((h, o, r)),
        _ => TOO_SHORT,
    }),
    ("no result is accepted", |h, o, r| match r.len() {
        0 => list_fields(h, o).0,
        _ => right((h, o, r)),
    }),
    ("the header before the result", |h, o, r| {
        match (r.len(), list_fields(h, &mut [])) {
            (0, (answer, _)) if answer != 0 && answer != ROOM => answer,
            _ => right((h, o, r)),
        }
    }),
];
