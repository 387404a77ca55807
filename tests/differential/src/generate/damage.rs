//! Damage to envelopes, aimed at their rules.

use super::random::Random;
use crate::writer::{seal, Mark, Part, Writer};

/// Damages the written envelope once, at times twice, so that the order of
/// checks shows. Its checksum is put right afterwards, unless it is the damage.
pub fn damage(random: &mut Random, writer: &mut Writer) {
    let mut sealed = once(random, writer);
    if random.one_in(3) {
        sealed &= once(random, writer);
    }
    if sealed {
        seal(&mut writer.bytes);
    }
}

/// A number of the envelope whose part fits, any of them as likely.
fn find(random: &mut Random, writer: &Writer, fits: impl Fn(Part) -> bool) -> Option<Mark> {
    // Earlier damage may have cut the envelope.
    let inside = |mark: &&Mark| fits(mark.part) && mark.place + mark.width + 4 <= writer.bytes.len();
    let count = writer.marks.iter().filter(inside).count();
    if count == 0 {
        return None;
    }
    writer.marks.iter().filter(inside).nth(random.index(count)).copied()
}

fn get(writer: &Writer, mark: Mark) -> u64 {
    let mut word = [0; 8];
    word[..mark.width].copy_from_slice(&writer.bytes[mark.place..mark.place + mark.width]);
    u64::from_le_bytes(word)
}

fn set(writer: &mut Writer, mark: Mark, number: u64) {
    writer.bytes[mark.place..mark.place + mark.width].copy_from_slice(&number.to_le_bytes()[..mark.width]);
}

/// Rewrites a number whose part fits. False when there is none.
fn change(
    random: &mut Random,
    writer: &mut Writer,
    fits: impl Fn(Part) -> bool,
    new: impl FnOnce(&mut Random, u64, Part) -> u64,
) -> bool {
    let Some(mark) = find(random, writer, |part| {
        fits(part) && !matches!(part, Part::Characters | Part::Spare)
    }) else {
        return false;
    };
    let number = new(random, get(writer, mark), mark.part);
    set(writer, mark, number);
    true
}

fn near(random: &mut Random, old: u64) -> u64 {
    let step = 1 + random.below(8);
    if random.one_in(2) {
        old.wrapping_add(step)
    } else {
        old.wrapping_sub(step)
    }
}

/// Numbers that have rules, in groups that are aimed at equally often.
const AIMS: [&[Part]; 17] = [
    &[Part::Feature],
    &[Part::StringLength],
    &[Part::ListCount],
    &[Part::Parent],
    &[Part::Role, Part::FieldFlags],
    &[Part::ColumnType, Part::Bits],
    &[Part::ColumnField],
    &[Part::ColumnFlags],
    &[Part::AliasColumn, Part::AliasField],
    &[Part::HeaderChecksum],
    &[Part::ListChecksum],
    &[Part::EmptyCount],
    &[Part::FirstEntry],
    &[Part::EntryCount],
    &[Part::LinkSize, Part::StoredSize],
    &[Part::Elements],
    &[Part::Offset],
];

/// A number of some group. No envelope has all groups, so that it takes a few
/// attempts.
fn aim(random: &mut Random, writer: &Writer) -> Option<Mark> {
    (0..32).find_map(|_| {
        let group = random.pick(&AIMS);
        find(random, writer, |part| group.contains(&part))
    })
}

/// Another number in place of the old one, mostly against its rule.
fn wrong(random: &mut Random, old: u64, part: Part) -> u64 {
    match (part, random.below(4)) {
        (Part::Feature, _) => old ^ 1 << random.below(64),
        (Part::StringLength, 0 | 1) => near(random, old),
        (Part::StringLength, 2) => random.pick(&[0x7FFF_FFFF, 0x8000_0000, 0xFFFF_FFF0, 0xFFFF_FFFF]),
        (Part::StringLength, _) => random.below(200),
        (Part::ListCount, 0) => near(random, old),
        (Part::ListCount, 1) => old | 1 << (28 + random.below(4)),
        (Part::ListCount, 2) => random.below(1 << 32),
        (Part::ListCount, _) => random.pick(&[65, 257, 513, 1_025, 16_385, 0x0FFF_FFFF]),
        (Part::Parent | Part::ColumnField | Part::AliasColumn | Part::AliasField, choice) => match choice {
            0 => 0xFFFF_FFFF,
            1 => random.number(),
            _ => old + 1 + random.below(3),
        },
        (Part::Role, _) => random.pick(&[5, 6, 0x0100, 0x8000, 0xFFFF]),
        (Part::FieldFlags, _) => old | 1 << (2 + random.below(14)),
        (Part::ColumnFlags, _) => old | 1 << (3 + random.below(29)),
        (Part::Bits, 0 | 1) => near(random, old),
        (Part::ColumnType | Part::Bits, _) => random.below(40),
        (Part::HeaderChecksum | Part::ListChecksum, _) => old ^ 1 << random.below(32),
        (Part::EmptyCount, 0) => 1 << random.below(32),
        (Part::EmptyCount, 1) => random.below(1 << 28),
        (Part::EmptyCount, _) => 1,
        (Part::EntryCount, 0 | 1) => old | 1 << (60 + random.below(4)) | random.pick(&[0, 1 << 63]),
        (Part::FirstEntry | Part::EntryCount, 2) => (1 << 60) - random.below(3),
        (Part::EntryCount, _) => random.next() >> 4,
        (Part::FirstEntry, _) => near(random, old),
        (Part::LinkSize | Part::StoredSize | Part::Elements, choice) => match choice {
            0 => old | 1 << 31,
            1 => old ^ 1 << 30,
            2 => random.number(),
            _ => near(random, old),
        },
        // At the file's end also a page whose check bytes alone are outside.
        (Part::Offset, 0) => old.wrapping_add(1 + random.below(5)),
        (Part::Offset, 1) => u64::MAX - random.below(3),
        (_, _) => random.number(),
    }
}

/// A number that is the last of its container, and most often wrong: whether
/// it is refused before what is missing behind it shows the order of checks.
/// At times its own last bytes are missing too.
fn last(random: &mut Random, writer: &mut Writer) -> bool {
    let Some(mark) = aim(random, writer) else {
        return false;
    };
    let end = if random.one_in(4) {
        mark.place + random.index(mark.width)
    } else {
        let number = wrong(random, get(writer, mark), mark.part);
        set(writer, mark, number);
        mark.place + mark.width + if random.one_in(3) { random.index(4) } else { 0 }
    };
    let around = |head: &&Mark| frame_size(head.part) && head.place < mark.place;
    match writer.marks.iter().rev().find(around).copied() {
        Some(head) if head.part == Part::RecordSize => set(writer, head, (end - head.place) as u64),
        Some(head) => set(writer, head, ((end - head.place) as u64).wrapping_neg()),
        None => {
            writer.bytes.truncate(end);
            writer.bytes.extend_from_slice(&[0; 4]);
        }
    }
    true
}

/// Gives whether the checksum is to be put right.
fn once(random: &mut Random, writer: &mut Writer) -> bool {
    let done = match random.below(24) {
        0 => change(random, writer, |_| true, blind),
        1 | 2 => change(random, writer, frame_size, other_size),
        3..=10 => match aim(random, writer) {
            Some(mark) => {
                let number = wrong(random, get(writer, mark), mark.part);
                set(writer, mark, number);
                true
            }
            None => false,
        },
        11..=14 => last(random, writer),
        15 => {
            let at = random.index(writer.bytes.len().max(1));
            cut(random, writer, at)
        }
        16 => {
            // The end of the last known content, or a little before it.
            let at = writer.bytes.len().saturating_sub(4 + 1 + random.index(12));
            cut(random, writer, at)
        }
        17 => {
            let end = writer.bytes.len().saturating_sub(4);
            let length = 1 + random.index(12);
            let more = random.bytes(length);
            writer.bytes.splice(end..end, more);
            true
        }
        18 | 19 => match find(random, writer, |part| part == Part::Characters) {
            Some(mark) => {
                let at = mark.place + random.index(mark.width);
                writer.bytes[at] = match random.below(4) {
                    0 => writer.bytes[at] | 0x80,
                    1 => random.pick(&[0x7F, 0x80, 0x8F, 0x90, 0x9F, 0xA0, 0xBF, 0xC0, 0xC1, 0xC2]),
                    2 => random.pick(&[0xDF, 0xE0, 0xE1, 0xED, 0xEF, 0xF0, 0xF1, 0xF4, 0xF5, 0xFF]),
                    _ => writer.bytes[at] ^ 1 << random.below(8),
                };
                true
            }
            None => false,
        },
        20 => versions(random, writer),
        21 => {
            // Bytes in the middle, so that everything behind them moves.
            let at = random.index(writer.bytes.len().max(1));
            let end = (at + random.index(6)).min(writer.bytes.len());
            let length = random.index(6);
            let more = random.bytes(length);
            writer.bytes.splice(at..end, more);
            true
        }
        22 => {
            if let Some(at) = writer.bytes.len().checked_sub(1) {
                let at = if random.one_in(2) {
                    random.index(at + 1)
                } else {
                    at - random.index(4).min(at)
                };
                writer.bytes[at] ^= 1 << random.below(8);
            }
            return false;
        }
        _ => whole(random, writer),
    };
    if !done && !writer.bytes.is_empty() {
        let at = random.index(writer.bytes.len());
        writer.bytes[at] ^= 1 << random.below(8);
    }
    true
}

fn blind(random: &mut Random, old: u64, _: Part) -> u64 {
    match random.below(3) {
        0 => near(random, old),
        1 => random.number(),
        _ => old ^ 1 << random.below(64),
    }
}

fn other_size(random: &mut Random, old: u64, part: Part) -> u64 {
    match random.below(4) {
        0 => near(random, old),
        // Any place of a record may be its end.
        1 if part == Part::RecordSize => random.up_to(old),
        1 => old.wrapping_neg(),
        2 => random.pick(&[0, 3, 4, 7, 8, 0x7FFF_FFFF]),
        _ => random.pick(&[0x8000_0000, 0xFFFF_FFF8, 0xFFFF_FFFC, 0xFFFF_FFFF]),
    }
}

fn frame_size(part: Part) -> bool {
    matches!(part, Part::RecordSize | Part::ListSize)
}

/// Cuts the payload at a place; four bytes for the checksum follow.
fn cut(random: &mut Random, writer: &mut Writer, at: usize) -> bool {
    writer.bytes.truncate(at);
    if !random.one_in(8) {
        writer.bytes.extend_from_slice(&[0; 4]);
    }
    true
}

fn versions(random: &mut Random, writer: &mut Writer) -> bool {
    if writer.bytes.len() < 8 {
        return false;
    }
    let (version, minimum) = random.pick(&[
        (1u16, 1u16),
        (1, 0),
        (0, 0),
        (0, 1),
        (1, 2),
        (2, 2),
        (3, 2),
        (2, 3),
        (2, 1),
        (3, 1),
        (3, 3),
        (4, 3),
        (u16::MAX, 1),
        (u16::MAX, 2),
        (u16::MAX, u16::MAX),
        (256, 256),
        (1, 256),
    ]);
    writer.bytes[..2].copy_from_slice(&version.to_le_bytes());
    writer.bytes[2..4].copy_from_slice(&minimum.to_le_bytes());
    true
}

/// Another envelope altogether: too short, or of any bytes, at times of bytes
/// that frames are made of.
fn whole(random: &mut Random, writer: &mut Writer) -> bool {
    writer.marks.clear();
    let end = if random.one_in(100) {
        100_000
    } else {
        random.pick(&[8, 10, 60, 600])
    };
    let length = random.index(end);
    writer.bytes = random.bytes(length);
    if random.one_in(2) {
        const FRAMES: [u8; 16] = [0, 0, 0, 0, 0, 0, 1, 1, 2, 4, 8, 12, 0xF0, 0xF4, 0xF8, 0xFF];
        writer
            .bytes
            .iter_mut()
            .for_each(|byte| *byte = FRAMES[usize::from(*byte % 16)]);
    }
    let start: &[u8] = random.pick(&[&[], &[1, 0, 1, 0], &[2, 0, 1, 0, 0, 0, 0, 0, 0, 0, 0, 0]]);
    if length >= start.len() + 4 {
        writer.bytes[..start.len()].copy_from_slice(start);
    }
    true
}
