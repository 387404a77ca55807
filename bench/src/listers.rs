//! Listings of a header's fields as one would write them: the children of each
//! field in a vector of its own, and from the tops down a line for each field.
//! An error is the answer of the exported call.

use differential::reference::envelope::Text;
use differential::reference::header::{self, FIELD_WORDS};
use differential::reference::{refusal, HEADER};

/// What is listed of a field.
pub struct Row<'a> {
    parent: usize,
    name: &'a [u8],
    type_name: &'a [u8],
    dark: bool,
}

/// The fields as the independent reader gives them.
fn read(envelope: &[u8]) -> Result<Vec<Row<'_>>, u32> {
    let header = header::read(envelope).map_err(|number| refusal(HEADER, number))?;
    let text = |text: Text| &envelope[text.place as usize..][..text.length as usize];
    let fields = header.fields.iter().map(|field| Row {
        parent: field.parent as usize,
        name: text(field.name),
        type_name: text(field.type_name),
        dark: field.dark,
    });
    Ok(fields.collect())
}

/// The fields as they stand in the rows of a table.
fn of_table<'a>(envelope: &'a [u8], fields: &[u64]) -> Vec<Row<'a>> {
    let text = |text: &[u64]| &envelope[text[0] as usize..][..text[1] as usize];
    let fields = fields.chunks_exact(FIELD_WORDS).map(|row| Row {
        parent: row[2] as usize,
        name: text(&row[6..8]),
        type_name: text(&row[8..10]),
        dark: row[14] == 1,
    });
    fields.collect()
}

/// Calls `line` for each field in its turn, with its level.
fn each(fields: &[Row], mut line: impl FnMut(usize, usize)) {
    let mut children = vec![Vec::new(); fields.len()];
    let mut tops = Vec::new();
    for (number, field) in fields.iter().enumerate() {
        if field.parent == number {
            tops.push(number);
        } else {
            children[field.parent].push(number);
        }
    }
    // The next field is the last; what is below it comes before what stands there.
    let mut due: Vec<(usize, usize)> = tops.into_iter().rev().map(|top| (top, 0)).collect();
    while let Some((number, level)) = due.pop() {
        line(number, level);
        due.extend(children[number].iter().rev().map(|&child| (child, level + 1)));
    }
}

fn printed(byte: u8) -> u8 {
    if byte < 32 || byte == 127 {
        b'?'
    } else {
        byte
    }
}

/// The lines are made elsewhere and then copied.
fn draft(fields: &[Row], out: &mut [u8]) -> Result<usize, u32> {
    let mut lines = Vec::with_capacity(out.len());
    each(fields, |number, level| {
        let field = &fields[number];
        lines.resize(lines.len() + 2 * level, b' ');
        lines.extend_from_slice(number.to_string().as_bytes());
        for text in [field.name, field.type_name] {
            lines.push(b' ');
            lines.extend(text.iter().map(|&byte| printed(byte)));
        }
        if field.dark {
            lines.extend_from_slice(b" dark");
        }
        lines.push(b'\n');
    });
    let out = out.get_mut(..lines.len()).ok_or(refusal(HEADER, 20))?;
    out.copy_from_slice(&lines);
    Ok(lines.len())
}

/// The digits of a field's number.
fn digits(number: usize) -> usize {
    match number {
        0..=9 => 1,
        10..=99 => 2,
        _ => 3,
    }
}

/// The lines are counted first and then written straight into the lent bytes.
fn straight(fields: &[Row], out: &mut [u8]) -> Result<usize, u32> {
    let mut levels = vec![0; fields.len()];
    let mut order = Vec::with_capacity(fields.len());
    let mut length = 0;
    each(fields, |number, level| {
        let field = &fields[number];
        levels[number] = level;
        order.push(number);
        length +=
            2 * level + digits(number) + 3 + field.name.len() + field.type_name.len() + 5 * usize::from(field.dark);
    });
    let mut rest = out.get_mut(..length).ok_or(refusal(HEADER, 20))?;
    for number in order {
        let field = &fields[number];
        let spaces;
        (spaces, rest) = rest.split_at_mut(2 * levels[number]);
        spaces.fill(b' ');
        let shown;
        (shown, rest) = rest.split_at_mut(digits(number));
        let mut left = number;
        for digit in shown.iter_mut().rev() {
            *digit = b'0' + (left % 10) as u8;
            left /= 10;
        }
        for text in [field.name, field.type_name] {
            rest[0] = b' ';
            let shown;
            (shown, rest) = rest[1..].split_at_mut(text.len());
            for (to, &byte) in shown.iter_mut().zip(text) {
                *to = printed(byte);
            }
        }
        if field.dark {
            rest[..5].copy_from_slice(b" dark");
            rest = &mut rest[5..];
        }
        rest[0] = b'\n';
        rest = &mut rest[1..];
    }
    Ok(length)
}

pub fn read_and_draft(envelope: &[u8], out: &mut [u8]) -> Result<usize, u32> {
    draft(&read(envelope)?, out)
}

pub fn read_and_write(envelope: &[u8], out: &mut [u8]) -> Result<usize, u32> {
    straight(&read(envelope)?, out)
}

/// The header is already in a table.
pub fn of_rows(envelope: &[u8], fields: &[u64], out: &mut [u8]) -> Result<usize, u32> {
    straight(&of_table(envelope, fields), out)
}

/// They keep the rules: the reference leaves the same on the cases of the
/// differential test.
#[cfg(test)]
mod tests {
    use super::*;
    use differential::calls;
    use differential::compare::{Comparer, ListCall};
    use differential::generate::Kind;

    fn answer(listed: Result<usize, u32>, result: &mut [u64]) -> u32 {
        result[0] = listed.unwrap_or(0) as u64;
        listed.map_or_else(|answer| answer, |_| 0)
    }

    fn compare(call: ListCall) {
        let mut comparer = Comparer::new();
        comparer.list_fields = call;
        for case in 0..20_000 {
            comparer
                .run(1, Kind::List, case)
                .unwrap_or_else(|difference| panic!("{difference}"));
        }
    }

    #[test]
    fn they_answer_as_the_reference() {
        compare(|header, out, result| match result.len() {
            0 => u32::MAX,
            _ => answer(read_and_draft(header, out), result),
        });
        compare(|header, out, result| match result.len() {
            0 => u32::MAX,
            _ => answer(read_and_write(header, out), result),
        });
        compare(|header, out, result| {
            if result.is_empty() {
                return u32::MAX;
            }
            let (mut fields, mut read) = (vec![0; 512 * FIELD_WORDS], [0; 7]);
            let refused = calls::read_header(header, &mut fields, &mut [0; 4_096], &mut [0; 512], &mut read);
            let rows = &fields[..read[4] as usize * FIELD_WORDS];
            let listed = if refused == 0 {
                of_rows(header, rows, out)
            } else {
                Err(refused)
            };
            answer(listed, result)
        });
    }
}
