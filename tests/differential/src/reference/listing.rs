//! A header's fields as a tree of lines that people can read.

#[cfg(test)]
mod lines;

use super::envelope::Text;
use super::header::{Field, Header};
use super::Number;

/// Stands for what a terminal would take as a command.
const UNPRINTED: u8 = b'?';

/// The numbers from a field's top down to the field itself.
fn path(fields: &[Field], number: usize) -> Vec<usize> {
    let mut path = vec![number];
    let mut at = number;
    while fields[at].parent as usize != at {
        at = fields[at].parent as usize;
        path.push(at);
    }
    path.reverse();
    path
}

fn printed(byte: u8) -> u8 {
    if byte < 32 || byte == 127 {
        UNPRINTED
    } else {
        byte
    }
}

/// The whole listing. A field stands before those whose path goes on from its
/// own, and paths that part do so at two children of one field, or at two tops:
/// so the lines stand as the paths do in the order of a dictionary.
pub fn lines(header: &Header, envelope: &[u8]) -> Vec<u8> {
    let fields = &header.fields;
    let mut paths: Vec<Vec<usize>> = (0..fields.len()).map(|number| path(fields, number)).collect();
    paths.sort_unstable();
    let characters = |text: Text| envelope[text.place as usize..][..text.length as usize].iter();
    let mut lines = Vec::new();
    for path in paths {
        let number = path[path.len() - 1];
        let field = &fields[number];
        lines.extend(std::iter::repeat_n(b' ', 2 * (path.len() - 1)));
        lines.extend_from_slice(number.to_string().as_bytes());
        for text in [field.name, field.type_name] {
            lines.push(b' ');
            lines.extend(characters(text).map(|&byte| printed(byte)));
        }
        if field.dark {
            lines.extend_from_slice(b" dark");
        }
        lines.push(b'\n');
    }
    lines
}

/// The listing goes to the lent bytes, if they are enough. Gives its length.
pub fn write(header: &Header, envelope: &[u8], out: &mut [u8]) -> Result<usize, Number> {
    let lines = lines(header, envelope);
    let out = out.get_mut(..lines.len()).ok_or(20u32)?;
    out.copy_from_slice(&lines);
    Ok(lines.len())
}
