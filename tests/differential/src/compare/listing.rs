//! Listings: compared byte by byte, and the fields told back by their lines.

use super::{dump, exported, Comparer, Note};
use crate::generate::listing::ListCase;
use crate::reference;
use crate::reference::envelope::Text;
use crate::reference::header::{self, Header};

/// A string as it has to be printed.
fn shown(envelope: &[u8], text: Text) -> Option<String> {
    let bytes = &envelope[text.place as usize..][..text.length as usize];
    let characters = std::str::from_utf8(bytes).ok()?.chars();
    let shown = characters.map(|character| if character.is_ascii_control() { '?' } else { character });
    Some(shown.collect())
}

/// Whether the listing tells every field of this header once, its parent, name,
/// type and dark mark, and its place among the children of the same parent:
/// from the lines alone, without an order in which they would be made. There is
/// one such listing.
pub fn tells(listing: &[u8], header: &Header, envelope: &[u8]) -> Result<(), String> {
    let text = std::str::from_utf8(listing).map_err(|error| format!("the listing is no UTF-8: {error}"))?;
    let mut told = vec![false; header.fields.len()];
    // The field of the last line, the one above it, and so on up to the top.
    let mut open: Vec<usize> = Vec::new();
    for line in text.split_inclusive('\n') {
        let wrong = |what: &str| Err(format!("{what}: {line:?}"));
        let Some(line) = line.strip_suffix('\n') else {
            return wrong("no line end");
        };
        let content = line.trim_start_matches(' ');
        let spaces = line.len() - content.len();
        if spaces % 2 != 0 || spaces / 2 > open.len() {
            return wrong("not below any field");
        }
        let level = spaces / 2;
        let (digits, labels) = content.split_once(' ').unwrap_or((content, ""));
        let number = match digits.parse::<usize>() {
            Ok(number) if number.to_string() == digits => number,
            _ => return wrong("no number"),
        };
        if told.get(number) != Some(&false) {
            return wrong("no such field, or told before");
        }
        told[number] = true;
        if open.get(level).is_some_and(|&before| before >= number) {
            return wrong("before it stands a field with a larger number");
        }
        open.truncate(level);
        let field = &header.fields[number];
        if open.last().copied().unwrap_or(number) != field.parent as usize {
            return wrong("below another field than its parent");
        }
        open.push(number);
        let (name, type_name) = (shown(envelope, field.name), shown(envelope, field.type_name));
        let mut due = format!("{} {}", name.unwrap_or_default(), type_name.unwrap_or_default());
        if field.dark {
            due += " dark";
        }
        if labels != due {
            return wrong("another name, type or mark");
        }
    }
    match told.iter().position(|&told| !told) {
        Some(number) => Err(format!("field {number} is not listed")),
        None => Ok(()),
    }
}

impl Comparer {
    pub(super) fn list(&mut self, case: &ListCase) -> Result<(), String> {
        let seed = self.seed();
        self.bytes.lend(case.out, seed);
        self.result.lend(case.result, seed ^ 1);
        let out = &mut self.bytes;
        let theirs = exported(self.result.reference(), || {
            reference::list_fields(&case.envelope, out.reference())
        });
        let envelope = self.shelves[0].lend(&case.envelope, seed);
        let ours = (self.list_fields)(envelope, out.ours(), self.result.ours());
        self.settle_bytes(ours, theirs)?;
        if ours != 0 {
            return Ok(());
        }
        let listing = self.written();
        let header = header::read(&case.envelope).map_err(|number| format!("refused {number}\n"))?;
        tells(&listing, &header, &case.envelope).map_err(|what| format!("{what}\n{}", dump("listing", &listing)))?;
        self.tally.note(Note::LinesBack);
        if header.fields.iter().any(|field| field.dark) {
            self.tally.note(Note::Dark);
        }
        let Some(newer) = &case.newer else {
            return Ok(());
        };
        let mut result = [0];
        let mut out = vec![0; listing.len()];
        let answer = (self.list_fields)(newer, &mut out, &mut result);
        let same = (answer, result) == (0, [listing.len() as u64]) && out == listing;
        self.settle_newer(same, answer, dump("newer header", newer))
    }
}
