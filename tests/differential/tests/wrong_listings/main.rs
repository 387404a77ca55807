//! Wrong listings, each of which the comparison has to find. They stand in for
//! the library's call; what is right about them is the reference's.

mod calls;
mod lines;

use differential::compare::listing::tells;
use differential::compare::{Comparer, ListCall};
use differential::generate::{Generator, Kind};
use differential::reference::envelope::Text;
use differential::reference::header::{read, Field, Header};
use differential::reference::list_fields;

const TOO_SHORT: u32 = u32::MAX;
const ROOM: u32 = 256 + 20;

/// So many cases at most; those with the most fields and bytes are among the first.
const CASES: u64 = 20_000;

/// A room for every listing there can be.
const ENOUGH: usize = 1_048_576 + 2 * 130_816;

/// How fields are listed: each part can be put out of order by itself.
struct Style {
    /// The fields that stand on the first level, in their order.
    tops: fn(&[Field]) -> Vec<usize>,
    /// The children of a field, in their order.
    children: fn(&Tree, usize) -> Vec<usize>,
    /// The spaces before a number on this level.
    spaces: fn(usize) -> usize,
    number: fn(usize) -> String,
    /// Name and type name as they are printed.
    name: fn(&Tree, &Field) -> Vec<u8>,
    type_name: fn(&Tree, &Field) -> Vec<u8>,
    between: &'static str,
    mark: fn(&Tree, usize, usize) -> &'static str,
    end: &'static str,
    /// Levels below this one are not listed.
    deepest: usize,
    /// A field's line comes before those of its children.
    first: bool,
}

/// A header and its bytes.
struct Tree<'a> {
    header: &'a Header,
    envelope: &'a [u8],
}

impl Tree<'_> {
    fn fields(&self) -> &[Field] {
        &self.header.fields
    }

    fn text(&self, text: Text) -> &[u8] {
        &self.envelope[text.place as usize..][..text.length as usize]
    }

    fn shown(&self, text: Text, hidden: impl Fn(u8) -> bool) -> Vec<u8> {
        let bytes = self.text(text).iter();
        bytes.map(|&byte| if hidden(byte) { b'?' } else { byte }).collect()
    }

    /// The children by their numbers.
    fn children(&self, parent: usize) -> Vec<usize> {
        let fields = self.fields();
        (0..fields.len())
            .filter(|&i| i != parent && fields[i].parent as usize == parent)
            .collect()
    }

    /// Whether an unknown column hangs on this very field.
    fn unknown(&self, number: usize) -> bool {
        let columns = self.header.columns.iter();
        columns
            .filter(|column| column.field as usize == number)
            .any(|column| column.column_type == 0 || column.column_type > 28)
    }
}

fn hidden(byte: u8) -> bool {
    byte < 32 || byte == 127
}

fn tops(fields: &[Field]) -> Vec<usize> {
    (0..fields.len()).filter(|&i| fields[i].parent as usize == i).collect()
}

const RIGHT: Style = Style {
    tops,
    children: |tree, parent| tree.children(parent),
    spaces: |level| 2 * level,
    number: |number| number.to_string(),
    name: |tree, field| tree.shown(field.name, hidden),
    type_name: |tree, field| tree.shown(field.type_name, hidden),
    between: " ",
    mark: |tree, number, _| if tree.fields()[number].dark { " dark" } else { "" },
    end: "\n",
    deepest: usize::MAX,
    first: true,
};

impl Style {
    fn line(&self, tree: &Tree, number: usize, level: usize, lines: &mut Vec<u8>) {
        let field = &tree.fields()[number];
        lines.extend(vec![b' '; (self.spaces)(level)]);
        lines.extend((self.number)(number).bytes());
        lines.extend(self.between.bytes());
        lines.extend((self.name)(tree, field));
        lines.extend(self.between.bytes());
        lines.extend((self.type_name)(tree, field));
        lines.extend((self.mark)(tree, number, level).bytes());
        lines.extend(self.end.bytes());
    }

    fn field(&self, tree: &Tree, number: usize, level: usize, lines: &mut Vec<u8>) {
        if level > self.deepest {
            return;
        }
        if self.first {
            self.line(tree, number, level, lines);
        }
        for child in (self.children)(tree, number) {
            self.field(tree, child, level + 1, lines);
        }
        if !self.first {
            self.line(tree, number, level, lines);
        }
    }

    fn listing(&self, tree: &Tree) -> Vec<u8> {
        let mut lines = Vec::new();
        for top in (self.tops)(tree.fields()) {
            self.field(tree, top, 0, &mut lines);
        }
        lines
    }
}

type Call<'a> = (&'a [u8], &'a mut [u8], &'a mut [u64]);

/// The call with another listing of accepted headers.
fn listing((header, out, result): Call, lines: impl FnOnce(&Tree) -> Vec<u8>) -> u32 {
    let Some(first) = result.first_mut() else {
        return TOO_SHORT;
    };
    *first = 0;
    let parsed = match read(header) {
        Ok(parsed) => parsed,
        Err(number) => return 256 + number,
    };
    let tree = Tree {
        header: &parsed,
        envelope: header,
    };
    let lines = lines(&tree);
    let Some(out) = out.get_mut(..lines.len()) else {
        return ROOM;
    };
    out.copy_from_slice(&lines);
    *first = lines.len() as u64;
    0
}

/// The right call.
fn right((header, out, result): Call) -> u32 {
    let Some(first) = result.first_mut() else {
        return TOO_SHORT;
    };
    let (answer, [written]) = list_fields(header, out);
    *first = written;
    answer
}

/// The bytes of the listing, where the header is accepted.
fn needed(header: &[u8]) -> Option<Vec<u8>> {
    let mut room = vec![0; ENOUGH];
    let (answer, [written]) = list_fields(header, &mut room);
    room.truncate(written as usize);
    (answer == 0).then_some(room)
}

fn styled(call: Call, style: Style) -> u32 {
    listing(call, |tree| style.listing(tree))
}

/// All wrong calls, with what is wrong about them.
fn wrong() -> impl Iterator<Item = &'static (&'static str, ListCall)> {
    lines::WRONG.iter().chain(calls::WRONG)
}

/// The first case in which a call differs from the reference.
fn found(call: ListCall) -> Option<u64> {
    let mut comparer = Comparer::new();
    comparer.list_fields = call;
    (0..CASES).find(|&case| comparer.run(1, Kind::List, case).is_err())
}

#[test]
fn each_is_found() {
    let missed: Vec<_> = wrong().filter(|(_, call)| found(*call).is_none()).collect();
    let names: Vec<_> = missed.iter().map(|(name, _)| name).collect();
    assert!(names.is_empty(), "not found: {names:?}");
}

/// What the wrong ones are made of is right.
#[test]
fn the_right_ones_are_not() {
    assert_eq!(found(|header, out, result| right((header, out, result))), None);
    assert_eq!(found(|header, out, result| styled((header, out, result), RIGHT)), None);
}

/// The fields are told by one listing alone: by whatever else a call writes they
/// are not, also where its bytes are compared with nothing.
#[test]
fn other_lines_do_not_tell_the_fields() {
    let mut generator = Generator::new();
    let mut others = 0;
    for case in 1_000..1_300 {
        generator.begin(1, Kind::List, case);
        let envelope = generator.list_case().envelope;
        let (Ok(header), Some(lines)) = (read(&envelope), needed(&envelope)) else {
            continue;
        };
        assert_eq!(tells(&lines, &header, &envelope), Ok(()));
        for (name, call) in wrong() {
            // A byte more than the call is lent, which one of them changes.
            let (mut out, mut result) = (vec![b' '; 4 * lines.len() + 4_096], [0]);
            let lent = out.len() - 1;
            if call(&envelope, &mut out[..lent], &mut result) != 0 {
                continue;
            }
            let written = &out[..lent.min(result[0] as usize)];
            let told = tells(written, &header, &envelope);
            assert_eq!(told.is_ok(), *written == lines, "{name}: {told:?}");
            others += u32::from(told.is_err());
        }
    }
    assert!(others > 5_000, "{others} other listings");
}

#[test]
fn no_name_stands_twice() {
    let mut names: Vec<_> = wrong().map(|(name, _)| name).collect();
    names.sort_unstable();
    names.dedup();
    assert_eq!(names.len(), wrong().count());
}
