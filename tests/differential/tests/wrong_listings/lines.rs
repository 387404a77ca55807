//! Listings with other lines: which fields, in which order, and what their lines say.

use super::{hidden, listing, styled, tops, Style, Tree, RIGHT};
use differential::compare::ListCall;
use differential::reference::header::Field;

fn reversed(mut numbers: Vec<usize>) -> Vec<usize> {
    numbers.reverse();
    numbers
}

fn kept(mut numbers: Vec<usize>, keep: impl Fn(usize) -> bool) -> Vec<usize> {
    numbers.retain(|&number| keep(number));
    numbers
}

fn by<K: Ord>(mut numbers: Vec<usize>, key: impl FnMut(&usize) -> K) -> Vec<usize> {
    numbers.sort_by_key(key);
    numbers
}

/// Level by level.
fn breadth_first(tree: &Tree) -> Vec<u8> {
    let mut lines = Vec::new();
    let mut level = 0;
    let mut now = tops(tree.fields());
    while !now.is_empty() {
        for &number in &now {
            RIGHT.line(tree, number, level, &mut lines);
        }
        now = now.iter().flat_map(|&number| tree.children(number)).collect();
        level += 1;
    }
    lines
}

fn level(fields: &[Field], number: usize) -> usize {
    let mut at = number;
    let mut level = 0;
    while fields[at].parent as usize != at {
        at = fields[at].parent as usize;
        level += 1;
    }
    level
}

/// Each field in the order of the list, at its own level.
fn in_list_order(tree: &Tree) -> Vec<u8> {
    let mut lines = Vec::new();
    for number in 0..tree.fields().len() {
        RIGHT.line(tree, number, level(tree.fields(), number), &mut lines);
    }
    lines
}

/// One of the lines stands a second time right after itself.
fn twice(tree: &Tree, which: impl FnOnce(&[Vec<u8>]) -> Option<usize>) -> Vec<u8> {
    let lines = RIGHT.listing(tree);
    let mut lines: Vec<Vec<u8>> = lines
        .split_inclusive(|&byte| byte == b'\n')
        .map(<[u8]>::to_vec)
        .collect();
    if let Some(which) = which(&lines) {
        lines.insert(which, lines[which].clone());
    }
    lines.concat()
}

macro_rules! style {
    ($($part:ident: $other:expr),* $(,)?) => {
        |header, out, result| styled((header, out, result), Style { $($part: $other,)* ..RIGHT })
    };
}

pub const WRONG: &[(&str, ListCall)] = &[
    // Which fields, and in which order.
    ("nothing is listed", |h, o, r| listing((h, o, r), |_| Vec::new())),
    ("the first field alone", |h, o, r| {
        listing((h, o, r), |tree| {
            let mut lines = Vec::new();
            if let Some(&top) = tops(tree.fields()).first() {
                RIGHT.line(tree, top, 0, &mut lines);
            }
            lines
        })
    }),
    ("tops alone", style! { deepest: 0 }),
    ("one level below the tops", style! { deepest: 1 }),
    ("a chain cut after 8 levels", style! { deepest: 7 }),
    ("a chain cut after 64 levels", style! { deepest: 63 }),
    ("a chain cut after 255 levels", style! { deepest: 254 }),
    ("a chain cut after 256 levels", style! { deepest: 255 }),
    ("a chain cut after 511 levels", style! { deepest: 510 }),
    ("a child is listed twice", |h, o, r| {
        listing((h, o, r), |tree| {
            twice(tree, |lines| lines.iter().position(|line| line[0] == b' '))
        })
    }),
    ("the last child is listed twice", |h, o, r| {
        listing((h, o, r), |tree| {
            twice(tree, |lines| lines.iter().rposition(|line| line[0] == b' '))
        })
    }),
    ("a top is listed twice", |h, o, r| {
        listing((h, o, r), |tree| {
            twice(tree, |lines| lines.iter().rposition(|line| line[0] != b' '))
        })
    }),
    (
        "the first child is left out",
        style! {
            children: |tree, parent| tree.children(parent).into_iter().skip(1).collect()
        },
    ),
    (
        "the last child is left out",
        style! {
            children: |tree, parent| {
                let mut children = tree.children(parent);
                children.pop();
                children
            }
        },
    ),
    (
        "510 children at most",
        style! {
            children: |tree, parent| tree.children(parent).into_iter().take(510).collect()
        },
    ),
    (
        "the last field is left out",
        style! {
            tops: |fields| kept(tops(fields), |top| top + 1 < fields.len()),
            children: |tree, parent| kept(tree.children(parent), |child| child + 1 < tree.fields().len())
        },
    ),
    (
        "256 fields",
        style! {
            tops: |fields| tops(&fields[..fields.len().min(256)]),
            children: |tree, parent| kept(tree.children(parent), |child| child < 256)
        },
    ),
    (
        "children with falling numbers",
        style! { children: |tree, parent| reversed(tree.children(parent)) },
    ),
    (
        "tops with falling numbers",
        style! { tops: |fields| reversed(tops(fields)) },
    ),
    (
        "the first top last",
        style! {
            tops: |fields| {
                let mut tops = tops(fields);
                let first = tops.len().min(1);
                tops.rotate_left(first);
                tops
            }
        },
    ),
    (
        "children by their names",
        style! {
            children: |tree, parent| {
                by(tree.children(parent), |&child| tree.text(tree.fields()[child].name).to_vec())
            }
        },
    ),
    (
        "children by their numbers as text",
        style! {
            children: |tree, parent| by(tree.children(parent), usize::to_string)
        },
    ),
    (
        "tops by their numbers as text",
        style! { tops: |fields| by(tops(fields), usize::to_string) },
    ),
    (
        "children without children first",
        style! {
            children: |tree, parent| by(tree.children(parent), |&child| !tree.children(child).is_empty())
        },
    ),
    (
        "dark children last",
        style! {
            children: |tree, parent| by(tree.children(parent), |&child| tree.fields()[child].dark)
        },
    ),
    ("children before their parent", style! { first: false }),
    ("tops last", |h, o, r| {
        listing((h, o, r), |tree| {
            let mut lines = Vec::new();
            for top in tops(tree.fields()) {
                tree.children(top)
                    .iter()
                    .for_each(|&child| RIGHT.field(tree, child, 1, &mut lines));
            }
            tops(tree.fields())
                .iter()
                .for_each(|&top| RIGHT.line(tree, top, 0, &mut lines));
            lines
        })
    }),
    ("tops first, then all else", |h, o, r| {
        listing((h, o, r), |tree| {
            let mut lines = Vec::new();
            tops(tree.fields())
                .iter()
                .for_each(|&top| RIGHT.line(tree, top, 0, &mut lines));
            for top in tops(tree.fields()) {
                tree.children(top)
                    .iter()
                    .for_each(|&child| RIGHT.field(tree, child, 1, &mut lines));
            }
            lines
        })
    }),
    ("breadth first", |h, o, r| listing((h, o, r), breadth_first)),
    ("in the order of the list", |h, o, r| listing((h, o, r), in_list_order)),
    (
        "parents come earlier",
        style! { children: |tree, parent| kept(tree.children(parent), |child| child > parent) },
    ),
    (
        "parents come later",
        style! {
            children: |tree, parent| kept(tree.children(parent), |child| child < parent)
        },
    ),
    (
        "alias fields are left out",
        style! {
            children: |tree, parent| kept(tree.children(parent), |child| tree.fields()[child].flags & 2 == 0)
        },
    ),
    (
        "dark fields are left out",
        style! {
            children: |tree, parent| kept(tree.children(parent), |child| !tree.fields()[child].dark)
        },
    ),
    // The line.
    ("one level too deep", style! { spaces: |level| 2 * level + 2 }),
    (
        "no space on the first two levels",
        style! { spaces: |level| 2 * level.saturating_sub(1) },
    ),
    ("one space for a level", style! { spaces: |level| level }),
    ("four spaces for a level", style! { spaces: |level| 4 * level }),
    (
        "ten levels of spaces at most",
        style! { spaces: |level| 2 * level.min(10) },
    ),
    ("spaces in 8 bits", style! { spaces: |level| 2 * level % 256 }),
    (
        "numbers from 1 on",
        style! { number: |number| (number + 1).to_string() },
    ),
    (
        "numbers of three digits",
        style! { number: |number| format!("{number:03}") },
    ),
    (
        "numbers in hexadecimal",
        style! { number: |number| format!("{number:x}") },
    ),
    (
        "two digits at most",
        style! { number: |number| (number % 100).to_string() },
    ),
    (
        "numbers in 8 bits",
        style! { number: |number| (number as u8).to_string() },
    ),
    (
        "no zero within a number",
        style! {
            number: |number| match number {
                0..=99 => number.to_string(),
                _ if number / 10 % 10 == 0 => format!("{}{}", number / 100, number % 10),
                _ => number.to_string(),
            }
        },
    ),
    ("two spaces between", style! { between: "  " }),
    ("tabs between", style! { between: "\t" }),
    ("nothing between", style! { between: "" }),
    ("no space before an empty type", |h, o, r| {
        listing((h, o, r), |tree| {
            let lines = RIGHT.listing(tree);
            let lines = lines.split_inclusive(|&byte| byte == b'\n');
            let trimmed = lines.map(|line| match line.strip_suffix(b" \n") {
                Some(line) => [line, b"\n"].concat(),
                None => line.to_vec(),
            });
            trimmed.collect::<Vec<_>>().concat()
        })
    }),
    (
        "the type before the name",
        style! {
            name: RIGHT.type_name,
            type_name: RIGHT.name
        },
    ),
    (
        "the type alias for the type",
        style! { type_name: |tree, field| tree.shown(field.type_alias, hidden) },
    ),
    (
        "the type alias where there is one",
        style! {
            type_name: |tree, field| match field.type_alias.length {
                0 => tree.shown(field.type_name, hidden),
                _ => tree.shown(field.type_alias, hidden),
            }
        },
    ),
    (
        "the description for the name",
        style! { name: |tree, field| tree.shown(field.description, hidden) },
    ),
    ("the name twice", style! { type_name: RIGHT.name }),
    (
        "255 bytes of a name",
        style! {
            name: |tree, field| {
                let mut name = tree.shown(field.name, hidden);
                name.truncate(255);
                name
            }
        },
    ),
    (
        "65,535 bytes of a type",
        style! {
            type_name: |tree, field| {
                let mut name = tree.shown(field.type_name, hidden);
                name.truncate(65_535);
                name
            }
        },
    ),
    (
        "a name up to its first byte 0",
        style! {
            name: |tree, field| {
                let name = tree.text(field.name).split(|&byte| byte == 0).next().unwrap_or_default().to_vec();
                name.into_iter().map(|byte| if hidden(byte) { b'?' } else { byte }).collect()
            }
        },
    ),
    ("dark marks are dropped", style! { mark: |_, _, _| "" }),
    ("every field is dark", style! { mark: |_, _, _| " dark" }),
    (
        "the others are dark",
        style! {
            mark: |tree, number, _| if tree.fields()[number].dark { "" } else { " dark" }
        },
    ),
    (
        "darkness does not rise",
        style! {
            mark: |tree, number, _| if tree.unknown(number) { " dark" } else { "" }
        },
    ),
    (
        "darkness rises by one level",
        style! {
            mark: |tree, number, _| {
                let dark = tree.unknown(number) || tree.children(number).iter().any(|&child| tree.unknown(child));
                if dark { " dark" } else { "" }
            }
        },
    ),
    (
        "darkness sinks",
        style! {
            mark: |tree, number, _| {
                let fields = tree.fields();
                if fields[number].dark || fields[fields[number].parent as usize].dark { " dark" } else { "" }
            }
        },
    ),
    (
        "tops are not dark",
        style! {
            mark: |tree, number, level| if tree.fields()[number].dark && level > 0 { " dark" } else { "" }
        },
    ),
    (
        "dark above level 100 alone",
        style! {
            mark: |tree, number, level| if tree.fields()[number].dark && level < 100 { " dark" } else { "" }
        },
    ),
    (
        "dark without its space",
        style! {
            mark: |tree, number, _| if tree.fields()[number].dark { "dark" } else { "" }
        },
    ),
    (
        "dark in capitals",
        style! {
            mark: |tree, number, _| if tree.fields()[number].dark { " DARK" } else { "" }
        },
    ),
    (
        "dark and a space",
        style! {
            mark: |tree, number, _| if tree.fields()[number].dark { " dark " } else { "" }
        },
    ),
    ("no line ends", style! { end: "" }),
    ("the line ends of another system", style! { end: "\r\n" }),
    ("a byte 0 ends a line", style! { end: "\0" }),
    ("an empty line after each", style! { end: "\n\n" }),
    ("no last line end", |h, o, r| {
        listing((h, o, r), |tree| {
            let mut lines = RIGHT.listing(tree);
            lines.pop();
            lines
        })
    }),
    ("a line end after all", |h, o, r| {
        listing((h, o, r), |tree| [RIGHT.listing(tree), vec![b'\n']].concat())
    }),
    ("a byte 0 after all", |h, o, r| {
        listing((h, o, r), |tree| [RIGHT.listing(tree), vec![0]].concat())
    }),
    // What is not printed as it is.
    (
        "31 is printed",
        style! { name: |tree, field| tree.shown(field.name, |byte| byte < 31 || byte == 127) },
    ),
    (
        "127 is printed",
        style! { name: |tree, field| tree.shown(field.name, |byte| byte < 32) },
    ),
    (
        "31 is printed in a type",
        style! {
            type_name: |tree, field| tree.shown(field.type_name, |byte| byte < 31 || byte == 127)
        },
    ),
    (
        "127 is printed in a type",
        style! { type_name: |tree, field| tree.shown(field.type_name, |byte| byte < 32) },
    ),
    (
        "0 is printed",
        style! { name: |tree, field| tree.shown(field.name, |byte| byte != 0 && hidden(byte)) },
    ),
    (
        "tabs are printed",
        style! { name: |tree, field| tree.shown(field.name, |byte| byte != 9 && hidden(byte)) },
    ),
    (
        "line ends are printed",
        style! { name: |tree, field| tree.shown(field.name, |byte| byte != 10 && hidden(byte)) },
    ),
    (
        "a space is not printed",
        style! { name: |tree, field| tree.shown(field.name, |byte| byte <= 32 || byte == 127) },
    ),
    (
        "126 is not printed",
        style! { name: |tree, field| tree.shown(field.name, |byte| byte == 126 || hidden(byte)) },
    ),
    (
        "? for bytes above 127",
        style! { name: |tree, field| tree.shown(field.name, |byte| !(32..=126).contains(&byte)) },
    ),
    (
        "? for bytes above 127 in a type",
        style! {
            type_name: |tree, field| tree.shown(field.type_name, |byte| !(32..=126).contains(&byte))
        },
    ),
    (
        "? for 128",
        style! { name: |tree, field| tree.shown(field.name, |byte| byte == 128 || hidden(byte)) },
    ),
    (
        "? for 255 less one bit",
        style! { name: |tree, field| tree.shown(field.name, |byte| byte == 0xBF || hidden(byte)) },
    ),
    (
        "? for controls above 127",
        style! {
            name: |tree, field| {
                let name = String::from_utf8(tree.text(field.name).to_vec()).unwrap_or_default();
                name.replace(char::is_control, "?").into_bytes()
            }
        },
    ),
    (
        "what is not printed is left out",
        style! {
            name: |tree, field| tree.text(field.name).iter().copied().filter(|&byte| !hidden(byte)).collect()
        },
    ),
    (
        "a dot for what is not printed",
        style! {
            name: |tree, field| tree.text(field.name).iter().map(|&byte| if hidden(byte) { b'.' } else { byte }).collect()
        },
    ),
    (
        "one ? for all in a row",
        style! {
            name: |tree, field| {
                let mut name = tree.shown(field.name, hidden);
                name.dedup_by(|next, before| *next == b'?' && *before == b'?');
                name
            }
        },
    ),
    (
        "7 bits of each byte",
        style! {
            name: |tree, field| tree.shown(field.name, hidden).iter().map(|byte| byte & 0x7F).collect()
        },
    ),
];
