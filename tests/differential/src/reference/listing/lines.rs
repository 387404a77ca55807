//! Listings that are known, asked of the reference alone.

use super::super::{list_fields, refusal, ACCEPTED, HEADER};
use crate::compare::listing::tells;
use crate::reference::header;
use crate::writer::{seal, Column, Field, Header, Writer};

fn bytes(header: &Header) -> Vec<u8> {
    let mut writer = Writer::default();
    writer.header(header);
    writer.bytes
}

/// A header of fields by their parents, names and types.
fn fields(fields: &[(u32, &str, &str)]) -> Header {
    let mut header = Header::default();
    header.fields.items = fields
        .iter()
        .map(|&(parent, name, type_name)| Field {
            parent,
            strings: [name, type_name, "other", "text"].map(|text| text.as_bytes().to_vec()),
            ..Default::default()
        })
        .collect();
    header
}

/// A header of fields by their parents alone; the names are "f", the types "t".
fn tree(parents: impl IntoIterator<Item = u32>) -> Header {
    let parents: Vec<_> = parents.into_iter().map(|parent| (parent, "f", "t")).collect();
    fields(&parents)
}

fn unknown(field: u32) -> Column {
    Column {
        column_type: 0x1D,
        bits: 5,
        field,
        ..Default::default()
    }
}

/// The listing in a room that has to be exactly right: with one byte less
/// nothing is written, and what is behind it stays.
fn listed(envelope: &[u8]) -> Result<String, u32> {
    let mut out = vec![0xA5; 2 << 20];
    let (answer, [length]) = list_fields(envelope, &mut out);
    if answer != ACCEPTED {
        assert_eq!(length, 0);
        assert!(out.iter().all(|&byte| byte == 0xA5));
        return Err(answer);
    }
    let length = length as usize;
    assert!(out[length..].iter().all(|&byte| byte == 0xA5));
    let mut exact = vec![0xA5; length];
    assert_eq!(list_fields(envelope, &mut exact), (ACCEPTED, [length as u64]));
    assert_eq!(exact, out[..length]);
    if length > 0 {
        let mut short = vec![0xA5; length - 1];
        assert_eq!(list_fields(envelope, &mut short), (refusal(HEADER, 20), [0]));
        assert!(short.iter().all(|&byte| byte == 0xA5));
    }
    let header = header::read(envelope).expect("a header");
    tells(&exact, &header, envelope).expect("the fields");
    Ok(String::from_utf8(exact).expect("UTF-8"))
}

fn of(header: &Header) -> String {
    listed(&bytes(header)).expect("a listing")
}

/// The numbers of the fields, line by line.
fn order(header: &Header) -> Vec<u32> {
    let number = |line: &str| line.trim_start().split(' ').next().map(str::parse);
    of(header).lines().map(|line| number(line).unwrap().unwrap()).collect()
}

#[test]
fn the_request_has_this_one() {
    assert_eq!(
        of(&fields(&[(0, "v", "vec"), (0, "_0", "float")])),
        "0 v vec\n  1 _0 float\n"
    );
}

#[test]
fn few_fields() {
    assert_eq!(of(&Header::default()), "");
    assert_eq!(of(&fields(&[(0, "", "")])), "0  \n");
    assert_eq!(of(&fields(&[(1, "a", "b"), (1, "c", "d")])), "1 c d\n  0 a b\n");
    assert_eq!(order(&tree([0, 1, 0, 1])), [0, 2, 1, 3]);
    assert_eq!(order(&tree([3, 3, 1, 3])), [3, 0, 1, 2]);
    assert_eq!(order(&tree([4, 4, 0, 0, 4, 1])), [4, 0, 2, 3, 1, 5]);
    // Numbers rise as numbers, not as text.
    let below_the_last: Vec<u32> = (0..12).map(|_| 11).collect();
    assert_eq!(order(&tree(below_the_last)), [11, 0, 1, 2, 3, 4, 5, 6, 7, 8, 9, 10]);
    assert_eq!(of(&tree([1, 2, 3, 3])), "3 f t\n  2 f t\n    1 f t\n      0 f t\n");
}

#[test]
fn dark_fields() {
    let mut header = tree([0, 0, 1, 3, 1]);
    header.columns.items = vec![unknown(2)];
    assert_eq!(
        of(&header),
        "0 f t dark\n  1 f t dark\n    2 f t dark\n    4 f t\n3 f t\n"
    );
    header.columns.items = vec![unknown(3), unknown(1)];
    assert_eq!(
        of(&header),
        "0 f t dark\n  1 f t dark\n    2 f t\n    4 f t\n3 f t dark\n"
    );
}

#[test]
fn bytes_that_are_not_printed() {
    for byte in 0..128u8 {
        let text = String::from(char::from(byte));
        let shown = if byte < 32 || byte == 127 { "?" } else { &text };
        let header = fields(&[(0, &text, &format!("{text}{text}x"))]);
        assert_eq!(of(&header), format!("0 {shown} {shown}{shown}x\n"));
    }
    for text in [
        "\u{80}",
        "ä\u{7F}",
        "\u{7FF}",
        "\u{800}\n",
        "検",
        "\u{FFFF}",
        "\u{10000}",
        "\u{10FFFF}\0",
    ] {
        let shown = text.replace(['\0', '\n', '\u{7F}'], "?");
        assert_eq!(of(&fields(&[(0, text, text)])), format!("0 {shown} {shown}\n"));
    }
    assert_eq!(of(&fields(&[(0, "a\n  1 b", "")])), "0 a?  1 b \n");
}

#[test]
fn as_deep_and_as_wide_as_there_may_be() {
    let deep: String = (0..512).map(|i| format!("{}{i} f t\n", "  ".repeat(i))).collect();
    assert_eq!(of(&tree((0..512u32).map(|i| i.saturating_sub(1)))), deep);
    let deep: String = (0..512)
        .map(|i| format!("{}{} f t\n", "  ".repeat(i), 511 - i))
        .collect();
    assert_eq!(of(&tree((0..512u32).map(|i| (i + 1).min(511)))), deep);
    let wide: String = (1..512).map(|i| format!("  {i} f t\n")).collect();
    assert_eq!(of(&tree([0; 512])), format!("0 f t\n{wide}"));
    let tops: String = (0..512).map(|i| format!("{i} f t\n")).collect();
    assert_eq!(of(&tree(0..512)), tops);
}

#[test]
fn refusals() {
    let refused = |number| Err(refusal(HEADER, number));
    assert_eq!(listed(&[]), refused(2));
    assert_eq!(listed(&vec![0; 1_048_577]), refused(1));
    assert_eq!(listed(&bytes(&tree([1, 0]))), refused(15));
    assert_eq!(listed(&bytes(&tree([1]))), refused(14));
    assert_eq!(listed(&bytes(&tree([0; 513]))), refused(10));
    let mut damaged = bytes(&tree([0]));
    damaged[4] ^= 1;
    assert_eq!(listed(&damaged), refused(3));
    seal(&mut damaged);
    assert_eq!(listed(&damaged), refused(6));
    // They come before a room that is too small.
    assert_eq!(list_fields(&bytes(&tree([1, 0])), &mut []), (refusal(HEADER, 15), [0]));
    assert_eq!(list_fields(&bytes(&tree([0])), &mut []), (refusal(HEADER, 20), [0]));
}

/// The examples, and what is written about one of them.
#[test]
fn examples() {
    let fields = "0 energy float\n1 hits std::vector<std::int32_t>\n  2 _0 std::int32_t\n\
                  3 position std::array<double,3>\n4 e float\n";
    for header in [
        &include_bytes!("../../../../../examples/fields.header")[..],
        include_bytes!("../../../../../examples/newer.header"),
    ] {
        assert_eq!(listed(header).as_deref(), Ok(fields));
    }
    let tree = listed(include_bytes!("../../../../../examples/tree.header")).expect("a listing");
    let shown: String = tree.lines().map(|line| format!("    {line}\n")).collect();
    assert!(include_str!("../../../../../examples/README.md").contains(&format!("\n\n{shown}\n")));
}
