//! All ways in which a few fields can name their parents, by the library and by
//! the reference.

use differential::calls;
use differential::reference::parent_moves;
use differential::writer::{Field, Header, Writer};

/// Compares all headers of so many fields; gives how many are accepted, and the
/// most moves.
fn compare(count: u32) -> (u64, u64) {
    let mut header = Header::default();
    header.fields.items = vec![Field::default(); count as usize];
    let mut writer = Writer::default();
    let (mut accepted, mut most) = (0, 0);
    for mut number in 0..count.pow(count) {
        for field in &mut header.fields.items {
            field.parent = number % count;
            number /= count;
        }
        writer.header(&header);
        let (answer, [moves]) = parent_moves(&writer.bytes);
        let mut result = [!moves, 7];
        let parents = header.fields.items.iter().map(|field| field.parent);
        assert_eq!(
            (calls::parent_moves(&writer.bytes, &mut result), result),
            (answer, [moves, 7]),
            "{:?}",
            parents.collect::<Vec<_>>()
        );
        accepted += u64::from(answer == 0);
        most = most.max(moves);
    }
    (accepted, most)
}

#[test]
fn of_up_to_seven_fields() {
    assert_eq!(compare(0), (1, 0));
    for count in 1..=7 {
        // There are so many forests of fields with a top for each tree.
        let forests = u64::from(count + 1).pow(count - 1);
        assert_eq!(compare(count), (forests, u64::from(count * (count - 1) / 2)));
    }
}
