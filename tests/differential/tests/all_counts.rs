//! All Bit pages of up to two bytes, and every bit of larger ones by itself, by
//! the library and by the reference.

use differential::calls;
use differential::reference::{count_true, refusal, PAGE};

/// Compares a page; gives the answer and the count.
fn compare(elements: u64, page: &[u8]) -> (u32, u64) {
    let (answer, [count]) = count_true(elements, false, page);
    let mut result = [!count, 7];
    assert_eq!(
        (calls::count_true(elements, 0, page, &mut result), result),
        (answer, [count, 7]),
        "{elements} elements in {page:02X?}"
    );
    (answer, count)
}

/// Of all pages with so many elements, how many are accepted, and how many of
/// their elements are true.
fn all(elements: u64) -> (u64, u64) {
    let bytes = elements.div_ceil(8) as usize;
    let (mut accepted, mut ones) = (0, 0);
    for page in 0..1u32 << (8 * bytes) {
        let (answer, count) = compare(elements, &page.to_le_bytes()[..bytes]);
        accepted += u64::from(answer == 0);
        ones += count;
    }
    (accepted, ones)
}

#[test]
fn of_up_to_two_bytes() {
    for elements in 0..=16 {
        // Each element is true in half of the pages that have no unused bits.
        assert_eq!(all(elements), (1 << elements, elements << elements >> 1));
    }
}

/// Pages with one bit set, unused ones too, and with all bits but one.
#[test]
fn of_up_to_600_elements() {
    for elements in 0..=600u64 {
        let bytes = elements.div_ceil(8) as usize;
        for bit in 0..8 * bytes as u64 {
            let (mut one, mut others) = (vec![0; bytes], vec![0xFF; bytes]);
            one[bit as usize / 8] = 1 << (bit % 8);
            others[bit as usize / 8] = !(1 << (bit % 8));
            if elements % 8 != 0 && bit < elements {
                others[bytes - 1] &= (1 << (elements % 8)) - 1;
            }
            let unused = (refusal(PAGE, 24), 0);
            let due = match bit < elements {
                true => [(0, 1), (0, elements - 1)],
                // All unused bits but the only one are none.
                false if elements % 8 == 7 => [unused, (0, elements)],
                false => [unused; 2],
            };
            assert_eq!([compare(elements, &one), compare(elements, &others)], due);
        }
    }
}
