//! All strings of a length, by the library and by the reference.

use differential::calls::is_utf8;
use differential::reference::envelope::is_string;

/// Compares all strings of `N` bytes whose first byte is one of these.
fn compare<const N: usize>(firsts: std::ops::RangeInclusive<u8>) -> u64 {
    let mut good = 0;
    for first in firsts {
        for rest in 0..1u32 << (8 * (N - 1)) {
            let mut string = [first; N];
            string[1..].copy_from_slice(&rest.to_be_bytes()[5 - N..]);
            let expected = u32::from(is_string(&string));
            assert_eq!(is_utf8(&string), expected, "{string:02X?}");
            good += u64::from(expected);
        }
    }
    good
}

/// As many strings as there are ways to fill the bytes with sequences of one to four bytes.
const SEQUENCES: [u64; 4] = [128, 0x800 - 0x80, 0x1_0000 - 0x800 - 0x800, 0x10_0000];

fn strings(length: usize) -> u64 {
    (1..=length.min(4))
        .map(|first| SEQUENCES[first - 1] * strings(length - first))
        .sum::<u64>()
        + u64::from(length == 0)
}

#[test]
fn of_up_to_three_bytes() {
    assert_eq!(compare::<1>(0..=255), strings(1));
    assert_eq!(compare::<2>(0..=255), strings(2));
    assert_eq!(compare::<3>(0..=255), strings(3));
}

/// 4,294,967,296 strings: `cargo test --release -- --ignored`.
#[test]
#[ignore = "takes about a minute"]
fn of_four_bytes() {
    let halves = [0..=127, 128..=255].map(|half| std::thread::spawn(move || compare::<4>(half)));
    let good: u64 = halves.into_iter().map(|half| half.join().expect("no difference")).sum();
    assert_eq!(good, strings(4));
}
