//! The sum over an ISIN, or a text of any length, letter by letter.

use crate::rng::Rng;
use crate::tally::Check;
use crate::values::{CAPITALS, CAPITALS_AND_DIGITS, DIGITS};

/// Lengths with which a walk over a text might go wrong.
const LENGTHS: [usize; 13] = [
    0, 1, 2, 3, 11, 12, 13, 999, 1_000, 1_001, 10_000, 32_767, 32_768,
];

/// Sums and ISINs with a verdict from outside (python-stdnum 1.18).
pub fn published(check: &mut Check) {
    check.section("sums: texts and ISINs judged elsewhere");
    for line in include_str!("../../../crates/vectors/data/sums.txt").lines() {
        let mut words = line.split(' ').skip(1);
        let due = words.next().and_then(|word| word.parse().ok());
        let text: String = words
            .map(|piece| {
                let (times, piece) = piece.split_once(':').expect("a piece");
                piece.repeat(times.parse().expect("a count"))
            })
            .collect();
        let sum = check.sum(text.as_bytes());
        check.case(Some(sum) == due, || format!("{line} gives {sum}"));
    }
    for line in include_str!("../../../crates/vectors/data/isin.txt").lines() {
        let (isin, verdict) = line.split_once(' ').expect("an ISIN and its verdict");
        let (eleven, digit) = isin.split_at(11);
        let sum = check.sum(eleven.as_bytes());
        let digit: u64 = digit.parse().expect("a digit");
        let is_right = (sum + digit).is_multiple_of(10);
        check.case(is_right == (verdict == "1"), || {
            format!("{line}, and the sum is {sum}")
        });
    }
}

/// Texts of capitals and digits, short ones and some of each length that might go wrong.
pub fn drawn(check: &mut Check, rng: &mut Rng, short: usize, of_each_length: usize) {
    check.section("sums: capitals and digits");
    let alphabets: [&[u8]; 6] = [CAPITALS_AND_DIGITS, CAPITALS, DIGITS, b"Z", b"9", b"Z9"];
    for _ in 0..short {
        let length = rng.within(0..=40);
        let text = rng.text(CAPITALS_AND_DIGITS, length);
        check.sum(&text);
    }
    for length in LENGTHS {
        for _ in 0..of_each_length {
            let alphabet = *rng.pick(&alphabets);
            let text = rng.text(alphabet, length);
            check.sum(&text);
        }
    }
}

/// Every byte by itself, with one before it and with one behind it; and random bytes.
pub fn any_bytes(check: &mut Check, rng: &mut Rng, random: usize) {
    check.section("sums: any bytes");
    for byte in 0..=u8::MAX {
        check.sum(&[byte]);
        for other in 0..=u8::MAX {
            check.sum(&[byte, other]);
        }
    }
    for _ in 0..random {
        let length = rng.within(0..=300);
        let text = rng.bytes(length);
        check.sum(&text);
    }
}
