//! Seeded random texts with numbers of any length: of 1 to 5,000 digits, among
//! them values that a counter of 32 or 64 bits takes for small ones.

use crate::damage::{random_cycle_text, random_rules_text};
use crate::natural::Natural;
use crate::random::Random;

pub const MOST_DIGITS: usize = 5000;

/// Field contents that are in range somewhere, of every length that one may have.
const IN_RANGE: [&str; 12] = [
    "0",
    "1",
    "7",
    "12",
    "64",
    "500",
    "2147483647",
    "4294967295",
    "-1",
    "-64",
    "-2147483647",
    "-2147483648",
];

/// A length from 1 to 5,000, as often below 10 as between 10 and 100, and so on.
fn random_length(random: &mut Random) -> usize {
    let most = random.pick(&[9, 99, 999, MOST_DIGITS]);
    1 + random.below(most)
}

fn random_digits(random: &mut Random, length: usize) -> Vec<u8> {
    let first = random.pick(b"123456789");
    let mut digits = vec![first];
    digits.extend((1..length).map(|_| random.pick(b"0123456789")));
    digits
}

/// A large number that leaves `low` if it is divided by 2^32, or even by 2^64.
pub fn wrapping(random: &mut Random, low: u32) -> Vec<u8> {
    let zeros = random.below(2);
    let words = random.pick(&[1, 1, 2, 4, 16, 64, 500]);
    let mut number = vec![low];
    number.extend(std::iter::repeat_n(0, zeros));
    number.extend((0..words).map(|_| random.bits() as u32));
    number.push(1 + random.below(9) as u32);
    Natural::of_words(number).decimal()
}

/// A number of the form, with or without a sign: of random digits, one that
/// wraps, or one in range with digits after it or without its last ones.
fn long_number(random: &mut Random) -> Vec<u8> {
    let sign = random.pick(&[&b""[..], b"", b"-"]);
    match random.below(6) {
        0 => {
            let length = random_length(random);
            [sign, &random_digits(random, length)].concat()
        }
        1 => {
            let low = random.pick(&[0, 1, 5, 64, 500, 2147483647, 4294967295]);
            [sign, &wrapping(random, low)].concat()
        }
        2 => {
            let known = random.pick(&IN_RANGE).as_bytes();
            let length = random_length(random);
            [known, &random_digits(random, length)].concat()
        }
        _ => {
            let known = random.pick(&IN_RANGE).as_bytes();
            let kept = 1 + random.below(known.len());
            known[..kept].to_vec()
        }
    }
}

/// The number, or the number with a byte that is no digit of it.
fn odd_number(random: &mut Random) -> Vec<u8> {
    let mut number = long_number(random);
    if random.one_in(6) {
        let at = random.below(number.len() + 1);
        number.insert(at, random.pick(b"0-+ .,:@x\x00\xff"));
    }
    number
}

/// A valid text in which one to three numbers are replaced.
fn with_long_numbers(random: &mut Random, text: Vec<u8>) -> Vec<u8> {
    let lines = text.split_inclusive(|byte| *byte == b'\n');
    let mut lines: Vec<Vec<u8>> = lines.map(<[u8]>::to_vec).collect();
    for _ in 0..random.pick(&[1, 1, 2, 3]) {
        let at = random.below(lines.len());
        let content = lines[at].strip_suffix(b"\n").expect("a valid text");
        let fields = content.split(|byte| *byte == b'\t');
        let mut fields: Vec<Vec<u8>> = fields.map(<[u8]>::to_vec).collect();
        let field = random.below(fields.len());
        // The conditions are the last two fields of a rule line, the only one with seven.
        fields[field] = match fields.len() == 7 && field >= 5 {
            true => comparisons(random, field == 6),
            false => odd_number(random),
        };
        lines[at] = [fields.join(&b'\t'), b"\n".to_vec()].concat();
    }
    lines.concat()
}

/// One to six comparisons on any readings; one of them, or each of two, has such
/// a k.
fn comparisons(random: &mut Random, correlation: bool) -> Vec<u8> {
    let count = random.pick(&[1, 1, 2, 2, 4, 5, 6]);
    let odd = random.below(count);
    let mut parts = Vec::new();
    for place in 0..count {
        let reading = random.pick(b"1112234");
        let operator = random.pick(b"=!<l>g");
        let reference = match correlation && random.one_in(2) {
            true => random.pick(&[&b"@1:"[..], b"@4:"]),
            false => b"",
        };
        let k = match place == odd || count == 2 {
            true => odd_number(random),
            false => b"5".to_vec(),
        };
        parts.push([&[reading, operator], reference, &k].concat());
    }
    parts.join(&b',')
}

/// A rules text with long numbers.
pub fn long_rules_text(random: &mut Random) -> Vec<u8> {
    let count = random.pick(&[1, 1, 2, 3, 16]);
    let text = random_rules_text(random, count);
    with_long_numbers(random, text)
}

/// A cycle text with long numbers.
pub fn long_cycle_text(random: &mut Random) -> Vec<u8> {
    let count = random.pick(&[1, 1, 2, 3, 20]);
    let text = random_cycle_text(random, count);
    with_long_numbers(random, text)
}
