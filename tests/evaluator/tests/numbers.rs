//! Numbers of any length: their values, and what the readers answer for them, by
//! a comparison of the digits as text.

use evaluator::long_numbers::{long_cycle_text, long_rules_text, wrapping, MOST_DIGITS};
use evaluator::natural::Natural;
use evaluator::random::Random;
use evaluator::{read_cycle, read_rules, Refusal};

#[test]
fn values_of_64_bits() {
    let mut random = Random::new(41);
    for _ in 0..20_000 {
        let value = random.bits() >> random.below(64);
        let number = Natural::of_decimal(value.to_string().as_bytes());
        assert_eq!(number.small(), Some(value));
        assert_eq!(number.decimal(), value.to_string().into_bytes());
    }
    for beyond in ["18446744073709551616", "99999999999999999999"] {
        assert_eq!(Natural::of_decimal(beyond.as_bytes()).small(), None);
    }
}

#[test]
fn digits_of_every_length_are_written_as_they_were_read() {
    let mut random = Random::new(42);
    for length in (1..200).chain([999, 1000, 1001, MOST_DIGITS]) {
        let mut digits: Vec<u8> = (0..length).map(|_| random.pick(b"0123456789")).collect();
        digits[0] = random.pick(b"123456789");
        assert_eq!(Natural::of_decimal(&digits).decimal(), digits);
    }
}

/// Digits without a zero before them are at most `end` if they are fewer, or as
/// many and not later in the alphabet.
fn at_most(digits: &str, end: &str) -> bool {
    digits.len() < end.len() || digits.len() == end.len() && digits <= end
}

/// What a cycle text answers for a time and for a reading.
fn answers(time: &str, reading: &str) -> [Option<Refusal>; 2] {
    let time = format!("{time}\t1\t-\t-\t-\t-\n");
    let reading = format!("0\t1\t-\t-\t{reading}\t-\n");
    [time, reading].map(|text| read_cycle(text.as_bytes()).err())
}

#[test]
fn every_length_by_a_comparison_of_the_digits() {
    let mut random = Random::new(43);
    let outside = |inside: bool| (!inside).then_some(Refusal::at(3, 1));
    for length in (1..40).chain((40..=MOST_DIGITS).step_by(31)) {
        let mut digits = random
            .pick(&["4294967295", "2147483648", "1", "9"])
            .to_string();
        digits.truncate(length);
        while digits.len() < length {
            digits.push(char::from(random.pick(b"0123456789")));
        }
        let expected = [
            at_most(&digits, "4294967295"),
            at_most(&digits, "2147483647"),
        ];
        assert_eq!(answers(&digits, &digits), expected.map(outside), "{digits}");
        let negative = format!("-{digits}");
        let malformed = Some(Refusal::at(2, 1));
        let below = outside(at_most(&digits, "2147483648"));
        assert_eq!(answers(&negative, &negative), [malformed, below]);
    }
}

/// What counters that wrap make of the digits.
fn wrapped(digits: &str) -> (u32, u64) {
    let narrow = |v: u32, b: u8| v.wrapping_mul(10).wrapping_add((b - b'0').into());
    let wide = |v: u64, b: u8| v.wrapping_mul(10).wrapping_add((b - b'0').into());
    (digits.bytes().fold(0, narrow), digits.bytes().fold(0, wide))
}

#[test]
fn a_number_that_wraps_is_outside_every_range() {
    let mut random = Random::new(44);
    for low in [0, 1, 500, 2147483647, 4294967295] {
        let mut of_64_bits = 0;
        for _ in 0..100 {
            let number = String::from_utf8(wrapping(&mut random, low)).expect("digits");
            let (narrow, wide) = wrapped(&number);
            assert_eq!(narrow, low);
            of_64_bits += usize::from(wide == low.into());
            assert_eq!(answers(&number, &number), [Some(Refusal::at(3, 1)); 2]);
        }
        assert!(of_64_bits >= 20);
    }
}

#[test]
fn generated_texts_are_accepted_or_refused_for_a_number() {
    let mut random = Random::new(45);
    let (mut accepted, mut refused, mut longest) = (0, 0, 0);
    for _ in 0..2000 {
        let rules = long_rules_text(&mut random);
        let cycle = long_cycle_text(&mut random);
        longest = longest.max(rules.len()).max(cycle.len());
        for answer in [read_rules(&rules).err(), read_cycle(&cycle).err()] {
            match answer.map(|refusal| refusal.number) {
                None => accepted += 1,
                // A number in place of another may make a window empty, two activities
                // equal, a time fall; a comma in it begins another comparison.
                Some(number) => {
                    refused += 1;
                    assert!([2, 3, 4, 6, 7, 16, 17].contains(&number), "{number}");
                }
            }
        }
    }
    assert!(accepted >= 300 && refused >= 2000, "{accepted} {refused}");
    assert!(longest > MOST_DIGITS);
}
