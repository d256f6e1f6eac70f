//! The readers of the two texts and the notebook reading. `probe` is needed with
//! the commands R, Y and N.

use differential::cases::texts::{cycle_case, cycle_text_case, fifth_texts, long_case};
use differential::cases::texts::{misfit_texts, pair_case, pair_text_case};
use differential::cases::texts::{rules_case, rules_text_case};
use differential::command::LARGEST_TEXT;
use differential::compare::agree;
use differential::probe::Probe;
use evaluator::damage::{EDGE_FIELDS, ODD_COMPARISONS};
use evaluator::listing::{CYCLE, RULES};
use evaluator::long_numbers::{wrapping, MOST_DIGITS};
use evaluator::random::Random;

#[test]
fn random_rules_texts() {
    let counts = agree(&Probe::find(), (7_000_000..7_015_000).map(rules_case));
    assert_eq!(counts.calls('R'), 15_000);
    assert_eq!(counts.numbers('R'), [0, 1, 2, 3, 4, 6, 8, 12, 16, 17]);
    for number in counts.numbers('R') {
        let found = counts.answered('R', number);
        assert!(found >= 25, "{number}: {found}");
    }
    assert!(counts.answered('R', 17) >= 500, "{counts}");
    assert_eq!(counts.answered('R', 5), 0);
    assert!(5 * counts.bands >= 2 * counts.conditions, "{counts}");
    assert!(counts.dumps('D') > counts.answered('R', 0) + 300);
}

#[test]
fn random_cycle_texts() {
    let counts = agree(&Probe::find(), (7_100_000..7_110_000).map(cycle_case));
    assert_eq!(counts.calls('Y'), 10_000);
    assert_eq!(counts.numbers('Y'), [0, 1, 2, 3, 7, 8, 12]);
    for number in counts.numbers('Y') {
        let found = counts.answered('Y', number);
        assert!(found >= 25, "{number}: {found}");
    }
    assert!(counts.dumps('D') > counts.answered('Y', 0) + 200);
}

#[test]
fn random_pairs_of_texts() {
    let counts = agree(&Probe::find(), (7_200_000..7_205_000).map(pair_case));
    assert_eq!(counts.calls('N'), 5000);
    assert_eq!(counts.numbers('N'), [0, 1, 2, 3, 4, 6, 7, 8, 12, 16, 17]);
    assert!(counts.answered('N', 0) >= 2000);
    assert!(counts.dumps('D') > counts.answered('N', 0) + 50);
    assert!(counts.standings() >= 20_000);
}

#[test]
fn texts_with_long_numbers() {
    let counts = agree(&Probe::find(), (7_300_000..7_309_000).map(long_case));
    for letter in ['R', 'Y', 'N'] {
        assert_eq!(counts.calls(letter), 3000);
        for number in [0, 2, 3] {
            let found = counts.answered(letter, number);
            assert!(found >= 50, "{letter}, {number}: {found}");
        }
    }
}

/// Texts with `number` in each field that holds one.
fn with_number(number: &str) -> [Vec<String>; 2] {
    let rule = ["2", "1", "2", "0", "-", "1=5", "1=@1:0"];
    let event = ["0", "1", "-", "-", "-", "-"];
    let k = [format!("1={number}"), format!("1=@1:{number}")];
    let line = |fields: &[&str], at: usize, field: &str| {
        let mut fields = fields.to_vec();
        fields[at] = field;
        fields.join("\t") + "\n"
    };
    let numbers = (0..5).map(|at| line(&rule, at, number));
    let constants = (5..7).zip(&k).map(|(at, k)| line(&rule, at, k));
    let events = (0..6).map(|at| line(&event, at, number));
    [numbers.chain(constants).collect(), events.collect()]
}

/// Compares these texts, and answers how often each was accepted.
fn agree_on(texts: [Vec<String>; 2]) -> [usize; 2] {
    let probe = Probe::find();
    let [rules, cycles] = texts.map(|texts| (0..).zip(texts));
    let rules = rules.map(|(seed, text)| rules_text_case(seed, text.into_bytes()));
    let cycles = cycles.map(|(seed, text)| cycle_text_case(seed, text.into_bytes()));
    let (rules, cycles) = (agree(&probe, rules), agree(&probe, cycles));
    [rules.answered('R', 0), cycles.answered('Y', 0)]
}

/// A number of 5,000 digits, and each number with which it begins: the last ones in
/// range are 4 for a code, 42 for an activity, 4294967295 for a time, a and b, and
/// 429496729 for k and readings.
#[test]
fn every_beginning_of_a_long_number() {
    let digits = "4294967295".to_string() + &"90817263540".repeat(MOST_DIGITS / 11);
    let lengths = (1..=40).chain((41..MOST_DIGITS).step_by(40));
    let lengths = lengths.chain([MOST_DIGITS]);
    for sign in ["", "-"] {
        let mut texts = [Vec::new(), Vec::new()];
        for length in lengths.clone() {
            let [rules, cycles] = with_number(&format!("{sign}{}", &digits[..length]));
            texts[0].extend(rules);
            texts[1].extend(cycles);
        }
        let accepted = match sign {
            "" => [1 + 2 * 2 + 2 * 10 + 2 * 9, 10 + 2 + 4 * 9],
            _ => [2 * 9, 4 * 9],
        };
        assert_eq!(agree_on(texts), accepted);
    }
}

/// Numbers that 32 or 64 bits take for one in range, in every field.
#[test]
fn numbers_that_wrap() {
    let random = &mut Random::new(7);
    let mut texts = [Vec::new(), Vec::new()];
    for low in [0, 1, 5, 64, 2147483647, 4294967295] {
        for _ in 0..40 {
            let number = String::from_utf8(wrapping(random, low)).expect("digits");
            for number in [format!("-{number}"), number] {
                let [rules, cycles] = with_number(&number);
                texts[0].extend(rules);
                texts[1].extend(cycles);
            }
        }
    }
    assert_eq!(agree_on(texts), [0, 0]);
}

/// 16 after the fields and 6, before 8, with its line.
#[test]
fn rules_that_do_not_fit_their_template() {
    let texts = misfit_texts();
    let number = texts.len();
    let cases = (1..).zip(texts);
    let cases = cases.map(|(number, text)| rules_text_case(number, text));
    let counts = agree(&Probe::find(), cases);
    assert_eq!(counts.calls('R'), number);
    assert_eq!(counts.numbers('R'), [0, 3, 4, 6, 8, 16, 17]);
    // Of the first lines alone: 8 for each code from 12 to 16; a correlation under
    // 13 and 14, that or equal activities under 15 and 16.
    let found = [6, 16].map(|answer| counts.answered('R', answer));
    assert!(found[0] >= 5 * 8 && found[1] >= 2 * 4 + 2 * 6, "{found:?}");
}

/// 17 with its line: after the 4 and 3 of the first five comparisons, before those
/// of a sixth and of the second condition, before 6, 16 and 8.
#[test]
fn conditions_of_more_than_four_comparisons() {
    let texts = fifth_texts();
    let number = texts.len();
    let cases = (1..).zip(texts);
    let cases = cases.map(|(number, text)| rules_text_case(number, text));
    let counts = agree(&Probe::find(), cases);
    assert_eq!(counts.calls('R'), number);
    assert_eq!(counts.numbers('R'), [0, 3, 4, 6, 8, 16, 17]);
    for number in [0, 3, 4, 6, 8, 16, 17] {
        let found = counts.answered('R', number);
        assert!(
            found >= if number == 17 { 400 } else { 1 },
            "{number}: {found}"
        );
    }
}

/// The text with every byte in place of each of its bytes, with each byte left
/// out, and with bytes of a meaning put in.
fn byte_changes(text: &str) -> Vec<Vec<u8>> {
    let text = text.as_bytes();
    let mut texts = Vec::new();
    for at in 0..text.len() {
        let (before, after) = text.split_at(at);
        let with = |byte: &[u8], after: &[u8]| [before, byte, after].concat();
        texts.extend((0..=255).map(|byte| with(&[byte], &after[1..])));
        texts.push(with(&[], &after[1..]));
        let meaning = b"0159-,@:=\t\n\r";
        texts.extend(meaning.iter().map(|byte| with(&[*byte], after)));
    }
    texts
}

#[test]
fn every_change_of_one_byte_in_rules() {
    let text = "12\t64\t1\t30\t50\t1!-7,2l0\t3g@4:10\n2\t1\t2\t0\t4294967295\t-\t-\n\
        16\t1\t2\t7\t-\t1g0\t-\n";
    let texts = byte_changes(text);
    let number = texts.len();
    let cases = (0..).zip(texts);
    let cases = cases.map(|(number, text)| rules_text_case(number, text));
    let counts = agree(&Probe::find(), cases);
    assert_eq!([counts.calls('R'), number], [text.len() * 269; 2]);
    assert_eq!(counts.numbers('R'), [0, 1, 2, 3, 4, 6, 12, 16]);
}

/// A byte less or another one does not make four of them.
#[test]
fn every_change_of_one_byte_in_five_comparisons() {
    let text = "2\t1\t2\t0\t9\t1>5,1<7,1!6,2=0,3=1\t-\n";
    let cases = (0..).zip(byte_changes(text));
    let cases = cases.map(|(number, text)| rules_text_case(number, text));
    let counts = agree(&Probe::find(), cases);
    assert_eq!(counts.calls('R'), text.len() * 269);
    assert_eq!(counts.numbers('R'), [1, 2, 3, 4, 12, 17]);
}

#[test]
fn every_change_of_one_byte_in_a_cycle() {
    let text = "4294967294\t64\t-2147483648\t-\t0\t10\n4294967295\t1\t-\t-\t-\t-\n";
    let texts = byte_changes(text);
    let number = texts.len();
    let cases = (0..).zip(texts);
    let cases = cases.map(|(number, text)| cycle_text_case(number, text));
    let counts = agree(&Probe::find(), cases);
    assert_eq!([counts.calls('Y'), number], [text.len() * 269; 2]);
    assert_eq!(counts.numbers('Y'), [0, 1, 2, 3, 7, 12]);
}

/// The line with each edge value in place of each field.
fn field_changes(line: &str) -> Vec<Vec<u8>> {
    let fields: Vec<&str> = line.trim_end().split('\t').collect();
    let mut texts = Vec::new();
    for at in 0..fields.len() {
        for edge in EDGE_FIELDS {
            let mut changed = fields.clone();
            changed[at] = edge;
            texts.push((changed.join("\t") + "\n").into_bytes());
        }
    }
    texts
}

/// A rule with each odd comparison alone, first or last in either condition.
fn comparison_changes() -> Vec<Vec<u8>> {
    let mut texts = Vec::new();
    for odd in ODD_COMPARISONS {
        for condition in [odd.to_string(), format!("{odd},4=0"), format!("3=0,{odd}")] {
            texts.push(format!("2\t1\t2\t0\t-\t{condition}\t-\n").into_bytes());
            texts.push(format!("2\t1\t2\t0\t-\t-\t{condition}\n").into_bytes());
        }
    }
    texts
}

#[test]
fn edge_values_in_every_field() {
    let probe = Probe::find();
    let rules = [
        field_changes("2\t1\t2\t3\t500\t-\t-\n"),
        field_changes("2\t1\t2\t3\t-\t1=1\t1=@1:0\n"),
        field_changes("15\t1\t4\t3\t500\t1=1\t-\n"),
        comparison_changes(),
    ]
    .concat();
    let number = rules.len();
    let cases = (0..).zip(rules);
    let counts = agree(&probe, cases.map(|(n, text)| rules_text_case(n, text)));
    assert_eq!(counts.calls('R'), number);
    assert_eq!(number, 3 * 7 * 32 + 48 * 6);
    assert!(counts.answered('R', 0) >= 80);
    let cycles = field_changes("5\t1\t0\t-\t-\t-\n");
    let cases = (0..).zip(cycles);
    let counts = agree(&probe, cases.map(|(n, text)| cycle_text_case(n, text)));
    assert_eq!(counts.calls('Y'), 6 * 32);
    assert!(counts.answered('Y', 0) >= 40);
}

/// Texts of the largest size, of one line and of many.
fn large_texts() -> Vec<Vec<u8>> {
    let digits = |sign: &str, count| format!("0\t1\t-\t-\t-\t{sign}{}\n", "9".repeat(count));
    let rule = |count| format!("2\t1\t2\t0\t-\t-\t1=@1:{}\n", "9".repeat(count));
    let mut texts = vec![
        vec![b'\n'; LARGEST_TEXT],
        vec![b'\t'; LARGEST_TEXT],
        vec![b'0'; LARGEST_TEXT],
        vec![b','; LARGEST_TEXT],
        CYCLE.repeat(50).into_bytes(),
        RULES.repeat(1000).into_bytes(),
        "0\t9\t-\t-\t-\t-\n".repeat(5000).into_bytes(),
        digits("", LARGEST_TEXT - 13).into_bytes(),
        digits("-", LARGEST_TEXT - 14).into_bytes(),
        rule(LARGEST_TEXT - 20).into_bytes(),
    ];
    for count in [9, 10, 11, 19, 20, 21, 38, 39, 40, 255, 256, 257] {
        texts.push(digits("", count).into_bytes());
        texts.push(digits("-", count).into_bytes());
        texts.push(rule(count).into_bytes());
    }
    texts
}

#[test]
fn large_and_small_texts() {
    let probe = Probe::find();
    let small = ["", "\n", "\t", "-", "x", "\n\n", "\r\n", RULES, CYCLE];
    let small = small.map(|text| text.as_bytes().to_vec());
    let texts = [large_texts(), small.to_vec()].concat();
    assert!(texts.iter().any(|text| text.len() == LARGEST_TEXT));
    let number = texts.len();
    let rules = (0..).zip(texts.clone());
    let counts = agree(&probe, rules.map(|(n, text)| rules_text_case(n, text)));
    assert_eq!(counts.calls('R'), number);
    let cycles = (0..).zip(texts.clone());
    let counts = agree(&probe, cycles.map(|(n, text)| cycle_text_case(n, text)));
    assert_eq!(counts.calls('Y'), number);
    let mut pairs = Vec::new();
    for (index, text) in (0..).zip(&texts) {
        pairs.push(pair_text_case(3 * index, text.clone(), Vec::new()));
        pairs.push(pair_text_case(3 * index + 1, Vec::new(), text.clone()));
        let rules = RULES.as_bytes().to_vec();
        pairs.push(pair_text_case(3 * index + 2, rules, text.clone()));
    }
    let counts = agree(&probe, pairs);
    assert_eq!(counts.calls('N'), 3 * number);
    assert!(counts.answered('N', 0) >= 6);
}
