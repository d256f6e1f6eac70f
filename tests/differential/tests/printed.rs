//! What `report` prints for two texts, in a lent buffer. `probe` is needed with
//! the command p.

use differential::cases::printed::{case, text_case, Texts, ENOUGH, ENOUGH_EVERY, LISTED};
use differential::command::{Command, LARGEST_TEXT};
use differential::compare::agree;
use differential::probe::Probe;
use differential::script::{new_table, Case, Session};
use evaluator::listing::{CYCLE, PRINTED, RULES};
use evaluator::stored::stored_texts;
use evaluator::{printed, Refusal};

/// How many of the cases print verdicts, a refusal of the rules and of the cycle,
/// and how many have a text that is too large for a file.
fn kinds(cases: &[Case]) -> [usize; 4] {
    let commands = cases.iter().map(|case| &case.steps);
    let commands = commands.filter_map(|steps| steps.iter().find(|s| s.command.letter() == 'p'));
    let mut kinds = [0; 4];
    for step in commands {
        if let Command::PrintTexts { rules, cycle, .. } = &step.command {
            let text = String::from_utf8(printed(rules, cycle)).expect("ASCII");
            let kind = match text.strip_prefix("refused\t") {
                Some(rest) if rest.starts_with("rules") => 1,
                Some(_) => 2,
                None => 0,
            };
            kinds[kind] += 1;
            kinds[3] += usize::from(rules.len().max(cycle.len()) > 32_768);
        }
    }
    kinds
}

#[test]
fn random_pairs_of_texts() {
    let cases: Vec<Case> = (9_500_000..9_503_000).map(case).collect();
    let found = kinds(&cases);
    assert_eq!(found[..3].iter().sum::<usize>(), 3000);
    assert!(found[..3].iter().all(|count| *count >= 300), "{found:?}");
    assert!(found[3] >= 30, "{found:?}");
    let counts = agree(&Probe::find(), cases);
    assert_eq!(counts.numbers('p'), [0, 15]);
    assert!(counts.answered('p', 0) >= 3000);
    assert!(counts.answered('p', 15) >= 1000);
    // In every sixteenth case one of the run and one of the table.
    assert_eq!(counts.dumps('D'), 2 * 188);
}

/// Compares these texts, each of them in five buffers or six. None prints nothing.
fn agree_on(texts: Vec<Texts>) {
    let number = texts.len();
    let cases = (0..).zip(texts);
    let cases = cases.map(|(number, (rules, cycle))| text_case(number, rules, cycle));
    let counts = agree(&Probe::find(), cases);
    let answers = [0, 15].map(|answer| counts.answered('p', answer));
    let accepted = 3 * number + number.div_ceil(ENOUGH_EVERY);
    assert_eq!(answers, [accepted, 2 * number]);
}

#[test]
fn the_listing() {
    assert_eq!(
        printed(RULES.as_bytes(), CYCLE.as_bytes()),
        PRINTED.as_bytes()
    );
    agree_on(vec![(RULES.into(), CYCLE.into())]);
}

/// The stored texts, if both files are there. What is stored is printed.
#[test]
fn stored_texts_are_printed_as_it_is_stored() {
    let mut texts = Vec::new();
    for stored in stored_texts() {
        if let (Some(rules), Some(cycle)) = (stored.rules, stored.cycle) {
            let found = printed(&rules, &cycle);
            assert_eq!(found, stored.stdout, "{:?}", stored.folder);
            texts.push((rules, cycle));
        }
    }
    texts.retain(|(rules, cycle)| !printed(rules, cycle).is_empty());
    assert!(texts.len() >= 45, "{}", texts.len());
    agree_on(texts);
}

/// Every byte as a line and within a line, of either text.
#[test]
fn every_byte() {
    let mut texts: Vec<Texts> = Vec::new();
    for byte in 0..=255 {
        let with = |text: &str, at: usize| {
            let mut bytes = text.as_bytes().to_vec();
            bytes[at] = byte;
            bytes
        };
        for rules in [vec![byte, b'\n'], with(RULES, RULES.len() - 5)] {
            texts.push((rules, CYCLE.into()));
        }
        for cycle in [vec![byte, b'\n'], with(CYCLE, CYCLE.len() - 2)] {
            texts.push((RULES.into(), cycle));
        }
    }
    agree_on(texts);
}

/// Texts above what a file may have, of one line and of many. None of them is
/// refused with 13.
#[test]
fn large_texts() {
    let digits = |head: &str, size: usize| {
        let digits = "9".repeat(size - head.len() - 1);
        format!("{head}{digits}\n").into_bytes()
    };
    let mut texts: Vec<Texts> = Vec::new();
    for size in [32_767, 32_768, 32_769, LARGEST_TEXT] {
        let rules = digits("2\t1\t2\t0\t-\t-\t1=", size);
        let cycle = digits("0\t1\t-\t-\t-\t-", size);
        let others = [b'\n', b'\t', b'0', b','].map(|byte| vec![byte; size]);
        for text in others.into_iter().chain([rules, cycle]) {
            texts.push((text.clone(), CYCLE.into()));
            texts.push((RULES.into(), text.clone()));
            texts.push((text.clone(), text));
        }
    }
    texts.push((RULES.repeat(1000).into(), CYCLE.into()));
    texts.push((RULES.into(), "0\t".repeat(30_000).into()));
    texts.push((RULES.into(), "0\t9\t-\t-\t-\t-\n".repeat(5000).into()));
    let refused = |(rules, cycle): &Texts| {
        let text = String::from_utf8(printed(rules, cycle)).expect("ASCII");
        text.starts_with("refused\t") && !text.ends_with("\t13\t0\n")
    };
    assert!(texts.iter().all(refused));
    agree_on(texts);
}

/// Every event is an activation of every rule; all name the last event, which
/// alone has the reading 5, or none.
#[test]
fn the_largest_output() {
    let cycle = "0\t1\t-\t-\t-\t-\n".repeat(255) + "0\t1\t5\t-\t-\t-\n";
    let texts = |code: u8, correlation: &str| -> Texts {
        let rules = format!("{code}\t1\t1\t0\t-\t-\t{correlation}\n").repeat(16);
        (rules.into(), cycle.clone().into())
    };
    // Digits of rules, of positions and of targets, and five bytes a line; then
    // the totals.
    let longest = 256 * 23 + 16 * 660 + 4096 * (3 + 5) + 16 * 17 + 23;
    for code in [1, 8] {
        let (rules, cycle) = texts(code, "1=5");
        assert_eq!(printed(&rules, &cycle).len(), longest);
        assert!(longest as u64 <= ENOUGH);
    }
    let codes = [1, 2, 5, 8, 9, 10].map(|code| texts(code, "1=5"));
    let none = [1, 3, 8].map(|code| texts(code, "1=6"));
    agree_on([&codes[..], &none[..]].concat());
}

/// Texts without lines or rules, and rooms of which the unsigned 32 bits count.
#[test]
fn empty_texts_and_wide_rooms() {
    let mut session = Session::started(LISTED, 0, &new_table(0));
    for room in [0, 1, 100, 65_536, u32::MAX] {
        for cycle in ["", CYCLE] {
            let answer = session.print_texts(Vec::new(), cycle.into(), room);
            assert_eq!(answer, Ok(0));
        }
    }
    for room in [65_535, 65_536, 65_537, 1 << 31, (1 << 31) + 1, u32::MAX] {
        let answer = session.print_texts(RULES.into(), CYCLE.into(), room);
        assert_eq!(answer, Ok(PRINTED.len()));
        let answer = session.print_texts(RULES.into(), "x".into(), room);
        assert_eq!(answer, Ok("refused\tcycle\t12\t1\n".len()));
    }
    let short = Err(Refusal::plain(15));
    assert_eq!(session.print_texts("x".into(), Vec::new(), 0), short);
    session.compare_run();
    let counts = agree(&Probe::find(), [session.case]);
    assert_eq!([counts.answered('p', 0), counts.calls('p')], [22, 23]);
}
