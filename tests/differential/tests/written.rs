//! Rules and events written into a lent buffer. `probe` is needed with the
//! commands w and W.

use differential::cases::causes::{allowed, causes};
use differential::cases::written::LISTED;
use differential::cases::written::{again_case, again_text_case, allowed_case};
use differential::cases::written::{case, cause_case, grown_case};
use differential::compare::agree;
use differential::probe::Probe;
use differential::script::Session;
use evaluator::stored::stored_texts;
use evaluator::Operator::GreaterOrEqual;
use evaluator::{grown, read_cycle, read_rules, Comparison, Event, Record, Refusal, Rule};

#[test]
fn random_tables_and_runs() {
    let counts = agree(&Probe::find(), (9_000_000..9_000_600).map(case));
    for letter in ['w', 'W'] {
        assert_eq!(counts.numbers(letter), [0, 11, 15]);
        let answers = [0, 11, 15].map(|number| counts.answered(letter, number));
        assert!(answers.iter().all(|count| *count >= 300), "{answers:?}");
    }
    assert!(counts.answered('R', 0) >= 400 && counts.answered('Y', 0) >= 400);
    assert_eq!([counts.numbers('R'), counts.numbers('Y')], [[0], [0]]);
    // One for each text, and in every fourth case one of the run and one of the
    // table.
    let texts = counts.calls('R') + counts.calls('Y');
    assert_eq!(counts.dumps('D'), texts + 2 * 150);
}

#[test]
fn runs_grown_by_takes_and_by_the_notebook() {
    let counts = agree(&Probe::find(), (9_100_000..9_100_400).map(grown_case));
    assert_eq!(counts.numbers('w'), [0, 15]);
    assert_eq!(counts.numbers('W'), [0, 15]);
    assert_eq!([counts.answered('x', 0), counts.answered('N', 0)], [400; 2]);
    assert!(counts.answered('e', 0) >= 1000 && counts.answered('W', 0) >= 9 * 400);
    assert_eq!(counts.dumps('D'), 2 * 100);
}

/// "an accepted text comes out again byte for byte"
#[test]
fn accepted_texts_come_out_again() {
    let counts = agree(&Probe::find(), (9_200_000..9_201_000).map(again_case));
    assert_eq!([counts.calls('R'), counts.calls('Y')], [1000; 2]);
    assert!(counts.answered('N', 0) >= 800);
    for letter in ['R', 'Y', 'N'] {
        assert_eq!(counts.numbers(letter), [0]);
    }
    for letter in ['w', 'W'] {
        assert_eq!(counts.numbers(letter), [0, 15]);
        assert!(counts.answered(letter, 0) >= 3 * 1000);
    }
}

/// Of a folder with one accepted text the other one is empty.
#[test]
fn stored_texts_come_out_again() {
    let accepted = stored_texts().into_iter().map(|stored| {
        let rules = stored.rules.filter(|text| read_rules(text).is_ok());
        let cycle = stored.cycle.filter(|text| read_cycle(text).is_ok());
        (rules.unwrap_or_default(), cycle.unwrap_or_default())
    });
    let accepted: Vec<(Vec<u8>, Vec<u8>)> = accepted.collect();
    let rules = accepted.iter().filter(|(rules, _)| !rules.is_empty());
    let cycles = accepted.iter().filter(|(_, cycle)| !cycle.is_empty());
    assert!(rules.count() >= 25 && cycles.count() >= 30);
    let number = accepted.len();
    let cases = (0..).zip(accepted);
    let counts = agree(
        &Probe::find(),
        cases.map(|(number, (rules, cycle))| again_text_case(LISTED, number, rules, cycle)),
    );
    assert_eq!(
        [counts.answered('R', 0), counts.answered('Y', 0)],
        [number; 2]
    );
    assert_eq!(counts.calls('w'), 5 * number);
}

fn in_both_phases(runs: fn(bool) -> Vec<(String, Record)>) -> Vec<Record> {
    let both = [false, true].into_iter().flat_map(runs);
    both.map(|(_, run)| run).collect()
}

/// Each cause alone. Those of the table are in the run too; those of the events
/// and standings do not matter for the rules.
#[test]
fn each_cause_of_11() {
    let runs = in_both_phases(causes);
    let outside = runs.iter().filter(|run| run.table.rules().is_none());
    let (number, outside) = (runs.len(), outside.count());
    assert!(number >= 400 && outside >= 200, "{number} {outside}");
    let cases = (0..).zip(runs);
    let counts = agree(&Probe::find(), cases.map(|(n, run)| cause_case(n, run)));
    assert_eq!(counts.numbers('W'), [11]);
    assert_eq!(counts.calls('W'), 4 * number);
    assert_eq!(counts.answered('w', 11), 4 * outside);
    assert_eq!(counts.answered('w', 0), 3 * (number - outside));
    assert_eq!(counts.answered('w', 15), 2 * (number - outside));
}

/// The limits themselves, and values outside of them that nothing reads.
#[test]
fn what_is_no_cause_of_11() {
    let runs = in_both_phases(allowed);
    let number = runs.len();
    let no_rules = runs.iter().filter(|run| run.table.count == 0).count();
    assert!(number >= 200 && no_rules >= 2, "{number} {no_rules}");
    let cases = (0..).zip(runs);
    let counts = agree(&Probe::find(), cases.map(|(n, run)| allowed_case(n, run)));
    let answers = |letter| [0, 11, 15].map(|number| counts.answered(letter, number));
    assert_eq!(answers('W'), [3 * number, 0, 2 * number]);
    assert_eq!([counts.calls('R'), counts.calls('Y')], [number; 2]);
    // An empty text is accepted in every size.
    let (accepted, short) = (3 * number + 2 * no_rules, 2 * (number - no_rules));
    assert_eq!(answers('w'), [accepted, 0, short]);
}

/// The longest texts there are: 16 rules of 155 bytes and 256 events of 62.
fn longest() -> Record {
    let constants = [1, 2, 3, 4].map(|n| Comparison::with_constant(n, GreaterOrEqual, i32::MIN));
    let sums = [1, 2, 3, 4].map(|n| Comparison::with_activation(n, GreaterOrEqual, n, i32::MIN));
    let rule = Rule::new(12, 64, 64, u32::MAX - 1, Some(u32::MAX))
        .with_activation_condition(constants.to_vec())
        .with_correlation(sums.to_vec());
    let mut run = grown(&vec![rule; 16], &[]);
    run.count = 256;
    run.events.fill(Event {
        time: u32::MAX,
        activity: 64,
        readings: [Some(i32::MIN); 4],
    });
    run
}

/// Into buffers on both sides of the length, of the largest size, and of sizes
/// that are cut to it.
#[test]
fn the_longest_texts_and_the_largest_buffers() {
    let mut session = Session::on(LISTED, 0, longest());
    let short = Err(Refusal::plain(15));
    for (n, answer) in [(2479, short), (2480, Ok(2480)), (2481, Ok(2480))] {
        assert_eq!(session.write_rules(n), answer);
    }
    for (n, answer) in [(15_871, short), (15_872, Ok(15_872)), (15_873, Ok(15_872))] {
        assert_eq!(session.write_cycle(n), answer);
    }
    let wide = [131_072, 1 << 32, (1 << 32) + 1, 1 << 63, u64::MAX];
    for n in [65_535, 65_536, 65_537].into_iter().chain(wide) {
        assert_eq!(session.write_rules(n), Ok(2480));
        assert_eq!(session.write_cycle(n), Ok(15_872));
    }
    session.compare_run();
    let counts = agree(&Probe::find(), [session.case]);
    assert_eq!([counts.answered('w', 0), counts.answered('W', 0)], [10; 2]);
}

/// The first commands of a script: there are no rules and no events, and an empty
/// text goes into every buffer.
#[test]
fn the_table_and_the_run_at_the_beginning() {
    let mut session = Session::at_the_beginning(LISTED, 0);
    for n in [0, 1, 100] {
        assert_eq!(session.write_rules(n), Ok(0));
        assert_eq!(session.write_cycle(n), Ok(0));
    }
    session.set_table();
    session.compare_run();
    let counts = agree(&Probe::find(), [session.case]);
    assert_eq!([counts.answered('w', 0), counts.answered('W', 0)], [3; 2]);
}
