//! What `report` prints for a run, in a lent buffer. `probe` is needed with the
//! commands v and p.

use differential::cases::causes::{allowed, causes};
use differential::cases::reported::{allowed_case, case, cause_case, grown_case, LISTED};
use differential::compare::agree;
use differential::probe::Probe;
use differential::script::{Case, Session};
use evaluator::Standing::{self, Fulfilled, Open, Violated};
use evaluator::{grown, Event, Record, Refusal, Rule};

#[test]
fn random_runs() {
    let counts = agree(&Probe::find(), (9_300_000..9_300_800).map(case));
    assert_eq!(counts.numbers('v'), [0, 11, 15]);
    let answers = [0, 11, 15].map(|number| counts.answered('v', number));
    assert!(answers.iter().all(|count| *count >= 300), "{answers:?}");
    // In every fourth case one of the run and one of the table.
    assert_eq!(counts.dumps('D'), 2 * 200);
}

#[test]
fn runs_grown_by_takes_and_by_the_notebook() {
    let counts = agree(&Probe::find(), (9_400_000..9_400_400).map(grown_case));
    assert_eq!(counts.numbers('v'), [0, 15]);
    assert!(counts.answered('e', 0) >= 1000 && counts.answered('v', 0) >= 9 * 400);
    for letter in ['x', 'N', 'p'] {
        assert_eq!(counts.numbers(letter), [0]);
        assert_eq!(counts.calls(letter), 400);
    }
    assert_eq!(counts.dumps('D'), 2 * 100);
}

fn in_both_phases(runs: fn(bool) -> Vec<(String, Record)>) -> Vec<Record> {
    let both = [false, true].into_iter().flat_map(runs);
    both.map(|(_, run)| run).collect()
}

#[test]
fn each_cause_of_11() {
    let runs = in_both_phases(causes);
    let number = runs.len();
    assert!(number >= 400, "{number}");
    let cases = (0..).zip(runs);
    let counts = agree(&Probe::find(), cases.map(|(n, run)| cause_case(n, run)));
    assert_eq!(counts.numbers('v'), [11]);
    assert_eq!(counts.calls('v'), 4 * number);
}

/// The limits themselves, and values outside of them that nothing reads.
#[test]
fn what_is_no_cause_of_11() {
    let runs = in_both_phases(allowed);
    let number = runs.len();
    let no_rules = runs.iter().filter(|run| run.table.count == 0).count();
    assert!(number >= 200 && no_rules >= 2, "{number} {no_rules}");
    let cases = (0..).zip(runs);
    let counts = agree(&Probe::find(), cases.map(|(n, run)| allowed_case(n, run)));
    let answers = [0, 11, 15].map(|number| counts.answered('v', number));
    // An empty text is accepted in every size.
    let (accepted, short) = (3 * number + 2 * no_rules, 2 * (number - no_rules));
    assert_eq!(answers, [accepted, 0, short]);
}

/// The standing in each cell.
type Filling = fn(usize) -> Standing;

/// 16 rules and 256 events, each event an activation of each rule.
fn full_run(standing: Filling) -> Record {
    let mut run = grown(&vec![Rule::new(2, 1, 2, 0, None); 16], &[]);
    run.count = 256;
    let cells = run.standings.iter_mut().enumerate();
    cells.for_each(|(cell, place)| *place = standing(cell));
    run.count_totals();
    run
}

/// Reports of so many bytes into buffers on both sides of that, of the largest
/// size, and of sizes that are cut to it.
fn full_case(number: u64, run: Record, length: usize) -> Case {
    let mut session = Session::on(LISTED, number, run);
    let short = Err(Refusal::plain(15));
    let n = length as u64;
    for (n, answer) in [(n - 1, short), (n, Ok(length)), (n + 1, Ok(length))] {
        assert_eq!(session.write_report(n), answer);
    }
    let wide = [131_072, 1 << 32, (1 << 32) + 1, 1 << 63, u64::MAX];
    for n in [53_584, 65_535, 65_536, 65_537].into_iter().chain(wide) {
        assert_eq!(session.write_report(n), Ok(length));
    }
    session.compare_run();
    session.case
}

/// 9 rules of one digit and 7 of two; 9 positions of one digit, 90 of two and 157
/// of three; three tabs, a letter and an LF in every line. To these come the
/// targets' digits and the totals.
const WITHOUT_TARGETS: usize = 256 * 23 + 16 * 660 + 16 * 256 * 5;

/// `total`, four tabs and an LF, the rules' digits, and the counts' digits.
fn totals(digits: usize) -> usize {
    16 * (10 + digits) + 23
}

#[test]
fn the_longest_reports_and_the_largest_buffers() {
    let halves: Filling = |cell| match cell % 2 {
        0 => Fulfilled(256),
        _ => Violated(256),
    };
    let runs: [(Filling, usize); 4] = [
        (halves, 3 * 4096 + totals(9)),
        (|_| Fulfilled(100), 3 * 4096 + totals(7)),
        (|_| Violated(99), 2 * 4096 + totals(7)),
        (|_| Open, 4096 + totals(5)),
    ];
    let runs = (0..).zip(runs);
    let cases = runs.map(|(number, (standing, more))| {
        full_case(number, full_run(standing), WITHOUT_TARGETS + more)
    });
    let counts = agree(&Probe::find(), cases);
    let answers = [0, 15].map(|number| counts.answered('v', number));
    assert_eq!(answers, [4 * 11, 4]);
}

/// The first commands of a script: there are no rules, and an empty text goes
/// into every buffer. Without events a rule has its total alone.
#[test]
fn the_run_at_the_beginning_and_one_without_events() {
    let mut session = Session::at_the_beginning(LISTED, 0);
    for n in [0, 1, 100] {
        assert_eq!(session.write_report(n), Ok(0));
    }
    let rule = Rule::new(2, 1, 2, 0, None);
    session.load_run(grown(&[rule.clone(), rule.clone()], &[]));
    let total = "total\t1\t0\t0\t0\n".len();
    for n in [2 * total, 2 * total + 1] {
        assert_eq!(session.write_report(n as u64), Ok(2 * total));
    }
    session.take(Event::new(5, 9)).expect("a well-formed event");
    assert_eq!(session.write_report(2 * total as u64), Ok(2 * total));
    let counts = agree(&Probe::find(), [session.case]);
    assert_eq!(counts.answered('v', 0), 6);
}
