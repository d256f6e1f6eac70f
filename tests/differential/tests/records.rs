//! Runs that no call grew. `probe` is needed with the commands on tables and
//! runs, A, b and B.

use differential::cases::causes::{allowed, base, causes, miscounted, overall_base};
use differential::cases::records::WRITTEN;
use differential::cases::records::{allowed_case, ask_all_numbers, case, cause_case, stale_case};
use differential::compare::agree;
use differential::probe::Probe;
use differential::script::{Case, Session};
use evaluator::Standing::{Fulfilled, Idle, Open, Violated};
use evaluator::{grown, place, Event, Record, Rule, Standing, Totals};

/// Each cause alone, and the same in a closed run.
#[test]
fn each_cause_of_11() {
    let runs: Vec<Record> = [false, true]
        .into_iter()
        .flat_map(|closed| causes(closed).into_iter().map(|(_, run)| run))
        .collect();
    let number = runs.len();
    assert!(number >= 400, "{number}");
    let counts = agree(
        &Probe::find(),
        (0..).zip(runs).map(|(number, run)| cause_case(number, run)),
    );
    assert_eq!(counts.answered('e', 11), 4 * number);
    assert_eq!(counts.numbers('e'), [11]);
    assert_eq!(counts.answered('k', 11), 4 * number);
    assert_eq!(counts.numbers('k'), [11]);
    assert_eq!(counts.numbers('x'), [11]);
    assert_eq!(counts.numbers('g'), [11]);
    assert_eq!(counts.numbers('o'), [11]);
    assert_eq!(counts.numbers('b'), [11]);
    assert!(counts.answered('s', 11) >= 200);
    assert_eq!(counts.dumps('D'), 7 * number);
    // The totals are the cause where they are meant to be, and nowhere else.
    let wrong_totals = miscounted(false).len() + miscounted(true).len();
    assert!(wrong_totals >= 200, "{wrong_totals}");
    assert_eq!(counts.miscounted, wrong_totals);
}

/// The limits themselves, and values outside of them that nothing reads.
#[test]
fn what_is_no_cause_of_11() {
    let runs: Vec<Record> = [false, true]
        .into_iter()
        .flat_map(|closed| allowed(closed).into_iter().map(|(_, run)| run))
        .collect();
    let (number, closed) = (runs.len(), allowed(true).len());
    assert!(number >= 200, "{number}");
    let counts = agree(
        &Probe::find(),
        (0..)
            .zip(runs)
            .map(|(number, run)| allowed_case(number, run)),
    );
    assert_eq!(counts.answered('e', 0), number - closed);
    assert_eq!(counts.answered('e', 9), closed * 4);
    assert_eq!(counts.numbers('e'), [0, 3, 7, 9]);
    assert_eq!(counts.answered('k', 0), number - closed);
    assert_eq!(counts.answered('k', 9), closed * 4);
    assert_eq!(counts.numbers('k'), [0, 3, 7, 9]);
    assert_eq!(counts.numbers('x'), [0, 9]);
    assert_eq!(counts.numbers('g'), [0, 10]);
    assert_eq!(counts.numbers('o'), [0, 10]);
    assert_eq!(counts.numbers('s'), [0]);
}

#[test]
fn random_records() {
    let counts = agree(&Probe::find(), (3_000_000..3_002_000).map(case));
    assert_eq!(counts.numbers('e'), [0, 3, 7, 8, 9, 11]);
    assert!(counts.answered('e', 0) >= 500);
    assert!(counts.answered('e', 11) >= 500);
    assert_eq!(counts.numbers('k'), [0, 3, 7, 9, 11]);
    assert!(counts.answered('k', 0) >= 200 && counts.answered('k', 11) >= 200);
    assert_eq!(counts.numbers('x'), [0, 9, 11]);
    assert_eq!(counts.numbers('g'), [0, 10, 11]);
    assert_eq!(counts.numbers('o'), [0, 10, 11]);
    assert_eq!(counts.numbers('s'), [0, 11]);
    assert!(counts.dumps('D') >= 6000);
    assert!(counts.miscounted >= 100, "{counts}");
}

#[test]
fn stale_standings() {
    let counts = agree(&Probe::find(), (4_000_000..4_001_000).map(stale_case));
    assert_eq!(counts.numbers('e'), [0, 8]);
    assert!(counts.answered('e', 0) >= 1500);
    assert!(counts.answered('e', 8) >= 5);
    assert_eq!(counts.answered('x', 0), 1000);
    assert!(counts.dumps('D') >= 3500);
}

/// The standings of a response at three events, its totals, and both after a take.
type Judged = ([Standing; 3], [u16; 4], [Standing; 3], [u16; 4]);

/// A wrong verdict is carried over, a stale open or idle standing is judged
/// anew, and so is an open one at an event that is no activation. The totals are
/// those of all standings then, not the old ones with what the new event makes.
#[test]
fn standings_carried_over_and_judged_anew() {
    let events = [Event::new(0, 1), Event::new(1, 2), Event::new(2, 1)];
    let mut run = grown(&[Rule::new(2, 1, 2, 0, None)], &events);
    let expected: [Judged; 5] = [
        (
            [Fulfilled(3), Idle, Open],
            [2, 1, 0, 1],
            [Fulfilled(3), Idle, Open],
            [2, 1, 0, 1],
        ),
        (
            [Violated(0), Violated(2), Idle],
            [2, 0, 2, 0],
            [Violated(0), Violated(2), Open],
            [3, 0, 2, 1],
        ),
        (
            [Idle, Fulfilled(0), Violated(1)],
            [2, 1, 1, 0],
            [Fulfilled(2), Fulfilled(0), Violated(1)],
            [3, 2, 1, 0],
        ),
        (
            [Open, Open, Open],
            [3, 0, 0, 3],
            [Fulfilled(2), Idle, Open],
            [2, 1, 0, 1],
        ),
        (
            [Idle, Idle, Idle],
            [0, 0, 0, 0],
            [Fulfilled(2), Idle, Open],
            [2, 1, 0, 1],
        ),
    ];
    let mut cases = Vec::new();
    for (number, (before, totals, after, recounted)) in (0..).zip(expected) {
        run.standings[..3].copy_from_slice(&before);
        run.totals[0] = Totals::with_numbers(totals);
        let mut session = Session::on(WRITTEN, number, run.clone());
        session.totals(1).expect("totals that fit");
        session.take(Event::new(3, 9)).expect("a take");
        assert_eq!(session.rows()[0][..3], after);
        assert_eq!(session.run.totals[0].numbers(), recounted);
        session.compare_run();
        session.totals(1).expect("totals that fit");
        session.close().expect("a close");
        let [activations, fulfilled, violated, open] = recounted;
        let closed = [activations, fulfilled, violated + open, 0];
        assert_eq!(session.run.totals[0].numbers(), closed);
        session.compare_run();
        cases.push(session.case);
    }
    assert_eq!(agree(&Probe::find(), cases).dumps('D'), 2 * 5);
}

/// A run with 16 rules and 256 events, all standings decided.
fn full_run(closed: bool) -> Record {
    let rules = vec![Rule::new(5, 1, 1, 0, None); 16];
    let mut run = grown(&rules, &[]);
    run.closed = closed;
    run.count = 256;
    for rule in 1..=16 {
        for position in 1..=256 {
            run.standings[place(rule, position)] = Fulfilled(position as u16);
        }
    }
    run.standings[place(16, 256)] = Violated(256);
    run.count_totals();
    run
}

/// Where 8 would be next: the totals are 256, 256, 0, 0, but for the last rule.
#[test]
fn wrong_totals_of_a_full_run() {
    let mut runs = Vec::new();
    for slot in [0, 15] {
        for place in 0..4 {
            for closed in [false, true] {
                let mut run = full_run(closed);
                let right = run.totals[slot].numbers()[place];
                run.totals[slot] = run.totals[slot].with_number(place, right ^ 256);
                runs.push(run);
            }
        }
    }
    let cases = (0..).zip(runs);
    let counts = agree(
        &Probe::find(),
        cases.map(|(number, run)| cause_case(number, run)),
    );
    assert_eq!([counts.cases, counts.miscounted], [16; 2]);
    assert_eq!(counts.answered('e', 11), 4 * 16);
}

/// The command `O`: the low 16 bits of each number, and no slot above 15.
#[test]
fn totals_of_any_slot_and_number() {
    let mut session = Session::on(WRITTEN, 0, base(false));
    for slot in [0, 1, 2, 15, 16, 17, 128, 255] {
        session.set_totals(slot, [65_535, 65_536, 65_537, u32::MAX]);
        session.compare_run();
        session.set_totals(slot, [1 << 31, 0xFFFF_0100, 0xABCD_1234, 7]);
        session.compare_run();
    }
    assert_eq!(session.run.totals[15].numbers(), [0, 256, 0x1234, 7]);
    for (slot, totals) in [(0, [2, 0, 2, 0]), (1, [2, 2, 0, 0])] {
        session.set_totals(slot, totals.map(|low| 0xABCD_0000 | low));
    }
    session.all_totals();
    session.compare_run();
    assert_eq!(agree(&Probe::find(), [session.case]).dumps('D'), 17);
}

fn numbers_case(number: u64, run: Record) -> Case {
    let mut session = Session::on(WRITTEN, number, run);
    ask_all_numbers(&mut session);
    session.case
}

#[test]
fn numbers_of_rules_and_positions() {
    let runs = [
        grown(&[], &[]),
        grown(&[Rule::new(2, 1, 2, 0, None)], &[]),
        grown(&[], &[Event::new(0, 1)]),
        grown(&[Rule::new(2, 1, 2, 0, None)], &[Event::new(0, 1)]),
        grown(&[Rule::new(13, 1, 2, 0, None)], &[]),
        grown(&[Rule::new(14, 1, 1, 0, None)], &[Event::new(0, 1)]),
        base(false),
        base(true),
        overall_base(false),
        overall_base(true),
        full_run(false),
        full_run(true),
    ];
    let cases = (0..).zip(runs);
    let counts = agree(
        &Probe::find(),
        cases.map(|(number, run)| numbers_case(number, run)),
    );
    assert_eq!(counts.calls('g'), 12 * 11 * 11);
    assert_eq!(counts.calls('o'), 12 * (11 + 4));
    assert!(counts.answered('g', 0) >= 40 && counts.answered('o', 0) >= 15);
    assert_eq!(counts.numbers('g'), [0, 10]);
    assert_eq!(counts.numbers('o'), [0, 10]);
}
