//! The day tally. `probe` is needed with the commands A, b and B.

use differential::cases::tally::{case, edge_cases, WRITTEN};
use differential::compare::agree;
use differential::probe::Probe;
use differential::script::{Case, Session};
use evaluator::{grown, Event, Record, Refusal, Rule, Tally};

/// Rule 1 has 3 activations, 2 fulfilled and 1 violated; rule 2 has none.
fn running() -> Record {
    let rules = [Rule::new(2, 1, 2, 0, None), Rule::new(2, 3, 2, 0, None)];
    let cycle = [(0, 1), (1, 1), (2, 2), (3, 1)];
    grown(&rules, &cycle.map(|(t, x)| Event::new(t, x)))
}

fn closed() -> Record {
    running().close().0
}

/// An existence that is fulfilled and an exclusive choice that is violated, each
/// with the one activation at position 0.
fn overall() -> Record {
    let rules = [13, 16].map(|code| Rule::new(code, 1, 2, 0, None));
    let run = grown(
        &rules,
        &[Event::new(0, 1), Event::new(1, 2), Event::new(2, 1)],
    );
    run.close().0
}

#[test]
fn every_field_at_its_limit() {
    let (run, overall) = (closed(), overall());
    let cases = [
        edge_cases(1, &run, 1),
        edge_cases(2, &run, 2),
        edge_cases(3, &overall, 1),
        edge_cases(4, &overall, 2),
    ];
    let counts = agree(&Probe::find(), cases);
    assert_eq!(counts.calls('b'), 4 * 625);
    assert_eq!(counts.dumps('B'), 4 * 625);
    assert_eq!(counts.numbers('b'), [0, 14]);
    // A field is accepted at 0 and where it just reaches the largest number.
    assert!(counts.answered('b', 0) >= 4 * 16);
    assert!(counts.answered('b', 14) >= 1600);
}

/// "its total activations is 1": a tally gets 1 of each closed run.
#[test]
fn a_rule_about_the_cycle_is_absorbed_as_one_activation() {
    let mut session = Session::on(WRITTEN, 0, overall());
    for rule in [1, 2, 2] {
        assert_eq!(session.absorb(rule), Ok(()));
    }
    let (empty, answer) = grown(&[Rule::new(14, 1, 1, 0, None)], &[]).close();
    assert_eq!(answer, Ok(()));
    session.load_run(empty);
    assert_eq!(session.absorb(1), Ok(()));
    let expected = Tally {
        cycles: 4,
        activations: 4,
        fulfilled: 2,
        violated: 2,
    };
    assert_eq!(session.tally, expected);
    assert_eq!(agree(&Probe::find(), [session.case]).dumps('B'), 4);
}

/// "Tally: 11, 10, 9, 14", each alone and with the ones after it.
fn order_case(seed: u64, tally: Tally) -> Case {
    let mut outside = running();
    outside.events[3].activity = 0;
    let mut session = Session::on(WRITTEN, seed, outside);
    session.set_tally(tally);
    for rule in [0, 1, 2, 3, u64::MAX] {
        assert_eq!(session.absorb(rule), Err(Refusal::plain(11)));
    }
    for (run, answer) in [(running(), 9), (closed(), 14)] {
        session.load_run(run);
        for rule in [0, 3, 16, 17, 256, 257, (1 << 32) + 1, u64::MAX] {
            assert_eq!(session.absorb(rule), Err(Refusal::plain(10)));
        }
        if answer == 9 || tally.cycles == u32::MAX {
            assert_eq!(session.absorb(1), Err(Refusal::plain(answer)));
        } else {
            assert_eq!(session.absorb(1), Ok(()));
        }
        session.compare_run();
    }
    session.case
}

#[test]
fn the_order_is_11_10_9_14() {
    let full = Tally {
        cycles: u32::MAX,
        activations: u32::MAX,
        fulfilled: u32::MAX,
        violated: u32::MAX,
    };
    let cases = [order_case(1, Tally::default()), order_case(2, full)];
    let counts = agree(&Probe::find(), cases);
    let numbers = [0, 9, 10, 11, 14].map(|number| counts.answered('b', number));
    assert_eq!(numbers, [1, 2, 32, 10, 1]);
}

#[test]
fn random_tallies() {
    let counts = agree(&Probe::find(), (6_000_000..6_004_000).map(case));
    assert_eq!(counts.numbers('b'), [0, 9, 10, 11, 14]);
    let least = [0, 9, 10, 11, 14].map(|number| counts.answered('b', number));
    assert!(least.iter().all(|count| *count >= 500), "{least:?}");
    assert_eq!(counts.dumps('D'), 1000);
}
