//! The day tally: "Tally: 11, 10, 9, 14", and a refusal leaves it as it was.

use evaluator::Standing::{Fulfilled, Idle, Open, Violated};
use evaluator::{absorb, grown, place, Event, Record, Refusal, Rule, Tally};

fn tally(cycles: u32, activations: u32, fulfilled: u32, violated: u32) -> Tally {
    Tally {
        cycles,
        activations,
        fulfilled,
        violated,
    }
}

const LARGEST: u32 = 4_294_967_295;

/// Rule 1 has 3 activations, 2 fulfilled and 1 violated; rule 2 has none.
fn running() -> Record {
    let rules = [Rule::new(2, 1, 2, 0, None), Rule::new(2, 3, 2, 0, None)];
    let cycle = [(0, 1), (1, 1), (2, 2), (3, 1)];
    grown(&rules, &cycle.map(|(t, x)| Event::new(t, x)))
}

fn run() -> Record {
    let (record, answer) = running().close();
    assert_eq!(answer, Ok(()));
    record
}

fn refused(record: &Record, rule: u64, before: Tally) -> Refusal {
    let mut after = before;
    let refusal = absorb(record, rule, &mut after).expect_err("a refusal");
    assert_eq!(after, before, "a refusal changed the tally");
    refusal
}

#[test]
fn a_closed_run_is_added_to_the_fields() {
    let mut day = Tally::default();
    assert_eq!(absorb(&run(), 1, &mut day), Ok(()));
    assert_eq!(day, tally(1, 3, 2, 1));
    assert_eq!(absorb(&run(), 1, &mut day), Ok(()));
    assert_eq!(day, tally(2, 6, 4, 2));
    assert_eq!(absorb(&run(), 2, &mut day), Ok(()));
    assert_eq!(day, tally(3, 6, 4, 2));
}

#[test]
fn a_tally_need_not_add_up() {
    let mut day = tally(7, 0, 100, 5);
    assert_eq!(absorb(&run(), 1, &mut day), Ok(()));
    assert_eq!(day, tally(8, 3, 102, 6));
}

#[test]
fn each_field_reaches_the_largest_number_and_does_not_pass_it() {
    let mut day = tally(LARGEST - 1, LARGEST - 3, LARGEST - 2, LARGEST - 1);
    assert_eq!(absorb(&run(), 1, &mut day), Ok(()));
    assert_eq!(day, tally(LARGEST, LARGEST, LARGEST, LARGEST));
    for day in [
        tally(LARGEST, 0, 0, 0),
        tally(0, LARGEST - 2, 0, 0),
        tally(0, 0, LARGEST - 1, 0),
        tally(0, 0, 0, LARGEST),
        tally(5, 6, 7, LARGEST),
        tally(LARGEST, LARGEST, LARGEST, LARGEST),
    ] {
        assert_eq!(refused(&run(), 1, day), Refusal::plain(14), "{day:?}");
    }
}

#[test]
fn adding_0_to_a_full_field_is_no_cause_of_14() {
    let mut day = tally(0, LARGEST, LARGEST, LARGEST);
    assert_eq!(absorb(&run(), 2, &mut day), Ok(()));
    assert_eq!(day, tally(1, LARGEST, LARGEST, LARGEST));
    let full = tally(LARGEST, 0, 0, 0);
    assert_eq!(refused(&run(), 2, full), Refusal::plain(14));
}

#[test]
fn the_order_is_11_10_9_14() {
    let full = tally(LARGEST, LARGEST, LARGEST, LARGEST);
    let mut outside = running();
    outside.count = 257;
    for rule in [0, 1, 3] {
        assert_eq!(refused(&outside, rule, full), Refusal::plain(11));
    }
    for rule in [0, 3, 16, 17, u64::MAX] {
        assert_eq!(refused(&running(), rule, full), Refusal::plain(10));
        assert_eq!(refused(&run(), rule, full), Refusal::plain(10));
        assert_eq!(refused(&run(), rule, Tally::default()), Refusal::plain(10));
    }
    assert_eq!(refused(&running(), 1, full), Refusal::plain(9));
    assert_eq!(refused(&running(), 1, Tally::default()), Refusal::plain(9));
    assert_eq!(refused(&run(), 1, full), Refusal::plain(14));
}

#[test]
fn a_closed_run_with_an_open_standing_is_11() {
    let mut record = running();
    record.closed = true;
    assert_eq!(record.standings[place(1, 4)], Open);
    assert_eq!(refused(&record, 1, Tally::default()), Refusal::plain(11));
    // Also for the other rule, whose row has none.
    assert_eq!(refused(&record, 2, Tally::default()), Refusal::plain(11));
}

#[test]
fn a_fabricated_run_is_added_as_its_standings_say() {
    let mut record = run();
    record.standings[place(2, 1)] = Fulfilled(4);
    record.standings[place(2, 2)] = Violated(0);
    record.standings[place(2, 3)] = Violated(3);
    assert_eq!(record.standings[place(2, 4)], Idle);
    record.count_totals();
    let mut day = Tally::default();
    assert_eq!(absorb(&record, 2, &mut day), Ok(()));
    assert_eq!(day, tally(1, 3, 1, 2));
}

#[test]
fn a_run_without_events_counts_as_a_cycle() {
    let (record, answer) = grown(&[Rule::new(2, 1, 2, 0, None)], &[]).close();
    assert_eq!(answer, Ok(()));
    let mut day = Tally::default();
    assert_eq!(absorb(&record, 1, &mut day), Ok(()));
    assert_eq!(day, tally(1, 0, 0, 0));
}
