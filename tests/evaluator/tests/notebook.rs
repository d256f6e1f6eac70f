//! The notebook reading: "takes both texts, rules first, and answers a closed
//! run; its refusal also says which text".

use evaluator::listing::{CYCLE, RULES};
use evaluator::Standing::{Fulfilled, Idle, Violated};
use evaluator::{grown, notebook, notebook_record, read_cycle, read_rules};
use evaluator::{Refusal, Row, Standing, Text};

fn refused(rules: &str, cycle: &str) -> (Text, Refusal) {
    let refusal = notebook(rules.as_bytes(), cycle.as_bytes()).expect_err("a refusal");
    let record = notebook_record(rules.as_bytes(), cycle.as_bytes());
    assert_eq!(record, Err(refusal));
    refusal
}

/// A rule that has no position 0.
fn at_events(events: &[Standing]) -> Row {
    Row {
        overall: None,
        events: events.to_vec(),
    }
}

#[test]
fn the_listing_through_the_texts() {
    let expected = vec![
        at_events(&[Fulfilled(2), Idle, Idle, Idle, Violated(0), Idle]),
        at_events(&[Idle, Idle, Fulfilled(2), Violated(0), Idle, Idle]),
    ];
    assert_eq!(notebook(RULES.as_bytes(), CYCLE.as_bytes()), Ok(expected));
}

#[test]
fn the_closed_run_answers_the_calls() {
    let record = notebook_record(RULES.as_bytes(), CYCLE.as_bytes()).expect("a run");
    assert!(record.closed);
    assert_eq!(record.standing(1, 1), Ok(Fulfilled(2)));
    assert_eq!(record.standing(2, 4), Ok(Violated(0)));
    assert_eq!(record.standing(2, 6), Ok(Idle));
    assert_eq!(record.totals(2).map(|t| t.activations), Ok(2));
    assert_eq!(record.standing(3, 1), Err(Refusal::plain(10)));
    assert_eq!(record.standing(1, 7), Err(Refusal::plain(10)));
    assert_eq!(record.clone().close().1, Err(Refusal::plain(9)));
}

#[test]
fn the_closed_run_is_the_grown_one() {
    let rules = read_rules(RULES.as_bytes()).expect("rules");
    let events = read_cycle(CYCLE.as_bytes()).expect("a cycle");
    let (record, answer) = grown(&rules, &events).close();
    assert_eq!(answer, Ok(()));
    let read = notebook_record(RULES.as_bytes(), CYCLE.as_bytes());
    assert_eq!(read, Ok(record));
}

#[test]
fn no_rules_and_no_events() {
    assert_eq!(notebook(b"", CYCLE.as_bytes()), Ok(vec![]));
    let none = vec![at_events(&[]); 2];
    assert_eq!(notebook(RULES.as_bytes(), b""), Ok(none));
    assert_eq!(notebook(b"", b""), Ok(vec![]));
    let record = notebook_record(b"", b"").expect("a run");
    assert_eq!(
        (record.closed, record.count, record.table.count),
        (true, 0, 0)
    );
}

#[test]
fn the_rules_are_refused_first() {
    assert_eq!(refused("x\n", "x\n"), (Text::Rules, Refusal::at(1, 1)));
    assert_eq!(refused("x", "\n"), (Text::Rules, Refusal::at(12, 1)));
    let late = format!("{RULES}\n");
    assert_eq!(refused(&late, "x"), (Text::Rules, Refusal::at(1, 3)));
    assert_eq!(refused(RULES, "\n"), (Text::Cycle, Refusal::at(1, 1)));
    let unended = format!("{CYCLE}x");
    assert_eq!(refused(RULES, &unended), (Text::Cycle, Refusal::at(12, 7)));
    // The cycle is read also if there is no rule.
    assert_eq!(refused("", "\n"), (Text::Cycle, Refusal::at(1, 1)));
}

#[test]
fn a_large_text_is_no_cause_of_13_here() {
    let lines = "\n".repeat(40_000);
    assert_eq!(refused(&lines, ""), (Text::Rules, Refusal::at(1, 1)));
    let digits = format!("0\t1\t-\t-\t-\t{}\n", "8".repeat(40_000));
    assert_eq!(refused("", &digits), (Text::Cycle, Refusal::at(3, 1)));
}
