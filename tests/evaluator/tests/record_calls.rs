//! Refusals of the calls on a run and their orders: "Take: 11, 9, 3, 7, 8.
//! Close: 11, 9. Standing and totals: 11, 10."

use evaluator::Standing::{Fulfilled, Idle, Open, Violated};
use evaluator::{grown, place, start, Event, Record, Refusal, Rule, TableRecord, Totals};

fn rule() -> Rule {
    Rule::new(2, 1, 2, 0, None)
}

fn short() -> Record {
    grown(&[rule()], &[Event::new(10, 9), Event::new(20, 1)])
}

fn full() -> Record {
    grown(&[rule()], &[Event::new(20, 9); 256])
}

fn closed(record: Record) -> Record {
    let (record, answer) = record.close();
    assert_eq!(answer, Ok(()));
    record
}

/// A record that 11 names: its second event has no activity.
fn outside(mut record: Record) -> Record {
    record.events[1].activity = 0;
    record
}

/// The refusal of a take, which leaves the record as it was.
fn refused_take(record: &Record, event: Event) -> Refusal {
    let (next, answer) = record.clone().take(event);
    assert!(next == *record, "a refused take changed the record");
    answer.expect_err("a refusal")
}

fn refused_close(record: &Record) -> Refusal {
    let (next, answer) = record.clone().close();
    assert!(next == *record, "a refused close changed the record");
    answer.expect_err("a refusal")
}

const GOOD: Event = Event {
    time: 20,
    activity: 2,
    readings: [None; 4],
};
const WRONG: Event = Event {
    activity: 65,
    ..GOOD
};
const EARLY: Event = Event { time: 19, ..GOOD };
const WRONG_AND_EARLY: Event = Event { time: 0, ..WRONG };

#[test]
fn take_refuses_a_record_outside_the_limits_first() {
    for record in [short(), closed(short()), full(), closed(full())].map(outside) {
        for event in [GOOD, WRONG, EARLY, WRONG_AND_EARLY] {
            assert_eq!(refused_take(&record, event), Refusal::plain(11));
        }
    }
}

#[test]
fn take_refuses_a_closed_run_next() {
    for record in [closed(short()), closed(full())] {
        for event in [GOOD, WRONG, EARLY, WRONG_AND_EARLY] {
            assert_eq!(refused_take(&record, event), Refusal::plain(9));
        }
    }
}

#[test]
fn take_refuses_a_number_outside_its_range_next() {
    for record in [short(), full()] {
        for event in [WRONG, WRONG_AND_EARLY] {
            assert_eq!(refused_take(&record, event), Refusal::at(3, 0));
        }
    }
    for activity in [0, 65, 255] {
        let event = Event { activity, ..GOOD };
        assert_eq!(refused_take(&short(), event), Refusal::at(3, 0));
    }
}

#[test]
fn take_refuses_a_time_below_the_last_next() {
    for record in [short(), full()] {
        assert_eq!(refused_take(&record, EARLY), Refusal::at(7, 0));
    }
    // A time between two taken ones is below the last.
    let between = Event { time: 15, ..GOOD };
    assert_eq!(refused_take(&short(), between), Refusal::at(7, 0));
}

#[test]
fn take_refuses_the_257th_event_last() {
    assert_eq!(refused_take(&full(), GOOD), Refusal::at(8, 0));
    let late = Event { time: 99, ..GOOD };
    assert_eq!(refused_take(&full(), late), Refusal::at(8, 0));
}

#[test]
fn take_accepts_256_events_at_the_ends_of_the_ranges() {
    let run = start(&TableRecord::of(&[rule()])).expect("a valid table");
    let first = Event {
        time: 0,
        activity: 1,
        readings: [Some(i32::MIN), Some(i32::MAX), None, Some(0)],
    };
    let (mut run, answer) = run.take(first);
    assert_eq!(answer, Ok(()));
    for _ in 0..255 {
        let (next, answer) = run.take(Event::new(u32::MAX, 64));
        assert_eq!(answer, Ok(()));
        run = next;
    }
    assert_eq!(run.count, 256);
    assert_eq!(run.events[0], first);
    assert_eq!(run.events[255], Event::new(u32::MAX, 64));
    assert_eq!(refused_take(&run, first), Refusal::at(7, 0));
    let last = Event::new(u32::MAX, 1);
    assert_eq!(refused_take(&run, last), Refusal::at(8, 0));
}

#[test]
fn the_first_event_may_have_any_time() {
    for time in [0, 1, u32::MAX] {
        let mut run = start(&TableRecord::of(&[])).expect("a valid table");
        // Slots past the count are not read.
        run.events.fill(Event::new(u32::MAX, 0));
        let (run, answer) = run.take(Event::new(time, 1));
        assert_eq!(answer, Ok(()));
        assert_eq!(run.events[0], Event::new(time, 1));
        assert_eq!(run.events[1..], [Event::new(u32::MAX, 0); 255]);
    }
}

#[test]
fn close_refuses_11_and_then_9() {
    assert_eq!(refused_close(&outside(short())), Refusal::plain(11));
    assert_eq!(refused_close(&outside(closed(short()))), Refusal::plain(11));
    assert_eq!(refused_close(&closed(short())), Refusal::plain(9));
    assert_eq!(refused_close(&closed(full())), Refusal::plain(9));
}

const LARGE: [u64; 4] = [257, 1 << 32, (1 << 32) + 1, u64::MAX];

#[test]
fn standing_refuses_11_and_then_10() {
    for record in [short(), closed(short())] {
        assert!(record.standing(1, 2).is_ok());
        let no_such = Err(Refusal::plain(10));
        for (rule, position) in [(0, 1), (2, 1), (1, 0), (1, 3), (0, 0), (2, 3)] {
            assert_eq!(record.standing(rule, position), no_such);
        }
        for large in LARGE {
            assert_eq!(record.standing(large, 1), no_such);
            assert_eq!(record.standing(1, large), no_such);
        }
        let outside = outside(record);
        for (rule, position) in [(1, 1), (0, 1), (1, 0), (u64::MAX, u64::MAX)] {
            let refused = Err(Refusal::plain(11));
            assert_eq!(outside.standing(rule, position), refused);
        }
    }
}

#[test]
fn totals_refuse_11_and_then_10() {
    for record in [short(), closed(short())] {
        assert!(record.totals(1).is_ok());
        for rule in [0, 2, 16, 17].into_iter().chain(LARGE) {
            assert_eq!(record.totals(rule), Err(Refusal::plain(10)));
        }
        for rule in [0, 1, 2, u64::MAX] {
            let outside = outside(record.clone());
            assert_eq!(outside.totals(rule), Err(Refusal::plain(11)));
        }
    }
}

#[test]
fn a_run_without_rules_or_events_has_none_to_ask_for() {
    let no_rules = grown(&[], &[Event::new(0, 1)]);
    assert_eq!(no_rules.standing(1, 1), Err(Refusal::plain(10)));
    assert_eq!(no_rules.totals(1), Err(Refusal::plain(10)));
    let no_events = grown(&[rule()], &[]);
    assert_eq!(no_events.standing(1, 1), Err(Refusal::plain(10)));
    assert_eq!(no_events.totals(1), Ok(Totals::default()));
}

#[test]
fn sixteen_rules_and_256_positions_can_be_asked_for() {
    let events: Vec<Event> = (0..256).map(|t| Event::new(t, 9)).collect();
    let mut run = grown(&vec![rule(); 16], &events);
    run.standings[place(16, 256)] = Violated(256);
    run.count_totals();
    assert_eq!(run.standing(16, 256), Ok(Violated(256)));
    assert_eq!(run.standing(1, 1), Ok(Idle));
    assert_eq!(run.standing(17, 1), Err(Refusal::plain(10)));
    assert_eq!(run.standing(1, 257), Err(Refusal::plain(10)));
    let totals = run.totals(16).map(|t| (t.activations, t.violated));
    assert_eq!(totals, Ok((1, 1)));
}

#[test]
fn a_refused_take_does_not_judge_anew() {
    let mut record = short();
    record.standings[place(1, 1)] = Open;
    record.standings[place(1, 2)] = Idle;
    record.count_totals();
    for event in [WRONG, EARLY] {
        refused_take(&record, event);
    }
    assert_eq!(record.standing(1, 1), Ok(Open));
    let (next, answer) = record.take(GOOD);
    assert_eq!(answer, Ok(()));
    assert_eq!(next.standing(1, 1), Ok(Idle));
    assert_eq!(next.standing(1, 2), Ok(Fulfilled(3)));
}
