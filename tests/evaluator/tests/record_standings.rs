//! Standings through start, take, close and totals: the edge cycles, the
//! listing, and records that no call gave back.

use evaluator::Operator::{Equal, Less};
use evaluator::Standing::{self, Fulfilled, Idle, Open, Violated};
use evaluator::{grown, place, start, Comparison, Event, Record, Rule, TableRecord, Totals};

fn plain(code: u8) -> Rule {
    Rule::new(code, 1, 2, 0, None)
}

fn sum(operator: evaluator::Operator, k: i32) -> Vec<Comparison> {
    vec![Comparison::with_activation(1, operator, 1, k)]
}

/// The run of one rule after these takes; none is refused.
fn run(rule: &Rule, events: &[Event]) -> Record {
    let mut run = start(&TableRecord::of(std::slice::from_ref(rule))).expect("a valid table");
    for event in events {
        let (next, answer) = run.take(*event);
        assert_eq!(answer, Ok(()));
        run = next;
    }
    run
}

fn pairs(pairs: &[(u32, u8)]) -> Vec<Event> {
    pairs.iter().map(|(t, x)| Event::new(*t, *x)).collect()
}

/// The standings of rule 1 at the taken positions.
fn row(record: &Record) -> Vec<Standing> {
    (1..=record.count)
        .map(|position| record.standing(1, position).expect("a standing"))
        .collect()
}

fn take(record: Record, time: u32, activity: u8) -> Record {
    let (next, answer) = record.take(Event::new(time, activity));
    assert_eq!(answer, Ok(()));
    next
}

fn close(record: Record) -> Record {
    let (next, answer) = record.close();
    assert_eq!(answer, Ok(()));
    assert!(next.closed);
    next
}

#[test]
fn start_gives_an_empty_run() {
    let table = TableRecord::of(&[plain(2), plain(8)]);
    let run = start(&table).expect("a valid table");
    assert!(!run.closed);
    assert_eq!(run.table, table);
    assert_eq!(run.count, 0);
    assert_eq!(run.events, vec![Event::new(0, 1); 256]);
    assert_eq!(run.standings, vec![Idle; 4096]);
}

#[test]
fn start_copies_the_slots_past_the_count_too() {
    let mut table = TableRecord::of(&[plain(2)]);
    table.rules[9].code = 77;
    table.rules[9].a = 5;
    assert_eq!(start(&table).map(|run| run.table), Ok(table));
}

#[test]
fn c1_and_c2_window_of_500() {
    let rule = Rule::new(2, 1, 2, 0, Some(500));
    let after = |time, activity| row(&run(&rule, &pairs(&[(0, 1), (time, activity)])));
    assert_eq!(after(499, 2), [Fulfilled(2), Idle]);
    assert_eq!(after(500, 2), [Violated(0), Idle]);
    assert_eq!(after(499, 9), [Open, Idle]);
    assert_eq!(after(500, 9), [Violated(0), Idle]);
}

#[test]
fn c3_window_from_the_largest_time() {
    let rule = Rule::new(2, 1, 2, 4_294_967_295, None);
    assert_eq!(row(&run(&rule, &pairs(&[(0, 1)]))), [Open]);
    assert_eq!(row(&run(&rule, &pairs(&[(1, 1)]))), [Violated(0)]);
}

#[test]
fn c4_c5_and_c10_readings_out_of_reach() {
    let at = |rule: &Rule, reading| row(&run(rule, &[Event::new(0, 1).with_reading(1, reading)]));
    let below = plain(2).with_correlation(sum(Less, 0));
    assert_eq!(at(&below, -2_147_483_648), [Violated(0)]);
    assert_eq!(at(&below, -2_147_483_647), [Open]);
    let same = plain(9).with_correlation(sum(Equal, 0));
    assert_eq!(row(&run(&same, &[Event::new(0, 1)])), [Fulfilled(0)]);
    let above = plain(2).with_correlation(sum(Equal, 1));
    assert_eq!(at(&above, 2_147_483_647), [Violated(0)]);
}

#[test]
fn c6_and_c7_activation_and_target_of_one_activity() {
    let response = Rule::new(2, 1, 1, 0, None);
    assert_eq!(row(&run(&response, &pairs(&[(0, 1)]))), [Fulfilled(1)]);
    let alternate = Rule::new(3, 1, 1, 0, None);
    let two = run(&alternate, &pairs(&[(0, 1), (0, 1)]));
    assert_eq!(row(&two), [Fulfilled(2), Open]);
    assert_eq!(row(&close(two)), [Fulfilled(2), Violated(0)]);
}

#[test]
fn c8_window_runs_from_the_activation() {
    let rule = Rule::new(3, 1, 2, 0, Some(100));
    let mut record = run(&rule, &pairs(&[(0, 1), (80, 9)]));
    assert_eq!(row(&record), [Open, Idle]);
    record = take(record, 150, 2);
    assert_eq!(row(&record), [Violated(0), Idle, Idle]);
}

#[test]
fn c9_chain_precedence_at_position_1() {
    assert_eq!(row(&run(&plain(7), &pairs(&[(0, 1)]))), [Violated(0)]);
    assert_eq!(row(&run(&plain(12), &pairs(&[(0, 1)]))), [Fulfilled(0)]);
}

/// The listing of document 01.
fn listing() -> Record {
    let rules = [
        Rule::new(2, 1, 2, 0, Some(500)),
        Rule::new(6, 3, 2, 0, None).with_correlation(sum(Equal, 0)),
    ];
    let cycle = [(0, 1), (400, 2), (400, 3), (900, 3), (1000, 1), (1500, 2)];
    let events = cycle.map(|(time, activity)| Event::new(time, activity).with_reading(1, 7));
    grown(&rules, &events)
}

fn totals(activations: u16, fulfilled: u16, violated: u16, open: u16) -> Totals {
    Totals::with_numbers([activations, fulfilled, violated, open])
}

#[test]
fn the_listing_through_the_calls() {
    let run = close(listing());
    let expected = [Fulfilled(2), Idle, Idle, Idle, Violated(0), Idle];
    assert_eq!(row(&run), expected);
    let second: Vec<Standing> = (1..=6).flat_map(|p| run.standing(2, p)).collect();
    let expected = [Idle, Idle, Fulfilled(2), Violated(0), Idle, Idle];
    assert_eq!(second, expected);
    assert_eq!(run.totals(1), Ok(totals(2, 1, 1, 0)));
    assert_eq!(run.totals(2), Ok(totals(2, 1, 1, 0)));
}

#[test]
fn totals_count_open_standings_before_closing() {
    // Response without a target: one fulfilled, two open, one idle event.
    let record = run(&plain(2), &pairs(&[(0, 1), (1, 2), (2, 1), (3, 9), (3, 1)]));
    assert_eq!(row(&record), [Fulfilled(2), Idle, Open, Idle, Open]);
    assert_eq!(record.totals(1), Ok(totals(3, 1, 0, 2)));
    assert_eq!(close(record).totals(1), Ok(totals(3, 1, 2, 0)));
}

#[test]
fn totals_count_what_a_fabricated_record_says() {
    let mut record = run(&plain(2), &pairs(&[(0, 9), (1, 9), (2, 9), (3, 9)]));
    record.standings[place(1, 1)] = Fulfilled(4);
    record.standings[place(1, 2)] = Violated(0);
    record.standings[place(1, 4)] = Open;
    // Neither rows past the table nor slots past the count are counted.
    record.standings[place(2, 1)] = Fulfilled(1);
    record.count_totals();
    assert_eq!(record.totals(1), Ok(totals(3, 1, 1, 1)));
}

#[test]
fn close_turns_open_into_violated_for_1_to_7_and_fulfilled_for_8_to_12() {
    let rules: Vec<Rule> = (1..=12).map(plain).collect();
    let mut record = grown(&rules, &pairs(&[(0, 9), (0, 9), (0, 9), (0, 9)]));
    for rule in 1..=12 {
        record.standings[place(rule, 1)] = Open;
        record.standings[place(rule, 2)] = Fulfilled(3);
        record.standings[place(rule, 3)] = Violated(4);
    }
    record.count_totals();
    let record = close(record);
    for rule in 1..=12 {
        let closed = if rule <= 7 { Violated(0) } else { Fulfilled(0) };
        let row: Vec<Standing> = (1..=4).flat_map(|p| record.standing(rule, p)).collect();
        assert_eq!(row, [closed, Fulfilled(3), Violated(4), Idle], "{rule}");
    }
}

#[test]
fn close_judges_nothing_anew() {
    // Position 1 is an activation and fulfilled by position 2; position 3 is
    // no activation.
    let mut record = run(&plain(2), &pairs(&[(0, 1), (1, 2), (2, 9)]));
    record.standings[place(1, 1)] = Idle;
    record.standings[place(1, 3)] = Open;
    record.count_totals();
    assert_eq!(row(&close(record)), [Idle, Idle, Violated(0)]);
}

#[test]
fn decided_standings_are_carried_over_right_or_wrong() {
    let mut record = run(&plain(2), &pairs(&[(0, 1), (1, 2), (2, 1), (3, 9), (4, 9)]));
    assert_eq!(row(&record), [Fulfilled(2), Idle, Open, Idle, Idle]);
    record.standings[place(1, 1)] = Violated(5);
    record.standings[place(1, 3)] = Fulfilled(0);
    record.standings[place(1, 4)] = Violated(1);
    record.standings[place(1, 5)] = Fulfilled(5);
    record.count_totals();
    let record = take(take(record, 5, 2), 6, 1);
    let kept = [Violated(5), Idle, Fulfilled(0), Violated(1), Fulfilled(5)];
    assert_eq!(row(&record), [&kept[..], &[Idle, Open]].concat());
    let closed = close(record);
    assert_eq!(row(&closed), [&kept[..], &[Idle, Violated(0)]].concat());
}

#[test]
fn undecided_standings_follow_from_the_events_in_the_record() {
    // Rule: response in 0 to 10. Position 1 is fulfilled by 2, position 3 has
    // no target in its window, position 4 waits for one.
    let rule = Rule::new(2, 1, 2, 0, Some(10));
    let mut record = run(&rule, &pairs(&[(0, 1), (5, 2), (20, 1), (31, 1)]));
    assert_eq!(row(&record), [Fulfilled(2), Idle, Violated(0), Open]);
    for stale in [Idle, Open] {
        for position in 1..=4 {
            record.standings[place(1, position)] = stale;
        }
        record.count_totals();
        let next = take(record.clone(), 32, 9);
        let expected = [Fulfilled(2), Idle, Violated(0), Open, Idle];
        assert_eq!(row(&next), expected);
    }
}

#[test]
fn a_take_names_the_nearest_only_where_it_judges() {
    // Responded existence: of 1, 2, 4 and 5 the nearest to the activation at 3
    // is 2, and to the one at 6 it is 5.
    let events = pairs(&[(0, 2), (1, 2), (2, 1), (3, 2), (4, 2)]);
    let record = run(&plain(1), &events);
    for kept in [1, 2, 4, 5].map(Fulfilled) {
        let mut record = record.clone();
        record.standings[place(1, 3)] = kept;
        record.count_totals();
        let expected = [Idle, Idle, kept, Idle, Idle, Fulfilled(5)];
        assert_eq!(row(&take(record, 5, 1)), expected);
    }
    for stale in [Idle, Open] {
        let mut record = record.clone();
        record.standings[place(1, 3)] = stale;
        record.count_totals();
        let expected = [Idle, Idle, Fulfilled(2), Idle, Idle, Fulfilled(5)];
        assert_eq!(row(&take(record, 5, 1)), expected);
    }
}

#[test]
fn a_stale_open_at_no_activation_becomes_idle() {
    let mut record = run(&plain(2), &pairs(&[(0, 9), (0, 1)]));
    record.standings[place(1, 1)] = Open;
    record.count_totals();
    assert_eq!(row(&take(record, 0, 9)), [Idle, Open, Idle]);
}

#[test]
fn changed_events_count_as_the_taken_ones() {
    let mut record = run(&plain(2), &pairs(&[(0, 1), (0, 9), (0, 9)]));
    assert_eq!(row(&record), [Open, Idle, Idle]);
    record.events[1].activity = 2;
    record.events[2].activity = 1;
    let expected = [Fulfilled(2), Idle, Open, Idle];
    assert_eq!(row(&take(record, 0, 9)), expected);
}

#[test]
fn a_changed_table_judges_the_undecided_positions() {
    let mut record = run(&plain(2), &pairs(&[(0, 3), (0, 1), (0, 2), (0, 1)]));
    assert_eq!(row(&record), [Idle, Fulfilled(3), Idle, Open]);
    record.table = TableRecord::of(&[plain(9)]);
    // Not response: position 2 keeps its standing.
    let expected = [Idle, Fulfilled(3), Idle, Violated(5), Idle];
    assert_eq!(row(&take(record, 0, 2)), expected);
}

#[test]
fn a_lowered_count_forgets_the_events_past_it() {
    let mut record = run(&plain(2), &pairs(&[(0, 1), (5, 2), (9, 9)]));
    record.count = 1;
    record.standings[place(1, 1)] = Open;
    record.count_totals();
    let next = take(record.clone(), 3, 9);
    assert_eq!(row(&next), [Open, Idle]);
    assert_eq!(next.events[1], Event::new(3, 9));
    assert_eq!(next.events[2..], record.events[2..]);
}

#[test]
fn a_raised_rule_count_takes_in_the_next_row() {
    let mut record = grown(&[plain(2)], &pairs(&[(0, 1), (0, 2)]));
    record.table.rules[1] = record.table.rules[0];
    record.table.count = 2;
    record.standings[place(2, 2)] = Violated(2);
    record.count_totals();
    let next = take(record, 0, 9);
    let second: Vec<Standing> = (1..=3).flat_map(|p| next.standing(2, p)).collect();
    assert_eq!(second, [Fulfilled(2), Violated(2), Idle]);
}

#[test]
fn take_and_close_leave_what_they_do_not_read() {
    let mut record = run(&plain(2), &pairs(&[(0, 1)]));
    record.table.rules[1].code = 200;
    record.table.rules[15].correlation.count = 99;
    for at in 1..256 {
        record.events[at] = Event::new(at as u32, 0).with_reading(2, 5);
    }
    for place in place(2, 1)..4096 {
        record.standings[place] = Open;
    }
    let next = close(take(record.clone(), 7, 9));
    assert_eq!(row(&next), [Violated(0), Idle]);
    assert_eq!(next.table, record.table);
    assert_eq!(next.events[0], Event::new(0, 1));
    assert_eq!(next.events[1], Event::new(7, 9));
    assert_eq!(next.events[2..], record.events[2..]);
    assert_eq!(next.standings[2..256], [Idle; 254]);
    assert_eq!(next.standings[256..], [Open; 3840]);
}

#[test]
fn an_open_standing_of_a_full_run_stays_open_until_close() {
    // "the continuation having no limit on length"
    let mut events = vec![Event::new(0, 9); 255];
    events.push(Event::new(0, 1));
    let record = grown(&[plain(2), plain(9)], &events);
    assert_eq!(record.standing(1, 256), Ok(Open));
    assert_eq!(record.standing(2, 256), Ok(Open));
    let record = close(record);
    assert_eq!(record.standing(1, 256), Ok(Violated(0)));
    assert_eq!(record.standing(2, 256), Ok(Fulfilled(0)));
}
