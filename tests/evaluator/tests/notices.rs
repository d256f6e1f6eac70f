//! Card 7: the clock notice. Its refusals, what it decides, and what it leaves as it
//! was.

use evaluator::notices::{lapsing_rules, random_call, Call};
use evaluator::random::Random;
use evaluator::Standing::{self, Fulfilled, Idle, Open, Violated};
use evaluator::{grown, notebook_record, place, start, write_cycle, write_rules};
use evaluator::{Comparison, Event, Operator, Record, Refusal, Rule, TableRecord};
use std::collections::BTreeMap;

const LAST: u32 = u32::MAX;
const ABOVE: [u64; 4] = [1 << 32, (1 << 32) + 20, 1 << 63, u64::MAX];

fn response() -> Rule {
    Rule::new(2, 1, 2, 0, Some(500))
}

fn at(time: u32, activity: u8) -> Event {
    Event::new(time, activity)
}

/// A response at position 2, the last event at 20.
fn short() -> Record {
    grown(&[response()], &[at(10, 9), at(20, 1)])
}

fn noticed(record: Record, time: u32) -> Record {
    let (next, answer) = record.notice(u64::from(time));
    assert_eq!(answer, Ok(()), "a notice at {time}");
    next
}

fn taken(record: Record, event: Event) -> Record {
    let (next, answer) = record.take(event);
    assert_eq!(answer, Ok(()), "{event:?}");
    next
}

fn closed(record: Record) -> Record {
    let (next, answer) = record.close();
    assert_eq!(answer, Ok(()));
    next
}

/// The refusal of a notice, which leaves the whole record as it was.
fn refused(record: &Record, time: u64) -> Refusal {
    let (next, answer) = record.clone().notice(time);
    assert!(next == *record, "a refused notice changed the record");
    answer.expect_err("a refusal")
}

fn refused_take(record: &Record, event: Event) -> Refusal {
    let (next, answer) = record.clone().take(event);
    assert!(next == *record, "a refused take changed the record");
    answer.expect_err("a refusal")
}

/// The standing of a lone rule at a position after a notice.
fn after(rule: &Rule, events: &[Event], time: u32, position: u64) -> Standing {
    let record = noticed(grown(std::slice::from_ref(rule), events), time);
    record.standing(1, position).expect("a standing")
}

mod refusals {
    use super::*;

    /// A record that 11 names: its second event has no activity.
    fn outside(mut record: Record) -> Record {
        record.events[1].activity = 0;
        record
    }

    #[test]
    fn a_record_outside_the_limits_comes_first() {
        let low = noticed(short(), 30);
        for record in [low.clone(), closed(low)].map(outside) {
            for time in ABOVE.into_iter().chain([0, 19, 29, 30, 40]) {
                assert_eq!(refused(&record, time), Refusal::plain(11));
            }
        }
    }

    #[test]
    fn a_closed_run_is_next() {
        for record in [closed(short()), closed(noticed(short(), 30))] {
            for time in ABOVE.into_iter().chain([0, 19, 20, 30, 40]) {
                assert_eq!(refused(&record, time), Refusal::plain(9));
            }
        }
    }

    #[test]
    fn a_time_outside_the_range_is_next() {
        for record in [short(), noticed(short(), LAST)] {
            for time in ABOVE {
                assert_eq!(refused(&record, time), Refusal::at(3, 0));
            }
        }
        assert_eq!(noticed(short(), LAST).clock, LAST);
    }

    #[test]
    fn a_time_below_the_last_event_or_notice_is_last() {
        for time in [0, 10, 19] {
            assert_eq!(refused(&short(), time), Refusal::at(7, 0));
        }
        let later = noticed(short(), 30);
        for time in [0, 19, 20, 29] {
            assert_eq!(refused(&later, time), Refusal::at(7, 0));
        }
        // The event is the later one again.
        let later = taken(later, at(40, 9));
        for time in [29, 30, 39] {
            assert_eq!(refused(&later, time), Refusal::at(7, 0));
        }
        let empty = noticed(grown(&[response()], &[]), 5);
        assert_eq!(refused(&empty, 4), Refusal::at(7, 0));
    }

    #[test]
    fn the_same_time_again_is_accepted() {
        let record = noticed(short(), 20);
        assert_eq!(record.clock, 20);
        assert!(noticed(record.clone(), 20) == record);
        let empty = grown(&[response()], &[]);
        assert!(noticed(empty.clone(), 0) == empty);
        let record = noticed(noticed(short(), 30), 30);
        assert_eq!(record.clock, 30);
    }

    #[test]
    fn a_full_run_may_be_given_a_notice() {
        let full = grown(&[response()], &[at(20, 1); 256]);
        assert_eq!(refused(&full, 19), Refusal::at(7, 0));
        assert_eq!(refused(&full, 1 << 32), Refusal::at(3, 0));
        let later = noticed(full.clone(), 520);
        assert_eq!(later.count, 256);
        assert!(later.events == full.events);
        assert_eq!(later.totals[0].numbers(), [256, 0, 256, 0]);
        // A take has 7 before 8.
        assert_eq!(refused_take(&later, at(519, 2)), Refusal::at(7, 0));
        assert_eq!(refused_take(&later, at(520, 2)), Refusal::at(8, 0));
    }

    #[test]
    fn an_event_below_a_notice_is_not_taken() {
        let record = noticed(short(), 30);
        for time in [0, 19, 20, 29] {
            assert_eq!(refused_take(&record, at(time, 2)), Refusal::at(7, 0));
            assert_eq!(refused_take(&record, at(time, 65)), Refusal::at(3, 0));
        }
        let record = taken(record, at(30, 2));
        assert_eq!((record.count, record.clock), (3, 30));
        assert_eq!(record.standing(1, 2), Ok(Fulfilled(3)));
        // The first event may not be below a notice either.
        let empty = noticed(grown(&[response()], &[]), 5);
        assert_eq!(refused_take(&empty, at(4, 2)), Refusal::at(7, 0));
        assert_eq!(taken(empty, at(5, 2)).count, 1);
    }
}

mod windows {
    use super::*;

    /// C2 with a notice in place of the last event.
    #[test]
    fn a_response_lapses() {
        let rule = Rule::new(2, 1, 2, 100, Some(500));
        for time in [0, 7, LAST - 500] {
            let activation = [at(time, 1)];
            assert_eq!(after(&rule, &activation, time + 499, 1), Open);
            assert_eq!(after(&rule, &activation, time + 500, 1), Violated(0));
        }
        // So late that no event can be outside the window.
        let late = [at(LAST - 499, 1)];
        assert_eq!(after(&rule, &late, LAST, 1), Open);
    }

    #[test]
    fn the_negatives_lapse_to_fulfilled() {
        for code in [8, 9, 11] {
            let rule = Rule::new(code, 1, 2, 0, Some(500));
            assert_eq!(after(&rule, &[at(7, 1)], 506, 1), Open, "code {code}");
            let lapsed = after(&rule, &[at(7, 1)], 507, 1);
            assert_eq!(lapsed, Fulfilled(0), "code {code}");
        }
    }

    #[test]
    fn every_template_that_waits_lapses_to_violated() {
        for code in [1, 2, 3, 4] {
            let rule = Rule::new(code, 1, 2, 0, Some(500));
            assert_eq!(after(&rule, &[at(7, 1)], 506, 1), Open, "code {code}");
            let lapsed = after(&rule, &[at(7, 1)], 507, 1);
            assert_eq!(lapsed, Violated(0), "code {code}");
        }
    }

    #[test]
    fn a_window_without_end_stays_open() {
        for code in [1, 2, 3, 4, 8, 9, 11] {
            let rule = Rule::new(code, 1, 2, 0, None);
            assert_eq!(after(&rule, &[at(7, 1)], LAST, 1), Open, "code {code}");
        }
        for code in 13..=16 {
            let rule = Rule::new(code, 1, 2, 0, None);
            assert_eq!(after(&rule, &[at(7, 9)], LAST, 0), Open, "code {code}");
            assert_eq!(after(&rule, &[], LAST, 0), Open, "code {code}");
        }
    }

    #[test]
    fn a_notice_and_the_activation_at_one_time_decide_nothing() {
        let rule = Rule::new(2, 1, 2, 0, Some(1));
        assert_eq!(after(&rule, &[at(7, 1)], 7, 1), Open);
        assert_eq!(after(&rule, &[at(7, 1)], 8, 1), Violated(0));
    }

    /// "neighbours in the chain templates stay neighbours"
    #[test]
    fn neighbours_stay_neighbours() {
        for (code, decided) in [(4, Fulfilled(2)), (11, Violated(2))] {
            let rule = Rule::new(code, 1, 2, 0, Some(500));
            let record = noticed(grown(&[rule], &[at(0, 1)]), 400);
            assert_eq!(record.standing(1, 1), Ok(Open), "code {code}");
            let record = taken(noticed(record, 450), at(499, 2));
            assert_eq!(record.standing(1, 1), Ok(decided), "code {code}");
        }
        for (code, decided) in [(7, Fulfilled(1)), (12, Violated(1))] {
            let rule = Rule::new(code, 1, 2, 0, Some(500));
            let record = noticed(grown(&[rule], &[at(0, 2)]), 400);
            let record = taken(record, at(499, 1));
            assert_eq!(record.standing(1, 2), Ok(decided), "code {code}");
        }
    }

    /// The events alone say what was eligible: a notice is no activation between.
    #[test]
    fn a_notice_is_no_event_between() {
        let rule = Rule::new(3, 1, 2, 0, None);
        let record = taken(noticed(grown(&[rule], &[at(0, 1)]), 400), at(400, 2));
        assert_eq!(record.standing(1, 1), Ok(Fulfilled(2)));
        assert_eq!(record.standing(1, 3), Err(Refusal::plain(10)));
    }
}

mod position_0 {
    use super::*;

    fn empty_verdict(code: u8) -> Standing {
        if code == 14 {
            Fulfilled(0)
        } else {
            Violated(0)
        }
    }

    /// "An empty run": the first event comes at the notice or later.
    #[test]
    fn without_an_event_the_window_has_to_begin_in_the_range() {
        for code in 13..=16 {
            for (a, b) in [(0, None), (100, None), (100, Some(101)), (LAST, None)] {
                let rule = Rule::new(code, 1, 2, a, b);
                assert_eq!(after(&rule, &[], 0, 0), Open, "{rule:?}");
                assert_eq!(after(&rule, &[], LAST - a, 0), Open, "{rule:?}");
                if a > 0 {
                    let late = after(&rule, &[], LAST - a + 1, 0);
                    assert_eq!(late, empty_verdict(code), "{rule:?}");
                }
            }
        }
    }

    #[test]
    fn from_the_first_event_on_the_window_lapses() {
        let events = [at(7, 9), at(8, 9)];
        for code in 13..=16 {
            let rule = Rule::new(code, 1, 2, 100, Some(500));
            assert_eq!(after(&rule, &events, 506, 0), Open, "code {code}");
            let lapsed = after(&rule, &events, 507, 0);
            assert_eq!(lapsed, empty_verdict(code), "code {code}");
        }
    }

    #[test]
    fn one_side_of_an_exclusive_choice_is_decided() {
        let rule = Rule::new(16, 1, 2, 0, Some(500));
        let events = [at(7, 9), at(8, 2)];
        assert_eq!(after(&rule, &events, 506, 0), Open);
        assert_eq!(after(&rule, &events, 507, 0), Fulfilled(2));
    }

    #[test]
    fn a_decided_one_stays() {
        let (seen, unseen) = (
            Rule::new(13, 1, 2, 0, Some(500)),
            Rule::new(14, 1, 2, 0, None),
        );
        assert_eq!(after(&seen, &[at(7, 1)], LAST, 0), Fulfilled(1));
        assert_eq!(after(&unseen, &[at(7, 1)], LAST, 0), Violated(1));
    }

    #[test]
    fn a_condition_that_nothing_meets_is_decided_at_start() {
        let never = vec![Comparison::with_constant(1, Operator::Greater, i32::MAX)];
        let rule = Rule::new(13, 1, 2, 0, None).with_activation_condition(never);
        assert_eq!(after(&rule, &[], 0, 0), Violated(0));
    }
}

mod the_record {
    use super::*;

    #[test]
    fn only_a_notice_changes_the_kept_time() {
        let record = start(&TableRecord::of(&[response()])).expect("a valid table");
        assert_eq!(record.clock, 0);
        let record = taken(record, at(20, 1));
        assert_eq!(record.clock, 0);
        let record = noticed(record, 30);
        assert_eq!(record.clock, 30);
        let record = taken(record, at(40, 9));
        assert_eq!(record.clock, 30);
        let record = closed(record);
        assert_eq!(record.clock, 30);
        let again = start(&record.table).expect("a valid table");
        assert_eq!(again.clock, 0);
    }

    #[test]
    fn the_notebook_keeps_no_time() {
        let texts = (write_rules(&[response()]), write_cycle(&[at(20, 1)]));
        let record = notebook_record(&texts.0, &texts.1).expect("a run");
        assert_eq!(record.clock, 0);
    }

    /// The count, the events and the slots past the count are as they were.
    #[test]
    fn a_notice_takes_no_position() {
        let record = short();
        let later = noticed(record.clone(), 520);
        assert_eq!(later.standing(1, 2), Ok(Violated(0)));
        assert_eq!(later.totals[0].numbers(), [1, 0, 1, 0]);
        assert_eq!(later.standing(1, 3), Err(Refusal::plain(10)));
        let mut expected = record;
        expected.clock = 520;
        expected.standings[place(1, 2)] = Violated(0);
        expected.count_totals();
        assert!(later == expected);
    }

    /// No kept time is a cause of 11, in a run that is closed or not.
    #[test]
    fn any_kept_time_is_within_the_limits() {
        for clock in [0, 1, 19, 20, 21, LAST - 1, LAST] {
            for mut record in [short(), closed(short())] {
                record.clock = clock;
                assert!(record.standing(1, 2).is_ok());
                assert!(record.totals(1).is_ok());
                let refusal = record.clone().notice(1 << 32).1.expect_err("a refusal");
                assert_ne!(refusal.number, 11);
                let (next, answer) = record.clone().close();
                assert_eq!(answer.is_ok(), !record.closed);
                assert_eq!(next.clock, clock);
            }
        }
    }

    /// A kept time below the events: the last event is the later one.
    #[test]
    fn a_kept_time_below_the_events_changes_nothing() {
        let rule = Rule::new(2, 1, 2, 0, Some(5));
        let mut record = grown(&[rule], &[at(0, 1), at(20, 1)]);
        record.standings[place(1, 1)] = Open;
        record.standings[place(1, 2)] = Idle;
        record.clock = 3;
        record.count_totals();
        assert_eq!(refused(&record, 19), Refusal::at(7, 0));
        assert_eq!(refused_take(&record, at(19, 2)), Refusal::at(7, 0));
        let later = noticed(record.clone(), 20);
        assert_eq!(later.standing(1, 1), Ok(Violated(0)));
        assert_eq!(later.standing(1, 2), Ok(Open));
        let later = taken(record, at(20, 2));
        assert_eq!(later.standing(1, 1), Ok(Violated(0)));
        assert_eq!(later.standing(1, 2), Ok(Fulfilled(3)));
        assert_eq!(later.clock, 3);
    }

    /// A kept time above the events: windows that it ends are over at the next call,
    /// which is not below it.
    #[test]
    fn a_kept_time_above_the_events_is_the_later_one() {
        let mut record = short();
        record.clock = 520;
        assert_eq!(record.standing(1, 2), Ok(Open));
        assert_eq!(refused(&record, 519), Refusal::at(7, 0));
        assert_eq!(refused_take(&record, at(519, 2)), Refusal::at(7, 0));
        let later = noticed(record.clone(), 520);
        assert_eq!(later.standing(1, 2), Ok(Violated(0)));
        let later = taken(record, at(520, 2));
        assert_eq!(later.standing(1, 2), Ok(Violated(0)));
    }

    /// Decided standings stay, whatever the events say; idle and open ones follow from
    /// the events.
    #[test]
    fn decided_standings_are_carried_over() {
        let events = [at(0, 1), at(1, 2), at(2, 1), at(3, 1)];
        let mut record = grown(&[response()], &events);
        let row = [Violated(4), Open, Idle, Fulfilled(0)];
        record.standings[..4].copy_from_slice(&row);
        record.count_totals();
        let later = noticed(record, 501);
        let expected = [Violated(4), Idle, Open, Fulfilled(0)];
        assert_eq!(later.standings[..4], expected);
        assert_eq!(later.totals[0].numbers(), [3, 1, 1, 1]);
        let later = noticed(later, 502);
        let expected = [Violated(4), Idle, Violated(0), Fulfilled(0)];
        assert_eq!(later.standings[..4], expected);
    }

    /// Closing an open activation, and one that a notice decided: the same.
    #[test]
    fn closing_is_the_same_with_and_without_notices() {
        let rules: Vec<Rule> = (1..=16)
            .map(|code| Rule::new(code, 1, 2, 0, Some(500)))
            .collect();
        for events in [&[][..], &[at(7, 1)], &[at(0, 9), at(7, 2), at(9, 1)]] {
            let plain = closed(grown(&rules, events));
            for time in [9, 506, 507, 509, LAST] {
                let mut other = closed(noticed(grown(&rules, events), time));
                assert_eq!(other.clock, time);
                other.clock = 0;
                assert!(other == plain, "{events:?} {time}");
            }
        }
    }
}

/// The list of the taken events and the kept time, from the calls alone.
#[derive(Default)]
struct Course {
    events: Vec<Event>,
    clock: u32,
}

impl Course {
    fn later(&self) -> u32 {
        let times = self.events.iter().map(|event| event.time);
        times.chain([self.clock]).max().unwrap_or(0)
    }

    fn listed(&mut self, call: Call) -> Result<(), Refusal> {
        match call {
            Call::Take(event) if event.activity == 0 || event.activity > 64 => {
                return Err(Refusal::at(3, 0));
            }
            Call::Take(event) if event.time < self.later() => return Err(Refusal::at(7, 0)),
            Call::Take(_) if self.events.len() == 256 => return Err(Refusal::at(8, 0)),
            Call::Take(event) => self.events.push(event),
            Call::Notice(time) if time > 4_294_967_295 => return Err(Refusal::at(3, 0)),
            Call::Notice(time) if time < self.later() as u64 => return Err(Refusal::at(7, 0)),
            Call::Notice(time) => self.clock = time as u32,
        }
        Ok(())
    }
}

/// Random lists of calls: the answers and the record follow from the list, decided
/// standings stay, and closing leaves what it leaves without the notices.
#[test]
fn lists_of_takes_and_notices() {
    let mut random = Random::new(71);
    let mut answers = BTreeMap::new();
    let mut decided_by_notices = 0;
    for round in 0..2400 {
        let rules = lapsing_rules(&mut random, [0, 1, 1, 2, 3, 16][round % 6]);
        let mut record = start(&TableRecord::of(&rules)).expect("a valid table");
        let mut course = Course::default();
        for _ in 0..random.below(24) {
            let call = random_call(&mut random, &record);
            let (next, answer) = record.clone().call(call);
            assert_eq!(answer, course.listed(call), "{call:?}");
            assert!(answer.is_ok() || next == record);
            let is_notice = matches!(call, Call::Notice(_));
            let cells = |r: &Record| [&r.standings[..], &r.overall].concat();
            for (old, new) in cells(&record).iter().zip(&cells(&next)) {
                assert!(!old.is_decided() || old == new);
                decided_by_notices += usize::from(is_notice && old != new);
            }
            *answers.entry((is_notice, answer)).or_insert(0) += 1;
            record = next;
            assert_eq!(record.clock, course.clock);
            assert_eq!(record.events[..record.count as usize], course.events);
        }
        let mut closed = closed(record);
        assert_eq!(closed.clock, course.clock);
        closed.clock = 0;
        assert!(closed == self::closed(grown(&rules, &course.events)));
        let texts = (write_rules(&rules), write_cycle(&course.events));
        assert!(notebook_record(&texts.0, &texts.1) == Ok(closed));
    }
    let refusals = [Err(Refusal::at(3, 0)), Err(Refusal::at(7, 0))];
    for is_notice in [false, true] {
        for answer in [Ok(())].iter().chain(&refusals) {
            let count = answers.get(&(is_notice, *answer)).copied().unwrap_or(0);
            assert!(count >= 100, "{is_notice} {answer:?}: {count}");
        }
    }
    assert_eq!(answers.len(), 6, "{answers:?}");
    let [takes, notices] = [false, true].map(|is_notice| answers[&(is_notice, Ok(()))]);
    assert!(notices * 5 > takes && notices < takes, "{answers:?}");
    assert!(decided_by_notices >= 1000, "{decided_by_notices}");
}

/// The last four times of the range, in which a world is small.
const END: std::ops::RangeInclusive<u32> = LAST - 3..=LAST;

/// The events at these times of an activation, a target and another activity.
fn events_from(earliest: u32) -> Vec<Event> {
    let times = END.filter(|time| *time >= earliest);
    let all = times.flat_map(|time| [1, 2, 9].map(|activity| at(time, activity)));
    all.collect()
}

/// Demand 3's words on every continuation by at most two events that begins no
/// earlier than `earliest`.
fn exact(rule: &Rule, events: &[Event], earliest: u32, position: usize) -> Standing {
    let verdict = |added: &[Event]| {
        let cycle = [events, added].concat();
        evaluator::verdict(rule, &cycle, position)
    };
    let mut found = vec![verdict(&[])];
    for first in events_from(earliest) {
        found.push(verdict(&[first]));
        let seconds = events_from(first.time).into_iter();
        found.extend(seconds.map(|second| verdict(&[first, second])));
    }
    match found.iter().all(|standing| *standing == found[0]) {
        true => found[0],
        false => Open,
    }
}

/// Compares every standing of a run with the continuations, and then of the runs
/// that one call more gives; the number of runs.
fn compare_all(record: &Record, rules: &[Rule], calls: usize) -> usize {
    let events = record.events[..record.count as usize].to_vec();
    let earliest = events.iter().map(|event| event.time).chain([record.clock]);
    let earliest = earliest.max().expect("a kept time");
    for (number, rule) in (1..).zip(rules) {
        let positions = if rule.is_overall() {
            0..=0
        } else {
            1..=events.len()
        };
        for position in positions {
            let found = record.standing(number, position as u64);
            let expected = exact(rule, &events, earliest, position);
            assert_eq!(found, Ok(expected), "{rule:?} {events:?} {earliest}");
        }
    }
    if calls == 0 {
        return 1;
    }
    let takes = events_from(earliest).into_iter().map(Call::Take);
    let notices = END.filter(|time| *time >= earliest);
    let notices = notices.map(|time| Call::Notice(u64::from(time)));
    let next = takes.chain(notices).map(|call| {
        let (next, answer) = record.clone().call(call);
        assert_eq!(answer, Ok(()), "{call:?}");
        compare_all(&next, rules, calls - 1)
    });
    1 + next.sum::<usize>()
}

/// "For every list of takes and notices the early verdicts are exact in that sense":
/// every list of at most three calls at the last four times.
#[test]
fn every_list_at_the_end_of_the_range() {
    for (a, b) in [(0, None), (0, Some(2)), (1, Some(3)), (2, None)] {
        let rules: Vec<Rule> = (1..=16).map(|code| Rule::new(code, 1, 2, a, b)).collect();
        let record = start(&TableRecord::of(&rules)).expect("a valid table");
        let record = noticed(record, *END.start());
        // Of each length the lists of times that do not fall, four calls at each time.
        assert_eq!(
            compare_all(&record, &rules, 3),
            1 + 4 * 4 + 10 * 16 + 20 * 64
        );
    }
}
