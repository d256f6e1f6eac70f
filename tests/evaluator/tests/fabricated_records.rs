//! Records with fields set as no call sets them: which are refused with 11, and
//! what the accepted calls change.

use evaluator::fabricate::{fabricated, fill_unused, random_event, random_record};
use evaluator::notices::random_notice;
use evaluator::random::Random;
use evaluator::Standing::{self, Fulfilled, Idle, Open, Violated};
use evaluator::{absorb, place, start, write_cycle_of, write_report_of, write_rules_of};
use evaluator::{ConditionSlot, Record, Reference, Refusal, Row, RuleSlot, Tally, Totals};
use std::collections::BTreeMap;

const OUTSIDE: Refusal = Refusal::plain(11);

/// What 11 names in one condition.
fn wrong_condition(slot: &ConditionSlot, correlation: bool) -> bool {
    if slot.count > 4 {
        return true;
    }
    let mut used = slot.comparisons[..slot.count as usize].iter();
    used.any(|comparison| {
        let wrong_reference = match comparison.reference {
            Reference::Constant(_) => false,
            Reference::Activation { reading, .. } => !correlation || !(1..=4).contains(&reading),
        };
        wrong_reference || !(1..=4).contains(&comparison.reading)
    })
}

fn wrong_rule(rule: &RuleSlot) -> bool {
    rule.code == 0
        || rule.code > 16
        || rule.activation == 0
        || rule.activation > 64
        || rule.target == 0
        || rule.target > 64
        || rule.end.is_some_and(|end| end <= rule.a)
        || wrong_condition(&rule.activation_condition, false)
        || wrong_condition(&rule.correlation, true)
        || (rule.code > 12 && rule.correlation.count > 0)
        || (rule.code > 14 && rule.activation == rule.target)
}

fn wrong_table(record: &Record) -> bool {
    let count = record.table.count;
    count > 16 || record.table.rules[..count as usize].iter().any(wrong_rule)
}

fn wrong_events(record: &Record) -> bool {
    let events = &record.events[..record.count as usize];
    let wrong_activity = events.iter().any(|e| e.activity == 0 || e.activity > 64);
    let mut sorted: Vec<u32> = events.iter().map(|event| event.time).collect();
    sorted.sort();
    wrong_activity || events.iter().map(|event| event.time).ne(sorted)
}

fn wrong_standing(record: &Record, position: u64, standing: Standing) -> bool {
    match standing {
        Idle => false,
        _ if position > record.count => true,
        Open => record.closed,
        Fulfilled(target) | Violated(target) => u64::from(target) > record.count,
    }
}

fn wrong_standings(record: &Record, rule: usize) -> bool {
    let overall = record.table.rules[rule - 1].code > 12;
    let at_0 = record.overall[rule - 1];
    let wrong_at_0 = overall && (at_0 == Idle || wrong_standing(record, 0, at_0));
    wrong_at_0
        || (1..=256).any(|position| {
            let standing = record.standings[place(rule, position)];
            let idle = standing == Idle;
            overall && !idle || wrong_standing(record, position as u64, standing)
        })
}

/// The totals of a rule, one standing after the other. Position 0 of a rule 13 to
/// 16 is one of its positions.
fn totals_of(record: &Record, rule: usize) -> Totals {
    let overall = record.table.rules[rule - 1].code > 12;
    let mut totals = Totals::default();
    for position in usize::from(!overall)..=record.count as usize {
        let standing = match position {
            0 => record.overall[rule - 1],
            _ => record.standings[place(rule, position)],
        };
        let kind = match standing {
            Idle => continue,
            Open => &mut totals.open,
            Fulfilled(_) => &mut totals.fulfilled,
            Violated(_) => &mut totals.violated,
        };
        *kind += 1;
        totals.activations += 1;
    }
    totals
}

fn wrong_totals(record: &Record, rule: usize) -> bool {
    record.totals[rule - 1] != totals_of(record, rule)
}

fn any_rule(record: &Record, wrong: fn(&Record, usize) -> bool) -> bool {
    (1..=record.table.count as usize).any(|rule| wrong(record, rule))
}

/// Cause 11 but for the totals, as one question after the other.
fn is_outside_otherwise(record: &Record) -> bool {
    wrong_table(record)
        || record.count > 256
        || wrong_events(record)
        || any_rule(record, wrong_standings)
}

/// Cause 11.
fn is_outside(record: &Record) -> bool {
    is_outside_otherwise(record) || any_rule(record, wrong_totals)
}

fn random_fabricated(random: &mut Random) -> Record {
    let mut record = random_record(random, 7);
    if random.one_in(3) {
        fill_unused(random, &mut record);
    }
    let changes = random.pick(&[0, 1, 1, 1, 2, 3]);
    fabricated(random, record, changes)
}

#[test]
fn every_call_refuses_the_same_records_with_11() {
    let mut random = Random::new(41);
    let (mut seen, mut by_totals) = ([0; 2], 0);
    for _ in 0..4000 {
        let record = random_fabricated(&mut random);
        let outside = is_outside(&record);
        seen[usize::from(outside)] += 1;
        by_totals += usize::from(outside && !is_outside_otherwise(&record));
        let event = random_event(&mut random, &record);
        let mut tally = Tally::default();
        let rule = random.bits() % 4;
        let answers = [
            record.clone().take(event).1.err(),
            record
                .clone()
                .notice(random.bits() >> random.below(64))
                .1
                .err(),
            record.clone().close().1.err(),
            record.standing(rule, random.bits() % 9).err(),
            record.totals(rule).err(),
            absorb(&record, rule, &mut tally).err(),
            write_cycle_of(&record, &mut [0; 16_000]).err(),
            write_cycle_of(&record, &mut []).err(),
            write_report_of(&record, &mut [0; 16_000]).err(),
            write_report_of(&record, &mut []).err(),
        ];
        for answer in answers {
            assert_eq!(answer == Some(OUTSIDE), outside, "{answers:?}");
        }
        let answers = [
            start(&record.table).err(),
            write_rules_of(&record.table, &mut [0; 3000]).err(),
            write_rules_of(&record.table, &mut []).err(),
        ];
        for answer in answers {
            assert_eq!(answer == Some(OUTSIDE), wrong_table(&record));
        }
    }
    assert!(seen.iter().all(|count| *count > 1000), "{seen:?}");
    assert!(by_totals > 200, "{by_totals}");
}

/// The time of the last event or the kept one, whichever is later.
fn later_time(record: &Record) -> u32 {
    let last = match record.count {
        1..=256 => record.events[record.count as usize - 1].time,
        _ => 0,
    };
    if record.clock > last {
        record.clock
    } else {
        last
    }
}

#[test]
fn refusals_of_take_come_in_their_order() {
    let mut random = Random::new(42);
    let mut seen: BTreeMap<Option<Refusal>, usize> = BTreeMap::new();
    for _ in 0..4000 {
        let record = random_fabricated(&mut random);
        let event = random_event(&mut random, &record);
        let last = later_time(&record);
        let expected = if is_outside(&record) {
            Some(OUTSIDE)
        } else if record.closed {
            Some(Refusal::plain(9))
        } else if event.activity == 0 || event.activity > 64 {
            Some(Refusal::at(3, 0))
        } else if event.time < last {
            Some(Refusal::at(7, 0))
        } else if record.count == 256 {
            Some(Refusal::at(8, 0))
        } else {
            None
        };
        let (next, answer) = record.clone().take(event);
        assert_eq!(answer.err(), expected);
        assert!(answer.is_ok() || next == record);
        *seen.entry(expected).or_default() += 1;
    }
    let numbers: Vec<u8> = seen
        .keys()
        .flatten()
        .map(|refusal| refusal.number)
        .collect();
    assert_eq!(numbers, [3, 7, 8, 9, 11], "{seen:?}");
    assert!(seen[&None] > 500, "{seen:?}");
}

#[test]
fn refusals_of_notices_come_in_their_order() {
    let mut random = Random::new(50);
    let mut seen: BTreeMap<Option<Refusal>, usize> = BTreeMap::new();
    let mut full = 0;
    for _ in 0..4000 {
        let record = random_fabricated(&mut random);
        let time = random_notice(&mut random, &record);
        let expected = if is_outside(&record) {
            Some(OUTSIDE)
        } else if record.closed {
            Some(Refusal::plain(9))
        } else if time >= 1 << 32 {
            Some(Refusal::at(3, 0))
        } else if time < later_time(&record) as u64 {
            Some(Refusal::at(7, 0))
        } else {
            None
        };
        let (next, answer) = record.clone().notice(time);
        assert_eq!(answer.err(), expected);
        assert!(answer.is_ok() || next == record);
        full += usize::from(answer.is_ok() && record.count == 256);
        *seen.entry(expected).or_default() += 1;
    }
    let numbers: Vec<u8> = seen.keys().flatten().map(|r| r.number).collect();
    assert_eq!(numbers, [3, 7, 9, 11], "{seen:?}");
    assert!(seen[&None] > 500, "{seen:?}");
    assert!(full > 0);
}

/// What an accepted notice may change: the kept time, the undecided standings of the
/// table's rules up to the count, position 0 of the rules about the cycle among
/// them, and the totals of these rules, which fit.
#[test]
fn a_notice_changes_nothing_else() {
    let mut random = Random::new(51);
    let mut accepted = 0;
    for _ in 0..3000 {
        let before = random_fabricated(&mut random);
        let time = random_notice(&mut random, &before);
        let (after, answer) = before.clone().notice(time);
        if answer.is_err() {
            continue;
        }
        accepted += 1;
        let mut expected = before.clone();
        expected.clock = time as u32;
        for rule in 1..=before.table.count as usize {
            for position in 1..=before.count as usize {
                let at = place(rule, position);
                if !before.standings[at].is_decided() {
                    expected.standings[at] = after.standings[at];
                }
            }
            if before.table.rules[rule - 1].code > 12 && before.overall[rule - 1] == Open {
                expected.overall[rule - 1] = after.overall[rule - 1];
            }
            expected.totals[rule - 1] = totals_of(&after, rule);
        }
        assert!(after == expected);
    }
    assert!(accepted > 500, "{accepted}");
}

/// What an accepted take may change: the count, one event slot, the undecided
/// standings of the table's rules up to the new count, position 0 of the rules
/// about the cycle among them, and the totals of these rules, which fit.
#[test]
fn take_changes_nothing_else() {
    let mut random = Random::new(43);
    let mut accepted = 0;
    for _ in 0..3000 {
        let before = random_fabricated(&mut random);
        let event = random_event(&mut random, &before);
        let (after, answer) = before.clone().take(event);
        if answer.is_err() {
            continue;
        }
        accepted += 1;
        let mut expected = before.clone();
        expected.events[before.count as usize] = event;
        expected.count += 1;
        for rule in 1..=before.table.count as usize {
            for position in 1..=expected.count as usize {
                let at = place(rule, position);
                if !before.standings[at].is_decided() {
                    expected.standings[at] = after.standings[at];
                }
            }
            if before.table.rules[rule - 1].code > 12 && before.overall[rule - 1] == Open {
                expected.overall[rule - 1] = after.overall[rule - 1];
            }
            expected.totals[rule - 1] = totals_of(&after, rule);
        }
        assert!(after == expected);
    }
    assert!(accepted > 500, "{accepted}");
}

/// What an accepted close may change: the phase, the open standings of the table's
/// rules, and the totals of these rules, which fit.
#[test]
fn close_changes_nothing_else() {
    let mut random = Random::new(48);
    let (mut accepted, mut turned) = (0, 0);
    for _ in 0..3000 {
        let before = random_fabricated(&mut random);
        let (after, answer) = before.clone().close();
        if answer.is_err() {
            continue;
        }
        accepted += 1;
        let mut expected = before.clone();
        expected.closed = true;
        for rule in 1..=before.table.count as usize {
            for at in place(rule, 1)..=place(rule, 256) {
                if before.standings[at] == Open {
                    expected.standings[at] = after.standings[at];
                }
            }
            if before.table.rules[rule - 1].code > 12 && before.overall[rule - 1] == Open {
                expected.overall[rule - 1] = after.overall[rule - 1];
            }
            expected.totals[rule - 1] = totals_of(&after, rule);
            assert_eq!(after.totals[rule - 1].open, 0);
            turned += before.totals[rule - 1].open;
        }
        assert!(after == expected);
    }
    assert!(accepted > 500 && turned > 300, "{accepted} {turned}");
}

/// Without decided standings a record is judged by its events alone: closing it
/// after a take gives the verdicts of the finished cycle.
#[test]
fn undecided_records_close_with_the_finished_verdicts() {
    let mut random = Random::new(44);
    let mut judged = 0;
    for _ in 0..3000 {
        let mut record = random_fabricated(&mut random);
        for standing in &mut record.standings {
            let undecided = random.pick(&[Idle, Open]);
            *standing = if standing.is_decided() {
                undecided
            } else {
                *standing
            };
        }
        // A rule about the cycle is not idle there.
        record.overall = record.overall.map(|s| if s == Idle { s } else { Open });
        record.count_totals();
        let event = random_event(&mut random, &record);
        let (next, answer) = record.take(event);
        if answer.is_err() {
            continue;
        }
        let (closed, answer) = next.close();
        assert_eq!(answer, Ok(()));
        let events = &closed.events[..closed.count as usize];
        let rules = closed.table.rules().expect("a valid table");
        for (index, rule) in rules.iter().enumerate() {
            let first = place(index + 1, 1);
            let row = Row {
                overall: rule.is_overall().then_some(closed.overall[index]),
                events: closed.standings[first..first + events.len()].to_vec(),
            };
            assert_eq!(row, Row::of(rule, events), "{rule:?} {events:?}");
            judged += events.len();
        }
    }
    assert!(judged > 1000, "{judged}");
}

#[test]
fn totals_and_tally_agree_with_the_standings() {
    let mut random = Random::new(45);
    let mut counted = 0;
    for _ in 0..2000 {
        let record = random_fabricated(&mut random);
        if is_outside(&record) {
            continue;
        }
        for rule in 1..=record.table.count {
            let row: Vec<Standing> = (0..=record.count)
                .filter_map(|position| record.standing(rule, position).ok())
                .collect();
            let overall = record.table.rules[rule as usize - 1].code > 12;
            assert_eq!(row.len() as u64, record.count + u64::from(overall));
            let totals = record.totals(rule).expect("totals");
            let number = |kind: fn(Standing) -> bool| row.iter().filter(|s| kind(**s)).count();
            assert_eq!(totals.open, number(|s| s == Open) as u16);
            assert_eq!(totals.fulfilled, number(Standing::is_fulfilled) as u16);
            assert_eq!(totals.violated, number(Standing::is_violated) as u16);
            let sum = totals.fulfilled + totals.violated + totals.open;
            assert_eq!(totals.activations, sum);
            let mut tally = Tally::default();
            let absorbed = absorb(&record, rule, &mut tally).is_ok();
            assert_eq!(absorbed, record.closed);
            let expected = if absorbed {
                (1, u32::from(totals.activations))
            } else {
                (0, 0)
            };
            assert_eq!((tally.cycles, tally.activations), expected);
            counted += row.len();
        }
    }
    assert!(counted > 1000, "{counted}");
}

#[test]
fn the_same_seed_gives_the_same_records() {
    let records = |seed| {
        let mut random = Random::new(seed);
        (0..20)
            .map(|_| random_fabricated(&mut random))
            .collect::<Vec<_>>()
    };
    assert!(records(46) == records(46));
    assert!(records(46) != records(47));
}
