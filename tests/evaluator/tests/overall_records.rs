//! Position 0 through the calls: start, take, close, standing, totals, the tally,
//! the report and the notebook, and records that no call gave back. Derived by
//! hand from card 3 of document 02.

use evaluator::fabricate::fill_unread_overall;
use evaluator::random::Random;
use evaluator::stored::stored_texts;
use evaluator::Operator::{Equal, Less};
use evaluator::Standing::{self, Fulfilled, Idle, Open, Violated};
use evaluator::{absorb, grown, notebook, notebook_record, place, printed, report_of};
use evaluator::{read_cycle, read_rules, start, write_cycle, write_cycle_of, write_rules};
use evaluator::{Comparison, ConditionSlot, Event, Record, Refusal, Row, Rule, RuleSlot};
use evaluator::{TableRecord, Tally, Totals};

const OUTSIDE: Refusal = Refusal::plain(11);
const NO_SUCH: Refusal = Refusal::plain(10);

/// Existence, absence, choice and exclusive choice of 1 and 2 within 100, and a
/// response.
fn rules() -> Vec<Rule> {
    let overall = [13, 14, 15, 16].map(|code| Rule::new(code, 1, 2, 0, Some(100)));
    let response = Rule::new(2, 1, 2, 0, None);
    [&overall[..], &[response]].concat()
}

fn pairs(pairs: &[(u32, u8)]) -> Vec<Event> {
    pairs.iter().map(|(t, x)| Event::new(*t, *x)).collect()
}

fn run(events: &[(u32, u8)]) -> Record {
    grown(&rules(), &pairs(events))
}

fn take(record: Record, time: u32, activity: u8) -> Record {
    let (next, answer) = record.take(Event::new(time, activity));
    assert_eq!(answer, Ok(()));
    next
}

fn close(record: Record) -> Record {
    let (next, answer) = record.close();
    assert_eq!(answer, Ok(()));
    next
}

/// Position 0 of the rules 1 to 4.
fn at_0(record: &Record) -> [Standing; 4] {
    [1, 2, 3, 4].map(|rule| record.standing(rule, 0).expect("a standing"))
}

#[test]
fn position_0_is_judged_from_start_on() {
    let mut run = run(&[]);
    assert_eq!(at_0(&run), [Open; 4]);
    assert_eq!(run.overall[4..], [Idle; 12]);
    run = take(run, 50, 9);
    assert_eq!(at_0(&run), [Open; 4]);
    run = take(run, 60, 2);
    assert_eq!(at_0(&run), [Open, Open, Fulfilled(2), Open]);
    run = take(run, 149, 1);
    let decided = [Fulfilled(3), Violated(3), Fulfilled(2), Violated(2)];
    assert_eq!(at_0(&run), decided);
    assert_eq!(at_0(&close(run)), decided);
}

#[test]
fn a_rule_that_nothing_meets_is_decided_by_start() {
    let never = vec![Comparison::with_constant(3, Less, i32::MIN)];
    let rules = rules()
        .iter()
        .map(|rule| rule.clone().with_activation_condition(never.clone()))
        .collect::<Vec<Rule>>();
    let run = start(&TableRecord::of(&rules)).expect("a valid table");
    let none = Violated(0);
    assert_eq!(at_0(&run), [none, Fulfilled(0), none, none]);
    assert_eq!(at_0(&close(run)), [none, Fulfilled(0), none, none]);
}

#[test]
fn a_lapsed_window_decides() {
    let run = run(&[(50, 9), (60, 2), (150, 1)]);
    let decided = [Violated(0), Fulfilled(0), Fulfilled(2), Fulfilled(2)];
    assert_eq!(at_0(&run), decided);
}

/// "Close decides an open one by its formula. On an empty closed cycle 14 is
/// fulfilled, the others violated."
#[test]
fn close_decides_by_the_formula() {
    let none = Violated(0);
    let empty = close(run(&[]));
    assert_eq!(at_0(&empty), [none, Fulfilled(0), none, none]);
    let other = close(run(&[(50, 9)]));
    assert_eq!(at_0(&other), [none, Fulfilled(0), none, none]);
    let one_sided = close(run(&[(50, 9), (60, 2)]));
    let expected = [none, Fulfilled(0), Fulfilled(2), Fulfilled(2)];
    assert_eq!(at_0(&one_sided), expected);
}

#[test]
fn close_judges_an_open_one_that_no_call_left_open() {
    let mut record = run(&[(0, 9), (1, 1), (2, 2), (3, 1)]);
    record.overall[..4].fill(Open);
    record.count_totals();
    let expected = [Fulfilled(2), Violated(2), Fulfilled(2), Violated(2)];
    assert_eq!(at_0(&close(record)), expected);
}

/// "carried over .. all others follow from the events now in the record"
#[test]
fn take_carries_over_what_is_decided_and_judges_the_rest() {
    let mut record = run(&[(0, 9), (1, 1), (2, 9)]);
    let wrong = [Violated(3), Fulfilled(0), Violated(0), Fulfilled(3)];
    record.overall[..4].copy_from_slice(&wrong);
    record.count_totals();
    assert_eq!(at_0(&take(record.clone(), 3, 2)), wrong);
    assert_eq!(at_0(&close(record.clone())), wrong);
    record.overall[..4].fill(Open);
    record.count_totals();
    let judged = [Fulfilled(2), Violated(2), Fulfilled(2), Violated(2)];
    assert_eq!(at_0(&take(record.clone(), 3, 2)), judged);
    let one_sided = [Fulfilled(2), Violated(2), Fulfilled(2), Open];
    assert_eq!(at_0(&take(record, 3, 9)), one_sided);
}

/// "position 0 of other rules is 10"
#[test]
fn position_0_is_asked_for_under_13_to_16_alone() {
    for record in [run(&[]), run(&[(0, 1), (1, 2)]), close(run(&[(0, 9)]))] {
        for rule in 1..=4 {
            assert!(record.standing(rule, 0).is_ok());
        }
        for rule in [0, 5, 6, 17, u64::MAX] {
            assert_eq!(record.standing(rule, 0), Err(NO_SUCH), "{rule}");
        }
        let past = record.count + 1;
        for position in [past, 257, 1 << 32, u64::MAX] {
            assert_eq!(record.standing(1, position), Err(NO_SUCH), "{position}");
        }
        for position in 1..=record.count {
            assert_eq!(record.standing(4, position), Ok(Idle));
        }
    }
}

fn totals(activations: u16, fulfilled: u16, violated: u16, open: u16) -> Totals {
    Totals::with_numbers([activations, fulfilled, violated, open])
}

/// "its total activations is 1, so the sum .. hold for it too"
#[test]
fn totals_count_position_0_as_the_one_activation() {
    let all = |record: &Record| [1, 2, 3, 4, 5].map(|rule| record.totals(rule).expect("totals"));
    let open = totals(1, 0, 0, 1);
    assert_eq!(all(&run(&[]))[..4], [open; 4]);
    let record = run(&[(0, 1), (1, 1)]);
    let (fulfilled, violated) = (totals(1, 1, 0, 0), totals(1, 0, 1, 0));
    let expected = [fulfilled, violated, fulfilled, open, totals(2, 0, 0, 2)];
    assert_eq!(all(&record), expected);
    let expected = [
        fulfilled,
        violated,
        fulfilled,
        fulfilled,
        totals(2, 0, 2, 0),
    ];
    assert_eq!(all(&close(record)), expected);
}

#[test]
fn totals_leave_out_position_0_of_other_rules() {
    let mut record = run(&[(0, 1), (1, 1)]);
    let before = record.totals(5);
    for standing in [Open, Fulfilled(1), Violated(300)] {
        record.overall[4..].fill(standing);
        assert_eq!(record.totals(5), before);
    }
}

#[test]
fn the_tally_absorbs_one_activation() {
    let record = close(run(&[(0, 9), (1, 2)]));
    let mut day = Tally::default();
    for rule in 1..=4 {
        assert_eq!(absorb(&record, rule, &mut day), Ok(()));
    }
    let empty = close(run(&[]));
    assert_eq!(absorb(&empty, 2, &mut day), Ok(()));
    let fields = [day.cycles, day.activations, day.fulfilled, day.violated];
    assert_eq!(fields, [5, 5, 4, 1]);
}

fn text(record: &Record) -> String {
    String::from_utf8(report_of(record).expect("a valid run")).expect("ASCII")
}

/// "`report` prints it as position 0."
#[test]
fn a_report_has_position_0() {
    let record = run(&[(0, 9), (1, 2), (2, 2)]);
    let running = "1\t0\tO\t0\ntotal\t1\t1\t0\t0\n2\t0\tO\t0\ntotal\t2\t1\t0\t0\n\
        3\t0\tF\t2\ntotal\t3\t1\t1\t0\n4\t0\tO\t0\ntotal\t4\t1\t0\t0\n\
        total\t5\t0\t0\t0\n";
    assert_eq!(text(&record), running);
    let closed = "1\t0\tV\t0\ntotal\t1\t1\t0\t1\n2\t0\tF\t0\ntotal\t2\t1\t1\t0\n\
        3\t0\tF\t2\ntotal\t3\t1\t1\t0\n4\t0\tF\t2\ntotal\t4\t1\t1\t0\n\
        total\t5\t0\t0\t0\n";
    assert_eq!(text(&close(record)), closed);
    let cycle = "0\t9\t-\t-\t-\t-\n1\t2\t-\t-\t-\t-\n2\t2\t-\t-\t-\t-\n";
    assert_eq!(
        printed(&write_rules(&rules()), cycle.as_bytes()),
        closed.as_bytes()
    );
}

#[test]
fn an_empty_cycle_is_printed_with_position_0() {
    let expected = "1\t0\tV\t0\ntotal\t1\t1\t0\t1\n2\t0\tF\t0\ntotal\t2\t1\t1\t0\n\
        3\t0\tV\t0\ntotal\t3\t1\t0\t1\n4\t0\tV\t0\ntotal\t4\t1\t0\t1\n\
        total\t5\t0\t0\t0\n";
    assert_eq!(text(&close(run(&[]))), expected);
    assert_eq!(printed(&write_rules(&rules()), b""), expected.as_bytes());
}

#[test]
fn the_notebook_has_position_0() {
    let events = pairs(&[(0, 1), (1, 2), (2, 9)]);
    let texts = (write_rules(&rules()), write_cycle(&events));
    let overall = [Fulfilled(1), Violated(1), Fulfilled(1), Violated(1)];
    let mut expected: Vec<Row> = overall
        .map(|standing| Row {
            overall: Some(standing),
            events: vec![Idle; 3],
        })
        .to_vec();
    expected.push(Row {
        overall: None,
        events: vec![Fulfilled(2), Idle, Idle],
    });
    assert_eq!(notebook(&texts.0, &texts.1), Ok(expected));
    let closed = close(grown(&rules(), &events));
    assert_eq!(notebook_record(&texts.0, &texts.1), Ok(closed));
}

#[test]
fn the_text_of_such_rules_is_read_back() {
    let text = "13\t1\t1\t0\t-\t-\t-\n14\t64\t1\t5\t9\t1g-7,4!0\t-\n\
        15\t1\t2\t0\t4294967295\t2<3\t-\n16\t9\t10\t4294967295\t-\t-\t-\n";
    let rules = read_rules(text.as_bytes()).expect("rules");
    assert_eq!(
        rules.iter().map(|rule| rule.code).collect::<Vec<u8>>(),
        [13, 14, 15, 16]
    );
    // The target of 13 is kept, though it is not judged.
    assert_eq!((rules[0].target, rules[1].target), (1, 1));
    assert_eq!(write_rules(&rules), text.as_bytes());
}

/// Whether every call on the record is refused with 11, and nothing changes.
fn is_outside(record: &Record) -> bool {
    let mut tally = Tally::default();
    let taken = record.clone().take(Event::new(u32::MAX, 1));
    let closed = record.clone().close();
    let answers = [
        taken.1.err(),
        closed.1.err(),
        record.standing(1, 0).err(),
        record.standing(5, 0).err(),
        record.totals(1).err(),
        absorb(record, 1, &mut tally).err(),
        write_cycle_of(record, &mut [0; 16_000]).err(),
        report_of(record).err(),
    ];
    let outside = answers.iter().filter(|a| **a == Some(OUTSIDE)).count();
    assert!(outside == 0 || outside == answers.len(), "{answers:?}");
    if outside > 0 {
        assert!(taken.0 == *record && closed.0 == *record && tally == Tally::default());
    }
    outside > 0
}

/// A run of three events, closed or not.
fn base(closed: bool) -> Record {
    let record = run(&[(5, 1), (6, 9), (7, 2)]);
    match closed {
        true => close(record),
        false => record,
    }
}

/// Whether it is refused with a change and with totals that fit it.
fn changed(closed: bool, change: impl FnOnce(&mut Record)) -> bool {
    let mut record = base(closed);
    change(&mut record);
    record.count_totals();
    is_outside(&record)
}

#[test]
fn idle_at_0_is_11() {
    for closed in [false, true] {
        assert!(!is_outside(&base(closed)));
        for rule in 0..4 {
            assert!(changed(closed, |run| run.overall[rule] = Idle));
        }
    }
}

#[test]
fn not_idle_at_an_event_is_11() {
    for closed in [false, true] {
        for rule in 1..=4 {
            for position in [1, 2, 3, 4, 256] {
                for standing in [Open, Fulfilled(0), Fulfilled(1), Violated(2)] {
                    let at = place(rule, position);
                    assert!(changed(closed, |run| run.standings[at] = standing));
                }
            }
        }
    }
}

#[test]
fn a_target_at_0_is_at_most_the_event_count() {
    for closed in [false, true] {
        for rule in 0..4 {
            for target in [0, 1, 2, 3] {
                assert!(!changed(closed, |run| run.overall[rule] = Fulfilled(target)));
                assert!(!changed(closed, |run| run.overall[rule] = Violated(target)));
            }
            for target in [4, 256, 257, 65_535] {
                assert!(changed(closed, |run| run.overall[rule] = Fulfilled(target)));
                assert!(changed(closed, |run| run.overall[rule] = Violated(target)));
            }
        }
    }
}

#[test]
fn open_at_0_in_a_closed_run_is_11() {
    for rule in 0..4 {
        assert!(!changed(false, |run| run.overall[rule] = Open));
        assert!(changed(true, |run| run.overall[rule] = Open));
    }
    let mut empty = run(&[]);
    empty.closed = true;
    assert!(is_outside(&empty));
}

/// "position 0 of other rules is 10, in a record unread": it is neither checked nor
/// changed.
#[test]
fn position_0_of_other_rules_and_of_unused_slots_is_unread() {
    for closed in [false, true] {
        for standing in [Open, Fulfilled(4), Violated(65_535)] {
            for rule in [4, 5, 15] {
                assert!(!changed(closed, |run| run.overall[rule] = standing));
            }
        }
    }
    let mut random = Random::new(81);
    let mut record = base(false);
    fill_unread_overall(&mut random, &mut record);
    let unread = record.overall[4..].to_vec();
    assert!(unread.iter().any(|standing| *standing != Idle));
    let next = take(record, 8, 9);
    assert_eq!(next.overall[4..], unread);
    assert_eq!(close(next).overall[4..], unread);
}

/// Whether start refuses the table of the rules with one of them changed.
fn table_is_outside(rule: usize, change: impl Fn(&mut RuleSlot)) -> bool {
    let mut table = TableRecord::of(&rules());
    change(&mut table.rules[rule - 1]);
    let outside = changed(false, |run| change(&mut run.table.rules[rule - 1]));
    assert_eq!(start(&table).err(), outside.then_some(OUTSIDE));
    outside
}

/// "in a table record it is 11"
#[test]
fn a_rule_that_does_not_fit_its_template_is_11() {
    let equal = |rule| table_is_outside(rule, |slot| slot.target = slot.activation);
    assert_eq!(
        [1, 2, 3, 4, 5].map(equal),
        [false, false, true, true, false]
    );
    let comparison = Comparison::with_constant(1, Equal, 0);
    let correlation = ConditionSlot::of(&[comparison]);
    let correlated = |rule| table_is_outside(rule, |slot| slot.correlation = correlation);
    assert_eq!(
        [1, 2, 3, 4, 5].map(correlated),
        [true, true, true, true, false]
    );
    let condition = |rule| table_is_outside(rule, |slot| slot.activation_condition = correlation);
    assert_eq!([1, 2, 3, 4, 5].map(condition), [false; 5]);
    // A comparison past the count is none.
    let past = ConditionSlot {
        count: 0,
        ..correlation
    };
    assert!(!table_is_outside(4, |slot| slot.correlation = past));
}

/// A code that asks for the other kind of standings is 11 in the record alone.
#[test]
fn a_changed_code_asks_for_other_standings() {
    assert!(changed(false, |run| run.table.rules[4].code = 13));
    let overall = |run: &mut Record| {
        run.table.rules[4].code = 13;
        run.overall[4] = Open;
        run.standings[place(5, 1)] = Idle;
    };
    assert!(!changed(false, overall));
    // Under 2 position 0 is unread and the events may be idle.
    assert!(!changed(false, |run| run.table.rules[0].code = 2));
    assert!(!changed(false, |run| run.table.rules[0].code = 16));
    assert!(changed(false, |run| run.table.rules[0].code = 17));
}

/// The example log-flume: position 0 of a rule after start, after each take and
/// after close, as its live.md has it.
#[test]
fn the_log_flume_while_it_runs() {
    let stored = stored_texts();
    let flume = stored.iter().find(|s| s.folder.ends_with("log-flume"));
    let flume = flume.expect("the example");
    let rules = read_rules(flume.rules.as_ref().expect("rules")).expect("valid rules");
    let cycle = read_cycle(flume.cycle.as_ref().expect("a cycle")).expect("a valid cycle");
    for (rule, open, decided) in [
        (1, 3, Fulfilled(3)),
        (2, 7, Fulfilled(4)),
        (3, 12, Fulfilled(0)),
        (4, 9, Fulfilled(9)),
        (5, 12, Fulfilled(0)),
        (6, 11, Violated(4)),
    ] {
        let asked = |run: &Record| run.standing(rule, 0).expect("a standing");
        let live = (0..=11).map(|taken| asked(&grown(&rules, &cycle[..taken])));
        let closed = asked(&close(grown(&rules, &cycle)));
        let found: Vec<Standing> = live.chain([closed]).collect();
        let expected = [vec![Open; open], vec![decided; 13 - open]].concat();
        assert_eq!(found, expected, "rule {rule}");
    }
}

/// "the continuation having no limit on length": a full run may be open.
#[test]
fn a_full_run_is_open_until_close() {
    let record = grown(&rules(), &[Event::new(7, 9); 256]);
    assert_eq!(at_0(&record), [Open; 4]);
    let (_, answer) = record.clone().take(Event::new(7, 1));
    assert_eq!(answer, Err(Refusal::at(8, 0)));
    let none = Violated(0);
    assert_eq!(at_0(&close(record)), [none, Fulfilled(0), none, none]);
}
