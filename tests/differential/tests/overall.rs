//! Rules about the cycle as such: position 0, live, closed, from texts, and in
//! records that no call grew. `probe` is needed with the commands on tables and
//! runs, z, N, v, p, A, b and B.

use differential::cases::causes::{overall_allowed, overall_base, overall_causes};
use differential::cases::overall::{case, listed_case, stale_case, LISTED};
use differential::cases::records::{allowed_case, cause_case};
use differential::compare::agree;
use differential::counts::{Counts, SHOWN};
use differential::probe::Probe;
use differential::script::{table_of, Case, Session};
use evaluator::fabricate::fill_unread_overall;
use evaluator::random::Random;
use evaluator::Operator::{Greater, Less};
use evaluator::Standing::{Fulfilled, Open, Violated};
use evaluator::{Comparison, Event, Record, Refusal, Rule, Standing};

/// What a rule that follows from its events can show, in the order of [`SHOWN`].
fn possible(code: u8) -> [bool; 6] {
    match code {
        13 | 15 => [true, true, false, true, true, false],
        14 => [true, true, true, false, false, true],
        _ => [true, true, false, true, true, true],
    }
}

/// Each of these rules has shown every standing that it can have, and no other.
fn every_standing_is_shown(counts: &Counts, least: usize) {
    for code in 13..=16 {
        let found = counts.standings_of(code);
        for ((count, possible), name) in found.iter().zip(possible(code)).zip(SHOWN) {
            assert!(possible || *count == 0, "code {code} {name}: {count}");
            let enough = !possible || *count >= least;
            assert!(enough, "code {code} {name}: {count}");
        }
    }
}

#[test]
fn random_runs() {
    let counts = agree(&Probe::find(), (10_000_000..10_000_600).map(case));
    assert_eq!(counts.cases, 600);
    assert_eq!([counts.answered('s', 0), counts.answered('N', 0)], [600; 2]);
    assert_eq!([0, 9].map(|number| counts.answered('x', number)), [600; 2]);
    assert_eq!([counts.calls('p'), counts.answered('p', 0)], [600; 2]);
    assert_eq!(counts.answered('v', 0), 2 * 600);
    assert!(counts.answered('e', 0) >= 2000);
    assert_eq!(counts.numbers('e'), [0, 3, 7, 9]);
    // Position 0 of other rules is 10, as is that of no rule.
    assert!(counts.answered('g', 0) >= 10_000 && counts.answered('g', 10) >= 10_000);
    assert_eq!(counts.numbers('g'), [0, 10]);
    assert!(counts.dumps('z') >= 5000 && counts.dumps('D') >= 5000);
    every_standing_is_shown(&counts, 300);
}

#[test]
fn random_records() {
    let counts = agree(&Probe::find(), (10_100_000..10_100_800).map(stale_case));
    assert_eq!(counts.cases, 800);
    assert!(counts.answered('e', 0) >= 1000 && counts.answered('e', 11) >= 50);
    assert!(counts.answered('x', 0) >= 500 && counts.answered('x', 9) >= 500);
    assert!(counts.answered('g', 11) >= 100 && counts.answered('o', 11) >= 10);
    assert!(counts.dumps('D') >= 3000);
    // Any standing is carried over, also such as do not follow from the events.
    for code in 13..=16 {
        let found = counts.standings_of(code);
        assert!(found.iter().all(|count| *count >= 150), "{code}: {found:?}");
    }
}

fn in_both_phases(runs: fn(bool) -> Vec<(String, Record)>) -> Vec<Record> {
    let both = [false, true].into_iter().flat_map(runs);
    both.map(|(_, run)| run).collect()
}

/// Each cause alone, also where 9, 10, 3 or 7 would be next.
#[test]
fn each_cause_of_11() {
    let runs = in_both_phases(overall_causes);
    let number = runs.len();
    assert!(number >= 250, "{number}");
    let misfits = runs.iter().filter(|run| run.table.rules().is_none());
    let misfits = misfits.count();
    let cases = (0..).zip(runs);
    let counts = agree(&Probe::find(), cases.map(|(n, run)| cause_case(n, run)));
    assert_eq!(counts.answered('e', 11), 4 * number);
    assert_eq!(counts.answered('k', 11), 4 * number);
    for letter in ['e', 'k', 'x', 'g', 'o', 'b'] {
        assert_eq!(counts.numbers(letter), [11]);
    }
    assert!(misfits >= 36, "{misfits}");
    assert_eq!(counts.answered('s', 11), misfits);
    assert_eq!(counts.dumps('D'), 7 * number);
}

/// What is within the limits, and any standing at position 0 of other rules and of
/// unused slots.
#[test]
fn what_is_no_cause_of_11() {
    let (running, closed) = (overall_allowed(false), overall_allowed(true));
    let number = [running.len(), closed.len()];
    assert!(number.iter().all(|number| *number >= 50), "{number:?}");
    let runs = (0..).zip(running.into_iter().chain(closed));
    let cases = runs.map(|(number, (_, run))| allowed_case(number, run));
    let counts = agree(&Probe::find(), cases);
    assert_eq!(counts.answered('e', 0), number[0]);
    assert_eq!(counts.answered('e', 9), 4 * number[1]);
    assert_eq!(counts.answered('k', 0), number[0]);
    assert_eq!(counts.answered('k', 9), 4 * number[1]);
    assert_eq!(counts.numbers('g'), [0, 10]);
    assert_eq!(counts.numbers('s'), [0]);
}

/// A rule, events, and the standing at position 0 after start, after each take and
/// after close.
struct Edge {
    rule: Rule,
    events: Vec<Event>,
    live: Vec<Standing>,
    closed: Standing,
}

fn edge(rule: &Rule, events: &[Event], live: &[Standing], closed: Standing) -> Edge {
    assert_eq!(live.len(), events.len() + 1);
    Edge {
        rule: rule.clone(),
        events: events.to_vec(),
        live: live.to_vec(),
        closed,
    }
}

fn at(time: u32, activity: u8) -> Event {
    Event::new(time, activity)
}

fn rule(code: u8, a: u32, b: Option<u32>) -> Rule {
    Rule::new(code, 1, 2, a, b)
}

const NONE: Standing = Violated(0);

/// Windows at their ends: a is inside, b outside, both counted from the first event.
fn edges_of_windows() -> Vec<Edge> {
    let (within, without) = (rule(13, 10, Some(20)), rule(14, 10, Some(20)));
    let late = rule(13, u32::MAX, None);
    let two = [Open, Open];
    let lapsed = [&two[..], &[NONE]].concat();
    let mut edges = vec![
        edge(&late, &[at(0, 9)], &two, NONE),
        edge(&late, &[at(1, 9)], &[Open, NONE], NONE),
        edge(
            &late,
            &[at(0, 9), at(u32::MAX, 1)],
            &[Open, Open, Fulfilled(2)],
            Fulfilled(2),
        ),
        edge(
            &rule(13, 0, Some(1)),
            &[at(7, 1)],
            &[Open, Fulfilled(1)],
            Fulfilled(1),
        ),
        edge(&rule(13, 1, None), &[at(7, 1)], &two, NONE),
        edge(&rule(13, 1, None), &[at(u32::MAX, 1)], &[Open, NONE], NONE),
        edge(&rule(13, 0, None), &[at(u32::MAX, 9)], &two, NONE),
    ];
    for first in [0, 5, u32::MAX - 25] {
        let events = |time| [at(first, 1), at(first + time, 1)];
        let (fits, breaks) = (Fulfilled(2), Violated(2));
        edges.push(edge(&within, &events(9), &[Open; 3], NONE));
        edges.push(edge(&within, &events(10), &[Open, Open, fits], fits));
        edges.push(edge(&within, &events(19), &[Open, Open, fits], fits));
        edges.push(edge(&within, &events(20), &lapsed, NONE));
        edges.push(edge(&without, &events(9), &[Open; 3], Fulfilled(0)));
        edges.push(edge(&without, &events(19), &[Open, Open, breaks], breaks));
        let over = Fulfilled(0);
        edges.push(edge(&without, &events(20), &[Open, Open, over], over));
    }
    edges
}

/// One activity and the other.
fn edges_of_activities() -> Vec<Edge> {
    let (choice, exclusive) = (rule(15, 0, Some(10)), rule(16, 0, Some(10)));
    let (second, both) = (Fulfilled(2), Violated(2));
    let one = [at(5, 9), at(6, 2), at(15, 9)];
    let two = [at(5, 9), at(6, 2), at(14, 1)];
    let late = [at(5, 9), at(6, 1), at(15, 2)];
    let none = [at(5, 9), at(14, 3), at(15, 1)];
    vec![
        edge(&choice, &one, &[Open, Open, second, second], second),
        edge(&choice, &two, &[Open, Open, second, second], second),
        edge(&choice, &none, &[Open, Open, Open, NONE], NONE),
        edge(&exclusive, &one, &[Open, Open, Open, second], second),
        edge(&exclusive, &one[..2], &[Open; 3], second),
        edge(&exclusive, &two, &[Open, Open, Open, both], both),
        edge(&exclusive, &late, &[Open, Open, Open, second], second),
        edge(&exclusive, &none, &[Open, Open, Open, NONE], NONE),
        // The target activity is not judged.
        edge(&rule(13, 0, None), &[at(0, 2)], &[Open; 2], NONE),
        edge(&rule(14, 0, None), &[at(0, 2)], &[Open; 2], Fulfilled(0)),
        edge(
            &Rule::new(13, 1, 1, 0, None),
            &[at(0, 1)],
            &[Open, Fulfilled(1)],
            Fulfilled(1),
        ),
    ]
}

/// No events, and conditions that no readings meet.
fn edges_of_start() -> Vec<Edge> {
    let mut edges = Vec::new();
    for code in 13..=16 {
        let empty = match code {
            14 => Fulfilled(0),
            _ => NONE,
        };
        edges.push(edge(&rule(code, 0, None), &[], &[Open], empty));
        edges.push(edge(&rule(code, u32::MAX, None), &[], &[Open], empty));
        for (operator, k) in [(Less, i32::MIN), (Greater, i32::MAX)] {
            let never = vec![Comparison::with_constant(4, operator, k)];
            let rule = rule(code, 0, None).with_activation_condition(never);
            edges.push(edge(&rule, &[], &[empty], empty));
            edges.push(edge(&rule, &[at(0, 1), at(0, 2)], &[empty; 3], empty));
        }
    }
    edges
}

fn edge_case(number: u64, edge: &Edge) -> Case {
    let table = table_of(std::slice::from_ref(&edge.rule));
    let mut session = Session::started(LISTED, number, &table);
    let asked = |session: &mut Session| session.standing(1, 0).expect("a standing");
    let mut live = vec![asked(&mut session)];
    for event in &edge.events {
        session.take(*event).expect("a well-formed event");
        live.push(asked(&mut session));
        session.all_totals();
    }
    assert_eq!(live, edge.live, "edge {number}");
    session.close().expect("a run that is not closed");
    assert_eq!(asked(&mut session), edge.closed, "edge {number}");
    session.all_totals();
    session.compare_run();
    session.case
}

#[test]
fn edge_cycles() {
    let edges = [edges_of_windows(), edges_of_activities(), edges_of_start()];
    let edges: Vec<Edge> = edges.into_iter().flatten().collect();
    let asked: usize = edges.iter().map(|edge| edge.live.len() + 1).sum();
    let cases = (1..)
        .zip(&edges)
        .map(|(number, edge)| edge_case(number, edge));
    let counts = agree(&Probe::find(), cases);
    assert_eq!(counts.cases, 28 + 11 + 24);
    assert_eq!([counts.calls('g'), counts.answered('g', 0)], [asked; 2]);
}

/// All four rules with and without a condition: no events, one that decides, and
/// both activities.
#[test]
fn short_cycles_live_closed_and_from_texts() {
    let condition = vec![Comparison::with_constant(1, Less, 5)];
    let plain = [13, 14, 15, 16].map(|code| rule(code, 0, Some(100)));
    let met = plain.clone();
    let met = met.map(|rule| rule.with_activation_condition(condition.clone()));
    let rules = [&plain[..], &met[..], &[rule(2, 0, None)]].concat();
    let low = |event: Event| event.with_reading(1, 4);
    let cycles: [&[Event]; 6] = [
        &[],
        &[at(5, 9)],
        &[at(5, 1), low(at(6, 2))],
        &[low(at(5, 2)), at(6, 1), low(at(104, 1))],
        &[at(5, 9), low(at(105, 1))],
        &[low(at(5, 1)), at(104, 2), at(105, 9)],
    ];
    let events: usize = cycles.iter().map(|events| events.len()).sum();
    let cases = (0..).zip(cycles);
    let cases = cases.map(|(number, events)| listed_case(number, &rules, events));
    let counts = agree(&Probe::find(), cases);
    assert_eq!(counts.cases, 6);
    assert_eq!(counts.answered('e', 0), events);
    assert_eq!(counts.answered('N', 0), 6);
}

/// Position 0 of a response and of unused slots stays as it is through every call.
#[test]
fn position_0_of_other_rules_is_left_as_it_is() {
    let mut cases = Vec::new();
    for seed in 0..20 {
        let mut run = overall_base(false);
        fill_unread_overall(&mut Random::new(seed), &mut run);
        let unread = run.overall[4..].to_vec();
        let mut session = Session::on(LISTED, seed, run);
        session.compare_every_0();
        assert_eq!(session.standing(5, 0), Err(Refusal::plain(10)));
        session.all_totals();
        session.take(at(9, 1)).expect("a well-formed event");
        session.compare_every_0();
        session.close().expect("a run that is not closed");
        session.compare_every_0();
        session.take(at(9, 1)).expect_err("a refusal");
        session.all_totals();
        session.compare_run();
        assert_eq!(session.run.overall[4..], unread);
        cases.push(session.case);
    }
    assert_eq!(agree(&Probe::find(), cases).dumps('z'), 3 * 20);
}
