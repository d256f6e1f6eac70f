//! Random rules and cycles under document 01's limits: what demand 3 says of
//! a run that grows and is then closed.

use evaluator::random::{random_cycle, random_rule, random_rules, Random};
use evaluator::Standing::{self, Fulfilled, Idle, Open, Violated};
use evaluator::{is_activation, is_cycle, standing, standing_at_last, verdict};
use evaluator::{Event, Rule, World};
use std::collections::BTreeSet;
use std::ops::RangeInclusive;

/// "Close turns open into violated for 1 to 7, into fulfilled for 8 to 12,
/// target 0; other standings it keeps." "Close decides an open one by its
/// formula", where a rule is about the cycle.
fn closed(rule: &Rule, events: &[Event], standing: Standing) -> Standing {
    match (standing, rule.code) {
        (Open, 1..=7) => Violated(0),
        (Open, 8..=12) => Fulfilled(0),
        (Open, _) => verdict(rule, events, 0),
        _ => standing,
    }
}

/// The positions that a rule has in a cycle.
fn positions(rule: &Rule, events: &[Event]) -> RangeInclusive<usize> {
    let first = if rule.code >= 13 { 0 } else { 1 };
    first..=events.len()
}

fn random_pair(random: &mut Random) -> (Rule, Vec<Event>) {
    let rule = random_rule(random);
    let length = 1 + random.below(7);
    let events = random_cycle(random, std::slice::from_ref(&rule), length);
    (rule, events)
}

#[test]
fn decided_standings_are_kept_and_idle_ones_are_no_activations() {
    let mut random = Random::new(5);
    let mut kept = [0; 2];
    for _ in 0..6000 {
        let (rule, events) = random_pair(&mut random);
        for taken in 0..=events.len() {
            let now = &events[..taken];
            for position in positions(&rule, now) {
                let standing = standing_at_last(&rule, now, position);
                let activation = position == 0 || is_activation(&rule, &events[position - 1]);
                assert_eq!(standing != Idle, activation, "{rule:?} {events:?}");
                if standing.is_decided() {
                    let last = verdict(&rule, &events, position);
                    assert_eq!(standing, last, "{rule:?} {events:?} {taken}");
                    kept[usize::from(position == 0)] += 1;
                }
            }
        }
    }
    assert!(kept.iter().all(|count| *count > 3000), "{kept:?}");
}

#[test]
fn closing_a_run_gives_the_finished_verdicts() {
    let mut random = Random::new(6);
    let mut opened = [0; 2];
    for _ in 0..20_000 {
        let (rule, events) = random_pair(&mut random);
        for position in positions(&rule, &events) {
            let live = standing_at_last(&rule, &events, position);
            opened[usize::from(position == 0)] += usize::from(live == Open);
            let after = closed(&rule, &events, live);
            let last = verdict(&rule, &events, position);
            assert_eq!(after, last, "{rule:?} {events:?} {position}");
        }
    }
    assert!(opened.iter().all(|count| *count > 1000), "{opened:?}");
}

#[test]
fn a_later_horizon_keeps_decided_standings() {
    let mut random = Random::new(7);
    let mut settled = [0; 2];
    for _ in 0..9000 {
        let (rule, events) = random_pair(&mut random);
        let last = events[events.len() - 1].time;
        let bounds = [0, 1, rule.a, rule.b.unwrap_or(rule.a)];
        let horizon = last.saturating_add(random.pick(&bounds));
        for position in positions(&rule, &events) {
            let before = standing(&rule, &events, last, position);
            let after = standing(&rule, &events, horizon, position);
            if before == Open && after != Open {
                let expected = closed(&rule, &events, Open);
                assert_eq!(after, expected, "{rule:?} {events:?}");
                settled[usize::from(position == 0)] += 1;
            } else {
                assert_eq!(after, before, "{rule:?} {events:?} {horizon}");
            }
        }
    }
    assert!(settled.iter().all(|count| *count > 40), "{settled:?}");
}

#[test]
fn generated_rules_and_cycles_are_within_the_limits() {
    let mut random = Random::new(8);
    for count in 0..=16 {
        let rules = random_rules(&mut random, count);
        assert_eq!(rules.len(), count);
        assert!(rules.iter().all(|rule| rule.is_valid(&World::DOCUMENT)));
        for length in [0, 1, 40, 256] {
            let events = random_cycle(&mut random, &rules, length);
            assert_eq!(events.len(), length);
            assert!(is_cycle(&World::DOCUMENT, &events));
        }
    }
}

/// About a third of the rules is about the cycle, and some of these conditions are
/// met by no readings, so that start decides.
#[test]
fn generated_rules_are_mixed() {
    let mut random = Random::new(10);
    let rules = random_rules(&mut random, 3000);
    let overall: Vec<&Rule> = rules.iter().filter(|rule| rule.code >= 13).collect();
    assert!((900..1100).contains(&overall.len()), "{}", overall.len());
    let decided = overall
        .iter()
        .filter(|rule| standing(rule, &[], 0, 0) != Open);
    let decided = decided.count();
    assert!((200..350).contains(&decided), "{decided}");
    let equal = overall.iter().filter(|rule| rule.activation == rule.target);
    assert!(equal.count() > 100);
    for (a, b) in [(0, None), (0, Some(u32::MAX)), (u32::MAX, None)] {
        assert!(overall.iter().any(|rule| (rule.a, rule.b) == (a, b)));
    }
}

#[test]
fn the_same_seed_gives_the_same_rules_and_cycles() {
    let pairs = |seed| {
        let mut random = Random::new(seed);
        (0..20)
            .map(|_| random_pair(&mut random))
            .collect::<Vec<_>>()
    };
    assert_eq!(pairs(9), pairs(9));
    assert_ne!(pairs(9), pairs(10));
}

/// The four answers, targets left out.
fn kind(standing: Standing) -> &'static str {
    match standing {
        Idle => "idle",
        Open => "open",
        Fulfilled(_) => "fulfilled",
        Violated(_) => "violated",
    }
}

#[test]
fn generated_cases_reach_every_answer_of_every_code() {
    let mut random = Random::new(11);
    let mut seen = BTreeSet::new();
    for _ in 0..2500 {
        let (rule, events) = random_pair(&mut random);
        let answers = positions(&rule, &events).map(|p| standing_at_last(&rule, &events, p));
        seen.extend(answers.map(|s| (rule.code, kind(s))));
    }
    for code in 1..=16 {
        let expected: &[&str] = match code {
            // These look at no later event, so they are never open.
            5 | 6 | 7 | 10 | 12 => &["fulfilled", "idle", "violated"],
            _ => &["fulfilled", "idle", "open", "violated"],
        };
        let found: Vec<&str> = seen
            .iter()
            .filter(|(c, _)| *c == code)
            .map(|(_, kind)| *kind)
            .collect();
        assert_eq!(found, expected, "code {code}");
    }
}
