//! The choice of the target by a walk over the positions: down from the
//! activation, then up from the one after it. And "Verdicts don't move": they
//! are the same as with the earliest eligible position named.

use evaluator::crowded::{crowded_cycle, crowded_rule, crowded_rules, Choices};
use evaluator::random::{random_cycle, random_rule, Random};
use evaluator::Standing::{self, Fulfilled, Idle, Open, Violated};
use evaluator::{eligible, is_activation, is_cycle, standings, verdict, Event, Rule, World};

/// "the latest eligible position at or before the activation; failing that, the
/// first after it", 0 if there is none.
fn walked_target(rule: &Rule, events: &[Event], position: usize) -> u16 {
    let eligible = eligible(rule, events, position);
    for j in (1..=position).rev() {
        if eligible.contains(&j) {
            return j as u16;
        }
    }
    for j in position + 1..=events.len() {
        if eligible.contains(&j) {
            return j as u16;
        }
    }
    0
}

/// The standing as it was when the earliest eligible position was named.
fn with_earliest(rule: &Rule, events: &[Event], position: usize) -> Standing {
    if !is_activation(rule, &events[position - 1]) {
        return Idle;
    }
    match (eligible(rule, events, position).first(), rule.code) {
        (Some(first), 1..=7) => Fulfilled(*first as u16),
        (None, 1..=7) => Violated(0),
        (Some(first), _) => Violated(*first as u16),
        (None, _) => Fulfilled(0),
    }
}

/// The standing without its target.
fn kind(standing: Standing) -> Standing {
    match standing {
        Fulfilled(_) => Fulfilled(0),
        Violated(_) => Violated(0),
        other => other,
    }
}

fn target(standing: Standing) -> Option<u16> {
    match standing {
        Idle | Open => None,
        Fulfilled(target) | Violated(target) => Some(target),
    }
}

/// Compares all positions and counts the choices there were.
fn compare(rule: &Rule, events: &[Event], choices: &mut Choices) {
    for position in 1..=events.len() {
        let found = verdict(rule, events, position);
        let earlier = with_earliest(rule, events, position);
        assert_eq!(kind(found), kind(earlier), "{rule:?} {events:?} {position}");
        let walked = target(earlier).map(|_| walked_target(rule, events, position));
        assert_eq!(target(found), walked, "{rule:?} {events:?} {position}");
    }
    choices.count(rule, events);
}

#[test]
fn random_rules_and_cycles() {
    let mut random = Random::new(71);
    let mut choices = Choices::default();
    for _ in 0..20_000 {
        let rule = random_rule(&mut random);
        let length = random.below(13);
        let events = random_cycle(&mut random, std::slice::from_ref(&rule), length);
        compare(&rule, &events, &mut choices);
    }
    assert!(choices.judged > 20_000, "{choices:?}");
    assert!(choices.not_earliest > 500, "{choices:?}");
    assert!(choices.not_latest > 500, "{choices:?}");
}

fn crowded_pair(random: &mut Random) -> (Rule, Vec<Event>) {
    let rule = crowded_rule(random);
    let length = random.pick(&[3, 5, 8, 12, 20, 30]);
    (rule, crowded_cycle(random, length))
}

/// What the crowded cycles are for: a fifth of the activations and more has
/// eligible positions on both sides, a target that is not the earliest, and one
/// that is not the latest.
#[test]
fn crowded_rules_and_cycles() {
    let mut random = Random::new(72);
    let mut choices = Choices::default();
    for _ in 0..6000 {
        let (rule, events) = crowded_pair(&mut random);
        compare(&rule, &events, &mut choices);
    }
    let bound = choices.judged / 5;
    assert!(choices.judged > 20_000, "{choices:?}");
    assert!(choices.both_sides > bound, "{choices:?}");
    assert!(choices.not_earliest > bound, "{choices:?}");
    assert!(choices.not_latest > bound, "{choices:?}");
}

/// A standing that is decided names the nearest of the events taken, and of all
/// that come.
#[test]
fn running_standings_name_the_same_target() {
    let mut random = Random::new(73);
    let mut decided = 0;
    for _ in 0..700 {
        let (rule, events) = crowded_pair(&mut random);
        for taken in 1..=events.len() {
            let now = standings(&rule, &events[..taken]);
            for (position, standing) in (1..).zip(now) {
                if let Some(target) = target(standing) {
                    let then = walked_target(&rule, &events[..taken], position);
                    let at_last = walked_target(&rule, &events, position);
                    assert_eq!([then, at_last], [target; 2], "{rule:?} {events:?} {taken}");
                    decided += 1;
                }
            }
        }
    }
    assert!(decided > 20_000, "{decided}");
}

#[test]
fn crowded_rules_and_cycles_are_within_the_limits() {
    let mut random = Random::new(74);
    for count in 0..=16 {
        let rules = crowded_rules(&mut random, count);
        assert_eq!(rules.len(), count);
        assert!(rules.iter().all(|rule| rule.is_valid(&World::DOCUMENT)));
        for length in [0, 1, 40, 256] {
            let events = crowded_cycle(&mut random, length);
            assert_eq!(events.len(), length);
            assert!(is_cycle(&World::DOCUMENT, &events));
        }
    }
}

#[test]
fn the_same_seed_gives_the_same_crowd() {
    let pairs = |seed| {
        let mut random = Random::new(seed);
        (0..20)
            .map(|_| crowded_pair(&mut random))
            .collect::<Vec<_>>()
    };
    assert_eq!(pairs(75), pairs(75));
    assert_ne!(pairs(75), pairs(76));
}
