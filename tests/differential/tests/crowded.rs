//! Cycles in which an activation has many eligible events, live, closed and from
//! texts. `probe` is needed with the commands on tables and runs, N and p.

use differential::cases::crowded::{case, crowd, full_case, stale_case};
use differential::compare::agree;
use differential::probe::Probe;
use evaluator::crowded::Choices;
use std::ops::Range;

/// The cases have what they are for: a fifth of the activations and more has
/// eligible positions on both sides, a target that is not the earliest, and one
/// that is not the latest.
fn targets_are_chosen(seeds: Range<u64>) {
    let mut choices = Choices::default();
    for (rules, events) in seeds.map(crowd) {
        for rule in &rules {
            choices.count(rule, &events);
        }
    }
    let bound = choices.judged / 5;
    assert!(choices.judged >= 8000, "{choices:?}");
    assert!(choices.both_sides > bound, "{choices:?}");
    assert!(choices.not_earliest > bound, "{choices:?}");
    assert!(choices.not_latest > bound, "{choices:?}");
}

#[test]
fn crowded_runs() {
    let seeds = 9_600_000..9_600_600;
    targets_are_chosen(seeds.clone());
    let counts = agree(&Probe::find(), seeds.map(case));
    assert_eq!(counts.cases, 600);
    assert!(counts.answered('e', 0) >= 6000);
    assert_eq!(counts.answered('x', 0), 600);
    assert_eq!([counts.calls('N'), counts.answered('N', 0)], [600; 2]);
    assert_eq!([counts.calls('p'), counts.answered('p', 0)], [600; 2]);
    assert!(counts.standings() >= 400_000);
    for code in 1..=16 {
        let [idle, _, fulfilled, with_target, violated, against_target] = counts.standings_of(code);
        let named = with_target + against_target;
        let none = fulfilled + violated;
        assert!(
            named >= 1000 && none > 0 && idle > 0,
            "code {code}: {named} {none}"
        );
    }
}

#[test]
fn crowded_runs_of_256_events() {
    let counts = agree(&Probe::find(), (9_700_000..9_700_006).map(full_case));
    assert_eq!(counts.answered('e', 0), 6 * 256);
    assert_eq!(counts.answered('e', 8), 6);
    assert_eq!(counts.answered('N', 0), 6);
}

#[test]
fn crowded_records_with_any_standings() {
    let seeds = 9_800_000..9_800_500;
    targets_are_chosen(seeds.clone());
    let counts = agree(&Probe::find(), seeds.map(stale_case));
    assert_eq!(counts.numbers('e'), [0]);
    assert!(counts.answered('e', 0) >= 600);
    assert_eq!(counts.answered('x', 0), 500);
    assert_eq!(counts.dumps('D'), counts.answered('e', 0) + 500);
}
