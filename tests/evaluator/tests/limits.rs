//! Document 01's limits on events, cycles and rules, at both ends.

use evaluator::Operator::{Equal, Less};
use evaluator::{is_cycle, Comparison, Event, Rule, World};

const DOCUMENT: World = World::DOCUMENT;

#[test]
fn activities_run_from_1_to_64() {
    let formed = |activity| Event::new(0, activity).is_well_formed(&DOCUMENT);
    assert_eq!(
        [0, 1, 64, 65, 255].map(formed),
        [false, true, true, false, false]
    );
}

#[test]
fn the_whole_range_of_times_and_readings_is_well_formed() {
    for time in [0, 4_294_967_295] {
        for reading in [-2_147_483_648, 0, 2_147_483_647] {
            let event = Event::new(time, 1).with_reading(4, reading);
            assert!(event.is_well_formed(&DOCUMENT), "{event:?}");
        }
    }
}

#[test]
fn a_small_world_narrows_all_three_ranges() {
    let small = World {
        largest_time: 3,
        largest_activity: 2,
        least_reading: -1,
        largest_reading: 1,
    };
    let formed = |event: Event| event.is_well_formed(&small);
    assert!(formed(Event::new(3, 2).with_reading(1, -1)));
    assert!(formed(Event::new(3, 2).with_reading(4, 1)));
    assert!(!formed(Event::new(4, 2)));
    assert!(!formed(Event::new(3, 3)));
    assert!(!formed(Event::new(3, 2).with_reading(1, -2)));
    assert!(!formed(Event::new(3, 2).with_reading(4, 2)));
    assert!(!Rule::new(1, 1, 3, 0, None).is_valid(&small));
}

#[test]
fn times_may_repeat_but_never_fall() {
    let cycle = |times: &[u32]| {
        let events: Vec<Event> = times.iter().map(|t| Event::new(*t, 1)).collect();
        is_cycle(&DOCUMENT, &events)
    };
    assert!(cycle(&[]));
    assert!(cycle(&[4, 4, 5]));
    assert!(!cycle(&[4, 5, 4]));
    assert!(!is_cycle(&DOCUMENT, &[Event::new(0, 0)]));
}

#[test]
fn codes_run_from_1_to_16_and_activities_from_1_to_64() {
    let code = |code| Rule::new(code, 1, 2, 0, None).is_valid(&DOCUMENT);
    assert_eq!([0, 1, 16, 17].map(code), [false, true, true, false]);
    let activation = |x| Rule::new(1, x, 1, 0, None).is_valid(&DOCUMENT);
    assert_eq!([0, 1, 64, 65].map(activation), [false, true, true, false]);
    let target = |x| Rule::new(1, 1, x, 0, None).is_valid(&DOCUMENT);
    assert_eq!([0, 1, 64, 65].map(target), [false, true, true, false]);
}

#[test]
fn b_is_above_a() {
    let window = |a, b| Rule::new(1, 1, 1, a, b).is_valid(&DOCUMENT);
    assert!(window(0, Some(1)));
    assert!(window(4_294_967_294, Some(4_294_967_295)));
    assert!(window(4_294_967_295, None));
    assert!(!window(0, Some(0)));
    assert!(!window(5, Some(5)));
    assert!(!window(6, Some(5)));
    assert!(!window(4_294_967_295, Some(4_294_967_295)));
}

/// "equal activities under 15 or 16, or a correlation under 13 to 16"
#[test]
fn rules_about_the_cycle_fit_their_template() {
    let equal = |code| Rule::new(code, 3, 3, 0, None).is_valid(&DOCUMENT);
    assert_eq!([12, 13, 14].map(equal), [true; 3]);
    assert_eq!([15, 16].map(equal), [false; 2]);
    let correlation = vec![Comparison::with_constant(1, Equal, 0)];
    for code in 1..=16 {
        let rule = Rule::new(code, 1, 2, 0, None);
        let correlated = rule.clone().with_correlation(correlation.clone());
        assert_eq!(correlated.is_valid(&DOCUMENT), code <= 12, "{code}");
        let conditioned = rule.with_activation_condition(correlation.clone());
        assert!(conditioned.is_valid(&DOCUMENT), "{code}");
    }
}

fn with_conditions(activation: Vec<Comparison>, correlation: Vec<Comparison>) -> bool {
    Rule::new(1, 1, 1, 0, None)
        .with_activation_condition(activation)
        .with_correlation(correlation)
        .is_valid(&DOCUMENT)
}

#[test]
fn comparisons_name_readings_1_to_4() {
    for (reading, valid) in [(0, false), (1, true), (4, true), (5, false)] {
        let tested = Comparison::with_constant(reading, Equal, 0);
        assert_eq!(with_conditions(vec![tested], vec![]), valid);
        assert_eq!(with_conditions(vec![], vec![tested]), valid);
        let reference = Comparison::with_activation(1, Equal, reading, 0);
        assert_eq!(with_conditions(vec![], vec![reference]), valid);
    }
}

/// "up to four comparisons in a condition, on any readings"
#[test]
fn a_condition_has_at_most_four_comparisons_on_any_readings() {
    let low = Comparison::with_constant(2, Less, 5);
    let equal = Comparison::with_constant(2, Equal, 4);
    let other = Comparison::with_constant(3, Equal, 4);
    assert!(with_conditions(vec![low, equal], vec![low, other, low]));
    assert!(with_conditions(vec![low; 4], vec![equal; 4]));
    for five in [vec![low; 5], vec![low, equal, other, low, equal]] {
        assert!(with_conditions(five[..4].to_vec(), five[1..].to_vec()));
        assert!(!with_conditions(five.clone(), vec![]));
        assert!(!with_conditions(vec![], five));
    }
}

#[test]
fn an_activation_condition_has_constants_alone() {
    let sum = Comparison::with_activation(1, Equal, 2, 0);
    assert!(!with_conditions(vec![sum], vec![]));
    assert!(with_conditions(vec![], vec![sum]));
}
