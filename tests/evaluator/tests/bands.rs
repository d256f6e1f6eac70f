//! Conditions in which a reading is compared more than once: written-out examples,
//! and what the generators make of them. Card 6 of document 02: "above 5 and below 7
//! leaves 6, and adding 'not 6' leaves none, so a response stands violated on
//! arrival."

use evaluator::bands::{conditions, is_band, random_band, unmeetable_band};
use evaluator::condition::{meets, reference_value};
use evaluator::crowded::crowded_rules;
use evaluator::random::{random_event_rule, random_overall_rule, random_rules, Random};
use evaluator::Standing::{self, Fulfilled, Idle, Open, Violated};
use evaluator::{read_rules, standing, standings, start, verdicts, TableRecord};
use evaluator::{Comparison, Event, Rule, World};

const LEAST: i32 = -2_147_483_648;
const LARGEST: i32 = 2_147_483_647;

/// A rule of activation 1 and target 2 in an endless window, from its text.
fn rule(code: u8, activation: &str, correlation: &str) -> Rule {
    let text = format!("{code}\t1\t2\t0\t-\t{activation}\t{correlation}\n");
    let rules = read_rules(text.as_bytes()).expect("a valid text");
    rules[0].clone()
}

fn event(activity: u8, reading: i32) -> Event {
    Event::new(0, activity).with_reading(1, reading)
}

/// The standing of a lone response activation with reading 1 as given.
fn on_arrival(reading: i32, correlation: &str) -> Standing {
    standings(&rule(2, "-", correlation), &[event(1, reading)])[0]
}

/// Whether an event of the target activity with this reading is the target.
fn is_target(reading: i32, correlation: &str, target: i32) -> bool {
    let events = [event(1, reading), event(2, target)];
    let found = standings(&rule(2, "-", correlation), &events)[0];
    assert!([Open, Fulfilled(2)].contains(&found), "{found:?}");
    let closed = verdicts(&rule(2, "-", correlation), &events)[0];
    assert_eq!(closed == Fulfilled(2), found == Fulfilled(2));
    found == Fulfilled(2)
}

#[test]
fn above_5_and_below_7_leaves_6() {
    for correlation in ["1>5,1<7", "1<7,1>5", "1g6,1l6", "1>5,1!7,1<8", "1=6,1=6"] {
        assert_eq!(on_arrival(0, correlation), Open, "{correlation}");
        let targets = [4, 5, 6, 7, 8].map(|value| is_target(0, correlation, value));
        assert_eq!(targets, [false, false, true, false, false], "{correlation}");
    }
    for correlation in ["1g200,1l300", "1>199,1<301,1!199,1!301"] {
        let targets = [199, 200, 250, 300, 301].map(|v| is_target(0, correlation, v));
        assert_eq!(targets, [false, true, true, true, false], "{correlation}");
    }
}

#[test]
fn adding_not_6_leaves_none() {
    let six_orders = [
        "1>5,1<7,1!6",
        "1>5,1!6,1<7",
        "1<7,1>5,1!6",
        "1<7,1!6,1>5",
        "1!6,1>5,1<7",
        "1!6,1<7,1>5",
    ];
    for none in six_orders {
        // Those that look ahead are decided on arrival, as if no target came.
        for code in [1, 2, 3, 4] {
            let found = standings(&rule(code, "-", none), &[event(1, 6)]);
            assert_eq!(found, [Violated(0)], "{code} {none}");
        }
        for code in [8, 9, 11] {
            let found = standings(&rule(code, "-", none), &[event(1, 6)]);
            assert_eq!(found, [Fulfilled(0)], "{code} {none}");
        }
        let later = [event(1, 6), event(2, 6), event(2, 5), event(2, 7)];
        let found = standings(&rule(2, "-", none), &later);
        assert_eq!(found, [Violated(0), Idle, Idle, Idle], "{none}");
    }
}

#[test]
fn each_pair_and_triple_that_leaves_none() {
    for none in [
        "1>5,1<6", "1<5,1>5", "1g6,1l5", "1=5,1=6", "1=5,1!5", "1>5,1=5",
    ] {
        assert_eq!(on_arrival(0, none), Violated(0), "{none}");
    }
    for none in [
        "1g5,1l6,1!5,1!6",
        "1=5,1=5,1=6",
        "1g5,1l5,1!5",
        "1>5,1<8,1!6,1!7",
    ] {
        assert_eq!(on_arrival(0, none), Violated(0), "{none}");
    }
    for some in [
        "1g5,1l5",
        "1=5,1=5",
        "1=5,1!6",
        "1>5,1<8,1!6,1!6",
        "1!5,1!5",
    ] {
        assert_eq!(on_arrival(0, some), Open, "{some}");
    }
    assert_eq!(on_arrival(0, "1!1,1!2,1!3,1!4"), Open);
}

/// Rules about the cycle: "1>5,1<7,1!6" is met by no event.
#[test]
fn position_0_before_any_event() {
    let decided = [Violated(0), Fulfilled(0), Violated(0), Violated(0)];
    for (code, expected) in (13..=16).zip(decided) {
        let none = rule(code, "1>5,1<7,1!6", "-");
        assert_eq!(standing(&none, &[], 0, 0), expected, "{code}");
        let run = start(&TableRecord::of(&[none])).expect("a valid table");
        assert_eq!(run.overall[0], expected, "{code}");
        let some = rule(code, "1>5,1<7", "-");
        assert_eq!(standing(&some, &[], 0, 0), Open, "{code}");
        let found = [5, 6, 7].map(|value| standing(&some, &[event(1, value)], 0, 0));
        let after_6 = match code {
            13 | 15 => Fulfilled(1),
            14 => Violated(1),
            // The other activity may come too.
            _ => Open,
        };
        assert_eq!(found, [Open, after_6, Open], "{code}");
    }
}

#[test]
fn the_ends_of_the_range() {
    let below = format!("1l{},1!{LEAST},1!{},1!{}", LEAST + 2, LEAST + 1, LEAST + 2);
    let above = format!(
        "1g{},1!{LARGEST},1!{},1!{}",
        LARGEST - 2,
        LARGEST - 1,
        LARGEST - 2
    );
    for none in [below, above] {
        assert_eq!(on_arrival(0, &none), Violated(0), "{none}");
    }
    // One value more is inside.
    let below = format!("1l{},1!{LEAST},1!{},1!{}", LEAST + 3, LEAST + 1, LEAST + 2);
    let above = format!(
        "1g{},1!{LARGEST},1!{},1!{}",
        LARGEST - 3,
        LARGEST - 1,
        LARGEST - 2
    );
    for (some, left) in [(below, LEAST + 3), (above, LARGEST - 3)] {
        assert_eq!(on_arrival(0, &some), Open, "{some}");
        assert!(
            is_target(0, &some, left) && !is_target(0, &some, 0),
            "{some}"
        );
    }
    assert_eq!(on_arrival(0, &format!("1l{LEAST},1!{LEAST}")), Violated(0));
    assert_eq!(
        on_arrival(0, &format!("1g{LARGEST},1!{LARGEST}")),
        Violated(0)
    );
    assert_eq!(on_arrival(0, &format!("1>{LEAST},1<{LARGEST}")), Open);
}

/// "the sum is exact and may pass that range"
#[test]
fn sums_beyond_the_range() {
    assert_eq!(on_arrival(LARGEST, "1>@1:5"), Violated(0));
    assert_eq!(on_arrival(LARGEST, "1<@1:5,1>@1:-2"), Open);
    let targets = [LARGEST - 2, LARGEST - 1, LARGEST];
    let found = targets.map(|value| is_target(LARGEST, "1<@1:5,1>@1:-2", value));
    assert_eq!(found, [false, true, true]);
    let none = format!("1<@1:5,1>@1:-2,1!{LARGEST},1!@1:-1");
    assert_eq!(on_arrival(LARGEST, &none), Violated(0));
    // The same comparisons leave values where the sums are in the range.
    assert_eq!(on_arrival(0, &none), Open);
    assert_eq!(on_arrival(LEAST, "1<@1:-5,1>-7"), Violated(0));
    assert_eq!(on_arrival(LEAST, "1>@1:-5,1<@1:1"), Open);
    assert!(is_target(LEAST, "1>@1:-5,1<@1:1", LEAST));
    let none = format!("1>@1:-5,1<@1:1,1!{LEAST}");
    assert_eq!(on_arrival(LEAST, &none), Violated(0));
    // Two sums on both sides of the range.
    let far = format!("1<@1:{LARGEST},1>@1:{LEAST}");
    assert_eq!(
        [LEAST, 0, LARGEST].map(|value| on_arrival(value, &far)),
        [Open; 3]
    );
    assert_eq!(
        on_arrival(LARGEST, &format!("1g@1:{LARGEST},1g0")),
        Violated(0)
    );
}

#[test]
fn constants_and_sums_together() {
    // 6 is left if the activation's reading is 5, none if it is 6 or more.
    let found = [4, 5, 6, 7].map(|value| on_arrival(value, "1>@1:0,1<7"));
    assert_eq!(found, [Open, Open, Violated(0), Violated(0)]);
    let found = [4, 5, 6].map(|value| on_arrival(value, "1=@1:1,1=6"));
    assert_eq!(found, [Violated(0), Open, Violated(0)]);
    let found = [4, 5, 6].map(|value| on_arrival(value, "1=@1:1,1!6"));
    assert_eq!(found, [Open, Violated(0), Open]);
}

/// Each reading is judged by its own comparisons, and all of them have to be met.
#[test]
fn several_readings() {
    let both = "1>5,2>5,1<7,2<7";
    assert_eq!(on_arrival(0, both), Open);
    for (first, second, met) in [(6, 6, true), (6, 7, false), (5, 6, false)] {
        let target = event(2, first).with_reading(2, second);
        let found = standings(&rule(2, "-", both), &[event(1, 0), target])[0];
        assert_eq!(found == Fulfilled(2), met, "{first} {second}");
    }
    assert_eq!(on_arrival(0, "1>5,2=3,1<6"), Violated(0));
    assert_eq!(on_arrival(0, "2=3,4>5,4<6"), Violated(0));
    assert_eq!(on_arrival(0, "1>5,2<6,3!5"), Open);
}

#[test]
fn a_blank_reference_leaves_none() {
    // Reading 2 of the activation is blank.
    assert_eq!(on_arrival(0, "1>@2:0,1<9"), Violated(0));
    assert_eq!(on_arrival(0, "1<9,1!@2:0"), Violated(0));
    let nine = rule(9, "-", "1<9,1!@2:0");
    assert_eq!(standings(&nine, &[event(1, 0)]), [Fulfilled(0)]);
    let known = event(1, 0).with_reading(2, 0);
    let found = standings(&rule(2, "-", "1>@2:0,1<9"), &[known]);
    assert_eq!(found, [Open]);
}

#[test]
fn an_activation_meets_every_comparison() {
    let band = rule(2, "1>5,1<7", "-");
    let events = [5, 6, 7].map(|value| event(1, value));
    assert_eq!(standings(&band, &events), [Idle, Open, Idle]);
    let none = rule(2, "1>5,1<7,1!6", "-");
    assert_eq!(standings(&none, &events), [Idle; 3]);
    // Under 3 an event outside the band does not end the wait.
    let alternate = rule(3, "1>5,1<7", "-");
    let events = [event(1, 6), event(1, 7), event(2, 0)];
    assert_eq!(standings(&alternate, &events), [Fulfilled(3), Idle, Idle]);
    let events = [event(1, 6), event(1, 6), event(2, 0)];
    let found = standings(&alternate, &events);
    assert_eq!(found, [Violated(0), Fulfilled(3), Idle]);
}

/// How many conditions these rules have, and how many compare a reading again.
fn shares(rules: &[Rule]) -> [usize; 2] {
    let all: Vec<&Vec<Comparison>> = rules.iter().flat_map(conditions).collect();
    let bands = all.iter().filter(|condition| is_band(condition));
    [all.len(), bands.count()]
}

#[test]
fn the_share_of_bands_is_two_fifths_and_more() {
    let mut random = Random::new(81);
    let event_rules: Vec<Rule> = (0..4000).map(|_| random_event_rule(&mut random)).collect();
    let overall: Vec<Rule> = (0..4000)
        .map(|_| random_overall_rule(&mut random))
        .collect();
    let mixed = random_rules(&mut random, 4000);
    let crowded = crowded_rules(&mut random, 4000);
    for (rules, least) in [
        (event_rules, 8000),
        (overall, 4000),
        (mixed, 6000),
        (crowded, 7000),
    ] {
        let [all, bands] = shares(&rules);
        assert!(all >= least && 5 * bands >= 2 * all, "{bands} of {all}");
        let valid = |rule: &Rule| rule.is_valid(&World::DOCUMENT);
        assert!(rules.iter().all(valid));
        for length in 0..=4 {
            let of_length = rules.iter().flat_map(conditions);
            let found = of_length.filter(|condition| condition.len() == length);
            assert!(found.count() > 30, "{length}");
        }
    }
}

/// How many of the values at and beside the references meet the condition, where
/// the activation has these readings.
fn values_met(condition: &[Comparison], activation: &Event) -> usize {
    let number = condition[0].reading;
    let references = condition.iter().filter(|c| c.reading == number);
    let references = references.filter_map(|c| reference_value(c.reference, activation));
    let mut near: Vec<i32> = references
        .flat_map(|value| value - 1..=value + 1)
        .filter_map(|value| i32::try_from(value).ok())
        .collect();
    near.sort();
    near.dedup();
    let of_reading = condition.iter().filter(|c| c.reading == number).copied();
    let of_reading: Vec<Comparison> = of_reading.collect();
    let tested = near
        .iter()
        .map(|value| Event::new(0, 1).with_reading(number, *value));
    tested
        .filter(|event| meets(&of_reading, event, activation))
        .count()
}

/// Bands that no value meets, that one meets, and that several meet, in either
/// condition.
#[test]
fn bands_of_every_width_are_made() {
    let mut random = Random::new(82);
    for correlation in [false, true] {
        let mut counts = [0; 3];
        for _ in 0..3000 {
            let band = random_band(&mut random, correlation);
            assert!(is_band(&band) && band.len() <= 4, "{band:?}");
            let value = random.pick(&[0, 6, LEAST, LARGEST]);
            let mut activation = Event::new(0, 1);
            activation.readings = [Some(value); 4];
            counts[values_met(&band, &activation).min(2)] += 1;
        }
        assert!(counts.iter().all(|count| *count > 200), "{counts:?}");
    }
}

#[test]
fn unmeetable_bands_are_met_by_none() {
    let mut random = Random::new(83);
    for _ in 0..1000 {
        let band = unmeetable_band(&mut random);
        assert!(is_band(&band) && band.len() <= 4, "{band:?}");
        let rule = Rule::new(13, 1, 2, 0, None).with_activation_condition(band);
        assert_eq!(standing(&rule, &[], 0, 0), Violated(0), "{rule:?}");
    }
}
