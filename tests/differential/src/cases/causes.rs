//! Each cause of 11 alone, and the same values where they are no cause. Those of
//! rules about the cycle have a run of their own. Where the totals are not the
//! cause, they fit the standings.

use evaluator::Operator::{Equal, Less};
use evaluator::Standing::{self, Fulfilled, Idle, Open, Violated};
use evaluator::{grown, place, Comparison, ConditionSlot, Event, Record, Rule, RuleSlot, Totals};

/// A run with a name for what is wrong in it, or beside the limits.
pub type Named = (String, Record);

/// Two rules and three events. The rules have two comparisons in the
/// activation condition and three in the correlation.
pub fn base(closed: bool) -> Record {
    let rule = |code| {
        Rule::new(code, 1, 2, 5, Some(500))
            .with_activation_condition(vec![constant(1), constant(2)])
            .with_correlation(vec![constant(1), constant(4), against(2, 3)])
    };
    let event = |time, activity| {
        Event::new(time, activity)
            .with_reading(1, 0)
            .with_reading(2, 0)
    };
    let events = [event(5, 1), event(5, 9), event(8, 1)];
    let run = grown(&[rule(2), rule(9)], &events);
    match closed {
        true => run.close().0,
        false => run,
    }
}

fn constant(reading: u8) -> Comparison {
    Comparison::with_constant(reading, Equal, 0)
}

fn against(reading: u8, g: u8) -> Comparison {
    Comparison::with_activation(reading, Less, g, 0)
}

/// Runs made from one base by a change each.
struct Changed {
    base: Record,
    runs: Vec<Named>,
}

impl Changed {
    fn add(&mut self, name: String, change: impl FnOnce(&mut Record)) {
        let mut run = self.base.clone();
        change(&mut run);
        run.count_totals();
        self.add_run(name, run);
    }

    fn add_totals(&mut self, slot: usize, totals: Totals) {
        let name = format!("{totals:?} in slot {slot}");
        let mut run = self.base.clone();
        run.totals[slot] = totals;
        self.add_run(name, run);
    }

    fn add_run(&mut self, name: String, run: Record) {
        assert!(run != self.base, "{name} changes nothing");
        self.runs.push((name, run));
    }

    fn add_rule(&mut self, name: &str, slot: usize, change: impl Fn(&mut RuleSlot)) {
        let name = format!("{name} in rule slot {slot}");
        self.add(name, |run| change(&mut run.table.rules[slot]));
    }
}

/// Every cause of 11, alone in a run.
pub fn causes(closed: bool) -> Vec<Named> {
    [
        causes_of_events(closed),
        overall_causes(closed),
        miscounted(closed),
    ]
    .concat()
}

/// Those of rules 1 to 12.
fn causes_of_events(closed: bool) -> Vec<Named> {
    let base = base(closed);
    let runs = Vec::new();
    let mut changed = Changed { base, runs };
    count_causes(&mut changed);
    for slot in 0..2 {
        rule_causes(&mut changed, slot);
        for correlation in [false, true] {
            condition_causes(&mut changed, slot, correlation);
        }
    }
    event_causes(&mut changed);
    standing_causes(&mut changed);
    changed.runs
}

/// Counts above their limits, among them such as become small when cut.
fn count_causes(changed: &mut Changed) {
    let wide = [1 << 8, 1 << 16, 1 << 32, 1 << 63];
    let wide = wide.into_iter().flat_map(|bit| [bit + 2, bit + 3]);
    let wide: Vec<u64> = wide.chain([257, u64::MAX]).collect();
    for count in [17, 255].iter().chain(&wide) {
        let name = format!("rule count {count}");
        changed.add(name, |run| run.table.count = *count);
    }
    for count in &wide {
        changed.add(format!("event count {count}"), |run| run.count = *count);
    }
}

fn rule_causes(changed: &mut Changed, slot: usize) {
    for code in [0, 17, 255] {
        changed.add_rule(&format!("code {code}"), slot, |rule| rule.code = code);
    }
    for activity in [0, 65, 255] {
        let name = format!("activation {activity}");
        changed.add_rule(&name, slot, |rule| rule.activation = activity);
        let name = format!("target {activity}");
        changed.add_rule(&name, slot, |rule| rule.target = activity);
    }
    for end in [0, 4, 5] {
        let name = format!("window from 5 to {end}");
        changed.add_rule(&name, slot, |rule| rule.end = Some(end));
    }
    for (a, end) in [(0, 0), (u32::MAX, u32::MAX), (u32::MAX, 500)] {
        let name = format!("window from {a} to {end}");
        changed.add_rule(&name, slot, |rule| (rule.a, rule.end) = (a, Some(end)));
    }
}

fn condition_of(rule: &mut RuleSlot, correlation: bool) -> &mut ConditionSlot {
    match correlation {
        true => &mut rule.correlation,
        false => &mut rule.activation_condition,
    }
}

fn condition_causes(changed: &mut Changed, slot: usize, correlation: bool) {
    let used = if correlation { 3 } else { 2 };
    let mut add = |name: String, change: &dyn Fn(&mut ConditionSlot)| {
        let name = format!("{name}, correlation: {correlation},");
        changed.add_rule(&name, slot, |rule| change(condition_of(rule, correlation)));
    };
    for count in [5, 255] {
        add(format!("comparison count {count}"), &|c| c.count = count);
    }
    for place in 0..used {
        for reading in [0, 5, 255] {
            add(format!("reading {reading} at {place}"), &|c| {
                c.comparisons[place].reading = reading
            });
        }
        for g in [0, 5, 255] {
            add(format!("reference {g} at {place}"), &|c| {
                let reading = c.comparisons[place].reading;
                c.comparisons[place] = against(reading, g);
            });
        }
    }
    if !correlation {
        add("an activation's reading".to_string(), &|c| {
            c.comparisons[1] = against(2, 1)
        });
    }
}

fn event_causes(changed: &mut Changed) {
    for slot in 0..3 {
        for activity in [0, 65, 255] {
            let name = format!("activity {activity} in event slot {slot}");
            changed.add(name, |run| run.events[slot].activity = activity);
        }
    }
    for (slot, time) in [(0, 6), (1, 4), (1, 9), (2, 4), (2, 0), (0, u32::MAX)] {
        let name = format!("time {time} in event slot {slot}");
        changed.add(name, |run| run.events[slot].time = time);
    }
}

fn standing_causes(changed: &mut Changed) {
    let closed = changed.base.closed;
    for rule in [1, 2] {
        let mut add = |position, standing| {
            let name = format!("{standing:?} at position {position} of rule {rule}");
            changed.add(name, |run| run.standings[place(rule, position)] = standing);
        };
        for position in 1..=3 {
            for target in [4, 255, 256, 257, 65_535] {
                add(position, Fulfilled(target));
                add(position, Violated(target));
            }
            if closed {
                add(position, Open);
            }
        }
        for position in [4, 5, 255, 256] {
            for standing in [Open, Fulfilled(0), Violated(0), Fulfilled(3), Violated(1)] {
                add(position, standing);
            }
        }
    }
}

/// Values at the limits, and values outside of them where nothing reads them.
/// None of these is a cause of 11.
pub fn allowed(closed: bool) -> Vec<Named> {
    [
        allowed_of_events(closed),
        overall_allowed(closed),
        unread_totals(closed),
        kept_times(closed),
    ]
    .concat()
}

/// Those of rules 1 to 12.
fn allowed_of_events(closed: bool) -> Vec<Named> {
    let base = base(closed);
    let runs = Vec::new();
    let mut changed = Changed { base, runs };
    allowed_in_used_slots(&mut changed);
    for slot in [2, 3, 15] {
        rule_causes(&mut changed, slot);
        for position in [1, 4, 256] {
            for standing in [Open, Fulfilled(0), Violated(65_535)] {
                let name = format!("{standing:?} at {position} in the row of slot {slot}");
                let at = place(slot + 1, position);
                changed.add(name, |run| run.standings[at] = standing);
            }
        }
    }
    for slot in [3, 4, 255] {
        for event in [Event::new(0, 0), Event::new(0, 65), Event::new(1, 255)] {
            let name = format!("{event:?} in event slot {slot}");
            changed.add(name, |run| run.events[slot] = event);
        }
    }
    for slot in 0..2 {
        let name = "comparisons past the count";
        changed.add_rule(name, slot, |rule| {
            rule.activation_condition.comparisons[2..].fill(against(9, 9));
            rule.correlation.comparisons[3] = against(0, 255);
        });
    }
    changed.runs
}

fn allowed_in_used_slots(changed: &mut Changed) {
    for slot in 0..2 {
        for activity in [1, 2, 64] {
            let name = format!("activities {activity}");
            changed.add_rule(&name, slot, |rule| {
                (rule.activation, rule.target) = (activity, activity)
            });
        }
        for (a, end) in [(0, Some(1)), (u32::MAX, None), (6, Some(7))] {
            let name = format!("window from {a} to {end:?}");
            changed.add_rule(&name, slot, |rule| (rule.a, rule.end) = (a, end));
        }
        changed.add_rule("four comparisons", slot, |rule| {
            rule.correlation.count = 4;
            rule.correlation.comparisons[3] = against(3, 4);
        });
        for correlation in [false, true] {
            readings_compared_again(changed, slot, correlation);
        }
    }
    for count in [0, 1] {
        changed.add(format!("rule count {count}"), |run| run.table.count = count);
    }
    for target in [0, 1, 2, 3] {
        for standing in [Fulfilled(target), Violated(target), Idle] {
            let name = format!("{standing:?} of rules 1 and 2, {target}");
            changed.add(name, |run| {
                run.standings[place(1, 1)] = standing;
                run.standings[place(2, 2)] = Fulfilled(target);
            });
        }
    }
    changed.add("equal times".to_string(), |run| run.events[2].time = 5);
    changed.add("the last time".to_string(), |run| {
        run.events[2].time = u32::MAX
    });
}

/// Two comparisons on one reading, all of them, and four.
fn readings_compared_again(changed: &mut Changed, slot: usize, correlation: bool) {
    let used = if correlation { 3 } else { 2 };
    let mut add = |name: String, change: &dyn Fn(&mut ConditionSlot)| {
        let name = format!("{name}, correlation: {correlation},");
        changed.add_rule(&name, slot, |rule| change(condition_of(rule, correlation)));
    };
    for (first, second) in (1..used).flat_map(|later| (0..later).map(move |at| (at, later))) {
        add(format!("{first} and {second} on one reading"), &|c| {
            c.comparisons[second].reading = c.comparisons[first].reading
        });
    }
    for reading in 1..=4 {
        add(format!("all on reading {reading}"), &|c| {
            c.comparisons.iter_mut().for_each(|c| c.reading = reading)
        });
        add(format!("four on reading {reading}"), &|c| {
            c.count = 4;
            c.comparisons[used..].fill(constant(reading));
            c.comparisons.iter_mut().for_each(|c| c.reading = reading);
        });
    }
}

/// The rules 13 to 16 of the activities 1 and 2, a response, and three events. If it
/// is not closed, 15 alone of the first four is decided.
pub fn overall_base(closed: bool) -> Record {
    let rules = [13, 14, 15, 16, 2].map(|code| Rule::new(code, 1, 2, 0, Some(500)));
    let events = [Event::new(5, 9), Event::new(6, 2), Event::new(8, 9)];
    let run = grown(&rules, &events);
    match closed {
        true => run.close().0,
        false => run,
    }
}

/// The number of its rules 13 to 16, which are the first ones.
const OVERALL_RULES: usize = 4;

/// Every cause of 11 that rules about the cycle have, alone in a run.
pub fn overall_causes(closed: bool) -> Vec<Named> {
    let base = overall_base(closed);
    let runs = Vec::new();
    let mut changed = Changed { base, runs };
    for rule in 1..=OVERALL_RULES {
        causes_at_0(&mut changed, rule);
        causes_at_events(&mut changed, rule);
        misfit_causes(&mut changed, rule - 1);
    }
    for code in 13..=16 {
        // Its position 0 is idle.
        let name = format!("code {code}");
        changed.add_rule(&name, OVERALL_RULES, |rule| rule.code = code);
    }
    changed.runs
}

impl Changed {
    fn add_at_0(&mut self, rule: usize, standing: Standing) {
        let name = format!("{standing:?} at position 0 of rule {rule}");
        self.add(name, |run| run.overall[rule - 1] = standing);
    }
}

fn causes_at_0(changed: &mut Changed, rule: usize) {
    changed.add_at_0(rule, Idle);
    for target in [4, 255, 256, 257, 65_535] {
        changed.add_at_0(rule, Fulfilled(target));
        changed.add_at_0(rule, Violated(target));
    }
    if changed.base.closed {
        changed.add_at_0(rule, Open);
    }
}

fn causes_at_events(changed: &mut Changed, rule: usize) {
    for position in [1, 2, 3, 4, 255, 256] {
        for standing in [Open, Fulfilled(0), Violated(0), Fulfilled(3)] {
            let name = format!("{standing:?} at position {position} of rule {rule}");
            let at = place(rule, position);
            changed.add(name, |run| run.standings[at] = standing);
        }
    }
}

/// "in a table record it is 11"
fn misfit_causes(changed: &mut Changed, slot: usize) {
    changed.add_rule("a correlation", slot, |rule| {
        rule.correlation = ConditionSlot::of(&[constant(1)])
    });
    changed.add_rule("a correlation of four", slot, |rule| {
        rule.correlation = ConditionSlot::of(&[1, 2, 3, 4].map(|reading| against(reading, 1)))
    });
    if slot >= 2 {
        for activity in [1, 2, 64] {
            changed.add_rule(&format!("activities {activity}"), slot, |rule| {
                (rule.activation, rule.target) = (activity, activity)
            });
        }
    }
    changed.add_rule("code 17", slot, |rule| rule.code = 17);
}

/// Values of such a run within the limits, and any where nothing reads them. None
/// of these is a cause of 11.
pub fn overall_allowed(closed: bool) -> Vec<Named> {
    let base = overall_base(closed);
    let runs = Vec::new();
    let mut changed = Changed { base, runs };
    for rule in 1..=OVERALL_RULES {
        allowed_at_0(&mut changed, rule);
        // Under 1 to 12 position 0 is not read.
        changed.add_rule("code 12", rule - 1, |slot| slot.code = 12);
        changed.add_rule("a comparison past the count", rule - 1, |slot| {
            slot.correlation.comparisons[0] = against(9, 9)
        });
    }
    for rule in [5, 6, 16] {
        for standing in [
            Open,
            Fulfilled(0),
            Fulfilled(3),
            Fulfilled(4),
            Violated(65_535),
        ] {
            changed.add_at_0(rule, standing);
        }
    }
    for slot in [0, 1] {
        for activity in [1, 2, 64] {
            changed.add_rule(&format!("activities {activity}"), slot, |rule| {
                (rule.activation, rule.target) = (activity, activity)
            });
        }
    }
    changed.runs
}

fn allowed_at_0(changed: &mut Changed, rule: usize) {
    let now = changed.base.overall[rule - 1];
    let targets = [0, 1, 2, 3];
    let decided = targets.iter().flat_map(|t| [Fulfilled(*t), Violated(*t)]);
    let open = [Open].into_iter().filter(|_| !changed.base.closed);
    let others: Vec<Standing> = decided.chain(open).filter(|s| *s != now).collect();
    for standing in others {
        changed.add_at_0(rule, standing);
    }
}

/// A response and a not response within 10, each with an activation that is
/// fulfilled, one that is violated and one that is open until it is closed.
fn counted_base(closed: bool) -> Record {
    let rules = [2, 9].map(|code| Rule::new(code, 1, 2, 0, Some(10)));
    let events = [(0, 1), (5, 2), (20, 1), (31, 1)];
    let run = grown(&rules, &events.map(|(time, x)| Event::new(time, x)));
    match closed {
        true => run.close().0,
        false => run,
    }
}

/// Stored totals of one of its rules that differ from the standings, in runs of
/// both kinds.
pub fn miscounted(closed: bool) -> Vec<Named> {
    let of_rules = |base: Record| {
        let runs = Vec::new();
        let rules = base.table.count as usize;
        let mut changed = Changed { base, runs };
        for slot in 0..rules {
            miscount(&mut changed, slot);
        }
        changed.runs
    };
    let bases = [counted_base(closed), overall_base(closed)];
    bases.map(of_rules).concat()
}

/// Each of the four numbers one more, one less, and such as have most bits right;
/// and one position counted as another, so that the sum is right.
fn miscount(changed: &mut Changed, slot: usize) {
    let totals = changed.base.totals[slot];
    let numbers = totals.numbers();
    for (place, right) in numbers.into_iter().enumerate() {
        let wrong = [
            right + 1,
            right.wrapping_sub(1),
            right ^ 256,
            right ^ 32_768,
        ];
        for number in wrong {
            changed.add_totals(slot, totals.with_number(place, number));
        }
    }
    for (from, to) in [(1, 2), (2, 1), (1, 3), (3, 1), (2, 3), (3, 2)] {
        if numbers[from] > 0 {
            let fewer = totals.with_number(from, numbers[from] - 1);
            changed.add_totals(slot, fewer.with_number(to, numbers[to] + 1));
        }
    }
}

/// Any totals of rules that the table does not have. None of these is a cause of
/// 11.
pub fn unread_totals(closed: bool) -> Vec<Named> {
    let past_rules = |base: Record| {
        let runs = Vec::new();
        let past = base.table.count as usize;
        let mut changed = Changed { base, runs };
        for slot in [past, past + 1, 15] {
            for numbers in [[1, 0, 0, 0], [0, 0, 0, 1], [2, 1, 1, 0], [65_535; 4]] {
                changed.add_totals(slot, Totals::with_numbers(numbers));
            }
        }
        changed.runs
    };
    let bases = [base(closed), overall_base(closed)];
    bases.map(past_rules).concat()
}

/// Any kept time: below the events, at the last one, which is at 8, and above it.
/// None of these is a cause of 11.
pub fn kept_times(closed: bool) -> Vec<Named> {
    let of_times = |base: Record| {
        let runs = Vec::new();
        let mut changed = Changed { base, runs };
        for clock in [1, 5, 7, 8, 9, 508, u32::MAX - 1, u32::MAX] {
            changed.add(format!("kept time {clock}"), |run| run.clock = clock);
        }
        changed.runs
    };
    let bases = [base(closed), overall_base(closed)];
    bases.map(of_times).concat()
}
