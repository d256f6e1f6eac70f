//! The standings of a cycle's positions under its rules. The algorithm of the library: the rule is
//! bound to the activation once, each of its tests is made a check, its reach is one interval, the
//! nearest event that fits decides.
use crate::types::*;

#[derive(Clone, Copy)]
struct Test {
    reading: u8,
    operator: Operator,
    against: Option<i64>,
}

/// What a test answers for a reading below, equal to or above the number that it is held against,
/// and for a blank.
#[derive(Clone, Copy)]
struct Check {
    place: usize,
    against: i64,
    below: bool,
    equal: bool,
    above: bool,
    blank: bool,
}

struct Bound {
    target: u8,
    time: u32,
    window: Window,
    count: u8,
    tests: [Test; 4],
}

impl Bound {
    fn tests(&self) -> &[Test] {
        &self.tests[..self.count as usize]
    }
}

fn reading_of(e: &Event, k: u8) -> Option<i64> {
    let at = (k as usize).wrapping_sub(1);
    match e.readings.get(at) {
        Some(Reading::Value(v)) => Some(*v as i64),
        _ => None,
    }
}

fn compare(operator: Operator, x: i64, y: i64) -> bool {
    match operator {
        Operator::Equal => x == y,
        Operator::NotEqual => x != y,
        Operator::Less => x < y,
        Operator::AtMost => x <= y,
        Operator::Greater => x > y,
        Operator::AtLeast => x >= y,
    }
}

fn holds(operator: Operator, x: Option<i64>, y: Option<i64>) -> bool {
    match (x, y) {
        (Some(v), Some(w)) => compare(operator, v, w),
        _ => false,
    }
}

fn reference_of(a: &Event, reference: Reference) -> Option<i64> {
    match reference {
        Reference::Constant(k) => Some(k as i64),
        Reference::Activation(g, k) => reading_of(a, g).map(|v| v + k as i64),
    }
}

fn test_of(a: &Event, c: &Comparison) -> Test {
    Test {
        reading: c.reading,
        operator: c.operator,
        against: reference_of(a, c.reference),
    }
}

fn passes(e: &Event, t: &Test) -> bool {
    holds(t.operator, reading_of(e, t.reading), t.against)
}

fn check_of(t: &Test) -> Check {
    let blank = holds(t.operator, None, t.against);
    let place = (t.reading as usize).wrapping_sub(1);
    if place >= 4 {
        return Check {
            place: 0,
            against: 0,
            below: blank,
            equal: blank,
            above: blank,
            blank,
        };
    }
    match t.against {
        None => {
            let number = holds(t.operator, Some(0), None);
            Check {
                place,
                against: 0,
                below: number,
                equal: number,
                above: number,
                blank,
            }
        }
        Some(against) => Check {
            place,
            against,
            below: compare(t.operator, 0, 1),
            equal: compare(t.operator, 0, 0),
            above: compare(t.operator, 1, 0),
            blank,
        },
    }
}

fn answers(c: &Check, e: &Event) -> bool {
    match e.readings[c.place] {
        Reading::Blank => c.blank,
        Reading::Value(v) => {
            let x = v as i64;
            if x < c.against {
                c.below
            } else if x > c.against {
                c.above
            } else {
                c.equal
            }
        }
    }
}

fn meets_condition(rule: &Rule, e: &Event) -> bool {
    let used = rule.condition.used();
    used.iter().all(|c| passes(e, &test_of(e, c)))
}

fn is_activation(rule: &Rule, e: &Event) -> bool {
    e.activity == rule.activation && meets_condition(rule, e)
}

fn within(window: &Window, d: u32) -> bool {
    window.from <= d && window.until.map_or(true, |b| d < b)
}

fn bound_of(rule: &Rule, a: &Event) -> Bound {
    let c = &rule.correlation;
    Bound {
        target: rule.target,
        time: a.time,
        window: rule.window,
        count: c.count,
        tests: [0, 1, 2, 3].map(|k| test_of(a, &c.comparisons[k])),
    }
}

fn fits(b: &Bound, checks: &[Check], e: &Event) -> bool {
    e.activity == b.target
        && within(&b.window, b.time.abs_diff(e.time))
        && checks.iter().all(|c| answers(c, e))
}

fn meets(tests: &[Test], k: u8, v: Option<i64>) -> bool {
    v.map_or(true, |x| (-2147483648..=2147483647).contains(&x))
        && tests
            .iter()
            .all(|t| t.reading != k || holds(t.operator, v, t.against))
}

fn edge(t: &Test) -> Option<i64> {
    let after = |y: i64| if y < 2147483647 { y + 1 } else { y };
    t.against.map(|y| match t.operator {
        Operator::Equal | Operator::AtLeast => y,
        Operator::NotEqual | Operator::Greater => after(y),
        Operator::Less | Operator::AtMost => -2147483648,
    })
}

fn some_meets(tests: &[Test], k: u8) -> bool {
    meets(tests, k, None)
        || meets(tests, k, Some(-2147483648))
        || tests.iter().any(|t| meets(tests, k, edge(t)))
}

fn satisfiable(tests: &[Test]) -> bool {
    tests.is_empty() || (1..=4).all(|k| some_meets(tests, k))
}

fn has_room(window: &Window, time: u32, horizon: u32) -> bool {
    match time.checked_add(window.from) {
        None => false,
        Some(opening) if horizon < opening => within(window, window.from),
        Some(_) => within(window, horizon - time),
    }
}

fn can_suit(b: &Bound, horizon: u32) -> bool {
    has_room(&b.window, b.time, horizon) && satisfiable(b.tests())
}

/// The places from the first, up to but without the second; past the last event if one may still
/// come.
fn span_of(code: u8, flags: &[bool], p: usize) -> (usize, usize) {
    let n = flags.len();
    match code {
        2 | 9 => (p, n + 1),
        3 => (
            p + 1,
            flags[p + 1..]
                .iter()
                .position(|&f| f)
                .map_or(n + 1, |d| p + d + 2),
        ),
        4 | 11 => (p + 1, p + 2),
        5 | 10 => (0, p + 1),
        6 => (flags[..p].iter().rposition(|&f| f).unwrap_or(0), p),
        7 | 12 => (p.saturating_sub(1), p),
        _ => (0, n + 1),
    }
}

fn decide(code: u8, target: u16) -> Standing {
    match (code >= 8, target) {
        (false, 0) => Standing::Violated(0),
        (false, j) => Standing::Fulfilled(j),
        (true, 0) => Standing::Fulfilled(0),
        (true, j) => Standing::Violated(j),
    }
}

// Functions of their own: inlined, the two loops take a quarter more instructions.
#[inline(never)]
fn last_fitting(
    b: &Bound,
    checks: &[Check],
    events: &[Event],
    start: usize,
    end: usize,
) -> Option<usize> {
    (start..end).rev().find(|&q| fits(b, checks, &events[q]))
}

#[inline(never)]
fn first_fitting(
    b: &Bound,
    checks: &[Check],
    events: &[Event],
    start: usize,
    end: usize,
) -> Option<usize> {
    (start..end).find(|&q| fits(b, checks, &events[q]))
}

fn judge_activation(
    running: bool,
    rule: &Rule,
    events: &[Event],
    flags: &[bool],
    horizon: u32,
    p: usize,
) -> Standing {
    let n = events.len();
    let (start, stop) = span_of(rule.code, flags, p);
    let bound = bound_of(rule, &events[p]);
    let checks = bound.tests.map(|t| check_of(&t));
    let checks = &checks[..bound.count as usize];
    let end = stop.min(n);
    let found = last_fitting(&bound, checks, events, start, end.min(p + 1))
        .or_else(|| first_fitting(&bound, checks, events, p + 1, end));
    match found {
        Some(q) => decide(rule.code, (q + 1) as u16),
        None if running && stop > n && can_suit(&bound, horizon) => Standing::Open,
        None => decide(rule.code, 0),
    }
}

/// The rows of the rules: a decided standing is carried over, any other follows from the events.
/// Rules about the cycle stand idle there. The same pass counts them into the totals.
pub fn judge_cells(
    running: bool,
    rules: &[Rule],
    events: &[Event],
    horizon: u32,
    cells: &mut [Standing; 4096],
    totals: &mut [Totals; 16],
) {
    let mut flags = [false; 256];
    let flags = &mut flags[..events.len()];
    let rows = cells.chunks_exact_mut(256).zip(totals);
    for (rule, (row, totals)) in rules.iter().zip(rows) {
        if rule.is_overall() {
            continue;
        }
        for (f, e) in flags.iter_mut().zip(events) {
            *f = is_activation(rule, e);
        }
        for (p, c) in row[..events.len()].iter_mut().enumerate() {
            if !matches!(c, Standing::Fulfilled(_) | Standing::Violated(_)) {
                *c = if flags[p] {
                    judge_activation(running, rule, events, flags, horizon, p)
                } else {
                    Standing::Idle
                };
            }
            if *c != Standing::Idle {
                totals.count(*c);
            }
        }
    }
}

/// The first position at which the activity occurs: with the condition met, inside the window from
/// the first event on.
fn first_occurrence(rule: &Rule, activity: u8, events: &[Event]) -> Option<u16> {
    let first = events.first()?.time;
    let occurs = |e: &Event| {
        e.activity == activity
            && within(&rule.window, first.abs_diff(e.time))
            && meets_condition(rule, e)
    };
    events.iter().position(occurs).map(|p| (p + 1) as u16)
}

/// Whether an event that comes may occur. The activation condition names constants only.
fn can_occur(rule: &Rule, events: &[Event], horizon: u32) -> bool {
    let first = events.first().map_or(horizon, |e| e.time);
    let c = &rule.condition;
    let tests = c.comparisons.map(|x| test_of(&SLOT, &x));
    has_room(&rule.window, first, horizon) && satisfiable(&tests[..c.count as usize])
}

/// The standing at position 0.
fn judge_cycle(running: bool, rule: &Rule, events: &[Event], horizon: u32) -> Standing {
    let activation = first_occurrence(rule, rule.activation, events);
    let target = match rule.counts_target() {
        true => first_occurrence(rule, rule.target, events),
        false => None,
    };
    let (a, b) = (activation.is_some(), target.is_some());
    let (fulfilled, settled) = match rule.code {
        13 => (a, a),
        14 => (!a, a),
        15 => (a || b, a || b),
        _ => (a != b, a && b),
    };
    if running && !settled && can_occur(rule, events, horizon) {
        return Standing::Open;
    }
    let earliest = activation.into_iter().chain(target).min().unwrap_or(0);
    if fulfilled {
        Standing::Fulfilled(earliest)
    } else {
        Standing::Violated(earliest)
    }
}

/// Position 0 of the rules about the cycle: a decided standing is carried over, any other follows
/// from the events.
pub fn judge_overall(
    running: bool,
    rules: &[Rule],
    events: &[Event],
    horizon: u32,
    overall: &mut [Standing; 16],
) {
    for (rule, s) in rules.iter().zip(overall) {
        if rule.is_overall() && matches!(s, Standing::Idle | Standing::Open) {
            *s = judge_cycle(running, rule, events, horizon);
        }
    }
}
