//! Mistakes in conditions that compare a reading more than once, and in counting
//! the comparisons of a text.

use super::overall::with_field;
use super::{Mistake, State};
use evaluator::bands::{conditions, is_band};
use evaluator::slots::COMPARISON_SLOTS;
use evaluator::{is_activation, place, read_rules, standing};
use evaluator::{Comparison, Event, Record, Refusal, Rule, RuleSlot, Standing, TableRecord};

/// A condition of a text that is refused with 17.
const FIVE: &str = "1=0,1=0,1=0,1=0,1=0";

impl State {
    /// The table as start and take judge by it: of the comparisons of a reading one
    /// is left.
    pub(super) fn judged_table(&self, table: &TableRecord) -> TableRecord {
        let last = match self.mistake {
            Mistake::LooksAtTheFirstAlone => false,
            Mistake::LooksAtTheLastAlone => true,
            _ => return table.clone(),
        };
        let Some(rules) = table.rules() else {
            return table.clone();
        };
        let mut judged = table.clone();
        for (slot, mut rule) in judged.rules.iter_mut().zip(rules) {
            rule.activation_condition = one_of_each(&rule.activation_condition, last);
            rule.correlation = one_of_each(&rule.correlation, last);
            *slot = RuleSlot::of(&rule);
        }
        judged
    }

    /// The standings of a take that was accepted, where each comparison is judged by
    /// itself when it is asked whether a target can still come.
    pub(super) fn change_awaited(&self, run: &mut Record) {
        if !self.has(Mistake::JudgesEachAlone) {
            return;
        }
        let rules = run.table.rules().expect("a valid table");
        let events = &run.events[..run.count as usize];
        for (index, rule) in rules.iter().enumerate().filter(|(_, r)| !r.is_overall()) {
            for position in 1..=events.len() {
                let cell = place(index + 1, position);
                let kept = self.run.standings[cell].is_decided();
                if !kept && is_awaited(rule, events, position, run.standings[cell]) {
                    run.standings[cell] = Standing::Open;
                }
            }
        }
    }

    /// Whether a table is taken for a cause of 11.
    pub(super) fn refuses_bands(&self, table: &TableRecord) -> bool {
        let rules = table.rules().unwrap_or_default();
        self.has(Mistake::RefusesBandsInRecords) && rules.iter().any(has_band)
    }

    /// What is read of a rules text.
    pub(super) fn miscounted_rules(
        &self,
        text: &[u8],
        read: Result<Vec<Rule>, Refusal>,
    ) -> Result<Vec<Rule>, Refusal> {
        let refusal = match read {
            Ok(rules) => return self.without_bands(rules),
            Err(refusal) => refusal,
        };
        let line = refusal.line.unwrap_or(0);
        match (self.mistake, refusal.number) {
            (Mistake::DropsTheFifth, 17) => {
                let shorter = with_four(text, line);
                self.miscounted_rules(&shorter, read_rules(&shorter))
            }
            (Mistake::CountsCommasFirst, 3 | 4) => {
                let too_many = |field| is_counted_first(text, line, field);
                match too_many(6) || too_many(7) {
                    true => Err(Refusal::at(17, line)),
                    false => Err(refusal),
                }
            }
            (Mistake::CountsCommasLast, 17) => {
                let number = first_fault(text, line).unwrap_or(17);
                Err(Refusal::at(number, line))
            }
            (Mistake::FifthAfterTheWindow, 17) => {
                let window = read_rules(&without_conditions(text, line)).err();
                let window = window.filter(|found| *found == Refusal::at(6, line));
                Err(window.unwrap_or(refusal))
            }
            _ => Err(refusal),
        }
    }

    /// The rules of an accepted text.
    fn without_bands(&self, rules: Vec<Rule>) -> Result<Vec<Rule>, Refusal> {
        let band = rules.iter().position(has_band);
        match band.filter(|_| self.has(Mistake::RefusesBandsInTexts)) {
            Some(at) => Err(Refusal::at(5, at + 1)),
            None => Ok(rules),
        }
    }
}

fn has_band(rule: &Rule) -> bool {
    conditions(rule).any(|condition| is_band(condition))
}

/// Of the comparisons of each reading the first or the last one.
fn one_of_each(condition: &[Comparison], last: bool) -> Vec<Comparison> {
    let is_other = |place: usize, other: usize| if last { other > place } else { other < place };
    let alone = |(place, comparison): &(usize, &Comparison)| {
        let mut others = condition.iter().enumerate();
        !others.any(|(other, c)| is_other(*place, other) && c.reading == comparison.reading)
    };
    let kept = condition.iter().enumerate().filter(alone);
    kept.map(|(_, comparison)| *comparison).collect()
}

/// The comparisons on a reading of their own each, so that none bears on another.
fn apart(condition: &[Comparison]) -> Vec<Comparison> {
    let numbered = (1..).zip(condition);
    let apart = numbered.map(|(reading, c)| Comparison { reading, ..*c });
    apart.collect()
}

/// Whether a decided activation without a target waits for one if its comparisons
/// are taken apart.
fn is_awaited(rule: &Rule, events: &[Event], position: usize, right: Standing) -> bool {
    let none = [Standing::Violated(0), Standing::Fulfilled(0)].contains(&right);
    let last = events[events.len() - 1].time;
    let apart = rule.clone().with_correlation(apart(&rule.correlation));
    none && would_wait(rule, &apart, events, position, last)
}

/// Whether an activation without a target waits for one if it is judged by another
/// rule and horizon.
pub(super) fn would_wait(
    rule: &Rule,
    judged: &Rule,
    events: &[Event],
    position: usize,
    horizon: u32,
) -> bool {
    let looks_ahead = match rule.code {
        1 | 2 | 8 | 9 => true,
        3 => !events[position..].iter().any(|e| is_activation(rule, e)),
        4 | 11 => position == events.len(),
        _ => false,
    };
    let alone = &events[position - 1..position];
    looks_ahead && standing(judged, alone, horizon, 1) == Standing::Open
}

/// Position 0 if the comparisons are taken apart: open where it was decided without
/// a target and an event to come can meet each of them.
pub(super) fn each_alone_at_0(rule: &Rule, events: &[Event], right: Standing) -> Standing {
    let condition = apart(&rule.activation_condition);
    let apart = rule.clone().with_activation_condition(condition);
    let last = events.last().map_or(0, |event| event.time);
    // The first event says where the window begins; without readings it does not fit.
    let first = events
        .first()
        .map(|first| Event::new(first.time, first.activity));
    let none = [Standing::Violated(0), Standing::Fulfilled(0)].contains(&right);
    match none && standing(&apart, first.as_slice(), last, 0) == Standing::Open {
        true => Standing::Open,
        false => right,
    }
}

/// The comparisons in a field (from 1) of a line (from 1), as far as there are any.
fn parts(text: &[u8], line: usize, field: usize) -> Vec<String> {
    let line = text.split(|byte| *byte == b'\n').nth(line - 1);
    let field = line.and_then(|line| line.split(|byte| *byte == b'\t').nth(field - 1));
    let field = String::from_utf8_lossy(field.unwrap_or_default());
    field.split(',').map(str::to_string).collect()
}

/// The text with the first four comparisons of both conditions of a line.
fn with_four(text: &[u8], line: usize) -> Vec<u8> {
    let shortened = |text: &[u8], field| {
        let mut parts = parts(text, line, field);
        parts.truncate(COMPARISON_SLOTS);
        with_field(text, line, field, &parts.join(","))
    };
    shortened(&shortened(text, 6), 7)
}

/// The text with both conditions of a line empty.
fn without_conditions(text: &[u8], line: usize) -> Vec<u8> {
    with_field(&with_field(text, line, 6, "-"), line, 7, "-")
}

/// Whether a condition has commas enough for 17, and nothing before it in the line
/// is refused.
fn is_counted_first(text: &[u8], line: usize, field: usize) -> bool {
    let replaced = || read_rules(&with_field(text, line, field, FIVE));
    parts(text, line, field).len() > COMPARISON_SLOTS
        && replaced().err() == Some(Refusal::at(17, line))
}

/// The number of the first comparison of a line, the fifth and what follows it
/// included, that is not of its form or not in range.
fn first_fault(text: &[u8], line: usize) -> Option<u8> {
    let empty = without_conditions(text, line);
    let alone = |field: usize, part: String| {
        let refused = read_rules(&with_field(&empty, line, field, &part)).err();
        let of_line = refused.filter(|refusal| refusal.line == Some(line));
        let number = of_line.map(|refusal| refusal.number);
        number.filter(|number| [3, 4].contains(number))
    };
    let all = [6, 7].map(|field| {
        parts(text, line, field)
            .into_iter()
            .map(move |p| (field, p))
    });
    let mut all = all.into_iter().flatten();
    all.find_map(|(field, part)| alone(field, part))
}
