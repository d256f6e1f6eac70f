//! Mistakes in the rules about the cycle as such.

use super::bands::each_alone_at_0;
use super::targets::with_target;
use super::{Mistake, State};
use crate::command::kind_and_target;
use evaluator::{fitting, overall_verdict, place, read_rules, standing, standing_at_last, start};
use evaluator::{Event, Record, Refusal, Rule, Standing, Totals};

impl State {
    /// The run that start gives.
    pub(super) fn started(&self) -> Result<Record, Refusal> {
        if self.refuses_bands(&self.table) {
            return Err(Refusal::plain(11));
        }
        let mut table = self.judged_table(&self.table);
        if self.has(Mistake::AllowsCorrelation) {
            for rule in table.rules.iter_mut().filter(|rule| rule.code >= 13) {
                rule.correlation.count = 0;
            }
        }
        let mut run = start(&table)?;
        run.table = self.table.clone();
        self.judge_zeros(&mut run, [Standing::Idle; 16]);
        if self.has(Mistake::StartsIdle) {
            run.overall.fill(Standing::Idle);
        }
        if self.has(Mistake::StartsWithOldClock) {
            run.clock = self.run.clock;
        }
        self.change_totals(b's', &mut run);
        Ok(run)
    }

    /// Position 0 after a take that was accepted.
    pub(super) fn change_position_0(&self, run: &mut Record) {
        self.judge_zeros(run, self.run.overall);
        if self.has(Mistake::ResetsPositionZero) {
            for (index, rule) in run.table.rules().iter().flatten().enumerate() {
                if !rule.is_overall() {
                    run.overall[index] = Standing::Idle;
                }
            }
        }
    }

    /// Judges position 0 with a mistake where it was not decided before.
    fn judge_zeros(&self, run: &mut Record, before: [Standing; 16]) {
        let rules = run.table.rules().unwrap_or_default();
        let events = &run.events[..run.count as usize];
        for (index, rule) in rules.iter().enumerate().filter(|(_, r)| r.is_overall()) {
            if !before[index].is_decided() {
                let right = run.overall[index];
                run.overall[index] = self.mistaken_standing(rule, events, right);
            }
        }
    }

    fn mistaken_standing(&self, rule: &Rule, events: &[Event], right: Standing) -> Standing {
        let one_sided = match (rule.code, right, overall_verdict(rule, events)) {
            (16, Standing::Open, Standing::Fulfilled(target)) => Some(target),
            _ => None,
        };
        match self.mistake {
            Mistake::WindowFromTimeZero => from_time_0(rule, events),
            Mistake::WindowFromTheActivation => {
                let first = events.iter().position(|e| e.activity == rule.activation);
                from_event(rule, events, first.unwrap_or(events.len()))
            }
            Mistake::WindowFromTheLast => from_event(rule, events, events.len().max(1) - 1),
            Mistake::CountsTheTargetOf13 if rule.code == 13 => as_choice(rule, events),
            Mistake::ViolatesOneSided => one_sided.map_or(right, Standing::Violated),
            Mistake::FulfilsOneSided => one_sided.map_or(right, Standing::Fulfilled),
            Mistake::NamesNoneOfBoth if rule.code == 16 && right.is_violated() => {
                Standing::Violated(0)
            }
            Mistake::NamesTheLatestFit => {
                let last = fitting(rule, events).last().copied();
                with_target(right, last.unwrap_or(0) as u16)
            }
            Mistake::DecidesAbsenceAtClose if rule.code == 14 => Standing::Open,
            Mistake::JudgesEachAlone => each_alone_at_0(rule, events, right),
            Mistake::JudgesByTheClockAlone => self.lapsed_at_0(rule, events, right),
            _ => right,
        }
    }

    /// Position 0 after a close that was accepted.
    pub(super) fn change_closed_0(&self, run: &mut Record) {
        if self.has(Mistake::ClosesOverallToViolated) {
            let rules = run.table.rules().unwrap_or_default();
            for (index, _) in rules.iter().enumerate().filter(|(_, r)| r.is_overall()) {
                if self.run.overall[index] == Standing::Open {
                    run.overall[index] = Standing::Violated(0);
                }
            }
        }
    }

    /// Whether position 0 of a rule 1 to 12 is taken for a cause of 11.
    pub(super) fn refuses_zeros(&self) -> bool {
        let rules = self.run.table.rules().unwrap_or_default();
        let mut others = rules
            .iter()
            .zip(self.run.overall)
            .filter(|(rule, _)| !rule.is_overall());
        self.has(Mistake::ChecksEveryZero) && others.any(|(_, cell)| cell != Standing::Idle)
    }

    /// The run as standing or totals sees it, without what a mistake takes for no
    /// cause of 11.
    pub(super) fn run_as_checked(&self, letter: u8) -> Record {
        let mut run = self.seen_by(letter);
        let overall = |index: usize| self.run.table.rules[index].code >= 13;
        let count = self.run.count.min(256) as u16;
        for index in (0..16).filter(|index| overall(*index)) {
            let cell = self.run.overall[index];
            let allowed = match self.mistake {
                Mistake::AllowsIdleAtZero => cell == Standing::Idle,
                Mistake::AllowsFarTargetsAtZero => target_of(cell) > count,
                Mistake::AllowsOpenAtZero => cell == Standing::Open && self.run.closed,
                _ => false,
            };
            if allowed {
                run.overall[index] = Standing::Violated(0);
                run.count_totals();
            }
            if self.has(Mistake::AllowsStandingsAtEvents) {
                let row = place(index + 1, 1)..=place(index + 1, 256);
                run.standings[row].fill(Standing::Idle);
                run.count_totals();
            }
        }
        run
    }

    /// Adds position 0 of a rule 1 to 12 to its totals.
    pub(super) fn add_zero(&self, rule: u64, totals: &mut Totals) {
        let at = rule as usize - 1;
        let overall = self.run.table.rules[at].code >= 13;
        if overall || !self.has(Mistake::CountsEveryZero) {
            return;
        }
        let cell = self.run.overall[at];
        totals.activations += u16::from(cell != Standing::Idle);
        totals.fulfilled += u16::from(cell.is_fulfilled());
        totals.violated += u16::from(cell.is_violated());
        totals.open += u16::from(cell == Standing::Open);
    }

    /// What is read of a rules text.
    pub(super) fn mistaken_rules(
        &self,
        text: &[u8],
        read: Result<Vec<Rule>, Refusal>,
    ) -> Result<Vec<Rule>, Refusal> {
        let refused = read
            .as_ref()
            .err()
            .map(|refusal| (refusal.number, refusal.line));
        match (self.mistake, refused) {
            (Mistake::MisfitBeforeWindow, Some((6, Some(line)))) => {
                let misfit = Err(Refusal::at(16, line));
                let without_end = read_rules(&with_field(text, line, 5, "-"));
                Some(without_end)
                    .filter(|again| *again == misfit)
                    .unwrap_or(read)
            }
            (Mistake::AllowsCorrelation, Some((16, Some(line)))) => {
                read_rules(&with_field(text, line, 7, "-"))
            }
            (Mistake::RefusesEqualUnder13, None) => {
                let rules = read.expect("no refusal");
                let equal = |rule: &Rule| rule.code == 13 && rule.activation == rule.target;
                match rules.iter().position(equal) {
                    Some(at) => Err(Refusal::at(16, at + 1)),
                    None => Ok(rules),
                }
            }
            _ => read,
        }
    }
}

fn target_of(standing: Standing) -> u16 {
    kind_and_target(standing).1
}

/// The standing if the window runs from the event at `first`: the ones before it
/// are left out.
fn from_event(rule: &Rule, events: &[Event], first: usize) -> Standing {
    let horizon = events.last().map_or(0, |event| event.time);
    let found = standing(rule, &events[first..], horizon, 0);
    match found {
        Standing::Fulfilled(target @ 1..) => Standing::Fulfilled(target + first as u16),
        Standing::Violated(target @ 1..) => Standing::Violated(target + first as u16),
        other => other,
    }
}

/// The standing with an event before the others that has time 0 and no activity of
/// the rule.
fn from_time_0(rule: &Rule, events: &[Event]) -> Standing {
    let other = (1..=3).find(|x| ![rule.activation, rule.target].contains(x));
    let before = Event::new(0, other.expect("one of three activities"));
    let found = standing_at_last(rule, &[&[before], events].concat(), 0);
    match found {
        Standing::Fulfilled(target @ 1..) => Standing::Fulfilled(target - 1),
        Standing::Violated(target @ 1..) => Standing::Violated(target - 1),
        other => other,
    }
}

/// The standing of an existence that takes the target activity for its own too.
fn as_choice(rule: &Rule, events: &[Event]) -> Standing {
    let mut choice = rule.clone();
    choice.code = match rule.activation == rule.target {
        true => 13,
        false => 15,
    };
    standing_at_last(&choice, events, 0)
}

/// The text with another content of a field (from 1) of a line (from 1) that has
/// seven.
pub(super) fn with_field(text: &[u8], line: usize, field: usize, content: &str) -> Vec<u8> {
    let lines = text.split_inclusive(|byte| *byte == b'\n');
    let mut lines: Vec<Vec<u8>> = lines.map(<[u8]>::to_vec).collect();
    let end = if field == 7 { "\n" } else { "" };
    let content = format!("{content}{end}");
    let fields = lines[line - 1].split(|byte| *byte == b'\t');
    let mut fields: Vec<&[u8]> = fields.collect();
    fields[field - 1] = content.as_bytes();
    lines[line - 1] = fields.join(&b'\t');
    lines.concat()
}
