//! What the stand-in prints for a run and for two texts.

use super::targets::printed_with_earliest;
use super::written::Source;
use super::{Mistake, State};
use evaluator::report::LARGEST_FILE;
use evaluator::slots::EVENT_SLOTS;
use evaluator::{notebook_record, printed, report, report_of, Refusal, Standing};

impl State {
    pub(super) fn print(&mut self, rules: &[u8], cycle: &[u8], room: u32) {
        self.write(Source::Texts(rules, cycle), u64::from(room));
        if self.has(Mistake::PrintsIntoTheRun) {
            let read = notebook_record(rules, cycle);
            self.run = read.unwrap_or(self.run.clone());
        }
    }

    pub(super) fn printed_text(&self, rules: &[u8], cycle: &[u8]) -> Vec<u8> {
        let large = rules.len().max(cycle.len()) > LARGEST_FILE;
        let text = match self.mistake {
            Mistake::PrintsLargeTextsAs13 if large => {
                report(Some(rules.to_vec()), Some(cycle.to_vec()))
            }
            Mistake::PrintsTheEarliest => printed_with_earliest(rules, cycle),
            _ => printed(rules, cycle),
        };
        self.mistaken_lines(text)
    }

    pub(super) fn report_text(&self) -> Result<Vec<u8>, Refusal> {
        let mut run = self.seen_by(b'v');
        if self.has(Mistake::ReportsUncheckedStandings) {
            let count = usize::try_from(run.count).unwrap_or(EVENT_SLOTS);
            let cells = run.standings.iter_mut().enumerate();
            let past = cells.filter(|(cell, _)| cell % EVENT_SLOTS >= count);
            past.for_each(|(_, standing)| *standing = Standing::Idle);
        }
        let text = report_of(&run)?;
        if !run.closed && self.has(Mistake::ReportsClosedAlone) {
            return Err(Refusal::plain(9));
        }
        Ok(self.mistaken_lines(text))
    }

    /// The lines with a mistake.
    fn mistaken_lines(&self, text: Vec<u8>) -> Vec<u8> {
        let text = String::from_utf8(text).expect("ASCII");
        let lines: Vec<Line> = text.lines().map(fields_of).collect();
        let lines = match self.mistake {
            Mistake::PrintsTheNextTarget => with_next_targets(lines),
            Mistake::PrintsTotalsFirst => with_totals_first(lines),
            _ => lines,
        };
        let lines = lines.into_iter().filter(|line| !self.leaves_out(line));
        lines.flat_map(|line| self.mistaken_line(line)).collect()
    }

    fn leaves_out(&self, line: &Line) -> bool {
        match self.mistake {
            Mistake::LeavesOutIdleRules => is_total(line) && line[2] == "0",
            Mistake::PrintsNoZero => line[1] == "0",
            _ => false,
        }
    }

    fn mistaken_line(&self, mut line: Line) -> Vec<u8> {
        for field in &mut line {
            *field = self.mistaken_field(field).to_string();
        }
        if is_total(&line) && self.has(Mistake::PrintsTotalsWithoutOpen) {
            let number = |at: usize| line[at].parse::<usize>().expect("a number");
            line[2] = (number(3) + number(4)).to_string();
        }
        (line.join("\t") + "\n").into_bytes()
    }

    /// A letter or a name with a mistake.
    fn mistaken_field<'a>(&self, field: &'a str) -> &'a str {
        match (self.mistake, field) {
            (Mistake::SwapsVerdicts, "F") => "V",
            (Mistake::SwapsVerdicts, "V") => "F",
            (Mistake::PrintsOpenAsViolated, "O") => "V",
            (Mistake::NamesTheOtherText, "rules") => "cycle",
            (Mistake::NamesTheOtherText, "cycle") => "rules",
            _ => field,
        }
    }
}

/// The fields of a line.
type Line = Vec<String>;

fn fields_of(line: &str) -> Line {
    line.split('\t').map(str::to_string).collect()
}

fn is_total(line: &Line) -> bool {
    line[0] == "total"
}

/// Activations have four fields, and so has a refused line, which is alone.
fn with_next_targets(mut lines: Vec<Line>) -> Vec<Line> {
    for at in 1..lines.len() {
        if !is_total(&lines[at - 1]) && !is_total(&lines[at]) {
            lines[at - 1][3] = lines[at][3].clone();
        }
    }
    lines
}

fn with_totals_first(lines: Vec<Line>) -> Vec<Line> {
    let rules = lines.split_inclusive(is_total).map(<[Line]>::to_vec);
    rules
        .flat_map(|mut rule| {
            rule.rotate_right(1);
            rule
        })
        .collect()
}
