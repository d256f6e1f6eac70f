//! Mistakes in notices and in what becomes of the kept time.

use super::bands::would_wait;
use super::{Mistake, State};
use evaluator::slots::EVENT_SLOTS;
use evaluator::{place, standing, Event, Record, Refusal, Rule, Standing};

const LARGEST_TIME: u64 = u32::MAX as u64;

impl State {
    pub(super) fn notice(&mut self, time: u64) {
        if self.run.closed && self.has(Mistake::ClosedBeforeNotices) {
            return self.answer(Some(Refusal::plain(9)), [0; 12]);
        }
        let (mut run, answer) = self.noticed(self.seen_by(b'k'), time);
        match answer {
            Ok(()) => self.change_noticed(&mut run),
            Err(_) => {
                self.change_refused_totals(&mut run);
                if self.has(Mistake::KeepsRefusedNotices) {
                    run.clock = time as u32;
                }
            }
        }
        self.run = run;
        self.answer(answer.err(), [0; 12]);
    }

    /// The run after a notice and the answer, with a mistake in the refusals.
    fn noticed(&self, mut seen: Record, time: u64) -> (Record, Result<(), Refusal>) {
        let clock = seen.clock;
        let low = time & LARGEST_TIME;
        let is_above = time > LARGEST_TIME;
        let horizon = u64::from(seen.horizon());
        match self.mistake {
            Mistake::CutsNotices => return seen.notice(low),
            Mistake::NoticesBelowNotices => {
                seen.clock = 0;
                let (mut run, answer) = seen.notice(time);
                if answer.is_err() {
                    run.clock = clock;
                }
                return (run, answer);
            }
            Mistake::NoticesBelowEvents if time >= u64::from(clock) => {
                let (mut run, answer) = seen.notice(time.max(horizon));
                if answer.is_ok() {
                    run.clock = time as u32;
                }
                return (run, answer);
            }
            _ => {}
        }
        let before = seen.clone();
        let (run, answer) = seen.notice(time);
        let refusal = match (self.mistake, answer) {
            (Mistake::RefusesEqualNotices, Ok(())) if time == horizon => Refusal::at(7, 0),
            (Mistake::RefusesNoticesWhenFull, Ok(())) if run.count == EVENT_SLOTS as u64 => {
                Refusal::at(8, 0)
            }
            (Mistake::CutsBeforeComparing, Err(Refusal { number: 3, .. })) if low < horizon => {
                Refusal::at(7, 0)
            }
            (Mistake::RangeBeforeClosed, Err(Refusal { number: 9, .. })) if is_above => {
                Refusal::at(3, 0)
            }
            (Mistake::FallsWithoutLine, Err(Refusal { number: 7, .. })) => Refusal::plain(7),
            _ => return (run, answer),
        };
        (before, Err(refusal))
    }

    /// What a notice that was accepted has changed.
    fn change_noticed(&self, run: &mut Record) {
        let count = run.count as usize;
        match self.mistake {
            Mistake::NoticesDecideNothing => {
                run.standings = self.run.standings.clone();
                run.overall = self.run.overall;
            }
            Mistake::NoticesLeavePositionZero => run.overall = self.run.overall,
            Mistake::IgnoresNoticesWithoutEvents if count == 0 => run.overall = self.run.overall,
            Mistake::NoticesJudgeAnew => judge_anew(run),
            Mistake::NoticesEndChains => end_chains(run),
            Mistake::NoticesFillASlot if count < EVENT_SLOTS => {
                run.events[count] = Event::new(run.clock, 1);
            }
            _ => {}
        }
        self.change_totals(b'k', run);
    }

    /// The run as a take sees it.
    pub(super) fn seen_by_take(&self) -> Record {
        let mut run = self.seen_by(b'e');
        if self.has(Mistake::TakesBelowNotices) {
            run.clock = 0;
        }
        run
    }

    /// The kept time after a take.
    pub(super) fn change_clock(&self, run: &mut Record, event: Event, accepted: bool) {
        run.clock = match self.mistake {
            Mistake::TakesSetTheClock if accepted => event.time,
            Mistake::TakesResetTheClock if accepted => 0,
            _ => self.run.clock,
        };
    }

    /// The standings of a take that was accepted, if the windows lapse by notices alone.
    pub(super) fn change_lapsed(&self, run: &mut Record) {
        if !self.has(Mistake::JudgesByTheClockAlone) {
            return;
        }
        let rules = run.table.rules().expect("a valid table");
        let events = &run.events[..run.count as usize];
        for (index, rule) in rules.iter().enumerate().filter(|(_, r)| !r.is_overall()) {
            for position in 1..=events.len() {
                let cell = place(index + 1, position);
                let judged = !self.run.standings[cell].is_decided();
                let waits = || would_wait(rule, rule, events, position, self.run.clock);
                if judged && has_no_target(run.standings[cell]) && waits() {
                    run.standings[cell] = Standing::Open;
                }
            }
        }
    }

    /// The same at position 0.
    pub(super) fn lapsed_at_0(&self, rule: &Rule, events: &[Event], right: Standing) -> Standing {
        // The first event says where the window begins; without readings it may not fit.
        let first = events
            .first()
            .map(|first| Event::new(first.time, first.activity));
        let Some(first) = first.filter(|_| has_no_target(right)) else {
            return right;
        };
        match standing(rule, &[first], self.run.clock, 0) {
            Standing::Open => Standing::Open,
            _ => right,
        }
    }

    /// The run after a close that was accepted.
    pub(super) fn change_closed_clock(&self, run: &mut Record) {
        match self.mistake {
            Mistake::ClosesWithClockZero => run.clock = 0,
            Mistake::ClosesByTheClock => self.close_by_the_clock(run),
            _ => {}
        }
    }

    /// An open activation is closed as violated if a notice came after the last event.
    fn close_by_the_clock(&self, run: &mut Record) {
        let events = &run.events[..run.count as usize];
        let last = events.last().map_or(0, |event| event.time);
        if run.clock <= last {
            return;
        }
        for rule in 1..=run.table.count as usize {
            for position in 1..=events.len() {
                let cell = place(rule, position);
                if self.run.standings[cell] == Standing::Open {
                    run.standings[cell] = Standing::Violated(0);
                }
            }
        }
    }

    /// Whether a kept time is taken for a cause of 11.
    pub(super) fn refuses_clock(&self) -> bool {
        let taken = self.run.count.min(EVENT_SLOTS as u64) as usize;
        let last = self.run.events[..taken].last();
        let is_above = self.run.clock > last.map_or(0, |event| event.time);
        self.has(Mistake::ChecksTheClock) && self.run.closed && is_above
    }
}

fn has_no_target(standing: Standing) -> bool {
    [Standing::Violated(0), Standing::Fulfilled(0)].contains(&standing)
}

/// Judges the decided standings too.
fn judge_anew(run: &mut Record) {
    let rules = run.table.rules().expect("a valid table");
    let events = &run.events[..run.count as usize];
    let horizon = run.horizon();
    for (index, rule) in rules.iter().enumerate() {
        for position in 1..=events.len() {
            let cell = place(index + 1, position);
            run.standings[cell] = standing(rule, events, horizon, position);
        }
        if rule.is_overall() {
            run.overall[index] = standing(rule, events, horizon, 0);
        }
    }
}

/// Decides the open chain rules as if an event had come.
fn end_chains(run: &mut Record) {
    for rule in 1..=run.table.count as usize {
        let decided = match run.table.rules[rule - 1].code {
            4 => Standing::Violated(0),
            11 => Standing::Fulfilled(0),
            _ => continue,
        };
        let row = &mut run.standings[place(rule, 1)..=place(rule, EVENT_SLOTS)];
        let open = row.iter_mut().filter(|s| **s == Standing::Open);
        open.for_each(|standing| *standing = decided);
    }
}
