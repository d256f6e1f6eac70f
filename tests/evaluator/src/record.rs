//! The run record of document 01, "A running cycle", and its calls.
//!
//! A record may be handed in that no call gave back. Cause 11 names what is
//! wrong in it; every other record is judged by its events, but for the
//! decided standings, which are kept. The rows of rules that the table does not
//! have are neither read nor changed, nor is position 0 of these and of the
//! rules 1 to 12.
//!
//! Card 5 of document 02: "The run is to store all four per rule, and totals
//! answers with them. Every call that makes or changes a run keeps them equal to
//! the counts that document 01 defines. A record whose stored totals differ from
//! its standings is refused as 11." So a call that is accepted counts them anew,
//! in one place, whatever was stored before: a take may judge any undecided
//! standing of a record that no call gave back. The totals of rules that the table
//! does not have are neither read nor changed.
//!
//! Card 7: a notice is "a time, kept in the run (0 from start)". "A notice judges as
//! a take does", but it "is no event". A record may have any kept time, below its
//! events or above them: the card names no further cause of 11.

use crate::live;
use crate::model::{is_cycle, Event, Rule, Standing, World};
use crate::overall::overall_verdict;
use crate::refusal::Refusal;
use crate::slots::{EventSlot, TableRecord, EVENT_SLOTS, RULE_SLOTS};
use crate::totals::Totals;

/// A run: "Each run value carries its own events and standings".
#[derive(Debug, Clone, PartialEq, Eq)]
pub struct Record {
    pub closed: bool,
    pub table: TableRecord,
    /// The number of events.
    pub count: u64,
    /// 256 slots.
    pub events: Vec<EventSlot>,
    /// 16 rows of 256 standings; see [`place`].
    pub standings: Vec<Standing>,
    /// Position 0 of each rule slot: under 13 to 16 the "one standing per run".
    pub overall: [Standing; RULE_SLOTS],
    /// The stored totals of each rule slot.
    pub totals: [Totals; RULE_SLOTS],
    /// The kept time: that of the last notice, 0 if there was none.
    pub clock: u32,
}

/// Where the standing of a rule (1 to 16) at a position (1 to 256) is kept.
pub fn place(rule: usize, position: usize) -> usize {
    (rule - 1) * EVENT_SLOTS + (position - 1)
}

/// "Start copies the table and gives a run not closed, with no events, each
/// event slot at time 0, activity 1 and blank readings, each standing idle." But
/// the one of a rule 13 to 16 is "judged from start on", and counted. The totals
/// of rules that the table does not have are 0.
pub fn start(table: &TableRecord) -> Result<Record, Refusal> {
    let rules = table.rules().ok_or(Refusal::plain(11))?;
    let mut run = Record {
        closed: false,
        table: table.clone(),
        count: 0,
        events: vec![Event::new(0, 1); EVENT_SLOTS],
        standings: vec![Standing::Idle; RULE_SLOTS * EVENT_SLOTS],
        overall: [Standing::Idle; RULE_SLOTS],
        totals: [Totals::default(); RULE_SLOTS],
        clock: 0,
    };
    run.judge_overall(&rules, |rule| live::standing_at_last(rule, &[], 0));
    run.count_totals();
    Ok(run)
}

/// "Close turns open into violated for 1 to 7, into fulfilled for 8 to 12,
/// target 0; other standings it keeps."
fn closed_standing(code: u8, standing: Standing) -> Standing {
    match standing {
        Standing::Open if code <= 7 => Standing::Violated(0),
        Standing::Open => Standing::Fulfilled(0),
        kept => kept,
    }
}

/// Whether a standing within the event count is one that 11 names: "a target
/// above its event count" or "open in a closed run".
fn is_wrong_taken(standing: Standing, count: usize, closed: bool) -> bool {
    match standing {
        Standing::Idle => false,
        Standing::Open => closed,
        Standing::Fulfilled(target) | Standing::Violated(target) => usize::from(target) > count,
    }
}

impl Record {
    /// The rules of the table and the number of events, or refusal 11.
    pub(crate) fn checked(&self) -> Result<(Vec<Rule>, usize), Refusal> {
        self.parts_within_limits().ok_or(Refusal::plain(11))
    }

    fn parts_within_limits(&self) -> Option<(Vec<Rule>, usize)> {
        let rules = self.table.rules()?;
        let count = usize::try_from(self.count).ok()?;
        let events = self.events.get(..count)?;
        let mut numbered = (1..).zip(&rules);
        let rows_right = numbered.all(|(number, rule)| match rule.is_overall() {
            true => self.overall_is_right(number, count),
            false => self.row_is_right(number, count),
        });
        let right = is_cycle(&World::DOCUMENT, events) && rows_right && self.totals_are_right();
        right.then_some((rules, count))
    }

    /// Not "A record whose stored totals differ from its standings".
    fn totals_are_right(&self) -> bool {
        (1..=self.rule_count()).all(|rule| self.totals[rule - 1] == self.counted(rule))
    }

    /// Stores the totals of each rule of the table, as its standings have them.
    /// The totals of the other slots stay.
    pub fn count_totals(&mut self) {
        for rule in 1..=self.rule_count() {
            self.totals[rule - 1] = self.counted(rule);
        }
    }

    /// The totals of a rule as its standings have them: those at the taken
    /// positions, and under 13 to 16 the one at position 0.
    fn counted(&self, rule: usize) -> Totals {
        let mut standings = self.row(rule)[..self.taken()].to_vec();
        if (13..=16).contains(&self.table.rules[rule - 1].code) {
            standings.push(self.overall[rule - 1]);
        }
        Totals::of(&standings)
    }

    /// The number of events, or as many as there are slots.
    fn taken(&self) -> usize {
        usize::try_from(self.count).map_or(EVENT_SLOTS, |n| n.min(EVENT_SLOTS))
    }

    /// The rules of the table, or as many as there are slots.
    fn rule_count(&self) -> usize {
        usize::try_from(self.table.count).map_or(RULE_SLOTS, |n| n.min(RULE_SLOTS))
    }

    /// Not "a record idle at 0 or not idle at an event"; its target and an open
    /// one are limited as at an event. Slots past the count are no events yet, and
    /// idle as they are for every rule.
    fn overall_is_right(&self, rule: usize, count: usize) -> bool {
        let standing = self.overall[rule - 1];
        standing != Standing::Idle
            && !is_wrong_taken(standing, count, self.closed)
            && self.row(rule).iter().all(|s| *s == Standing::Idle)
    }

    fn row_is_right(&self, rule: usize, count: usize) -> bool {
        let (taken, past) = self.row(rule).split_at(count);
        // "a standing of one of its rules not idle past that count"
        past.iter().all(|s| *s == Standing::Idle)
            && !taken.iter().any(|s| is_wrong_taken(*s, count, self.closed))
    }

    fn row(&self, rule: usize) -> &[Standing] {
        &self.standings[place(rule, 1)..=place(rule, EVENT_SLOTS)]
    }

    /// Takes one event. "Take: 11, 9, 3, 7, 8."
    pub fn take(mut self, event: EventSlot) -> (Record, Result<(), Refusal>) {
        match self.checked_for_take(&event) {
            Err(refusal) => (self, Err(refusal)),
            Ok((rules, count)) => {
                self.events[count] = event;
                self.count += 1;
                self.judge_undecided(&rules, count + 1);
                self.count_totals();
                (self, Ok(()))
            }
        }
    }

    fn checked_for_take(&self, event: &EventSlot) -> Result<(Vec<Rule>, usize), Refusal> {
        let (rules, count) = self.checked_running()?;
        if !event.is_well_formed(&World::DOCUMENT) {
            return Err(Refusal::at(3, 0));
        }
        // "time below the last taken"; "an event below a notice is 7 too"
        if event.time < self.horizon() {
            return Err(Refusal::at(7, 0));
        }
        if count == EVENT_SLOTS {
            return Err(Refusal::at(8, 0));
        }
        Ok((rules, count))
    }

    /// Keeps the time of a notice, with which the windows may be over. "It is refused
    /// by 11, on a closed run by 9, outside its range by 3, below the last event or
    /// notice by 7 (both line 0), in that order". It is no event, so 8 is not among
    /// these.
    pub fn notice(mut self, time: u64) -> (Record, Result<(), Refusal>) {
        match self.checked_for_notice(time) {
            Err(refusal) => (self, Err(refusal)),
            Ok((rules, count, time)) => {
                self.clock = time;
                self.judge_undecided(&rules, count);
                self.count_totals();
                (self, Ok(()))
            }
        }
    }

    fn checked_for_notice(&self, time: u64) -> Result<(Vec<Rule>, usize, u32), Refusal> {
        let (rules, count) = self.checked_running()?;
        let time = u32::try_from(time).map_err(|_| Refusal::at(3, 0))?;
        match time < self.horizon() {
            true => Err(Refusal::at(7, 0)),
            false => Ok((rules, count, time)),
        }
    }

    /// "the later of last event and last notice": neither an event nor a notice may
    /// come below it. Without an event it is the kept time.
    pub fn horizon(&self) -> u32 {
        let last = self.events[..self.taken()].last();
        last.map_or(0, |event| event.time).max(self.clock)
    }

    /// "At take, decided standings (fulfilled or violated) at taken positions
    /// are carried over, all others follow from the events now in the record", and
    /// so it is at a notice.
    fn judge_undecided(&mut self, rules: &[Rule], count: usize) {
        let horizon = self.horizon();
        let events = &self.events[..count];
        for (index, rule) in rules.iter().enumerate() {
            for position in 1..=count {
                let standing = &mut self.standings[place(index + 1, position)];
                if !standing.is_decided() {
                    *standing = live::standing(rule, events, horizon, position);
                }
            }
        }
        let events = events.to_vec();
        self.judge_overall(rules, |rule| live::standing(rule, &events, horizon, 0));
    }

    /// Gives each rule 13 to 16 that is not decided this standing at position 0.
    fn judge_overall(&mut self, rules: &[Rule], judge: impl Fn(&Rule) -> Standing) {
        for (rule, standing) in rules.iter().zip(&mut self.overall) {
            if rule.is_overall() && !standing.is_decided() {
                *standing = judge(rule);
            }
        }
    }

    /// Closes the run. "Close: 11, 9." The standings that it leaves "depend on rules
    /// and events only, and close passes the kept time on unchanged".
    pub fn close(mut self) -> (Record, Result<(), Refusal>) {
        match self.checked_running() {
            Err(refusal) => (self, Err(refusal)),
            Ok((rules, count)) => {
                for (index, rule) in rules.iter().enumerate() {
                    for position in 1..=count {
                        let standing = &mut self.standings[place(index + 1, position)];
                        *standing = closed_standing(rule.code, *standing);
                    }
                }
                // "Close decides an open one by its formula."
                let events = self.events[..count].to_vec();
                self.judge_overall(&rules, |rule| overall_verdict(rule, &events));
                self.count_totals();
                self.closed = true;
                (self, Ok(()))
            }
        }
    }

    /// The parts of a run that is not closed: 11, then 9.
    fn checked_running(&self) -> Result<(Vec<Rule>, usize), Refusal> {
        let parts = self.checked()?;
        match self.closed {
            true => Err(Refusal::plain(9)),
            false => Ok(parts),
        }
    }

    /// The standing of a rule at a position. "Standing and totals: 11, 10."
    /// Position 0 of a rule 13 to 16 "counts as taken", "position 0 of other rules
    /// is 10".
    pub fn standing(&self, rule: u64, position: u64) -> Result<Standing, Refusal> {
        let (rules, count) = self.checked()?;
        let rule = known(rule, rules.len())?;
        if position == 0 && rules[rule - 1].is_overall() {
            return Ok(self.overall[rule - 1]);
        }
        let position = known(position, count)?;
        Ok(self.standings[place(rule, position)])
    }

    /// The stored totals of a rule: "totals answers with them".
    pub fn totals(&self, rule: u64) -> Result<Totals, Refusal> {
        let (rules, _) = self.checked()?;
        let rule = known(rule, rules.len())?;
        Ok(self.totals[rule - 1])
    }
}

/// "no such rule or position": rules and the positions of events count from 1.
fn known(number: u64, count: usize) -> Result<usize, Refusal> {
    (1..=count)
        .find(|known| *known as u64 == number)
        .ok_or(Refusal::plain(10))
}

/// The run that takes these events in turn from start. All calls have to be
/// accepted.
pub fn grown(rules: &[Rule], events: &[Event]) -> Record {
    let run = start(&TableRecord::of(rules)).expect("a valid table");
    events.iter().fold(run, |run, event| {
        let (next, answer) = run.take(*event);
        answer.expect("a valid event");
        next
    })
}
