//! The running cycle: the record check, and the calls start, take, notice, close, standing and
//! totals.
use crate::judge::{judge_cells, judge_overall};
use crate::types::*;

fn is_activity(a: u8) -> bool {
    (1..=64).contains(&a)
}

fn is_reading(k: u8) -> bool {
    (1..=4).contains(&k)
}

fn valid_comparison(correlation: bool, c: &Comparison) -> bool {
    is_reading(c.reading)
        && match c.reference {
            Reference::Constant(_) => true,
            Reference::Activation(g, _) => correlation && is_reading(g),
        }
}

fn valid_condition(correlation: bool, c: &Condition) -> bool {
    c.count <= 4 && c.used().iter().all(|x| valid_comparison(correlation, x))
}

fn valid_rule(r: &Rule) -> bool {
    (1..=16).contains(&r.code)
        && is_activity(r.activation)
        && is_activity(r.target)
        && r.window.until.map_or(true, |b| r.window.from < b)
        && valid_condition(false, &r.condition)
        && valid_condition(true, &r.correlation)
        && r.fits_template()
}

pub fn valid_table(t: &Table) -> bool {
    t.count <= 16 && t.rules[..t.count].iter().all(valid_rule)
}

fn valid_events(events: &[Event]) -> bool {
    let mut last = 0;
    events.iter().all(|e| {
        let valid = is_activity(e.activity) && last <= e.time;
        last = e.time;
        valid
    })
}

fn valid_standing(closed: bool, count: usize, s: Standing) -> bool {
    match s {
        Standing::Idle => true,
        Standing::Open => !closed,
        Standing::Fulfilled(j) | Standing::Violated(j) => j as usize <= count,
    }
}

/// A rule about the cycle stands idle at every event. One pass checks the row and counts it.
fn valid_row(run: &Run, k: usize) -> bool {
    let (zero, row) = (run.zero(k), run.row(k));
    let count = match run.table.rules[k].is_overall() {
        true => 0,
        false => run.count,
    };
    let mut counted = NO_TOTALS;
    counted.count(zero);
    row[..count].iter().all(|&s| {
        s == Standing::Idle || {
            counted.count(s);
            valid_standing(run.closed, count, s)
        }
    }) && row[count..].iter().all(|&s| s == Standing::Idle)
        && counted == run.totals[k]
}

/// Position 0 of other rules is not looked at.
fn valid_zero(closed: bool, count: usize, rule: &Rule, s: Standing) -> bool {
    !rule.is_overall() || s != Standing::Idle && valid_standing(closed, count, s)
}

fn valid_standings(run: &Run) -> bool {
    let (closed, count) = (run.closed, run.count);
    let rules = run.table.used();
    let mut zeros = rules.iter().zip(run.overall);
    (0..rules.len()).all(|k| valid_row(run, k))
        && zeros.all(|(rule, s)| valid_zero(closed, count, rule, s))
}

pub fn valid_run(run: &Run) -> bool {
    valid_table(&run.table)
        && run.count <= 256
        && valid_events(&run.events[..run.count])
        && valid_standings(run)
}

impl Run {
    pub fn start(table: Table) -> Result<Run, Cause> {
        if !valid_table(&table) {
            return Err(11);
        }
        let mut overall = [Standing::Idle; 16];
        judge_overall(true, table.used(), &[], 0, &mut overall);
        let mut run = Run {
            closed: false,
            table,
            count: 0,
            events: [SLOT; 256],
            cells: [Standing::Idle; 4096],
            overall,
            totals: [NO_TOTALS; 16],
            clock: 0,
        };
        run.begin_totals();
        Ok(run)
    }

    fn row(&self, k: usize) -> &[Standing] {
        &self.cells[k * 256..][..256]
    }

    /// Begins the totals of each rule with its position 0.
    pub fn begin_totals(&mut self) {
        for k in 0..self.table.count {
            self.totals[k] = NO_TOTALS;
            self.totals[k].count(self.zero(k));
        }
    }

    /// Judges all standings of the running cycle, and counts them.
    pub fn judge(&mut self, horizon: u32) {
        let events = &self.events[..self.count];
        judge_overall(true, self.table.used(), events, horizon, &mut self.overall);
        self.begin_totals();
        let rules = self.table.used();
        let events = &self.events[..self.count];
        let (cells, totals) = (&mut self.cells, &mut self.totals);
        judge_cells(true, rules, events, horizon, cells, totals);
    }

    /// The earliest time that a further event may have.
    fn horizon(&self) -> u32 {
        let last = self.events[..self.count].last();
        last.map_or(self.clock, |e| e.time.max(self.clock))
    }

    #[inline(never)]
    pub fn take(&mut self, event: Event) -> Result<(), Cause> {
        if !valid_run(self) {
            return Err(11);
        }
        if self.closed {
            return Err(9);
        }
        if !is_activity(event.activity) {
            return Err(3);
        }
        if event.time < self.horizon() {
            return Err(7);
        }
        let n = self.count;
        if n >= 256 {
            return Err(8);
        }
        self.events[n] = event;
        self.count = n + 1;
        self.judge(self.horizon());
        Ok(())
    }

    #[inline(never)]
    pub fn notice(&mut self, time: u64) -> Result<(), Cause> {
        if !valid_run(self) {
            return Err(11);
        }
        if self.closed {
            return Err(9);
        }
        let time = u32::try_from(time).map_err(|_| 3)?;
        if time < self.horizon() {
            return Err(7);
        }
        self.clock = time;
        self.judge(self.horizon());
        Ok(())
    }

    #[inline(never)]
    pub fn close(&mut self) -> Result<(), Cause> {
        if !valid_run(self) {
            return Err(11);
        }
        if self.closed {
            return Err(9);
        }
        let events = &self.events[..self.count];
        judge_overall(false, self.table.used(), events, 0, &mut self.overall);
        self.begin_totals();
        let rows = self.cells.chunks_exact_mut(256).zip(&mut self.totals);
        for (rule, (row, totals)) in self.table.used().iter().zip(rows) {
            let closing = if rule.code >= 8 {
                Standing::Fulfilled(0)
            } else {
                Standing::Violated(0)
            };
            for c in row[..self.count]
                .iter_mut()
                .filter(|c| **c != Standing::Idle)
            {
                if *c == Standing::Open {
                    *c = closing;
                }
                totals.count(*c);
            }
        }
        self.closed = true;
        Ok(())
    }

    /// Position 0 of the rule at place k: idle, unless the rule is about the cycle.
    pub fn zero(&self, k: usize) -> Standing {
        match self.table.rules[k].is_overall() {
            true => self.overall[k],
            false => Standing::Idle,
        }
    }

    fn has_position(&self, rule: usize, position: usize) -> bool {
        (1..=self.table.count).contains(&rule)
            && position <= self.count
            && (position > 0 || self.table.rules[rule - 1].is_overall())
    }

    #[inline(never)]
    pub fn standing(&self, rule: usize, position: usize) -> Result<Standing, Cause> {
        if !valid_run(self) {
            return Err(11);
        }
        if !self.has_position(rule, position) {
            return Err(10);
        }
        if position == 0 {
            return Ok(self.overall[rule - 1]);
        }
        Ok(self.cells[(rule - 1) * 256 + position - 1])
    }

    #[inline(never)]
    pub fn totals(&self, rule: usize) -> Result<Totals, Cause> {
        if !valid_run(self) {
            return Err(11);
        }
        if !(1..=self.table.count).contains(&rule) {
            return Err(10);
        }
        Ok(self.totals[rule - 1])
    }
}
