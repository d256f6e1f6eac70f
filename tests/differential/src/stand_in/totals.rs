//! Mistakes in the stored totals.

use super::{Mistake, State};
use evaluator::slots::RULE_SLOTS;
use evaluator::{place, Record, Standing, Totals};

/// A mistake for each call that may forget to look at the stored totals.
const UNCHECKED: [(u8, Mistake); 8] = [
    (b'e', Mistake::TakesMiscounted),
    (b'k', Mistake::NoticesMiscounted),
    (b'x', Mistake::ClosesMiscounted),
    (b'g', Mistake::ShowsMiscounted),
    (b'o', Mistake::AnswersMiscounted),
    (b'b', Mistake::AbsorbsMiscounted),
    (b'W', Mistake::WritesMiscounted),
    (b'v', Mistake::ReportsMiscounted),
];

impl State {
    /// The run as a call sees it: the totals that it does not look at are right.
    pub(super) fn seen_by(&self, letter: u8) -> Record {
        let mut run = self.run.clone();
        let is_9 = self.run.closed && b"ekx".contains(&letter);
        let closed_first = is_9 && self.has(Mistake::ClosedBeforeTotals);
        if UNCHECKED.contains(&(letter, self.mistake)) || closed_first {
            run.count_totals();
        }
        if self.has(Mistake::ChecksActivationsAlone) {
            run.count_totals();
            for (seen, stored) in run.totals.iter_mut().zip(self.run.totals) {
                seen.activations = stored.activations;
            }
        }
        run
    }

    /// Whether the totals of an unused slot are taken for a cause of 11.
    pub(super) fn refuses_unused_totals(&self) -> bool {
        let used = self.run.table.count.min(RULE_SLOTS as u64) as usize;
        let mut unused = self.run.totals[used..].iter();
        self.has(Mistake::ChecksUnusedTotals) && unused.any(|t| *t != Totals::default())
    }

    /// The totals after a call that was accepted, of what it has changed.
    pub(super) fn change_totals(&self, letter: u8, run: &mut Record) {
        run.count_totals();
        let used = run.table.count as usize;
        match (letter, self.mistake) {
            (b's', Mistake::StartsWithNoTotals) | (b'N', Mistake::ReadsNoTotals) => {
                run.totals = [Totals::default(); RULE_SLOTS];
            }
            (b'e', Mistake::CountsBeforeJudging)
            | (b'k', Mistake::NoticesKeepTotals)
            | (b'x', Mistake::ClosesWithOldTotals) => {
                run.totals = self.run.totals;
            }
            (b'e', Mistake::CountsByDifference) => self.count_differences(run),
            (b'e' | b'k' | b'x', Mistake::ClearsUnusedTotals) => {
                run.totals[used..].fill(Totals::default());
            }
            _ => {}
        }
    }

    /// The totals after a call that was refused.
    pub(super) fn change_refused_totals(&self, run: &mut Record) {
        run.totals = self.run.totals;
        if self.has(Mistake::CorrectsRefused) {
            run.count_totals();
        }
    }

    /// The totals before a take, with what it does to a run that was grown: open
    /// ones are decided, and the new position is one more.
    fn count_differences(&self, run: &mut Record) {
        run.totals = self.run.totals;
        for rule in 1..=run.table.count as usize {
            let new = place(rule, run.count as usize);
            let totals = &mut run.totals[rule - 1];
            for cell in place(rule, 1)..new {
                let (old, now) = (self.run.standings[cell], run.standings[cell]);
                decide(totals, old, now);
            }
            decide(totals, self.run.overall[rule - 1], run.overall[rule - 1]);
            let before = totals.numbers();
            let added = Totals::of(&run.standings[new..=new]).numbers();
            *totals = Totals::with_numbers(std::array::from_fn(|at| before[at] + added[at]));
        }
    }
}

/// One open position fewer and one decided more, if it is so.
fn decide(totals: &mut Totals, old: Standing, now: Standing) {
    if old == Standing::Open && now.is_decided() {
        totals.open -= 1;
        totals.fulfilled += u16::from(now.is_fulfilled());
        totals.violated += u16::from(now.is_violated());
    }
}
