//! What `report` prints, written into a lent buffer: the verdicts of a run, or a refusal.
use crate::run::valid_run;
use crate::text::read_notebook;
use crate::types::*;
use crate::write::Text;

/// The bytes of the longest text: of each of 16 rules 257 lines of 13 bytes and one of 21.
pub const PRINTED_BYTES: usize = 53792;

/// The bytes of the longest refusal: a cause of 3 digits and a line of 10.
const REFUSED_BYTES: usize = 29;

impl<const ROOM: usize> Text<ROOM> {
    fn activation(&mut self, rule: u32, position: u32, letter: u8, target: u16) {
        self.field(rule, b'\t');
        self.field(position, b'\t');
        self.byte(letter);
        self.byte(b'\t');
        self.field(target as u32, b'\n');
    }

    fn total(&mut self, rule: u32, totals: &Totals) {
        self.bytes(b"total\t");
        self.field(rule, b'\t');
        self.field(totals.activations as u32, b'\t');
        self.field(totals.fulfilled as u32, b'\t');
        self.field(totals.violated as u32, b'\n');
    }

    fn position(&mut self, rule: u32, position: u32, s: Standing) {
        match s {
            Standing::Idle => {}
            Standing::Open => self.activation(rule, position, b'O', 0),
            Standing::Fulfilled(target) => self.activation(rule, position, b'F', target),
            Standing::Violated(target) => self.activation(rule, position, b'V', target),
        }
    }

    /// The lines of a rule, position 0 first, in one pass, which also counts the totals.
    fn rule_lines(&mut self, rule: u32, zero: Standing, row: &[Standing]) {
        let mut totals = NO_TOTALS;
        totals.count(zero);
        self.position(rule, 0, zero);
        for (position, &s) in (1..).zip(row) {
            totals.count(s);
            self.position(rule, position, s);
        }
        self.total(rule, &totals);
    }
}

fn write_report(run: &Run, out: &mut [u8]) -> Result<usize, Cause> {
    if !valid_run(run) {
        return Err(11);
    }
    let mut text = Text::<PRINTED_BYTES>::new();
    for k in 0..run.table.count {
        let row = &run.cells[k * 256..][..run.count];
        text.rule_lines(k as u32 + 1, run.zero(k), row);
    }
    text.write(out)
}

pub fn write_refused(
    which: Which,
    cause: Cause,
    line: usize,
    out: &mut [u8],
) -> Result<usize, Cause> {
    let mut text = Text::<REFUSED_BYTES>::new();
    text.bytes(match which {
        Which::Rules => b"refused\trules\t",
        Which::Cycle => b"refused\tcycle\t",
    });
    text.field(cause as u32, b'\t');
    text.field(line as u32, b'\n');
    text.write(out)
}

/// What is printed of two texts.
#[inline(never)]
pub fn print_texts(rules: &[u8], cycle: &[u8], out: &mut [u8]) -> Result<usize, Cause> {
    match read_notebook(rules, cycle) {
        Ok(run) => write_report(&run, out),
        Err((which, cause, line)) => write_refused(which, cause, line, out),
    }
}
