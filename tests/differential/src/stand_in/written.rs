//! The commands of the stand-in that write into a buffer.

use super::{Mistake, State};
use crate::command::buffer_of;
use evaluator::{write_cycle_of, write_rules_of, Refusal, Standing};

const OUTSIDE: Refusal = Refusal::plain(11);
const SHORT: Refusal = Refusal::plain(15);
const LEAST: &[u8] = b"-2147483648";

/// What is written.
#[derive(Clone, Copy)]
pub(super) enum Source<'a> {
    Rules,
    Cycle,
    Report,
    /// A rules text and a cycle text.
    Texts(&'a [u8], &'a [u8]),
}

impl State {
    pub(super) fn write(&mut self, source: Source, n: u64) {
        let mut buffer = buffer_of(n);
        let answer = self.write_into(source, &mut buffer);
        let answer = self.mistaken(source, answer, &mut buffer);
        let length = answer.unwrap_or(0) as u64;
        let mut rest = [0; 12];
        rest[4..].copy_from_slice(&length.to_le_bytes());
        self.answer(answer.err(), rest);
        self.answers.extend(buffer);
    }

    fn write_into(&self, source: Source, buffer: &mut [u8]) -> Result<usize, Refusal> {
        match source {
            Source::Rules if self.has(Mistake::WritesTheRunsRules) => {
                write_rules_of(&self.run.table, buffer)
            }
            Source::Rules => write_rules_of(&self.table, buffer),
            Source::Cycle if self.has(Mistake::WritesUncheckedStandings) => {
                let mut run = self.run.clone();
                run.standings.fill(Standing::Idle);
                run.count_totals();
                write_cycle_of(&run, buffer)
            }
            Source::Cycle => write_cycle_of(&self.seen_by(b'W'), buffer),
            Source::Report => put(&self.report_text()?, buffer),
            Source::Texts(rules, cycle) => put(&self.printed_text(rules, cycle), buffer),
        }
    }

    /// The answer and the buffer with a mistake.
    fn mistaken(
        &self,
        source: Source,
        answer: Result<usize, Refusal>,
        buffer: &mut [u8],
    ) -> Result<usize, Refusal> {
        let size = buffer.len();
        match (self.mistake, answer) {
            (Mistake::ZeroesTheRest, Ok(length)) => buffer[length..].fill(0),
            (Mistake::EndsWithZero, Ok(length)) if length < size => buffer[length] = 0,
            (Mistake::ChangesTheLeast, Ok(_)) => change_least(buffer),
            (Mistake::AnswersTheRoom, Ok(_)) => return Ok(size),
            (Mistake::RefusesTheExactLength, Ok(length)) if length == size => {
                buffer.copy_from_slice(&buffer_of(size as u64));
                return Err(SHORT);
            }
            (Mistake::RefusesClosed, Ok(_))
                if self.run.closed && matches!(source, Source::Cycle) =>
            {
                buffer.copy_from_slice(&buffer_of(size as u64));
                return Err(Refusal::plain(9));
            }
            (Mistake::ShortFirst, Err(OUTSIDE)) if size == 0 => return Err(SHORT),
            (Mistake::ShortWithLine, Err(SHORT)) => return Err(Refusal::at(15, 0)),
            (Mistake::WritesRefused, Err(SHORT)) => {
                let mut whole = buffer_of(u64::MAX);
                let written = self.write_into(source, &mut whole);
                written.expect("a text that is too long for the buffer");
                buffer.copy_from_slice(&whole[..size]);
            }
            _ => {}
        }
        answer
    }
}

fn put(text: &[u8], buffer: &mut [u8]) -> Result<usize, Refusal> {
    let front = buffer.get_mut(..text.len()).ok_or(SHORT)?;
    front.copy_from_slice(text);
    Ok(text.len())
}

/// The least number loses 1, as if its magnitude had to fit 31 bits.
fn change_least(buffer: &mut [u8]) {
    for at in LEAST.len()..=buffer.len() {
        if buffer[..at].ends_with(LEAST) {
            buffer[at - 1] = b'7';
        }
    }
}
