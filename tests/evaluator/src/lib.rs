//! Separate evaluator of MP-Declare rules on ride cycles.
//!
//! It states each notion of document 01 a second time, as the cards of document
//! 02 change it, for tests that compare two answers. Positions count from 1, as
//! in document 01; position 0 is that of a rule about the cycle as such.
//!
//! Judging:
//!
//! - [`model`]: events, rules, standings and the limits on them ([`World`]).
//! - [`condition`]: when a comparison holds and a condition is met.
//! - [`mod@verdict`]: [`verdict()`] and [`verdicts`] judge a finished cycle,
//!   [`overall`]: [`overall_verdict`] the rules 13 to 16 in it.
//! - [`live`]: [`standing`], [`standing_at_last`] and [`standings`] judge a
//!   running cycle by a search through its continuations.
//!
//! The calls, with their refusals:
//!
//! - [`refusal`]: [`Refusal`], a number and perhaps a line.
//! - [`slots`]: rule tables as a caller may fill them ([`TableRecord`]).
//! - [`record`]: run records as a caller may fill them ([`Record`]), with
//!   [`start`], take, notice, close, standing and totals, [`totals`]: the four
//!   numbers that they store of each rule ([`Totals`]).
//! - [`text`]: the readers and writers of the two texts, [`natural`]: the values of
//!   numbers of any length.
//! - [`written`]: [`write_rules_of`] and [`write_cycle_of`] write the texts of a
//!   table and of a run into a lent buffer, [`write_report_of`] and
//!   [`print_texts`] what `report` prints for a run and for two texts.
//! - [`mod@notebook`]: [`notebook()`] judges two texts.
//! - [`mod@report`]: [`report()`] gives the bytes that the program prints for two
//!   files, [`printed`] those for two texts, [`report_of`] those for a run.
//! - [`tally`]: [`absorb`] adds a closed run to a [`Tally`].
//!
//! Generators of test cases, all from a seed:
//!
//! - [`random`]: rules and cycles around the critical values, [`bands`]: conditions
//!   in which a reading is compared more than once.
//! - [`crowded`]: rules and cycles in which many events are eligible.
//! - [`notices`]: lists of takes and notices.
//! - [`damage`]: texts, valid and damaged.
//! - [`long_numbers`]: texts with numbers of up to 5,000 digits.
//! - [`fabricate`]: run records, grown and changed.
//!
//! Test cases that are written out:
//!
//! - [`listing`]: document 01's.
//! - [`stored`]: the texts of tests/cases and examples/.

pub mod bands;
pub mod condition;
pub mod crowded;
pub mod damage;
pub mod fabricate;
pub mod listing;
pub mod live;
pub mod long_numbers;
pub mod model;
pub mod natural;
pub mod notebook;
pub mod notices;
pub mod overall;
pub mod random;
pub mod record;
pub mod refusal;
pub mod report;
pub mod slots;
pub mod stored;
pub mod tally;
pub mod text;
pub mod totals;
pub mod verdict;
pub mod written;

pub use live::{outcomes_in, standing, standing_at_last, standing_in, standings};
pub use model::{is_cycle, Comparison, Event, Operator, Reference, Rule, Standing, World};
pub use notebook::{notebook, notebook_record, Row, Text};
pub use overall::{fitting, overall_verdict};
pub use record::{grown, place, start, Record};
pub use refusal::Refusal;
pub use report::{printed, report, report_of};
pub use slots::{ConditionSlot, EventSlot, RuleSlot, TableRecord};
pub use tally::{absorb, Tally};
pub use text::{read_cycle, read_rules, write_cycle, write_rules};
pub use totals::Totals;
pub use verdict::{eligible, is_activation, suits, verdict, verdicts};
pub use written::{print_texts, write_cycle_of, write_report_of, write_rules_of};
