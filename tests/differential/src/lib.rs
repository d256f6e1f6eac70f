//! Comparison of the programs `probe` and `report` with the separate evaluator.
//!
//! A [`script::Case`] is a script of commands with what the evaluator expects of
//! each answer; [`compare::compare`] runs many of them and compares every answer
//! up to the first [`differ::Difference`].
//!
//! - [`command`], [`answer`]: the bytes of PROBE.md, in and out.
//! - [`expected`]: what an answer or a dump has to be.
//! - [`script`]: cases, and a [`script::Session`] that makes each call on the
//!   script and on the evaluator's run.
//! - [`probe`], [`report`], [`folder`]: the two programs and their files.
//! - [`cases`]: the cases, each from a seed.
//! - [`counts`]: how much was compared.
//! - [`stand_in`]: the evaluator behind `probe`'s commands, right or with a
//!   mistake, for tests of the comparison itself.

pub mod answer;
pub mod bytes;
pub mod cases;
pub mod command;
pub mod compare;
pub mod counts;
pub mod differ;
pub mod expected;
pub mod folder;
pub mod probe;
pub mod report;
pub mod script;
pub mod stand_in;
