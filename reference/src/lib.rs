//! A reference program for the lock fission protocol as document 01 fixes it.
//!
//! A cluster has eight locks on four machines with four tasks each. Its calls
//! are `acquire`, `release`, `deliver`, `lose`, `give_up`, `drain` and
//! `run_transcript`; a refused call leaves the cluster exactly as it was.
//! `reason` only reads it, and `fresh` makes it.

pub mod answer;
pub mod circled;
pub mod counts;
mod delivery;
pub mod digest;
mod drain;
pub mod drain_test;
pub mod generator;
pub mod giving_up;
pub mod handlings;
pub mod inspect;
pub mod installations;
pub mod model;
pub mod preferences;
pub mod random_calls;
pub mod random_runs;
pub mod random_states;
pub mod random_transcripts;
pub mod reasons;
pub mod report;
mod requests;
pub mod still_named;
pub mod transcript;
pub mod waits;
mod well_formed;

pub use answer::{answer_number, Handling, Outcome, Refusal, StepOutcome};
pub use drain::{Drained, DRAIN_LIMIT};
