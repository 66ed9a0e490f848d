//! Random runs of calls and drains (docs/random-runs.md).

use crate::answer::{answer_number, Handling, Refusal, StepOutcome};
use crate::circled::Origin;
use crate::digest::Digest;
use crate::drain::Drained;
use crate::drain_test::{Book, DrainTest};
use crate::generator::Generator;
use crate::model::{ClientId, Cluster, LockId, LOCKS};
use crate::random_calls::{Call, Profile, DRAIN, FRESH, PROFILES, REASON};
use crate::reasons::reason_numbers;
use crate::report::{Observation, Report};
use std::io;

pub const FIRST_RUN: u64 = 1;
pub const LAST_RUN: u64 = 1_430;
/// A digest line stands after every so many steps.
const LINE_STEPS: u64 = 512;
/// The whole cluster enters the digest after every so many steps.
const CLUSTER_STEPS: u64 = 16;
/// About one step in so many drains a lock.
const DRAIN_STEPS: u64 = 64;

/// A run in progress.
pub struct Run {
    label: &'static str,
    seed: u64,
    profile: Profile,
    generator: Generator,
    cluster: Cluster,
    books: [Book; LOCKS],
    digest: Digest,
    step: u64,
    accepted: u64,
    is_tested: bool,
}

/// What a call or a drain gave, for the digest and the line; a call counts 0.
#[derive(Clone, Copy)]
struct Given {
    answer: u8,
    handling: Handling,
    count: u16,
}

impl Given {
    fn of_call(outcome: StepOutcome) -> Self {
        Given {
            answer: answer_number(&outcome),
            handling: outcome.unwrap_or_default(),
            count: 0,
        }
    }

    fn of_drain(outcome: Result<Drained, Refusal>) -> Self {
        let Drained { count, handling } = outcome.unwrap_or_default();
        Given {
            answer: answer_number(&outcome),
            handling,
            count,
        }
    }
}

/// Makes a fresh cluster with each number for its preference, and writes the line before the runs.
pub fn fresh_clusters(report: &mut Report) -> io::Result<()> {
    let mut digest = Digest::new(0);
    for preference in 0..=u8::MAX {
        let (outcome, cluster) = Cluster::fresh(preference);
        let answer = answer_number(&outcome);
        report.tally.count(FRESH, answer);
        digest.bytes(&[preference, answer]);
        digest.cluster(&cluster);
    }
    writeln!(report.out, "fresh digest {}", digest.value())
}

/// Runs one seed of `runs`.
pub fn random_run(seed: u64, report: &mut Report) -> io::Result<()> {
    let profile = Profile::of_seed(seed);
    let generator = Generator::new(seed);
    // Each profile has both preferences in turn.
    let turn = seed / PROFILES.len() as u64;
    let (_, cluster) = Cluster::fresh((turn % 2) as u8);
    let run = Run::new("run", seed, profile, generator, cluster);
    run.tested().finish(report)
}

impl Run {
    pub fn new(
        label: &'static str,
        seed: u64,
        profile: Profile,
        generator: Generator,
        cluster: Cluster,
    ) -> Self {
        let mut digest = Digest::new(seed);
        digest.cluster(&cluster);
        let books = cluster.locks.each_ref().map(Book::of);
        Run {
            label,
            seed,
            profile,
            generator,
            cluster,
            books,
            digest,
            step: 0,
            accepted: 0,
            is_tested: false,
        }
    }

    /// The same run with the state after every step tested; hand-made ones need not pass these tests.
    pub fn tested(self) -> Self {
        let is_tested = true;
        Run { is_tested, ..self }
    }

    pub fn finish(mut self, report: &mut Report) -> io::Result<()> {
        let (label, seed) = (self.label, self.seed);
        while self.step < self.profile.steps {
            self.step += 1;
            self.one_step(report)?;
            if self.step.is_multiple_of(LINE_STEPS) && self.step < self.profile.steps {
                let (step, digest) = (self.step, self.digest.value());
                writeln!(report.out, "{label} {seed} step {step} digest {digest}")?;
            }
        }
        let (steps, accepted, digest) = (self.step, self.accepted, self.digest.value());
        writeln!(
            report.out,
            "{label} {seed} steps {steps} accepted {accepted} digest {digest}"
        )
    }

    /// Perhaps a drain, then always one call, one ask and one search.
    fn one_step(&mut self, report: &mut Report) -> io::Result<()> {
        let outputs = self.generator.eight();
        let call = self.profile.choose_call(self.seed, &outputs, &self.cluster);
        if outputs[0].is_multiple_of(DRAIN_STEPS) {
            let kind = DRAIN;
            self.drain(Call { kind, ..call }, report)?;
        }
        let before = Observation::of(&self.cluster, call.lock);
        let incoming = call.incoming(&self.cluster);
        let outcome = call.perform(&mut self.cluster);
        let after = Observation::of(&self.cluster, call.lock);
        report.tally.compare(before, after);
        let given = Given::of_call(outcome);
        report.tally.count(call.kind, given.answer);
        self.accepted += u64::from(outcome.is_ok());
        self.digest_given(call.kind, given);
        let asked = [
            ("reason", self.ask_reason(call, report)),
            ("named", self.search_wire(call)),
        ];
        if self.step.is_multiple_of(CLUSTER_STEPS) {
            self.digest.cluster(&self.cluster);
        }
        self.step_line(call, given, &self.cluster, &asked, report)?;
        let (origin, lock) = (self.origin(), call.lock.index());
        let (after, book) = ((&self.cluster, lock), self.books.get_mut(lock));
        let tally = &mut report.tally;
        let tested = tally.test_step(call.kind, incoming, &outcome, after, book, origin);
        self.stop_if_broken(call.lock, tested)
    }

    fn digest_given(&mut self, kind: u8, given: Given) {
        let handling = given.handling.number();
        self.digest.bytes(&[kind, given.answer, handling]);
    }

    /// Asks why the chosen client waits; the numbers go into the digest and into the line.
    fn ask_reason(&mut self, call: Call, report: &mut Report) -> Vec<u8> {
        let outcome = call.ask_reason(&self.cluster);
        report.tally.count(REASON, answer_number(&outcome));
        if let Ok(reason) = outcome {
            let state = &self.cluster.locks[call.lock.index()];
            let all = state.all_reasons(ClientId::new(call.machine, call.task));
            report.tally.count_reason(reason, all.len());
        }
        let numbers = reason_numbers(&outcome);
        self.digest.bytes(&numbers);
        numbers
    }

    /// Searches the wire for the chosen client; these numbers go the same way.
    fn search_wire(&mut self, call: Call) -> Vec<u8> {
        let numbers = call.named_numbers(&self.cluster);
        self.digest.bytes(&numbers);
        numbers
    }

    /// A drain on a copy, which the run keeps or forgets by its seed.
    fn drain(&mut self, call: Call, report: &mut Report) -> io::Result<()> {
        let mut drained = self.cluster.clone();
        let begun = self.books.get(call.lock.index()).cloned();
        let begun = begun.unwrap_or_default();
        let mut test = DrainTest::begin(&self.cluster, call.lock, begun.clone(), self.origin());
        let tally = &mut report.tally;
        let outcome = drained.drain_with(call.lock, |number, handling, state| {
            test.step(number, handling, state, tally);
        });
        let tested = test.end(&outcome, &drained, begun, tally);
        let given = Given::of_drain(outcome);
        report.tally.count(call.kind, given.answer);
        report.tally.count_drain(given.count);
        self.digest_given(call.kind, given);
        self.digest.bytes(&given.count.to_le_bytes());
        self.digest.cluster(&drained);
        self.step_line(call, given, &drained, &[], report)?;
        let book = self.stop_if_broken(call.lock, tested)?;
        if self.seed / 16 % 2 == 1 {
            self.cluster = drained;
            if let Some(kept) = self.books.get_mut(call.lock.index()) {
                *kept = book;
            }
        }
        Ok(())
    }

    /// Only what begins with a fresh cluster is tested in full.
    fn origin(&self) -> Origin {
        match self.is_tested {
            true => Origin::Fresh,
            false => Origin::HandMade,
        }
    }

    /// The error ends the program, and its words are the last line.
    fn stop_if_broken<T>(&self, lock: LockId, tested: Result<T, String>) -> io::Result<T> {
        let (label, seed, step, lock) = (self.label, self.seed, self.step, lock.0);
        let line = |broken| format!("{label} {seed} step {step} lock {lock}: {broken}");
        tested.map_err(|broken: String| io::Error::other(line(broken)))
    }

    /// What was asked stands at the end, each with a word before its numbers; a drain asks nothing.
    fn step_line(
        &self,
        call: Call,
        given: Given,
        cluster: &Cluster,
        asked: &[(&str, Vec<u8>)],
        report: &mut Report,
    ) -> io::Result<()> {
        if !report.each_step {
            return Ok(());
        }
        let mut alone = Digest::new(0);
        alone.cluster(cluster);
        let (label, seed, step) = (self.label, self.seed, self.step);
        let (digest, alone) = (self.digest.value(), alone.value());
        write!(report.out, "{label} {seed} step {step} {call} ")?;
        let out = &mut report.out;
        let (answer, handling, count) = (given.answer, given.handling.number(), given.count);
        write!(out, "answer {answer} handling {handling} ")?;
        write!(out, "count {count} digest {digest} cluster {alone}")?;
        for (word, numbers) in asked {
            write!(out, " {word}")?;
            for number in numbers {
                write!(out, " {number}")?;
            }
        }
        writeln!(out)
    }
}
