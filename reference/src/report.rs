//! Where the lines of random runs go, and what was met on the way.

use crate::answer::{Handling, Refusal, StepOutcome};
use crate::circled::{Origin, TrueNumbers, WireBefore, FULL};
use crate::counts::Counts;
use crate::drain_test::Book;
use crate::giving_up::{Met, Watched};
use crate::handlings::{check_step, Arrival, StepHandlings};
use crate::installations::Installation;
use crate::model::{Cluster, LockId, LockState, Preference, WIRE_CAPACITY};
use crate::preferences::BehindWriter;
use crate::reasons::{Reason, REASON_KINDS};
use crate::still_named::StillNamed;
use crate::transcript::Record;
use crate::waits::{Act, EndedWaits, Event};
use std::io::Write;

/// The kinds of calls by their numbers, 0 a whole transcript.
pub const KINDS: [&str; 9] = [
    "transcript",
    "acquire",
    "release",
    "deliver",
    "drain",
    "reason",
    "lose",
    "give up",
    "fresh",
];
/// The answers from 0 to 18.
pub const ANSWERS: usize = 19;
const HANDLINGS: usize = 4;

/// How often each kind of call met each answer, and some extremes.
#[derive(Clone, Debug, Default)]
pub struct Tally {
    pub answers: [[u64; ANSWERS]; KINDS.len()],
    pub drain_steps: u64,
    pub longest_drain: u16,
    pub longest_wire: usize,
    pub incarnation_wraps: u64,
    pub malformed_states: u64,
    /// How many states of locks were tested, and the most that was counted in one.
    pub tested_states: u64,
    pub most_marked: usize,
    pub most_packets: usize,
    /// How often each kind of reason was given, and how often more than one was true.
    pub reasons: [u64; REASON_KINDS],
    pub several_reasons: u64,
    /// How many waiting clients there were in the tested states.
    pub tested_waits: u64,
    /// How many installations were tested, and at how many a reader stayed in the queue of a shared agent.
    pub tested_installations: u64,
    pub readers_kept: u64,
    /// How often each kind of call gave each handling, none too.
    pub handled: [[u64; HANDLINGS]; KINDS.len()],
    /// How many readers were queued behind a writer where writers are preferred, and how many joined past one where readers are.
    pub readers_queued: u64,
    pub readers_joined: u64,
    /// How many acquires were refused with 6, for how many of them several packets named the client, and for how many the first
    /// that did stood behind another one.
    pub still_named: u64,
    pub named_twice: u64,
    pub named_behind: u64,
    /// How many counts of packets were tested.
    pub tested_counts: u64,
    /// How many deliveries sent a packet back, the greatest true number, and how many of these packets had the greatest count before.
    pub sent_back: u64,
    pub most_circled: u64,
    pub sent_back_full: u64,
    pub giving_up: GivingUp,
    /// How many drains were tested by the waits that they ended, and how these ended.
    pub tested_drains: u64,
    pub drained_waits: EndedWaits,
}

/// What was met of lost GRANTs and of giving up, in calls, records and steps of drains.
#[derive(Clone, Copy, Debug, Default, PartialEq, Eq)]
pub struct GivingUp {
    /// How many GRANTs were lost, and how many of their clients were noted.
    pub lost: u64,
    pub noted: u64,
    pub gave_up: u64,
    /// How many GRANTs came to an idle client, and how many of these brought an agent.
    pub idle_grants: u64,
    pub idle_agents: u64,
    /// How many clients a RELEASE took off a queue.
    pub unqueued: u64,
    /// How many RELEASEs came to a free decider.
    pub early: u64,
}

impl Tally {
    pub fn count(&mut self, kind: u8, answer: u8) {
        self.answers[usize::from(kind)][usize::from(answer)] += 1;
    }

    pub fn count_drain(&mut self, steps: u16) {
        self.drain_steps += u64::from(steps);
        self.longest_drain = self.longest_drain.max(steps);
    }

    /// Counts a reason that was given, out of so many true ones.
    pub fn count_reason(&mut self, reason: Reason, true_reasons: usize) {
        self.reasons[reason.kind_index()] += 1;
        self.several_reasons += u64::from(true_reasons > 1);
    }

    /// Notes what a call did to a decider's incarnation and to a wire.
    pub fn compare(&mut self, before: Observation, after: Observation) {
        // Of all steps that change an incarnation only the shared grant adds a packet.
        let is_grant = after.wire > before.wire;
        let wraps = is_grant && before.incarnation == 255 && after.incarnation == 0;
        self.incarnation_wraps += u64::from(wraps);
        if after.wire <= WIRE_CAPACITY {
            self.longest_wire = self.longest_wire.max(after.wire);
        }
    }

    /// Tests the state of a lock that a fresh cluster with this preference came to, and notes its counts.
    pub fn test_state(&mut self, state: &LockState, preference: u8) -> Result<(), String> {
        self.tested_states += 1;
        self.most_marked = self.most_marked.max(Counts::of(state).marked);
        self.most_packets = self.most_packets.max(state.wire.len());
        state.check_counts()?;
        self.tested_waits += state.check_reasons()? as u64;
        state.check_writer_bit(preference)
    }

    /// The same after a call, with its answer; a lock out of range has no state.
    pub fn test_call<T>(
        &mut self,
        kind: u8,
        outcome: &Result<T, Refusal>,
        state: Option<&LockState>,
        preference: u8,
    ) -> Result<(), String> {
        if let Some(state) = state {
            self.test_state(state, preference)?;
        }
        check_answer(kind, outcome)
    }

    /// Tests what an accepted delivery has installed; hand-made states pass this test too.
    pub fn test_installation(
        &mut self,
        installation: Option<Installation>,
        after: Option<&LockState>,
    ) -> Result<(), String> {
        if let (Some(installation), Some(after)) = (installation, after) {
            self.tested_installations += 1;
            self.readers_kept += u64::from(installation.check(after)?);
        }
        Ok(())
    }

    /// Tests what became of a reader's request behind a writer, and counts it; hand-made states pass this test too.
    pub fn test_behind_writer(
        &mut self,
        request: Option<BehindWriter>,
        after: Option<&LockState>,
    ) -> Result<(), String> {
        if let (Some(request), Some(after)) = (request, after) {
            request.check(after)?;
            match request.preference() {
                Preference::Readers => self.readers_joined += 1,
                Preference::Writers => self.readers_queued += 1,
            }
        }
        Ok(())
    }

    /// How many of them there were, in words.
    pub fn behind_writer_line(&self) -> String {
        let (queued, joined) = (self.readers_queued, self.readers_joined);
        format!("behind a writer queued {queued} joined {joined}")
    }

    /// Tests an acquire by the packets that name its client, and counts a refusal 6; hand-made states pass this test too.
    pub fn test_still_named<T>(
        &mut self,
        still_named: Option<StillNamed>,
        outcome: &Result<T, Refusal>,
    ) -> Result<(), String> {
        let Some(still_named) = still_named else {
            return Ok(());
        };
        still_named.check(outcome)?;
        if matches!(outcome, Err(Refusal::ClientOnWire)) {
            self.still_named += 1;
            self.named_twice += u64::from(still_named.packets() > 1);
            self.named_behind += u64::from(still_named.lowest() > Some(0));
        }
        Ok(())
    }

    /// How many of these refusals there were, in words.
    pub fn still_named_line(&self) -> String {
        let (named, twice, behind) = (self.still_named, self.named_twice, self.named_behind);
        format!("still named {named} twice {twice} behind {behind}")
    }

    /// Goes on with a lock's true numbers past an accepted step, and tests the counts of its packets by them.
    pub fn test_circled(
        &mut self,
        numbers: Option<&mut TrueNumbers>,
        before: Option<WireBefore>,
        after: Option<&LockState>,
        origin: Origin,
    ) -> Result<(), String> {
        let (Some(numbers), Some(before), Some(after)) = (numbers, before, after) else {
            return Ok(());
        };
        if let Some(number) = numbers.follow(&before, after)? {
            self.sent_back += 1;
            self.sent_back_full += u64::from(number >= FULL);
        }
        self.most_circled = self.most_circled.max(numbers.greatest());
        self.tested_counts += numbers.check(after, origin)? as u64;
        Ok(())
    }

    /// How many packets were sent back, in words.
    pub fn circled_line(&self) -> String {
        let (back, most, full) = (self.sent_back, self.most_circled, self.sent_back_full);
        format!("circled back {back} most {most} full {full}")
    }

    /// Tests a step by what §8 says of it, and counts what it was; hand-made states pass this test too.
    pub fn test_giving_up<T>(
        &mut self,
        watched: Option<Watched>,
        outcome: &Result<T, Refusal>,
        after: Option<&LockState>,
    ) -> Result<(), String> {
        if let (Some(watched), Some(after)) = (watched, after) {
            if let Some(met) = watched.check(outcome, after)? {
                self.giving_up.count(met);
            }
        }
        Ok(())
    }

    /// Counts a RELEASE that took its client off a queue.
    pub fn count_unqueued(&mut self, arrival: Option<&Arrival>, handling: Handling) {
        let is_taken = handling == Handling::Taken;
        let unqueued = is_taken && arrival.is_some_and(Arrival::is_of_queued);
        self.giving_up.unqueued += u64::from(unqueued);
    }

    /// Goes on with a lock's history of waits past an accepted step, and tests its statuses and notes by it.
    pub fn test_waits(
        &mut self,
        act: Option<Act>,
        after: Option<&LockState>,
        book: Option<&mut Book>,
    ) -> Result<Option<Event>, String> {
        let (Some(book), Some(after)) = (book, after) else {
            return Ok(None);
        };
        let event = act.and_then(|act| book.waits.follow(act, after));
        book.waits.check(after)?;
        Ok(event)
    }

    pub fn count_drained_waits(&mut self, ended: EndedWaits) {
        self.tested_drains += 1;
        self.drained_waits.shown += ended.shown;
        self.drained_waits.gave_up += ended.gave_up;
    }

    /// How many drains were tested so, in words.
    pub fn drained_waits_line(&self) -> String {
        let (tested, EndedWaits { shown, gave_up }) = (self.tested_drains, self.drained_waits);
        format!("tested drains {tested} shown {shown} gave up {gave_up}")
    }

    /// All tests of a call or a record but those of its handling and of the state that it leaves.
    pub fn test_incoming<T>(
        &mut self,
        incoming: Incoming,
        outcome: &Result<T, Refusal>,
        after: Option<&LockState>,
        book: Option<&mut Book>,
        origin: Origin,
    ) -> Result<(), String> {
        let numbers = book.map(|book| &mut book.numbers);
        self.test_installation(incoming.installation, after)?;
        self.test_behind_writer(incoming.behind_writer, after)?;
        self.test_still_named(incoming.still_named, outcome)?;
        self.test_circled(numbers, incoming.wire, after, origin)?;
        self.test_giving_up(incoming.giving_up, outcome, after)
    }

    /// All tests of a call or a record that left the cluster so, with what is kept of its lock.
    pub fn test_step(
        &mut self,
        kind: u8,
        incoming: Incoming,
        outcome: &StepOutcome,
        (cluster, lock): (&Cluster, usize),
        mut book: Option<&mut Book>,
        origin: Origin,
    ) -> Result<(), String> {
        let state = cluster.locks.get(lock);
        let mut incoming = incoming.if_accepted(outcome);
        let (arrival, act) = (incoming.arrival.take(), incoming.act);
        self.test_handling(kind, arrival, outcome.unwrap_or_default(), state)?;
        self.test_incoming(incoming, outcome, state, book.as_deref_mut(), origin)?;
        if origin == Origin::HandMade {
            return Ok(());
        }
        self.test_call(kind, outcome, state, cluster.preference)?;
        self.test_waits(act, state, book).map(|_| ())
    }

    /// Tests the handling of a call or a record, and counts it; hand-made states pass this test too.
    pub fn test_handling(
        &mut self,
        kind: u8,
        arrival: Option<Arrival>,
        handling: Handling,
        after: Option<&LockState>,
    ) -> Result<(), String> {
        self.count_handling(kind, handling);
        self.count_unqueued(arrival.as_ref(), handling);
        check_step(arrival.as_ref(), handling, after)
    }

    /// The same of what a drain or a transcript gives, by the handlings of its steps.
    pub fn test_last_handling(
        &mut self,
        kind: u8,
        steps: &StepHandlings,
        handling: Handling,
    ) -> Result<(), String> {
        self.count_handling(kind, handling);
        steps.check_last(handling)
    }

    fn count_handling(&mut self, kind: u8, handling: Handling) {
        self.handled[usize::from(kind)][usize::from(handling.number())] += 1;
    }

    /// How often a kind of call gave each handling, in words.
    pub fn handled_line(&self, kind: u8) -> String {
        let (call, handled) = (KINDS[usize::from(kind)], self.handled[usize::from(kind)]);
        let [_, no_agent, not_holder, taken] = handled;
        format!("handled {call} no-agent {no_agent} not-holder {not_holder} taken {taken}")
    }
}

impl GivingUp {
    fn count(&mut self, met: Met) {
        match met {
            Met::Loss { noted } => {
                self.lost += 1;
                self.noted += u64::from(noted);
            }
            Met::GaveUp => self.gave_up += 1,
            Met::IdleGrant { with_agent } => {
                self.idle_grants += 1;
                self.idle_agents += u64::from(with_agent);
            }
            Met::EarlyRelease => self.early += 1,
            Met::ShownGrant => (),
        }
    }

    /// All of it in words.
    pub fn line(&self) -> String {
        let (lost, noted, gave_up) = (self.lost, self.noted, self.gave_up);
        let (idle_grants, idle_agents) = (self.idle_grants, self.idle_agents);
        let (unqueued, early) = (self.unqueued, self.early);
        let grants = format!("idle grants {idle_grants} with agent {idle_agents}");
        format!("lost {lost} noted {noted} gave up {gave_up} {grants} unqueued {unqueued} early {early}")
    }
}

/// What the tests of a step need of the state before it.
#[derive(Clone, Debug, Default)]
pub struct Incoming {
    pub installation: Option<Installation>,
    pub arrival: Option<Arrival>,
    pub behind_writer: Option<BehindWriter>,
    pub still_named: Option<StillNamed>,
    pub wire: Option<WireBefore>,
    pub giving_up: Option<Watched>,
    pub act: Option<Act>,
}

impl Incoming {
    /// What a step is to bring a machine of a cluster with this preference, or to do to a wait; an acquire asks for more.
    pub fn at(state: &LockState, step: &Record, preference: u8) -> Self {
        let known = Incoming {
            giving_up: Watched::of(step, state),
            act: Act::of(step, state),
            ..Incoming::default()
        };
        match *step {
            Record::Deliver(_, index) => known.with_delivery(state, index, preference),
            Record::Lose(_, index) => Incoming {
                wire: Some(WireBefore::of_delivery(state, usize::from(index))),
                ..known
            },
            Record::Acquire(..) | Record::Release(..) | Record::GiveUp(..) => Incoming {
                wire: Some(WireBefore::of_request(state)),
                ..known
            },
        }
    }

    fn with_delivery(self, state: &LockState, index: u8, preference: u8) -> Self {
        let (index, preference) = (usize::from(index), Preference::from_number(preference));
        Incoming {
            installation: Installation::at(state, index),
            arrival: Arrival::at(state, index),
            behind_writer: preference
                .and_then(|preference| BehindWriter::of_delivery(preference, state, index)),
            wire: Some(WireBefore::of_delivery(state, index)),
            ..self
        }
    }

    /// The same for a lock that may be out of range, and for each kind of step.
    pub fn of(cluster: &Cluster, step: &Record) -> Self {
        let Some(state) = cluster.locks.get(step.lock().index()) else {
            return Incoming::default();
        };
        let incoming = Incoming::at(state, step, cluster.preference);
        match *step {
            Record::Acquire(lock, machine, task, mode) => Incoming {
                behind_writer: BehindWriter::of_acquire(cluster, lock, machine, task, mode),
                still_named: StillNamed::of_acquire(cluster, lock, machine, task),
                ..incoming
            },
            _ => incoming,
        }
    }

    /// A refused step brings nothing, but a packet of its client, or a wait that is none, may be why it is refused.
    pub fn if_accepted<T>(self, outcome: &Result<T, Refusal>) -> Self {
        match outcome {
            Ok(_) => self,
            Err(_) => Incoming {
                still_named: self.still_named,
                giving_up: self.giving_up,
                ..Incoming::default()
            },
        }
    }
}

/// No call and no drain from a fresh cluster meets refusals 9 and 10 (document 02, §1).
fn check_answer<T>(kind: u8, outcome: &Result<T, Refusal>) -> Result<(), String> {
    match outcome {
        Err(refusal @ (Refusal::CannotBePlaced | Refusal::WireFull)) => {
            let (name, answer) = (KINDS[usize::from(kind)], refusal.number());
            Err(format!("{name} is answered {answer}"))
        }
        _ => Ok(()),
    }
}

/// What the tally looks at, before and after a call.
#[derive(Clone, Copy, Debug, Default)]
pub struct Observation {
    incarnation: u8,
    wire: usize,
}

impl Observation {
    pub fn of(cluster: &Cluster, lock: LockId) -> Self {
        let state = cluster.locks.get(lock.index());
        state.map_or(Observation::default(), |state| Observation {
            incarnation: state.decider.incarnation,
            wire: state.wire.len(),
        })
    }
}

/// The lines of a run and its tally.
pub struct Report<'a> {
    pub out: &'a mut dyn Write,
    pub each_step: bool,
    pub tally: Tally,
}

impl<'a> Report<'a> {
    pub fn new(out: &'a mut dyn Write, each_step: bool) -> Self {
        let tally = Tally::default();
        Report {
            out,
            each_step,
            tally,
        }
    }
}
