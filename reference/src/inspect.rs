//! The lines of inspect.md: one JSON object for each record of a transcript,
//! with the state of its lock, and one for the end.

use crate::answer::{answer_number, Handling, Refusal, StepOutcome};
use crate::counts::Counts;
use crate::drain::Drained;
use crate::model::{
    Address, Agent, ClientId, ClientStatus, Cluster, Decider, LockId, LockState, MachineId,
    Message, Mode, Packet, TaskId, Waiter, CLIENTS, LOCKS,
};
use crate::reasons::Reason;
use crate::transcript::{Record, TranscriptOutcome};
use std::fmt;
use std::io::{self, Write};

/// Runs a transcript on a fresh cluster with this preference and writes all its lines.
pub fn inspect(preference: u8, bytes: &[u8], out: &mut dyn Write) -> io::Result<()> {
    let (made, mut cluster) = Cluster::fresh(preference);
    if made.is_err() {
        // Nothing is run, and the transcript is not looked at.
        let nothing = TranscriptOutcome {
            answer: made,
            record: 0,
            handling: Handling::None,
        };
        return end_line(nothing, &cluster, out);
    }
    let mut written = Ok(());
    let outcome = cluster.run_transcript_with(bytes, |number, record, outcome, cluster| {
        // A run cannot be stopped from here; after an error it goes on in silence.
        if written.is_ok() {
            written = record_line(number, record, outcome, cluster, out);
        }
    });
    written?;
    end_line(outcome, &cluster, out)
}

fn record_line(
    number: usize,
    record: &Record,
    outcome: StepOutcome,
    cluster: &Cluster,
    out: &mut dyn Write,
) -> io::Result<()> {
    let (call, answer) = (Json(record), answer_number(&outcome));
    let handling = outcome.unwrap_or_default();
    let (handling, preference) = (Json(&handling), cluster.preference);
    // A lock out of range has no state, and nothing to count.
    let state = cluster.locks.get(record.lock().index());
    let counts = state.map(Counts::of);
    let (state, counts) = (OrNull(state.map(Json)), OrNull(counts.as_ref().map(Json)));
    let named = named_field(record, &outcome, cluster);
    write!(out, r#"{{"n":{number},{call},"answer":{answer},{named}"#)?;
    write!(out, r#""handling":{handling},"preference":{preference},"#)?;
    writeln!(out, r#""state":{state},"counts":{counts}}}"#)
}

/// The field that an acquire alone has: which packet it was refused for with 6.
fn named_field(record: &Record, outcome: &StepOutcome, cluster: &Cluster) -> String {
    let Record::Acquire(lock, machine, task, _) = *record else {
        return String::new();
    };
    let searched = match outcome {
        // A refused step leaves the wire as it was searched.
        Err(Refusal::ClientOnWire) => cluster.lock_and_client(lock, machine, task).ok(),
        _ => None,
    };
    let index = searched.and_then(|(state, client)| state.first_naming(client));
    format!(r#""named":{},"#, OrNull(index))
}

fn end_line(outcome: TranscriptOutcome, cluster: &Cluster, out: &mut dyn Write) -> io::Result<()> {
    let end = match outcome.answer {
        Ok(()) => "end",
        Err(Refusal::RecordInvalid) => "bad record",
        Err(Refusal::TranscriptTooLong) => "too long",
        Err(Refusal::PreferenceInvalid) => "bad preference",
        Err(_) => unreachable!("a fresh cluster is well formed"),
    };
    let (answer, records) = (answer_number(&outcome.answer), outcome.record);
    let (handling, preference) = (Json(&outcome.handling), cluster.preference);
    let drains = List((0..LOCKS as u8).map(|lock| drain_object(LockId(lock), cluster)));
    write!(
        out,
        r#"{{"end":"{end}","answer":{answer},"records":{records},"#
    )?;
    write!(out, r#""handling":{handling},"preference":{preference},"#)?;
    writeln!(out, r#""drains":[{drains}]}}"#)
}

/// What draining one lock gives, on a copy, so that no drain sees another.
fn drain_object(lock: LockId, cluster: &Cluster) -> String {
    let outcome = cluster.clone().drain(lock);
    let (lock, answer) = (lock.0, answer_number(&outcome));
    // A refused drain counts 0 (document 01, 'Zero and the refusals') and has no handling.
    let Drained { count, handling } = outcome.unwrap_or_default();
    let handling = Json(&handling);
    format!(r#"{{"lock":{lock},"answer":{answer},"count":{count},"handling":{handling}}}"#)
}

/// A part of the state, or of a record, that is shown in JSON.
struct Json<'a, T>(&'a T);

/// A value, or `null` where there is none.
struct OrNull<T>(Option<T>);

/// Values with commas between them.
struct List<I>(I);

/// A client of a lock: why it waits is not in its status alone.
struct ClientOf<'a>(&'a LockState, ClientId);

impl<T: fmt::Display> fmt::Display for OrNull<T> {
    fn fmt(&self, f: &mut fmt::Formatter) -> fmt::Result {
        match &self.0 {
            Some(value) => value.fmt(f),
            None => f.write_str("null"),
        }
    }
}

impl<I> fmt::Display for List<I>
where
    I: Iterator<Item: fmt::Display> + Clone,
{
    fn fmt(&self, f: &mut fmt::Formatter) -> fmt::Result {
        for (place, value) in self.0.clone().enumerate() {
            if place > 0 {
                f.write_str(",")?;
            }
            value.fmt(f)?;
        }
        Ok(())
    }
}

/// No object of its own: the bytes are fields of the record's line, in range
/// or not.
impl fmt::Display for Json<'_, Record> {
    fn fmt(&self, f: &mut fmt::Formatter) -> fmt::Result {
        match *self.0 {
            Record::Acquire(lock, machine, task, mode) => {
                client_fields(f, "acquire", lock, machine, task)?;
                write!(f, r#","mode":{mode}"#)
            }
            Record::Release(lock, machine, task) => {
                client_fields(f, "release", lock, machine, task)
            }
            Record::GiveUp(lock, machine, task) => client_fields(f, "give up", lock, machine, task),
            Record::Deliver(lock, index) => index_fields(f, "deliver", lock, index),
            Record::Lose(lock, index) => index_fields(f, "lose", lock, index),
        }
    }
}

fn client_fields(
    f: &mut fmt::Formatter,
    kind: &str,
    lock: LockId,
    machine: MachineId,
    task: TaskId,
) -> fmt::Result {
    let (lock, machine, task) = (lock.0, machine.0, task.0);
    write!(f, r#""kind":"{kind}","lock":{lock},"#)?;
    write!(f, r#""machine":{machine},"task":{task}"#)
}

fn index_fields(f: &mut fmt::Formatter, kind: &str, lock: LockId, index: u8) -> fmt::Result {
    let lock = lock.0;
    write!(f, r#""kind":"{kind}","lock":{lock},"index":{index}"#)
}

impl fmt::Display for Json<'_, Handling> {
    fn fmt(&self, f: &mut fmt::Formatter) -> fmt::Result {
        f.write_str(match self.0 {
            Handling::None => "null",
            Handling::NoAgent => r#""no agent""#,
            Handling::NotHolder => r#""not a holder""#,
            Handling::Taken => r#""taken""#,
        })
    }
}

impl fmt::Display for Json<'_, LockState> {
    fn fmt(&self, f: &mut fmt::Formatter) -> fmt::Result {
        let decider = Json(&self.0.decider);
        let agents = List(self.0.agents.iter().map(|a| OrNull(a.as_ref().map(Json))));
        let state = self.0;
        let clients = List((0..CLIENTS as u8).map(|number| ClientOf(state, ClientId(number))));
        let wire = List(self.0.wire.iter().map(Json));
        write!(f, r#"{{"decider":{decider},"agents":[{agents}],"#)?;
        write!(f, r#""clients":[{clients}],"wire":[{wire}]}}"#)
    }
}

impl fmt::Display for Json<'_, Counts> {
    fn fmt(&self, f: &mut fmt::Formatter) -> fmt::Result {
        let Counts { agents, marked } = *self.0;
        write!(f, r#"{{"agents":{agents},"marked":{marked}}}"#)
    }
}

impl fmt::Display for Json<'_, Decider> {
    fn fmt(&self, f: &mut fmt::Formatter) -> fmt::Result {
        let Decider {
            owner,
            incarnation,
            writer_waits,
        } = *self.0;
        // A free lock has mode 0, but no machine.
        let mode = owner.map_or(0, |owner| owner.mode.number());
        let machine = OrNull(owner.map(|owner| owner.machine.0));
        write!(f, r#"{{"mode":{mode},"machine":{machine},"#)?;
        write!(
            f,
            r#""incarnation":{incarnation},"writer":{writer_waits}}}"#
        )
    }
}

impl fmt::Display for Json<'_, Agent> {
    fn fmt(&self, f: &mut fmt::Formatter) -> fmt::Result {
        let agent = self.0;
        let (mode, incarnation) = (agent.mode.number(), agent.incarnation);
        let all = 0..CLIENTS as u8;
        let holders = List(all.filter(|&client| agent.holders.contains(ClientId(client))));
        let queue = List(agent.queue.iter().map(Json));
        write!(f, r#"{{"mode":{mode},"holders":[{holders}],"#)?;
        write!(f, r#""queue":[{queue}],"incarnation":{incarnation}}}"#)
    }
}

impl fmt::Display for Json<'_, Waiter> {
    fn fmt(&self, f: &mut fmt::Formatter) -> fmt::Result {
        let (client, mode) = (self.0.client.0, self.0.mode.number());
        write!(f, r#"{{"client":{client},"mode":{mode}}}"#)
    }
}

impl fmt::Display for ClientOf<'_> {
    fn fmt(&self, f: &mut fmt::Formatter) -> fmt::Result {
        let ClientOf(state, client) = *self;
        let (status, mode) = match state.clients[client.index()] {
            ClientStatus::Idle => ("idle", None),
            ClientStatus::Waiting(mode) => ("waiting", Some(mode)),
            ClientStatus::Holding(mode) => ("holding", Some(mode)),
        };
        let mode = OrNull(mode.map(Mode::number));
        let lost = state.lost_grants.contains(client);
        let reason = state.reason(client).ok();
        let reason = OrNull(reason.as_ref().map(Json));
        write!(f, r#"{{"status":"{status}","mode":{mode},"#)?;
        write!(f, r#""lost":{lost},"reason":{reason}}}"#)
    }
}

impl fmt::Display for Json<'_, Reason> {
    fn fmt(&self, f: &mut fmt::Formatter) -> fmt::Result {
        let (kind, index, machine, ahead) = match *self.0 {
            Reason::Request { index } => ("ACQUIRE", Some(index), None, None),
            Reason::Grant { index } => ("GRANT", Some(index), None, None),
            Reason::RejectedGrant { index } => ("rejected GRANT", Some(index), None, None),
            Reason::MachineQueue { machine, ahead } => ("queue", None, Some(machine), Some(ahead)),
            Reason::PacketQueue { index, ahead } => ("queue", Some(index), None, Some(ahead)),
            Reason::GrantLost => ("grant lost", None, None, None),
        };
        let machine = OrNull(machine.map(|machine| machine.0));
        let (index, ahead) = (OrNull(index), OrNull(ahead));
        write!(f, r#"{{"kind":"{kind}","index":{index},"#)?;
        write!(f, r#""machine":{machine},"ahead":{ahead}}}"#)
    }
}

impl fmt::Display for Json<'_, Packet> {
    fn fmt(&self, f: &mut fmt::Formatter) -> fmt::Result {
        let packet = self.0;
        let (kind, mode, granted) = match packet.message {
            Message::Acquire { mode, granted, .. } => ("ACQUIRE", Some(mode), granted),
            Message::Grant { mode, .. } => ("GRANT", Some(mode), false),
            Message::Release { .. } => ("RELEASE", None, false),
            Message::Free => ("FREE", None, false),
        };
        let to = OrNull(match packet.address {
            Address::Decider => None,
            Address::Machine(machine) => Some(machine.0),
        });
        let client = OrNull(packet.message.client().map(|client| client.0));
        let mode = OrNull(mode.map(Mode::number));
        let (rejected, circled) = (packet.rejected, packet.circled);
        let agent = OrNull(packet.agent.as_ref().map(Json));
        write!(
            f,
            r#"{{"kind":"{kind}","to":{to},"client":{client},"mode":{mode},"#
        )?;
        write!(
            f,
            r#""granted":{granted},"rejected":{rejected},"circled":{circled},"agent":{agent}}}"#
        )
    }
}
