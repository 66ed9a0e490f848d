//! The numbers that calls answer with, and what a machine made of a packet.

/// Why a call was refused; zero stands for an accepted call.
#[derive(Clone, Copy, Debug, PartialEq, Eq)]
pub enum Refusal {
    LockOutOfRange,
    MachineOutOfRange,
    TaskOutOfRange,
    ModeInvalid,
    ClientNotIdle,
    ClientOnWire,
    ClientNotHolding,
    IndexOutOfRange,
    CannotBePlaced,
    WireFull,
    Malformed,
    RecordInvalid,
    TranscriptTooLong,
    NotQuiescent,
    /// Also of a hand-made wait that has no reason.
    NotWaiting,
    PreferenceInvalid,
    NothingToGiveUp,
    CannotBeLost,
}

impl Refusal {
    /// The refusal's number (document 01, 'Zero and the refusals'; 15 to 18: document 02, §2, §5 and §8).
    pub fn number(self) -> u8 {
        match self {
            Refusal::LockOutOfRange => 1,
            Refusal::MachineOutOfRange => 2,
            Refusal::TaskOutOfRange => 3,
            Refusal::ModeInvalid => 4,
            Refusal::ClientNotIdle => 5,
            Refusal::ClientOnWire => 6,
            Refusal::ClientNotHolding => 7,
            Refusal::IndexOutOfRange => 8,
            Refusal::CannotBePlaced => 9,
            Refusal::WireFull => 10,
            Refusal::Malformed => 11,
            Refusal::RecordInvalid => 12,
            Refusal::TranscriptTooLong => 13,
            Refusal::NotQuiescent => 14,
            Refusal::NotWaiting => 15,
            Refusal::PreferenceInvalid => 16,
            Refusal::NothingToGiveUp => 17,
            Refusal::CannotBeLost => 18,
        }
    }
}

/// What a machine made of an ACQUIRE or RELEASE that was delivered to it (document 02, §4).
#[derive(Clone, Copy, Debug, Default, PartialEq, Eq)]
pub enum Handling {
    /// Of every other step.
    #[default]
    None,
    /// No agent is here.
    NoAgent,
    /// An agent is here, but the client of the RELEASE is neither among its holders nor in its queue.
    NotHolder,
    Taken,
}

impl Handling {
    /// The byte of docs/random-runs.md.
    pub fn number(self) -> u8 {
        match self {
            Handling::None => 0,
            Handling::NoAgent => 1,
            Handling::NotHolder => 2,
            Handling::Taken => 3,
        }
    }

    /// Makes the last one met out of that of the steps before; a step that has none changes nothing.
    pub(crate) fn meet(&mut self, next: Handling) {
        if next != Handling::None {
            *self = next;
        }
    }
}

/// The outcome of a call that returns nothing but its answer.
pub type Outcome = Result<(), Refusal>;

/// The outcome of a delivery or of a record's step; a refused one has no handling.
pub type StepOutcome = Result<Handling, Refusal>;

/// The outcome of a step in which no packet comes to a machine.
pub(crate) fn without_handling(outcome: Outcome) -> StepOutcome {
    outcome.map(|()| Handling::None)
}

/// The answer number of any outcome.
pub fn answer_number<T>(outcome: &Result<T, Refusal>) -> u8 {
    match outcome {
        Ok(_) => 0,
        Err(refusal) => refusal.number(),
    }
}
