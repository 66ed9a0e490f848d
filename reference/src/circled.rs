//! How often each packet was sent back in truth, and what holds of its count (document 02, §7 and §8).
//!
//! The true numbers have no bound. They are read from the packets that the steps take off a wire and send, never from a count,
//! so that a fault in the counts shows. ACQUIREs and RELEASEs of hand-made states keep to it too.

use crate::counts::{check, number_of};
use crate::handlings::is_request_or_release;
use crate::model::{Address, LockState, Message, Packet};

/// A count stays here.
pub const FULL: u64 = 255;

/// What a run of calls began with.
#[derive(Clone, Copy, Debug, PartialEq, Eq)]
pub enum Origin {
    Fresh,
    HandMade,
}

/// A lock's wire, as it is before a step.
#[derive(Clone, Copy, Debug, PartialEq, Eq)]
pub struct WireBefore {
    packets: usize,
    /// The packet that a delivery or a loss takes off; what a client does takes none.
    taken: Option<Taken>,
}

#[derive(Clone, Copy, Debug, PartialEq, Eq)]
struct Taken {
    index: usize,
    message: Message,
    address: Address,
    /// Whether it is a RELEASE at a free decider, which has nobody to send it on to.
    stays: bool,
}

impl WireBefore {
    /// Before an acquire, a release or a give up.
    pub fn of_request(state: &LockState) -> Self {
        WireBefore {
            packets: state.wire.len(),
            taken: None,
        }
    }

    /// Before the delivery, or the loss, of an index. With an empty wire there is none to take off.
    pub fn of_delivery(state: &LockState, index: usize) -> Self {
        let packet = state.wire.get(index);
        WireBefore {
            taken: packet.map(|packet| Taken {
                index,
                message: packet.message,
                address: packet.address,
                stays: matches!(packet.message, Message::Release { .. })
                    && packet.address == Address::Decider
                    && state.decider.owner.is_none(),
            }),
            ..WireBefore::of_request(state)
        }
    }

    /// The packets that the step has sent.
    fn sent<'a>(&self, after: &'a LockState) -> impl Iterator<Item = &'a Packet> {
        // The delivered packet is gone, and what was sent is behind the others.
        let others = self.packets - usize::from(self.taken.is_some());
        after.wire.iter().skip(others)
    }

    /// Whether a sent packet was delivered to a machine and goes back to the decider.
    fn is_back(&self, sent: &Packet) -> bool {
        let from = self.taken_with(sent.message);
        from.is_some_and(|from| from != Address::Decider) && sent.address == Address::Decider
    }

    /// Whether a sent packet was delivered to the decider and goes on to a machine, or stays with the decider of a free lock.
    fn is_on(&self, sent: &Packet) -> bool {
        let from = self.taken_with(sent.message);
        let stays = self.taken.is_some_and(|taken| taken.stays);
        from == Some(Address::Decider) && (sent.address == Address::Decider) == stays
    }

    /// The number of a sent packet, after that of the taken one.
    fn next(&self, number: u64, sent: &Packet) -> u64 {
        if self.is_back(sent) {
            number + 1
        } else if self.is_on(sent) {
            number
        } else {
            0
        }
    }

    /// Where the taken packet was delivered, if it had this message.
    fn taken_with(&self, message: Message) -> Option<Address> {
        let taken = self.taken.filter(|taken| taken.message == message);
        taken.map(|taken| taken.address)
    }
}

/// How often each packet on a lock's wire was sent back, by index.
#[derive(Clone, Debug, Default, PartialEq, Eq)]
pub struct TrueNumbers(pub Vec<u64>);

impl TrueNumbers {
    /// Of the past of a hand-made state nothing is known but the counts; a fresh one has no packets.
    pub fn of(state: &LockState) -> Self {
        let counts = state.wire.iter().map(|packet| packet.circled);
        TrueNumbers(counts.map(u64::from).collect())
    }

    /// Goes on to the state after an accepted step. Gives the number, before it, of an ACQUIRE or RELEASE that was sent back.
    pub fn follow(
        &mut self,
        before: &WireBefore,
        after: &LockState,
    ) -> Result<Option<u64>, String> {
        self.check_length(before.packets)?;
        let number = before.taken.map_or(0, |taken| self.0.remove(taken.index));
        let sent = before.sent(after);
        self.0.extend(sent.map(|sent| before.next(number, sent)));
        let is_back = |sent| is_request_or_release(sent) && before.is_back(sent);
        Ok(before.sent(after).any(is_back).then_some(number))
    }

    pub fn greatest(&self) -> u64 {
        self.0.iter().copied().max().unwrap_or(0)
    }

    /// Tests the count of each packet by its number; says how many were tested.
    pub fn check(&self, state: &LockState, origin: Origin) -> Result<usize, String> {
        self.check_length(state.wire.len())?;
        let mut tested = 0;
        for (index, (packet, &number)) in state.wire.iter().zip(&self.0).enumerate() {
            // By hand an agent may grant the very client whose GRANT brought it.
            if origin == Origin::Fresh || is_request_or_release(packet) {
                check_count(index, packet.circled, number)?;
                tested += 1;
            }
        }
        Ok(tested)
    }

    fn check_length(&self, packets: usize) -> Result<(), String> {
        let numbers = self.0.len();
        check(numbers == packets, || {
            let packets = number_of(packets, "packet");
            format!("{} for {packets}", number_of(numbers, "true number"))
        })
    }
}

fn check_count(index: usize, count: u8, number: u64) -> Result<(), String> {
    check(u64::from(count) == number.min(FULL), || {
        let times = number_of(number as usize, "time");
        format!("the packet at index {index} has the count {count}, but was sent back {times}")
    })
}
