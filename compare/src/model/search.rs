//! The search for modules in normal operation (CYCLE.md).

use super::line::Line;
use super::numbers::{Address, Nibble};
use super::phases;
use super::record::{Codes, Record};
use super::station::Reply;
use super::telegrams::Request;

#[derive(Clone, Copy, Debug, PartialEq, Eq)]
pub enum Step {
    /// Look from this address upward for one that is not active.
    Seek(Address),
    /// The address gave this I/O code; its ID code is to be read.
    Name(Address, Nibble),
    /// The address has both codes and is to be activated.
    Enter(Address),
}

impl Step {
    pub const NEW: Step = Step::Seek(0);

    /// The search goes on behind this address.
    fn behind(address: Address) -> Step {
        Step::Seek((address + 1) % 32)
    }

    /// Takes the step. Gives the next one and how many requests were sent.
    pub fn take<L: Line>(self, record: &mut Record, line: &mut L) -> (Step, u32) {
        match self {
            Step::Seek(from) => seek(from, record, line),
            Step::Name(address, io) => (name(address, io, record, line), 1),
            Step::Enter(address) => {
                let requests = phases::enter_if_admissible(record, line, address);
                (Step::behind(address), requests)
            }
        }
    }
}

fn seek<L: Line>(from: Address, record: &mut Record, line: &mut L) -> (Step, u32) {
    // Address 0 is never active, so there is always one.
    let Some(address) = record.las.first_absent(from) else {
        return (Step::Seek(from), 0);
    };
    let next = match line.carry(Request::ReadIo(address)) {
        Reply::Nibble(io) => Step::Name(address, io),
        Reply::Silence | Reply::Disturbed => lost(address, record),
    };
    (next, 1)
}

fn name<L: Line>(address: Address, io: Nibble, record: &mut Record, line: &mut L) -> Step {
    match line.carry(Request::ReadId(address)) {
        Reply::Nibble(id) => {
            record.detect(address, Codes { io, id });
            if record.is_admissible(address) {
                Step::Enter(address)
            } else {
                Step::behind(address)
            }
        }
        Reply::Silence | Reply::Disturbed => lost(address, record),
    }
}

fn lost(address: Address, record: &mut Record) -> Step {
    record.forget(address);
    Step::behind(address)
}
