//! Data exchange, detection and activation (CYCLE.md). Each gives how many
//! requests it sent.

use super::line::Line;
use super::numbers::{Address, Nibble};
use super::record::{Codes, Record};
use super::station::Reply;
use super::telegrams::Request;

/// So many missed exchanges in succession take an address out.
const MISSES_TO_DROP: u8 = 3;

pub fn exchange_data<L: Line>(record: &mut Record, line: &mut L) -> u32 {
    let mut requests = 0;
    for address in record.las.addresses() {
        let odi = record.row(address).odi;
        match line.carry(Request::DataExchange(address, odi)) {
            Reply::Nibble(inputs) => came(record, address, inputs),
            Reply::Silence | Reply::Disturbed => missed(record, address),
        }
        requests += 1;
    }
    requests
}

fn came(record: &mut Record, address: Address, inputs: Nibble) {
    let row = record.row_mut(address);
    row.idi = inputs;
    row.misses = 0;
}

fn missed(record: &mut Record, address: Address) {
    let row = record.row_mut(address);
    row.misses += 1;
    if row.misses == MISSES_TO_DROP {
        row.idi = 0;
        row.misses = 0;
        record.forget(address);
    }
}

pub fn detect<L: Line>(record: &mut Record, line: &mut L) -> u32 {
    (0..32)
        .map(|address| detect_at(record, line, address))
        .sum()
}

/// Where one of the two codes is missing, the row stays as it was.
fn detect_at<L: Line>(record: &mut Record, line: &mut L, address: Address) -> u32 {
    let Reply::Nibble(io) = line.carry(Request::ReadIo(address)) else {
        return 1;
    };
    if let Reply::Nibble(id) = line.carry(Request::ReadId(address)) {
        record.detect(address, Codes { io, id });
    }
    2
}

pub fn activate<L: Line>(record: &mut Record, line: &mut L) -> u32 {
    let detected = record.lds;
    detected
        .addresses()
        .map(|address| enter_if_admissible(record, line, address))
        .sum()
}

/// The search enters addresses in the same way.
pub fn enter_if_admissible<L: Line>(record: &mut Record, line: &mut L, address: Address) -> u32 {
    if !record.is_admissible(address) {
        return 0;
    }
    let row = record.row_mut(address);
    // Also where no nibble comes.
    row.pi = row.pp;
    let parameter = row.pi;
    if let Reply::Nibble(_) = line.carry(Request::WriteParameter(address, parameter)) {
        let row = record.row_mut(address);
        row.idi = 0;
        row.misses = 0;
        record.lds.insert(address);
        record.las.insert(address);
    }
    1
}
