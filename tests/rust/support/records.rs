//! Lists of records: from call numbers, near misses, and as the bytes that C sees.

use super::random::Random;
use crate::reference::calls::Call;
use crate::reference::table::Table;

/// A kind and a number counted within it.
pub type Record = (u8, u8);

/// Each call as a record; a kind of 3 for what is no call.
pub fn records_of(table: &Table, calls: &[u8]) -> Vec<Record> {
    let record = |&call: &u8| match table.call(call as usize) {
        Some(Call::Step(unit)) => (0, unit as u8),
        Some(Call::Get(output)) => (1, output as u8),
        Some(Call::Set(input)) => (2, input as u8),
        None => (3, 0),
    };
    calls.iter().map(record).collect()
}

/// The records as C has them: a byte for the kind, then one for the number.
pub fn as_bytes(records: &[Record]) -> Vec<u8> {
    records.iter().flat_map(|&(kind, number)| [kind, number]).collect()
}

/// How many calls a table has of a kind.
fn count(table: &Table, kind: u8) -> usize {
    [table.units, table.outputs(), table.inputs()][kind as usize]
}

/// A record that names no call: a kind above 2, or a number at or above the count of its kind.
pub fn no_call(random: &mut Random, table: &Table) -> Record {
    let kind = random.below(3) as u8;
    match random.below(4) {
        0 => (3, random.byte()),
        1 => (random.between(3, 255) as u8, random.below(table.units) as u8),
        2 => (kind, count(table, kind) as u8),
        _ => (kind, random.between(count(table, kind), 255) as u8),
    }
}

/// The records with one of them changed: its kind, its number, or into what is no call.
pub fn changed(random: &mut Random, table: &Table, records: &[Record]) -> Vec<Record> {
    let mut records = records.to_vec();
    if records.is_empty() {
        return vec![no_call(random, table)];
    }
    let place = random.below(records.len());
    records[place] = match random.below(4) {
        0 => (random.below(3) as u8, records[place].1),
        1 => (records[place].0, random.byte()),
        _ => no_call(random, table),
    };
    records
}
