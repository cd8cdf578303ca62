//! Instructions of the question whether one call precedes another: the dearest set and get of each table.

#[path = "../tests/reference/mod.rs"]
#[allow(dead_code)]
mod reference;
mod support;
#[path = "../tests/rust/support/mod.rs"]
#[allow(dead_code)]
mod support_of_tests;

use reference::table::Table;
use support::count::Counter;
use support::exports::{oorlichday_precedes, plain_precedes, Precedes};
use support::families::tables;
use support::measured::rows;

fn main() {
    let counter = Counter::new();
    // A set before a get is the dear question: all feeds are looked at.
    let cost = |precedes: Precedes, table: &Table| {
        let bytes = table.packed();
        let asked = |set: usize, get: usize| {
            counter.count(|| unsafe { precedes(bytes.as_ptr(), bytes.len(), set, get) }).0
        };
        let pairs = (0..table.inputs()).flat_map(|x| (0..table.outputs()).map(move |y| (x, y)));
        pairs.map(|(x, y)| asked(table.set(x), table.get(y))).max().expect("a set and a get")
    };
    let costs: [&dyn Fn(&Table) -> u64; 2] =
        [&|table| cost(oorlichday_precedes, table), &|table| cost(plain_precedes, table)];
    rows("precedes", tables(), costs);
}
