//! Instructions of the order, and the hunt for the table on which it takes most.

#[path = "../tests/reference/mod.rs"]
#[allow(dead_code)]
mod reference;
mod support;
#[path = "../tests/rust/support/mod.rs"]
#[allow(dead_code)]
mod support_of_tests;

use reference::table::Table;
use support::count::Counter;
use support::exports::{oorlichday_order, plain_order, Order};
use support::families::{great, tables};
use support::hunt::changed;
use support::measured::measured;

fn main() {
    let counter = Counter::new();
    // The second of two calls, so that a heap has been used before.
    let cost = |order: Order, table: &Table| {
        let (table, mut calls) = (table.packed(), [0u8; 224]);
        let mut call = || unsafe { order(table.as_ptr(), table.len(), calls.as_mut_ptr(), 224) };
        call();
        counter.count(call).0
    };
    let costs: [&dyn Fn(&Table) -> u64; 2] =
        [&|table| cost(oorlichday_order, table), &|table| cost(plain_order, table)];
    measured("order", 130_000, tables(), great, changed, costs);
}
