//! Instructions of the check, and the hunt for the table on which it takes most.

#[path = "../tests/reference/mod.rs"]
#[allow(dead_code)]
mod reference;
mod support;
#[path = "../tests/rust/support/mod.rs"]
#[allow(dead_code)]
mod support_of_tests;

use reference::table::Table;
use support::count::Counter;
use support::exports::{oorlichday_check, plain_check, Check};
use support::families::{great, tables};
use support::hunt::changed;
use support::measured::measured;

fn main() {
    let counter = Counter::new();
    let cost = |check: Check, table: &Table| {
        let table = table.packed();
        counter.count(|| unsafe { check(table.as_ptr(), table.len()) }).0
    };
    let costs: [&dyn Fn(&Table) -> u64; 2] =
        [&|table| cost(oorlichday_check, table), &|table| cost(plain_check, table)];
    measured("check", 60_000, tables(), great, changed, costs);
}
