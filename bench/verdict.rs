//! Instructions of the verdict, and the hunt for the table and order on which it takes most.

#[path = "../tests/reference/mod.rs"]
#[allow(dead_code)]
mod reference;
mod support;
#[path = "../tests/rust/support/mod.rs"]
#[allow(dead_code)]
mod support_of_tests;

use support::count::Counter;
use support::exports::{oorlichday_verdict, plain_verdict, Verdict};
use support::judged::{begin, cases, change, Case};
use support::measured::measured;

fn main() {
    let counter = Counter::new();
    let cost = |verdict: Verdict, case: &Case| {
        let (table, calls) = (case.0.packed(), &case.1);
        let call = || unsafe { verdict(table.as_ptr(), table.len(), calls.as_ptr(), calls.len()) };
        counter.count(call).0
    };
    let costs: [&dyn Fn(&Case) -> u64; 2] =
        [&|case| cost(oorlichday_verdict, case), &|case| cost(plain_verdict, case)];
    measured("verdict", 170_000, cases(), begin, change, costs);
}
