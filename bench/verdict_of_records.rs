//! Instructions of the verdict on records, and the hunt for the table and records on which it takes most.

#[path = "../tests/reference/mod.rs"]
#[allow(dead_code)]
mod reference;
mod support;
#[path = "../tests/rust/support/mod.rs"]
#[allow(dead_code)]
mod support_of_tests;

use support::count::Counter;
use support::exports::{oorlichday_verdict_of_records, plain_verdict_of_records, Verdict};
use support::judged::{begin, cases, change, Case};
use support::measured::measured;
use support_of_tests::records::{as_bytes, records_of};

fn main() {
    let counter = Counter::new();
    let cost = |verdict: Verdict, case: &Case| {
        let (table, records) = (case.0.packed(), as_bytes(&records_of(&case.0, &case.1)));
        let (count, at) = (case.1.len(), records.as_ptr());
        counter.count(|| unsafe { verdict(table.as_ptr(), table.len(), at, count) }).0
    };
    let costs: [&dyn Fn(&Case) -> u64; 2] = [
        &|case| cost(oorlichday_verdict_of_records, case),
        &|case| cost(plain_verdict_of_records, case),
    ];
    measured("verdict_of_records", 170_000, cases(), begin, change, costs);
}
