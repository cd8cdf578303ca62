//! Instructions of one call of a judged run: the dearest call of each table's first order.

#[path = "../tests/reference/mod.rs"]
#[allow(dead_code)]
mod reference;
mod support;
#[path = "../tests/rust/support/mod.rs"]
#[allow(dead_code)]
mod support_of_tests;

use support::count::Counter;
use support::exports::{oorlichday_take, plain_take, Run, Take};
use support::judged::{cases, Case};
use support::measured::rows;

fn main() {
    let counter = Counter::new();
    let cost = |take: Take, case: &Case| {
        let (table, mut run) = (case.0.packed(), Run { done: [0; 224] });
        let mut dearest = 0;
        for &call in &case.1 {
            let one = || unsafe { take(table.as_ptr(), table.len(), run, call as usize) };
            let (count, taken) = counter.count(one);
            assert_eq!(taken.number, 0);
            dearest = dearest.max(count);
            run = taken.run;
        }
        dearest
    };
    rows("take", cases(), [&|case| cost(oorlichday_take, case), &|case| cost(plain_take, case)]);
}
