//! Instructions of the listing.

#[path = "../tests/reference/mod.rs"]
#[allow(dead_code)]
mod reference;
mod support;
#[path = "../tests/rust/support/mod.rs"]
#[allow(dead_code)]
mod support_of_tests;

use support::count::Counter;
use support::exports::{oorlichday_list, plain_list, Read};
use support::families::texts;
use support::measured::rows;

fn main() {
    let counter = Counter::new();
    let cost = |list: Read, text: &Vec<u8>| {
        let mut out = vec![0u8; 10_000];
        let call = || unsafe { list(text.as_ptr(), text.len(), out.as_mut_ptr(), 10_000) }.place;
        counter.count(call).0
    };
    rows("list", texts(87), [&|text| cost(oorlichday_list, text), &|text| cost(plain_list, text)]);
}
