//! Tables with an order to be judged: of growing size, and where a hunt begins and goes on.

use super::families::{first_order, great, tables};
use super::hunt::changed;
use crate::reference::table::Table;
use crate::support_of_tests::random::Random;
use crate::support_of_tests::tables::{acyclic, GREATEST};

/// A table and an order to be judged by it.
pub type Case = (Table, Vec<u8>);

pub fn begin(random: &mut Random) -> Case {
    let table = great(random);
    match first_order(&table) {
        Some(calls) => (table, calls),
        None => acyclic(random, GREATEST),
    }
}

/// Another table with its first order, or the same with two neighbouring calls exchanged.
pub fn change(random: &mut Random, case: &Case) -> Case {
    if random.percent(50) {
        let table = changed(random, &case.0);
        if let Some(calls) = first_order(&table) {
            return (table, calls);
        }
    }
    let mut calls = case.1.clone();
    let place = random.below(calls.len() - 1);
    calls.swap(place, place + 1);
    (case.0.clone(), calls)
}

/// The families' tables, each with its first order.
pub fn cases() -> impl Iterator<Item = (&'static str, String, Case)> {
    let case = |table: Table| first_order(&table).map(|calls| (table, calls));
    tables().into_iter().filter_map(move |(family, size, table)| Some((family, size, case(table)?)))
}
