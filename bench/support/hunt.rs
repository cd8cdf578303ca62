//! The hunt for the dearest input: change one thing, keep what is not cheaper, begin again.

use crate::reference::table::{sound, Table};
use crate::support_of_tests::random::Random;

/// How often a hunt for a table begins again.
pub const STARTS: usize = 24;

/// The greatest cost met in so many rounds from so many starts, with its input.
pub fn hunt<T: Clone>(
    random: &mut Random,
    rounds: usize,
    starts: usize,
    mut begin: impl FnMut(&mut Random) -> T,
    mut change: impl FnMut(&mut Random, &T) -> T,
    mut cost: impl FnMut(&T) -> u64,
) -> (u64, T) {
    let climb = (rounds / starts).max(1);
    let mut here = begin(random);
    let mut here_cost = cost(&here);
    let mut best = (here_cost, here.clone());
    for round in 1..rounds {
        let next = if round % climb == 0 { begin(random) } else { change(random, &here) };
        let next_cost = cost(&next);
        if next_cost >= here_cost || round % climb == 0 {
            here = next;
            here_cost = next_cost;
        }
        if here_cost > best.0 {
            best = (here_cost, here.clone());
        }
    }
    best
}

/// The table with a few parts changed, sound as before.
pub fn changed(random: &mut Random, table: &Table) -> Table {
    loop {
        let mut other = table.clone();
        for _ in 0..random.between(1, 3) {
            change_one(random, &mut other);
        }
        if sound(&other.packed()).is_ok() {
            return other;
        }
    }
}

fn change_one(random: &mut Random, table: &mut Table) {
    let (outputs, inputs) = (table.outputs(), table.inputs());
    let (output, input) = (random.below(outputs), random.below(inputs));
    match random.below(6) {
        0 => table.output_owner[output] = random.below(table.units),
        1 => table.input_owner[input] = random.below(table.units),
        2 => table.reactive[input] = !table.reactive[input],
        3 => table.source[input] = output,
        4 if !table.feeds.is_empty() => {
            let (one, other) = (random.below(table.feeds.len()), random.below(table.feeds.len()));
            table.feeds.swap(one, other);
        }
        _ if !table.feeds.is_empty() => {
            let feed = random.below(table.feeds.len());
            table.feeds[feed] = (input, output);
        }
        _ => {}
    }
}
