//! Chains and rings through all calls, and a table numbered anew.

use super::random::Random;
use crate::reference::table::Table;

/// A chain through all 7 calls of each unit: step, get, set, get, set, get, set, next unit's step.
/// Closed, the last set comes before the first step, and the shown cycle has 3 calls of each unit.
pub fn chain(units: usize, closed: bool) -> Table {
    let mut table = Table {
        units,
        output_owner: Vec::new(),
        input_owner: Vec::new(),
        reactive: Vec::new(),
        source: Vec::new(),
        feeds: Vec::new(),
    };
    for unit in 0..units {
        let first = 3 * unit;
        let next = (unit + 1) % units;
        table.output_owner.extend([unit, unit, unit]);
        table.input_owner.extend([unit, unit, next]);
        table.reactive.extend([false, false, next != 0 || closed]);
        table.source.extend([first, first + 1, first + 2]);
        table.feeds.extend([(first, first + 1), (first + 1, first + 2)]);
    }
    table
}

/// A ring of 2 * ports + k calls: k units that step, and gets and sets of unit 0 joined by feeds.
pub fn ring(k: usize, ports: usize) -> Table {
    let owner: Vec<usize> = (1..=k).chain((k..ports).map(|_| 0)).collect();
    Table {
        units: k + 1,
        output_owner: owner.clone(),
        input_owner: owner,
        reactive: (0..ports).map(|input| input < k).collect(),
        source: (0..ports).map(|input| (input + ports - 1) % ports).collect(),
        feeds: (k..ports).map(|port| (port, port)).collect(),
    }
}

/// The same table with units, outputs and inputs numbered anew and its feeds in another order.
pub fn relabelled(random: &mut Random, table: &Table) -> Table {
    let unit = random.shuffled(table.units);
    let output = random.shuffled(table.outputs());
    let input = random.shuffled(table.inputs());
    let mut other = table.clone();
    for (from, &to) in output.iter().enumerate() {
        other.output_owner[to] = unit[table.output_owner[from]];
    }
    for (from, &to) in input.iter().enumerate() {
        other.input_owner[to] = unit[table.input_owner[from]];
        other.reactive[to] = table.reactive[from];
        other.source[to] = output[table.source[from]];
    }
    for (place, from) in random.shuffled(table.feeds.len()).into_iter().enumerate() {
        let (fed, feeding) = (table.feeds[from].1, table.feeds[from].0);
        other.feeds[place] = (input[feeding], output[fed]);
    }
    other
}
