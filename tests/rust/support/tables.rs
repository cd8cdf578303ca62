//! Makers of sound tables: any, acyclic ones with an order, small ones, and the common corpus.

use super::random::Random;
pub use super::shapes::{chain, relabelled, ring};
use crate::reference::table::Table;

/// The counts a table is asked to have; a maker may give fewer feeds.
#[derive(Clone, Copy, Debug)]
pub struct Counts {
    pub units: usize,
    pub outputs: usize,
    pub inputs: usize,
    pub feeds: usize,
}

pub const GREATEST: Counts = Counts { units: 32, outputs: 96, inputs: 96, feeds: 128 };

/// Counts of every size, small ones most often.
pub fn counts(random: &mut Random) -> Counts {
    let (units, ports, feeds) = match random.below(20) {
        0..=11 => (5, 8, 8),
        12..=17 => (16, 30, 40),
        18 => (32, 96, 128),
        _ => return GREATEST,
    };
    let outputs = random.below(ports + 1);
    let inputs = if outputs == 0 { 0 } else { random.below(ports + 1) };
    Counts { units: random.between(1, units), outputs, inputs, feeds: random.below(feeds + 1) }
}

/// Adds feeds within one unit that are taken by the test, up to the count asked.
fn add_feeds(
    random: &mut Random,
    table: &mut Table,
    most: usize,
    taken: impl Fn(usize, usize) -> bool,
) {
    let mut pairs = Vec::new();
    for input in 0..table.inputs() {
        for output in 0..table.outputs() {
            if table.input_owner[input] == table.output_owner[output] && taken(input, output) {
                pairs.push((input, output));
            }
        }
    }
    for place in 0..most.min(pairs.len()) {
        let other = random.between(place, pairs.len() - 1);
        pairs.swap(place, other);
        table.feeds.push(pairs[place]);
    }
}

/// A sound table with these counts, cyclic more often than not when it is large.
pub fn any(random: &mut Random, counts: Counts) -> Table {
    let owners = |random: &mut Random, count: usize| {
        (0..count).map(|_| random.below(counts.units)).collect::<Vec<usize>>()
    };
    let reactive_percent = [0, 5, 20, 50, 100][random.below(5)];
    let mut table = Table {
        units: counts.units,
        output_owner: owners(random, counts.outputs),
        input_owner: owners(random, counts.inputs),
        reactive: (0..counts.inputs).map(|_| random.percent(reactive_percent)).collect(),
        source: (0..counts.inputs).map(|_| random.below(counts.outputs)).collect(),
        feeds: Vec::new(),
    };
    add_feeds(random, &mut table, counts.feeds, |_, _| true);
    table
}

/// A table without a cycle, and one order that keeps its rules, made from a time for each call.
pub fn acyclic(random: &mut Random, counts: Counts) -> (Table, Vec<u8>) {
    const END: usize = 1 << 40;
    let step: Vec<usize> = (0..counts.units).map(|_| random.below(END)).collect();
    let output_owner: Vec<usize> =
        (0..counts.outputs).map(|_| random.below(counts.units)).collect();
    let get: Vec<usize> =
        output_owner.iter().map(|&unit| random.between(step[unit] + 1, END + 1)).collect();
    let mut table = Table {
        units: counts.units,
        output_owner,
        input_owner: Vec::new(),
        reactive: Vec::new(),
        source: Vec::new(),
        feeds: Vec::new(),
    };
    let mut set = Vec::new();
    for _ in 0..counts.inputs {
        let (unit, source) = (random.below(counts.units), random.below(counts.outputs));
        let reactive = get[source] + 1 < step[unit] && random.percent(70);
        let time = if reactive {
            random.between(get[source] + 1, step[unit] - 1)
        } else {
            random.between(get[source].max(step[unit]) + 1, END + 2)
        };
        table.input_owner.push(unit);
        table.reactive.push(reactive);
        table.source.push(source);
        set.push(time);
    }
    add_feeds(random, &mut table, counts.feeds, |input, output| set[input] < get[output]);
    let times: Vec<usize> = step.into_iter().chain(get).chain(set).collect();
    let mut order: Vec<u8> = (0..times.len()).map(|call| call as u8).collect();
    order.sort_by_key(|&call| times[call as usize]);
    (table, order)
}

/// A sound table of any of these makes.
pub fn sound(random: &mut Random) -> Table {
    let counts = counts(random);
    match random.below(10) {
        0..=4 => acyclic(random, counts).0,
        5..=8 => any(random, counts),
        _ => {
            let (units, closed) = (random.between(1, 32), random.percent(50));
            let table = if random.percent(80) { chain(units, closed) } else { ring(units - 1, 96) };
            relabelled(random, &table)
        }
    }
}

/// Counts of a few units and ports.
pub fn few(random: &mut Random) -> Counts {
    let (units, outputs) = (random.between(1, 4), random.below(6));
    let inputs = if outputs == 0 { 0 } else { random.below(6) };
    Counts { units, outputs, inputs, feeds: random.below(5) }
}

/// A sound table, in most cases one of a few units.
pub fn small(random: &mut Random) -> Table {
    if random.percent(10) {
        return sound(random);
    }
    let counts = few(random);
    if random.percent(50) {
        any(random, counts)
    } else {
        acyclic(random, counts).0
    }
}

/// The sound tables that the tests of every function go through: all makes, and all sizes.
pub fn corpus() -> impl Iterator<Item = Table> {
    let makes = (0..30_000).map(|seed| sound(&mut Random::new(1_000_000 + seed)));
    let sizes = (1..=32).flat_map(|units| (0..=96).map(move |ports| (units, ports)));
    makes.chain(sizes.map(|(units, ports)| {
        let counts = Counts { units, outputs: ports, inputs: ports, feeds: 128 };
        any(&mut Random::new((100 * units + ports) as u64), counts)
    }))
}
