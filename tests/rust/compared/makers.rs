//! Inputs for the definitions: tables, orders, records, states, call numbers, texts.

use crate::reference::calls::Call;
use crate::reference::order::order;
use crate::reference::table::Table;
use crate::support::damage::{damaged, mutated};
use crate::support::faults::faulty;
use crate::support::fuzz;
use crate::support::orders::near_miss;
use crate::support::random::Random;
use crate::support::several::{many_faults, one_more, one_more_feed};
use crate::support::tables::{self, acyclic, any, chain, counts, Counts, GREATEST};
use crate::support::texts::{bytes, mixed, plain, Names};

/// A sound table: a small one, one of any size, one of the greatest.
pub fn sound(random: &mut Random) -> Table {
    match random.below(100) {
        0 => any(random, GREATEST),
        1 => acyclic(random, GREATEST).0,
        2..=21 => tables::sound(random),
        _ => tables::small(random),
    }
}

/// A sound table of few calls, with and without cycles.
pub fn tiny(random: &mut Random, most: usize) -> Table {
    let calls = if random.percent(20) { random.between(1, most) } else { most };
    let units = random.between(1, calls.min(3));
    let outputs = random.below(calls - units + 1);
    let inputs = if outputs == 0 { 0 } else { calls - units - outputs };
    let counts = Counts { units, outputs, inputs, feeds: random.below(5) };
    if random.percent(50) {
        any(random, counts)
    } else {
        acyclic(random, counts).0
    }
}

/// The bytes of a table: sound, damaged for each number in turn, or any.
pub fn table_bytes(random: &mut Random, round: usize) -> Vec<u8> {
    match round % 10 {
        0 | 1 => sound(random).packed(),
        2 => fuzz::table(random),
        3 => {
            let bytes = sound(random).packed();
            mutated(random, &bytes)
        }
        _ => loop {
            let table = sound(random);
            if let Some(bytes) = damaged(random, &table, 1 + round % 7, round / 7 % 3) {
                return bytes;
            }
        },
    }
}

/// A call number: most often a call, else near N, or one that a byte cannot hold.
pub fn call_number(random: &mut Random, table: &Table) -> usize {
    let call = random.below(table.calls());
    match random.below(12) {
        0 => table.calls() + random.below(3),
        1 => random.below(260),
        2 => call + 256 * random.between(1, 3),
        3 => (random.next() as usize) >> random.below(64),
        _ => call,
    }
}

/// A table without a cycle, in most cases a small one, and an order that keeps its rules.
pub fn passing(random: &mut Random) -> (Table, Vec<u8>) {
    let counts = if random.percent(70) { tables::few(random) } else { counts(random) };
    acyclic(random, counts)
}

/// A call and a direct predecessor, by one of the five rules that the table has a case of.
fn some_rule(random: &mut Random, table: &Table) -> Option<(u8, u8)> {
    let kind = |call: usize| (call >= table.get(0)) as usize + (call >= table.set(0)) as usize;
    let mut rules: [Vec<(u8, u8)>; 9] = Default::default();
    for (second, before) in table.predecessors().into_iter().enumerate() {
        for first in before {
            rules[3 * kind(first) + kind(second)].push((first as u8, second as u8));
        }
    }
    let rules: Vec<_> = rules.into_iter().filter(|cases| !cases.is_empty()).collect();
    let cases = rules.get(random.below(rules.len().max(1)))?;
    Some(cases[random.below(cases.len())])
}

/// The order with a call brought before one of its direct predecessors.
fn too_early(random: &mut Random, table: &Table, order: &[u8]) -> Vec<u8> {
    let mut order = order.to_vec();
    if let Some((first, second)) = some_rule(random, table) {
        order.retain(|&call| call != second);
        let place = order.iter().position(|&call| call == first).expect("in the order");
        order.insert(place, second);
    }
    order
}

/// A table and an order for it: passing, nearly passing, passing but for the kind of one input, any.
pub fn order_for(random: &mut Random, round: usize) -> (Table, Vec<u8>) {
    let (mut table, calls) = passing(random);
    if round % 9 == 8 && table.inputs() > 0 {
        let reactive = table.reactive.iter().position(|&reactive| reactive);
        table.reactive[reactive.unwrap_or(0)] ^= true;
        return (table, calls);
    }
    let calls = match round % 9 {
        0 => calls,
        1 => order(&table.packed(), 224).1,
        2 => random.shuffled(table.calls()).into_iter().map(|call| call as u8).collect(),
        3 => fuzz::any_bytes(random, 300),
        4 => mutated(random, &calls),
        5 => near_miss(random, &table, &calls, round / 8 % 3),
        _ => too_early(random, &table, &calls),
    };
    (table, calls)
}

/// What is no call as a record: a kind above 2, or a number not below its count.
fn no_record(random: &mut Random, table: &Table) -> (u8, u8) {
    let kind = random.below(4);
    match [table.units, table.outputs(), table.inputs()].get(kind) {
        Some(&count) => (kind as u8, random.between(count, 255) as u8),
        None => (random.between(3, 255) as u8, random.byte()),
    }
}

/// The records of a list of calls, now and then with any record in one place.
pub fn records(random: &mut Random, table: &Table, calls: &[u8]) -> Vec<(u8, u8)> {
    let mut record = |&call: &u8| match table.call(call as usize) {
        Some(Call::Step(unit)) => (0, unit as u8),
        Some(Call::Get(output)) => (1, output as u8),
        Some(Call::Set(input)) => (2, input as u8),
        None => no_record(random, table),
    };
    let mut records: Vec<(u8, u8)> = calls.iter().map(&mut record).collect();
    if !records.is_empty() && random.percent(20) {
        let place = random.below(records.len());
        records[place] = (random.byte() % 5, random.byte() % 100);
    }
    records
}

/// Which calls are done: any, nearly none, nearly all.
fn marks(random: &mut Random) -> [bool; 224] {
    let share = [0, 3, 50, 97, 100][random.below(5)];
    [(); 224].map(|_| random.percent(share))
}

/// A table, which calls are done, and a call: any, or its turn in a passing order but for one of its rules.
pub fn state(random: &mut Random) -> (Table, [bool; 224], usize) {
    let (table, calls) = passing(random);
    let rule = some_rule(random, &table);
    let (first, second) = match rule {
        Some(rule) if random.percent(50) => rule,
        _ => return (table.clone(), marks(random), call_number(random, &table)),
    };
    let mut done = [false; 224];
    let call = if random.percent(50) { first } else { second };
    calls.iter().take_while(|&&other| other != call).for_each(|&other| done[other as usize] = true);
    done[(first ^ second ^ call) as usize] ^= true;
    (table, done, call as usize)
}

/// A text of the greatest counts, whole, damaged, or with one line too many.
fn greatest_text(random: &mut Random, round: usize) -> Vec<u8> {
    let table = any(random, GREATEST);
    let longest = random.percent(30);
    let names = if longest { Names::longest(&table) } else { Names::random(random, &table) };
    let lines = mixed(random, &table, &names);
    let whole = bytes(&lines);
    match random.below(4) {
        0 => whole,
        1 => mutated(random, &whole),
        2 => one_more(random, &lines, round % 3).unwrap_or(whole),
        _ => one_more_feed(&table, &names).unwrap_or(whole),
    }
}

/// The text of a chain or a ring through all calls of so many units, under the longest names.
pub fn chain_text(units: usize, closed: bool) -> Vec<u8> {
    let table = chain(units, closed);
    bytes(&plain(&table, &Names::longest(&table)))
}

/// A text: a table written out, faults of each kind in turn, any bytes, and now and then one of the greatest.
pub fn text_bytes(random: &mut Random, round: usize) -> Vec<u8> {
    if round % 40 == 0 {
        return greatest_text(random, round);
    }
    let table = tables::small(random);
    let names = Names::random(random, &table);
    let lines =
        if random.percent(20) { plain(&table, &names) } else { mixed(random, &table, &names) };
    let whole = bytes(&lines);
    match random.below(8) {
        0 | 1 => whole,
        2 => fuzz::text(random),
        3 => mutated(random, &whole),
        4 => many_faults(random, &lines),
        _ => faulty(random, &lines, 20 + round % 14, round / 14 % 3).unwrap_or(whole),
    }
}
