//! Inputs for the painted stack: great and small tables, orders, runs and texts, and each refusal.

use crate::support::damage::damaged;
use crate::support::faults::faulty;
use crate::support::orders::{near_miss, set_too_early};
use crate::support::random::Random;
use crate::support::records::{as_bytes, records_of};
use crate::support::several::{many_faults, one_more};
use crate::support::tables::{acyclic, any, counts, relabelled, ring, small, sound, GREATEST};
use crate::support::texts::{bytes, mixed, plain, Names};

/// What a function takes beside the buffer that it reads.
pub enum Beside {
    Buffer(Vec<u8>),
    Records(Vec<u8>),
    Run(Vec<u8>, usize),
    Calls(usize, usize),
}

pub struct Input {
    pub table: Vec<u8>,
    pub beside: Beside,
}

/// The numbers that the inputs of an export must reach.
pub fn numbers(export: &str) -> Vec<usize> {
    match export {
        "check" => (0..8).collect(),
        "order" => (0..10).collect(),
        "verdict" | "verdict_of_records" => (0..8).chain(11..19).collect(),
        "take" => (0..8).chain(11..18).collect(),
        "precedes" => vec![0, 1],
        "read" => std::iter::once(0).chain(20..35).collect(),
        _ => vec![0, 34],
    }
}

pub fn of(export: &str) -> Vec<Input> {
    let mut random = Random::new(91);
    match export {
        "check" | "order" => tables(&mut random),
        "verdict" | "verdict_of_records" => orders(&mut random, export == "verdict_of_records"),
        "take" => runs(&mut random),
        "precedes" => pairs(&mut random),
        _ => texts(&mut random),
    }
}

fn with_room(table: Vec<u8>, room: usize) -> Input {
    Input { table, beside: Beside::Buffer(vec![0; room]) }
}

fn tables(random: &mut Random) -> Vec<Input> {
    let mut inputs = Vec::new();
    for round in 0..3_000 {
        let table = match round % 4 {
            0 => any(random, GREATEST),
            1 => relabelled(random, &ring(round % 32, 96)),
            _ => sound(random),
        };
        let room = if round % 5 == 0 { random.below(224) } else { 224 };
        inputs.push(with_room(table.packed(), room));
        let broken = damaged(random, &table, 1 + round % 7, round / 7 % 3);
        inputs.extend(broken.map(|bytes| with_room(bytes, 224)));
    }
    inputs
}

/// Orders that pass and that do not, as bytes or as records.
fn orders(random: &mut Random, as_records: bool) -> Vec<Input> {
    let mut inputs = Vec::new();
    for round in 0..3_000 {
        let counts = if round % 3 == 0 { GREATEST } else { counts(random) };
        let (table, calls) = acyclic(random, counts);
        let given = |calls: &[u8]| match as_records {
            true => Beside::Records(as_bytes(&records_of(&table, calls))),
            false => Beside::Buffer(calls.to_vec()),
        };
        let broken = damaged(random, &table, 1 + round % 7, round / 7 % 3);
        inputs.extend(broken.map(|bytes| Input { table: bytes, beside: given(&calls) }));
        let mut judged = vec![near_miss(random, &table, &calls, round % 3)];
        judged.extend(set_too_early(random, &table, &calls));
        judged.push(calls.clone());
        let input = |calls: &Vec<u8>| Input { table: table.packed(), beside: given(calls) };
        inputs.extend(judged.iter().map(input));
    }
    inputs
}

/// Any state and any call, over sound tables and damaged ones.
fn runs(random: &mut Random) -> Vec<Input> {
    let mut inputs = Vec::new();
    for round in 0..6_000 {
        let counts = if round % 3 == 0 { GREATEST } else { counts(random) };
        let (table, calls) = acyclic(random, counts);
        let percent = [0, 10, 50, 90][random.below(4)];
        let mut run: Vec<u8> = (0..224).map(|_| random.percent(percent) as u8).collect();
        let mut call = random.below(table.calls() + 2);
        if round % 2 == 0 {
            let done = random.below(calls.len());
            run.fill(0);
            calls[..done].iter().for_each(|&call| run[call as usize] = 1);
            call = calls[done] as usize;
        }
        let broken = damaged(random, &table, 1 + round % 7, round / 7 % 3);
        let input = |table: Vec<u8>| Input { table, beside: Beside::Run(run.clone(), call) };
        inputs.extend(broken.into_iter().chain([table.packed()]).map(input));
    }
    inputs
}

/// Any two calls, and a call with one of its predecessors.
fn pairs(random: &mut Random) -> Vec<Input> {
    let mut inputs = Vec::new();
    for _ in 0..3_000 {
        let table = sound(random);
        let second = random.below(table.calls() + 1);
        let any = random.below(table.calls() + 1);
        let before = table.predecessors().get(second).and_then(|before| before.first().copied());
        for first in before.into_iter().chain([any]) {
            inputs.push(Input { table: table.packed(), beside: Beside::Calls(first, second) });
        }
    }
    inputs
}

fn texts(random: &mut Random) -> Vec<Input> {
    let mut inputs = Vec::new();
    for round in 0..1_500 {
        let table = if round % 8 == 0 { any(random, GREATEST) } else { small(random) };
        let names = Names::random(random, &table);
        let lines = mixed(random, &table, &names);
        let room = if round % 5 == 0 { random.below(600) } else { 10_000 };
        inputs.push(with_room(bytes(&lines), room));
        inputs.push(with_room(many_faults(random, &lines), 10_000));
        let broken = faulty(random, &lines, 20 + round % 14, round / 14 % 3);
        inputs.extend(broken.map(|text| with_room(text, 10_000)));
        if round % 8 == 0 {
            let more = one_more(random, &lines, round % 3);
            inputs.extend(more.map(|text| with_room(text, 10_000)));
        }
    }
    let greatest = any(random, GREATEST);
    inputs.push(with_room(bytes(&plain(&greatest, &Names::longest(&greatest))), 10_000));
    inputs
}
