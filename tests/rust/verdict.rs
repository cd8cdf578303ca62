//! The archive's verdict against the reference: passing orders, near misses, unsound tables.

#[path = "../reference/mod.rs"]
#[allow(dead_code)]
mod reference;
mod support;

use reference::{as_c, order::order, verdict::verdict, Answer};
use support::calls::Lender;
use support::damage::{damaged, mutated};
use support::fuzz;
use support::orders::{near_miss, set_too_early};
use support::random::Random;
use support::tables::{self, acyclic, counts};

fn agree(lender: &mut Lender, table: &[u8], calls: &[u8]) -> Answer {
    let expected = verdict(table, calls);
    let answer = lender.verdict(table, calls);
    assert_eq!(answer, as_c(expected), "verdict on {:?} by {:?}", calls, table);
    expected
}

#[test]
fn first_orders_of_tables_of_every_size() {
    let mut lender = Lender::new();
    for table in tables::corpus() {
        let bytes = table.packed();
        let (answer, calls) = order(&bytes, 224);
        let verdict = agree(&mut lender, &bytes, &calls);
        assert_eq!(verdict.number == 0, answer.number == 0);
    }
}

#[test]
fn orders_that_pass() {
    let (mut random, mut lender) = (Random::new(31), Lender::new());
    let mut not_the_first = 0;
    for _ in 0..25_000 {
        let counts = counts(&mut random);
        let (table, calls) = acyclic(&mut random, counts);
        let bytes = table.packed();
        let first = order(&bytes, 224).1;
        for calls in [&calls, &first] {
            let answer = agree(&mut lender, &bytes, calls);
            assert_eq!((answer.number, answer.place), (0, table.calls()));
        }
        not_the_first += (calls != first) as usize;
    }
    assert!(not_the_first >= 10_000, "only {} orders are not the first", not_the_first);
}

#[test]
fn near_misses_early_and_late() {
    let (mut random, mut lender) = (Random::new(32), Lender::new());
    let mut reached = [[0usize; 2]; 19];
    for round in 0..80_000 {
        let counts = counts(&mut random);
        let (table, calls) = acyclic(&mut random, counts);
        let bytes = table.packed();
        let changed = near_miss(&mut random, &table, &calls, round % 3);
        let answer = agree(&mut lender, &bytes, &changed);
        reached[answer.number][(2 * answer.place >= table.calls()) as usize] += 1;
        if let Some(changed) = set_too_early(&mut random, &table, &calls) {
            let answer = agree(&mut lender, &bytes, &changed);
            reached[answer.number][(2 * answer.place >= table.calls()) as usize] += 1;
        }
    }
    for number in 11..=18 {
        assert!(
            reached[number].iter().all(|&count| count >= 50),
            "{} reached {:?}",
            number,
            reached
        );
    }
}

#[test]
fn long_and_empty_orders() {
    let (mut random, mut lender) = (Random::new(33), Lender::new());
    for _ in 0..6_000 {
        let counts = counts(&mut random);
        let (table, mut calls) = acyclic(&mut random, counts);
        let bytes = table.packed();
        let empty = agree(&mut lender, &bytes, &[]);
        assert_eq!((empty.number, empty.place), (18, 0));
        let more = random.between(1, 300);
        calls.extend(random.bytes(more));
        let answer = agree(&mut lender, &bytes, &calls);
        assert_eq!(answer.place, table.calls());
        assert!(answer.number == 11 || answer.number == 12);
    }
}

#[test]
fn unsound_tables_come_first() {
    let (mut random, mut lender) = (Random::new(34), Lender::new());
    let mut reached = [0usize; 19];
    for round in 0..21_000 {
        let counts = counts(&mut random);
        let (table, calls) = acyclic(&mut random, counts);
        if let Some(bytes) = damaged(&mut random, &table, 1 + round % 7, round / 7 % 3) {
            let calls = if round % 4 == 0 { Vec::new() } else { calls };
            reached[agree(&mut lender, &bytes, &calls).number] += 1;
        }
    }
    assert!((1..8).all(|number| reached[number] >= 100), "{:?}", reached);
}

#[test]
fn any_list_of_calls_over_any_sound_table() {
    let (mut random, mut lender) = (Random::new(35), Lender::new());
    for _ in 0..30_000 {
        let table = tables::sound(&mut random);
        let calls = random.shuffled(table.calls());
        let calls: Vec<u8> = calls.into_iter().map(|call| call as u8).collect();
        agree(&mut lender, &table.packed(), &calls);
    }
}

/// Table and order are stretches of the same bytes, and often the order begins with the table's end.
#[test]
fn fuzz_verdict_on_shared_bytes() {
    let ((rounds, mut random), mut lender) = (fuzz::fuzzing(37), Lender::new());
    let mut passed = 0;
    for _ in 0..rounds {
        let table = fuzz::table(&mut random);
        let calls = order(&table, 224).1;
        let meets = |&count: &usize| table.ends_with(&calls[..count]);
        let common = (0..=calls.len()).rev().find(meets).unwrap_or(0);
        let bytes = [&table[..], &calls[common..]].concat();
        let whole = random.percent(50);
        let from = if whole { table.len() - common } else { random.below(bytes.len() + 1) };
        let to = if whole { bytes.len() } else { random.between(from, bytes.len()) };
        let expected = verdict(&table, &bytes[from..to]);
        let answer = lender.shared_verdict(&bytes, 0..table.len(), from..to);
        assert_eq!(answer, as_c(expected), "{:?} of {:?} by {:?}", from..to, bytes, table);
        passed += (whole && common > 0 && expected.number == 0) as usize;
    }
    assert!(passed >= rounds / 100, "only {} passed", passed);
}

#[test]
fn fuzz_verdict() {
    let ((rounds, mut random), mut lender) = (fuzz::fuzzing(36), Lender::new());
    for _ in 0..rounds {
        let counts = counts(&mut random);
        let (table, calls) = acyclic(&mut random, counts);
        let bytes = if random.percent(30) { fuzz::table(&mut random) } else { table.packed() };
        let calls = match random.below(6) {
            0 => fuzz::any_bytes(&mut random, 300),
            1 => calls,
            _ => mutated(&mut random, &calls),
        };
        agree(&mut lender, &bytes, &calls);
    }
}
