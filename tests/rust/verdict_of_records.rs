//! The archive's verdict on records against the reference: passing lists, near misses, no calls, unsound tables.

#[path = "../reference/mod.rs"]
#[allow(dead_code)]
mod reference;
mod support;

use reference::verdict::{verdict, verdict_of_records};
use reference::{as_c, order::order, Answer};
use support::calls::Lender;
use support::damage::{damaged, mutated};
use support::fuzz;
use support::orders::{near_miss, set_too_early};
use support::random::Random;
use support::records::{as_bytes, changed, no_call, records_of, Record};
use support::tables::{self, acyclic, counts};

fn agree(lender: &mut Lender, table: &[u8], records: &[Record]) -> Answer {
    let expected = verdict_of_records(table, records);
    let answer = lender.verdict_of_records(table, records);
    assert_eq!(answer, as_c(expected), "verdict on {:?} by {:?}", records, table);
    expected
}

/// The records of a list of calls have the verdict of the calls, from the archive too.
fn as_numbered(lender: &mut Lender, table: &[u8], records: &[Record], calls: &[u8]) -> Answer {
    let answer = agree(lender, table, records);
    assert_eq!(answer, verdict(table, calls));
    assert_eq!(as_c(answer), lender.verdict(table, calls));
    answer
}

#[test]
fn first_orders_of_tables_of_every_size() {
    let mut lender = Lender::new();
    for table in tables::corpus() {
        let bytes = table.packed();
        let (answer, calls) = order(&bytes, 224);
        let verdict = as_numbered(&mut lender, &bytes, &records_of(&table, &calls), &calls);
        assert_eq!(verdict.number == 0, answer.number == 0);
    }
}

#[test]
fn near_misses_early_and_late() {
    let (mut random, mut lender) = (Random::new(41), Lender::new());
    let mut reached = [[0usize; 2]; 19];
    for round in 0..40_000 {
        let counts = counts(&mut random);
        let (table, calls) = acyclic(&mut random, counts);
        let bytes = table.packed();
        let early = set_too_early(&mut random, &table, &calls);
        let missed = near_miss(&mut random, &table, &calls, round % 3);
        for calls in early.into_iter().chain([missed]) {
            let answer = as_numbered(&mut lender, &bytes, &records_of(&table, &calls), &calls);
            reached[answer.number][(2 * answer.place >= table.calls()) as usize] += 1;
        }
    }
    for number in 11..=18 {
        assert!(
            reached[number].iter().all(|&count| count >= 50),
            "{} reached {:?}",
            number,
            reached
        );
    }
}

/// Kinds above 2, and numbers at and above the count of their kind: 11 where nothing is refused before.
#[test]
fn records_that_name_no_call() {
    let (mut random, mut lender) = (Random::new(42), Lender::new());
    for _ in 0..20_000 {
        let counts = counts(&mut random);
        let (table, calls) = acyclic(&mut random, counts);
        let bytes = table.packed();
        let mut records = records_of(&table, &calls);
        let place = random.below(records.len());
        records[place] = no_call(&mut random, &table);
        let answer = agree(&mut lender, &bytes, &records);
        assert_eq!((answer.number, answer.place), (11, place));
        agree(&mut lender, &bytes, &changed(&mut random, &table, &records));
    }
}

#[test]
fn long_and_empty_lists() {
    let (mut random, mut lender) = (Random::new(43), Lender::new());
    for _ in 0..6_000 {
        let counts = counts(&mut random);
        let (table, calls) = acyclic(&mut random, counts);
        let bytes = table.packed();
        let empty = agree(&mut lender, &bytes, &[]);
        assert_eq!((empty.number, empty.place), (18, 0));
        let mut records = records_of(&table, &calls);
        let more = random.between(1, 300);
        records.extend((0..more).map(|_| (random.below(4) as u8, random.byte())));
        let answer = agree(&mut lender, &bytes, &records);
        assert_eq!(answer.place, table.calls());
        assert!(answer.number == 11 || answer.number == 12);
    }
}

#[test]
fn unsound_tables_come_first() {
    let (mut random, mut lender) = (Random::new(44), Lender::new());
    let mut reached = [0usize; 19];
    for round in 0..21_000 {
        let counts = counts(&mut random);
        let (table, calls) = acyclic(&mut random, counts);
        if let Some(bytes) = damaged(&mut random, &table, 1 + round % 7, round / 7 % 3) {
            let records = match round % 4 {
                0 => Vec::new(),
                1 => vec![no_call(&mut random, &table)],
                _ => records_of(&table, &calls),
            };
            reached[agree(&mut lender, &bytes, &records).number] += 1;
        }
    }
    assert!((1..8).all(|number| reached[number] >= 100), "{:?}", reached);
}

/// Table and records are stretches of the same bytes, at odd and at even places.
#[test]
fn fuzz_records_on_shared_bytes() {
    let ((rounds, mut random), mut lender) = (fuzz::fuzzing(47), Lender::new());
    for _ in 0..rounds {
        let table = fuzz::table(&mut random);
        let tail: Vec<u8> = fuzz::any_bytes(&mut random, 60).iter().map(|byte| byte % 8).collect();
        let bytes = [&table[..], &tail].concat();
        let from = random.below(bytes.len() + 1);
        let count = random.below((bytes.len() - from) / 2 + 1);
        let pairs = bytes[from..from + 2 * count].chunks(2);
        let records: Vec<Record> = pairs.map(|pair| (pair[0], pair[1])).collect();
        let expected = verdict_of_records(&table, &records);
        let answer = lender.shared_records(&bytes, 0..table.len(), from, count);
        assert_eq!(answer, as_c(expected), "{} records at {} of {:?}", count, from, bytes);
    }
}

#[test]
fn fuzz_verdict_of_records() {
    let ((rounds, mut random), mut lender) = (fuzz::fuzzing(46), Lender::new());
    for _ in 0..rounds {
        let counts = counts(&mut random);
        let (table, calls) = acyclic(&mut random, counts);
        let bytes = if random.percent(30) { fuzz::table(&mut random) } else { table.packed() };
        let records = records_of(&table, &calls);
        let given = match random.below(6) {
            0 => fuzz::any_bytes(&mut random, 600),
            1 => as_bytes(&records),
            2 => as_bytes(&changed(&mut random, &table, &records)),
            _ => mutated(&mut random, &as_bytes(&records)),
        };
        let records: Vec<Record> = given.chunks_exact(2).map(|pair| (pair[0], pair[1])).collect();
        agree(&mut lender, &bytes, &records);
    }
}
