//! The archive's listing against the reference, byte for byte.

#[path = "../reference/mod.rs"]
#[allow(dead_code)]
mod reference;
mod support;

use reference::{list::list, list::listing, Answer};
use support::calls::{shown, Lender};
use support::faults::faulty;
use support::fuzz;
use support::random::Random;
use support::tables::{self, chain, relabelled, ring};
use support::texts::{bytes, mixed, plain, Names};

fn agree(lender: &mut Lender, random: &mut Random, text: &[u8], room: usize) -> Answer {
    let (expected, front) = list(text, room);
    let before = random.bytes(room);
    let answer = lender.list(text, &before, &front);
    assert_eq!(answer, expected, "list of {} in {} bytes", shown(text), room);
    expected
}

#[test]
fn orders_and_cycles() {
    let (mut random, mut lender) = (Random::new(51), Lender::new());
    let mut reached = [0usize; 2];
    for _ in 0..20_000 {
        let table = tables::small(&mut random);
        let names = Names::random(&mut random, &table);
        let text = bytes(&mixed(&mut random, &table, &names));
        agree(&mut lender, &mut random, &text, 10_000);
        reached[listing(&text).starts_with(b"cycle") as usize] += 1;
    }
    assert!(reached.iter().all(|&count| count >= 1000), "{:?}", reached);
}

#[test]
fn refusals() {
    let (mut random, mut lender) = (Random::new(52), Lender::new());
    for round in 0..28_000 {
        let table = tables::small(&mut random);
        let names = Names::random(&mut random, &table);
        let lines = mixed(&mut random, &table, &names);
        if let Some(text) = faulty(&mut random, &lines, 20 + round % 14, round / 14 % 3) {
            agree(&mut lender, &mut random, &text, 100);
        }
    }
}

#[test]
fn every_buffer_length() {
    let (mut random, mut lender) = (Random::new(53), Lender::new());
    for round in 0..24 {
        let closed = round % 2 == 0;
        let table = relabelled(&mut random, &chain(1 + round, closed));
        let names = Names::random(&mut random, &table);
        let text = bytes(&mixed(&mut random, &table, &names));
        let whole = listing(&text).len();
        for room in (0..whole + 3).filter(|&room| room < 40 || room + 40 > whole || room % 61 == 0)
        {
            assert_eq!(agree(&mut lender, &mut random, &text, room).number == 34, room < whole);
        }
    }
}

/// The longest names and all 224 calls.
#[test]
fn greatest_listing() {
    let (mut random, mut lender) = (Random::new(54), Lender::new());
    for table in [chain(32, false), ring(31, 96)] {
        let text = bytes(&plain(&table, &Names::longest(&table)));
        let answer = agree(&mut lender, &mut random, &text, 10_000);
        assert!(answer.number == 0 && answer.place > 8_000);
    }
}

#[test]
fn fuzz_list() {
    let ((rounds, mut random), mut lender) = (fuzz::fuzzing(55), Lender::new());
    for _ in 0..rounds / 2 {
        let text = fuzz::text(&mut random);
        let room = if random.percent(50) { 10_000 } else { random.below(4_000) };
        agree(&mut lender, &mut random, &text, room);
    }
}
