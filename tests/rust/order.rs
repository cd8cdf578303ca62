//! The archive's order against the reference: answers, bytes written, bytes left alone.

#[path = "../reference/mod.rs"]
#[allow(dead_code)]
mod reference;
mod support;

use reference::table::Table;
use reference::{as_c, order::order, Answer};
use support::calls::Lender;
use support::damage::damaged;
use support::fuzz;
use support::random::Random;
use support::tables::{self, acyclic, any, chain, counts, relabelled, ring, GREATEST};

fn agree(lender: &mut Lender, random: &mut Random, bytes: &[u8], room: usize) -> Answer {
    let (expected, front) = order(bytes, room);
    let before = random.bytes(room);
    let answer = lender.order(bytes, &before, &front);
    assert_eq!(answer, as_c(expected), "order of {:?} in {} bytes", bytes, room);
    expected
}

#[test]
fn sound_tables_of_every_size() {
    let (mut random, mut lender) = (Random::new(20), Lender::new());
    for table in tables::corpus() {
        let answer = agree(&mut lender, &mut random, &table.packed(), 224);
        assert!(answer.number == 0 || answer.number == 9);
    }
}

#[test]
fn tables_without_a_cycle() {
    let (mut random, mut lender) = (Random::new(21), Lender::new());
    for _ in 0..30_000 {
        let counts = counts(&mut random);
        let (table, _) = acyclic(&mut random, counts);
        let room = table.calls() + random.below(3);
        let answer = agree(&mut lender, &mut random, &table.packed(), room);
        assert_eq!((answer.number, answer.place), (0, table.calls()));
    }
}

#[test]
fn tables_with_and_without_cycles() {
    let (mut random, mut lender) = (Random::new(22), Lender::new());
    let mut reached = [0usize; 19];
    for round in 0..40_000 {
        let counts = counts(&mut random);
        let table = any(&mut random, counts);
        let room = if round % 8 == 0 { random.below(table.calls() + 4) } else { 224 };
        reached[agree(&mut lender, &mut random, &table.packed(), room).number] += 1;
    }
    assert!([0, 8, 9].iter().all(|&number| reached[number] >= 1000), "{:?}", reached);
}

#[test]
fn damaged_tables_leave_the_buffer() {
    let (mut random, mut lender) = (Random::new(23), Lender::new());
    let mut reached = [0usize; 19];
    for round in 0..21_000 {
        let table = tables::sound(&mut random);
        if let Some(bytes) = damaged(&mut random, &table, 1 + round % 7, round / 7 % 3) {
            let room = random.below(300);
            reached[agree(&mut lender, &mut random, &bytes, room).number] += 1;
        }
    }
    assert!((1..8).all(|number| reached[number] >= 100), "{:?}", reached);
}

#[test]
fn every_buffer_length() {
    let (mut random, mut lender) = (Random::new(24), Lender::new());
    for round in 0..60 {
        let table =
            if round % 20 == 0 { any(&mut random, GREATEST) } else { tables::sound(&mut random) };
        for room in 0..table.calls() + 4 {
            let answer = agree(&mut lender, &mut random, &table.packed(), room);
            assert_eq!(answer.number == 8, room < table.calls());
        }
    }
}

#[test]
fn chains_and_rings_of_all_calls() {
    let (mut random, mut lender) = (Random::new(25), Lender::new());
    for units in 1..=32 {
        for _ in 0..40 {
            let open = relabelled(&mut random, &chain(units, false));
            let answer = agree(&mut lender, &mut random, &open.packed(), 224);
            assert_eq!((answer.number, answer.place), (0, 7 * units));
            let ring = relabelled(&mut random, &chain(units, true));
            let answer = agree(&mut lender, &mut random, &ring.packed(), 224);
            assert_eq!((answer.number, answer.place), (9, 3 * units));
        }
    }
}

/// Rings of 190 to 223 calls, half of them with a unit that only waits behind the cycle.
#[test]
fn long_rings() {
    let (mut random, mut lender) = (Random::new(26), Lender::new());
    for round in 0..2_000 {
        let (k, tail) = (round / 2 % 31, round % 2 == 0);
        let ports = if tail { 95 } else { 96 };
        let mut table = ring(k, ports);
        if tail {
            add_a_tail(&mut table);
        }
        let table = relabelled(&mut random, &table);
        let answer = agree(&mut lender, &mut random, &table.packed(), 224);
        assert_eq!((answer.number, answer.place), (9, 2 * ports + k));
    }
    let answer = agree(&mut lender, &mut random, &ring(31, 96).packed(), 224);
    assert_eq!((answer.number, answer.place), (9, 223));
}

/// One more unit, which waits for a reactive input from the ring and that nobody reads from.
fn add_a_tail(table: &mut Table) {
    table.input_owner.push(table.units);
    table.reactive.push(true);
    table.source.push(0);
    table.units += 1;
}

/// The first and last calls of the words of 64 bits, and the last call of all.
const WORD_ENDS: [usize; 7] = [63, 64, 127, 128, 191, 192, 223];

/// Each is the lowest ready call at some place: the only one that is ready, and with others above it.
#[test]
fn lowest_ready_calls_at_word_ends() {
    let (mut random, mut lender) = (Random::new(28), Lender::new());
    let (mut alone, mut among) = ([0usize; 224], [0usize; 224]);
    for round in 0..1_000 {
        let table = if round % 4 == 0 {
            relabelled(&mut random, &chain(32, false))
        } else {
            acyclic(&mut random, GREATEST).0
        };
        let answer = agree(&mut lender, &mut random, &table.packed(), 224);
        assert_eq!((answer.number, answer.place), (0, 224));
        for ready in ready_in_turn(&table) {
            let reached = if ready.len() == 1 { &mut alone } else { &mut among };
            reached[ready[0]] += 1;
        }
    }
    assert!(WORD_ENDS.iter().all(|&call| alone[call] >= 100), "{:?}", alone);
    assert!(WORD_ENDS[..6].iter().all(|&call| among[call] >= 100), "{:?}", among);
}

/// The calls that are ready at each place of the reference's order, lowest first.
fn ready_in_turn(table: &Table) -> Vec<Vec<usize>> {
    let before = table.predecessors();
    let mut placed = vec![false; before.len()];
    let (_, front) = order(&table.packed(), before.len());
    let at_place = |call: u8| {
        let is_ready =
            |call: &usize| !placed[*call] && before[*call].iter().all(|&other| placed[other]);
        let ready: Vec<usize> = (0..before.len()).filter(is_ready).collect();
        assert_eq!(ready[0], call as usize);
        placed[call as usize] = true;
        ready
    };
    front.into_iter().map(at_place).collect()
}

#[test]
fn fuzz_order() {
    let ((rounds, mut random), mut lender) = (fuzz::fuzzing(27), Lender::new());
    for _ in 0..rounds {
        let bytes = fuzz::table(&mut random);
        let room = if random.percent(70) { 224 } else { random.below(260) };
        agree(&mut lender, &mut random, &bytes, room);
    }
}
