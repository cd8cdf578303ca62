//! The archive's judged run against the reference: any state, any call number, whole lists call by call.

#[path = "../reference/mod.rs"]
#[allow(dead_code)]
mod reference;
mod support;

use reference::verdict::{take, verdict, Run};
use reference::{as_c, refusal, success, table::Table, Answer};
use support::calls::Lender;
use support::damage::damaged;
use support::fuzz;
use support::orders::{near_miss, set_too_early};
use support::random::Random;
use support::tables::{self, acyclic, counts};

fn agree(lender: &mut Lender, table: &[u8], run: Run, call: usize) -> (Run, usize) {
    let expected = take(table, run, call);
    let taken = lender.take(table, run, call);
    assert!(taken == expected, "call {} of {:?} by {:?}", call, run, table);
    expected
}

/// A state: nothing done, a front of the order, or any marks, at N and above too.
fn state(random: &mut Random, calls: &[u8]) -> Run {
    let mut run = Run::start();
    match random.below(4) {
        0 => {}
        1 => {
            let front = random.below(calls.len() + 1);
            calls[..front].iter().for_each(|&call| run.done[call as usize] = true);
        }
        _ => {
            let percent = [2, 30, 70, 98, 100][random.below(5)];
            run.done.iter_mut().for_each(|mark| *mark = random.percent(percent));
        }
    }
    run
}

/// A call number of the table: any, the step of some input's unit, or the get of some output that is fed.
fn of_the_table(random: &mut Random, table: &Table) -> usize {
    match random.below(3) {
        0 if table.inputs() > 0 => {
            table.step(table.input_owner[random.below(table.inputs())])
        }
        1 if !table.feeds.is_empty() => table.get(table.feeds[random.below(table.feeds.len())].1),
        _ => random.below(table.calls()),
    }
}

/// A call number: one of the table's, one at N or above it, or one that a byte would cut to a call.
fn number(random: &mut Random, table: &Table) -> usize {
    let call = of_the_table(random, table);
    match random.below(20) {
        0 => table.calls(),
        1 => random.between(table.calls(), 255.max(table.calls())),
        2 => call + 256 * random.between(1, 3),
        3 => call + (1 << random.between(8, 63)),
        4 => usize::MAX - random.below(300),
        _ => call,
    }
}

#[test]
fn any_state_and_any_number() {
    let (mut random, mut lender) = (Random::new(51), Lender::new());
    let mut reached = [0usize; 19];
    for _ in 0..100_000 {
        let counts = counts(&mut random);
        let (table, calls) = acyclic(&mut random, counts);
        let (run, call) = (state(&mut random, &calls), number(&mut random, &table));
        let (next, answer) = agree(&mut lender, &table.packed(), run, call);
        reached[answer] += 1;
        assert!(answer == 0 || next == run, "a refusal changed the state");
        assert_eq!(answer == 11, call >= table.calls());
    }
    let answers = [0, 11, 12, 13, 14, 15, 16, 17];
    assert!(answers.iter().all(|&answer| reached[answer] >= 500), "{:?}", reached);
}

/// Marks at N and above are kept, and a call there is 11 even where it is marked.
#[test]
fn marks_above_the_calls() {
    let (mut random, mut lender) = (Random::new(52), Lender::new());
    for _ in 0..20_000 {
        let counts = counts(&mut random);
        let (table, calls) = acyclic(&mut random, counts);
        let bytes = table.packed();
        let mut run = Run::start();
        let done = random.below(calls.len());
        calls[..done].iter().for_each(|&call| run.done[call as usize] = true);
        run.done[table.calls()..].iter_mut().for_each(|mark| *mark = true);
        let above = random.between(table.calls(), 223.max(table.calls()));
        assert_eq!(agree(&mut lender, &bytes, run, above), (run, 11));
        let (next, answer) = agree(&mut lender, &bytes, run, calls[done] as usize);
        assert_eq!(answer, 0);
        assert_eq!(next.done[table.calls()..], run.done[table.calls()..]);
    }
}

#[test]
fn unsound_tables_come_first() {
    let (mut random, mut lender) = (Random::new(53), Lender::new());
    let mut reached = [0usize; 19];
    for round in 0..21_000 {
        let counts = counts(&mut random);
        let (table, calls) = acyclic(&mut random, counts);
        if let Some(bytes) = damaged(&mut random, &table, 1 + round % 7, round / 7 % 3) {
            let (run, call) = (state(&mut random, &calls), number(&mut random, &table));
            reached[agree(&mut lender, &bytes, run, call).1] += 1;
        }
    }
    assert!((1..8).all(|number| reached[number] >= 100), "{:?}", reached);
}

/// The verdict on a list, made by the archive's judged run alone.
fn call_by_call(lender: &mut Lender, table: &[u8], calls: &[u8], whole: usize) -> Answer {
    let mut run = Run::start();
    for (place, &call) in calls.iter().enumerate() {
        let (next, number) = agree(lender, table, run, call as usize);
        if number != 0 {
            return refusal(number, if number < 8 { 0 } else { place });
        }
        run = next;
    }
    if calls.len() < whole { refusal(18, calls.len()) } else { success(whole) }
}

#[test]
fn whole_lists_agree_with_the_verdict() {
    let (mut random, mut lender) = (Random::new(54), Lender::new());
    let mut reached = [0usize; 19];
    for round in 0..3_000 {
        let counts = counts(&mut random);
        let (table, calls) = acyclic(&mut random, counts);
        let bytes = table.packed();
        let missed = near_miss(&mut random, &table, &calls, round % 3);
        let early = set_too_early(&mut random, &table, &calls);
        for calls in [calls, missed].into_iter().chain(early) {
            let judged = call_by_call(&mut lender, &bytes, &calls, table.calls());
            assert_eq!(judged, verdict(&bytes, &calls));
            assert_eq!(as_c(judged), lender.verdict(&bytes, &calls));
            reached[judged.number] += 1;
        }
    }
    assert!((11..19).all(|number| reached[number] >= 10), "{:?}", reached);
}

#[test]
fn fuzz_take() {
    let ((rounds, mut random), mut lender) = (fuzz::fuzzing(56), Lender::new());
    for _ in 0..rounds {
        let table = tables::small(&mut random);
        let bytes = if random.percent(50) { fuzz::table(&mut random) } else { table.packed() };
        let calls: Vec<u8> = (0..table.calls()).map(|call| call as u8).collect();
        let (run, call) = (state(&mut random, &calls), number(&mut random, &table));
        agree(&mut lender, &bytes, run, call);
    }
}
