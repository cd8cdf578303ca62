//! The answers of the definitions against those of the reference.

use super::makers::{
    call_number, chain_text, order_for, records, sound, state, table_bytes, text_bytes,
};
use crate::reference::table::{self, Table};
use crate::reference::{as_c, list, order, text, verdict, Answer};
use crate::support::calls::shown;
use crate::support::fuzz::fuzzing;
use crate::support::random::Random;
use crate::support::rounds::{deep, numbers, Tally};
use crate::transcribed::calls::precedes;
use crate::transcribed::firmware::coded;
use crate::transcribed::grammar::reading::reading;
use crate::transcribed::judge::{all_numbered, fresh, taken, Record, Run};
use crate::transcribed::judging::verdict_of;
use crate::transcribed::listing::listing;
use crate::transcribed::pen::decimal;
use crate::transcribed::printing::listed;
use crate::transcribed::search::fronted;
use crate::transcribed::sorter::ordering;
use crate::transcribed::table::{self as packed, checked, shape_of};
use crate::transcribed::text::Answer as Read;

fn answer(answer: packed::Answer) -> Answer {
    Answer { number: answer.number as usize, place: answer.place as usize }
}

/// A lent buffer afterwards: the front that was written, and every other byte as it was.
fn left(random: &mut Random, bytes: &[u64], front: &[u8], room: usize) {
    let before = random.bytes(room);
    let after = [front, &before[front.len()..]].concat();
    assert_eq!(fronted(bytes, &numbers(&before)), numbers(&after));
}

#[test]
fn tables_checked() {
    let ((rounds, mut random), mut tally) = (fuzzing(71), Tally::new("tables checked"));
    for round in 0..rounds {
        let bytes = table_bytes(&mut random, round);
        let given = checked(&numbers(&bytes));
        let expected = table::check(&bytes);
        assert_eq!(answer(given), expected, "check of {:?}", bytes);
        assert_eq!(coded(given), as_c(expected) as u64);
        tally.count(expected.number);
    }
    tally.finish(0..=7, rounds / 4000);
}

#[test]
fn tables_ordered() {
    let ((rounds, mut random), mut tally) = (fuzzing(72), Tally::new("tables ordered"));
    for round in 0..rounds {
        let other = round % 5 == 0;
        let bytes =
            if other { table_bytes(&mut random, round / 5) } else { sound(&mut random).packed() };
        let room = if random.percent(80) { 224 } else { random.below(260) };
        let (expected, front) = order::order(&bytes, room);
        let given = ordering(&numbers(&bytes), room as u64);
        assert_eq!(answer(given.answer), expected, "order of {:?} in {} bytes", bytes, room);
        assert_eq!(given.bytes, numbers(&front), "order of {:?} in {} bytes", bytes, room);
        left(&mut random, &given.bytes, &front, room);
        tally.count(expected.number);
    }
    tally.finish(0..=9, rounds / 4000);
}

/// Is the first call a direct predecessor of the second? Stands in for a function of the reference on two
/// call numbers: it asks the reference's lists of direct predecessors, and all from N on is no call.
fn comes_before(table: &Table, first: usize, second: usize) -> bool {
    second < table.calls() && table.predecessors()[second].contains(&first)
}

#[test]
fn pairs_of_calls() {
    let ((rounds, mut random), mut tally) = (fuzzing(73), Tally::new("pairs of call numbers"));
    let mut table = sound(&mut random);
    for round in 0..rounds {
        if round % 20 == 0 {
            table = sound(&mut random);
        }
        let (first, second) = (call_number(&mut random, &table), call_number(&mut random, &table));
        let bytes = numbers(&table.packed());
        for (first, second) in [(first, second), (second, first)] {
            let expected = comes_before(&table, first, second);
            let given = precedes(&shape_of(&bytes), first as u64, second as u64);
            assert_eq!(given, expected, "{} before {} in {:?}", first, second, bytes);
            tally.count(expected as usize);
        }
    }
    tally.finish(0..=1, rounds / 4000);
}

#[test]
fn orders_judged() {
    let ((rounds, mut random), mut tally) = (fuzzing(74), Tally::new("orders judged"));
    for round in 0..rounds {
        let (table, calls) = order_for(&mut random, round);
        let other = round % 5 == 0;
        let bytes = if other { table_bytes(&mut random, round / 5) } else { table.packed() };
        let expected = verdict::verdict(&bytes, &calls);
        let given = verdict_of(&numbers(&bytes), &numbers(&calls));
        assert_eq!(answer(given), expected, "verdict on {:?} by {:?}", calls, bytes);
        tally.count(expected.number);
    }
    tally.finish((0..=7).chain(11..=18), rounds / 4000);
}

#[test]
fn records_judged() {
    let ((rounds, mut random), mut tally) = (fuzzing(75), Tally::new("lists of records judged"));
    for round in 0..rounds {
        let (table, calls) = order_for(&mut random, round);
        let given = records(&mut random, &table, &calls);
        let other = round % 5 == 0;
        let bytes = if other { table_bytes(&mut random, round / 5) } else { table.packed() };
        let expected = verdict::verdict_of_records(&bytes, &given);
        let t = numbers(&bytes);
        let record =
            |&(kind, number): &(u8, u8)| Record { kind: kind.into(), number: number.into() };
        let list: Vec<Record> = given.iter().map(record).collect();
        let judged = verdict_of(&t, &all_numbered(&shape_of(&t), &list));
        assert_eq!(answer(judged), expected, "verdict on {:?} by {:?}", given, bytes);
        tally.count(expected.number);
    }
    tally.finish((0..=7).chain(11..=18), rounds / 4000);
}

/// One call of a judged run over any bytes. Stands in for a function of the reference on bytes, which takes
/// a call over a sound table: "An unsound table is refused first, by 1 to 7", with the state it had.
fn take(bytes: &[u8], run: verdict::Run, call: usize) -> (verdict::Run, usize) {
    match table::sound(bytes) {
        Ok(table) => run.take(&table, call),
        Err(number) => (run, number),
    }
}

#[test]
fn calls_taken() {
    let ((rounds, mut random), mut tally) = (fuzzing(76), Tally::new("calls taken in any state"));
    assert_eq!(fresh().done, verdict::Run::start().done);
    for round in 0..rounds {
        let (table, done, call) = state(&mut random);
        let other = round % 5 == 0;
        let bytes = if other { table_bytes(&mut random, round / 5) } else { table.packed() };
        let (next, number) = take(&bytes, verdict::Run { done }, call);
        let given = taken(&numbers(&bytes), &Run { done: done.to_vec() }, call as u64);
        assert_eq!(given.number, number as u64, "{} of {:?} after {:?}", call, bytes, done);
        assert_eq!(given.run.done, next.done, "{} of {:?} after {:?}", call, bytes, done);
        tally.count(number);
    }
    tally.finish((0..=7).chain(11..=17), rounds / 4000);
}

fn texts_agree(random: &mut Random, tally: &mut Tally, text: &[u8], room: usize) {
    let (expected, front) = text::read(text, room);
    let given = reading(room as u64, &numbers(text));
    let answer = Read { number: given.number, place: given.place };
    let wanted = Read { number: expected.number as u64, place: expected.place as u64 };
    assert_eq!(answer, wanted, "{} in {}", shown(text), room);
    assert_eq!(given.bytes, numbers(&front), "{} in {}", shown(text), room);
    left(random, &given.bytes, &front, room);
    tally.count(expected.number);
}

#[test]
fn texts_read() {
    deep(|| {
        let ((rounds, mut random), mut tally) = (fuzzing(77), Tally::new("texts read"));
        for round in 0..rounds {
            let text = text_bytes(&mut random, round);
            let room = if random.percent(80) { 644 } else { random.below(200) };
            texts_agree(&mut random, &mut tally, &text, room);
        }
        tally.finish([0].into_iter().chain(20..=34), rounds / 4000);
    });
}

/// As long as the limit, one byte more or less: all of one byte, or that below lines that are taken.
#[test]
fn texts_at_the_limit() {
    deep(|| {
        let ((_, mut random), mut tally) = (fuzzing(78), Tally::new("texts at the limit"));
        for length in [24_575, 24_576, 24_577] {
            for fill in [b'a', b'\n', b'\t', 255] {
                for start in [&b""[..], b"cosim\t1\nunit\ta\n"] {
                    let mut text = start.to_vec();
                    text.resize(length, fill);
                    texts_agree(&mut random, &mut tally, &text, 644);
                    text[length - 1] = b'\n';
                    texts_agree(&mut random, &mut tally, &text, 644);
                }
            }
        }
        tally.finish(20..=24, 4);
    });
}

#[test]
fn texts_listed() {
    deep(|| {
        let ((rounds, mut random), mut tally) = (fuzzing(79), Tally::new("texts listed"));
        for round in 0..rounds / 2 {
            let text = if round % 100 == 99 {
                chain_text(random.between(1, 32), round % 200 == 99)
            } else {
                text_bytes(&mut random, round)
            };
            let room = if random.percent(80) { 10_000 } else { random.below(400) };
            let (expected, front) = list::list(&text, room);
            let given = listed(listing(&numbers(&text)), room as u64);
            assert_eq!(answer(given.answer), expected, "{} in {}", shown(&text), room);
            assert_eq!(given.bytes, numbers(&front), "{} in {}", shown(&text), room);
            left(&mut random, &given.bytes, &front, room);
            tally.count(expected.number);
        }
        tally.finish([0, 34], rounds / 4000);
    });
}

#[test]
fn numbers_in_decimal() {
    let (_, mut random) = fuzzing(80);
    for shift in 0..64 {
        let number = random.next() >> shift;
        assert_eq!(decimal(number), numbers(number.to_string().as_bytes()));
    }
    assert_eq!(decimal(u64::MAX), numbers(u64::MAX.to_string().as_bytes()));
}
