//! The statements that are proved of the definitions, tried: the check, precedence, demand 2, runs, the text.

use super::makers::{call_number, order_for, sound, table_bytes, text_bytes, tiny};
use crate::reference::verdict::verdict;
use crate::support::calls::shown;
use crate::support::fuzz::fuzzing;
use crate::support::rounds::{deep, numbers, Tally};
use crate::transcribed::calls::{precedes, Precedes};
use crate::transcribed::demands::{Given, TellsOrder};
use crate::transcribed::firmware::coded;
use crate::transcribed::grammar::opening::lines_of;
use crate::transcribed::grammar::reading::{reading, stopped};
use crate::transcribed::grammar::rows::{ascii, rows, word};
use crate::transcribed::judge::{answered_at, fresh, TakenInTurn};
use crate::transcribed::judging::{answer, at_end, verdict_from, verdict_of, Passes, Tells};
use crate::transcribed::library::{any, each, length, permutations, take};
use crate::transcribed::orders::{among, met, ready, seen, Keeps, MeetsAgain, Shown};
use crate::transcribed::placing::placed_of;
use crate::transcribed::reading::{
    input_number, numbered, output_number, source_number, unit_number, InOrder, Lined,
};
use crate::transcribed::search::{fronted, none};
use crate::transcribed::sorter::{ordering, OrderOrCycle};
use crate::transcribed::table::{checked, shape_of, total, Sound};

/// The check answers 0 exactly when the table is sound.
#[test]
fn checked_is_sound() {
    let ((rounds, mut random), mut tally) = (fuzzing(81), Tally::new("tables sound or not"));
    for round in 0..rounds {
        let t = numbers(&table_bytes(&mut random, round));
        let number = checked(&t).number;
        assert_eq!(number == 0, Sound(&t), "{:?}", t);
        tally.count(number as usize);
    }
    tally.finish(0..=7, rounds / 4000);
}

/// On a sound table the test holds exactly of the pairs that the five sentences relate.
#[test]
fn precedes_is_declared() {
    let ((rounds, mut random), mut tally) =
        (fuzzing(82), Tally::new("pairs by the five sentences"));
    for _ in 0..rounds / 20 {
        let table = sound(&mut random);
        let t = numbers(&table.packed());
        let s = shape_of(&t);
        for _ in 0..20 {
            let a = call_number(&mut random, &table) as u64;
            for b in 0..total(&s) + 2 {
                let given = precedes(&s, a, b);
                assert_eq!(given, Precedes(&s, a, b), "{} before {} in {:?}", a, b, t);
                tally.count(given as usize);
            }
        }
    }
    tally.finish(0..=1, rounds / 4000);
}

/// What `order` gives keeps the rules and is passed with N; else a cycle is shown, lowest call first, none twice.
#[test]
fn order_given_or_cycle_shown() {
    let ((rounds, mut random), mut tally) =
        (fuzzing(83), Tally::new("orders given or cycles shown"));
    for _ in 0..rounds / 10 {
        let t = numbers(&sound(&mut random).packed());
        let (s, given) = (shape_of(&t), ordering(&t, 224));
        let declared = |a, b| Precedes(&s, a, b);
        if Given(&t, 224) {
            assert_eq!(verdict_of(&t, &given.bytes), answer(0, total(&s)), "{:?}", t);
            assert!(Keeps(total(&s), &declared, &given.bytes), "{:?}", t);
        } else {
            assert!(Shown(total(&s), &declared, &given.bytes), "{:?}", t);
        }
        tally.count(given.answer.number as usize);
    }
    tally.finish([0, 9], rounds / 4000);
}

/// On small tables every permutation is judged, and `order` is held to demand 2 in the declared words.
#[test]
fn every_permutation() {
    let ((rounds, mut random), mut tally) = (fuzzing(84), Tally::new("permutations judged"));
    let mut ordered = Tally::new("small tables, each permutation judged");
    let orders: Vec<Vec<Vec<u64>>> = (0..=7).map(permutations).collect();
    for round in 0..rounds / 20 {
        let bytes = tiny(&mut random, if round % 20 == 0 { 7 } else { 6 }).packed();
        let t = numbers(&bytes);
        let s = shape_of(&t);
        let declared = |a, b| Precedes(&s, a, b);
        let given = ordering(&t, 7);
        assert!(OrderOrCycle(&t, given.answer, take(given.answer.place, &given.bytes)), "{:?}", t);
        let (number, place) = (given.answer.number, given.answer.place);
        let wrong = [&[total(&s)], &given.bytes[1..]].concat();
        assert!(!OrderOrCycle(&t, given.answer, &wrong), "{:?}", t);
        for other in [9 - number, 8] {
            assert!(!OrderOrCycle(&t, answer(other, place), &given.bytes), "{:?}", t);
        }
        ordered.count(given.answer.number as usize);
        for order in &orders[total(&s) as usize] {
            let number = verdict_of(&t, order).number;
            let calls: Vec<u8> = order.iter().map(|&call| call as u8).collect();
            assert_eq!(number as usize, verdict(&bytes, &calls).number, "{:?} by {:?}", calls, t);
            assert_eq!(number == 0, Keeps(total(&s), &declared, order), "{:?} by {:?}", order, t);
            assert_eq!(number == 0, Passes(&s, &none, order), "{:?} by {:?}", order, t);
            tally.count(number as usize);
        }
    }
    ordered.finish([0, 9], rounds / 4000);
    tally.finish([0, 13, 14, 15, 16, 17], rounds / 4000);
}

/// Where no call is ready and one remains the walk meets one call again, and lists what it visits from there on;
/// where none remains it meets none.
#[test]
fn walk_meets_again() {
    let ((rounds, mut random), mut tally) =
        (fuzzing(90), Tally::new("walks that meet a call again"));
    for round in 0..rounds / 5 {
        let t = numbers(&tiny(&mut random, 12).packed());
        let (s, mut placed) = (shape_of(&t), placed_of(&t));
        let count = total(&s);
        if round % 2 == 1 {
            placed.extend((0..count).filter(|_| random.percent(20)));
        }
        let (pred, done) = (|a, b| Precedes(&s, a, b), |c| among(&placed, c));
        let (meets, some) = (MeetsAgain(count, &pred, &done), any(count, &|c| !done(c)));
        if some && each(count, &|c| !ready(count, &pred, &done, c)) {
            assert_eq!(meets.len(), 1, "{:?} placed of {:?}", placed, t);
            let (first, again) = meets[0];
            let visited = seen(count, &pred, &done, again);
            assert_eq!(met(count, &pred, &done), take(again - first, &visited), "{:?}", t);
        }
        assert!(some || meets.is_empty(), "{:?}", t);
        tally.count(meets.len());
    }
    tally.finish(0..=1, rounds / 4000);
}

/// On small tables what C gets and the buffer it lent tell the first order or a cycle; a wrong one does not.
#[test]
fn order_told_to_c() {
    let ((rounds, mut random), mut tally) = (fuzzing(87), Tally::new("orders told to C"));
    for _ in 0..rounds / 20 {
        let t = numbers(&tiny(&mut random, 6).packed());
        let room = total(&shape_of(&t)) as usize + random.below(4);
        let out = numbers(&random.bytes(room));
        let given = ordering(&t, length(&out));
        let (r, mut left) = (coded(given.answer), fronted(&given.bytes, &out));
        assert!(TellsOrder(&t, r, &left), "{} and {:?} of {:?}", r, left, t);
        let wrong = if Given(&t, length(&out)) { 256 * 9 + r } else { total(&shape_of(&t)) };
        assert!(!TellsOrder(&t, wrong, &left), "{} and {:?} of {:?}", wrong, left, t);
        left[random.below(given.bytes.len())] = total(&shape_of(&t));
        assert!(!TellsOrder(&t, r, &left), "{} and {:?} of {:?}", r, left, t);
        tally.count(given.answer.number as usize);
    }
    tally.finish([0, 9], rounds / 4000);
}

/// The number is 0 exactly when the list keeps the rules, else that of the first call whose conditions fail;
/// no other answer is told.
#[test]
fn verdict_tells() {
    let ((rounds, mut random), mut tally) = (fuzzing(85), Tally::new("verdicts told"));
    for round in 0..rounds {
        let (table, calls) = order_for(&mut random, round);
        let (t, l) = (numbers(&table.packed()), numbers(&calls));
        // what is done at a place is asked anew at each, so that long lists take long
        if l.len() > 60 {
            continue;
        }
        let s = shape_of(&t);
        let given = verdict_from(&s, &none, &l, 0);
        let declared = |a, b| Precedes(&s, a, b);
        let place = given.place;
        for told in [answer(0, place), answer(18, place), answer(given.number, place + 1), given] {
            assert_eq!(Tells(&s, &none, &l, 0, told), told == given, "{:?} by {:?}", l, t);
        }
        assert_eq!(given.number == 0, Keeps(total(&s), &declared, &l), "{:?} by {:?}", l, t);
        assert_eq!(given.number == 0, Passes(&s, &none, &l), "{:?} by {:?}", l, t);
        tally.count(given.number as usize);
    }
    tally.finish([0].into_iter().chain(11..=18), rounds / 4000);
}

/// A run takes a list call by call exactly when it passes, else the first refusal is the verdict's.
#[test]
fn taken_in_turn() {
    let ((rounds, mut random), mut tally) = (fuzzing(88), Tally::new("lists taken call by call"));
    assert!(!TakenInTurn(&[], &[]) && verdict_of(&[], &[]).number != 0);
    for round in 0..rounds {
        let (table, calls) = order_for(&mut random, round);
        let other = round % 5 == 0;
        let bytes = if other { table_bytes(&mut random, round / 5) } else { table.packed() };
        let (t, mut l) = (numbers(&bytes), numbers(&calls));
        // the calls before a place are put anew for each, so that long lists take long
        if l.len() > 60 {
            continue;
        }
        if !l.is_empty() && random.percent(20) {
            let place = random.below(l.len());
            l[place] = call_number(&mut random, &table) as u64;
        }
        let verdict = verdict_of(&t, &l);
        assert_eq!(TakenInTurn(&t, &l), verdict.number == 0, "{:?} by {:?}", l, t);
        let answered = |i| answered_at(&t, &fresh(), &l, i);
        match (0..length(&l)).find(|&i| answered(i) != 0) {
            Some(i) => assert_eq!(verdict, answer(answered(i), i), "{:?} by {:?}", l, t),
            None if Sound(&t) => assert_eq!(verdict, at_end(&shape_of(&t), length(&l))),
            None => assert!(l.is_empty()),
        }
        tally.count(verdict.number as usize);
    }
    tally.finish((0..=7).chain(11..=18), rounds / 4000);
}

/// A text that is read gives the sound table of its lines in line order, and no other; a refusal is at the line
/// that is said, and at no other.
#[test]
fn texts_by_their_lines() {
    deep(|| {
        let ((rounds, mut random), mut tally) = (fuzzing(86), Tally::new("texts by their lines"));
        for round in 0..rounds / 2 {
            let text = text_bytes(&mut random, round);
            let t = numbers(&text);
            let room = if random.percent(90) { 644 } else { random.below(100) as u64 };
            let given = reading(room, &t);
            tally.count(given.number as usize);
            if given.number != 0 {
                assert!(Lined(&t, &given), "{}", shown(&text));
                assert!(!Lined(&t, &stopped(given.number, given.place + 1)), "{}", shown(&text));
                continue;
            }
            let fs = rows(&t);
            assert!(Sound(&given.bytes), "{}", shown(&text));
            assert_eq!(given.bytes, numbered(&fs), "{}", shown(&text));
            assert!(InOrder(&fs, &shape_of(&given.bytes)), "{}", shown(&text));
            let mut other = given.bytes.clone();
            other[round % given.bytes.len()] += 1;
            assert!(!InOrder(&fs, &shape_of(&other)), "{}", shown(&text));
            own_numbers(&fs);
        }
        tally.finish([0].into_iter().chain(20..=34), rounds / 4000);
    });
}

/// Each line that declares has its place as its number; each `join` line gives the input the output it names.
fn own_numbers(fs: &[Vec<Vec<u64>>]) {
    for (u, f) in lines_of(fs, &ascii("unit")).iter().enumerate() {
        assert_eq!(unit_number(fs, &word(f, 1)), u as u64);
    }
    for (y, f) in lines_of(fs, &ascii("out")).iter().enumerate() {
        assert_eq!(output_number(fs, &word(f, 1), &word(f, 2)), y as u64);
    }
    for (x, f) in lines_of(fs, &ascii("in")).iter().enumerate() {
        assert_eq!(input_number(fs, &word(f, 1), &word(f, 2)), x as u64);
    }
    for f in lines_of(fs, &ascii("join")) {
        let output = output_number(fs, &word(&f, 1), &word(&f, 2));
        assert_eq!(source_number(fs, &word(&f, 3), &word(&f, 4)), output);
    }
}
