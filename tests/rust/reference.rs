//! The reference itself: SPECIFICATION, Examples, and answers that must agree with each other.

#[path = "../reference/mod.rs"]
#[allow(dead_code)]
mod reference;
mod support;

use reference::list::listing;
use reference::verdict::{take, verdict, verdict_of_records, Run};
use reference::{order::order, table::check, text::read, Answer};
use support::orders::near_miss;
use support::random::Random;
use support::records::records_of;
use support::tables::{self, acyclic, counts};

const A: &[u8] = &[2, 2, 2, 0, 0, 1, 0, 1, 0, 1, 1, 0];
const C: &[u8] = &[2, 2, 2, 0, 0, 1, 0, 1, 0, 0, 1, 0];
const G: &[u8] = &[2, 2, 2, 1, 0, 1, 0, 1, 0, 0, 1, 0, 1, 1];

fn answer(number: usize, place: usize) -> Answer {
    Answer { number, place }
}

#[test]
fn orders_and_cycles_of_the_document() {
    let shows = |table: &[u8], number: usize, calls: &[u8]| {
        assert_eq!(order(table, 224), (answer(number, calls.len()), calls.to_vec()));
    };
    shows(A, 0, &[0, 2, 5, 1, 3, 4]);
    shows(&[2, 2, 2, 0, 0, 1, 0, 1, 1, 1, 1, 0], 9, &[0, 2, 5, 1, 3, 4]);
    shows(C, 0, &[0, 1, 2, 3, 4, 5]);
    shows(&[2, 2, 2, 2, 0, 1, 0, 1, 0, 0, 1, 0, 0, 0, 1, 1], 9, &[2, 5, 3, 4]);
    shows(G, 0, &[0, 1, 2, 5, 3, 4]);
    shows(&[1, 0, 0, 0], 0, &[0]);
    shows(&[1, 1, 1, 0, 0, 0, 0, 0], 0, &[0, 1, 2]);
    shows(&[1, 1, 1, 0, 0, 0, 1, 0], 9, &[0, 1, 2]);
    shows(&[3, 2, 3, 0, 1, 2, 1, 2, 0, 1, 1, 1, 0, 1, 1], 9, &[2, 4, 6]);
    assert_eq!(order(A, 5), (answer(8, 0), vec![]));
}

#[test]
fn verdicts_of_the_document() {
    let cases: [(&[u8], &[u8], Answer); 13] = [
        (A, &[0, 2, 5, 1, 3, 4], answer(0, 6)),
        (C, &[1, 0, 3, 4, 2, 5], answer(0, 6)),
        (G, &[0, 1, 3], answer(16, 2)),
        (A, &[0, 1], answer(14, 1)),
        (C, &[0, 2, 5, 1], answer(13, 3)),
        (A, &[0, 2, 2], answer(12, 2)),
        (A, &[0, 3], answer(15, 1)),
        (A, &[0, 2, 4], answer(17, 2)),
        (A, &[6], answer(11, 0)),
        (A, &[0, 2, 5, 1, 3], answer(18, 5)),
        (A, &[], answer(18, 0)),
        (A, &[0, 2, 5, 1, 3, 4, 0], answer(12, 6)),
        (&[33, 0, 0, 0], &[], answer(2, 0)),
    ];
    for (table, calls, expected) in cases {
        assert_eq!(verdict(table, calls), expected);
    }
    assert_eq!(verdict_of_records(A, &[(0, 2)]), answer(11, 0));
    assert_eq!(verdict_of_records(A, &[(3, 0)]), answer(11, 0));
}

#[test]
fn checks_of_the_document() {
    assert_eq!(check(&[32, 0, 0, 0]), answer(0, 32));
    assert_eq!(check(&[33, 0, 0, 0]), answer(2, 0));
    assert_eq!(check(&[33, 0, 0, 0, 0]), answer(2, 0));
    assert_eq!(check(&[33, 0, 0]), answer(1, 0));
    assert_eq!(check(&[1, 0, 1, 0, 0, 0, 0]), answer(5, 0));
    assert_eq!(check(&[1, 0, 0, 1, 0, 0]), answer(6, 0));
}

const TEXT: &[u8] = b"cosim\t1\nunit\tpump\nunit\ttank\nout\tpump\tflow\nout\ttank\tlevel\n\
in\tpump\tlevel\tdelayed\nin\ttank\tflow\treactive\njoin\tpump\tflow\ttank\tflow\n\
join\ttank\tlevel\tpump\tlevel\n";

#[test]
fn text_and_listing_of_the_document() {
    assert_eq!(read(TEXT, 12), (answer(0, 12), A.to_vec()));
    assert_eq!(read(TEXT, 11), (answer(34, 0), vec![]));
    let expected = b"order\t6\n0\tstep\tpump\t-\n1\tget\tpump\tflow\n2\tset\ttank\tflow\n\
3\tstep\ttank\t-\n4\tget\ttank\tlevel\n5\tset\tpump\tlevel\n";
    assert_eq!(listing(TEXT), expected.to_vec());
}

/// The readings of the text's refusals, each with the lines below a right first line.
#[test]
fn texts_refused() {
    let refused = |number: usize, line: usize, below: &[&str]| {
        for below in below {
            let text = format!("cosim\t1\n{}", below);
            assert_eq!(read(text.as_bytes(), 644), (answer(number, line), vec![]), "{}", text);
        }
    };
    assert_eq!(read(b"", 644), (answer(20, 0), vec![]));
    assert_eq!(read(b"\n", 644), (answer(23, 1), vec![]));
    refused(21, 3, &["unit A\nunit\ta"]);
    refused(22, 2, &["unit A\n"]);
    refused(24, 2, &["\n", "unit\n", "cosim\t1\n"]);
    refused(25, 2, &["unit\t\n", "unit\tseventeen_letters\n"]);
    refused(26, 3, &["unit\ta\nunit\ta\n"]);
    refused(27, 2, &["in\tb\tx\tdelayed\n"]);
    refused(28, 2, &["in\tb\tx\tmaybe\n"]);
    let unit = "unit\ta\nout\ta\ty\nin\ta\tx\tdelayed\n";
    refused(30, 6, &[&format!("{}join\ta\ty\ta\tx\njoin\ta\ty\ta\tx\n", unit)]);
    refused(31, 4, &[unit]);
    refused(32, 6, &[&format!("{}feed\ta\tx\ty\nfeed\ta\tx\ty\n", unit)]);
    refused(33, 1, &[""]);
}

/// Records and their call numbers get the same verdict.
#[test]
fn records_and_numbers_agree() {
    let mut random = Random::new(61);
    for round in 0..20_000 {
        let counts = counts(&mut random);
        let (table, calls) = acyclic(&mut random, counts);
        let calls = near_miss(&mut random, &table, &calls, round % 3);
        let (bytes, records) = (table.packed(), records_of(&table, &calls));
        assert_eq!(verdict_of_records(&bytes, &records), verdict(&bytes, &calls));
    }
}

/// The readings of a judged run: states that no order leads to, marks above N, wide numbers.
#[test]
fn judged_runs() {
    let run = |calls: &[usize]| {
        let mut run = Run::start();
        calls.iter().for_each(|&call| run.done[call] = true);
        run
    };
    assert_eq!(take(A, run(&[]), 0), (run(&[0]), 0));
    assert_eq!(take(A, run(&[4]), 0), (run(&[4]), 13));
    assert_eq!(take(A, run(&[6, 223]), 6), (run(&[6, 223]), 11));
    assert_eq!(take(A, run(&[6, 223]), 0), (run(&[0, 6, 223]), 0));
    assert_eq!(take(A, run(&[]), 256), (run(&[]), 11));
    assert_eq!(take(A, run(&[]), usize::MAX), (run(&[]), 11));
    assert_eq!(take(&A[..11], run(&[]), 6), (run(&[]), 1));
}

/// The five sentences as a test of two calls, and as lists of predecessors.
#[test]
fn precedence_both_ways() {
    for table in tables::corpus().step_by(301) {
        let before = table.predecessors();
        for (second, listed) in before.iter().enumerate() {
            let found: Vec<usize> =
                (0..table.calls()).filter(|&first| table.precedes(first, second)).collect();
            assert_eq!(&found, listed);
        }
        assert!(!table.precedes(table.calls(), 0) && !table.precedes(0, table.calls()));
    }
}
