//! The archive's precedence against the reference: all pairs of calls, numbers that are no call, any bytes.

#[path = "../reference/mod.rs"]
#[allow(dead_code)]
mod reference;
mod support;

use reference::table::{sound, Table};
use support::calls::Lender;
use support::fuzz;
use support::random::Random;
use support::tables::{self, small};

fn agree(lender: &mut Lender, table: &Table, bytes: &[u8], first: usize, second: usize) -> bool {
    let expected = table.precedes(first, second);
    let answer = lender.precedes(bytes, first, second);
    assert_eq!(answer, expected, "{} before {} by {:?}", first, second, bytes);
    expected
}

/// Every pair of numbers up to two past the last call.
#[test]
fn all_pairs_of_small_tables() {
    let (mut random, mut lender) = (Random::new(71), Lender::new());
    let (mut pairs, mut yes) = (0, 0);
    while pairs < 150_000 {
        let table = small(&mut random);
        if table.calls() > 40 {
            continue;
        }
        let (bytes, most) = (table.packed(), table.calls() + 2);
        for (first, second) in (0..most * most).map(|pair| (pair / most, pair % most)) {
            yes += agree(&mut lender, &table, &bytes, first, second) as usize;
            pairs += 1;
        }
    }
    assert!(yes >= 5_000, "only {} pairs precede", yes);
}

/// Each direct predecessor of each call of tables of every size, and a call that is none.
#[test]
fn predecessors_of_tables_of_every_size() {
    let (mut random, mut lender) = (Random::new(72), Lender::new());
    for table in tables::corpus().step_by(13) {
        let bytes = table.packed();
        for (second, before) in table.predecessors().iter().enumerate() {
            for &first in before {
                assert!(agree(&mut lender, &table, &bytes, first, second));
            }
            let first = random.below(table.calls());
            assert_eq!(agree(&mut lender, &table, &bytes, first, second), before.contains(&first));
        }
    }
}

/// Numbers at N and above, and such as a byte would cut to a call.
#[test]
fn numbers_that_are_no_call() {
    let (mut random, mut lender) = (Random::new(73), Lender::new());
    for _ in 0..20_000 {
        let table = tables::sound(&mut random);
        let (bytes, calls) = (table.packed(), table.calls());
        let none = match random.below(4) {
            0 => calls + random.below(40),
            1 => random.below(calls) + 256 * random.between(1, 3),
            2 => random.below(calls) + (1 << random.between(8, 63)),
            _ => usize::MAX - random.below(300),
        };
        let call = random.below(calls);
        assert!(!agree(&mut lender, &table, &bytes, none, call));
        assert!(!agree(&mut lender, &table, &bytes, call, none));
        assert!(!agree(&mut lender, &table, &bytes, none, none));
    }
}

/// Any bytes are answered, the same each time; a sound table by the reference.
#[test]
fn fuzz_precedes() {
    let ((rounds, mut random), mut lender) = (fuzz::fuzzing(76), Lender::new());
    for _ in 0..rounds {
        let bytes = fuzz::table(&mut random);
        let number = |random: &mut Random| match random.below(8) {
            0 => usize::MAX - random.below(300),
            _ => random.below(260),
        };
        let (first, second) = (number(&mut random), number(&mut random));
        let answer = lender.precedes(&bytes, first, second);
        assert_eq!(answer, lender.precedes(&bytes, first, second));
        if let Ok(table) = sound(&bytes) {
            assert_eq!(answer, table.precedes(first, second));
        }
    }
}
