//! The archive's check against the reference: sound tables of every size and damaged ones.

#[path = "../reference/mod.rs"]
#[allow(dead_code)]
mod reference;
mod support;

use reference::{as_c, table::check};
use support::calls::Lender;
use support::damage::{damaged, mutated};
use support::fuzz;
use support::random::Random;
use support::tables;

fn agree(lender: &mut Lender, bytes: &[u8]) -> usize {
    let expected = check(bytes);
    assert_eq!(lender.check(bytes), as_c(expected), "check of {:?}", bytes);
    expected.number
}

#[test]
fn sound_tables_of_every_size() {
    let (mut random, mut lender) = (Random::new(11), Lender::new());
    for table in tables::corpus() {
        assert_eq!(agree(&mut lender, &table.packed()), 0);
    }
    let greatest = tables::any(&mut random, tables::GREATEST).packed();
    assert_eq!(greatest.len(), 644);
    assert_eq!(lender.check(&greatest), 224);
}

#[test]
fn each_number_at_first_middle_and_last_places() {
    let (mut random, mut lender) = (Random::new(12), Lender::new());
    let mut reached = [[0usize; 3]; 8];
    for round in 0..63_000 {
        let table = tables::sound(&mut random);
        let (number, third) = (1 + round % 7, round / 7 % 3);
        if let Some(bytes) = damaged(&mut random, &table, number, third) {
            let answer = agree(&mut lender, &bytes);
            if answer == number {
                reached[number][third] += 1;
            }
        }
    }
    for number in 1..=7 {
        assert!(
            reached[number].iter().all(|&count| count >= 100),
            "{} reached {:?}",
            number,
            reached
        );
    }
}

#[test]
fn each_count_takes_every_byte() {
    let (mut random, mut lender) = (Random::new(13), Lender::new());
    for count in 0..4 {
        for byte in 0..=255 {
            for length in [0, 1, 3, 4, 5, 643, 644, 645, 900] {
                let mut bytes = random.bytes(length);
                bytes.iter_mut().take(4).for_each(|byte| *byte = 1);
                if count < length {
                    bytes[count] = byte;
                }
                agree(&mut lender, &bytes);
            }
        }
    }
}

#[test]
fn two_faults_give_the_first_in_order() {
    let (mut random, mut lender) = (Random::new(14), Lender::new());
    for _ in 0..40_000 {
        let table = tables::sound(&mut random);
        let bytes = mutated(&mut random, &table.packed());
        agree(&mut lender, &bytes);
    }
}

#[test]
fn fuzz_check() {
    let ((rounds, mut random), mut lender) = (fuzz::fuzzing(15), Lender::new());
    for _ in 0..rounds {
        agree(&mut lender, &fuzz::table(&mut random));
    }
}
