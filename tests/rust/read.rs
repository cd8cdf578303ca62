//! The archive's text reader against the reference: answers, bytes written, bytes left alone.

#[path = "../reference/mod.rs"]
#[allow(dead_code)]
mod reference;
mod support;

use reference::{table::check, text::read, Answer};
use support::calls::{shown, Lender};
use support::faults::faulty;
use support::fuzz;
use support::random::Random;
use support::several::{many_faults, one_more, one_more_feed};
use support::tables::{self, any, chain, GREATEST};
use support::texts::{bytes, mixed, plain, Names};

fn agree(lender: &mut Lender, random: &mut Random, text: &[u8], room: usize) -> Answer {
    let (expected, front) = read(text, room);
    let before = random.bytes(room);
    let answer = lender.read(text, &before, &front);
    assert_eq!(answer, expected, "read of {} in {} bytes", shown(text), room);
    expected
}

/// Every sound table of the tests written out in a legal order of lines and read back.
#[test]
fn tables_written_out_and_read_back() {
    let (mut random, mut lender) = (Random::new(41), Lender::new());
    for (round, table) in tables::corpus().enumerate() {
        let names = Names::random(&mut random, &table);
        let lines =
            if round % 4 == 0 { plain(&table, &names) } else { mixed(&mut random, &table, &names) };
        let (text, packed) = (bytes(&lines), table.packed());
        let (answer, front) = read(&text, 644);
        assert_eq!((answer.number, &front), (0, &packed), "{}", shown(&text));
        assert_eq!(check(&front).number, 0);
        assert_eq!(agree(&mut lender, &mut random, &text, packed.len()), answer);
    }
}

#[test]
fn each_refusal_at_first_middle_and_last_lines() {
    let (mut random, mut lender) = (Random::new(42), Lender::new());
    let mut reached = [[0usize; 3]; 35];
    for round in 0..60_000 {
        let (number, third) = (20 + round % 14, round / 14 % 3);
        let table = tables::small(&mut random);
        let names = Names::random(&mut random, &table);
        let lines = mixed(&mut random, &table, &names);
        if let Some(text) = faulty(&mut random, &lines, number, third) {
            let answer = agree(&mut lender, &mut random, &text, 644);
            reached[answer.number][(answer.number == number) as usize * third] += 1;
        }
    }
    for number in (20..34).filter(|&number| number != 29) {
        let thirds = if number == 33 || number == 23 { 1 } else { 3 };
        assert!(
            reached[number][..thirds].iter().all(|&count| count >= 50),
            "{} {:?}",
            number,
            reached
        );
    }
}

#[test]
fn lines_with_two_faults() {
    let (mut random, mut lender) = (Random::new(43), Lender::new());
    let mut reached = [0usize; 35];
    for _ in 0..30_000 {
        let table = tables::small(&mut random);
        let names = Names::random(&mut random, &table);
        let lines = mixed(&mut random, &table, &names);
        let text = many_faults(&mut random, &lines);
        reached[agree(&mut lender, &mut random, &text, 644).number] += 1;
    }
    for number in [24, 25, 26, 27, 28, 30, 31] {
        assert!(reached[number] >= 20, "{} {:?}", number, reached);
    }
}

/// The greatest counts, and one more of each.
#[test]
fn counts_at_their_bounds() {
    let (mut random, mut lender) = (Random::new(44), Lender::new());
    let mut reached = [0usize; 35];
    for round in 0..300 {
        let table = if round % 2 == 0 { any(&mut random, GREATEST) } else { chain(32, true) };
        let names = Names::random(&mut random, &table);
        let lines = mixed(&mut random, &table, &names);
        assert_eq!(agree(&mut lender, &mut random, &bytes(&lines), 644).number, 0);
        if let Some(text) = one_more(&mut random, &lines, round % 3) {
            reached[agree(&mut lender, &mut random, &text, 644).number] += 1;
        }
        let more = one_more_feed(&table, &names);
        if let Some(text) = more {
            reached[agree(&mut lender, &mut random, &text, 644).number] += 1;
        }
    }
    assert!(reached[29] >= 100, "{:?}", reached);
}

#[test]
fn sizes_at_the_limit() {
    let (mut random, mut lender) = (Random::new(45), Lender::new());
    for length in [24_575, 24_576, 24_577, 24_578, 32_000] {
        for fill in [b'a', b'\n', b'\t', b'_', 0, 255] {
            for start in [&b""[..], b"cosim\t1\n", b"cosim\t1\nunit\ta\n"] {
                for end in [&b""[..], b"\n"] {
                    let mut text = start.to_vec();
                    text.resize(length - end.len(), fill);
                    text.extend(end);
                    agree(&mut lender, &mut random, &text, 644);
                }
            }
        }
    }
    let mut greatest = any(&mut random, GREATEST);
    greatest.reactive = vec![true; 96];
    let text = bytes(&plain(&greatest, &Names::longest(&greatest)));
    assert_eq!((text.len(), greatest.feeds.len()), (22_952, 128));
    assert_eq!(agree(&mut lender, &mut random, &text, 644), Answer { number: 0, place: 644 });
}

#[test]
fn every_packed_buffer_length() {
    let (mut random, mut lender) = (Random::new(46), Lender::new());
    for _ in 0..60 {
        let table = tables::small(&mut random);
        let names = Names::random(&mut random, &table);
        let text = bytes(&mixed(&mut random, &table, &names));
        for room in 0..table.packed().len() + 3 {
            let answer = agree(&mut lender, &mut random, &text, room);
            assert_eq!(answer.number == 34, room < table.packed().len());
        }
    }
}

#[test]
fn fuzz_read() {
    let ((rounds, mut random), mut lender) = (fuzz::fuzzing(47), Lender::new());
    for _ in 0..rounds {
        let text = fuzz::text(&mut random);
        let room = if random.percent(80) { 644 } else { random.below(200) };
        agree(&mut lender, &mut random, &text, room);
    }
}
