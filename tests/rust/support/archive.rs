//! The archive's functions, called in this process on buffers beside pages without access.

use super::asked::{Asked, Export, Told};
use super::lent::{Lent, Side};

#[repr(C)]
#[derive(Clone, Copy)]
struct Reading {
    number: u8,
    place: usize,
}

/// A run as C has it; a mark is a byte here, so that one that is neither 0 nor 1 is seen.
#[repr(C)]
#[derive(Clone, Copy)]
struct Marks {
    done: [u8; 224],
}

#[repr(C)]
#[derive(Clone, Copy)]
struct Taken {
    run: Marks,
    number: u8,
}

extern "C" {
    fn oorlichday_check(table: *const u8, table_len: usize) -> u32;
    fn oorlichday_order(
        table: *const u8,
        table_len: usize,
        order: *mut u8,
        order_len: usize,
    ) -> u32;
    fn oorlichday_verdict(
        table: *const u8,
        table_len: usize,
        order: *const u8,
        order_len: usize,
    ) -> u32;
    fn oorlichday_verdict_of_records(
        table: *const u8,
        table_len: usize,
        records: *const u8,
        count: usize,
    ) -> u32;
    fn oorlichday_take(table: *const u8, table_len: usize, run: Marks, call: usize) -> Taken;
    fn oorlichday_precedes(table: *const u8, table_len: usize, first: usize, second: usize) -> u8;
    fn oorlichday_read(
        text: *const u8,
        text_len: usize,
        table: *mut u8,
        table_len: usize,
    ) -> Reading;
    fn oorlichday_list(text: *const u8, text_len: usize, out: *mut u8, out_len: usize) -> Reading;
}

const MOST: usize = 32_000;

/// One buffer that is read and one that may be written.
pub struct Archive {
    first: Lent,
    second: Lent,
    turn: usize,
}

impl Archive {
    pub fn new() -> Archive {
        Archive { first: Lent::new(MOST), second: Lent::new(MOST), turn: 0 }
    }

    /// The four ways to put two buffers at page ends, in turn.
    fn sides(&mut self) -> (Side, Side) {
        self.turn += 1;
        let side = |bit: usize| if bit == 0 { Side::End } else { Side::Start };
        (side(self.turn & 1), side(self.turn >> 1 & 1))
    }

    pub fn call(&mut self, asked: &Asked) -> Told {
        let (side, other) = self.sides();
        let first = self.first.lend(asked.first, side);
        let second = self.second.lend(asked.second, other);
        // Sound: both are lent with their lengths, and the stretches that the words name lie in the first.
        let (number, place) = unsafe { answered(asked, first, second) };
        let left = self.second.left().map(<[u8]>::to_vec);
        Told { number, place, kept: self.first.left() == Some(asked.first), left }
    }
}

/// The number and place of an answer; one that is coded in a word is that word, with place 0.
unsafe fn answered(asked: &Asked, first: *mut u8, second: *mut u8) -> (usize, usize) {
    let (count, other, [a, b, c, d]) = (asked.first.len(), asked.second.len(), asked.words);
    let coded = |answer: u32| (answer as usize, 0);
    let told = |reading: Reading| (reading.number as usize, reading.place);
    match asked.export {
        Export::Check => coded(oorlichday_check(first, count)),
        Export::Order => coded(oorlichday_order(first, count, second, other)),
        Export::Verdict => coded(oorlichday_verdict(first, count, second, other)),
        Export::SharedVerdict => coded(oorlichday_verdict(first.add(a), b, first.add(c), d)),
        Export::Records => coded(oorlichday_verdict_of_records(first, count, second, other / 2)),
        Export::SharedRecords => {
            coded(oorlichday_verdict_of_records(first.add(a), b, first.add(c), d))
        }
        Export::Take => {
            let done = asked.second.try_into().expect("224 marks");
            let taken = oorlichday_take(first, count, Marks { done }, a);
            std::ptr::copy_nonoverlapping(taken.run.done.as_ptr(), second, 224);
            (taken.number as usize, 0)
        }
        Export::Precedes => (oorlichday_precedes(first, count, a, b) as usize, 0),
        Export::Read => told(oorlichday_read(first, count, second, other)),
        Export::List => told(oorlichday_list(first, count, second, other)),
    }
}
