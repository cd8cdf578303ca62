//! The library's answers a second time, by the rules of docs/SPECIFICATION.md and with nothing of the library.

pub mod calls;
pub mod list;
pub mod names;
pub mod order;
pub mod table;
pub mod text;
pub mod verdict;

/// A number, and a place (or a line of a text).
#[derive(Clone, Copy, PartialEq, Eq, Debug)]
pub struct Answer {
    pub number: usize,
    pub place: usize,
}

/// Success with a place.
pub fn success(place: usize) -> Answer {
    Answer { number: 0, place }
}

/// A refusal with a place.
pub fn refusal(number: usize, place: usize) -> Answer {
    Answer { number, place }
}

/// Number and place in one: SPECIFICATION, For C 1.
pub fn as_c(answer: Answer) -> u32 {
    (256 * answer.number + answer.place) as u32
}
