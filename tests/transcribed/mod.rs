// The definitions that docs/BELIEVE.md lists, transcribed into Rust: one file for each crate, one function
// for each definition, in its cases and their order. It stands below the text that it transcribes, quoted
// after `//|` from the file that the last `// ----` line names; tests/quotes.py holds them to the sources.
//
// Numbers are u64, and subtraction stops at 0. Lists are slices, tests are closures. A relation keeps its
// capital letter and answers whether it holds. What is evaluated only where it is needed is a closure.
//
// Not computed, or not of everything that is spoken of:
// - `SettlesSeen`, `Settles`, `Says`, `SettlesClauses` speak of a contract as the toolchain reads it.
// - `First` speaks of all lists: only the permutations of the N calls can keep the rules, so these are asked.
// - `OrderOrCycle` and `TellsOrder` speak of all lists: a cycle that has a call twice contains a shorter
//   one, so the lists without repetition are asked.
// - `Ends` speaks of all values: those that the caller gives are asked, all there are where values are few.
#![allow(non_snake_case)]
#![deny(dead_code)]

pub mod calls;
pub mod demands;
pub mod firmware;
pub mod grammar {
    pub mod draft;
    pub mod lines;
    pub mod opening;
    pub mod reading;
    pub mod rows;
}
pub mod judge;
pub mod judging;
pub mod library;
pub mod listing;
pub mod orders;
pub mod pen;
pub mod placing;
pub mod printing;
pub mod reading;
pub mod search;
pub mod sorter;
pub mod table;
pub mod text;
pub mod twin;
