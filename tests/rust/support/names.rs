//! Names for units and ports: random ones, and the longest.

use super::random::Random;
use crate::reference::table::Table;

const WORDS: [&[u8]; 10] =
    [b"unit", b"out", b"in", b"feed", b"join", b"cosim", b"delayed", b"reactive", b"1", b"_"];
const LETTERS: &[u8] = b"abcdefghijklmnopqrstuvwxyz0123456789_";

/// A name of 1 to 16 bytes: a keyword, a short one that recurs, one of 16 bytes, or any.
pub fn name(random: &mut Random) -> Vec<u8> {
    let length = match random.below(8) {
        0 => return WORDS[random.below(WORDS.len())].to_vec(),
        1 | 2 => return vec![LETTERS[random.below(4)], LETTERS[random.below(LETTERS.len())]],
        3 => 16,
        _ => random.between(1, 16),
    };
    (0..length).map(|_| LETTERS[random.below(LETTERS.len())]).collect()
}

/// Names that differ from each other within one set.
fn distinct(random: &mut Random, count: usize) -> Vec<Vec<u8>> {
    let mut names: Vec<Vec<u8>> = Vec::new();
    while names.len() < count {
        let name = name(random);
        if !names.contains(&name) {
            names.push(name);
        }
    }
    names
}

/// Names of 16 bytes that differ in their last two only.
fn longest(count: usize) -> Vec<Vec<u8>> {
    let digits = |number: usize| [LETTERS[number / 37], LETTERS[number % 37]];
    (0..count).map(|number| [&b"fourteen_bytes"[..], &digits(number)].concat()).collect()
}

/// The names of a table's units, outputs and inputs.
#[derive(Clone)]
pub struct Names {
    pub units: Vec<Vec<u8>>,
    pub outputs: Vec<Vec<u8>>,
    pub inputs: Vec<Vec<u8>>,
}

impl Names {
    /// Random names; a unit's ports have a set for outputs and one for inputs.
    pub fn random(random: &mut Random, table: &Table) -> Names {
        let mut ports = |owners: &[usize]| -> Vec<Vec<u8>> {
            let mut sets: Vec<Vec<Vec<u8>>> = Vec::new();
            for unit in 0..table.units {
                let count = owners.iter().filter(|&&owner| owner == unit).count();
                sets.push(distinct(random, count));
            }
            owners.iter().map(|&owner| sets[owner].pop().expect("counted")).collect()
        };
        let (outputs, inputs) = (ports(&table.output_owner), ports(&table.input_owner));
        Names { units: distinct(random, table.units), outputs, inputs }
    }

    /// Names of 16 bytes everywhere.
    pub fn longest(table: &Table) -> Names {
        Names {
            units: longest(table.units),
            outputs: longest(table.outputs()),
            inputs: longest(table.inputs()),
        }
    }
}
