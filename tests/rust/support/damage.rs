//! Tables damaged so that a wanted number is reached at a first, middle or last place.

use super::random::Random;
use crate::reference::table::Table;

/// The first, a middle or the last of so many places.
pub fn place(random: &mut Random, third: usize, count: usize) -> usize {
    match third {
        0 => 0,
        1 => random.below(count),
        _ => count - 1,
    }
}

/// The table's bytes with one fault, meant for the number; none where the table has no such place.
pub fn damaged(random: &mut Random, table: &Table, number: usize, third: usize) -> Option<Vec<u8>> {
    let (outputs, inputs, feeds) = (table.outputs(), table.inputs(), table.feeds.len());
    let mut bytes = table.packed();
    let owners = 4;
    let kinds = owners + outputs + inputs;
    let sources = kinds + inputs;
    let pairs = sources + inputs;
    let at_least = |random: &mut Random, bound: usize| random.between(bound, 255) as u8;
    match number {
        1 => match third {
            0 => bytes.truncate(random.below(4)),
            1 => bytes.truncate(random.below(bytes.len())),
            _ => bytes.push(random.byte()),
        },
        2 => {
            let count = place(random, third, 4);
            let bounds = [33, 97, 97, 129];
            bytes[count] = if count == 0 && random.percent(30) {
                0
            } else if random.percent(50) {
                bounds[count] as u8
            } else {
                at_least(random, bounds[count])
            };
        }
        3 if outputs + inputs > 0 => {
            let owner = owners + place(random, third, outputs + inputs);
            bytes[owner] = at_least(random, table.units);
        }
        4 if inputs > 0 => bytes[kinds + place(random, third, inputs)] = at_least(random, 2),
        5 if inputs > 0 => {
            bytes[sources + place(random, third, inputs)] = at_least(random, outputs)
        }
        6 if feeds > 0 => {
            let pair = pairs + 2 * place(random, third, feeds);
            match random.below(3) {
                0 => bytes[pair] = at_least(random, inputs),
                1 => bytes[pair + 1] = at_least(random, outputs),
                _ => bytes[pair] = random.below(inputs) as u8,
            }
        }
        7 if feeds > 1 => {
            let later = 1 + place(random, third, feeds - 1);
            let earlier = random.below(later);
            bytes.copy_within(pairs + 2 * earlier..pairs + 2 * earlier + 2, pairs + 2 * later);
        }
        _ => return None,
    }
    Some(bytes)
}

/// Any bytes that began as a table: some bytes changed, a stretch cut out, put in or repeated.
pub fn mutated(random: &mut Random, bytes: &[u8]) -> Vec<u8> {
    let mut bytes = bytes.to_vec();
    for _ in 0..random.between(1, 4) {
        let place = random.below(bytes.len() + 1);
        match random.below(8) {
            0 => bytes.truncate(place),
            1 => bytes.insert(place, random.byte()),
            2 if place < bytes.len() => drop(bytes.remove(place)),
            3 if place < bytes.len() => bytes[place] = bytes[place].wrapping_add(1),
            4 if place < bytes.len() => bytes[place] = bytes[place].wrapping_sub(1),
            5 if place < bytes.len() => bytes[place] = bytes[random.below(bytes.len())],
            6 if place < bytes.len() => bytes[place] ^= 1 << random.below(8),
            _ if place < bytes.len() => bytes[place] = random.byte(),
            _ => {}
        }
    }
    bytes
}
