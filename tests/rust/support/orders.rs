//! Near misses of an order that passes.

use super::random::Random;
use crate::reference::table::Table;

/// A place early, anywhere or late in a list that is not empty.
fn near(random: &mut Random, third: usize, count: usize) -> usize {
    let part = (count + 3) / 4;
    match third {
        0 => random.below(part),
        1 => random.below(count),
        _ => count - 1 - random.below(part),
    }
}

/// The order with one change at an early, any or late place.
pub fn near_miss(random: &mut Random, table: &Table, order: &[u8], third: usize) -> Vec<u8> {
    let mut order = order.to_vec();
    let count = order.len();
    let place = near(random, third, count);
    match random.below(9) {
        0 => order[place] = random.between(table.calls().min(255), 255) as u8,
        1 => order[place] = order[random.below(place + 1)],
        2 => order.swap(place, near(random, third, count)),
        3 => order.truncate(place),
        4 => {
            let call = order.remove(place);
            order.push(call);
        }
        5 => {
            let call = order.remove(place);
            order.insert(near(random, third, count), call);
        }
        6 => order.push(random.byte()),
        7 => order.insert(place, random.below(table.calls()) as u8),
        _ => {
            order.remove(place);
        }
    }
    order
}

/// A set of some delayed input brought to just after its source's get, before its unit's step.
pub fn set_too_early(random: &mut Random, table: &Table, order: &[u8]) -> Option<Vec<u8>> {
    let delayed: Vec<usize> = (0..table.inputs()).filter(|&input| !table.reactive[input]).collect();
    if delayed.is_empty() {
        return None;
    }
    let input = delayed[random.below(delayed.len())];
    let mut order = order.to_vec();
    order.retain(|&call| call as usize != table.set(input));
    let get = table.get(table.source[input]) as u8;
    let after = 1 + order.iter().position(|&call| call == get)?;
    order.insert(after, table.set(input) as u8);
    Some(order)
}
