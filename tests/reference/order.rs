//! The first order, or the cycle shown: numbers 8 and 9.

use super::{refusal, success, table, Answer};

/// The answer, and what stands at the front of a buffer of `room` bytes afterwards.
pub fn order(bytes: &[u8], room: usize) -> (Answer, Vec<u8>) {
    let table = match table::sound(bytes) {
        Ok(table) => table,
        Err(number) => return (refusal(number, 0), Vec::new()),
    };
    if room < table.calls() {
        return (refusal(8, 0), Vec::new());
    }
    let before = table.predecessors();
    match first_order(&before) {
        Ok(order) => (success(order.len()), as_bytes(&order)),
        Err(placed) => {
            let cycle = cycle_shown(&before, &placed);
            (refusal(9, cycle.len()), as_bytes(&cycle))
        }
    }
}

/// At each place the lowest ready call: SPECIFICATION, Order and cycle 4.
fn first_order(before: &[Vec<usize>]) -> Result<Vec<usize>, Vec<bool>> {
    let mut placed = vec![false; before.len()];
    let mut order = Vec::new();
    while order.len() < before.len() {
        let ready =
            |call: &usize| !placed[*call] && before[*call].iter().all(|&other| placed[other]);
        match (0..before.len()).find(ready) {
            Some(call) => {
                placed[call] = true;
                order.push(call);
            }
            None => return Err(placed),
        }
    }
    Ok(order)
}

/// The backward walk from the lowest remaining call, listed forward from its lowest number.
fn cycle_shown(before: &[Vec<usize>], placed: &[bool]) -> Vec<usize> {
    let lowest = (0..before.len()).find(|&call| !placed[call]);
    let mut call = lowest.expect("a call remains");
    let mut walk: Vec<usize> = Vec::new();
    while !walk.contains(&call) {
        walk.push(call);
        let remaining = before[call].iter().find(|&&other| !placed[other]);
        call = *remaining.expect("a call that remains waits for one that remains");
    }
    let first_visit = walk.iter().position(|&other| other == call).expect("met before");
    let mut cycle: Vec<usize> = walk[first_visit..].to_vec();
    cycle.reverse();
    let lowest = (0..cycle.len()).min_by_key(|&place| cycle[place]).expect("not empty");
    cycle.rotate_left(lowest);
    cycle
}

fn as_bytes(calls: &[usize]) -> Vec<u8> {
    calls.iter().map(|&call| call as u8).collect()
}
