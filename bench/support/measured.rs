//! The rows of one function: inputs of growing size, and the dearest that a hunt finds.

use super::hunt::{hunt, STARTS};
use super::rows::{limit, rounds, row};
use crate::support_of_tests::random::Random;

/// What an input costs the proved function, and what it costs the plain one.
pub type Costs<'a, T> = [&'a dyn Fn(&T) -> u64; 2];

/// A row for each input: its family, its size, and the two costs.
pub fn rows<T>(
    name: &str,
    inputs: impl IntoIterator<Item = (&'static str, String, T)>,
    costs: Costs<T>,
) {
    for (family, size, input) in inputs {
        row(name, family, &size, costs[0](&input), costs[1](&input));
    }
}

/// Those rows and the worst found; or only the limit, where the command asks for that.
pub fn measured<T: Clone>(
    name: &str,
    most: u64,
    inputs: impl IntoIterator<Item = (&'static str, String, T)>,
    begin: fn(&mut Random) -> T,
    change: fn(&mut Random, &T) -> T,
    costs: Costs<T>,
) {
    let mut random = Random::new(81);
    let mut worst = |rounds: usize, cost: &dyn Fn(&T) -> u64| {
        hunt(&mut random, rounds, STARTS, begin, change, |input| cost(input)).0
    };
    if let Some(rounds) = rounds() {
        limit(name, worst(rounds, costs[0]), most);
    }
    rows(name, inputs, costs);
    let (proved, plain) = (worst(4_000, costs[0]), worst(4_000, costs[1]));
    row(name, &format!("worst found, limit {}", most), "each its own", proved, plain);
}
