//! Tables of growing size: chains, rings, dense feeds, random ones.

use crate::reference::order::order;
use crate::reference::table::Table;
use crate::support_of_tests::random::Random;
use crate::support_of_tests::tables::{acyclic, any, chain, relabelled, ring, Counts, GREATEST};
use crate::support_of_tests::texts::{bytes, plain, Names};

pub struct Member {
    pub family: &'static str,
    pub table: Table,
}

/// Sizes by number of units: N is 7 times as much.
pub const SIZES: [usize; 6] = [1, 2, 4, 8, 16, 32];

/// Counts in the proportion of the greatest table.
fn in_proportion(units: usize) -> Counts {
    Counts { units, outputs: 3 * units, inputs: 3 * units, feeds: 4 * units }
}

/// Each unit's first two inputs feed its last two outputs: 4 feeds for each unit, no cycle.
fn dense(units: usize) -> Table {
    let owner: Vec<usize> = (0..3 * units).map(|port| port / 3).collect();
    let source = |input: usize| if input < 3 { 0 } else { input - 3 };
    Table {
        units,
        output_owner: owner.clone(),
        input_owner: owner,
        reactive: (0..3 * units).map(|input| input >= 3 && input % 3 == 2).collect(),
        source: (0..3 * units).map(source).collect(),
        feeds: (0..4 * units).map(|k| (3 * (k / 4) + k % 2, 3 * (k / 4) + 1 + k / 2 % 2)).collect(),
    }
}

/// The families at every size, with N from 7 to 224.
pub fn families() -> Vec<Member> {
    let mut random = Random::new(71);
    let mut members = Vec::new();
    for units in SIZES {
        members.push(Member { family: "chain", table: chain(units, false) });
    }
    for units in SIZES {
        members.push(Member { family: "dense feeds", table: dense(units) });
    }
    for units in SIZES {
        members.push(Member { family: "ring", table: ring(units - 1, 3 * units) });
    }
    for units in SIZES {
        let table = acyclic(&mut random, in_proportion(units)).0;
        members.push(Member { family: "random, acyclic", table });
    }
    for units in SIZES {
        members.push(Member { family: "random", table: any(&mut random, in_proportion(units)) });
    }
    members
}

/// The families' tables as inputs of a bench.
pub fn tables() -> Vec<(&'static str, String, Table)> {
    let input =
        |member: Member| (member.family, format!("N = {}", member.table.calls()), member.table);
    families().into_iter().map(input).collect()
}

/// The families' tables as texts, under random names.
pub fn texts(seed: u64) -> Vec<(&'static str, String, Vec<u8>)> {
    let input = |member: Member| {
        let names = Names::random(&mut Random::new(seed), &member.table);
        let text = bytes(&plain(&member.table, &names));
        (member.family, format!("{} bytes", text.len()), text)
    };
    families().into_iter().map(input).collect()
}

/// Great tables of every make, to begin a hunt with.
pub fn great(random: &mut Random) -> Table {
    match random.below(7) {
        0 => chain(32, false),
        1 => chain(32, true),
        2 => dense(32),
        3 => ring(random.below(32), 96),
        4 => acyclic(random, GREATEST).0,
        5 => relabelled(random, &dense(32)),
        _ => any(random, GREATEST),
    }
}

/// One order that keeps the table's rules: its first, or none where there is a cycle.
pub fn first_order(table: &Table) -> Option<Vec<u8>> {
    let (answer, calls) = order(&table.packed(), 224);
    (answer.number == 0).then(|| calls)
}
