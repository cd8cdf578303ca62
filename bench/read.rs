//! Instructions of the text reader for each byte, and the hunt among the greatest texts.

#[path = "../tests/reference/mod.rs"]
#[allow(dead_code)]
mod reference;
mod support;
#[path = "../tests/rust/support/mod.rs"]
#[allow(dead_code)]
mod support_of_tests;

use reference::table::Table;
use support::count::Counter;
use support::exports::{oorlichday_read, plain_read, Read};
use support::families::texts;
use support::hunt::hunt;
use support::measured::rows;
use support::rows::{limit, rounds, row};
use support_of_tests::random::Random;
use support_of_tests::tables::{any, GREATEST};
use support_of_tests::texts::{bytes, mixed, plain as plain_text, Names};

const LIMIT_OF_A_BYTE: u64 = 100;
const GREATEST_TEXT: usize = 22_952;

fn cost(counter: &Counter, read: Read, text: &[u8]) -> u64 {
    let mut table = [0u8; 644];
    let table = &mut table;
    counter.count(|| unsafe { read(text.as_ptr(), text.len(), table.as_mut_ptr(), 644) }.place).0
}

/// A table whose ports all belong to the last unit, and whose joins and feeds name the last ports.
fn late() -> Table {
    Table {
        units: 32,
        output_owner: vec![31; 96],
        input_owner: vec![31; 96],
        reactive: vec![true; 96],
        source: vec![95; 96],
        feeds: (0..128).map(|k| (95 - k / 12, 95 - k % 12)).collect(),
    }
}

/// A text of the greatest size: counts at their bounds, inputs reactive, names of 16 bytes.
fn greatest(random: &mut Random) -> Vec<u8> {
    let mut table = if random.percent(50) { any(random, GREATEST) } else { late() };
    table.reactive = vec![true; 96];
    let names = Names::longest(&table);
    let lines =
        if random.percent(50) { plain_text(&table, &names) } else { mixed(random, &table, &names) };
    let text = bytes(&lines);
    assert_eq!(text.len(), GREATEST_TEXT);
    text
}

/// The names with a few last letters of one port changed, still all different.
fn renamed(random: &mut Random, names: &Names) -> Names {
    let mut other = names.clone();
    let ports = if random.percent(50) { &mut other.outputs } else { &mut other.inputs };
    let port = random.below(ports.len());
    let mut name = ports[port].clone();
    for letter in &mut name[13..] {
        *letter = b'a' + random.below(26) as u8;
    }
    if !ports.contains(&name) {
        ports[port] = name;
    }
    other
}

/// Names of 16 bytes that differ in their last two, from the last in their order to the first.
fn alike(count: usize) -> Vec<Vec<u8>> {
    let letters = b"zyxwvutsrqponmlkjihgfedcba_9876543210";
    let two = letters.iter().flat_map(|&a| letters.iter().map(move |&b| [a, b]));
    two.take(count).map(|two| [&b"fourteen_bytes"[..], &two].concat()).collect()
}

/// How many names a search by halves meets on its way to one of so many.
fn depth(count: usize, rank: usize) -> usize {
    let (mut low, mut high, mut met) = (0, count, 0);
    while low < high {
        let middle = low + (high - low) / 2;
        met += 1;
        match middle.cmp(&rank) {
            std::cmp::Ordering::Less => low = middle + 1,
            std::cmp::Ordering::Equal => break,
            std::cmp::Ordering::Greater => high = middle,
        }
    }
    met
}

/// The numbers of the names that such a search meets last, when name 0 is the last in their order.
fn deepest(count: usize) -> Vec<usize> {
    let most = (0..count).map(|rank| depth(count, rank)).max();
    (0..count).filter(|number| Some(depth(count, count - 1 - number)) == most).collect()
}

/// The greatest text built to be dear: names alike but for two bytes, each noted before all others, the deepest ones used.
fn built() -> Vec<u8> {
    let (unit, ports) = (deepest(32)[0], deepest(96));
    let pairs = ports.iter().flat_map(|&x| ports.iter().map(move |&y| (x, y)));
    let table = Table {
        units: 32,
        output_owner: vec![unit; 96],
        input_owner: vec![unit; 96],
        reactive: vec![true; 96],
        source: vec![ports[0]; 96],
        feeds: pairs.take(128).collect(),
    };
    let names = Names { units: alike(32), outputs: alike(96), inputs: alike(96) };
    let text = bytes(&plain_text(&table, &names));
    assert_eq!(text.len(), GREATEST_TEXT);
    text
}

/// The dearest of so many texts of the greatest size.
fn worst(counter: &Counter, rounds: usize, read: Read) -> u64 {
    let mut random = Random::new(84);
    (0..rounds).map(|_| cost(counter, read, &greatest(&mut random))).max().unwrap_or(0)
}

/// The same where the names, too, are hunted for.
fn worst_names(counter: &Counter, read: Read) -> u64 {
    let begin = |_: &mut Random| Names::longest(&late());
    let text = |names: &Names| bytes(&plain_text(&late(), names));
    let cost = |names: &Names| cost(counter, read, &text(names));
    hunt(&mut Random::new(88), 800, 1, begin, renamed, cost).0
}

fn main() {
    let counter = Counter::new();
    let most = LIMIT_OF_A_BYTE * GREATEST_TEXT as u64 - 1;
    if let Some(rounds) = rounds() {
        let dearest = worst(&counter, rounds / 4, oorlichday_read);
        let named = worst_names(&counter, oorlichday_read);
        limit("read", dearest.max(named).max(cost(&counter, oorlichday_read, &built())), most);
    }
    let read = |read: Read, text: &Vec<u8>| cost(&counter, read, text);
    rows("read", texts(85), [&|text| read(oorlichday_read, text), &|text| read(plain_read, text)]);
    let (size, what) = (format!("{} bytes", GREATEST_TEXT), "greatest text");
    let (proved, plain) = (worst(&counter, 400, oorlichday_read), worst(&counter, 400, plain_read));
    row("read", &format!("{}, worst found, limit {}", what, most), &size, proved, plain);
    let (proved, plain) =
        (worst_names(&counter, oorlichday_read), worst_names(&counter, plain_read));
    row("read", &format!("{}, names hunted for too", what), &size, proved, plain);
    let (proved, plain) = (read(oorlichday_read, &built()), read(plain_read, &built()));
    row("read", &format!("{}, built to be dear", what), &size, proved, plain);
}
