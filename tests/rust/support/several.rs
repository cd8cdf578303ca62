//! Texts with one line too many, or with several faults at once.

use super::faults::{put_in, unknown};
use super::random::Random;
use super::texts::{bytes, name, plain, Lines, Names};
use crate::reference::table::Table;

/// One more line than a count allows, for a text with as many as it allows.
pub fn one_more(random: &mut Random, lines: &Lines, third: usize) -> Option<Vec<u8>> {
    let mut lines = lines.clone();
    let kinds: [&[u8]; 3] = [b"unit", b"out", b"in"];
    let last = lines.iter().rposition(|line| kinds.contains(&&line[0][..]))?;
    let mut more = lines[last].clone();
    let field = if more.len() == 2 { 1 } else { 2 };
    more[field] = unknown();
    put_in(random, &mut lines, third, last, more);
    Some(bytes(&lines))
}

/// Lines with several faults at once: fields exchanged, emptied, made long, unknown, cut or added.
pub fn many_faults(random: &mut Random, lines: &Lines) -> Vec<u8> {
    let mut lines = lines.clone();
    let line = 1 + random.below(lines.len() - 1);
    for _ in 0..random.between(1, 3) {
        let field = random.below(lines[line].len());
        match random.below(9) {
            0 => lines[line][field].clear(),
            1 => lines[line][field].resize(17, b'x'),
            2 => lines[line][field].resize(16, b'x'),
            3 => lines[line][field] = unknown(),
            4 => lines[line][field] = name(random),
            5 => {
                let other = random.below(lines.len());
                lines[line] = lines[other].clone();
            }
            6 => lines[line].push(name(random)),
            7 if lines[line].len() > 1 => drop(lines[line].remove(field)),
            _ => {
                let other = 1 + random.below(lines.len() - 1);
                lines.swap(line, other);
            }
        }
    }
    bytes(&lines)
}

/// A feed that is not given yet, after the last of 128.
pub fn one_more_feed(table: &Table, names: &Names) -> Option<Vec<u8>> {
    let mut more = table.clone();
    let pairs = (0..table.inputs()).flat_map(|i| (0..table.outputs()).map(move |o| (i, o)));
    let fits = |&(i, o): &(usize, usize)| {
        table.input_owner[i] == table.output_owner[o] && !table.feeds.contains(&(i, o))
    };
    more.feeds.push(pairs.into_iter().find(fits)?);
    (more.feeds.len() > 128).then(|| bytes(&plain(&more, names)))
}
