//! Texts with one fault: each refusal at first, middle and last lines.

use super::damage::place;
use super::random::Random;
use super::texts::{bytes, name, Lines};

/// A line below the first whose keyword is one of these.
fn line_of(random: &mut Random, lines: &Lines, third: usize, keywords: &[&[u8]]) -> Option<usize> {
    let lines: Vec<usize> =
        (1..lines.len()).filter(|&line| keywords.contains(&&lines[line][0][..])).collect();
    if lines.is_empty() {
        return None;
    }
    Some(lines[place(random, third, lines.len())])
}

/// A name no maker gives: it has 15 letters z.
pub fn unknown() -> Vec<u8> {
    vec![b'z'; 15]
}

fn bad_byte(random: &mut Random) -> u8 {
    let bytes = [b'A', b'Z', b' ', b'\r', 0, b'-', b'`', b'{', b'/', b':', 127, 128, 255, b'^'];
    bytes[random.below(bytes.len())]
}

/// Puts the line in below the place where it belongs: right after, later or at the end.
pub fn put_in(
    random: &mut Random,
    lines: &mut Lines,
    third: usize,
    after: usize,
    line: Vec<Vec<u8>>,
) {
    let at = after + 1 + place(random, third, lines.len() - after);
    lines.insert(at, line);
}

/// A text refused as a whole: empty or too long, not ended, a byte not allowed.
fn whole_text(random: &mut Random, mut text: Vec<u8>, number: usize, third: usize) -> Vec<u8> {
    match number {
        20 => text.resize(if third == 0 { 0 } else { 24_577 + 1000 * (third - 1) }, b'\n'),
        21 => {
            text.truncate(place(random, third, text.len()) + 1);
            if text.last() == Some(&b'\n') {
                text.pop();
            }
        }
        _ => {
            let at = place(random, third, text.len() - 1);
            text[at] = bad_byte(random);
        }
    }
    text
}

/// An unknown keyword, `cosim` again, an empty line, or a wrong number of fields.
fn wrong_form(random: &mut Random, line: &mut Vec<Vec<u8>>) {
    match random.below(6) {
        0 => *line = vec![b"cosim".to_vec(), b"1".to_vec()],
        1 => line[0].push(b's'),
        2 => drop(line.pop()),
        3 => line.push(name(random)),
        4 => *line = vec![Vec::new()],
        _ => drop(line[0].pop()),
    }
}

/// An empty name or one of more than 16 bytes, in any field that is a name.
fn wrong_name(random: &mut Random, line: &mut Vec<Vec<u8>>) {
    let names = if line[0] == b"in" { 2 } else { line.len() - 1 };
    let field = 1 + random.below(names);
    if random.percent(50) {
        line[field].clear();
    } else {
        line[field].resize(17 + random.below(3), b'q');
    }
}

/// A name that no line declares, or a line brought above what it names.
fn undeclared(random: &mut Random, lines: &mut Lines, line: usize) {
    let declares = lines[line][0] == b"in" || lines[line][0] == b"out";
    let names = if declares { 1 } else { lines[line].len() - 1 };
    if random.percent(50) {
        lines[line][1 + random.below(names)] = unknown();
    } else {
        let early = lines.remove(line);
        lines.insert(1, early);
    }
}

const FIRST_LINES: [&[u8]; 7] =
    [b"cosim", b"cosim\t2", b"cosim\t1\t", b"\tcosim\t1", b"", b"cosim\t11", b"cosin\t1"];
const KIND_WORDS: [&[u8]; 6] = [b"", b"delaye", b"delayedd", b"reactiv", b"unit", b"reactives"];

/// The lines that declare, use or join, by the number that a fault in them is meant for.
fn keywords(number: usize) -> &'static [&'static [u8]] {
    match number {
        26 => &[b"unit", b"out", b"in"],
        27 => &[b"out", b"in", b"feed", b"join"],
        28 => &[b"in"],
        32 => &[b"feed"],
        30 | 31 => &[b"join"],
        _ => &[b"unit", b"out", b"in", b"feed", b"join"],
    }
}

/// The lines with a fault meant for the number; none where they have no such place.
pub fn faulty(random: &mut Random, lines: &Lines, number: usize, third: usize) -> Option<Vec<u8>> {
    if number <= 22 {
        return Some(whole_text(random, bytes(lines), number, third));
    }
    let mut lines = lines.clone();
    let line = line_of(random, &lines, third, keywords(number))?;
    match number {
        23 => lines[0] = vec![FIRST_LINES[random.below(7)].to_vec()],
        24 => wrong_form(random, &mut lines[line]),
        25 => wrong_name(random, &mut lines[line]),
        27 => undeclared(random, &mut lines, line),
        28 => lines[line][3] = KIND_WORDS[random.below(6)].to_vec(),
        26 | 30 | 32 => {
            let again = lines[line].clone();
            put_in(random, &mut lines, third, line, again);
        }
        31 => drop(lines.remove(line)),
        33 => lines.truncate(1),
        _ => return None,
    }
    Some(bytes(&lines))
}
