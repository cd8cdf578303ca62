//! Inputs of the fuzzing runs: any bytes at all, and bytes that began as a table, an order or a text.

use super::damage::mutated;
use super::random::Random;
use super::several::many_faults;
use super::tables;
use super::texts::{bytes, mixed, Names};

/// How many rounds a fuzzing test takes and where it starts: short unless the run asks for more.
pub fn fuzzing(salt: u64) -> (usize, Random) {
    let number = |name: &str| std::env::var(name).ok().and_then(|text| text.parse::<u64>().ok());
    let rounds = number("OORLICHDAY_FUZZ_ROUNDS").unwrap_or(30_000);
    let seed = number("OORLICHDAY_FUZZ_SEED").unwrap_or(1);
    (rounds as usize, Random::new(seed.wrapping_mul(1_000_003).wrapping_add(salt)))
}

/// Fewer than so many bytes of any kind.
pub fn any_bytes(random: &mut Random, most: usize) -> Vec<u8> {
    let count = random.below(most);
    random.bytes(count)
}

/// Bytes about a table: any, a sound table's, or such with a few changes.
pub fn table(random: &mut Random) -> Vec<u8> {
    match random.below(6) {
        0 => any_bytes(random, 700),
        1 | 2 => tables::sound(random).packed(),
        _ => {
            let table = tables::sound(random).packed();
            mutated(random, &table)
        }
    }
}

/// Bytes about a text: any, letters below a first line, a text, or such with changes or faults.
pub fn text(random: &mut Random) -> Vec<u8> {
    let table = tables::small(random);
    let names = Names::random(random, &table);
    let lines = mixed(random, &table, &names);
    match random.below(8) {
        0 => any_bytes(random, 300),
        1 => {
            let letters = b"unitojefdcsm1\t\t\n\n_";
            let count = random.below(60);
            let tail: Vec<u8> = (0..count).map(|_| letters[random.below(letters.len())]).collect();
            [&b"cosim\t1\n"[..], &tail, b"\n"].concat()
        }
        2 | 3 => mutated(random, &bytes(&lines)),
        4 => bytes(&lines),
        _ => many_faults(random, &lines),
    }
}
