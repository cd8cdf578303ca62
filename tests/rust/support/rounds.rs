//! What the runs over the transcribed definitions share: a deep stack, bytes as numbers, a tally.

use std::collections::BTreeMap;

/// Runs on a thread whose stack bears a recursion for each byte of a text.
pub fn deep(run: impl FnOnce() + Send + 'static) {
    let thread = std::thread::Builder::new().stack_size(1 << 28).spawn(run);
    if let Err(panic) = thread.expect("a thread").join() {
        std::panic::resume_unwind(panic);
    }
}

/// Bytes as the definitions take them.
pub fn numbers(bytes: &[u8]) -> Vec<u64> {
    bytes.iter().map(|&byte| byte as u64).collect()
}

/// How many inputs of a kind were compared, by the number that they are answered.
pub struct Tally {
    kind: &'static str,
    reached: BTreeMap<usize, usize>,
}

impl Tally {
    pub fn new(kind: &'static str) -> Tally {
        Tally { kind, reached: BTreeMap::new() }
    }

    pub fn count(&mut self, number: usize) {
        *self.reached.entry(number).or_default() += 1;
    }

    /// Prints the tally; each of these numbers must have been reached so often.
    pub fn finish(self, numbers: impl IntoIterator<Item = usize>, least: usize) {
        let total: usize = self.reached.values().sum();
        println!("{} {}, by number {:?}", total, self.kind, self.reached);
        for number in numbers {
            let reached = self.reached.get(&number).copied().unwrap_or(0);
            assert!(reached >= least, "{} was reached {} times", number, reached);
        }
    }
}
