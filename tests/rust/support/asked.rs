//! A call of the archive and what came of it as values, and both as bytes in a pipe.

use std::io::{Read, Result, Write};

/// The exports, two of them also on stretches of one buffer.
#[derive(Clone, Copy, PartialEq, Eq, Debug)]
pub enum Export {
    Check,
    Order,
    Verdict,
    SharedVerdict,
    Records,
    SharedRecords,
    Take,
    Precedes,
    Read,
    List,
}

const EXPORTS: [Export; 10] = [
    Export::Check,
    Export::Order,
    Export::Verdict,
    Export::SharedVerdict,
    Export::Records,
    Export::SharedRecords,
    Export::Take,
    Export::Precedes,
    Export::Read,
    Export::List,
];

/// A call: the bytes that it reads, those lent beside them, and its numbers.
pub struct Asked<'a> {
    pub export: Export,
    pub first: &'a [u8],
    pub second: &'a [u8],
    pub words: [usize; 4],
}

/// What came of a call: its answer, whether all that it reads is as before, and what the second buffer holds;
/// nothing where a byte beside that buffer changed.
pub struct Told {
    pub number: usize,
    pub place: usize,
    pub kept: bool,
    pub left: Option<Vec<u8>>,
}

fn put(to: &mut impl Write, words: &[usize]) -> Result<()> {
    words.iter().try_for_each(|&word| to.write_all(&(word as u64).to_le_bytes()))
}

fn got<const N: usize>(from: &mut impl Read) -> Result<[usize; N]> {
    let mut words = [0; N];
    for word in &mut words {
        let mut bytes = [0; 8];
        from.read_exact(&mut bytes)?;
        *word = u64::from_le_bytes(bytes) as usize;
    }
    Ok(words)
}

fn got_bytes(from: &mut impl Read, count: usize, bytes: &mut Vec<u8>) -> Result<()> {
    bytes.resize(count, 0);
    from.read_exact(bytes)
}

impl<'a> Asked<'a> {
    pub fn send(&self, to: &mut impl Write) -> Result<()> {
        put(to, &[self.export as usize, self.first.len(), self.second.len()])?;
        put(to, &self.words)?;
        to.write_all(self.first)?;
        to.write_all(self.second)?;
        to.flush()
    }

    /// The next call; its bytes are kept in the two lists.
    pub fn receive(
        from: &mut impl Read,
        first: &'a mut Vec<u8>,
        second: &'a mut Vec<u8>,
    ) -> Result<Asked<'a>> {
        let [export, count, other] = got(from)?;
        let words = got(from)?;
        got_bytes(from, count, first)?;
        got_bytes(from, other, second)?;
        Ok(Asked { export: EXPORTS[export], first, second, words })
    }
}

impl Told {
    pub fn send(&self, to: &mut impl Write) -> Result<()> {
        let (guarded, left) = (self.left.is_some(), self.left.as_deref().unwrap_or(&[]));
        put(to, &[self.number, self.place, self.kept as usize, guarded as usize, left.len()])?;
        to.write_all(left)?;
        to.flush()
    }

    pub fn receive(from: &mut impl Read) -> Result<Told> {
        let [number, place, kept, guarded, count] = got(from)?;
        let mut left = Vec::new();
        got_bytes(from, count, &mut left)?;
        Ok(Told { number, place, kept: kept == 1, left: (guarded == 1).then_some(left) })
    }
}
