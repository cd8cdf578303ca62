//! The archive's functions, each called on buffers beside pages without access.

use super::archive::Archive;
use super::asked::{Asked, Export, Told};
use super::records::{as_bytes, Record};
use crate::reference::verdict::Run;
use crate::reference::Answer;
use std::ops::Range;

/// One buffer that is read and one that may be written.
pub struct Lender {
    archive: Archive,
}

impl Lender {
    pub fn new() -> Lender {
        Lender { archive: Archive::new() }
    }

    /// What came of a call that has changed nothing of what it reads.
    fn called(&mut self, export: Export, first: &[u8], second: &[u8], words: [usize; 4]) -> Told {
        let told = self.archive.call(&Asked { export, first, second, words });
        assert!(told.kept, "{:?} changed what it reads: {}", export, shown(first));
        told
    }

    /// The same, whose second buffer must then hold exactly `front` and, behind it, what it held before.
    fn written(&mut self, export: Export, bytes: &[u8], before: &[u8], front: &[u8]) -> Told {
        let told = self.called(export, bytes, before, [0; 4]);
        let expected = [front, &before[front.len()..]].concat();
        assert!(told.left.as_ref() == Some(&expected), "wrote otherwise: {}", shown(bytes));
        told
    }

    pub fn check(&mut self, table: &[u8]) -> u32 {
        self.written(Export::Check, table, &[], &[]).number as u32
    }

    pub fn order(&mut self, table: &[u8], before: &[u8], front: &[u8]) -> u32 {
        self.written(Export::Order, table, before, front).number as u32
    }

    pub fn verdict(&mut self, table: &[u8], order: &[u8]) -> u32 {
        self.written(Export::Verdict, table, order, &[]).number as u32
    }

    /// The verdict where table and order are stretches of the same bytes.
    pub fn shared_verdict(
        &mut self,
        bytes: &[u8],
        table: Range<usize>,
        order: Range<usize>,
    ) -> u32 {
        let words = [table.start, table.len(), order.start, order.len()];
        self.called(Export::SharedVerdict, bytes, &[], words).number as u32
    }

    pub fn verdict_of_records(&mut self, table: &[u8], records: &[Record]) -> u32 {
        self.written(Export::Records, table, &as_bytes(records), &[]).number as u32
    }

    /// The verdict on records that are a stretch of the bytes in which the table lies.
    pub fn shared_records(
        &mut self,
        bytes: &[u8],
        table: Range<usize>,
        records: usize,
        count: usize,
    ) -> u32 {
        let words = [table.start, table.len(), records, count];
        self.called(Export::SharedRecords, bytes, &[], words).number as u32
    }

    pub fn take(&mut self, table: &[u8], run: Run, call: usize) -> (Run, usize) {
        let marks = run.done.map(|mark| mark as u8);
        let told = self.called(Export::Take, table, &marks, [call, 0, 0, 0]);
        let done: [u8; 224] = told.left.expect("kept").try_into().expect("224 marks");
        assert!(done.iter().all(|&mark| mark < 2), "a mark is neither 0 nor 1");
        (Run { done: done.map(|mark| mark == 1) }, told.number)
    }

    pub fn precedes(&mut self, table: &[u8], first: usize, second: usize) -> bool {
        let answer = self.called(Export::Precedes, table, &[], [first, second, 0, 0]).number;
        assert!(answer < 2, "{} is neither yes nor no", answer);
        answer == 1
    }

    pub fn read(&mut self, text: &[u8], before: &[u8], front: &[u8]) -> Answer {
        let told = self.written(Export::Read, text, before, front);
        Answer { number: told.number, place: told.place }
    }

    pub fn list(&mut self, text: &[u8], before: &[u8], front: &[u8]) -> Answer {
        let told = self.written(Export::List, text, before, front);
        Answer { number: told.number, place: told.place }
    }
}

/// Bytes as a person reads them: a text as it is, any other as numbers.
pub fn shown(bytes: &[u8]) -> String {
    match std::str::from_utf8(bytes) {
        Ok(text) if bytes.iter().all(|&byte| byte >= b' ' || byte == b'\t' || byte == b'\n') => {
            text.to_string()
        }
        _ => format!("{:?}", bytes),
    }
}
