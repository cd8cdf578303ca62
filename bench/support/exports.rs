//! The proved functions and the plain C versions of the same jobs.

#[repr(C)]
#[derive(Clone, Copy)]
pub struct Reading {
    pub number: u8,
    pub place: usize,
}

#[repr(C)]
#[derive(Clone, Copy)]
pub struct Run {
    pub done: [u8; 224],
}

#[repr(C)]
#[derive(Clone, Copy)]
pub struct Taken {
    pub run: Run,
    pub number: u8,
}

pub type Check = unsafe extern "C" fn(*const u8, usize) -> u32;
pub type Order = unsafe extern "C" fn(*const u8, usize, *mut u8, usize) -> u32;
/// The records of the verdict on records are two bytes each, and go as bytes.
pub type Verdict = unsafe extern "C" fn(*const u8, usize, *const u8, usize) -> u32;
pub type Read = unsafe extern "C" fn(*const u8, usize, *mut u8, usize) -> Reading;
pub type Take = unsafe extern "C" fn(*const u8, usize, Run, usize) -> Taken;
pub type Precedes = unsafe extern "C" fn(*const u8, usize, usize, usize) -> u8;

extern "C" {
    pub fn oorlichday_check(table: *const u8, table_len: usize) -> u32;
    pub fn oorlichday_order(
        table: *const u8,
        table_len: usize,
        order: *mut u8,
        order_len: usize,
    ) -> u32;
    pub fn oorlichday_verdict(
        table: *const u8,
        table_len: usize,
        order: *const u8,
        order_len: usize,
    ) -> u32;
    pub fn oorlichday_verdict_of_records(
        table: *const u8,
        table_len: usize,
        records: *const u8,
        count: usize,
    ) -> u32;
    pub fn oorlichday_take(table: *const u8, table_len: usize, run: Run, call: usize) -> Taken;
    pub fn oorlichday_precedes(
        table: *const u8,
        table_len: usize,
        first: usize,
        second: usize,
    ) -> u8;
    pub fn oorlichday_read(
        text: *const u8,
        text_len: usize,
        table: *mut u8,
        table_len: usize,
    ) -> Reading;
    pub fn oorlichday_list(
        text: *const u8,
        text_len: usize,
        out: *mut u8,
        out_len: usize,
    ) -> Reading;
    pub fn plain_check(table: *const u8, table_len: usize) -> u32;
    pub fn plain_order(table: *const u8, table_len: usize, order: *mut u8, order_len: usize)
        -> u32;
    pub fn plain_verdict(
        table: *const u8,
        table_len: usize,
        order: *const u8,
        order_len: usize,
    ) -> u32;
    pub fn plain_verdict_of_records(
        table: *const u8,
        table_len: usize,
        records: *const u8,
        count: usize,
    ) -> u32;
    pub fn plain_take(table: *const u8, table_len: usize, run: Run, call: usize) -> Taken;
    pub fn plain_precedes(
        table: *const u8,
        table_len: usize,
        first: usize,
        second: usize,
    ) -> u8;
    pub fn plain_read(
        text: *const u8,
        text_len: usize,
        table: *mut u8,
        table_len: usize,
    ) -> Reading;
    pub fn plain_list(text: *const u8, text_len: usize, out: *mut u8, out_len: usize) -> Reading;
}
