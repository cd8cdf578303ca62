//! Buffers between two pages without access, with canary bytes on the open side.

use std::ops::Range;
use std::os::raw::{c_int, c_void};

extern "C" {
    fn mmap(
        at: *mut c_void,
        size: usize,
        access: c_int,
        flags: c_int,
        fd: c_int,
        offset: i64,
    ) -> *mut c_void;
    fn mprotect(at: *mut c_void, size: usize, access: c_int) -> c_int;
}

const PAGE: usize = 4096;
const READ_AND_WRITE: c_int = 3;
const PRIVATE_AND_ANONYMOUS: c_int = 0x22;
const CANARIES: usize = 64;

/// Which of the two pages without access the buffer touches.
#[derive(Clone, Copy, PartialEq, Eq, Debug)]
pub enum Side {
    Start,
    End,
}

pub struct Lent {
    pages: *mut u8,
    size: usize,
    at: usize,
    expected: Vec<u8>,
    buffer: Range<usize>,
}

impl Lent {
    /// Room for buffers of up to so many bytes.
    pub fn new(most: usize) -> Lent {
        let size = (most + CANARIES + PAGE - 1) / PAGE * PAGE;
        let whole = size + 2 * PAGE;
        // Sound: a fresh mapping of our own, never given back.
        let pages = unsafe {
            let start =
                mmap(std::ptr::null_mut(), whole, READ_AND_WRITE, PRIVATE_AND_ANONYMOUS, -1, 0)
                    as *mut u8;
            assert!(start as isize != -1, "no pages");
            assert_eq!(mprotect(start as *mut c_void, PAGE, 0), 0);
            assert_eq!(mprotect(start.add(PAGE + size) as *mut c_void, PAGE, 0), 0);
            start.add(PAGE)
        };
        Lent { pages, size, at: 0, expected: Vec::new(), buffer: 0..0 }
    }

    /// Puts the bytes against one of the pages; canaries stand on the other side.
    pub fn lend(&mut self, bytes: &[u8], side: Side) -> *mut u8 {
        let canaries: Vec<u8> = (0..CANARIES).map(|place| 0xa5 ^ place as u8).collect();
        self.expected.clear();
        self.at = match side {
            Side::Start => {
                self.expected.extend(bytes);
                self.expected.extend(&canaries);
                0
            }
            Side::End => {
                self.expected.extend(&canaries);
                self.expected.extend(bytes);
                self.size - self.expected.len()
            }
        };
        let buffer = match side {
            Side::Start => 0,
            Side::End => CANARIES,
        };
        self.buffer = buffer..buffer + bytes.len();
        // Sound: within our own pages.
        unsafe {
            let start = self.pages.add(self.at);
            std::ptr::copy_nonoverlapping(self.expected.as_ptr(), start, self.expected.len());
            start.add(buffer)
        }
    }

    /// What the buffer and its canaries hold now.
    fn now(&self) -> &[u8] {
        // Sound: within our own pages, and no call is under way.
        unsafe { std::slice::from_raw_parts(self.pages.add(self.at), self.expected.len()) }
    }

    /// What the buffer holds now; nothing where a canary beside it has changed.
    pub fn left(&self) -> Option<&[u8]> {
        let (now, Range { start, end }) = (self.now(), self.buffer.clone());
        let kept = now[..start] == self.expected[..start] && now[end..] == self.expected[end..];
        kept.then_some(&now[start..end])
    }
}
