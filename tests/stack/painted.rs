//! The deepest byte of stack that a function changes, over inputs that reach every number.

#![allow(clashing_extern_declarations)]

#[path = "../reference/mod.rs"]
#[allow(dead_code)]
mod reference;
#[path = "../rust/support/mod.rs"]
mod support;

mod inputs;

use inputs::{Beside, Input};
use std::arch::asm;

extern "C" {
    /// The function under measure; all of them take a buffer and something beside it.
    #[link_name = concat!("oorlichday_", env!("STACK_EXPORT"))]
    fn target();
}

const EXPORT: &str = env!("STACK_EXPORT");
const PAINT: u8 = 0xa5;

/// A stack of our own, painted before each call.
#[repr(align(4096))]
struct Stack([u8; 65_536]);

/// Calls the function on the painted stack, with words in its first registers and a struct that it
/// is passed by value on top; what it returns, and how many bytes it used below that struct.
fn used(stack: &mut Stack, words: [usize; 4], passed: &[u8]) -> (u64, usize) {
    assert!(passed.len() % 16 == 0, "the stack is aligned at a call");
    stack.0.fill(PAINT);
    let size = stack.0.len() - passed.len();
    stack.0[size..].copy_from_slice(passed);
    let top = unsafe { stack.0.as_mut_ptr().add(size) };
    let answer: u64;
    // Sound: the function keeps to its buffers and to C's calling convention, so r12 is kept.
    unsafe {
        asm!(
            "mov r12, rsp",
            "mov rsp, {top}",
            "call {function}",
            "mov rsp, r12",
            top = in(reg) top,
            function = in(reg) target as unsafe extern "C" fn(),
            in("rdi") words[0],
            in("rsi") words[1],
            in("rdx") words[2],
            in("rcx") words[3],
            lateout("rax") answer,
            out("r12") _,
            clobber_abi("C"),
        );
    }
    let deepest = stack.0[..size].iter().position(|&byte| byte != PAINT).unwrap_or(size);
    (answer, size - deepest)
}

/// The number of the answer to an input, and how many bytes of stack it took.
fn number_and_bytes(stack: &mut Stack, input: Input) -> (usize, usize) {
    let (at, length) = (input.table.as_ptr() as usize, input.table.len());
    let number = |answer: u64| match EXPORT {
        "read" | "list" | "precedes" => answer as u8 as usize,
        _ => (answer as u32 >> 8) as usize,
    };
    let (answer, bytes) = match input.beside {
        Beside::Buffer(mut buffer) => {
            used(stack, [at, length, buffer.as_mut_ptr() as usize, buffer.len()], &[])
        }
        Beside::Records(bytes) => {
            used(stack, [at, length, bytes.as_ptr() as usize, bytes.len() / 2], &[])
        }
        Beside::Calls(first, second) => used(stack, [at, length, first, second], &[]),
        Beside::Run(run, call) => {
            // The answer is a struct, written where the first word points; its number is its last byte.
            let mut taken = [0u8; 225];
            let (_, bytes) = used(stack, [taken.as_mut_ptr() as usize, at, length, call], &run);
            return (taken[224] as usize, bytes);
        }
    };
    (number(answer), bytes)
}

fn main() {
    let mut stack = Box::new(Stack([PAINT; 65_536]));
    let mut reached = [false; 35];
    let mut deepest = 0;
    for input in inputs::of(EXPORT) {
        let (number, bytes) = number_and_bytes(&mut stack, input);
        reached[number] = true;
        deepest = deepest.max(bytes);
    }
    let missing: Vec<usize> =
        inputs::numbers(EXPORT).into_iter().filter(|&n| !reached[n]).collect();
    assert!(missing.is_empty(), "{} never answered {:?}", EXPORT, missing);
    println!("{} {}", EXPORT, deepest);
}
