//! What the benches share: the counter, inputs of growing size, the hunt for the dearest input.
#![allow(dead_code)]

pub mod count;
pub mod exports;
pub mod families;
pub mod hunt;
pub mod judged;
pub mod measured;
pub mod rows;
