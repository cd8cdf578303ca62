//! What the tests share: the archive's functions, lent buffers, and makers of tables and texts.
#![allow(dead_code)]

// Where the archive's code cannot run, a process under an emulator calls it.
#[cfg(target_arch = "x86_64")]
pub mod archive;
#[cfg(not(target_arch = "x86_64"))]
#[path = "served.rs"]
pub mod archive;
pub mod asked;
pub mod calls;
pub mod damage;
pub mod faults;
pub mod fuzz;
pub mod lent;
pub mod names;
pub mod orders;
pub mod random;
pub mod records;
pub mod rounds;
pub mod several;
pub mod shapes;
pub mod tables;
pub mod texts;
