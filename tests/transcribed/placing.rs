// What can be placed of a table.
use super::calls::precedes;
use super::orders::placed;
use super::table::{shape_of, total};

// ---- crates/placing/specs/Placing.antt

//| abbrev pub call_count : List ℕ → ℕ
//| call_count t = total (shape_of t)
pub fn call_count(t: &[u64]) -> u64 {
    total(&shape_of(t))
}

//| unfoldable pub placed_of : List ℕ → List ℕ
//| placed_of t = placed (call_count t) (precedes (shape_of t))
pub fn placed_of(t: &[u64]) -> Vec<u64> {
    let s = shape_of(t);
    placed(call_count(t), &|a, b| precedes(&s, a, b))
}
