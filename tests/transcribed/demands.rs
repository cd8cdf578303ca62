// What it is for `order` to give an order, and demand 2's first half of the number that C gets.
use super::calls::precedes;
use super::library::{any, implies, lists_once, take};
use super::orders::{Cycle, First, Shown};
use super::placing::call_count;
use super::sorter::ordering;
use super::table::shape_of;

// ---- crates/demands/specs/Given.antt

//| abbrev pub Given : List ℕ → ℕ → Type 0
//| Given t room = (ordering t room).answer.number ≡ 0
pub fn Given(t: &[u64], room: u64) -> bool {
    ordering(t, room).answer.number == 0
}

// ---- crates/demands/specs/Coded.antt

//| pub record TellsOrder (t : List ℕ) (r : ℕ) (order : List ℕ) : Type 0 where
//|   pub produced : (r ≡ call_count t) ↔ ((l : List ℕ) → Cycle (call_count t) (precedes (shape_of t)) l → ⊥)
//|   pub first : r ≡ call_count t → First (call_count t) (precedes (shape_of t)) (take (call_count t) order)
//|   pub shown : (r ≡ call_count t → ⊥)
//|       → (k : ℕ) × (r ≡ 256 * 9 + k) × (k ≤ call_count t) × Shown (call_count t) (precedes (shape_of t)) (take k order)
// k is at most r, since r is more than it by 256 * 9.
pub fn TellsOrder(t: &[u64], r: u64, order: &[u64]) -> bool {
    let (N, s) = (call_count(t), shape_of(t));
    let pred = |a, b| precedes(&s, a, b);
    let produced = (r == N) == lists_once(N).iter().all(|l| !Cycle(N, &pred, l));
    let first = implies(r == N, || First(N, &pred, take(N, order)));
    let shown = implies(r != N, || {
        any(r + 1, &|k| r == 256 * 9 + k && k <= N && Shown(N, &pred, take(k, order)))
    });
    produced && first && shown
}
