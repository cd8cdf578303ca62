// What `order` answers, and demand 2's first half.
use super::calls::precedes;
use super::library::{implies, length, lists_once};
use super::orders::{among, shown, Cycle, First};
use super::placing::{call_count, placed_of};
use super::table::{outcome, refusal, shape_of, Answer, Outcome};

// ---- crates/sorter/specs/Ordering.antt

//| unfoldable pub shown_of : List ℕ → List ℕ
//| shown_of t = shown (call_count t) (precedes (shape_of t)) (among (placed_of t))
pub fn shown_of(t: &[u64]) -> Vec<u64> {
    let (s, placed) = (shape_of(t), placed_of(t));
    shown(call_count(t), &|a, b| precedes(&s, a, b), &|c| among(&placed, c))
}

//| unfoldable pub settled : List ℕ → Outcome
//| settled t =
//|     cond (eqb (length (placed_of t)) (call_count t)) (outcome 0 (call_count t) (placed_of t))
//|     (outcome 9 (length (shown_of t)) (shown_of t))
pub fn settled(t: &[u64]) -> Outcome {
    let placed = placed_of(t);
    if length(&placed) == call_count(t) {
        outcome(0, call_count(t), placed)
    } else {
        outcome(9, length(&shown_of(t)), shown_of(t))
    }
}

//| unfoldable pub ordering : List ℕ → ℕ → Outcome
//| ordering t room =
//|     cond (eqb (refusal t) 0)
//|     (cond (leb (call_count t) room) (settled t) (outcome 8 0 []))
//|     (outcome (refusal t) 0 [])
pub fn ordering(t: &[u64], room: u64) -> Outcome {
    if refusal(t) == 0 {
        if call_count(t) <= room {
            settled(t)
        } else {
            outcome(8, 0, vec![])
        }
    } else {
        outcome(refusal(t), 0, vec![])
    }
}

// ---- crates/sorter/specs/OrderOrCycle.antt

//| pub record OrderOrCycle (t : List ℕ) (r : Answer) (bytes : List ℕ) : Type 0 where
//|   pub produced : (r.number ≡ 0) ↔ ((l : List ℕ) → Cycle (call_count t) (precedes (shape_of t)) l → ⊥)
//|   pub first : r.number ≡ 0 → (r.place ≡ call_count t) × First (call_count t) (precedes (shape_of t)) bytes
//|   pub shown : (r.number ≡ 0 → ⊥) → (r.number ≡ 9) × Cycle (call_count t) (precedes (shape_of t)) bytes
pub fn OrderOrCycle(t: &[u64], r: Answer, bytes: &[u64]) -> bool {
    let (N, s) = (call_count(t), shape_of(t));
    let pred = |a, b| precedes(&s, a, b);
    let produced = (r.number == 0) == lists_once(N).iter().all(|l| !Cycle(N, &pred, l));
    let first = implies(r.number == 0, || r.place == N && First(N, &pred, bytes));
    let shown = implies(r.number != 0, || r.number == 9 && Cycle(N, &pred, bytes));
    produced && first && shown
}
