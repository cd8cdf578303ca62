// The judged run, an order judged by it call by call, and records as call numbers.
use super::calls::{get_no, set_no, step_no};
use super::judging::refusal_at;
use super::library::{cons, each, get_or, length, set, take};
use super::table::{refusal, shape_of, total, Shape, Sound};

// ---- crates/judge/src/lib.rt

//| pub struct Run {
//|     pub done: [bool; 224],
//| }
#[derive(Clone, Debug, PartialEq)]
pub struct Run {
    pub done: Vec<bool>,
}

//| pub struct Taken {
//|     pub run: Run,
//|     pub number: u8,
//| }
#[derive(Clone, Debug, PartialEq)]
pub struct Taken {
    pub run: Run,
    pub number: u64,
}

// ---- crates/judge/src/records.rt

//| pub struct Record {
//|     pub kind: u8,
//|     pub number: u8,
//| }
#[derive(Clone, Copy, Debug)]
pub struct Record {
    pub kind: u64,
    pub number: u64,
}

// ---- crates/judge/specs/Marks.antt

//| unfoldable pub marks : List Bool → ℕ → Bool
//| marks done c = ltb c 224 && get_or done c false
pub fn marks(done: &[bool], c: u64) -> bool {
    c < 224 && get_or(done, c, false)
}

// ---- crates/judge/specs/Taken.antt

//| unfoldable pub fresh : Run
//| fresh = record { done = replicate 224 false }
pub fn fresh() -> Run {
    Run { done: vec![false; 224] }
}

//| unfoldable pub advanced : Run → ℕ → ℕ → Taken
//| advanced run c n =
//|     cond (eqb n 0) (record { run = record { done = set run.done c true }; number = 0 })
//|     (record { run = run; number = n })
pub fn advanced(run: &Run, c: u64, n: u64) -> Taken {
    if n == 0 {
        Taken { run: Run { done: set(&run.done, c, true) }, number: 0 }
    } else {
        Taken { run: run.clone(), number: n }
    }
}

//| unfoldable pub taken : List ℕ → Run → ℕ → Taken
//| taken t run c =
//|     advanced run c (cond (eqb (refusal t) 0) (refusal_at (shape_of t) (marks run.done) c) (refusal t))
pub fn taken(t: &[u64], run: &Run, c: u64) -> Taken {
    let number = if refusal(t) == 0 {
        refusal_at(&shape_of(t), &|x| marks(&run.done, x), c)
    } else {
        refusal(t)
    };
    advanced(run, c, number)
}

// ---- crates/judge/specs/CallByCall.antt

//| abbrev pub run_after : List ℕ → Run → List ℕ → Run
//| run_after t run [] = run
//| run_after t run (c ∷ l) = run_after t (taken t run c).run l
pub fn run_after(t: &[u64], run: &Run, list: &[u64]) -> Run {
    match list {
        [] => run.clone(),
        [c, l @ ..] => run_after(t, &taken(t, run, *c).run, l),
    }
}

//| abbrev pub answered_at : List ℕ → Run → List ℕ → ℕ → ℕ
//| answered_at t run l i = (taken t (run_after t run (take i l)) (get_or l i 0)).number
pub fn answered_at(t: &[u64], run: &Run, l: &[u64], i: u64) -> u64 {
    taken(t, &run_after(t, run, take(i, l)), get_or(l, i, 0)).number
}

//| pub record TakenInTurn (t order : List ℕ) : Type 0 where
//|   pub sound : Sound t
//|   pub each : (i : ℕ) → i < length order → answered_at t fresh order i ≡ 0
//|   pub whole : length order ≡ total (shape_of t)
pub fn TakenInTurn(t: &[u64], order: &[u64]) -> bool {
    let sound = Sound(t);
    let each = each(length(order), &|i| answered_at(t, &fresh(), order, i) == 0);
    let whole = length(order) == total(&shape_of(t));
    sound && each && whole
}

// ---- crates/judge/specs/Records.antt

//| unfoldable pub numbered : Shape → Record → ℕ
//| numbered s r =
//|     cond (eqb r.kind 0) (cond (ltb r.number s.units) (step_no r.number) (total s))
//|     (cond (eqb r.kind 1) (cond (ltb r.number s.outputs) (get_no s r.number) (total s))
//|     (cond (eqb r.kind 2) (cond (ltb r.number s.inputs) (set_no s r.number) (total s))
//|     (total s)))
pub fn numbered(s: &Shape, r: Record) -> u64 {
    if r.kind == 0 {
        if r.number < s.units {
            step_no(r.number)
        } else {
            total(s)
        }
    } else if r.kind == 1 {
        if r.number < s.outputs {
            get_no(s, r.number)
        } else {
            total(s)
        }
    } else if r.kind == 2 {
        if r.number < s.inputs {
            set_no(s, r.number)
        } else {
            total(s)
        }
    } else {
        total(s)
    }
}

//| unfoldable pub all_numbered : Shape → List Record → List ℕ
//| all_numbered s [] = []
//| all_numbered s (r ∷ rs) = numbered s r ∷ all_numbered s rs
pub fn all_numbered(s: &Shape, records: &[Record]) -> Vec<u64> {
    match records {
        [] => vec![],
        [r, rs @ ..] => cons(numbered(s, *r), all_numbered(s, rs)),
    }
}
