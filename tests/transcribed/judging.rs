// The conditions of a call, the verdict, and what it is to pass.
use super::calls::Call::{self, Get, NoCall, Set, Step};
use super::calls::{call_of, get_no, has_kind, set_no, step_no};
use super::library::{any, each, get_or, implies, length, take, Test};
use super::search::{add, none, some};
use super::table::{refusal, refuse, shape_of, total, Answer, Shape};

// ---- crates/judging/specs/Conditions.antt

//| module _ (s : Shape) (done : ℕ → Bool) where
//|   unfoldable pub early : ℕ → Bool
//|   early u = some (λ x. has_kind s 0 x u && done (set_no s x)) s.inputs
pub fn early(s: &Shape, done: Test, u: u64) -> bool {
    some(&|x| has_kind(s, 0, x, u) && done(set_no(s, x)), s.inputs)
}

//|   unfoldable pub unset : ℕ → Bool
//|   unset u = some (λ x. has_kind s 1 x u && not (done (set_no s x))) s.inputs
pub fn unset(s: &Shape, done: Test, u: u64) -> bool {
    some(&|x| has_kind(s, 1, x, u) && !done(set_no(s, x)), s.inputs)
}

//|   unfoldable pub unstepped : ℕ → Bool
//|   unstepped y = not (done (step_no (s.output_owner y)))
pub fn unstepped(s: &Shape, done: Test, y: u64) -> bool {
    !done(step_no((s.output_owner)(y)))
}

//|   unfoldable pub unfed : ℕ → Bool
//|   unfed y = some (λ k. eqb (s.feed_output k) y && not (done (set_no s (s.feed_input k)))) s.feeds
pub fn unfed(s: &Shape, done: Test, y: u64) -> bool {
    some(&|k| (s.feed_output)(k) == y && !done(set_no(s, (s.feed_input)(k))), s.feeds)
}

//|   unfoldable pub ungot : ℕ → Bool
//|   ungot x = not (done (get_no s (s.source x)))
pub fn ungot(s: &Shape, done: Test, x: u64) -> bool {
    !done(get_no(s, (s.source)(x)))
}

//|   unfoldable pub refusal_of : Call → Bool → ℕ
//|   refusal_of (Step u) again = refuse again 12 (refuse (early u) 13 (refuse (unset u) 14 0))
//|   refusal_of (Get y) again = refuse again 12 (refuse (unstepped y) 15 (refuse (unfed y) 16 0))
//|   refusal_of (Set x) again = refuse again 12 (refuse (ungot x) 17 0)
//|   refusal_of NoCall again = 11
pub fn refusal_of(s: &Shape, done: Test, call: Call, again: bool) -> u64 {
    match call {
        Step(u) => refuse(again, 12, || {
            refuse(early(s, done, u), 13, || refuse(unset(s, done, u), 14, || 0))
        }),
        Get(y) => refuse(again, 12, || {
            refuse(unstepped(s, done, y), 15, || refuse(unfed(s, done, y), 16, || 0))
        }),
        Set(x) => refuse(again, 12, || refuse(ungot(s, done, x), 17, || 0)),
        NoCall => 11,
    }
}

//|   unfoldable pub refusal_at : ℕ → ℕ
//|   refusal_at c = refusal_of (call_of s c) (done c)
pub fn refusal_at(s: &Shape, done: Test, c: u64) -> u64 {
    refusal_of(s, done, call_of(s, c), done(c))
}

// ---- crates/judging/specs/Verdict.antt

//| abbrev pub answer : ℕ → ℕ → Answer
//| answer n k = record { number = n; place = k }
pub fn answer(n: u64, k: u64) -> Answer {
    Answer { number: n, place: k }
}

//| module _ (s : Shape) where
//|   unfoldable pub at_end : ℕ → Answer
//|   at_end k = answer (cond (eqb k (total s)) 0 18) k
pub fn at_end(s: &Shape, k: u64) -> Answer {
    answer(if k == total(s) { 0 } else { 18 }, k)
}

//|   unfoldable pub verdict_from : (ℕ → Bool) → List ℕ → ℕ → Answer
//|   verdict_from done [] k = at_end k
//|   verdict_from done (c ∷ l) k =
//|       cond (eqb (refusal_at s done c) 0) (verdict_from (add c done) l (suc k)) (answer (refusal_at s done c) k)
pub fn verdict_from(s: &Shape, done: Test, list: &[u64], k: u64) -> Answer {
    match list {
        [] => at_end(s, k),
        [c, l @ ..] => {
            if refusal_at(s, done, *c) == 0 {
                verdict_from(s, &|x| add(*c, done, x), l, k + 1)
            } else {
                answer(refusal_at(s, done, *c), k)
            }
        }
    }
}

//| unfoldable pub verdict_of : List ℕ → List ℕ → Answer
//| verdict_of t order = cond (eqb (refusal t) 0) (verdict_from (shape_of t) none order 0) (answer (refusal t) 0)
pub fn verdict_of(t: &[u64], order: &[u64]) -> Answer {
    if refusal(t) == 0 {
        verdict_from(&shape_of(t), &none, order, 0)
    } else {
        answer(refusal(t), 0)
    }
}

// ---- crates/judging/specs/Passes.antt

//| abbrev pub after : (ℕ → Bool) → List ℕ → ℕ → Bool
//| after done [] = done
//| after done (c ∷ l) = after (add c done) l
pub fn after(done: Test, list: &[u64], x: u64) -> bool {
    match list {
        [] => done(x),
        [c, l @ ..] => after(&|x| add(*c, done, x), l, x),
    }
}

//| module _ (s : Shape) where
//|   abbrev pub Allows : (ℕ → Bool) → Call → Type 0
//|   Allows done (Step u) =
//|       ((x : ℕ) → x < s.inputs → s.input_owner x ≡ u → s.kind x ≡ 0 → T (not (done (set_no s x))))
//|       × ((x : ℕ) → x < s.inputs → s.input_owner x ≡ u → s.kind x ≡ 1 → T (done (set_no s x)))
//|   Allows done (Get y) =
//|       T (done (step_no (s.output_owner y)))
//|       × ((k : ℕ) → k < s.feeds → s.feed_output k ≡ y → T (done (set_no s (s.feed_input k))))
//|   Allows done (Set x) = T (done (get_no s (s.source x)))
//|   Allows done NoCall = ⊥
pub fn Allows(s: &Shape, done: Test, call: Call) -> bool {
    let of_kind = |x, u, kind| (s.input_owner)(x) == u && (s.kind)(x) == kind;
    match call {
        Step(u) => {
            each(s.inputs, &|x| implies(of_kind(x, u, 0), || !done(set_no(s, x))))
                && each(s.inputs, &|x| implies(of_kind(x, u, 1), || done(set_no(s, x))))
        }
        Get(y) => {
            done(step_no((s.output_owner)(y)))
                && each(s.feeds, &|k| {
                    implies((s.feed_output)(k) == y, || done(set_no(s, (s.feed_input)(k))))
                })
        }
        Set(x) => done(get_no(s, (s.source)(x))),
        NoCall => false,
    }
}

//|   abbrev pub Meets : (ℕ → Bool) → ℕ → Type 0
//|   Meets done c = T (not (done c)) × Allows done (call_of s c)
pub fn Meets(s: &Shape, done: Test, c: u64) -> bool {
    !done(c) && Allows(s, done, call_of(s, c))
}

//|   pub record Passes (done : ℕ → Bool) (l : List ℕ) : Type 0 where
//|     pub meets : (i : ℕ) → i < length l → Meets (after done (take i l)) (get_or l i 0)
//|     pub whole : (c : ℕ) → c < total s → T (after done l c)
pub fn Passes(s: &Shape, done: Test, l: &[u64]) -> bool {
    let meets = each(length(l), &|i| Meets(s, &|x| after(done, take(i, l), x), get_or(l, i, 0)));
    let whole = each(total(s), &|c| after(done, l, c));
    meets && whole
}

// ---- crates/judging/specs/Judged.antt

//| module _ (s : Shape) where
//|   abbrev pub MeetsAll : (ℕ → Bool) → List ℕ → ℕ → Type 0
//|   MeetsAll done l n = (i : ℕ) → i < n → Meets s (after done (take i l)) (get_or l i 0)
pub fn MeetsAll(s: &Shape, done: Test, l: &[u64], n: u64) -> bool {
    each(n, &|i| Meets(s, &|x| after(done, take(i, l), x), get_or(l, i, 0)))
}

// ---- crates/judging/specs/Place.antt

//| module _ (s : Shape) where
//|   pub data Tells (done : ℕ → Bool) (l : List ℕ) (k : ℕ) (a : Answer) : Type 0 where
//|     passed : MeetsAll s done l (length l) → k + length l ≡ total s → a ≡ answer 0 (k + length l)
//|         → Tells done l k a
//|     ended : MeetsAll s done l (length l) → k + length l < total s → a ≡ answer 18 (k + length l)
//|         → Tells done l k a
//|     refused : (i : ℕ) → i < length l → k + i ≤ total s → MeetsAll s done l i
//|         → (Meets s (after done (take i l)) (get_or l i 0) → ⊥)
//|         → a ≡ answer (refusal_at s (after done (take i l)) (get_or l i 0)) (k + i) → Tells done l k a
pub fn Tells(s: &Shape, done: Test, l: &[u64], k: u64, a: Answer) -> bool {
    let (long, all) = (length(l), MeetsAll(s, done, l, length(l)));
    let passed = all && k + long == total(s) && a == answer(0, k + long);
    let ended = all && k + long < total(s) && a == answer(18, k + long);
    let refused = any(long, &|i| {
        let (then, c) = (|x| after(done, take(i, l), x), get_or(l, i, 0));
        k + i <= total(s)
            && MeetsAll(s, done, l, i)
            && !Meets(s, &then, c)
            && a == answer(refusal_at(s, &then, c), k + i)
    });
    passed || ended || refused
}
