// Call numbers and direct precedence.
use super::library::{any, Test};
use super::search::{none, some};
use super::table::Shape;

// ---- crates/calls/src/lib.rt

//| pub enum Call {
//|     Step(usize),
//|     Get(usize),
//|     Set(usize),
//|     NoCall,
//| }
#[derive(Clone, Copy, Eq, Hash, PartialEq)]
pub enum Call {
    Step(u64),
    Get(u64),
    Set(u64),
    NoCall,
}

use Call::{Get, NoCall, Set, Step};

// ---- crates/calls/specs/Number.antt

//| unfoldable pub call_in : ℕ → ℕ → ℕ → ℕ → Call
//| call_in u y x c =
//|     cond (ltb c u) (Step c)
//|     (cond (ltb (c - u) y) (Get (c - u))
//|     (cond (ltb (c - u - y) x) (Set (c - u - y))
//|     NoCall))
pub fn call_in(u: u64, y: u64, x: u64, c: u64) -> Call {
    if c < u {
        Step(c)
    } else if c.saturating_sub(u) < y {
        Get(c.saturating_sub(u))
    } else if c.saturating_sub(u).saturating_sub(y) < x {
        Set(c.saturating_sub(u).saturating_sub(y))
    } else {
        NoCall
    }
}

//| abbrev pub call_of : Shape → ℕ → Call
//| call_of s = call_in s.units s.outputs s.inputs
pub fn call_of(s: &Shape, c: u64) -> Call {
    call_in(s.units, s.outputs, s.inputs, c)
}

//| abbrev pub step_no : ℕ → ℕ
//| step_no u = u
pub fn step_no(u: u64) -> u64 {
    u
}

//| abbrev pub get_no : Shape → ℕ → ℕ
//| get_no s y = s.units + y
pub fn get_no(s: &Shape, y: u64) -> u64 {
    s.units + y
}

//| abbrev pub set_no : Shape → ℕ → ℕ
//| set_no s x = s.units + s.outputs + x
pub fn set_no(s: &Shape, x: u64) -> u64 {
    s.units + s.outputs + x
}

// ---- crates/calls/specs/Precedence.antt

//| pub data Precedes (s : Shape) (a b : ℕ) : Type 0 where
//|   step_get : (y : ℕ) → y < s.outputs → a ≡ step_no (s.output_owner y) → b ≡ get_no s y → Precedes s a b
//|   get_set : (x : ℕ) → x < s.inputs → a ≡ get_no s (s.source x) → b ≡ set_no s x → Precedes s a b
//|   set_get : (k : ℕ) → k < s.feeds → a ≡ set_no s (s.feed_input k) → b ≡ get_no s (s.feed_output k) → Precedes s a b
//|   set-step : (x : ℕ) → x < s.inputs → s.kind x ≡ 1 → a ≡ set_no s x → b ≡ step_no (s.input_owner x) → Precedes s a b
//|   step_set : (x : ℕ) → x < s.inputs → s.kind x ≡ 0 → a ≡ step_no (s.input_owner x) → b ≡ set_no s x → Precedes s a b
pub fn Precedes(s: &Shape, a: u64, b: u64) -> bool {
    let step_get = any(s.outputs, &|y| a == step_no((s.output_owner)(y)) && b == get_no(s, y));
    let get_set = any(s.inputs, &|x| a == get_no(s, (s.source)(x)) && b == set_no(s, x));
    let set_get =
        any(s.feeds, &|k| a == set_no(s, (s.feed_input)(k)) && b == get_no(s, (s.feed_output)(k)));
    let set_step = any(s.inputs, &|x| {
        (s.kind)(x) == 1 && a == set_no(s, x) && b == step_no((s.input_owner)(x))
    });
    let step_set = any(s.inputs, &|x| {
        (s.kind)(x) == 0 && a == step_no((s.input_owner)(x)) && b == set_no(s, x)
    });
    step_get || get_set || set_get || set_step || step_set
}

//| unfoldable pub feeds_to : Shape → ℕ → ℕ → Bool
//| feeds_to s x y = some (λ k. eqb (s.feed_input k) x && eqb (s.feed_output k) y) s.feeds
pub fn feeds_to(s: &Shape, x: u64, y: u64) -> bool {
    some(&|k| (s.feed_input)(k) == x && (s.feed_output)(k) == y, s.feeds)
}

//| unfoldable pub has_kind : Shape → ℕ → ℕ → ℕ → Bool
//| has_kind s kind x u = eqb (s.kind x) kind && eqb (s.input_owner x) u
pub fn has_kind(s: &Shape, kind: u64, x: u64, u: u64) -> bool {
    (s.kind)(x) == kind && (s.input_owner)(x) == u
}

//| unfoldable pub by_kind : (ℕ → Bool) → (ℕ → Bool) → (ℕ → Bool) → Call → Bool
//| by_kind step get set (Step u) = step u
//| by_kind step get set (Get y) = get y
//| by_kind step get set (Set x) = set x
//| by_kind step get set NoCall = false
pub fn by_kind(step: Test, get: Test, set: Test, call: Call) -> bool {
    match call {
        Step(u) => step(u),
        Get(y) => get(y),
        Set(x) => set(x),
        NoCall => false,
    }
}

//| unfoldable pub before : Shape → Call → Call → Bool
//| before s (Step u) = by_kind none (λ y. eqb (s.output_owner y) u) (λ x. has_kind s 0 x u)
//| before s (Get y) = by_kind none none (λ x. eqb (s.source x) y)
//| before s (Set x) = by_kind (λ u. has_kind s 1 x u) (λ y. feeds_to s x y) none
//| before s NoCall = λ b. false
pub fn before(s: &Shape, a: Call, b: Call) -> bool {
    match a {
        Step(u) => by_kind(&none, &|y| (s.output_owner)(y) == u, &|x| has_kind(s, 0, x, u), b),
        Get(y) => by_kind(&none, &none, &|x| (s.source)(x) == y, b),
        Set(x) => by_kind(&|u| has_kind(s, 1, x, u), &|y| feeds_to(s, x, y), &none, b),
        NoCall => false,
    }
}

//| unfoldable pub precedes : Shape → ℕ → ℕ → Bool
//| precedes s a b = before s (call_of s a) (call_of s b)
pub fn precedes(s: &Shape, a: u64, b: u64) -> bool {
    before(s, call_of(s, a), call_of(s, b))
}
