// The packed table: its parts, what is sound, the check, an answer with the bytes it writes.
use super::library::{drop, each, get_or, length, take};
use super::search::{every, some};
use std::rc::Rc;

// ---- crates/table/src/lib.rt

//| pub struct Answer {
//|     pub number: u8,
//|     pub place: usize,
//| }
#[derive(Clone, Copy, Debug, PartialEq)]
pub struct Answer {
    pub number: u64,
    pub place: u64,
}

// ---- crates/table/specs/Shape.antt

//| pub record Shape : Type 0 where
//|   pub units : ℕ
//|   pub outputs : ℕ
//|   pub inputs : ℕ
//|   pub feeds : ℕ
//|   pub output_owner : ℕ → ℕ
//|   pub input_owner : ℕ → ℕ
//|   pub kind : ℕ → ℕ
//|   pub source : ℕ → ℕ
//|   pub feed_input : ℕ → ℕ
//|   pub feed_output : ℕ → ℕ
#[derive(Clone)]
pub struct Shape<'a> {
    pub units: u64,
    pub outputs: u64,
    pub inputs: u64,
    pub feeds: u64,
    pub output_owner: Rc<dyn Fn(u64) -> u64 + 'a>,
    pub input_owner: Rc<dyn Fn(u64) -> u64 + 'a>,
    pub kind: Rc<dyn Fn(u64) -> u64 + 'a>,
    pub source: Rc<dyn Fn(u64) -> u64 + 'a>,
    pub feed_input: Rc<dyn Fn(u64) -> u64 + 'a>,
    pub feed_output: Rc<dyn Fn(u64) -> u64 + 'a>,
}

//| abbrev pub total : Shape → ℕ
//| total s = s.units + s.outputs + s.inputs
pub fn total(s: &Shape) -> u64 {
    s.units + s.outputs + s.inputs
}

//| pub record Wired (s : Shape) : Type 0 where
//|   pub output-owned : (y : ℕ) → y < s.outputs → s.output_owner y < s.units
//|   pub input-owned : (x : ℕ) → x < s.inputs → s.input_owner x < s.units
//|   pub kind-known : (x : ℕ) → x < s.inputs → s.kind x ≤ 1
//|   pub sourced : (x : ℕ) → x < s.inputs → s.source x < s.outputs
//|   pub feed-input : (k : ℕ) → k < s.feeds → s.feed_input k < s.inputs
//|   pub feed-output : (k : ℕ) → k < s.feeds → s.feed_output k < s.outputs
//|   pub feed-unit : (k : ℕ) → k < s.feeds → s.input_owner (s.feed_input k) ≡ s.output_owner (s.feed_output k)
//|   pub feed-once : (j k : ℕ) → j < k → k < s.feeds
//|       → s.feed_input j ≡ s.feed_input k → s.feed_output j ≡ s.feed_output k → ⊥
pub fn Wired(s: &Shape) -> bool {
    let (input, output) = (&s.feed_input, &s.feed_output);
    let output_owned = each(s.outputs, &|y| (s.output_owner)(y) < s.units);
    let input_owned = each(s.inputs, &|x| (s.input_owner)(x) < s.units);
    let kind_known = each(s.inputs, &|x| (s.kind)(x) <= 1);
    let sourced = each(s.inputs, &|x| (s.source)(x) < s.outputs);
    let feed_input = each(s.feeds, &|k| input(k) < s.inputs);
    let feed_output = each(s.feeds, &|k| output(k) < s.outputs);
    let feed_unit = each(s.feeds, &|k| (s.input_owner)(input(k)) == (s.output_owner)(output(k)));
    let feed_once =
        each(s.feeds, &|k| each(k, &|j| !(input(j) == input(k) && output(j) == output(k))));
    output_owned
        && input_owned
        && kind_known
        && sourced
        && feed_input
        && feed_output
        && feed_unit
        && feed_once
}

// ---- crates/table/specs/Packed.antt

//| unfoldable pub units : List ℕ → ℕ
//| units t = get_or t 0 0
pub fn units(t: &[u64]) -> u64 {
    get_or(t, 0, 0)
}

//| unfoldable pub outputs : List ℕ → ℕ
//| outputs t = get_or t 1 0
pub fn outputs(t: &[u64]) -> u64 {
    get_or(t, 1, 0)
}

//| unfoldable pub inputs : List ℕ → ℕ
//| inputs t = get_or t 2 0
pub fn inputs(t: &[u64]) -> u64 {
    get_or(t, 2, 0)
}

//| unfoldable pub feeds : List ℕ → ℕ
//| feeds t = get_or t 3 0
pub fn feeds(t: &[u64]) -> u64 {
    get_or(t, 3, 0)
}

//| abbrev pub part : List ℕ → ℕ → ℕ → List ℕ
//| part t a n = take n (drop a t)
pub fn part(t: &[u64], a: u64, n: u64) -> &[u64] {
    take(n, drop(a, t))
}

//| unfoldable pub output_owners : List ℕ → List ℕ
//| output_owners t = part t 4 (outputs t)
pub fn output_owners(t: &[u64]) -> &[u64] {
    part(t, 4, outputs(t))
}

//| unfoldable pub input_owners : List ℕ → List ℕ
//| input_owners t = part t (4 + outputs t) (inputs t)
pub fn input_owners(t: &[u64]) -> &[u64] {
    part(t, 4 + outputs(t), inputs(t))
}

//| unfoldable pub kinds : List ℕ → List ℕ
//| kinds t = part t (4 + outputs t + inputs t) (inputs t)
pub fn kinds(t: &[u64]) -> &[u64] {
    part(t, 4 + outputs(t) + inputs(t), inputs(t))
}

//| unfoldable pub sources : List ℕ → List ℕ
//| sources t = part t (4 + outputs t + 2 * inputs t) (inputs t)
pub fn sources(t: &[u64]) -> &[u64] {
    part(t, 4 + outputs(t) + 2 * inputs(t), inputs(t))
}

//| unfoldable pub pairs : List ℕ → List ℕ
//| pairs t = part t (4 + outputs t + 3 * inputs t) (2 * feeds t)
pub fn pairs(t: &[u64]) -> &[u64] {
    part(t, 4 + outputs(t) + 3 * inputs(t), 2 * feeds(t))
}

//| abbrev pub pair_input : List ℕ → ℕ → ℕ
//| pair_input ps k = get_or ps (2 * k) 0
pub fn pair_input(ps: &[u64], k: u64) -> u64 {
    get_or(ps, 2 * k, 0)
}

//| abbrev pub pair_output : List ℕ → ℕ → ℕ
//| pair_output ps k = get_or ps (2 * k + 1) 0
pub fn pair_output(ps: &[u64], k: u64) -> u64 {
    get_or(ps, 2 * k + 1, 0)
}

//| unfoldable pub asked : List ℕ → ℕ
//| asked t = 4 + outputs t + 3 * inputs t + 2 * feeds t
pub fn asked(t: &[u64]) -> u64 {
    4 + outputs(t) + 3 * inputs(t) + 2 * feeds(t)
}

//| abbrev pub shape_of : List ℕ → Shape
//| shape_of t = record {
//|   units = units t;
//|   outputs = outputs t;
//|   inputs = inputs t;
//|   feeds = feeds t;
//|   output_owner = λ y. get_or (output_owners t) y 0;
//|   input_owner = λ x. get_or (input_owners t) x 0;
//|   kind = λ x. get_or (kinds t) x 0;
//|   source = λ x. get_or (sources t) x 0;
//|   feed_input = pair_input (pairs t);
//|   feed_output = pair_output (pairs t);
//| }
pub fn shape_of(t: &[u64]) -> Shape<'_> {
    Shape {
        units: units(t),
        outputs: outputs(t),
        inputs: inputs(t),
        feeds: feeds(t),
        output_owner: Rc::new(move |y| get_or(output_owners(t), y, 0)),
        input_owner: Rc::new(move |x| get_or(input_owners(t), x, 0)),
        kind: Rc::new(move |x| get_or(kinds(t), x, 0)),
        source: Rc::new(move |x| get_or(sources(t), x, 0)),
        feed_input: Rc::new(move |k| pair_input(pairs(t), k)),
        feed_output: Rc::new(move |k| pair_output(pairs(t), k)),
    }
}

// ---- crates/table/specs/Sound.antt

//| pub record Counted (t : List ℕ) : Type 0 where
//|   pub units-some : 1 ≤ units t
//|   pub units-most : units t ≤ 32
//|   pub outputs-most : outputs t ≤ 96
//|   pub inputs-most : inputs t ≤ 96
//|   pub feeds-most : feeds t ≤ 128
pub fn Counted(t: &[u64]) -> bool {
    let units_some = 1 <= units(t);
    let units_most = units(t) <= 32;
    let outputs_most = outputs(t) <= 96;
    let inputs_most = inputs(t) <= 96;
    let feeds_most = feeds(t) <= 128;
    units_some && units_most && outputs_most && inputs_most && feeds_most
}

//| pub record Sound (t : List ℕ) : Type 0 where
//|   pub four : 4 ≤ length t
//|   pub counted : Counted t
//|   pub long : length t ≡ asked t
//|   pub wired : Wired (shape_of t)
pub fn Sound(t: &[u64]) -> bool {
    let four = 4 <= length(t);
    let counted = Counted(t);
    let long = length(t) == asked(t);
    let wired = Wired(&shape_of(t));
    four && counted && long && wired
}

// ---- crates/table/specs/Check.antt

//| unfoldable pub refuse : Bool → ℕ → ℕ → ℕ
//| refuse fault number later = cond fault number later
pub fn refuse(fault: bool, number: u64, later: impl FnOnce() -> u64) -> u64 {
    if fault {
        number
    } else {
        later()
    }
}

//| unfoldable pub counts_in : ℕ → ℕ → ℕ → ℕ → Bool
//| counts_in u y x f = leb 1 u && (leb u 32 && (leb y 96 && (leb x 96 && leb f 128)))
pub fn counts_in(u: u64, y: u64, x: u64, f: u64) -> bool {
    1 <= u && (u <= 32 && (y <= 96 && (x <= 96 && f <= 128)))
}

//| unfoldable pub all_below : ℕ → List ℕ → Bool
//| all_below bound bytes = every (λ i. ltb (get_or bytes i 0) bound) (length bytes)
pub fn all_below(bound: u64, bytes: &[u64]) -> bool {
    every(&|i| get_or(bytes, i, 0) < bound, length(bytes))
}

//| unfoldable pub is_pair : List ℕ → ℕ → ℕ → ℕ → Bool
//| is_pair ps k input output = eqb (pair_input ps k) input && eqb (pair_output ps k) output
pub fn is_pair(ps: &[u64], k: u64, input: u64, output: u64) -> bool {
    pair_input(ps, k) == input && pair_output(ps, k) == output
}

//| unfoldable pub feed_known : List ℕ → List ℕ → List ℕ → ℕ → Bool
//| feed_known outs ins ps k =
//|     ltb (pair_input ps k) (length ins) && (ltb (pair_output ps k) (length outs)
//|     && eqb (get_or ins (pair_input ps k) 0) (get_or outs (pair_output ps k) 0))
pub fn feed_known(outs: &[u64], ins: &[u64], ps: &[u64], k: u64) -> bool {
    pair_input(ps, k) < length(ins)
        && (pair_output(ps, k) < length(outs)
            && get_or(ins, pair_input(ps, k), 0) == get_or(outs, pair_output(ps, k), 0))
}

//| unfoldable pub feed_again : List ℕ → ℕ → Bool
//| feed_again ps k = some (λ j. is_pair ps j (pair_input ps k) (pair_output ps k)) k
pub fn feed_again(ps: &[u64], k: u64) -> bool {
    some(&|j| is_pair(ps, j, pair_input(ps, k), pair_output(ps, k)), k)
}

//| unfoldable pub feeds_from : List ℕ → List ℕ → List ℕ → ℕ → ℕ → ℕ
//| feeds_from outs ins ps zero k = 0
//| feeds_from outs ins ps (suc n) k =
//|     refuse (not (feed_known outs ins ps k)) 6 (refuse (feed_again ps k) 7 (feeds_from outs ins ps n (suc k)))
pub fn feeds_from(outs: &[u64], ins: &[u64], ps: &[u64], n: u64, k: u64) -> u64 {
    match n {
        0 => 0,
        _ => refuse(!feed_known(outs, ins, ps, k), 6, || {
            refuse(feed_again(ps, k), 7, || feeds_from(outs, ins, ps, n - 1, k + 1))
        }),
    }
}

//| unfoldable pub wiring : List ℕ → ℕ
//| wiring t =
//|     refuse (not (all_below (units t) (output_owners t))) 3
//|     (refuse (not (all_below (units t) (input_owners t))) 3
//|     (refuse (not (all_below 2 (kinds t))) 4
//|     (refuse (not (all_below (outputs t) (sources t))) 5
//|     (feeds_from (output_owners t) (input_owners t) (pairs t) (feeds t) 0))))
pub fn wiring(t: &[u64]) -> u64 {
    refuse(!all_below(units(t), output_owners(t)), 3, || {
        refuse(!all_below(units(t), input_owners(t)), 3, || {
            refuse(!all_below(2, kinds(t)), 4, || {
                refuse(!all_below(outputs(t), sources(t)), 5, || {
                    feeds_from(output_owners(t), input_owners(t), pairs(t), feeds(t), 0)
                })
            })
        })
    })
}

//| unfoldable pub refusal : List ℕ → ℕ
//| refusal t =
//|     refuse (not (leb 4 (length t))) 1
//|     (refuse (not (counts_in (units t) (outputs t) (inputs t) (feeds t))) 2
//|     (refuse (not (eqb (length t) (asked t))) 1
//|     (wiring t)))
pub fn refusal(t: &[u64]) -> u64 {
    refuse(!(4 <= length(t)), 1, || {
        refuse(!counts_in(units(t), outputs(t), inputs(t), feeds(t)), 2, || {
            refuse(!(length(t) == asked(t)), 1, || wiring(t))
        })
    })
}

//| unfoldable pub checked : List ℕ → Answer
//| checked t = record { number = refusal t; place = cond (eqb (refusal t) 0) (total (shape_of t)) 0 }
pub fn checked(t: &[u64]) -> Answer {
    Answer { number: refusal(t), place: if refusal(t) == 0 { total(&shape_of(t)) } else { 0 } }
}

// ---- crates/table/specs/Outcome.antt

//| pub record Outcome : Type 0 where
//|   pub answer : Answer
//|   pub bytes : List ℕ
#[derive(Clone, Debug, PartialEq)]
pub struct Outcome {
    pub answer: Answer,
    pub bytes: Vec<u64>,
}

//| abbrev pub outcome : ℕ → ℕ → List ℕ → Outcome
//| outcome number place bytes = record { answer = record { number = number; place = place }; bytes = bytes }
pub fn outcome(number: u64, place: u64, bytes: Vec<u64>) -> Outcome {
    Outcome { answer: Answer { number, place }, bytes }
}
