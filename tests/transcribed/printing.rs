// The lines of an order, a cycle and a refusal; a buffer too small.
use super::calls::call_in;
use super::calls::Call::{self, Get, NoCall, Set, Step};
use super::grammar::opening::Row;
use super::grammar::rows::{ascii, word, LF, TAB};
use super::library::{append, cons, get_or, length};
use super::pen::decimal;
use super::table::{outcome, Outcome};

// ---- crates/printing/specs/Printed.antt

//| unfoldable pub printed : List (List ℕ) → List ℕ
//| printed [] = []
//| printed (f ∷ []) = f ++ (lf ∷ [])
//| printed (f ∷ g ∷ fs) = f ++ (tab ∷ printed (g ∷ fs))
pub fn printed(fields: &[Vec<u64>]) -> Vec<u64> {
    match fields {
        [] => vec![],
        [f] => append(f, &[LF]),
        [f, rest @ ..] => append(f, &cons(TAB, printed(rest))),
    }
}

// ---- crates/printing/specs/Entries.antt

//| unfoldable pub refusal_text : ℕ → ℕ → List ℕ
//| refusal_text n k = printed (ascii "refused" ∷ decimal n ∷ decimal k ∷ [])
pub fn refusal_text(n: u64, k: u64) -> Vec<u64> {
    printed(&[ascii("refused"), decimal(n), decimal(k)])
}

//| module _ (units outputs inputs : List (List (List ℕ))) where
//|   unfoldable pub entry : ℕ → Call → List ℕ
//|   entry k (Step u) = let f = get_or units u [] in printed (decimal k ∷ ascii "step" ∷ word f 1 ∷ ascii "-" ∷ [])
//|   entry k (Get y) = let f = get_or outputs y [] in printed (decimal k ∷ ascii "get" ∷ word f 1 ∷ word f 2 ∷ [])
//|   entry k (Set x) = let f = get_or inputs x [] in printed (decimal k ∷ ascii "set" ∷ word f 1 ∷ word f 2 ∷ [])
//|   entry k NoCall = []
pub fn entry(units: &[Row], outputs: &[Row], inputs: &[Row], k: u64, call: Call) -> Vec<u64> {
    match call {
        Step(u) => {
            let f = get_or(units, u, vec![]);
            printed(&[decimal(k), ascii("step"), word(&f, 1), ascii("-")])
        }
        Get(y) => {
            let f = get_or(outputs, y, vec![]);
            printed(&[decimal(k), ascii("get"), word(&f, 1), word(&f, 2)])
        }
        Set(x) => {
            let f = get_or(inputs, x, vec![]);
            printed(&[decimal(k), ascii("set"), word(&f, 1), word(&f, 2)])
        }
        NoCall => vec![],
    }
}

//|   unfoldable pub entries : ℕ → List ℕ → List ℕ
//|   entries k [] = []
//|   entries k (c ∷ cs) = entry k (call_in (length units) (length outputs) (length inputs) c) ++ entries (suc k) cs
pub fn entries(units: &[Row], outputs: &[Row], inputs: &[Row], k: u64, calls: &[u64]) -> Vec<u64> {
    match calls {
        [] => vec![],
        [c, cs @ ..] => {
            let call = call_in(length(units), length(outputs), length(inputs), *c);
            append(
                &entry(units, outputs, inputs, k, call),
                &entries(units, outputs, inputs, k + 1, cs),
            )
        }
    }
}

//|   unfoldable pub calls_text : List ℕ → List ℕ → List ℕ
//|   calls_text w cs = printed (w ∷ decimal (length cs) ∷ []) ++ entries 0 cs
pub fn calls_text(
    units: &[Row],
    outputs: &[Row],
    inputs: &[Row],
    w: Vec<u64>,
    cs: &[u64],
) -> Vec<u64> {
    append(&printed(&[w, decimal(length(cs))]), &entries(units, outputs, inputs, 0, cs))
}

//|   unfoldable pub outcome_text : Outcome → List ℕ
//|   outcome_text o =
//|       cond (eqb o.answer.number 0) (calls_text (ascii "order") o.bytes)
//|       (cond (eqb o.answer.number 9) (calls_text (ascii "cycle") o.bytes)
//|       (refusal_text o.answer.number o.answer.place))
pub fn outcome_text(units: &[Row], outputs: &[Row], inputs: &[Row], o: &Outcome) -> Vec<u64> {
    if o.answer.number == 0 {
        calls_text(units, outputs, inputs, ascii("order"), &o.bytes)
    } else if o.answer.number == 9 {
        calls_text(units, outputs, inputs, ascii("cycle"), &o.bytes)
    } else {
        refusal_text(o.answer.number, o.answer.place)
    }
}

// ---- crates/printing/specs/Listed.antt

//| unfoldable pub listed : List ℕ → ℕ → Outcome
//| listed s room = cond (ltb room (length s)) (outcome 34 0 []) (outcome 0 (length s) s)
pub fn listed(s: Vec<u64>, room: u64) -> Outcome {
    if room < length(&s) {
        outcome(34, 0, vec![])
    } else {
        outcome(0, length(&s), s)
    }
}
