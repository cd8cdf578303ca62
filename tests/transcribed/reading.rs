// The words of the theorems on the text: the table by its lines alone, and the line of a refusal.
use super::grammar::draft::{blank, Draft, Feed};
use super::grammar::lines::{kind_of, line};
use super::grammar::opening::{lines_of, Row};
use super::grammar::reading::{pairs, Reading};
use super::grammar::rows::{ascii, first_bad, line_of, place, rows, same, times, word, LF};
use super::library::{append, cons, drop, each, get_or, implies, length};
use super::table::Shape;

// ---- crates/reading/specs/Numbers.antt

//| unfoldable pub unit_number : List Row → List ℕ → ℕ
//| unit_number fs n = place (λ f. same (word f 1) n) (lines_of fs (ascii "unit"))
pub fn unit_number(fs: &[Row], n: &[u64]) -> u64 {
    place(&|f: &Row| same(&word(f, 1), n), &lines_of(fs, &ascii("unit")))
}

//| unfoldable pub port_number : List ℕ → List Row → List ℕ → List ℕ → ℕ
//| port_number w fs u n = place (λ f. same (word f 1) u && same (word f 2) n) (lines_of fs w)
pub fn port_number(w: &[u64], fs: &[Row], u: &[u64], n: &[u64]) -> u64 {
    place(&|f: &Row| same(&word(f, 1), u) && same(&word(f, 2), n), &lines_of(fs, w))
}

//| abbrev pub output_number : List Row → List ℕ → List ℕ → ℕ
//| output_number = port_number (ascii "out")
pub fn output_number(fs: &[Row], u: &[u64], n: &[u64]) -> u64 {
    port_number(&ascii("out"), fs, u, n)
}

//| abbrev pub input_number : List Row → List ℕ → List ℕ → ℕ
//| input_number = port_number (ascii "in")
pub fn input_number(fs: &[Row], u: &[u64], n: &[u64]) -> u64 {
    port_number(&ascii("in"), fs, u, n)
}

//| unfoldable pub join_place : List Row → List ℕ → List ℕ → ℕ
//| join_place fs u n = place (λ f. same (word f 3) u && same (word f 4) n) (lines_of fs (ascii "join"))
pub fn join_place(fs: &[Row], u: &[u64], n: &[u64]) -> u64 {
    let joins = lines_of(fs, &ascii("join"));
    place(&|f: &Row| same(&word(f, 3), u) && same(&word(f, 4), n), &joins)
}

//| unfoldable pub join_of : List Row → List ℕ → List ℕ → Row
//| join_of fs u n = get_or (lines_of fs (ascii "join")) (join_place fs u n) []
pub fn join_of(fs: &[Row], u: &[u64], n: &[u64]) -> Row {
    get_or(&lines_of(fs, &ascii("join")), join_place(fs, u, n), vec![])
}

//| unfoldable pub source_number : List Row → List ℕ → List ℕ → ℕ
//| source_number fs u n = output_number fs (word (join_of fs u n) 1) (word (join_of fs u n) 2)
pub fn source_number(fs: &[Row], u: &[u64], n: &[u64]) -> u64 {
    let join = join_of(fs, u, n);
    output_number(fs, &word(&join, 1), &word(&join, 2))
}

//| unfoldable pub is_loose : List Row → Row → Bool
//| is_loose fs f =
//|     same (word f 0) (ascii "in")
//|     && leb (length (lines_of fs (ascii "join"))) (join_place fs (word f 1) (word f 2))
pub fn is_loose(fs: &[Row], f: &Row) -> bool {
    same(&word(f, 0), &ascii("in"))
        && length(&lines_of(fs, &ascii("join"))) <= join_place(fs, &word(f, 1), &word(f, 2))
}

//| unfoldable pub feed_numbers : List Row → Row → Feed
//| feed_numbers fs f = record {
//|   input = input_number fs (word f 1) (word f 2);
//|   output = output_number fs (word f 1) (word f 3);
//| }
pub fn feed_numbers(fs: &[Row], f: &Row) -> Feed {
    Feed {
        input: input_number(fs, &word(f, 1), &word(f, 2)),
        output: output_number(fs, &word(f, 1), &word(f, 3)),
    }
}

//| unfoldable pub numbered : List Row → List ℕ
//| numbered fs =
//|     let units = lines_of fs (ascii "unit") in
//|     let outputs = lines_of fs (ascii "out") in
//|     let inputs = lines_of fs (ascii "in") in
//|     let feeds = lines_of fs (ascii "feed") in
//|     length units ∷ (length outputs ∷ (length inputs ∷ (length feeds ∷
//|     (map (λ f. unit_number fs (word f 1)) outputs ++ (map (λ f. unit_number fs (word f 1)) inputs
//|     ++ (map (λ f. kind_of (word f 3)) inputs ++ (map (λ f. source_number fs (word f 1) (word f 2)) inputs
//|     ++ pairs (map (feed_numbers fs) feeds))))))))
pub fn numbered(fs: &[Row]) -> Vec<u64> {
    let units = lines_of(fs, &ascii("unit"));
    let outputs = lines_of(fs, &ascii("out"));
    let inputs = lines_of(fs, &ascii("in"));
    let feeds = lines_of(fs, &ascii("feed"));
    let unit = |f: &Row| unit_number(fs, &word(f, 1));
    let output_owners: Vec<u64> = outputs.iter().map(unit).collect();
    let input_owners: Vec<u64> = inputs.iter().map(unit).collect();
    let kinds: Vec<u64> = inputs.iter().map(|f| kind_of(&word(f, 3))).collect();
    let sources: Vec<u64> =
        inputs.iter().map(|f| source_number(fs, &word(f, 1), &word(f, 2))).collect();
    let fed: Vec<Feed> = feeds.iter().map(|f| feed_numbers(fs, f)).collect();
    let counts = [length(&units), length(&outputs), length(&inputs), length(&feeds)];
    let rest = append(&kinds, &append(&sources, &pairs(&fed)));
    append(&counts, &append(&output_owners, &append(&input_owners, &rest)))
}

// ---- crates/reading/specs/InOrder.antt

//| pub record InOrder (fs : List Row) (s : Shape) : Type 0 where
//|   pub unit_lines : s.units ≡ length (lines_of fs (ascii "unit"))
//|   pub output-lines : s.outputs ≡ length (lines_of fs (ascii "out"))
//|   pub input-lines : s.inputs ≡ length (lines_of fs (ascii "in"))
//|   pub feed-lines : s.feeds ≡ length (lines_of fs (ascii "feed"))
//|   pub output-owner : (y : ℕ) → y < s.outputs → let f = get_or (lines_of fs (ascii "out")) y [] in
//|       s.output_owner y ≡ unit_number fs (word f 1)
//|   pub input-owner : (x : ℕ) → x < s.inputs → let f = get_or (lines_of fs (ascii "in")) x [] in
//|       s.input_owner x ≡ unit_number fs (word f 1)
//|   pub input-kind : (x : ℕ) → x < s.inputs → let f = get_or (lines_of fs (ascii "in")) x [] in
//|       s.kind x ≡ kind_of (word f 3)
//|   pub input-source : (x : ℕ) → x < s.inputs → let f = get_or (lines_of fs (ascii "in")) x [] in
//|       s.source x ≡ source_number fs (word f 1) (word f 2)
//|   pub feed-input : (k : ℕ) → k < s.feeds → let f = get_or (lines_of fs (ascii "feed")) k [] in
//|       s.feed_input k ≡ input_number fs (word f 1) (word f 2)
//|   pub feed-output : (k : ℕ) → k < s.feeds → let f = get_or (lines_of fs (ascii "feed")) k [] in
//|       s.feed_output k ≡ output_number fs (word f 1) (word f 3)
pub fn InOrder(fs: &[Row], s: &Shape) -> bool {
    let [units, outputs, inputs, feeds] =
        ["unit", "out", "in", "feed"].map(|w| lines_of(fs, &ascii(w)));
    let unit_lines = s.units == length(&units);
    let output_lines = s.outputs == length(&outputs);
    let input_lines = s.inputs == length(&inputs);
    let feed_lines = s.feeds == length(&feeds);
    let output_owner = each(s.outputs, &|y| {
        let f = get_or(&outputs, y, vec![]);
        (s.output_owner)(y) == unit_number(fs, &word(&f, 1))
    });
    let input_owner = each(s.inputs, &|x| {
        let f = get_or(&inputs, x, vec![]);
        (s.input_owner)(x) == unit_number(fs, &word(&f, 1))
    });
    let input_kind = each(s.inputs, &|x| {
        let f = get_or(&inputs, x, vec![]);
        (s.kind)(x) == kind_of(&word(&f, 3))
    });
    let input_source = each(s.inputs, &|x| {
        let f = get_or(&inputs, x, vec![]);
        (s.source)(x) == source_number(fs, &word(&f, 1), &word(&f, 2))
    });
    let feed_input = each(s.feeds, &|k| {
        let f = get_or(&feeds, k, vec![]);
        (s.feed_input)(k) == input_number(fs, &word(&f, 1), &word(&f, 2))
    });
    let feed_output = each(s.feeds, &|k| {
        let f = get_or(&feeds, k, vec![]);
        (s.feed_output)(k) == output_number(fs, &word(&f, 1), &word(&f, 3))
    });
    let counts = unit_lines && output_lines && input_lines && feed_lines;
    counts && output_owner && input_owner && input_kind && input_source && feed_input && feed_output
}

// ---- crates/reading/specs/WhichLine.antt

//| unfoldable pub line_count : List ℕ → ℕ
//| line_count t = cond (eqb (length t) 0 || eqb (get_or t (length t - 1) 0) lf) (times lf t) (suc (times lf t))
pub fn line_count(t: &[u64]) -> u64 {
    if length(t) == 0 || get_or(t, length(t).saturating_sub(1), 0) == LF {
        times(LF, t)
    } else {
        times(LF, t) + 1
    }
}

//| unfoldable pub refusals : Draft → ℕ → List Row → List ℕ
//| refusals d k [] = []
//| refusals d k (f ∷ fs) = (line d k f).number ∷ refusals (line d k f).draft (suc k) fs
pub fn refusals(d: &Draft, k: u64, rows: &[Row]) -> Vec<u64> {
    match rows {
        [] => vec![],
        [f, fs @ ..] => {
            let o = line(d, k, f);
            cons(o.number, refusals(&o.draft, k + 1, fs))
        }
    }
}

//| pub record Lined (t : List ℕ) (r : Reading) : Type 0 where
//|   pub none : (r.place ≡ 0) ↔ ((r.number ≡ 20) ⊎ (r.number ≡ 34))
//|   pub within : r.place ≤ line_count t
//|   pub last : r.number ≡ 21 → r.place ≡ line_count t
//|   pub byte : r.number ≡ 22 → r.place ≡ line_of t (first_bad t)
//|   pub first : (r.number ≡ 23) ⊎ (r.number ≡ 33) → r.place ≡ 1
//|   pub loose : r.number ≡ 31 → r.place ≡ suc (place (is_loose (rows t)) (rows t))
//|   pub refused : 24 ≤ r.number → r.number ≤ 32 → (r.number ≡ 31 → ⊥)
//|       → let numbers = refusals blank 2 (drop 1 (rows t)) in let i = place (λ n. not (eqb n 0)) numbers in
//|       (r.place ≡ 2 + i) × (r.number ≡ get_or numbers i 0)
pub fn Lined(t: &[u64], r: &Reading) -> bool {
    let none = (r.place == 0) == (r.number == 20 || r.number == 34);
    let within = r.place <= line_count(t);
    let last = implies(r.number == 21, || r.place == line_count(t));
    let byte = implies(r.number == 22, || r.place == line_of(t, first_bad(t)));
    let first = implies(r.number == 23 || r.number == 33, || r.place == 1);
    let loose = implies(r.number == 31, || {
        let fs = rows(t);
        r.place == place(&|f: &Row| is_loose(&fs, f), &fs) + 1
    });
    let refused = implies(24 <= r.number && r.number <= 32 && r.number != 31, || {
        let numbers = refusals(&blank(), 2, drop(1, &rows(t)));
        let i = place(&|n: &u64| !(*n == 0), &numbers);
        r.place == 2 + i && r.number == get_or(&numbers, i, 0)
    });
    none && within && last && byte && first && loose && refused
}
