// The whole text: its checks, its first line, its lines, its end, and the packed bytes.
use super::super::library::{append, cons, drop, get_or, length};
use super::draft::{blank, input_of, known, loose, Draft, Feed};
use super::lines::line;
use super::opening::Row;
use super::rows::{ascii, first_bad, line_of, rows, same, word, LF};

// ---- crates/grammar/specs/Reading.antt

//| pub record Reading : Type 0 where
//|   pub number : ℕ
//|   pub place : ℕ
//|   pub bytes : List ℕ
#[derive(Clone, Debug, PartialEq)]
pub struct Reading {
    pub number: u64,
    pub place: u64,
    pub bytes: Vec<u64>,
}

//| unfoldable pub stopped : ℕ → ℕ → Reading
//| stopped n k = record { number = n; place = k; bytes = [] }
pub fn stopped(n: u64, k: u64) -> Reading {
    Reading { number: n, place: k, bytes: vec![] }
}

//| unfoldable pub pairs : List Feed → List ℕ
//| pairs [] = []
//| pairs (f ∷ fs) = f.input ∷ (f.output ∷ pairs fs)
pub fn pairs(feeds: &[Feed]) -> Vec<u64> {
    match feeds {
        [] => vec![],
        [f, fs @ ..] => cons(f.input, cons(f.output, pairs(fs))),
    }
}

//| unfoldable pub packed : Draft → List ℕ
//| packed d =
//|     length d.units ∷ (length d.outputs ∷ (length d.inputs ∷ (length d.feeds ∷
//|     (map (λ o. o.owner) d.outputs ++ (map (λ i. i.owner) d.inputs
//|     ++ (map (λ i. i.kind) d.inputs ++ (map (λ i. i.source) d.inputs ++ pairs d.feeds)))))))
pub fn packed(d: &Draft) -> Vec<u64> {
    let counts = [length(&d.units), length(&d.outputs), length(&d.inputs), length(&d.feeds)];
    let output_owners: Vec<u64> = d.outputs.iter().map(|o| o.owner).collect();
    let input_owners: Vec<u64> = d.inputs.iter().map(|i| i.owner).collect();
    let kinds: Vec<u64> = d.inputs.iter().map(|i| i.kind).collect();
    let sources: Vec<u64> = d.inputs.iter().map(|i| i.source).collect();
    let rest = append(&kinds, &append(&sources, &pairs(&d.feeds)));
    append(&counts, &append(&output_owners, &append(&input_owners, &rest)))
}

//| unfoldable pub ending : ℕ → Draft → Reading
//| ending room d =
//|     cond (eqb (length d.units) 0) (stopped 33 1)
//|     (cond (known d.inputs (loose d)) (stopped 31 (input_of d (loose d)).line)
//|     (cond (ltb room (length (packed d))) (stopped 34 0)
//|     (record { number = 0; place = length (packed d); bytes = packed d })))
pub fn ending(room: u64, d: &Draft) -> Reading {
    if length(&d.units) == 0 {
        stopped(33, 1)
    } else if known(&d.inputs, loose(d)) {
        stopped(31, input_of(d, loose(d)).line)
    } else if room < length(&packed(d)) {
        stopped(34, 0)
    } else {
        Reading { number: 0, place: length(&packed(d)), bytes: packed(d) }
    }
}

//| unfoldable pub lines_from : ℕ → Draft → ℕ → List (List (List ℕ)) → Reading
//| lines_from room d k [] = ending room d
//| lines_from room d k (f ∷ fs) =
//|     let o = line d k f in
//|     cond (eqb o.number 0) (lines_from room o.draft (suc k) fs) (stopped o.number k)
pub fn lines_from(room: u64, d: &Draft, k: u64, rows: &[Row]) -> Reading {
    match rows {
        [] => ending(room, d),
        [f, fs @ ..] => {
            let o = line(d, k, f);
            if o.number == 0 {
                lines_from(room, &o.draft, k + 1, fs)
            } else {
                stopped(o.number, k)
            }
        }
    }
}

//| unfoldable pub version : List (List ℕ) → ℕ
//| version f = cond (eqb (length f) 2 && (same (word f 0) (ascii "cosim") && same (word f 1) (ascii "1"))) 1 0
pub fn version(f: &[Vec<u64>]) -> u64 {
    if length(f) == 2 && (same(&word(f, 0), &ascii("cosim")) && same(&word(f, 1), &ascii("1"))) {
        1
    } else {
        0
    }
}

//| unfoldable pub line_by_line : ℕ → List (List (List ℕ)) → Reading
//| line_by_line room fs = cond (eqb (version (get_or fs 0 [])) 0) (stopped 23 1) (lines_from room blank 2 (drop 1 fs))
pub fn line_by_line(room: u64, fs: &[Row]) -> Reading {
    if version(&get_or(fs, 0, vec![])) == 0 {
        stopped(23, 1)
    } else {
        lines_from(room, &blank(), 2, drop(1, fs))
    }
}

//| unfoldable pub reading : ℕ → List ℕ → Reading
//| reading room t =
//|     cond (eqb (length t) 0 || ltb 24576 (length t)) (stopped 20 0)
//|     (cond (not (eqb (get_or t (length t - 1) 0) lf)) (stopped 21 (line_of t (length t)))
//|     (cond (ltb (first_bad t) (length t)) (stopped 22 (line_of t (first_bad t)))
//|     (line_by_line room (rows t))))
pub fn reading(room: u64, t: &[u64]) -> Reading {
    if length(t) == 0 || 24576 < length(t) {
        stopped(20, 0)
    } else if !(get_or(t, length(t).saturating_sub(1), 0) == LF) {
        stopped(21, line_of(t, length(t)))
    } else if first_bad(t) < length(t) {
        stopped(22, line_of(t, first_bad(t)))
    } else {
        line_by_line(room, &rows(t))
    }
}
