// Quoted text as bytes, words, and a text as lines of fields.
use super::super::library::{cons, get_or, take};
use super::opening::Row;

// ---- crates/grammar/specs/Quoted.antt

//| abbrev pub ascii : String → List ℕ
//| ascii nothing = []
//| ascii (c then s) = code c ∷ ascii s
pub fn ascii(text: &str) -> Vec<u64> {
    let mut s = text.chars();
    match s.next() {
        None => vec![],
        Some(c) => cons(c as u64, ascii(s.as_str())),
    }
}

// ---- crates/grammar/specs/Words.antt

//| abbrev pub tab : ℕ
//| tab = 9
pub const TAB: u64 = 9;

//| abbrev pub lf : ℕ
//| lf = 10
pub const LF: u64 = 10;

//| unfoldable pub allowed : ℕ → Bool
//| allowed b = (leb 97 b && leb b 122) || ((leb 48 b && leb b 57) || (eqb b 95 || (eqb b tab || eqb b lf)))
pub fn allowed(b: u64) -> bool {
    (97 <= b && b <= 122) || ((48 <= b && b <= 57) || (b == 95 || (b == TAB || b == LF)))
}

//| unfoldable pub same : List ℕ → List ℕ → Bool
//| same [] [] = true
//| same [] (y ∷ ys) = false
//| same (x ∷ xs) [] = false
//| same (x ∷ xs) (y ∷ ys) = eqb x y && same xs ys
pub fn same(first: &[u64], second: &[u64]) -> bool {
    match (first, second) {
        ([], []) => true,
        ([], [_, ..]) => false,
        ([_, ..], []) => false,
        ([x, xs @ ..], [y, ys @ ..]) => x == y && same(xs, ys),
    }
}

// ---- crates/grammar/specs/Rows.antt

//| unfoldable pub grown : ℕ → List (List (List ℕ)) → List (List (List ℕ))
//| grown x [] = []
//| grown x ([] ∷ rs) = [] ∷ rs
//| grown x ((f ∷ fs) ∷ rs) = ((x ∷ f) ∷ fs) ∷ rs
pub fn grown(x: u64, mut rows: Vec<Row>) -> Vec<Row> {
    match rows.first_mut() {
        None => {}
        Some(row) => match row.first_mut() {
            None => {}
            Some(f) => f.insert(0, x),
        },
    }
    rows
}

//| unfoldable pub parted : List (List (List ℕ)) → List (List (List ℕ))
//| parted [] = []
//| parted (r ∷ rs) = ([] ∷ r) ∷ rs
pub fn parted(mut rows: Vec<Row>) -> Vec<Row> {
    match rows.first_mut() {
        None => {}
        Some(r) => r.insert(0, vec![]),
    }
    rows
}

//| unfoldable pub rows : List ℕ → List (List (List ℕ))
//| rows [] = []
//| rows (x ∷ xs) = cond (eqb x lf) (([] ∷ []) ∷ rows xs) (cond (eqb x tab) (parted (rows xs)) (grown x (rows xs)))
pub fn rows(text: &[u64]) -> Vec<Row> {
    match text {
        [] => vec![],
        [x, xs @ ..] => {
            if *x == LF {
                cons(vec![vec![]], rows(xs))
            } else if *x == TAB {
                parted(rows(xs))
            } else {
                grown(*x, rows(xs))
            }
        }
    }
}

//| unfoldable pub word : List (List ℕ) → ℕ → List ℕ
//| word f i = get_or f i []
pub fn word(f: &[Vec<u64>], i: u64) -> Vec<u64> {
    get_or(f, i, vec![])
}

//| unfoldable pub place : {A : Type 0} → (A → Bool) → List A → ℕ
//| place p [] = 0
//| place p (x ∷ xs) = cond (p x) 0 (suc (place p xs))
pub fn place<A>(p: &dyn Fn(&A) -> bool, list: &[A]) -> u64 {
    match list {
        [] => 0,
        [x, xs @ ..] => {
            if p(x) {
                0
            } else {
                place(p, xs) + 1
            }
        }
    }
}

//| unfoldable pub times : ℕ → List ℕ → ℕ
//| times c [] = 0
//| times c (x ∷ xs) = cond (eqb x c) (suc (times c xs)) (times c xs)
pub fn times(c: u64, list: &[u64]) -> u64 {
    match list {
        [] => 0,
        [x, xs @ ..] => {
            if *x == c {
                times(c, xs) + 1
            } else {
                times(c, xs)
            }
        }
    }
}

//| unfoldable pub line_of : List ℕ → ℕ → ℕ
//| line_of t i = suc (times lf (take i t))
pub fn line_of(t: &[u64], i: u64) -> u64 {
    times(LF, take(i, t)) + 1
}

//| unfoldable pub first_bad : List ℕ → ℕ
//| first_bad t = place (λ b. not (allowed b)) t
pub fn first_bad(t: &[u64]) -> u64 {
    place(&|b: &u64| !allowed(*b), t)
}
