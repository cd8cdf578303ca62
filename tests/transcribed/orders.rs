// Demand 2's words by places, and the two procedures: the order, and the cycle shown.
use super::library::{
    any, append, cons, drop, each, get_or, implies, length, permutations, remembered, take,
    Relation, Test,
};
use super::search::{add, least_from, none, some};

// ---- crates/orders/specs/Keeps.antt

//| module _ (N : ℕ) (pred : ℕ → ℕ → Bool) where
//|   pub record Keeps (l : List ℕ) : Type 0 where
//|     pub calls : (i : ℕ) → i < length l → get_or l i 0 < N
//|     pub holds : (c : ℕ) → c < N → (i : ℕ) × (i < length l) × (get_or l i 0 ≡ c)
//|     pub once : (i j : ℕ) → i < length l → j < length l → get_or l i 0 ≡ get_or l j 0 → i ≡ j
//|     pub rules : (i j : ℕ) → i < length l → j < length l → T (pred (get_or l i 0) (get_or l j 0)) → i < j
pub fn Keeps(N: u64, pred: Relation, l: &[u64]) -> bool {
    let (long, at) = (length(l), |i| get_or(l, i, 0));
    let calls = each(long, &|i| at(i) < N);
    let holds = each(N, &|c| any(long, &|i| at(i) == c));
    let once = each(long, &|i| each(long, &|j| implies(at(i) == at(j), || i == j)));
    let rules = each(long, &|i| each(long, &|j| implies(pred(at(i), at(j)), || i < j)));
    calls && holds && once && rules
}

// ---- crates/orders/specs/Cycle.antt

//| module _ (N : ℕ) (pred : ℕ → ℕ → Bool) where
//|   pub record Cycle (l : List ℕ) : Type 0 where
//|     pub any : 0 < length l
//|     pub calls : (i : ℕ) → i < length l → get_or l i 0 < N
//|     pub next : (i : ℕ) → suc i < length l → T (pred (get_or l i 0) (get_or l (suc i) 0))
//|     pub last : T (pred (get_or l (length l - 1) 0) (get_or l 0 0))
pub fn Cycle(N: u64, pred: Relation, l: &[u64]) -> bool {
    let (long, at) = (length(l), |i| get_or(l, i, 0));
    let any = 0 < long;
    let calls = each(long, &|i| at(i) < N);
    let next = each(long, &|i| implies(i + 1 < long, || pred(at(i), at(i + 1))));
    let last = pred(at(long.saturating_sub(1)), at(0));
    any && calls && next && last
}

// ---- crates/orders/specs/First.antt

//| abbrev pub NoLater : List ℕ → List ℕ → Type 0
//| NoLater l m =
//|     (i : ℕ) → i < length l → ((j : ℕ) → j < i → get_or l j 0 ≡ get_or m j 0) → get_or l i 0 ≤ get_or m i 0
pub fn NoLater(l: &[u64], m: &[u64]) -> bool {
    each(length(l), &|i| {
        implies(each(i, &|j| get_or(l, j, 0) == get_or(m, j, 0)), || get_or(l, i, 0) <= get_or(m, i, 0))
    })
}

//| pub record First (N : ℕ) (pred : ℕ → ℕ → Bool) (l : List ℕ) : Type 0 where
//|   pub keeps : Keeps N pred l
//|   pub least : (m : List ℕ) → Keeps N pred m → NoLater l m
pub fn First(N: u64, pred: Relation, l: &[u64]) -> bool {
    let keeps = Keeps(N, pred, l);
    let least = permutations(N).iter().all(|m| implies(Keeps(N, pred, m), || NoLater(l, m)));
    keeps && least
}

// ---- crates/orders/specs/Sort.antt

//| abbrev pub lacks : (ℕ → ℕ → Bool) → (ℕ → Bool) → ℕ → ℕ → Bool
//| lacks pred done c a = pred a c && not (done a)
pub fn lacks(pred: Relation, done: Test, c: u64, a: u64) -> bool {
    pred(a, c) && !done(a)
}

//| module _ (N : ℕ) (pred : ℕ → ℕ → Bool) where
//|   unfoldable pub ready : (ℕ → Bool) → ℕ → Bool
//|   ready done c = not (done c) && not (some (lacks pred done c) N)
pub fn ready(N: u64, pred: Relation, done: Test, c: u64) -> bool {
    !done(c) && !some(&|a| lacks(pred, done, c, a), N)
}

//|   unfoldable pub next_call : (ℕ → Bool) → ℕ
//|   next_call done = least_from (ready done) N 0
pub fn next_call(N: u64, pred: Relation, done: Test) -> u64 {
    least_from(&|c| ready(N, pred, done, c), N, 0)
}

//|   unfoldable pub sort : ℕ → (ℕ → Bool) → List ℕ
//|   sort zero done = []
//|   sort (suc n) done = cond (ltb (next_call done) N) (next_call done ∷ sort n (add (next_call done) done)) []
pub fn sort(N: u64, pred: Relation, n: u64, done: Test) -> Vec<u64> {
    match n {
        0 => vec![],
        _ => {
            let next = next_call(N, pred, done);
            if next < N {
                cons(next, sort(N, pred, n - 1, &|x| add(next, done, x)))
            } else {
                vec![]
            }
        }
    }
}

//|   unfoldable pub placed : List ℕ
//|   placed = sort N none
pub fn placed(N: u64, pred: Relation) -> Vec<u64> {
    sort(N, pred, N, &none)
}

// ---- crates/orders/specs/Walk.antt

//| abbrev pub among : List ℕ → ℕ → Bool
//| among [] c = false
//| among (x ∷ l) c = eqb c x || among l c
pub fn among(list: &[u64], c: u64) -> bool {
    match list {
        [] => false,
        [x, l @ ..] => c == *x || among(l, c),
    }
}

//| unfoldable pub upto : ℕ → List ℕ → List ℕ
//| upto c [] = []
//| upto c (x ∷ l) = cond (eqb c x) (x ∷ []) (x ∷ upto c l)
pub fn upto(c: u64, list: &[u64]) -> Vec<u64> {
    match list {
        [] => vec![],
        [x, l @ ..] => {
            if c == *x {
                vec![*x]
            } else {
                cons(*x, upto(c, l))
            }
        }
    }
}

//| module _ (N : ℕ) (pred : ℕ → ℕ → Bool) (done : ℕ → Bool) where
//|   unfoldable pub lowest_before : ℕ → ℕ
//|   lowest_before c = least_from (lacks pred done c) N 0
pub fn lowest_before(N: u64, pred: Relation, done: Test, c: u64) -> u64 {
    least_from(&|a| lacks(pred, done, c, a), N, 0)
}

//|   unfoldable pub walk : ℕ → List ℕ → ℕ → List ℕ
//|   walk zero seen c = []
//|   walk (suc n) seen c = cond (among seen c) (upto c seen) (walk n (c ∷ seen) (lowest_before c))
pub fn walk(N: u64, pred: Relation, done: Test, n: u64, seen: &[u64], c: u64) -> Vec<u64> {
    match n {
        0 => vec![],
        _ => {
            if among(seen, c) {
                upto(c, seen)
            } else {
                let before = lowest_before(N, pred, done, c);
                walk(N, pred, done, n - 1, &cons(c, seen.to_vec()), before)
            }
        }
    }
}

//|   unfoldable pub lowest_left : ℕ
//|   lowest_left = least_from (λ c. not (done c)) N 0
pub fn lowest_left(N: u64, done: Test) -> u64 {
    least_from(&|c| !done(c), N, 0)
}

//|   unfoldable pub met : List ℕ
//|   met = walk (suc N) [] lowest_left
pub fn met(N: u64, pred: Relation, done: Test) -> Vec<u64> {
    walk(N, pred, done, N + 1, &[], lowest_left(N, done))
}

// ---- crates/orders/specs/Turn.antt

//| abbrev pub turn : ℕ → List ℕ → List ℕ
//| turn k l = drop k l ++ take k l
pub fn turn(k: u64, l: &[u64]) -> Vec<u64> {
    append(drop(k, l), take(k, l))
}

//| unfoldable pub lowest_of : ℕ → List ℕ → ℕ
//| lowest_of N l = least_from (among l) N 0
pub fn lowest_of(N: u64, l: &[u64]) -> u64 {
    least_from(&|c| among(l, c), N, 0)
}

//| unfoldable pub lowest_place : ℕ → List ℕ → ℕ
//| lowest_place N l = least_from (λ i. eqb (get_or l i 0) (lowest_of N l)) (length l) 0
pub fn lowest_place(N: u64, l: &[u64]) -> u64 {
    least_from(&|i| get_or(l, i, 0) == lowest_of(N, l), length(l), 0)
}

//| unfoldable pub shown : (N : ℕ) (pred : ℕ → ℕ → Bool) → (ℕ → Bool) → List ℕ
//| shown N pred done = turn (lowest_place N (met N pred done)) (met N pred done)
pub fn shown(N: u64, pred: Relation, done: Test) -> Vec<u64> {
    let met = met(N, pred, done);
    turn(lowest_place(N, &met), &met)
}

// ---- crates/orders/specs/Meets.antt

//| module _ (N : ℕ) (pred : ℕ → ℕ → Bool) (done : ℕ → Bool) where
//|   unfoldable pub visit : ℕ → ℕ
//|   visit zero = lowest_left N pred done
//|   visit (suc i) = lowest_before N pred done (visit i)
pub fn visit(N: u64, pred: Relation, done: Test, i: u64) -> u64 {
    match i {
        0 => lowest_left(N, done),
        _ => lowest_before(N, pred, done, visit(N, pred, done, i - 1)),
    }
}

//|   pub record MeetsAgain : Type 0 where
//|     pub first : ℕ
//|     pub again : ℕ
//|     pub later : first < again
//|     pub soon : again ≤ N
//|     pub same : visit again ≡ visit first
//|     pub new : (i j : ℕ) → i < j → j < again → visit i ≡ visit j → ⊥
//|     pub call : (i : ℕ) → i ≤ again → visit i < N
//|     pub left : (i : ℕ) → i ≤ again → T (not (done (visit i)))
//|     pub back : (i : ℕ) → i < again → T (pred (visit (suc i)) (visit i))
// each `first` and `again` with which the record can be made
pub fn MeetsAgain(N: u64, pred: Relation, done: Test) -> Vec<(u64, u64)> {
    let at = remembered(|i| visit(N, pred, done, i));
    let meets = |first: u64, again: u64| {
        let later = first < again;
        let same = at(again) == at(first);
        let new = each(again, &|j| each(j, &|i| at(i) != at(j)));
        let call = each(again + 1, &|i| at(i) < N);
        let left = each(again + 1, &|i| !done(at(i)));
        let back = each(again, &|i| pred(at(i + 1), at(i)));
        later && same && new && call && left && back
    };
    let pairs = (0..=N).flat_map(|again| (0..=N).map(move |first| (first, again)));
    pairs.filter(|&(first, again)| meets(first, again)).collect()
}

//|   abbrev pub seen : ℕ → List ℕ
//|   seen zero = []
//|   seen (suc i) = visit i ∷ seen i
pub fn seen(N: u64, pred: Relation, done: Test, i: u64) -> Vec<u64> {
    match i {
        0 => vec![],
        _ => cons(visit(N, pred, done, i - 1), seen(N, pred, done, i - 1)),
    }
}

// ---- crates/orders/specs/Turned.antt

//| abbrev pub Once : List ℕ → Type 0
//| Once l = (i j : ℕ) → i < length l → j < length l → get_or l i 0 ≡ get_or l j 0 → i ≡ j
pub fn Once(l: &[u64]) -> bool {
    let (long, at) = (length(l), |i| get_or(l, i, 0));
    each(long, &|i| each(long, &|j| implies(at(i) == at(j), || i == j)))
}

// ---- crates/orders/specs/Shown.antt

//| module _ (N : ℕ) (pred : ℕ → ℕ → Bool) where
//|   pub record Shown (l : List ℕ) : Type 0 where
//|     pub cycle : Cycle N pred l
//|     pub lowest : (i : ℕ) → i < length l → get_or l 0 0 ≤ get_or l i 0
//|     pub once : Once l
pub fn Shown(N: u64, pred: Relation, l: &[u64]) -> bool {
    let cycle = Cycle(N, pred, l);
    let lowest = each(length(l), &|i| get_or(l, 0, 0) <= get_or(l, i, 0));
    let once = Once(l);
    cycle && lowest && once
}
