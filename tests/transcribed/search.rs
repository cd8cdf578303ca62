// Sets, least numbers, all and some below a bound, bytes at the front of a buffer.
use super::library::{append, drop, length, Test};

// ---- crates/search/specs/Sets.antt

//| abbrev pub none : ℕ → Bool
//| none x = false
pub fn none(_: u64) -> bool {
    false
}

//| abbrev pub add : ℕ → (ℕ → Bool) → ℕ → Bool
//| add c q x = eqb x c || q x
pub fn add(c: u64, q: Test, x: u64) -> bool {
    x == c || q(x)
}

// ---- crates/search/specs/Least.antt

//| unfoldable pub least_from : (ℕ → Bool) → ℕ → ℕ → ℕ
//| least_from q zero k = k
//| least_from q (suc n) k = elim (q k) [ true ↦ k | false ↦ least_from q n (suc k) ]
pub fn least_from(q: Test, n: u64, k: u64) -> u64 {
    match n {
        0 => k,
        _ => match q(k) {
            true => k,
            false => least_from(q, n - 1, k + 1),
        },
    }
}

// ---- crates/search/specs/Every.antt

//| unfoldable pub every : (ℕ → Bool) → ℕ → Bool
//| every q zero = true
//| every q (suc n) = every q n && q n
pub fn every(q: Test, n: u64) -> bool {
    match n {
        0 => true,
        _ => every(q, n - 1) && q(n - 1),
    }
}

//| unfoldable pub some : (ℕ → Bool) → ℕ → Bool
//| some q n = not (every (λ i. not (q i)) n)
pub fn some(q: Test, n: u64) -> bool {
    !every(&|i| !q(i), n)
}

// ---- crates/search/specs/Front.antt

//| abbrev pub fronted : List ℕ → List ℕ → List ℕ
//| fronted bytes out = bytes ++ drop (length bytes) out
pub fn fronted(bytes: &[u64], out: &[u64]) -> Vec<u64> {
    append(bytes, drop(length(bytes), out))
}

// ---- crates/search/specs/Settling.antt

//| module _ {n : ℕ} (ps : List (ParamKind n)) (r : ResultKind n) where
//|   abbrev pub SettlesSeen : In n ps → Out n ps r → {B : Lfts n → Type 0}
//|       → ((κs : Lfts n) → (res_t r κs).Denot → B κs) → Type 0
//|   SettlesSeen asked learnt see =
//|       ((κs : Lfts n) (a : Dens κs ps) → asked κs a)
//|       × ((κs : Lfts n) (a : Dens κs ps) (x y : (res_t r κs).Denot) (w v : Lasts (ended_of n ps r) κs a)
//|       → learnt κs a x (at_exit (ended_of n ps r) κs a w)
//|       → learnt κs a y (at_exit (ended_of n ps r) κs a v) → (see κs x ≡ see κs y) × (w ≡ v))
// Not computed.

//|   abbrev pub Settles : In n ps → Out n ps r → Type 0
//|   Settles asked learnt = SettlesSeen asked learnt {B = λ κs. (res_t r κs).Denot} (λ κs x. x)
// Not computed.

//|   abbrev pub SettlesWhere : In n ps → Out n ps r → {B : Lfts n → Type 0}
//|       → ((κs : Lfts n) → (res_t r κs).Denot → B κs) → Type 0
//|   SettlesWhere asked learnt see =
//|       (κs : Lfts n) (a : Dens κs ps) → asked κs a
//|       → (x y : (res_t r κs).Denot) (w v : Lasts (ended_of n ps r) κs a)
//|       → learnt κs a x (at_exit (ended_of n ps r) κs a w)
//|       → learnt κs a y (at_exit (ended_of n ps r) κs a v) → (see κs x ≡ see κs y) × (w ≡ v)
// Not computed.

//|   abbrev pub Says : Out n ps r
//|       → ((κs : Lfts n) (a : Dens κs ps) → (res_t r κs).Denot → Lasts (ended_of n ps r) κs a → Type 0) → Type 0
//|   Says learnt claim =
//|       (κs : Lfts n) (a : Dens κs ps) (x : (res_t r κs).Denot) (w : Lasts (ended_of n ps r) κs a)
//|       → learnt κs a x (at_exit (ended_of n ps r) κs a w) → claim κs a x w
// Not computed.

//| abbrev pub SettlesClauses : (T : Ended) → ((m : World) → Clauses m.𝓤 T) → Type 2
//| SettlesClauses T clauses =
//|     ((m : World) (κs : Lfts T.signature.lifetimes) (a : Args T.signature κs) → (clauses m κs a).ghost)
//|     × ((m : World) (κs : Lfts T.signature.lifetimes) (a : Args T.signature κs) (g : (clauses m κs a).ghost)
//|     → ent m.𝓤 (emp m.𝓤) ((clauses m κs a).requires g))
//|     × (says : (κs : Lfts T.signature.lifetimes) (a : Args T.signature κs) → Res T.signature κs → Lasts T κs a → Type 0)
//|     × ((m : World) (κs : Lfts T.signature.lifetimes) (a : Args T.signature κs) (g : (clauses m κs a).ghost)
//|     (x : Res T.signature κs) (w : Lasts T κs a)
//|     → ent m.𝓤 ((clauses m κs a).ensures g x (at_exit T κs a w)) (fact m.𝓤 (says κs a x w)))
//|     × ((κs : Lfts T.signature.lifetimes) (a : Args T.signature κs) (x y : Res T.signature κs) (w v : Lasts T κs a)
//|     → says κs a x w → says κs a y v → (x ≡ y) × (w ≡ v))
// Not computed.
