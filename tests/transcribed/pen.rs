// A number in decimal.
use super::library::cons;

// ---- crates/pen/specs/Decimal.antt

//| unfoldable pub spell : ℕ → ℕ → List ℕ → List ℕ
//| spell zero n s = s
//| spell (suc f) n s = cond (ltb n 10) ((48 + n) ∷ s) (spell f (n / 10) ((48 + n % 10) ∷ s))
pub fn spell(f: u64, n: u64, s: Vec<u64>) -> Vec<u64> {
    match f {
        0 => s,
        _ => {
            if n < 10 {
                cons(48 + n, s)
            } else {
                spell(f - 1, n / 10, cons(48 + n % 10, s))
            }
        }
    }
}

//| unfoldable pub decimal : ℕ → List ℕ
//| decimal n = spell 20 n []
pub fn decimal(n: u64) -> Vec<u64> {
    spell(20, n, vec![])
}
