// The lines that open with a keyword.
use super::super::library::cons;
use super::rows::{same, word};

// ---- crates/grammar/specs/Opening.antt

//| abbrev pub Row : Type 0
//| Row = List (List ℕ)
pub type Row = Vec<Vec<u64>>;

//| unfoldable pub lines_of : List Row → List ℕ → List Row
//| lines_of [] w = []
//| lines_of (f ∷ fs) w = cond (same (word f 0) w) (f ∷ lines_of fs w) (lines_of fs w)
pub fn lines_of(rows: &[Row], w: &[u64]) -> Vec<Row> {
    match rows {
        [] => vec![],
        [f, fs @ ..] => {
            if same(&word(f, 0), w) {
                cons(f.clone(), lines_of(fs, w))
            } else {
                lines_of(fs, w)
            }
        }
    }
}
