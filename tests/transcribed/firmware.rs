// What the C side gets.
use super::table::Answer;

// ---- crates/firmware/specs/Code.antt

//| unfoldable pub coded : Answer → ℕ
//| coded a = 256 * a.number + a.place
pub fn coded(a: Answer) -> u64 {
    256 * a.number + a.place
}
