// What the lister prints of a text.
use super::grammar::opening::lines_of;
use super::grammar::reading::reading;
use super::grammar::rows::{ascii, rows};
use super::printing::{outcome_text, refusal_text};
use super::sorter::ordering;

// ---- crates/listing/specs/Listing.antt

//| unfoldable pub listing : List ℕ → List ℕ
//| listing t =
//|     let g = reading 644 t in
//|     let lines = lines_of (rows t) in
//|     cond (eqb g.number 0)
//|     (outcome_text (lines (ascii "unit")) (lines (ascii "out")) (lines (ascii "in")) (ordering g.bytes 224))
//|     (refusal_text g.number g.place)
pub fn listing(t: &[u64]) -> Vec<u64> {
    let g = reading(644, t);
    let rows = rows(t);
    let lines = |w: &str| lines_of(&rows, &ascii(w));
    if g.number == 0 {
        outcome_text(&lines("unit"), &lines("out"), &lines("in"), &ordering(&g.bytes, 224))
    } else {
        refusal_text(g.number, g.place)
    }
}
