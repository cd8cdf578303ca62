// What `read` answers.

// ---- crates/text/src/lib.rt

//| pub struct Answer {
//|     pub number: u8,
//|     pub place: usize,
//| }
#[derive(Clone, Copy, Debug, PartialEq)]
pub struct Answer {
    pub number: u64,
    pub place: u64,
}
