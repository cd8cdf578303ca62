//! The transcribed definitions: compared with the reference, and the statements tried that the proofs are of.

#[path = "../reference/mod.rs"]
#[allow(dead_code)]
mod reference;
mod support;
#[path = "../transcribed/mod.rs"]
mod transcribed;

mod compared {
    mod answers;
    mod makers;
    mod runs;
    mod statements;
}
