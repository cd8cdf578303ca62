//! Calls the archive for tests that run in another process: each call on standard input is answered on standard output.

#[path = "support/archive.rs"]
mod archive;
#[path = "support/asked.rs"]
#[allow(dead_code)]
mod asked;
#[path = "support/lent.rs"]
mod lent;

use std::io::{stdin, stdout, BufReader, BufWriter};

fn main() {
    let mut archive = archive::Archive::new();
    let (mut from, mut to) = (BufReader::new(stdin()), BufWriter::new(stdout()));
    let (mut first, mut second) = (Vec::new(), Vec::new());
    while let Ok(asked) = asked::Asked::receive(&mut from, &mut first, &mut second) {
        archive.call(&asked).send(&mut to).expect("the test listens");
    }
}
