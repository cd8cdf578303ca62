//! Writes acyclic tables of growing size into a folder: NAME.table packed, NAME.edges for tsort.

#[path = "../../tests/reference/mod.rs"]
#[allow(dead_code)]
mod reference;
#[path = "../support/families.rs"]
#[allow(dead_code)]
mod families;
#[path = "../../tests/rust/support/mod.rs"]
mod support_of_tests;

use std::fmt::Write;
use std::fs::write;

fn main() {
    let folder = std::env::args().nth(1).expect("a folder");
    for member in families::families() {
        if families::first_order(&member.table).is_none() {
            continue;
        }
        let mut edges = String::new();
        for (call, before) in member.table.predecessors().iter().enumerate() {
            // A pair of equals tells tsort that the call is there, whatever it waits for.
            writeln!(edges, "{} {}", call, call).expect("a string takes any text");
            for other in before {
                writeln!(edges, "{} {}", other, call).expect("a string takes any text");
            }
        }
        let family = member.family.replace(", ", "-").replace(' ', "-");
        let name = format!("{}/{:03}-{}", folder, member.table.calls(), family);
        write(name.clone() + ".table", member.table.packed()).expect("a table's file");
        write(name + ".edges", edges).expect("a list's file");
    }
}
