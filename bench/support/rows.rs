//! The rows of the benches' one table: a function, its input, proved beside plain.

pub fn row(function: &str, input: &str, size: &str, proved: u64, plain: u64) {
    let ratio = proved as f64 / plain as f64;
    println!("| {} | {} | {} | {} | {} | {:.2} |", function, input, size, proved, plain, ratio);
}

/// One limit: printed, and counted as passed or failed.
pub fn limit(what: &str, worst: u64, limit: u64) {
    let held = worst <= limit;
    println!(
        "{}: worst {} of {} instructions ... {}",
        what,
        worst,
        limit,
        if held { "ok" } else { "FAILED" }
    );
    println!("{} passed, {} failed", held as u8, !held as u8);
    std::process::exit(!held as i32);
}

/// How many rounds a hunt takes: the second word of the command, when the first is `limit`.
pub fn rounds() -> Option<usize> {
    let mut words = std::env::args().skip(1);
    match words.next().as_deref() {
        Some("limit") => words.next().and_then(|word| word.parse().ok()),
        _ => None,
    }
}
