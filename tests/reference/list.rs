//! What the lister prints.

use super::calls::Call;
use super::order::order;
use super::text::declared;
use super::{refusal, success, Answer};

/// The whole listing of a text.
pub fn listing(text: &[u8]) -> Vec<u8> {
    let reading = match declared(text) {
        Ok(reading) => reading,
        Err(answer) => {
            return format!("refused\t{}\t{}\n", answer.number, answer.place).into_bytes();
        }
    };
    let table = reading.table();
    let (answer, calls) = order(&table.packed(), 224);
    let word = if answer.number == 0 { "order" } else { "cycle" };
    let mut lines = format!("{}\t{}\n", word, calls.len()).into_bytes();
    for (place, &call) in calls.iter().enumerate() {
        let (word, unit, port): (&str, usize, &[u8]) = match table.call(call as usize) {
            Some(Call::Step(unit)) => ("step", unit, b"-"),
            Some(Call::Get(output)) => {
                ("get", table.output_owner[output], reading.output_name(output))
            }
            Some(Call::Set(input)) => ("set", table.input_owner[input], reading.input_name(input)),
            None => unreachable!("an order holds calls"),
        };
        lines.extend(format!("{}\t{}\t", place, word).as_bytes());
        lines.extend(reading.unit_name(unit));
        lines.push(b'\t');
        lines.extend(port);
        lines.push(b'\n');
    }
    lines
}

/// The answer, and what stands at the front of a buffer of `room` bytes afterwards.
pub fn list(text: &[u8], room: usize) -> (Answer, Vec<u8>) {
    let lines = listing(text);
    if lines.len() > room {
        (refusal(34, 0), Vec::new())
    } else {
        (success(lines.len()), lines)
    }
}
