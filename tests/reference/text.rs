//! The text table as a whole: numbers 20 to 34, each with a line.

use super::names::Reading;
use super::{refusal, success, Answer};

pub const LIMIT: usize = 24_576;

/// What the text declares, or the first refusal but 34.
pub fn declared(text: &[u8]) -> Result<Reading, Answer> {
    if text.is_empty() || text.len() > LIMIT {
        return Err(refusal(20, 0));
    }
    let line_of = |end: usize| 1 + text[..end].iter().filter(|&&byte| byte == b'\n').count();
    if text[text.len() - 1] != b'\n' {
        return Err(refusal(21, line_of(text.len())));
    }
    let allowed = |byte: u8| matches!(byte, b'a'..=b'z' | b'0'..=b'9' | b'_' | b'\t' | b'\n');
    if let Some(place) = text.iter().position(|&byte| !allowed(byte)) {
        return Err(refusal(22, line_of(place)));
    }
    let mut reading = Reading::default();
    for (index, line) in text[..text.len() - 1].split(|&byte| byte == b'\n').enumerate() {
        if index == 0 {
            if line != b"cosim\t1" {
                return Err(refusal(23, 1));
            }
            continue;
        }
        let fields: Vec<&[u8]> = line.split(|&byte| byte == b'\t').collect();
        reading.line(index + 1, &fields).map_err(|number| refusal(number, index + 1))?;
    }
    if !reading.has_units() {
        return Err(refusal(33, 1));
    }
    if let Some(line) = reading.unjoined() {
        return Err(refusal(31, line));
    }
    Ok(reading)
}

/// The answer, and what stands at the front of a packed buffer of `room` bytes afterwards.
pub fn read(text: &[u8], room: usize) -> (Answer, Vec<u8>) {
    match declared(text) {
        Err(answer) => (answer, Vec::new()),
        Ok(reading) => {
            let packed = reading.table().packed();
            if packed.len() > room {
                (refusal(34, 0), Vec::new())
            } else {
                (success(packed.len()), packed)
            }
        }
    }
}
