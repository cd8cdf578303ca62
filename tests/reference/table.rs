//! The packed table: its parts and its check, numbers 1 to 7.

use super::{refusal, success, Answer};

/// A sound table, taken apart.
#[derive(Clone, PartialEq, Eq, Debug)]
pub struct Table {
    pub units: usize,
    pub output_owner: Vec<usize>,
    pub input_owner: Vec<usize>,
    pub reactive: Vec<bool>,
    pub source: Vec<usize>,
    /// Pairs of input, output.
    pub feeds: Vec<(usize, usize)>,
}

impl Table {
    pub fn outputs(&self) -> usize {
        self.output_owner.len()
    }

    pub fn inputs(&self) -> usize {
        self.input_owner.len()
    }

    /// N, the number of calls.
    pub fn calls(&self) -> usize {
        self.units + self.outputs() + self.inputs()
    }

    /// The bytes: SPECIFICATION, Packed table 1.
    pub fn packed(&self) -> Vec<u8> {
        let counts = [self.units, self.outputs(), self.inputs(), self.feeds.len()];
        let mut bytes: Vec<usize> = counts.to_vec();
        bytes.extend(&self.output_owner);
        bytes.extend(&self.input_owner);
        bytes.extend(self.reactive.iter().map(|&reactive| reactive as usize));
        bytes.extend(&self.source);
        for &(input, output) in &self.feeds {
            bytes.push(input);
            bytes.push(output);
        }
        bytes.iter().map(|&byte| byte as u8).collect()
    }
}

/// The table that the bytes hold, or the number of the refusal.
pub fn sound(bytes: &[u8]) -> Result<Table, usize> {
    if bytes.len() < 4 {
        return Err(1);
    }
    let at = |place: usize| bytes[place] as usize;
    let (units, outputs, inputs, feeds) = (at(0), at(1), at(2), at(3));
    if units < 1 || units > 32 || outputs > 96 || inputs > 96 || feeds > 128 {
        return Err(2);
    }
    if bytes.len() != 4 + outputs + 3 * inputs + 2 * feeds {
        return Err(1);
    }
    let part = |from: usize, count: usize| (from..from + count).map(at).collect::<Vec<usize>>();
    let output_owner = part(4, outputs);
    let input_owner = part(4 + outputs, inputs);
    let kind = part(4 + outputs + inputs, inputs);
    let source = part(4 + outputs + 2 * inputs, inputs);
    if output_owner.iter().any(|&owner| owner >= units) {
        return Err(3);
    }
    if input_owner.iter().any(|&owner| owner >= units) {
        return Err(3);
    }
    if kind.iter().any(|&kind| kind > 1) {
        return Err(4);
    }
    if source.iter().any(|&source| source >= outputs) {
        return Err(5);
    }
    let mut pairs = Vec::new();
    for feed in 0..feeds {
        let place = 4 + outputs + 3 * inputs + 2 * feed;
        let (input, output) = (at(place), at(place + 1));
        if input >= inputs || output >= outputs || input_owner[input] != output_owner[output] {
            return Err(6);
        }
        if pairs.contains(&(input, output)) {
            return Err(7);
        }
        pairs.push((input, output));
    }
    let reactive = kind.iter().map(|&kind| kind == 1).collect();
    Ok(Table { units, output_owner, input_owner, reactive, source, feeds: pairs })
}

/// The check alone: a refusal at place 0, or 0 with N.
pub fn check(bytes: &[u8]) -> Answer {
    match sound(bytes) {
        Ok(table) => success(table.calls()),
        Err(number) => refusal(number, 0),
    }
}
