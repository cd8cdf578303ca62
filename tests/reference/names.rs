//! What the lines of a text declare: the checks inside one line, numbers 24 to 32.

use super::table::Table;

/// A name declared on a line, within a unit (units themselves stand within none).
struct Declared {
    unit: usize,
    name: Vec<u8>,
    line: usize,
}

/// What the lines so far have declared.
#[derive(Default)]
pub struct Reading {
    units: Vec<Declared>,
    outputs: Vec<Declared>,
    inputs: Vec<Declared>,
    reactive: Vec<bool>,
    source: Vec<Option<usize>>,
    feeds: Vec<(usize, usize)>,
}

impl Reading {
    pub fn unit_name(&self, unit: usize) -> &[u8] {
        &self.units[unit].name
    }

    pub fn output_name(&self, output: usize) -> &[u8] {
        &self.outputs[output].name
    }

    pub fn input_name(&self, input: usize) -> &[u8] {
        &self.inputs[input].name
    }

    pub fn table(&self) -> Table {
        Table {
            units: self.units.len(),
            output_owner: self.outputs.iter().map(|output| output.unit).collect(),
            input_owner: self.inputs.iter().map(|input| input.unit).collect(),
            reactive: self.reactive.clone(),
            source: self.source.iter().map(|source| source.expect("joined")).collect(),
            feeds: self.feeds.clone(),
        }
    }

    /// The unit count, for the end of the text.
    pub fn has_units(&self) -> bool {
        !self.units.is_empty()
    }

    /// The line of the first input without a join.
    pub fn unjoined(&self) -> Option<usize> {
        let input = self.source.iter().position(|source| source.is_none())?;
        Some(self.inputs[input].line)
    }

    /// One line below the first: the number of its refusal, in the order written.
    pub fn line(&mut self, line: usize, fields: &[&[u8]]) -> Result<(), usize> {
        let names: &[usize] = match (fields[0], fields.len()) {
            (b"unit", 2) => &[1],
            (b"out", 3) => &[1, 2],
            (b"in", 4) => &[1, 2],
            (b"feed", 4) => &[1, 2, 3],
            (b"join", 5) => &[1, 2, 3, 4],
            _ => return Err(24),
        };
        if names.iter().any(|&field| fields[field].is_empty() || fields[field].len() > 16) {
            return Err(25);
        }
        match fields[0] {
            b"unit" => self.unit(line, fields[1]),
            b"out" => self.out(line, fields[1], fields[2]),
            b"in" => self.input(line, fields[1], fields[2], fields[3]),
            b"feed" => self.feed(fields[1], fields[2], fields[3]),
            _ => self.join(fields[1], fields[2], fields[3], fields[4]),
        }
    }

    fn unit(&mut self, line: usize, name: &[u8]) -> Result<(), usize> {
        declare(&mut self.units, 32, Declared { unit: 0, name: name.to_vec(), line })
    }

    fn out(&mut self, line: usize, unit: &[u8], name: &[u8]) -> Result<(), usize> {
        let unit = find(&self.units, 0, unit).ok_or(27usize)?;
        declare(&mut self.outputs, 96, Declared { unit, name: name.to_vec(), line })
    }

    fn input(&mut self, line: usize, unit: &[u8], name: &[u8], kind: &[u8]) -> Result<(), usize> {
        if kind != b"delayed" && kind != b"reactive" {
            return Err(28);
        }
        let unit = find(&self.units, 0, unit).ok_or(27usize)?;
        declare(&mut self.inputs, 96, Declared { unit, name: name.to_vec(), line })?;
        self.reactive.push(kind == b"reactive");
        self.source.push(None);
        Ok(())
    }

    fn feed(&mut self, unit: &[u8], input: &[u8], output: &[u8]) -> Result<(), usize> {
        let unit = find(&self.units, 0, unit).ok_or(27usize)?;
        let input = find(&self.inputs, unit, input).ok_or(27usize)?;
        let output = find(&self.outputs, unit, output).ok_or(27usize)?;
        if self.feeds.contains(&(input, output)) {
            return Err(32);
        }
        if self.feeds.len() == 128 {
            return Err(29);
        }
        self.feeds.push((input, output));
        Ok(())
    }

    fn join(&mut self, from: &[u8], output: &[u8], to: &[u8], input: &[u8]) -> Result<(), usize> {
        let from = find(&self.units, 0, from).ok_or(27usize)?;
        let output = find(&self.outputs, from, output).ok_or(27usize)?;
        let to = find(&self.units, 0, to).ok_or(27usize)?;
        let input = find(&self.inputs, to, input).ok_or(27usize)?;
        if self.source[input].is_some() {
            return Err(30);
        }
        self.source[input] = Some(output);
        Ok(())
    }
}

/// One more name: not one that its set has, and not more than the count allows.
fn declare(declared: &mut Vec<Declared>, most: usize, one: Declared) -> Result<(), usize> {
    if find(declared, one.unit, &one.name).is_some() {
        return Err(26);
    }
    if declared.len() == most {
        return Err(29);
    }
    declared.push(one);
    Ok(())
}

/// The number of the name within the unit.
fn find(declared: &[Declared], unit: usize, name: &[u8]) -> Option<usize> {
    declared.iter().position(|other| other.unit == unit && other.name == name)
}
