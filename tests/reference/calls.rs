//! Call numbers and direct predecessors: SPECIFICATION, Calls and Precedence.

use super::table::Table;

#[derive(Clone, Copy, PartialEq, Eq, Debug)]
pub enum Call {
    Step(usize),
    Get(usize),
    Set(usize),
}

impl Table {
    pub fn step(&self, unit: usize) -> usize {
        unit
    }

    pub fn get(&self, output: usize) -> usize {
        self.units + output
    }

    pub fn set(&self, input: usize) -> usize {
        self.units + self.outputs() + input
    }

    /// The call that a number stands for; all else is no call.
    pub fn call(&self, number: usize) -> Option<Call> {
        if number < self.units {
            Some(Call::Step(number))
        } else if number < self.units + self.outputs() {
            Some(Call::Get(number - self.units))
        } else if number < self.calls() {
            Some(Call::Set(number - self.units - self.outputs()))
        } else {
            None
        }
    }

    /// For each call its direct predecessors, by rising number.
    pub fn predecessors(&self) -> Vec<Vec<usize>> {
        let mut before = vec![Vec::new(); self.calls()];
        // Rule 1: an output is got after its unit's step.
        for output in 0..self.outputs() {
            before[self.get(output)].push(self.step(self.output_owner[output]));
        }
        // Rule 2: an input is set after its source's get.
        for input in 0..self.inputs() {
            before[self.set(input)].push(self.get(self.source[input]));
        }
        // Rule 3: a feed's output is got after its input's set.
        for &(input, output) in &self.feeds {
            before[self.get(output)].push(self.set(input));
        }
        for input in 0..self.inputs() {
            let (step, set) = (self.step(self.input_owner[input]), self.set(input));
            if self.reactive[input] {
                // Rule 4: a unit steps after the set of its reactive input.
                before[step].push(set);
            } else {
                // Rule 5: a delayed input is set after its unit's step.
                before[set].push(step);
            }
        }
        for calls in &mut before {
            calls.sort_unstable();
        }
        before
    }

    /// Is the first call a direct predecessor of the second? One case for each of the five sentences.
    pub fn precedes(&self, first: usize, second: usize) -> bool {
        match (self.call(first), self.call(second)) {
            (Some(Call::Step(unit)), Some(Call::Get(output))) => self.output_owner[output] == unit,
            (Some(Call::Get(output)), Some(Call::Set(input))) => self.source[input] == output,
            (Some(Call::Set(input)), Some(Call::Get(output))) => {
                self.feeds.contains(&(input, output))
            }
            (Some(Call::Set(input)), Some(Call::Step(unit))) => {
                self.reactive[input] && self.input_owner[input] == unit
            }
            (Some(Call::Step(unit)), Some(Call::Set(input))) => {
                !self.reactive[input] && self.input_owner[input] == unit
            }
            _ => false,
        }
    }
}
