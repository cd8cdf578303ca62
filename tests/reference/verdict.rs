//! Judging a given order, by numbers and by records: numbers 11 to 18.

use super::calls::Call;
use super::table::{self, Table};
use super::{refusal, success, Answer};

/// Which call numbers are done.
#[derive(Clone, Copy, PartialEq, Eq, Debug)]
pub struct Run {
    pub done: [bool; 224],
}

impl Run {
    /// The start, where no call is done.
    pub fn start() -> Run {
        Run { done: [false; 224] }
    }

    /// One call over a sound table: the next state with 0, or the state it had with the refusal.
    pub fn take(self, table: &Table, call: usize) -> (Run, usize) {
        let number = self.fault(table, call);
        let mut next = self;
        if number == 0 {
            next.done[call] = true;
        }
        (next, number)
    }

    /// The lowest number among the conditions that fail, or 0.
    fn fault(&self, table: &Table, number: usize) -> usize {
        let call = match table.call(number) {
            Some(call) => call,
            None => return 11,
        };
        if self.done[number] {
            return 12;
        }
        let set = |input: &usize| self.done[table.set(*input)];
        match call {
            Call::Step(unit) => {
                let own = |input: &usize| table.input_owner[*input] == unit;
                let inputs: Vec<usize> = (0..table.inputs()).filter(own).collect();
                let delayed_set = |input: &usize| !table.reactive[*input] && set(input);
                let reactive_not_set = |input: &usize| table.reactive[*input] && !set(input);
                if inputs.iter().any(delayed_set) {
                    13
                } else if inputs.iter().any(reactive_not_set) {
                    14
                } else {
                    0
                }
            }
            Call::Get(output) => {
                let fed = table.feeds.iter().filter(|(_, fed)| *fed == output);
                if !self.done[table.step(table.output_owner[output])] {
                    15
                } else if fed.map(|(input, _)| input).any(|input| !set(input)) {
                    16
                } else {
                    0
                }
            }
            Call::Set(input) => {
                if !self.done[table.get(table.source[input])] {
                    17
                } else {
                    0
                }
            }
        }
    }
}

/// One call of a judged run on any state: an unsound table is refused first, by 1 to 7.
pub fn take(bytes: &[u8], run: Run, call: usize) -> (Run, usize) {
    match table::sound(bytes) {
        Ok(table) => run.take(&table, call),
        Err(number) => (run, number),
    }
}

/// The verdict on a list of call numbers, none of them cut to a byte.
fn judge(table: &Table, calls: impl Iterator<Item = usize>) -> Answer {
    let mut run = Run::start();
    let mut taken = 0;
    for (place, call) in calls.enumerate() {
        let (next, number) = run.take(table, call);
        if number != 0 {
            return refusal(number, place);
        }
        run = next;
        taken += 1;
    }
    if taken < table.calls() {
        return refusal(18, taken);
    }
    success(table.calls())
}

/// The verdict on bytes.
pub fn verdict(bytes: &[u8], order: &[u8]) -> Answer {
    match table::sound(bytes) {
        Ok(table) => judge(&table, order.iter().map(|&call| call as usize)),
        Err(number) => refusal(number, 0),
    }
}

/// The verdict on records, each with its kind and its number within the kind.
pub fn verdict_of_records(bytes: &[u8], records: &[(u8, u8)]) -> Answer {
    let table = match table::sound(bytes) {
        Ok(table) => table,
        Err(number) => return refusal(number, 0),
    };
    let no_call = table.calls();
    let number = |&(kind, number): &(u8, u8)| match (kind, number as usize) {
        (0, unit) if unit < table.units => table.step(unit),
        (1, output) if output < table.outputs() => table.get(output),
        (2, input) if input < table.inputs() => table.set(input),
        _ => no_call,
    };
    judge(&table, records.iter().map(number))
}
