//! Demand 3, tried: runs of orders with states and values end at the one solution of the equations.

use super::makers::tiny;
use crate::reference::order::order;
use crate::support::fuzz::fuzzing;
use crate::support::random::Random;
use crate::support::rounds::{numbers, Tally};
use crate::support::tables::{acyclic, counts, few};
use crate::transcribed::calls::Call::{Get, NoCall, Set, Step};
use crate::transcribed::calls::{call_of, get_no, set_no, step_no};
use crate::transcribed::library::{append, get_or, permutations, take};
use crate::transcribed::table::{shape_of, total, Shape};
use crate::transcribed::twin::{
    self, end, values, AtTime, Ends, Held, Joined, Passed, Rules as Models, Solves, World as Holding,
};
use std::rc::Rc;

// States are wider than values, so that neither can stand for the other.
type At = twin::At<i128, i64>;
type Rules = Models<i128, i64>;
type Values<'a> = twin::Values<'a, i128, i64>;
type World<'a> = Holding<'a, i128, i64>;

/// A number that depends on all that it is made of.
fn mixed(seed: u64, number: u64, state: i128, inputs: &[i64]) -> i64 {
    let state = [state as u64, (state >> 64) as u64];
    let seen = inputs.iter().map(|&v| v as u64);
    let parts = [seed, number].into_iter().chain(state).chain(seen);
    parts.fold(inputs.len() as u64, |sum, part| {
        Random::new(sum.wrapping_mul(31).wrapping_add(part)).next()
    }) as i64
}

/// Rules that show all they see.
fn mixing(seed: u64) -> Rules {
    let half = move |n, u, state, inputs: &[i64]| i128::from(mixed(seed ^ n, u, state, inputs));
    Rules {
        step_rule: Rc::new(move |u, state, inputs| {
            half(0, u, state, inputs) << 64 ^ half(1, u, state, inputs)
        }),
        output_rule: Rc::new(move |y, state, inputs| mixed(!seed, y, state, inputs)),
    }
}

/// A unit adds its inputs to its state, an output adds its feeding inputs to it.
fn adding() -> Rules {
    let sum = |state: i128, inputs: &[i64]| {
        inputs.iter().fold(state, |sum, v| sum.wrapping_add(i128::from(*v)))
    };
    Rules {
        step_rule: Rc::new(move |_, state, inputs| sum(state, inputs)),
        output_rule: Rc::new(move |_, state, inputs| sum(state, inputs) as i64),
    }
}

/// Rules on the numbers 0 to 2.
fn small(seed: u64) -> Rules {
    let least = |number: i64| number.rem_euclid(3);
    Rules {
        step_rule: Rc::new(move |u, state, inputs| least(mixed(seed, u, state, inputs)).into()),
        output_rule: Rc::new(move |y, state, inputs| least(mixed(!seed, y, state, inputs))),
    }
}

/// The number as what belongs to a call: a unit's state or a port's value.
fn belonging(s: &Shape, a: u64, number: i64) -> At {
    match call_of(s, a) {
        Step(_) => At::State(number.into()),
        Get(_) | Set(_) => At::Value(number),
        NoCall => At::Nothing,
    }
}

/// A list of what belongs to each call, by its number, as the definitions take it.
fn by_call<'a>(s: &Shape<'a>, list: Vec<At>) -> Values<'a> {
    let s = s.clone();
    Rc::new(move |k| match k {
        Step(u) => get_or(&list, step_no(u), At::Nothing),
        Get(y) => get_or(&list, get_no(&s, y), At::Nothing),
        Set(x) => get_or(&list, set_no(&s, x), At::Nothing),
        NoCall => At::Nothing,
    })
}

/// All at one time with any values below the bound; joined ports need not be equal.
fn world<'a>(random: &mut Random, s: &Shape<'a>, bound: usize, time: u64) -> World<'a> {
    let held = (0..total(s)).map(|a| belonging(s, a, random.below(bound) as i64)).collect();
    let held = by_call(s, held);
    Rc::new(move |k| Held { value: held(k), time })
}

/// The values at the end of a run, number by number.
fn end_values<'a>(t: &'a [u64], m: &Rules, w: &World<'a>, order: &[u64]) -> Vec<At> {
    let (s, end) = (shape_of(t), values(&end(t, m, w.clone(), order)));
    (0..total(&s)).map(|a| end(call_of(&s, a))).collect()
}

/// Every list of `count` numbers below 3.
fn all_values(count: u64) -> Vec<Vec<i64>> {
    let digit = |number: u64, place: u64| (number / 3u64.pow(place as u32) % 3) as i64;
    (0..3u64.pow(count as u32))
        .map(|number| (0..count).map(|p| digit(number, p)).collect())
        .collect()
}

/// A list that keeps the rules of a sound table without a cycle, taken at random.
fn any_order(random: &mut Random, bytes: &[u8]) -> Vec<u64> {
    let before = crate::reference::table::sound(bytes).expect("sound").predecessors();
    let mut order: Vec<usize> = Vec::new();
    while order.len() < before.len() {
        let ready = |c: &usize| !order.contains(c) && before[*c].iter().all(|a| order.contains(a));
        let ready: Vec<usize> = (0..before.len()).filter(ready).collect();
        order.push(ready[random.below(ready.len())]);
    }
    order.into_iter().map(|call| call as u64).collect()
}

/// A list of all calls passes exactly when its run solves the equations, for rules that show all they see.
#[test]
fn passed_exactly_when_solved() {
    let ((rounds, mut random), mut tally) = (fuzzing(91), Tally::new("permutations run"));
    for _ in 0..rounds / 20 {
        let t = numbers(&tiny(&mut random, 6).packed());
        let (s, m) = (shape_of(&t), mixing(random.next()));
        let w = world(&mut random, &s, 1 << 40, 0);
        for order in permutations(total(&s)) {
            let end = end(&t, &m, w.clone(), &order);
            let solves = Solves(&s, &m, &values(&w), &values(&end));
            assert_eq!(Passed(&t, &order), solves, "{:?} by {:?}", order, t);
            assert_eq!(Ends(&t, &m, &order, &w, 0, &[]), solves, "{:?} by {:?}", order, t);
            tally.count(!solves as usize);
        }
    }
    tally.finish(0..=1, rounds / 4000);
}

/// Of all values below 3 only the run's end solves the equations.
#[test]
fn single_among_all_values() {
    let ((rounds, mut random), mut tally) = (fuzzing(92), Tally::new("ends held to all values"));
    let asked: Vec<Vec<Vec<i64>>> = (0..=6).map(all_values).collect();
    for round in 0..rounds / 30 {
        let bytes = tiny(&mut random, 6).packed();
        if order(&bytes, 224).0.number != 0 {
            continue;
        }
        let (t, m) = (numbers(&bytes), small(random.next()));
        let s = shape_of(&t);
        let w = world(&mut random, &s, 3, round as u64);
        let order = any_order(&mut random, &bytes);
        let belong = |list: &Vec<i64>| (0..).zip(list).map(|(a, &v)| belonging(&s, a, v)).collect();
        let asked = &asked[total(&s) as usize];
        let asked: Vec<Values> = asked.iter().map(|list| by_call(&s, belong(list))).collect();
        assert!(Ends(&t, &m, &order, &w, round as u64, &asked), "{:?}", t);
        tally.count(0);
    }
    tally.finish([0], rounds / 4000);
}

/// Tables of any size: two passed orders end alike, at a solution, and no value near it is another one.
#[test]
fn passed_orders_end_alike() {
    let ((rounds, mut random), mut tally) = (fuzzing(93), Tally::new("pairs of passed orders run"));
    for round in 0..rounds / 15 {
        let counts = if round % 10 == 0 { counts(&mut random) } else { few(&mut random) };
        let (table, calls) = acyclic(&mut random, counts);
        let (bytes, calls) = (table.packed(), numbers(&calls));
        let t = numbers(&bytes);
        let m = if round % 3 == 0 { adding() } else { mixing(random.next()) };
        let s = shape_of(&t);
        let w = world(&mut random, &s, 1 << 40, 7);
        assert!(AtTime(&s, 7, &w) && !AtTime(&s, 8, &w) && Joined(&s, &w) == (s.inputs == 0));
        let other = any_order(&mut random, &bytes);
        assert!(Passed(&t, &calls) && Passed(&t, &other), "{:?} and {:?} by {:?}", calls, other, t);
        let mut asked = vec![end_values(&t, &m, &w, &other)];
        for place in [0, asked[0].len() - 1, random.below(asked[0].len())] {
            let mut near = asked[0].clone();
            near[place] = beside(&near[place]);
            asked.push(near);
        }
        assert_eq!(end_values(&t, &m, &w, &calls), asked[0], "{:?} by {:?}", calls, t);
        let asked: Vec<Values> = asked.into_iter().map(|list| by_call(&s, list)).collect();
        assert!(Ends(&t, &m, &calls, &w, 7, &asked), "{:?} by {:?}", calls, t);
        front_moved(&t, &m, &w, &calls, random.below(calls.len() + 1) as u64);
        tally.count(0);
    }
    tally.finish([0], rounds / 4000);
}

/// A state or a value, and one more.
fn beside(at: &At) -> At {
    match at {
        At::State(state) => At::State(state.wrapping_add(1)),
        At::Value(value) => At::Value(value.wrapping_add(1)),
        At::Nothing => At::Nothing,
    }
}

/// After k calls exactly the units and ports whose calls stand there have moved, each by one step; what is no call
/// moves nothing.
fn front_moved<'a>(t: &'a [u64], m: &Rules, w: &World<'a>, order: &[u64], k: u64) {
    let s = shape_of(t);
    let then = end(t, m, w.clone(), &append(take(k, order), &[total(&s)]));
    for (place, call) in order.iter().map(|&call| call_of(&s, call)).enumerate() {
        if (place as u64) < k {
            assert_eq!(then(call).time, w(call).time + 1);
        } else {
            assert_eq!(then(call), w(call));
        }
    }
}
