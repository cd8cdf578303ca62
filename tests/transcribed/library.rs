// What the definitions take from the toolchain's library: lists, and all or some numbers below a bound.
use std::cell::RefCell;
use std::collections::HashMap;
use std::hash::Hash;

// ℕ → Bool
pub type Test<'a> = &'a dyn Fn(u64) -> bool;

// ℕ → ℕ → Bool
pub type Relation<'a> = &'a dyn Fn(u64, u64) -> bool;

pub fn length<A>(list: &[A]) -> u64 {
    list.len() as u64
}

// what stands at a place, or the other where nothing does
pub fn get_or<A: Clone>(list: &[A], place: u64, other: A) -> A {
    list.get(place as usize).cloned().unwrap_or(other)
}

pub fn take<A>(n: u64, list: &[A]) -> &[A] {
    &list[..list.len().min(n as usize)]
}

pub fn drop<A>(n: u64, list: &[A]) -> &[A] {
    &list[list.len().min(n as usize)..]
}

// the list with another item at a place, or as it was where nothing stands there
pub fn set<A: Clone>(list: &[A], place: u64, item: A) -> Vec<A> {
    let mut list = list.to_vec();
    if let Some(old) = list.get_mut(place as usize) {
        *old = item;
    }
    list
}

// x ∷ xs
pub fn cons<A>(item: A, mut list: Vec<A>) -> Vec<A> {
    list.insert(0, item);
    list
}

// xs ++ ys
pub fn append<A: Clone>(first: &[A], second: &[A]) -> Vec<A> {
    [first, second].concat()
}

// (i : ℕ) → i < n → ...
pub fn each(n: u64, test: Test) -> bool {
    (0..n).all(test)
}

// (i : ℕ) × (i < n) × ...
pub fn any(n: u64, test: Test) -> bool {
    (0..n).any(test)
}

// A → B, where B is asked only if A holds
pub fn implies(a: bool, b: impl Fn() -> bool) -> bool {
    !a || b()
}

// the function itself, each of its answers computed once
pub fn remembered<A: Copy + Eq + Hash, B: Clone>(f: impl Fn(A) -> B) -> impl Fn(A) -> B {
    let known = RefCell::new(HashMap::new());
    move |a| {
        let before = known.borrow().get(&a).cloned();
        before.unwrap_or_else(|| {
            let b = f(a);
            known.borrow_mut().insert(a, b.clone());
            b
        })
    }
}

// every list of numbers below n that has no number twice; those of length n are the permutations
pub fn lists_once(n: u64) -> Vec<Vec<u64>> {
    let mut lists = vec![vec![]];
    let mut from = 0;
    while from < lists.len() {
        let list: Vec<u64> = lists[from].clone();
        lists.extend((0..n).filter(|c| !list.contains(c)).map(|c| append(&list, &[c])));
        from += 1;
    }
    lists
}

pub fn permutations(n: u64) -> Vec<Vec<u64>> {
    lists_once(n).into_iter().filter(|list| length(list) == n).collect()
}
