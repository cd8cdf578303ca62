// The rules of models, the run of an order with states and values, the equations, demand 3.
use super::calls::Call::{self, Get, NoCall, Set, Step};
use super::calls::{by_kind, call_of, feeds_to};
use super::judging::verdict_of;
use super::library::{any, cons, each, get_or, implies, length, remembered, Test};
use super::search::none;
use super::table::{shape_of, total, Shape};
use std::rc::Rc;

// ---- crates/twin/specs/Rules.antt

//| unfoldable pub pick : {Value : Type 0} → (ℕ → Bool) → ℕ → ℕ → (ℕ → Value) → List Value
//| pick q zero k value = []
//| pick q (suc n) k value = cond (q k) (value k ∷ pick q n (suc k) value) (pick q n (suc k) value)
pub fn pick<Value>(q: Test, n: u64, k: u64, value: &dyn Fn(u64) -> Value) -> Vec<Value> {
    match n {
        0 => vec![],
        _ => {
            if q(k) {
                cons(value(k), pick(q, n - 1, k + 1, value))
            } else {
                pick(q, n - 1, k + 1, value)
            }
        }
    }
}

//| abbrev pub of_unit : {Value : Type 0} → Shape → ℕ → (ℕ → Value) → List Value
//| of_unit s u value = pick (λ x. eqb (s.input_owner x) u) s.inputs 0 value
pub fn of_unit<Value>(s: &Shape, u: u64, value: &dyn Fn(u64) -> Value) -> Vec<Value> {
    pick(&|x| (s.input_owner)(x) == u, s.inputs, 0, value)
}

//| abbrev pub feeding : {Value : Type 0} → Shape → ℕ → (ℕ → Value) → List Value
//| feeding s y value = pick (λ x. feeds_to s x y) s.inputs 0 value
pub fn feeding<Value>(s: &Shape, y: u64, value: &dyn Fn(u64) -> Value) -> Vec<Value> {
    pick(&|x| feeds_to(s, x, y), s.inputs, 0, value)
}

//| pub record Rules (State Value : Type 0) : Type 0 where
//|   pub step_rule : ℕ → State → List Value → State
//|   pub output_rule : ℕ → State → List Value → Value
#[derive(Clone)]
pub struct Rules<State, Value> {
    pub step_rule: Rc<dyn Fn(u64, State, &[Value]) -> State>,
    pub output_rule: Rc<dyn Fn(u64, State, &[Value]) -> Value>,
}

// ---- crates/twin/specs/Run.antt

//| abbrev pub At : Type 0 → Type 0 → Call → Type 0
//| At State Value (Step u) = State
//| At State Value (Get y) = Value
//| At State Value (Set x) = Value
//| At State Value NoCall = Unit {0}
// A type cannot depend on a call here: one of the three, and which one is asked by `state` and `value`.
#[derive(Clone, Debug, PartialEq)]
pub enum At<State, Value> {
    State(State),
    Value(Value),
    Nothing,
}

impl<State, Value> At<State, Value> {
    pub fn state(self) -> State {
        match self {
            At::State(state) => state,
            _ => panic!("a step has a state"),
        }
    }

    pub fn value(self) -> Value {
        match self {
            At::Value(value) => value,
            _ => panic!("a get or a set has a value"),
        }
    }
}

//| abbrev pub Values : Type 0 → Type 0 → Type 0
//| Values State Value = (k : Call) → At State Value k
pub type Values<'a, State, Value> = Rc<dyn Fn(Call) -> At<State, Value> + 'a>;

//| pub record Held (A : Type 0) : Type 0 where
//|   pub value : A
//|   pub time : ℕ
#[derive(Clone, Debug, PartialEq)]
pub struct Held<A> {
    pub value: A,
    pub time: u64,
}

//| abbrev pub World : Type 0 → Type 0 → Type 0
//| World State Value = (k : Call) → Held (At State Value k)
pub type World<'a, State, Value> = Rc<dyn Fn(Call) -> Held<At<State, Value>> + 'a>;

//| unfoldable pub moves : Call → Call → Bool
//| moves (Step u) = by_kind (λ v. eqb v u) none none
//| moves (Get y) = by_kind none (λ z. eqb z y) none
//| moves (Set x) = by_kind none none (λ z. eqb z x)
//| moves NoCall = λ k. false
pub fn moves(c: Call, k: Call) -> bool {
    match c {
        Step(u) => by_kind(&|v| v == u, &none, &none, k),
        Get(y) => by_kind(&none, &|z| z == y, &none, k),
        Set(x) => by_kind(&none, &none, &|z| z == x, k),
        NoCall => false,
    }
}

//| module _ {State Value : Type 0} (s : Shape) (m : Rules State Value) where
//|   abbrev pub gives : World State Value → Values State Value
//|   gives w (Step u) = m.step_rule u (w (Step u)).value (of_unit s u (λ x. (w (Set x)).value))
//|   gives w (Get y) = m.output_rule y (w (Step (s.output_owner y))).value (feeding s y (λ x. (w (Set x)).value))
//|   gives w (Set x) = (w (Get (s.source x))).value
//|   gives w NoCall = tt
pub fn gives<State, Value>(
    s: &Shape,
    m: &Rules<State, Value>,
    w: &World<State, Value>,
    k: Call,
) -> At<State, Value> {
    let state = |u| w(Step(u)).value.state();
    let input = |x| w(Set(x)).value.value();
    match k {
        Step(u) => At::State((m.step_rule)(u, state(u), &of_unit(s, u, &input))),
        Get(y) => {
            let owner = (s.output_owner)(y);
            At::Value((m.output_rule)(y, state(owner), &feeding(s, y, &input)))
        }
        Set(x) => At::Value(w(Get((s.source)(x))).value.value()),
        NoCall => At::Nothing,
    }
}

//|   abbrev pub acts : World State Value → Call → World State Value
//|   acts w c k = cond (moves c k) (record { value = gives w k; time = suc (w k).time }) (w k)
pub fn acts<'a, State: Clone + 'a, Value: Clone + 'a>(
    s: &Shape<'a>,
    m: &Rules<State, Value>,
    w: World<'a, State, Value>,
    c: Call,
) -> World<'a, State, Value> {
    let (s, m) = (s.clone(), m.clone());
    Rc::new(remembered(move |k| {
        if moves(c, k) {
            Held { value: gives(&s, &m, &w, k), time: w(k).time + 1 }
        } else {
            w(k)
        }
    }))
}

//|   unfoldable pub run : World State Value → List ℕ → World State Value
//|   run w [] = w
//|   run w (c ∷ l) = run (acts w (call_of s c)) l
pub fn run<'a, State: Clone + 'a, Value: Clone + 'a>(
    s: &Shape<'a>,
    m: &Rules<State, Value>,
    w: World<'a, State, Value>,
    list: &[u64],
) -> World<'a, State, Value> {
    match list {
        [] => w,
        [c, l @ ..] => run(s, m, acts(s, m, w, call_of(s, *c)), l),
    }
}

// ---- crates/twin/specs/Equations.antt

//| module _ {State Value : Type 0} (s : Shape) (m : Rules State Value) where
//|   pub record Solves (old new : Values State Value) : Type 0 where
//|     pub states : (u : ℕ) → u < s.units
//|         → new (Step u)
//|         ≡ m.step_rule u (old (Step u)) (of_unit s u (λ x. cond (eqb (s.kind x) 0) (old (Set x)) (new (Set x))))
//|     pub outputs : (y : ℕ) → y < s.outputs
//|         → new (Get y) ≡ m.output_rule y (new (Step (s.output_owner y))) (feeding s y (λ x. new (Set x)))
//|     pub inputs : (x : ℕ) → x < s.inputs → new (Set x) ≡ new (Get (s.source x))
pub fn Solves<State: PartialEq, Value: PartialEq>(
    s: &Shape,
    m: &Rules<State, Value>,
    old: &Values<State, Value>,
    new: &Values<State, Value>,
) -> bool {
    let seen = |x| if (s.kind)(x) == 0 { old(Set(x)).value() } else { new(Set(x)).value() };
    let states = each(s.units, &|u| {
        let state = old(Step(u)).state();
        new(Step(u)).state() == (m.step_rule)(u, state, &of_unit(s, u, &seen))
    });
    let outputs = each(s.outputs, &|y| {
        let state = new(Step((s.output_owner)(y))).state();
        let fed = feeding(s, y, &|x| new(Set(x)).value());
        new(Get(y)).value() == (m.output_rule)(y, state, &fed)
    });
    let inputs = each(s.inputs, &|x| new(Set(x)).value() == new(Get((s.source)(x))).value());
    states && outputs && inputs
}

//| module _ {State Value : Type 0} (s : Shape) where
//|   abbrev pub AtTime : ℕ → World State Value → Type 0
//|   AtTime n w = (a : ℕ) → a < total s → (w (call_of s a)).time ≡ n
pub fn AtTime<State, Value>(s: &Shape, n: u64, w: &World<State, Value>) -> bool {
    each(total(s), &|a| w(call_of(s, a)).time == n)
}

//|   abbrev pub Joined : World State Value → Type 0
//|   Joined w = (x : ℕ) → x < s.inputs → w (Set x) ≡ w (Get (s.source x))
pub fn Joined<State: PartialEq, Value: PartialEq>(s: &Shape, w: &World<State, Value>) -> bool {
    each(s.inputs, &|x| w(Set(x)) == w(Get((s.source)(x))))
}

// ---- crates/twin/specs/Demand.antt

//| abbrev pub values : {State Value : Type 0} → World State Value → Values State Value
//| values w k = (w k).value
pub fn values<'a, State: 'a, Value: 'a>(w: &World<'a, State, Value>) -> Values<'a, State, Value> {
    let w = w.clone();
    Rc::new(move |k| w(k).value)
}

//| abbrev pub Passed : List ℕ → List ℕ → Type 0
//| Passed t order = (verdict_of t order).number ≡ 0
pub fn Passed(t: &[u64], order: &[u64]) -> bool {
    verdict_of(t, order).number == 0
}

//| module _ {State Value : Type 0} (t : List ℕ) (m : Rules State Value) where
//|   abbrev pub end : World State Value → List ℕ → World State Value
//|   end = run (shape_of t) m
pub fn end<'a, State: Clone + 'a, Value: Clone + 'a>(
    t: &'a [u64],
    m: &Rules<State, Value>,
    w: World<'a, State, Value>,
    list: &[u64],
) -> World<'a, State, Value> {
    run(&shape_of(t), m, w, list)
}

// ---- crates/twin/specs/Integers.antt

//| pub record Ends (t : List ℕ) (m : Rules ℤ ℤ) (order : List ℕ) (w : World ℤ ℤ) (n : ℕ) : Type 0 where
//|   pub one_later : AtTime (shape_of t) (suc n) (run (shape_of t) m w order)
//|   pub moved-once : (a : ℕ) → a < total (shape_of t)
//|       → (i : ℕ) × (i < length order) × (get_or order i 0 ≡ a)
//|       × ((j : ℕ) → j < length order → get_or order j 0 ≡ a → j ≡ i)
//|   pub joined : Joined (shape_of t) (run (shape_of t) m w order)
//|   pub solves : Solves (shape_of t) m (values w) (values (run (shape_of t) m w order))
//|   pub single : (new : Values ℤ ℤ) → Solves (shape_of t) m (values w) new → (a : ℕ) → a < total (shape_of t)
//|       → values (run (shape_of t) m w order) (call_of (shape_of t) a) ≡ new (call_of (shape_of t) a)
// `asked` are the `new` of which `single` is asked.
pub fn Ends<'a, State: Clone + PartialEq + 'a, Value: Clone + PartialEq + 'a>(
    t: &'a [u64],
    m: &Rules<State, Value>,
    order: &[u64],
    w: &World<'a, State, Value>,
    n: u64,
    asked: &[Values<State, Value>],
) -> bool {
    let s = shape_of(t);
    let end = run(&s, m, w.clone(), order);
    let at = |i| get_or(order, i, 0);
    let one_later = AtTime(&s, n + 1, &end);
    let moved_once = each(total(&s), &|a| {
        any(length(order), &|i| {
            at(i) == a && each(length(order), &|j| implies(at(j) == a, || j == i))
        })
    });
    let joined = Joined(&s, &end);
    let solves = Solves(&s, m, &values(w), &values(&end));
    let single = asked.iter().all(|new| {
        implies(Solves(&s, m, &values(w), new), || {
            each(total(&s), &|a| values(&end)(call_of(&s, a)) == new(call_of(&s, a)))
        })
    });
    one_later && moved_once && joined && solves && single
}
