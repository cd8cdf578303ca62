// What has been declared so far: names found in it, and one declaration more.
use super::super::library::{append, get_or, length, set};
use super::rows::{place, same};

// ---- crates/grammar/specs/Draft.antt

//| pub record Output : Type 0 where
//|   pub owner : ℕ
//|   pub name : List ℕ
#[derive(Clone)]
pub struct Output {
    pub owner: u64,
    pub name: Vec<u64>,
}

//| pub record Input : Type 0 where
//|   pub owner : ℕ
//|   pub name : List ℕ
//|   pub kind : ℕ
//|   pub source : ℕ
//|   pub line : ℕ
#[derive(Clone)]
pub struct Input {
    pub owner: u64,
    pub name: Vec<u64>,
    pub kind: u64,
    pub source: u64,
    pub line: u64,
}

//| pub record Feed : Type 0 where
//|   pub input : ℕ
//|   pub output : ℕ
#[derive(Clone)]
pub struct Feed {
    pub input: u64,
    pub output: u64,
}

//| pub record Draft : Type 0 where
//|   pub units : List (List ℕ)
//|   pub outputs : List Output
//|   pub inputs : List Input
//|   pub feeds : List Feed
#[derive(Clone)]
pub struct Draft {
    pub units: Vec<Vec<u64>>,
    pub outputs: Vec<Output>,
    pub inputs: Vec<Input>,
    pub feeds: Vec<Feed>,
}

//| abbrev pub draft : List (List ℕ) → List Output → List Input → List Feed → Draft
//| draft u y x f = record { units = u; outputs = y; inputs = x; feeds = f }
pub fn draft(u: &[Vec<u64>], y: &[Output], x: &[Input], f: &[Feed]) -> Draft {
    Draft { units: u.to_vec(), outputs: y.to_vec(), inputs: x.to_vec(), feeds: f.to_vec() }
}

//| unfoldable pub blank : Draft
//| blank = draft [] [] [] []
pub fn blank() -> Draft {
    draft(&[], &[], &[], &[])
}

//| abbrev pub unjoined : ℕ
//| unjoined = 255
pub const UNJOINED: u64 = 255;

//| abbrev pub no_input : Input
//| no_input = record { owner = 0; name = []; kind = 0; source = 0; line = 0 }
pub fn no_input() -> Input {
    Input { owner: 0, name: vec![], kind: 0, source: 0, line: 0 }
}

//| abbrev pub input_of : Draft → ℕ → Input
//| input_of d x = get_or d.inputs x no_input
pub fn input_of(d: &Draft, x: u64) -> Input {
    get_or(&d.inputs, x, no_input())
}

//| unfoldable pub unit_named : Draft → List ℕ → ℕ
//| unit_named d w = place (λ n. same n w) d.units
pub fn unit_named(d: &Draft, w: &[u64]) -> u64 {
    place(&|n: &Vec<u64>| same(n, w), &d.units)
}

//| unfoldable pub output_named : Draft → ℕ → List ℕ → ℕ
//| output_named d u w = place (λ o. eqb o.owner u && same o.name w) d.outputs
pub fn output_named(d: &Draft, u: u64, w: &[u64]) -> u64 {
    place(&|o: &Output| o.owner == u && same(&o.name, w), &d.outputs)
}

//| unfoldable pub input_named : Draft → ℕ → List ℕ → ℕ
//| input_named d u w = place (λ i. eqb i.owner u && same i.name w) d.inputs
pub fn input_named(d: &Draft, u: u64, w: &[u64]) -> u64 {
    place(&|i: &Input| i.owner == u && same(&i.name, w), &d.inputs)
}

//| unfoldable pub feed_of : Draft → ℕ → ℕ → ℕ
//| feed_of d x y = place (λ f. eqb f.input x && eqb f.output y) d.feeds
pub fn feed_of(d: &Draft, x: u64, y: u64) -> u64 {
    place(&|f: &Feed| f.input == x && f.output == y, &d.feeds)
}

//| unfoldable pub loose : Draft → ℕ
//| loose d = place (λ i. eqb i.source unjoined) d.inputs
pub fn loose(d: &Draft) -> u64 {
    place(&|i: &Input| i.source == UNJOINED, &d.inputs)
}

//| unfoldable pub known : {A : Type 0} → List A → ℕ → Bool
//| known l i = ltb i (length l)
pub fn known<A>(l: &[A], i: u64) -> bool {
    i < length(l)
}

//| unfoldable pub add_unit : Draft → List ℕ → Draft
//| add_unit d n = draft (d.units ++ (n ∷ [])) d.outputs d.inputs d.feeds
pub fn add_unit(d: &Draft, n: Vec<u64>) -> Draft {
    draft(&append(&d.units, &[n]), &d.outputs, &d.inputs, &d.feeds)
}

//| unfoldable pub add_output : Draft → Output → Draft
//| add_output d o = draft d.units (d.outputs ++ (o ∷ [])) d.inputs d.feeds
pub fn add_output(d: &Draft, o: Output) -> Draft {
    draft(&d.units, &append(&d.outputs, &[o]), &d.inputs, &d.feeds)
}

//| unfoldable pub add_input : Draft → Input → Draft
//| add_input d i = draft d.units d.outputs (d.inputs ++ (i ∷ [])) d.feeds
pub fn add_input(d: &Draft, i: Input) -> Draft {
    draft(&d.units, &d.outputs, &append(&d.inputs, &[i]), &d.feeds)
}

//| unfoldable pub add_feed : Draft → Feed → Draft
//| add_feed d f = draft d.units d.outputs d.inputs (d.feeds ++ (f ∷ []))
pub fn add_feed(d: &Draft, f: Feed) -> Draft {
    draft(&d.units, &d.outputs, &d.inputs, &append(&d.feeds, &[f]))
}

//| unfoldable pub joined : Input → ℕ → Input
//| joined i y = record { owner = i.owner; name = i.name; kind = i.kind; source = y; line = i.line }
pub fn joined(i: Input, y: u64) -> Input {
    Input { owner: i.owner, name: i.name, kind: i.kind, source: y, line: i.line }
}

//| unfoldable pub add_join : Draft → ℕ → ℕ → Draft
//| add_join d x y = draft d.units d.outputs (set d.inputs x (joined (input_of d x) y)) d.feeds
pub fn add_join(d: &Draft, x: u64, y: u64) -> Draft {
    draft(&d.units, &d.outputs, &set(&d.inputs, x, joined(input_of(d, x), y)), &d.feeds)
}
