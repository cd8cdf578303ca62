// One line below the first: its refusal, or the draft after it.
use super::super::library::length;
use super::draft::{
    add_feed, add_input, add_join, add_output, add_unit, feed_of, input_named, input_of, known,
    output_named, unit_named, Draft, Feed, Input, Output, UNJOINED,
};
use super::rows::{ascii, same, word};

// ---- crates/grammar/specs/Lines.antt

//| pub record Outcome : Type 0 where
//|   pub number : ℕ
//|   pub draft : Draft
pub struct Outcome {
    pub number: u64,
    pub draft: Draft,
}

//| unfoldable pub refused : ℕ → Draft → Outcome
//| refused n d = record { number = n; draft = d }
pub fn refused(n: u64, d: &Draft) -> Outcome {
    Outcome { number: n, draft: d.clone() }
}

//| unfoldable pub refuse : Bool → ℕ → Draft → Outcome → Outcome
//| refuse b n d rest = cond b (refused n d) rest
pub fn refuse(b: bool, n: u64, d: &Draft, rest: impl FnOnce() -> Outcome) -> Outcome {
    if b {
        refused(n, d)
    } else {
        rest()
    }
}

//| unfoldable pub taken : Draft → Outcome
//| taken d = record { number = 0; draft = d }
pub fn taken(d: Draft) -> Outcome {
    Outcome { number: 0, draft: d }
}

//| unfoldable pub is_name : List ℕ → Bool
//| is_name w = ltb 0 (length w) && leb (length w) 16
pub fn is_name(w: &[u64]) -> bool {
    0 < length(w) && length(w) <= 16
}

//| unfoldable pub faulty : List (List ℕ) → ℕ → ℕ
//| faulty f zero = 0
//| faulty f (suc n) = cond (ltb 0 (faulty f n)) (faulty f n) (cond (is_name (word f (suc n))) 0 (suc n))
pub fn faulty(f: &[Vec<u64>], n: u64) -> u64 {
    match n {
        0 => 0,
        _ => {
            if 0 < faulty(f, n - 1) {
                faulty(f, n - 1)
            } else if is_name(&word(f, n)) {
                0
            } else {
                n
            }
        }
    }
}

//| unfoldable pub kind_of : List ℕ → ℕ
//| kind_of w = cond (same w (ascii "delayed")) 0 (cond (same w (ascii "reactive")) 1 2)
pub fn kind_of(w: &[u64]) -> u64 {
    if same(w, &ascii("delayed")) {
        0
    } else if same(w, &ascii("reactive")) {
        1
    } else {
        2
    }
}

//| unfoldable pub unit_line : Draft → List (List ℕ) → Outcome
//| unit_line d f =
//|     refuse (not (eqb (length f) 2)) 24 d
//|     (refuse (ltb 0 (faulty f 1)) 25 d
//|     (refuse (known d.units (unit_named d (word f 1))) 26 d
//|     (refuse (leb 32 (length d.units)) 29 d
//|     (taken (add_unit d (word f 1))))))
pub fn unit_line(d: &Draft, f: &[Vec<u64>]) -> Outcome {
    refuse(!(length(f) == 2), 24, d, || {
        refuse(0 < faulty(f, 1), 25, d, || {
            refuse(known(&d.units, unit_named(d, &word(f, 1))), 26, d, || {
                refuse(32 <= length(&d.units), 29, d, || taken(add_unit(d, word(f, 1))))
            })
        })
    })
}

//| unfoldable pub out_line : Draft → List (List ℕ) → Outcome
//| out_line d f =
//|     let u = unit_named d (word f 1) in
//|     refuse (not (eqb (length f) 3)) 24 d
//|     (refuse (ltb 0 (faulty f 2)) 25 d
//|     (refuse (not (known d.units u)) 27 d
//|     (refuse (known d.outputs (output_named d u (word f 2))) 26 d
//|     (refuse (leb 96 (length d.outputs)) 29 d
//|     (taken (add_output d (record { owner = u; name = word f 2 })))))))
pub fn out_line(d: &Draft, f: &[Vec<u64>]) -> Outcome {
    let u = unit_named(d, &word(f, 1));
    refuse(!(length(f) == 3), 24, d, || {
        refuse(0 < faulty(f, 2), 25, d, || {
            refuse(!known(&d.units, u), 27, d, || {
                refuse(known(&d.outputs, output_named(d, u, &word(f, 2))), 26, d, || {
                    refuse(96 <= length(&d.outputs), 29, d, || {
                        taken(add_output(d, Output { owner: u, name: word(f, 2) }))
                    })
                })
            })
        })
    })
}

//| unfoldable pub in_line : Draft → ℕ → List (List ℕ) → Outcome
//| in_line d k f =
//|     let u = unit_named d (word f 1) in
//|     let w = kind_of (word f 3) in
//|     refuse (not (eqb (length f) 4)) 24 d
//|     (refuse (ltb 0 (faulty f 2)) 25 d
//|     (refuse (eqb w 2) 28 d
//|     (refuse (not (known d.units u)) 27 d
//|     (refuse (known d.inputs (input_named d u (word f 2))) 26 d
//|     (refuse (leb 96 (length d.inputs)) 29 d
//|     (taken (add_input d (record { owner = u; name = word f 2; kind = w; source = unjoined; line = k }))))))))
pub fn in_line(d: &Draft, k: u64, f: &[Vec<u64>]) -> Outcome {
    let u = unit_named(d, &word(f, 1));
    let w = kind_of(&word(f, 3));
    let input = Input { owner: u, name: word(f, 2), kind: w, source: UNJOINED, line: k };
    refuse(!(length(f) == 4), 24, d, || {
        refuse(0 < faulty(f, 2), 25, d, || {
            refuse(w == 2, 28, d, || {
                refuse(!known(&d.units, u), 27, d, || {
                    refuse(known(&d.inputs, input_named(d, u, &word(f, 2))), 26, d, || {
                        refuse(96 <= length(&d.inputs), 29, d, || taken(add_input(d, input)))
                    })
                })
            })
        })
    })
}

//| unfoldable pub feed_line : Draft → List (List ℕ) → Outcome
//| feed_line d f =
//|     let u = unit_named d (word f 1) in
//|     let x = input_named d u (word f 2) in
//|     let y = output_named d u (word f 3) in
//|     refuse (not (eqb (length f) 4)) 24 d
//|     (refuse (ltb 0 (faulty f 3)) 25 d
//|     (refuse (not (known d.units u)) 27 d
//|     (refuse (not (known d.inputs x)) 27 d
//|     (refuse (not (known d.outputs y)) 27 d
//|     (refuse (known d.feeds (feed_of d x y)) 32 d
//|     (refuse (leb 128 (length d.feeds)) 29 d
//|     (taken (add_feed d (record { input = x; output = y })))))))))
pub fn feed_line(d: &Draft, f: &[Vec<u64>]) -> Outcome {
    let u = unit_named(d, &word(f, 1));
    let x = input_named(d, u, &word(f, 2));
    let y = output_named(d, u, &word(f, 3));
    refuse(!(length(f) == 4), 24, d, || {
        refuse(0 < faulty(f, 3), 25, d, || {
            refuse(!known(&d.units, u), 27, d, || {
                refuse(!known(&d.inputs, x), 27, d, || {
                    refuse(!known(&d.outputs, y), 27, d, || {
                        refuse(known(&d.feeds, feed_of(d, x, y)), 32, d, || {
                            refuse(128 <= length(&d.feeds), 29, d, || {
                                taken(add_feed(d, Feed { input: x, output: y }))
                            })
                        })
                    })
                })
            })
        })
    })
}

//| unfoldable pub join_line : Draft → List (List ℕ) → Outcome
//| join_line d f =
//|     let u = unit_named d (word f 1) in
//|     let y = output_named d u (word f 2) in
//|     let v = unit_named d (word f 3) in
//|     let x = input_named d v (word f 4) in
//|     refuse (not (eqb (length f) 5)) 24 d
//|     (refuse (ltb 0 (faulty f 4)) 25 d
//|     (refuse (not (known d.units u)) 27 d
//|     (refuse (not (known d.outputs y)) 27 d
//|     (refuse (not (known d.units v)) 27 d
//|     (refuse (not (known d.inputs x)) 27 d
//|     (refuse (not (eqb (input_of d x).source unjoined)) 30 d
//|     (taken (add_join d x y))))))))
pub fn join_line(d: &Draft, f: &[Vec<u64>]) -> Outcome {
    let u = unit_named(d, &word(f, 1));
    let y = output_named(d, u, &word(f, 2));
    let v = unit_named(d, &word(f, 3));
    let x = input_named(d, v, &word(f, 4));
    refuse(!(length(f) == 5), 24, d, || {
        refuse(0 < faulty(f, 4), 25, d, || {
            refuse(!known(&d.units, u), 27, d, || {
                refuse(!known(&d.outputs, y), 27, d, || {
                    refuse(!known(&d.units, v), 27, d, || {
                        refuse(!known(&d.inputs, x), 27, d, || {
                            refuse(!(input_of(d, x).source == UNJOINED), 30, d, || {
                                taken(add_join(d, x, y))
                            })
                        })
                    })
                })
            })
        })
    })
}

//| unfoldable pub line : Draft → ℕ → List (List ℕ) → Outcome
//| line d k f =
//|     cond (same (word f 0) (ascii "unit")) (unit_line d f)
//|     (cond (same (word f 0) (ascii "out")) (out_line d f)
//|     (cond (same (word f 0) (ascii "in")) (in_line d k f)
//|     (cond (same (word f 0) (ascii "feed")) (feed_line d f)
//|     (cond (same (word f 0) (ascii "join")) (join_line d f)
//|     (refused 24 d)))))
pub fn line(d: &Draft, k: u64, f: &[Vec<u64>]) -> Outcome {
    if same(&word(f, 0), &ascii("unit")) {
        unit_line(d, f)
    } else if same(&word(f, 0), &ascii("out")) {
        out_line(d, f)
    } else if same(&word(f, 0), &ascii("in")) {
        in_line(d, k, f)
    } else if same(&word(f, 0), &ascii("feed")) {
        feed_line(d, f)
    } else if same(&word(f, 0), &ascii("join")) {
        join_line(d, f)
    } else {
        refused(24, d)
    }
}
