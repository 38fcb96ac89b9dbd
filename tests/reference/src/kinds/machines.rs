//! Both machines on a schedule: demand 3's equation, where the scale machine stops, and half the modulus where there is an H.

use super::{expect, likely_circuit, with_files};
use crate::big::Big;
use crate::both::Both;
use crate::cases::{files, hand};
use crate::machines::{bounded_lines, first_wrong_line, plain_machine, scale_machine, Bounded, Handed, Vector};
use crate::plan;
use crate::random::Random;
use crate::text::{bytes_of, File, Line, Reading};
use std::cmp::Ordering;
use std::collections::HashMap;

/// Vectors handed to the machines have numbers of at most this many bits.
const HANDED_BITS: usize = 150;
/// Circuits with longer numbers than this, without their scales, are cut before they get there.
const MOST_BITS: usize = 2500;

/// How many lines of a circuit keep its numbers within the bound.
fn lines_within_bound(circuit: &File) -> usize {
    let mut bits: Vec<usize> = Vec::new();
    for &line in circuit.lines() {
        let at = |operand: u16| bits[usize::from(operand)];
        let next = match line {
            Line::Add { a, b } => at(a).max(at(b)) + 1,
            Line::Mul { a, b } => at(a) + at(b),
            Line::Neg { a } | Line::Rot { a, .. } | Line::Out { a } => at(a),
            _ => HANDED_BITS,
        };
        if next > MOST_BITS {
            break;
        }
        bits.push(next);
    }
    bits.len()
}

fn vector(random: &mut Random, length: usize) -> Vector {
    let mut slot = || match random.below(4) {
        0 => Big::from_i64(i64::from(random.between(-3, 3))),
        1 => Big::from_i64(random.word() as i64),
        _ => Big::random(random, HANDED_BITS),
    };
    (0..length).map(|_| slot()).collect()
}

/// Numbers of two to (H − 1), one less or any of H bits; and ones, so that a product with them is as small still.
fn vector_for_headroom(random: &mut Random, length: usize, headroom: i32) -> Vector {
    let (one, bound) = (Big::from_i64(1), Big::two_to(headroom as usize - 1));
    let kind = random.below(10);
    let mut slot = || {
        let magnitude = match kind {
            0..=3 => one.clone(),
            4..=6 => bound.sub(&one),
            7 | 8 => bound.clone(),
            _ => Big::random(random, headroom as usize),
        };
        if random.percent(50) {
            magnitude.neg()
        } else {
            magnitude
        }
    };
    (0..length).map(|_| slot()).collect()
}

fn handed(random: &mut Random, circuit: &File) -> Handed {
    let length = random.pick(&[1, 1, 2, 3, 5]);
    let headroom = circuit.header.headroom.filter(|_| random.percent(80));
    let mut vector = || match headroom {
        Some(headroom) => vector_for_headroom(random, length, headroom),
        None => vector(random, length),
    };
    let mut handed = Handed { inputs: Vec::new(), constants: HashMap::new() };
    for &line in circuit.lines() {
        match line {
            Line::In => handed.inputs.push(vector()),
            Line::Const { number } => {
                handed.constants.insert(number, vector());
            }
            _ => {}
        }
    }
    handed
}

/// A circuit for the machines. One with an H gets outputs of any lines, since a schedule made by hand may raise each to the highest scale.
fn circuit_for_machines(random: &mut Random) -> File {
    let most_lines = random.pick(&[5, 12, 40]);
    let mut circuit = likely_circuit(random, most_lines);
    circuit.cut(lines_within_bound(&circuit));
    if circuit.header.headroom.is_some() && random.percent(50) {
        files::set_headroom_near_best(random, &mut circuit);
    }
    if circuit.header.headroom.is_some() {
        files::add_outputs(random, &mut circuit, 5);
    }
    circuit
}

/// Counts lines that hold numbers within half their modulus; gives the first that breaks the promise.
fn first_above_half(both: &mut Both, lines: &[Bounded]) -> Option<usize> {
    let count = |is_counted: fn(&&Bounded) -> bool| lines.iter().filter(is_counted).count() as u64;
    both.halves.below += count(|line| line.own == Ordering::Less);
    both.halves.greatest += count(|line| line.is_full && line.is_greatest);
    both.halves.reached += count(|line| line.is_full && line.own == Ordering::Equal && line.held == Ordering::Equal);
    lines.iter().position(|line| !line.keeps_promise())
}

/// Demand 3 on one schedule, the plan's or one made by hand, legal or not, and document 02's Job 3.
pub fn machines(random: &mut Random, both: &mut Both) -> Result<(), String> {
    let circuit = circuit_for_machines(random);
    let mut schedule = match plan::plan_of(&circuit) {
        Ok(planned) if random.percent(30) => planned,
        _ => hand::schedule(random, &circuit),
    };
    if random.percent(20) {
        hand::spoil(random, &mut schedule);
    }
    let texts = [bytes_of(&circuit, Reading::Circuit), bytes_of(&schedule, Reading::Schedule)];
    let checked = both.check(&texts[0], &texts[1])?.reply;
    let handed = handed(random, &circuit);
    let otherwise = |what: String| with_files(&what, &texts[0], &texts[1]);
    match scale_machine(&schedule, &handed) {
        Ok(held) => {
            both.runs.to_the_end += 1;
            let plain = plain_machine(&circuit, &handed);
            let wrong = first_wrong_line(&schedule, &held, &plain);
            expect(checked.number == 0, || otherwise(format!("the scale machine runs all lines, check answers {checked:?}")))?;
            expect(wrong.is_none(), || {
                otherwise(format!("circuit line {wrong:?} holds other numbers than the circuit's own"))
            })?;
            let above = first_above_half(both, &bounded_lines(&schedule, &held, &plain));
            expect(above.is_none(), || {
                otherwise(format!("ciphertext line {above:?} of the circuit is not below half its modulus"))
            })
        }
        Err(stop) => {
            both.runs.stopped += 1;
            let alike = stop.reason.number() == Some(checked.number) && checked.place as usize == stop.line + 2;
            expect(alike, || otherwise(format!("the scale machine stops ({stop:?}), check answers {checked:?}")))
        }
    }
}
