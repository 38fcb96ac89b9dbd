//! The plain machine and the scale machine, on vectors of whole numbers of any size.

use crate::big::Big;
use crate::text::{File, Header, Line};
use std::cmp::Ordering;
use std::collections::HashMap;

pub type Vector = Vec<Big>;

/// What both machines are handed: "one for each `in` line in order, one for each constant number". All vectors have the same
/// length of at least 1.
pub struct Handed {
    pub inputs: Vec<Vector>,
    pub constants: HashMap<u32, Vector>,
}

/// What a line of the scale machine holds; "a bare `const` holds no scale".
#[derive(Clone, Debug)]
pub struct Held {
    pub vector: Vector,
    pub standing: Option<(i64, i64)>,
}

/// Why the scale machine stops.
#[derive(Clone, Copy, PartialEq, Eq, Debug)]
pub enum Reason {
    LevelsDiffer,
    ScalesDiffer,
    Remainder,
    BelowWaterline,
    AboveModulus,
    /// A line that the text layer refuses: no machine is started on it.
    NoScale,
}

impl Reason {
    /// The number with which the check refuses such a line; where a division leaves a remainder, the scale falls below zero.
    pub fn number(self) -> Option<u32> {
        match self {
            Reason::LevelsDiffer => Some(7),
            Reason::ScalesDiffer => Some(8),
            Reason::Remainder | Reason::BelowWaterline => Some(10),
            Reason::AboveModulus => Some(9),
            Reason::NoScale => None,
        }
    }
}

/// Where and why it stops; `line` is a value number.
#[derive(Clone, Copy, PartialEq, Eq, Debug)]
pub struct Stop {
    pub line: usize,
    pub reason: Reason,
}

fn negated(vector: &Vector) -> Vector {
    vector.iter().map(Big::neg).collect()
}

/// "slot i takes slot i + T of A, cyclic": i + T is taken modulo n.
fn rotated(vector: &Vector, by: i16) -> Vector {
    let n = vector.len() as i64;
    (0..n).map(|i| vector[(i + i64::from(by)).rem_euclid(n) as usize].clone()).collect()
}

fn slot_by_slot(one: &Vector, other: &Vector, operation: fn(&Big, &Big) -> Big) -> Vector {
    one.iter().zip(other).map(|(x, y)| operation(x, y)).collect()
}

fn scaled(vector: &Vector, bits: i64) -> Vector {
    vector.iter().map(|slot| slot.shift_left(bits as usize)).collect()
}

/// Runs a circuit: what its lines hold are the circuit's own numbers.
pub fn plain_machine(circuit: &File, handed: &Handed) -> Vec<Vector> {
    let mut held: Vec<Vector> = Vec::new();
    let mut inputs = handed.inputs.iter();
    for &line in circuit.lines() {
        let at = |operand: u16| &held[usize::from(operand)];
        let vector = match line {
            Line::In => inputs.next().expect("one vector for each `in` line").clone(),
            Line::Const { number } => handed.constants[&number].clone(),
            Line::Neg { a } => negated(at(a)),
            Line::Rot { a, by } => rotated(at(a), by),
            Line::Add { a, b } => slot_by_slot(at(a), at(b), Big::add),
            Line::Mul { a, b } => slot_by_slot(at(a), at(b), Big::mul),
            Line::Out { a } => at(a).clone(),
            _ => panic!("no line of a circuit"),
        };
        held.push(vector);
    }
    held
}

/// Runs a schedule, with scales and levels too, until all lines are done or it stops.
pub fn scale_machine(schedule: &File, handed: &Handed) -> Result<Vec<Held>, Stop> {
    let header = &schedule.header;
    let mut held: Vec<Held> = Vec::new();
    let mut inputs = handed.inputs.iter();
    for (n, &line) in schedule.lines().iter().enumerate() {
        let stop = |reason| Stop { line: n, reason };
        let next = match line {
            Line::In => {
                let vector = inputs.next().expect("one vector for each `in` line");
                let scale = i64::from(header.waterline);
                Held { vector: scaled(vector, scale), standing: Some((scale, i64::from(header.top_level))) }
            }
            Line::Const { number } => Held { vector: handed.constants[&number].clone(), standing: None },
            _ => work(header, line, &held).map_err(stop)?,
        };
        if let Some((scale, level)) = next.standing {
            if scale < i64::from(header.waterline) {
                return Err(stop(Reason::BelowWaterline));
            }
            // "a scale above F·level", which takes H in as the rule does.
            if scale + i64::from(header.headroom_bits()) > i64::from(header.factor) * level {
                return Err(stop(Reason::AboveModulus));
            }
        }
        held.push(next);
    }
    Ok(held)
}

/// A line with operands, before its own scale is held to the bounds.
fn work(header: &Header, line: Line, held: &[Held]) -> Result<Held, Reason> {
    let at = |operand: u16| {
        let held = &held[usize::from(operand)];
        held.standing.map(|(scale, level)| (&held.vector, scale, level)).ok_or(Reason::NoScale)
    };
    let keep = |vector, scale, level| Ok(Held { vector, standing: Some((scale, level)) });
    match line {
        Line::Neg { a } => at(a).and_then(|(vector, scale, level)| keep(negated(vector), scale, level)),
        Line::Rot { a, by } => at(a).and_then(|(vector, scale, level)| keep(rotated(vector, by), scale, level)),
        Line::Out { a } => at(a).and_then(|(vector, scale, level)| keep(vector.clone(), scale, level)),
        Line::Enc { a, scale, level } => {
            let scale = i64::from(scale);
            keep(scaled(&held[usize::from(a)].vector, scale), scale, i64::from(level))
        }
        Line::Add { a, b } | Line::Mul { a, b } => meet(line, at(a)?, at(b)?),
        Line::Modswitch { a, count } => {
            at(a).and_then(|(vector, scale, level)| keep(vector.clone(), scale, level - i64::from(count)))
        }
        Line::Upscale { a, bits } => {
            let bits = i64::from(bits);
            at(a).and_then(|(vector, scale, level)| keep(scaled(vector, bits), scale + bits, level))
        }
        Line::Rescale { a, count } => {
            let (vector, scale, level) = at(a)?;
            let bits = i64::from(header.factor) * i64::from(count);
            let divided = vector.iter().map(|slot| slot.shift_right_exact(bits as usize));
            let vector = divided.collect::<Option<Vector>>().ok_or(Reason::Remainder)?;
            keep(vector, scale - bits, level - i64::from(count))
        }
        // A listing's `ds` stands in no schedule.
        Line::In | Line::Const { .. } | Line::Downscale { .. } => Err(Reason::NoScale),
    }
}

/// "`add` and `mul`: equal levels, kept. `add`: equal scales, kept. `mul`: the scales are summed."
fn meet(line: Line, one: (&Vector, i64, i64), other: (&Vector, i64, i64)) -> Result<Held, Reason> {
    let (first, first_scale, level) = one;
    let (second, second_scale, second_level) = other;
    if level != second_level {
        return Err(Reason::LevelsDiffer);
    }
    if let Line::Mul { .. } = line {
        let vector = slot_by_slot(first, second, Big::mul);
        return Ok(Held { vector, standing: Some((first_scale + second_scale, level)) });
    }
    if first_scale != second_scale {
        return Err(Reason::ScalesDiffer);
    }
    Ok(Held { vector: slot_by_slot(first, second, Big::add), standing: Some((first_scale, level)) })
}

/// Demand 3 on what both machines hold: "each circuit line but a bare constant then holds exactly the circuit's own numbers
/// ..., times two to its scale". Gives the first circuit line that does not.
pub fn first_wrong_line(schedule: &File, held: &[Held], plain: &[Vector]) -> Option<usize> {
    let kept = schedule.lines().iter().zip(held).filter(|(line, _)| line.struck_from().is_none());
    let mut count = 0;
    for ((_, held), numbers) in kept.zip(plain) {
        if held.standing.is_some_and(|(scale, _)| held.vector != scaled(numbers, scale)) {
            return Some(count);
        }
        count += 1;
    }
    // A line that the schedule lacks is wrong too.
    (count != plain.len()).then_some(count)
}

/// A circuit line other than a bare constant, beside its bounds, in a schedule that has an H.
#[derive(Clone, Copy, PartialEq, Eq, Debug)]
pub struct Bounded {
    /// The greatest of its circuit numbers, in absolute value, against two to the power (H − 1).
    pub own: Ordering,
    /// Whether that is two to the power (H − 1) less one, and not 0.
    pub is_greatest: bool,
    /// The greatest of the numbers that it holds, in absolute value, against half its modulus.
    pub held: Ordering,
    /// Whether scale + H is F·level, so that not one bit more has a place.
    pub is_full: bool,
}

impl Bounded {
    /// "where H is given, a circuit line other than a bare constant whose circuit numbers are in absolute value below two to the power (H − 1) holds
    /// in the scale machine only numbers in absolute value below half its modulus"
    pub fn keeps_promise(self) -> bool {
        self.own != Ordering::Less || self.held == Ordering::Less
    }
}

fn greatest(vector: &Vector) -> Big {
    vector.iter().map(Big::abs).max_by(Big::compare).expect("a length of at least 1")
}

/// The circuit lines other than bare constants, `out` lines among them, of a schedule that ran to its end; none where it has no H.
pub fn bounded_lines(schedule: &File, held: &[Held], plain: &[Vector]) -> Vec<Bounded> {
    let Header { factor, headroom: Some(headroom), .. } = schedule.header else { return Vec::new() };
    let bound = Big::two_to(headroom as usize - 1);
    let kept = schedule.lines().iter().zip(held).filter(|(line, _)| line.struck_from().is_none());
    let bounded = |((_, held), numbers): ((&Line, &Held), &Vector)| {
        let (scale, level) = held.standing?;
        // "the modulus being two to F·level"
        let modulus_bits = i64::from(factor) * level;
        let own = greatest(numbers);
        Some(Bounded {
            own: own.compare(&bound),
            is_greatest: headroom > 1 && own.add(&Big::from_i64(1)) == bound,
            held: greatest(&held.vector).compare(&Big::two_to(modulus_bits as usize - 1)),
            is_full: scale + i64::from(headroom) == modulus_bits,
        })
    };
    kept.zip(plain).filter_map(bounded).collect()
}

#[cfg(test)]
mod tests {
    use super::*;
    use crate::text::{file_of, Reading};

    fn file(shown: &str, reading: Reading) -> File {
        let bytes = shown.replace('/', "\n").replace(' ', "\t");
        match file_of(bytes.as_bytes(), reading) {
            Ok(file) => file,
            Err(refusal) => panic!("{refusal:?}"),
        }
    }

    fn handed() -> Handed {
        let vector = |values: [i64; 3]| values.map(Big::from_i64).to_vec();
        Handed { inputs: vec![vector([1, -2, 3])], constants: HashMap::from([(7, vector([5, 0, -1]))]) }
    }

    #[test]
    fn worked_program_holds_the_circuits_numbers() {
        let circuit = file("circuit 60 20 2/in/const 7/mul 0 1/mul 2 1/mul 3 3/out 4/", Reading::Circuit);
        let schedule = file(
            "schedule 60 20 2/in/const 7/enc 1 20 2/mul 0 2/enc 1 20 2/mul 3 4/us 5 20/rs 6 1/us 5 20/rs 8 1/mul 7 9/out 10/",
            Reading::Schedule,
        );
        let plain = plain_machine(&circuit, &handed());
        assert_eq!(plain[5], [625, 0, 9].map(Big::from_i64).to_vec());
        let Ok(held) = scale_machine(&schedule, &handed()) else { panic!("stopped") };
        assert_eq!(held[11].standing, Some((40, 1)));
        assert_eq!(first_wrong_line(&schedule, &held, &plain), None);
    }

    /// One vector for each constant number, over the whole range.
    #[test]
    fn each_constant_number_has_a_vector() {
        let numbers = [7, 65_543, 2_147_483_655, 4_294_967_295];
        let vectors = numbers.iter().enumerate().map(|(n, &number)| (number, vec![Big::from_i64(n as i64 + 2)]));
        let handed = Handed { inputs: vec![vec![Big::from_i64(1)]], constants: vectors.collect() };
        let constants = numbers.map(|number| format!("const {number}/")).concat();
        let circuit = file(&format!("circuit 60 20 9/in/{constants}mul 0 1/mul 5 2/mul 6 3/mul 7 4/"), Reading::Circuit);
        let plain = plain_machine(&circuit, &handed);
        assert_eq!(plain[8], vec![Big::from_i64(2 * 3 * 4 * 5)]);
        let Ok(schedule) = crate::plan::plan_of(&circuit) else { panic!("refused") };
        let Ok(held) = scale_machine(&schedule, &handed) else { panic!("stopped") };
        assert_eq!(first_wrong_line(&schedule, &held, &plain), None);
    }

    #[test]
    fn rotation_is_cyclic() {
        let vector = [1, 2, 3].map(Big::from_i64).to_vec();
        assert_eq!(rotated(&vector, 1), [2, 3, 1].map(Big::from_i64).to_vec());
        assert_eq!(rotated(&vector, -32_767), rotated(&vector, 2));
    }

    #[test]
    fn stops() {
        let reason = |shown: &str| scale_machine(&file(shown, Reading::Schedule), &handed()).err();
        let stop = |line, reason| Some(Stop { line, reason });
        assert_eq!(reason("schedule 60 20 2/in/rs 0 1/"), stop(1, Reason::Remainder));
        assert_eq!(reason("schedule 60 20 2/in/us 0 59/rs 1 1/"), stop(2, Reason::BelowWaterline));
        assert_eq!(reason("schedule 60 20 2/in/us 0 101/"), stop(1, Reason::AboveModulus));
        assert_eq!(reason("schedule 60 20 2/in/const 7/enc 1 19 1/"), stop(2, Reason::BelowWaterline));
        assert_eq!(reason("schedule 60 20 2/in/ms 0 1/add 0 1/"), stop(2, Reason::LevelsDiffer));
        assert_eq!(reason("schedule 60 20 2/in/us 0 1/add 0 1/"), stop(2, Reason::ScalesDiffer));
        assert_eq!(reason("schedule 60 20 2/in/us 0 60/rs 1 1/"), None);
    }

    /// Scale 80 and H = 40 fill the modulus at level 2; one bit more of either does not fit. `in` and `enc` are held to H too.
    #[test]
    fn stops_that_take_the_headroom_in() {
        let reason = |shown: &str| scale_machine(&file(shown, Reading::Schedule), &handed()).err();
        let stop = |line| Some(Stop { line, reason: Reason::AboveModulus });
        assert_eq!(reason("schedule 60 20 2 40/in/us 0 60/rs 1 1/"), None);
        assert_eq!(reason("schedule 60 20 2 41/in/us 0 60/rs 1 1/"), stop(1));
        assert_eq!(reason("schedule 60 20 2 40/in/us 0 61/"), stop(1));
        assert_eq!([reason("schedule 60 20 1 40/in/"), reason("schedule 60 20 1 41/in/")], [None, stop(0)]);
        assert_eq!(reason("schedule 60 20 2 40/const 7/enc 0 20 1/"), None);
        assert_eq!(reason("schedule 60 20 2 41/const 7/enc 0 20 1/"), stop(1));
    }

    /// What the lines of a schedule hold beside their bounds, its one input being these numbers.
    fn bounded(shown: &str, input: &[i64]) -> Vec<Bounded> {
        let schedule = file(shown, Reading::Schedule);
        let input = input.iter().map(|&number| Big::from_i64(number)).collect();
        let handed = Handed { inputs: vec![input], constants: HashMap::from([(7, vec![Big::from_i64(-1); 2])]) };
        let plain = plain_machine(&crate::erase::erasure_of(&schedule), &handed);
        let Ok(held) = scale_machine(&schedule, &handed) else { panic!("stopped") };
        bounded_lines(&schedule, &held, &plain)
    }

    /// H = 5: detune factors to 12 and on to 15 have a place at scale 55 of 60 bits, and 16 comes to half the modulus.
    #[test]
    fn half_the_modulus() {
        use Ordering::{Equal, Greater, Less};
        let shown = "schedule 60 20 1 5/in/us 0 35/neg 1/out 2/";
        let full = |own, is_greatest, held| vec![Bounded { own, is_greatest, held, is_full: true }; 2];
        for (number, due) in [
            (12, full(Less, false, Less)),
            (-12, full(Less, false, Less)),
            (15, full(Less, true, Less)),
            (-15, full(Less, true, Less)),
            (16, full(Equal, false, Equal)),
            (-16, full(Equal, false, Equal)),
            (17, full(Greater, false, Greater)),
        ] {
            let lines = bounded(shown, &[1, number]);
            assert_eq!(lines[1..], due, "{number}");
            // The input itself has scale 20: 35 bits more are free.
            assert!(!lines[0].is_full && lines[0].held == Less && lines.iter().all(|line| line.keeps_promise()));
        }
    }

    /// A number below the bound on half the modulus breaks the promise; a bare constant is not asked, and nothing is without an H.
    #[test]
    fn lines_that_are_asked() {
        let [own, held] = [Ordering::Less, Ordering::Equal];
        assert!(!Bounded { own, is_greatest: true, held, is_full: true }.keeps_promise());
        let lines = "in/const 7/enc 1 20 1/mul 0 2/out 3/";
        assert_eq!(bounded(&format!("schedule 60 20 1 20/{lines}"), &[3, -5]).len(), 3);
        assert_eq!(bounded(&format!("schedule 60 20 1/{lines}"), &[3, -5]), []);
        // H = 1: nothing but 0 is below two to the power 0.
        let of_input = |number| bounded("schedule 60 59 1 1/in/", &[number]);
        assert_eq!(of_input(0), [Bounded { own: Ordering::Less, is_greatest: false, held: Ordering::Less, is_full: true }]);
        assert_eq!(of_input(1), [Bounded { own: Ordering::Equal, is_greatest: false, held: Ordering::Equal, is_full: true }]);
    }
}
