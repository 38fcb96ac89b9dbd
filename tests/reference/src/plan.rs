//! The plan of a circuit and its least top level: refusal 6.

use crate::text::{File, Header, Line, Refusal, CIRCUIT_LINES};

/// Where a ciphertext or an encoded constant stands: its reserve F·l − s and its level l.
#[derive(Clone, Copy, PartialEq, Eq, Debug)]
pub struct Spot {
    pub reserve: i32,
    pub level: i32,
}

impl Spot {
    pub fn of_scale(header: &Header, scale: i32, level: i32) -> Spot {
        Spot { reserve: header.factor * level - scale, level }
    }

    pub fn scale(self, header: &Header) -> i32 {
        header.factor * self.level - self.reserve
    }
}

/// How a line is done: where its operands are brought and where its result stands.
#[derive(Clone, Copy, PartialEq, Eq, Debug)]
pub struct Step {
    pub operands: [Spot; 2],
    pub result: Spot,
}

impl Step {
    /// Operands and result at the same spot.
    fn all_at(spot: Spot) -> Step {
        Step { operands: [spot; 2], result: spot }
    }

    fn swapped(self) -> Step {
        Step { operands: [self.operands[1], self.operands[0]], result: self.result }
    }
}

/// "m(r) is the smallest whole level with F·m ≥ r + W."
fn smallest_level(header: &Header, reserve: i32) -> i32 {
    let bits = reserve + header.waterline;
    (bits + header.factor - 1).div_euclid(header.factor)
}

/// A value of reserve r at level m(r).
fn settled(header: &Header, reserve: i32) -> Spot {
    Spot { reserve, level: smallest_level(header, reserve) }
}

/// How the plan does a line, from the spots of the lines before it; none for a constant.
pub fn step(header: &Header, line: Line, spots: &[Option<Spot>]) -> Option<Step> {
    let at = |operand: u16| spots[usize::from(operand)];
    match line {
        Line::In => Some(Step::all_at(Spot::of_scale(header, header.waterline, header.top_level))),
        Line::Const { .. } => None,
        // "`out` names the value as it is, no line added."
        Line::Out { a } => at(a).map(Step::all_at),
        Line::Neg { a } | Line::Rot { a, .. } => at(a).map(|spot| Step::all_at(settled(header, spot.reserve))),
        Line::Add { a, b } => {
            let reserves = at(a).into_iter().chain(at(b)).map(|spot| spot.reserve);
            reserves.min().map(|reserve| Step::all_at(settled(header, reserve)))
        }
        Line::Mul { a, b } => match (at(a), at(b)) {
            (Some(x), Some(y)) => Some(multiply(header, x.reserve, y.reserve)),
            (Some(x), None) => Some(multiply_constant(header, x.reserve)),
            (None, Some(y)) => Some(multiply_constant(header, y.reserve).swapped()),
            (None, None) => None,
        },
        // No line of a circuit has these words.
        Line::Enc { .. } | Line::Rescale { .. } | Line::Modswitch { .. } => None,
        Line::Upscale { .. } | Line::Downscale { .. } => None,
    }
}

/// "`mul` with a constant: level m(r), constant at scale W, new reserve r − W." The constant stands second here.
fn multiply_constant(header: &Header, reserve: i32) -> Step {
    let first = settled(header, reserve);
    let second = Spot::of_scale(header, header.waterline, first.level);
    let result = Spot { reserve: reserve - header.waterline, level: first.level };
    Step { operands: [first, second], result }
}

/// `mul` of two ciphertexts of these reserves.
fn multiply(header: &Header, first: i32, second: i32) -> Step {
    let level = smallest_level(header, first);
    let other_level = smallest_level(header, second);
    // "m's unequal: at the smaller m; the operand of smaller reserve r keeps it, the other comes to scale W; new reserve
    // r − W", as with a constant at scale W.
    if level < other_level {
        return multiply_constant(header, first);
    }
    if level > other_level {
        return multiply_constant(header, second).swapped();
    }
    // "r1 + r2 − F·m at level m, or F·(m − 1) − 2·W at level m − 1 with both operands at scale W. The greater; if equal, the
    // lower level."
    let here = Spot { reserve: first + second - header.factor * level, level };
    let below = Spot::of_scale(header, 2 * header.waterline, level - 1);
    if here.reserve > below.reserve {
        let operands = [Spot { reserve: first, level }, Spot { reserve: second, level }];
        Step { operands, result: here }
    } else {
        let operand = Spot::of_scale(header, header.waterline, level - 1);
        Step { operands: [operand; 2], result: below }
    }
}

/// The plan of a circuit in a table of its own.
pub fn plan_of(circuit: &File) -> Result<File, Refusal> {
    let mut schedule = File::free();
    plan(circuit, &mut schedule).map(|()| schedule)
}

/// Plans a circuit into a free table. "The best reserve may come out below zero; then the circuit is refused at that line." With an H "a best
/// reserve below H is too few levels"; m(r) and the rest of the plan do not ask for H.
pub fn plan(circuit: &File, schedule: &mut File) -> Result<(), Refusal> {
    let header = circuit.header;
    schedule.header = header;
    let mut spots = [None; CIRCUIT_LINES];
    // The schedule's number of each circuit value.
    let mut numbers = [0; CIRCUIT_LINES];
    for (n, &line) in circuit.lines().iter().enumerate() {
        let step = step(&header, line, &spots);
        spots[n] = step.map(|step| step.result);
        numbers[n] = match step {
            None => schedule.push(line),
            Some(step) if step.result.reserve < header.headroom_bits() => return Err(Refusal::at_value(6, n)),
            Some(step) => write_line(line, &step, &spots, &numbers, schedule),
        };
    }
    Ok(())
}

/// "First operand's lines, second's, then the line itself."
fn write_line(line: Line, step: &Step, spots: &[Option<Spot>], numbers: &[u16], schedule: &mut File) -> u16 {
    let mut brought = |operand: u16, to: Spot| {
        let number = numbers[usize::from(operand)];
        match spots[usize::from(operand)] {
            Some(from) => bring(number, from, to, schedule),
            None => encode(number, to, schedule),
        }
    };
    let line = match line {
        Line::Neg { a } => Line::Neg { a: brought(a, step.operands[0]) },
        Line::Rot { a, by } => Line::Rot { a: brought(a, step.operands[0]), by },
        Line::Out { a } => Line::Out { a: brought(a, step.operands[0]) },
        Line::Add { a, b } => {
            let a = brought(a, step.operands[0]);
            Line::Add { a, b: brought(b, step.operands[1]) }
        }
        Line::Mul { a, b } => {
            let a = brought(a, step.operands[0]);
            Line::Mul { a, b: brought(b, step.operands[1]) }
        }
        other => other,
    };
    schedule.push(line)
}

/// "A `const` line is copied; each use gets its own `enc`."
fn encode(number: u16, to: Spot, schedule: &mut File) -> u16 {
    let scale = to.scale(&schedule.header) as u16;
    schedule.push(Line::Enc { a: number, scale, level: to.level as u8 })
}

/// "Bringing a value from (r, l) to (r′, l′): with d = r − r′ and q the smaller of d div F and l − l′, write `ms` q, then `us`
/// d − q·F, then `rs` l − l′ − q, each only if not zero." Gives the number of the value brought.
pub fn bring(number: u16, from: Spot, to: Spot, schedule: &mut File) -> u16 {
    let factor = schedule.header.factor;
    let spent = from.reserve - to.reserve;
    let levels = from.level - to.level;
    let modswitches = (spent / factor).min(levels);
    let bits = spent - modswitches * factor;
    let rescales = levels - modswitches;
    let mut a = number;
    if modswitches != 0 {
        a = schedule.push(Line::Modswitch { a, count: modswitches as u8 });
    }
    if bits != 0 {
        a = schedule.push(Line::Upscale { a, bits: bits as u16 });
    }
    if rescales != 0 {
        a = schedule.push(Line::Rescale { a, count: rescales as u8 });
    }
    a
}

/// "The least top level is found by trying L from 1 upward to 60 and stopping at the first that fits"; 6 "at L = 60". Each level is tried with the
/// header's H.
pub fn least_level(circuit: &File) -> Result<u32, Refusal> {
    let mut short = 0;
    for top_level in 1..=60 {
        match first_short_line(&Header { top_level, ..circuit.header }, circuit.lines()) {
            None => return Ok(top_level as u32),
            Some(n) => short = n,
        }
    }
    Err(Refusal::at_value(6, short))
}

/// The first line with best reserve below zero, or below H.
fn first_short_line(header: &Header, lines: &[Line]) -> Option<usize> {
    let mut spots = [None; CIRCUIT_LINES];
    for (n, &line) in lines.iter().enumerate() {
        spots[n] = step(header, line, &spots).map(|step| step.result);
        if spots[n].is_some_and(|spot| spot.reserve < header.headroom_bits()) {
            return Some(n);
        }
    }
    None
}

/// The best reserves of a circuit's lines, none for a constant; the last is the first that is too small, if there is one.
pub fn best_reserves(header: &Header, lines: &[Line]) -> Vec<Option<i32>> {
    let mut spots = Vec::new();
    let mut reserves = Vec::new();
    for &line in lines {
        let spot = step(header, line, &spots).map(|step| step.result);
        spots.push(spot);
        reserves.push(spot.map(|spot| spot.reserve));
        if spot.is_some_and(|spot| spot.reserve < header.headroom_bits()) {
            break;
        }
    }
    reserves
}

#[cfg(test)]
mod tests {
    use super::*;
    use crate::cases::files;
    use crate::random::Random;
    use crate::text::{file_of, Reading};

    /// `in`, then this many squarings.
    fn squarings(top_level: i32, count: u16) -> File {
        let mut circuit = File::empty(Header { factor: 60, waterline: 20, top_level, headroom: None });
        circuit.push(Line::In);
        for a in 0..count {
            circuit.push(Line::Mul { a, b: a });
        }
        circuit
    }

    fn refusal(circuit: &File) -> Option<(u32, u32)> {
        plan_of(circuit).err().map(|refusal| (refusal.number, refusal.place))
    }

    #[test]
    fn worked_header_only() {
        let circuit = squarings(1, 0);
        let bare = File::empty(circuit.header);
        assert!(plan_of(&bare).is_ok_and(|schedule| schedule.lines().is_empty() && schedule.header == bare.header));
        assert_eq!(least_level(&bare), Ok(1));
    }

    #[test]
    fn worked_squarings() {
        assert_eq!(refusal(&squarings(1, 1)), None);
        assert_eq!(refusal(&squarings(1, 2)), Some((6, 4)));
        assert_eq!(refusal(&squarings(2, 3)), None);
        assert_eq!(refusal(&squarings(2, 4)), Some((6, 6)));
        assert_eq!(least_level(&squarings(2, 4)), Ok(3));
    }

    #[test]
    fn worked_waterline_above_factor() {
        let text = |top_level: i32| format!("circuit\t59\t60\t{top_level}\nin\n");
        let planned = |top_level| file_of(text(top_level).as_bytes(), Reading::Circuit).and_then(|circuit| plan_of(&circuit));
        assert_eq!(planned(1).err(), Some(Refusal { number: 6, place: 2 }));
        assert!(planned(2).is_ok());
    }

    #[test]
    fn best_products() {
        let header = Header { factor: 60, waterline: 20, top_level: 2, headroom: None };
        // 60 + 60 − 120 = 0 at level 2, or 60 − 40 = 20 at level 1.
        assert_eq!(multiply(&header, 60, 60).result, Spot { reserve: 20, level: 1 });
        // Equal: the lower level. 70 + 70 − 120 = 20 at level 2.
        assert_eq!(multiply(&header, 70, 70).result, Spot { reserve: 20, level: 1 });
        assert_eq!(multiply(&header, 71, 70).result, Spot { reserve: 21, level: 2 });
        // Levels 1 and 2: the operand of reserve 30 keeps it.
        assert_eq!(multiply(&header, 30, 90).result, Spot { reserve: 10, level: 1 });
    }

    /// The circuit with another H.
    fn with_headroom(circuit: &File, headroom: Option<i32>) -> File {
        let mut other = circuit.clone();
        other.header.headroom = headroom;
        other
    }

    /// x² has reserve 20 at L = 1 and 80 at L = 2, x⁸ has 20 at L = 2: an H of 20 fits, 21 is too few levels.
    #[test]
    fn a_best_reserve_of_exactly_the_headroom() {
        let planned = |top_level, count, headroom| refusal(&with_headroom(&squarings(top_level, count), Some(headroom)));
        assert_eq!([planned(1, 1, 1), planned(1, 1, 20), planned(2, 3, 20)], [None; 3]);
        assert_eq!([planned(1, 1, 21), planned(2, 3, 21)], [Some((6, 3)), Some((6, 5))]);
        assert_eq!([planned(1, 0, 40), planned(1, 0, 41)], [None, Some((6, 2))]);
        let least =
            |count, headroom| least_level(&with_headroom(&squarings(1, count), headroom)).map_err(|refusal| refusal.place);
        assert_eq!([least(1, None), least(1, Some(20)), least(1, Some(21)), least(1, Some(60))], [Ok(1), Ok(1), Ok(2), Ok(2)]);
        assert_eq!([least(3, None), least(3, Some(20)), least(3, Some(21))], [Ok(2), Ok(2), Ok(3)]);
    }

    /// F = 1: 60 levels have 60 bits, so W = 30 leaves 30 of them. No level fits an H of 31, and every level tried has the header's H.
    #[test]
    fn no_level_fits() {
        let least = |waterline, headroom| {
            let mut circuit = File::empty(Header { factor: 1, waterline, top_level: 1, headroom });
            circuit.push(Line::In);
            least_level(&circuit).map_err(|refusal| (refusal.number, refusal.place))
        };
        assert_eq!([least(30, None), least(30, Some(1)), least(30, Some(30))], [Ok(30), Ok(31), Ok(60)]);
        assert_eq!([least(30, Some(31)), least(60, Some(1)), least(60, None)], [Err((6, 2)), Err((6, 2)), Ok(60)]);
    }

    /// The plan with an H has the lines of the plan without, or is refused at the first line whose best reserve is below H.
    #[test]
    fn the_headroom_moves_no_line_of_a_plan() {
        let (mut planned, mut refused) = (0, 0);
        for case in 0..2000 {
            let mut random = Random::new(16, case);
            let circuit = with_headroom(&files::circuit(&mut random), None);
            let Ok(plan) = plan_of(&circuit) else { continue };
            let headroom = random.between(1, 60);
            let reserves = best_reserves(&circuit.header, circuit.lines());
            let short = reserves.iter().position(|reserve| reserve.is_some_and(|reserve| reserve < headroom));
            match plan_of(&with_headroom(&circuit, Some(headroom))) {
                Ok(with) => {
                    planned += 1;
                    assert!(short.is_none() && with.lines() == plan.lines() && with.header.headroom == Some(headroom));
                }
                Err(refusal) => {
                    refused += 1;
                    assert_eq!(Some(refusal), short.map(|n| Refusal::at_value(6, n)));
                }
            }
        }
        assert!(planned > 300 && refused > 300, "{planned} {refused}");
    }

    /// "a circuit which fits at one top level fits at every higher one up to 60", with an H too, and not below the least level.
    #[test]
    fn what_fits_at_a_level_fits_above() {
        let mut both = 0;
        for case in 0..300 {
            let mut random = Random::new(17, case);
            let headroom = random.between(1, 60);
            let circuit = with_headroom(&files::circuit(&mut random), Some(headroom));
            let Ok(least) = least_level(&circuit) else { continue };
            for top_level in 1..=60 {
                let header = Header { top_level, ..circuit.header };
                assert_eq!(first_short_line(&header, circuit.lines()).is_none(), top_level >= least as i32);
            }
            both += usize::from(least > 1);
        }
        assert!(both > 100, "{both}");
    }
}
