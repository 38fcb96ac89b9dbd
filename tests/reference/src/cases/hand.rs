//! Schedules made by hand: legal ones that are not the plan, and slightly illegal ones. All erase to their circuit.

use crate::plan::{bring, step, Spot, Step};
use crate::random::Random;
use crate::text::{File, Header, Line, SCHEDULE_LINES};

/// No way of the plan takes more lines for one circuit line.
const PLAN_LINES: usize = 7;
/// A wandering way to a spot is cut short after this many lines.
const WANDERING: usize = 10;

struct Hand<'a> {
    random: &'a mut Random,
    header: Header,
    schedule: File,
    /// The lines that hold a circuit value, with their spots. For a constant these are its encodings.
    holders: Vec<Vec<(u16, Spot)>>,
    /// Each circuit value's own line; no spot for a constant.
    own: Vec<(u16, Option<Spot>)>,
    /// Share of lines, in percent, that may spend more reserve than the plan does.
    waste: usize,
    lines_left: usize,
}

/// A schedule of the circuit by other ways than the plan's. Where too much reserve was spent the rest is written raw, and is
/// then illegal.
pub fn schedule(random: &mut Random, circuit: &File) -> File {
    let waste = random.pick(&[0, 0, 5, 30]);
    let header = circuit.header;
    let lines_left = circuit.lines().len();
    let (holders, own) = (Vec::new(), Vec::new());
    let mut hand = Hand { random, header, schedule: File::empty(header), holders, own, waste, lines_left };
    for &line in circuit.lines() {
        hand.lines_left -= 1;
        hand.write(line);
    }
    hand.schedule
}

impl Hand<'_> {
    /// Whether lines beyond the plan's still leave room for the rest.
    fn has_room(&self, lines: usize) -> bool {
        self.schedule.lines().len() + lines + PLAN_LINES * (self.lines_left + 1) <= SCHEDULE_LINES
    }

    fn write(&mut self, line: Line) {
        let spots: Vec<Option<Spot>> = self.own.iter().map(|&(_, spot)| spot).collect();
        let Some(planned) = step(&self.header, line, &spots) else {
            let number = self.schedule.push(line);
            self.own.push((number, None));
            self.holders.push(Vec::new());
            return;
        };
        let step = match line {
            Line::In => planned,
            _ => self.vary(line, planned),
        };
        let [first, second] = step.operands;
        let line = match line {
            Line::In => line,
            Line::Add { a, b } => {
                let a = self.operand(a, first);
                Line::Add { a, b: self.operand(b, second) }
            }
            Line::Mul { a, b } => {
                let a = self.operand(a, first);
                Line::Mul { a, b: self.operand(b, second) }
            }
            other => {
                let a = self.operand(operand_of(other), first);
                other.with_operands(|_| a)
            }
        };
        let number = self.schedule.push(line);
        // A result below zero, or below H, is illegal already; the rest goes on from a spot that can be written.
        let result = if step.result.reserve < self.header.headroom_bits() { self.lowest() } else { step.result };
        self.own.push((number, Some(result)));
        self.holders.push(vec![(number, result)]);
        self.add_unused_line();
    }

    /// A spot with nothing to spend.
    fn lowest(&self) -> Spot {
        let reserve = self.header.headroom_bits();
        let level = (self.header.waterline + reserve + self.header.factor - 1) / self.header.factor;
        Spot { reserve, level: level.max(1) }
    }

    /// Another level and other spots for the operands, and mostly no reserve lost by it.
    fn vary(&mut self, line: Line, planned: Step) -> Step {
        if self.random.percent(40) {
            return planned;
        }
        if matches!(line, Line::Out { .. }) && self.random.percent(60) {
            return self.spent(planned.result);
        }
        let operands = match line {
            Line::Add { a, b } | Line::Mul { a, b } => vec![a, b],
            other => vec![operand_of(other)],
        };
        let spots: Vec<Spot> = operands.iter().filter_map(|&operand| self.own[usize::from(operand)].1).collect();
        let Some(highest) = spots.iter().map(|spot| spot.level).min() else { return planned };
        let wasteful = self.random.percent(self.waste);
        let level = self.random.between(1, highest);
        let most = self.header.factor * level - self.header.waterline;
        let mut spend = || if wasteful { self.random.below(9) as i32 } else { 0 };
        let mut reserve = |operand: u16| {
            let own = self.own[usize::from(operand)].1;
            own.map_or(most, |spot| spot.reserve.min(most)) - spend()
        };
        let first = reserve(operands[0]);
        let second = operands.get(1).map_or(first, |&operand| reserve(operand));
        let varied = meet(&self.header, line, first, second, level);
        let least = first.min(second).min(varied.result.reserve);
        let fits = least >= self.header.headroom_bits();
        if fits && (wasteful || varied.result.reserve >= planned.result.reserve) {
            varied
        } else {
            planned
        }
    }

    /// All reserve of an output spent, since nothing names it: then scale + H is F·level.
    fn spent(&mut self, at: Spot) -> Step {
        let lowest = self.lowest();
        let spot = Spot { level: self.random.between(lowest.level, at.level), ..lowest };
        Step { operands: [spot; 2], result: spot }
    }

    /// The line that brings a circuit value to a spot.
    fn operand(&mut self, value: u16, to: Spot) -> u16 {
        let (own, spot) = self.own[usize::from(value)];
        let Some(spot) = spot else { return self.encoded(value, to) };
        if to.reserve < self.header.headroom_bits() || to.level > spot.level || to.reserve > spot.reserve || to.level < 1 {
            return own;
        }
        if !self.has_room(2 * WANDERING) {
            return bring(own, spot, to, &mut self.schedule);
        }
        // An earlier use's lines may serve again, unlike in the plan.
        let fits = |&&(_, at): &&(u16, Spot)| at.reserve >= to.reserve && at.level >= to.level;
        let usable: Vec<(u16, Spot)> = self.holders[usize::from(value)].iter().filter(fits).copied().collect();
        let (mut number, mut at) = self.random.pick(&usable);
        for _ in 0..WANDERING {
            if at == to {
                return number;
            }
            let (line, next) = self.one_line_on(number, at, to);
            number = self.schedule.push(line);
            at = next;
            self.holders[usize::from(value)].push((number, at));
        }
        bring(number, at, to, &mut self.schedule)
    }

    /// Any one legal line on the way from a spot to another one.
    fn one_line_on(&mut self, a: u16, at: Spot, to: Spot) -> (Line, Spot) {
        let factor = self.header.factor;
        let spent = at.reserve - to.reserve;
        let levels = at.level - to.level;
        let switches = (spent / factor).min(levels);
        let rescales = ((at.scale(&self.header) - self.header.waterline) / factor).min(levels);
        loop {
            match self.random.below(3) {
                0 if switches > 0 => {
                    let count = self.random.between(1, switches);
                    let next = Spot { reserve: at.reserve - factor * count, level: at.level - count };
                    return (Line::Modswitch { a, count: count as u8 }, next);
                }
                1 if rescales > 0 => {
                    let count = self.random.between(1, rescales);
                    return (Line::Rescale { a, count: count as u8 }, Spot { level: at.level - count, ..at });
                }
                2 if spent > 0 => {
                    let bits = if self.random.percent(50) { spent } else { self.random.between(1, spent) };
                    return (Line::Upscale { a, bits: bits as u16 }, Spot { reserve: at.reserve - bits, ..at });
                }
                _ => {}
            }
        }
    }

    /// A constant's encoding at a spot, an earlier one if there is one and chance has it.
    fn encoded(&mut self, value: u16, to: Spot) -> u16 {
        let known = self.holders[usize::from(value)].iter().find(|&&(_, spot)| spot == to).map(|&(number, _)| number);
        if let Some(number) = known.filter(|_| self.random.percent(50)) {
            return number;
        }
        let scale = to.scale(&self.header).clamp(1, 3600) as u16;
        let level = to.level.clamp(1, self.header.top_level) as u8;
        let number = self.schedule.push(Line::Enc { a: self.own[usize::from(value)].0, scale, level });
        self.holders[usize::from(value)].push((number, to));
        number
    }

    /// Now and then a legal scale operation that nothing uses.
    fn add_unused_line(&mut self) {
        if !self.random.percent(10) || !self.has_room(1) {
            return;
        }
        let value = self.random.below(self.holders.len());
        if self.holders[value].is_empty() || matches!(self.own[value], (_, None)) || self.is_out(value) {
            return;
        }
        let (number, at) = self.random.pick(&self.holders[value]);
        let lowest = self.lowest();
        if at.level >= lowest.level && at != lowest {
            let (line, next) = self.one_line_on(number, at, lowest);
            let number = self.schedule.push(line);
            self.holders[value].push((number, next));
        }
    }

    fn is_out(&self, value: usize) -> bool {
        matches!(self.schedule.lines()[usize::from(self.own[value].0)], Line::Out { .. })
    }
}

fn operand_of(line: Line) -> u16 {
    match line {
        Line::Neg { a } | Line::Rot { a, .. } | Line::Out { a } => a,
        _ => 0,
    }
}

/// A line done at a level with operands of these reserves; the operands of an `add` come to the smaller one.
fn meet(header: &Header, line: Line, first: i32, second: i32, level: i32) -> Step {
    let spot = |reserve| Spot { reserve, level };
    match line {
        Line::Mul { .. } => {
            let result = spot(first + second - header.factor * level);
            Step { operands: [spot(first), spot(second)], result }
        }
        _ => {
            let least = spot(first.min(second));
            Step { operands: [least; 2], result: least }
        }
    }
}

/// One small change among the struck lines that leaves the erasure as it is. It may or may not break a rule.
pub fn spoil(random: &mut Random, schedule: &mut File) {
    for _ in 0..20 {
        if schedule.lines().is_empty() {
            return;
        }
        let n = random.below(schedule.lines().len());
        let line = schedule.lines()[n];
        let changed = match random.below(5) {
            0 | 1 => other_number(random, line),
            2 => other_word(line),
            3 => other_operand(random, schedule, n),
            _ => {
                if strike(schedule, n) {
                    return;
                }
                None
            }
        };
        if let Some(changed) = changed.filter(|&changed| changed != line) {
            schedule.replace(n, changed);
            return;
        }
    }
}

/// The number of a struck line, moved by one or to an end of its range.
pub fn other_number(random: &mut Random, line: Line) -> Option<Line> {
    let mut moved = |number: i32, most: i32| match random.below(6) {
        0 => most,
        1 | 2 => (number - 1).max(1),
        _ => (number + 1).min(most),
    };
    Some(match line {
        Line::Enc { a, scale, level } => Line::Enc { a, scale: moved(i32::from(scale), 3600) as u16, level },
        Line::Rescale { a, count } => Line::Rescale { a, count: moved(i32::from(count), 60) as u8 },
        Line::Modswitch { a, count } => Line::Modswitch { a, count: moved(i32::from(count), 60) as u8 },
        Line::Upscale { a, bits } => Line::Upscale { a, bits: moved(i32::from(bits), 3600) as u16 },
        _ => return None,
    })
}

fn other_word(line: Line) -> Option<Line> {
    Some(match line {
        Line::Rescale { a, count } => Line::Modswitch { a, count },
        Line::Modswitch { a, count } => Line::Rescale { a, count },
        // An encoding at the level below is spoiled here, since its number above is the scale.
        Line::Enc { a, scale, level } if level > 1 => Line::Enc { a, scale, level: level - 1 },
        _ => return None,
    })
}

/// Another line of the same kind that was made from the same kept line.
pub fn other_operand(random: &mut Random, schedule: &File, n: usize) -> Option<Line> {
    let root = |mut number: u16| {
        while let Some(a) = schedule.lines()[usize::from(number)].struck_from() {
            number = a;
        }
        number
    };
    let kind = |number: u16| schedule.lines()[usize::from(number)].kind();
    let place = random.word();
    Some(schedule.lines()[n].with_operands(|operand| {
        let alike: Vec<u16> =
            (0..n as u16).filter(|&other| root(other) == root(operand) && kind(other) == kind(operand)).collect();
        alike[place as usize % alike.len()]
    }))
}

/// Strikes out a rescale, modswitch or upscale line; its users take its operand instead.
fn strike(schedule: &mut File, n: usize) -> bool {
    let Some(a) = schedule.lines()[n].struck_from() else { return false };
    if matches!(schedule.lines()[n], Line::Enc { .. }) {
        return false;
    }
    let renamed = |operand: u16| match usize::from(operand) {
        same if same == n => a,
        later if later > n => operand - 1,
        _ => operand,
    };
    let later: Vec<Line> = schedule.lines()[n + 1..].iter().map(|line| line.with_operands(renamed)).collect();
    schedule.cut(n);
    for line in later {
        schedule.push(line);
    }
    true
}

/// A circuit that differs a little: for refusal 12.
pub fn other_circuit(random: &mut Random, circuit: &File) -> File {
    let mut other = circuit.clone();
    let count = other.lines().len();
    match random.below(5) {
        0 => other.header = other_header(random, other.header),
        1 => other.cut(count.saturating_sub(1 + random.below(3))),
        2 if count < 256 => {
            other.push(Line::In);
        }
        _ if count > 0 => {
            let n = random.below(count);
            let changed = match other.lines()[n] {
                Line::In => Line::Const { number: 0 },
                // Any bit may be the one that differs.
                Line::Const { number } => Line::Const { number: number ^ 1 << random.pick(&[0, 1, 15, 16, 17, 31]) },
                Line::Rot { a, by } => Line::Rot { a, by: -by },
                Line::Add { a, b } => Line::Mul { a, b },
                Line::Mul { a, b } => Line::Mul { a: b, b: a },
                Line::Neg { a } => Line::Out { a },
                line => line.with_operands(|_| 0),
            };
            other.replace(n, changed);
        }
        _ => {}
    }
    other
}

/// One number moved by one, or an H given or taken away.
fn other_header(random: &mut Random, header: Header) -> Header {
    let moved = |number: i32| if number == 60 { 59 } else { number + 1 };
    match random.below(6) {
        0 => Header { factor: moved(header.factor), ..header },
        1 => Header { waterline: moved(header.waterline), ..header },
        2 => Header { top_level: moved(header.top_level), ..header },
        3 if header.headroom.is_some() => Header { headroom: header.headroom.map(moved), ..header },
        _ if header.headroom.is_some() => Header { headroom: None, ..header },
        _ => Header { headroom: Some(random.between(1, 60)), ..header },
    }
}
