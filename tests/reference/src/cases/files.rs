//! Random well-formed circuits, schedules and listings.

use crate::plan;
use crate::random::Random;
use crate::rising;
use crate::text::{File, Header, Line, ValueKind, CIRCUIT_LINES, SCHEDULE_LINES};

/// What a random file leans to. Shares are in percent.
struct Leaning {
    inputs: usize,
    constants: usize,
    outputs: usize,
    products: usize,
    /// Products and sums with a constant.
    with_constant: usize,
    squares: usize,
    /// Operands are drawn from this many of the latest ciphertexts.
    reach: usize,
    /// Lines that erasing strikes out: none in a circuit.
    struck: usize,
    /// `ds` lines among the struck ones: none but in a listing.
    downscales: usize,
}

struct Maker<'a> {
    random: &'a mut Random,
    leaning: Leaning,
    file: File,
    ciphertexts: Vec<u16>,
    constants: Vec<u16>,
    /// What may stand beside a ciphertext: constants in a circuit, encoded constants in a schedule.
    partners: Vec<u16>,
    is_schedule: bool,
}

/// Headers of all kinds: document 01's own, any, waterline near or above the factor, ends of the ranges.
pub fn header(random: &mut Random) -> Header {
    let ends = [1, 2, 59, 60];
    let mut any = || random.between(1, 60);
    let (x, y, z) = (any(), any(), any());
    let [factor, waterline, top_level] = match random.below(8) {
        0 | 1 => [60, 20, random.between(1, 8)],
        2 => [x, y, z],
        3 => [x, (x + random.between(-2, 2)).clamp(1, 60), z],
        4 => [random.pick(&ends), random.pick(&ends), random.pick(&ends)],
        5 => [random.between(1, 6), random.between(1, 6), z],
        6 => [x, random.between(1, 1 + x / 4), z],
        _ => [x.max(30), random.between(1, 30), 60],
    };
    Header { factor, waterline, top_level, headroom: headroom(random) }
}

/// None in half of the headers; else small ones mostly, ends of the range, and any.
pub fn headroom(random: &mut Random) -> Option<i32> {
    match random.below(12) {
        0..=5 => None,
        6..=8 => Some(random.between(1, 8)),
        9 => Some(random.pick(&[1, 2, 59, 60])),
        _ => Some(random.between(1, 60)),
    }
}

/// Sets H at or near the least of the best reserves, where the sharp cases lie; another one is left where no H is near.
pub fn set_headroom_near_best(random: &mut Random, circuit: &mut File) {
    let without = Header { headroom: None, ..circuit.header };
    let least = plan::best_reserves(&without, circuit.lines()).into_iter().flatten().min();
    let headroom = least.map_or(0, |least| least + random.pick(&[-1, 0, 0, 1]));
    if (1..=60).contains(&headroom) {
        circuit.header.headroom = Some(headroom);
    }
}

/// Sets the top level at or near the least one, where the sharp cases lie.
pub fn set_level_near_least(random: &mut Random, circuit: &mut File, slack: i32) {
    if let Ok(least) = plan::least_level(circuit) {
        circuit.header.top_level = (least as i32 + random.between(-1, slack)).clamp(1, 60);
    }
}

/// Small constant numbers mostly, and the whole range: both sides of two to the 16, the last ones, numbers of every length, and numbers that are
/// the same as another modulo two to the 16.
fn constant(random: &mut Random) -> u32 {
    let any = random.word() as u32;
    match random.below(20) {
        0 => random.pick(&[65_534, 65_535, 65_536, 65_537]),
        1 => u32::MAX - random.below(3) as u32,
        2 => any,
        3 => any >> random.below(32),
        4 => any << 16 | random.below(4) as u32,
        _ => random.below(4) as u32,
    }
}

/// Small files mostly, and all sizes up to the limit.
fn size(random: &mut Random, limit: usize) -> usize {
    match random.below(20) {
        0..=9 => random.below(9),
        10..=15 => 9 + random.below(32),
        16..=18 => random.below(limit + 1),
        _ => limit,
    }
}

pub fn circuit(random: &mut Random) -> File {
    let size = size(random, CIRCUIT_LINES);
    circuit_of_size(random, size)
}

pub fn circuit_of_size(random: &mut Random, size: usize) -> File {
    let header = header(random);
    let leaning = leaning(random, 0);
    let mut circuit = Maker::new(random, leaning, header, false).make(size);
    if random.percent(60) {
        let slack = random.between(0, 4);
        set_level_near_least(random, &mut circuit, slack);
    }
    if random.percent(25) {
        set_headroom_near_best(random, &mut circuit);
    }
    circuit
}

/// A circuit for the exhaustive search: few lines, small numbers.
pub fn tiny_circuit(random: &mut Random, most_lines: usize, most_levels: i32) -> File {
    let [factor, waterline] = [(); 2].map(|()| random.between(1, 6));
    let headroom = if random.percent(50) { Some(random.between(1, 6)) } else { None };
    let header = Header { factor, waterline, top_level: random.between(1, most_levels), headroom };
    let leaning = Leaning { products: random.pick(&[40, 60, 80]), inputs: 12, ..leaning(random, 0) };
    let size = random.below(most_lines + 1);
    Maker::new(random, leaning, header, false).make(size)
}

/// Adds at most so many outputs, of any ciphertext lines.
pub fn add_outputs(random: &mut Random, circuit: &mut File, most: usize) {
    let is_ciphertext = |&n: &u16| circuit.lines()[usize::from(n)].kind() == ValueKind::Ciphertext;
    let ciphertexts: Vec<u16> = (0..circuit.lines().len() as u16).filter(is_ciphertext).collect();
    if ciphertexts.is_empty() {
        return;
    }
    for _ in 0..random.below(most + 1) {
        circuit.push(Line::Out { a: random.pick(&ciphertexts) });
    }
}

/// A schedule of the form; whether it keeps the rules is left to chance.
pub fn schedule(random: &mut Random) -> File {
    schedule_with(random, 0)
}

/// A listing of the form, in half of the cases without `ds`.
pub fn listing(random: &mut Random) -> File {
    let downscales = random.pick(&[0, 0, 40, 80]);
    let mut listing = schedule_with(random, downscales);
    for n in 0..listing.lines().len() {
        listing.replace(n, rising::turned(&listing.header, listing.lines()[n]));
    }
    listing
}

fn schedule_with(random: &mut Random, downscales: usize) -> File {
    let size = size(random, SCHEDULE_LINES);
    let header = header(random);
    // A long schedule with few struck lines has too many kept ones for erase: both sides of that limit are wanted.
    let struck = if size > 400 { random.pick(&[70, 84, 86, 88, 95, 99]) } else { random.pick(&[0, 20, 50, 80]) };
    let leaning = Leaning { downscales, ..leaning(random, struck) };
    Maker::new(random, leaning, header, true).make(size)
}

fn leaning(random: &mut Random, struck: usize) -> Leaning {
    Leaning {
        inputs: random.pick(&[2, 10, 30]),
        constants: random.pick(&[0, 5, 20]),
        outputs: random.pick(&[0, 3, 15]),
        products: random.pick(&[0, 5, 20, 50, 90]),
        with_constant: random.pick(&[0, 20, 60]),
        squares: random.pick(&[0, 10, 50]),
        reach: random.pick(&[1, 2, 5, 300]),
        struck,
        downscales: 0,
    }
}

impl Maker<'_> {
    fn new(random: &mut Random, leaning: Leaning, header: Header, is_schedule: bool) -> Maker<'_> {
        Maker {
            random,
            leaning,
            file: File::empty(header),
            ciphertexts: Vec::new(),
            constants: Vec::new(),
            partners: Vec::new(),
            is_schedule,
        }
    }

    fn make(mut self, size: usize) -> File {
        for _ in 0..size {
            let line = self.line();
            let number = self.file.push(line);
            match line {
                Line::Out { .. } => {}
                Line::Enc { .. } => self.partners.push(number),
                Line::Const { .. } => {
                    self.constants.push(number);
                    if !self.is_schedule {
                        self.partners.push(number);
                    }
                }
                _ => self.ciphertexts.push(number),
            }
        }
        self.file
    }

    fn line(&mut self) -> Line {
        if self.random.percent(self.leaning.struck) {
            if let Some(line) = self.struck_line() {
                return line;
            }
        }
        if self.random.percent(self.leaning.constants) {
            return Line::Const { number: constant(self.random) };
        }
        if self.ciphertexts.is_empty() || self.random.percent(self.leaning.inputs) {
            return Line::In;
        }
        let a = self.ciphertext();
        if self.random.percent(self.leaning.outputs) {
            return Line::Out { a };
        }
        if self.random.percent(self.leaning.products) {
            let (a, b) = self.pair(a);
            return Line::Mul { a, b };
        }
        match self.random.below(4) {
            0 => Line::Neg { a },
            1 => Line::Rot { a, by: self.rotation() },
            _ => {
                let (a, b) = self.pair(a);
                Line::Add { a, b }
            }
        }
    }

    fn rotation(&mut self) -> i16 {
        match self.random.below(4) {
            0 => self.random.pick(&[-32_767, -1, 0, 1, 32_767]),
            1 => self.random.between(-32_767, 32_767) as i16,
            _ => self.random.between(-4, 4) as i16,
        }
    }

    fn ciphertext(&mut self) -> u16 {
        let reach = self.leaning.reach.min(self.ciphertexts.len());
        self.ciphertexts[self.ciphertexts.len() - 1 - self.random.below(reach)]
    }

    /// A ciphertext with another operand, in either place.
    fn pair(&mut self, a: u16) -> (u16, u16) {
        let b = if !self.partners.is_empty() && self.random.percent(self.leaning.with_constant) {
            self.random.pick(&self.partners)
        } else if self.random.percent(self.leaning.squares) {
            a
        } else {
            self.ciphertext()
        };
        if self.random.percent(50) {
            (a, b)
        } else {
            (b, a)
        }
    }

    /// A line that erasing strikes out; none where its operand is missing.
    fn struck_line(&mut self) -> Option<Line> {
        let scale = match self.random.below(4) {
            0 => self.random.between(1, 3600),
            1 => self.random.pick(&[1, 3600, self.file.header.waterline]),
            _ => self.random.between(1, 80),
        };
        if !self.constants.is_empty() && self.random.percent(30) {
            let a = self.random.pick(&self.constants);
            let level = self.random.between(1, self.file.header.top_level);
            return Some(Line::Enc { a, scale: scale as u16, level: level as u8 });
        }
        if self.ciphertexts.is_empty() {
            return None;
        }
        let a = self.ciphertext();
        if self.leaning.downscales > 0 && self.random.percent(self.leaning.downscales) {
            return Some(Line::Downscale { a });
        }
        let count = if self.random.percent(90) { self.random.between(1, 3) } else { self.random.between(1, 60) } as u8;
        Some(match self.random.below(3) {
            0 => Line::Rescale { a, count },
            1 => Line::Modswitch { a, count },
            _ => Line::Upscale { a, bits: scale as u16 },
        })
    }
}
