//! Listings in the rising-level dialect: legal ones, those of schedules with downscales folded, and slightly illegal ones.

use super::{files, hand};
use crate::check::Standing;
use crate::random::Random;
use crate::rising::{standing_after, turned};
use crate::text::{File, Header, Line, ValueKind, KEPT_LINES, SCHEDULE_LINES};

/// A line is proposed so often before a plain one is taken.
const TRIES: usize = 12;

struct Maker<'a> {
    random: &'a mut Random,
    listing: File,
    held: Vec<Standing>,
    ciphertexts: Vec<u16>,
    constants: Vec<u16>,
    encoded: Vec<u16>,
    kept: usize,
    /// Share of `ds` among the proposals, in percent.
    downscales: usize,
}

/// Most are small; some are around the limit on lines, before or after the conversion.
fn size(random: &mut Random) -> usize {
    match random.below(60) {
        0..=29 => random.below(12),
        30..=55 => 12 + random.below(40),
        56 | 57 => 895 + random.below(100),
        58 => random.below(SCHEDULE_LINES + 1),
        _ => SCHEDULE_LINES,
    }
}

/// Headers at which several downscales in a row are legal, and any.
fn header(random: &mut Random) -> Header {
    let any = files::header(random);
    match random.below(4) {
        0 => Header { factor: 60, waterline: 20, top_level: random.between(1, 8), ..any },
        1 => {
            let (factor, waterline) = (random.between(20, 60), random.between(1, 60));
            Header { factor, waterline, top_level: random.between(2, 60), ..any }
        }
        2 => {
            let factor = random.between(1, 60);
            Header { factor, waterline: (factor + random.between(-1, 1)).clamp(1, 60), top_level: random.between(1, 4), ..any }
        }
        _ => any,
    }
}

/// A listing that keeps the rules of its dialect.
pub fn legal(random: &mut Random) -> File {
    let size = size(random);
    legal_of_size(random, size)
}

pub fn legal_of_size(random: &mut Random, size: usize) -> File {
    // A long listing with many downscales has too many lines after its conversion: both sides of that limit are wanted.
    let (header, downscales) = if size > 800 {
        // At level 2 a `ds` leaves 40 bits.
        let headroom = if random.percent(50) { Some(random.between(1, 40)) } else { None };
        (Header { factor: 60, waterline: 20, top_level: random.between(2, 60), headroom }, random.pick(&[0, 80, 95, 95]))
    } else {
        (header(random), random.pick(&[0, 10, 30, 60]))
    };
    let [ciphertexts, constants, encoded] = [(); 3].map(|()| Vec::new());
    let listing = File::empty(header);
    let mut maker = Maker { random, listing, held: Vec::new(), ciphertexts, constants, encoded, kept: 0, downscales };
    for _ in 0..size {
        if !maker.add_legal() {
            break;
        }
    }
    maker.listing
}

impl Maker<'_> {
    /// Adds a line that keeps the rules; where none is found there is none added.
    fn add_legal(&mut self) -> bool {
        let mut propose = || {
            let line = self.proposed();
            self.add_if_legal(line)
        };
        (0..TRIES).any(|_| propose()) || self.add_if_legal(Line::In) || self.add_if_legal(Line::Const { number: 0 })
    }

    fn add_if_legal(&mut self, line: Line) -> bool {
        let is_kept = line.struck_from().is_none();
        let Ok(standing) = standing_after(&self.listing.header, line, &self.held) else { return false };
        if is_kept && self.kept == KEPT_LINES {
            return false;
        }
        self.kept += usize::from(is_kept);
        let number = self.listing.push(line);
        self.held.push(standing.unwrap_or_default());
        match line.kind() {
            ValueKind::Ciphertext => self.ciphertexts.push(number),
            ValueKind::Constant => self.constants.push(number),
            ValueKind::Encoded => self.encoded.push(number),
            ValueKind::Unusable => {}
        }
        true
    }

    /// A line of the form that is often legal.
    fn proposed(&mut self) -> Line {
        let kept_left = self.kept < KEPT_LINES;
        if self.ciphertexts.is_empty() || kept_left && self.random.percent(6) {
            return Line::In;
        }
        if kept_left && self.random.percent(5) {
            return Line::Const { number: self.random.word() as u32 >> self.random.below(32) };
        }
        let a = self.ciphertext();
        let at = self.held[usize::from(a)];
        if !self.constants.is_empty() && self.random.percent(15) {
            let scale = self.random.pick(&[at.scale, self.listing.header.waterline, self.listing.header.waterline + 1]);
            let a = self.random.pick(&self.constants);
            return Line::Enc { a, scale: scale as u16, level: at.level as u8 };
        }
        if self.random.percent(self.downscales) {
            return Line::Downscale { a };
        }
        if kept_left && self.random.percent(60) {
            self.kept_line(a)
        } else {
            self.conversion(a, at)
        }
    }

    fn ciphertext(&mut self) -> u16 {
        let reach = self.random.pick(&[1, 3, 300]).min(self.ciphertexts.len());
        self.ciphertexts[self.ciphertexts.len() - 1 - self.random.below(reach)]
    }

    fn kept_line(&mut self, a: u16) -> Line {
        let with_constant = !self.encoded.is_empty() && self.random.percent(30);
        let b = if with_constant { self.random.pick(&self.encoded) } else { self.ciphertext() };
        let (a, b) = if self.random.percent(50) || with_constant { (a, b) } else { (b, a) };
        match self.random.below(8) {
            0 => Line::Neg { a },
            1 => Line::Rot { a, by: self.random.between(-32_767, 32_767) as i16 },
            2 => Line::Out { a },
            3..=5 => Line::Add { a: b, b: a },
            _ => Line::Mul { a, b },
        }
    }

    /// An upscale to one of the sharp scales, or one or two rescales or modswitches.
    fn conversion(&mut self, a: u16, at: Standing) -> Line {
        let Header { factor, waterline, top_level, .. } = self.listing.header;
        let count = self.random.pick(&[1, 1, 1, 2]);
        let highest = factor * (top_level - at.level) - self.listing.header.headroom_bits();
        let sharp = [waterline + factor - 1, waterline + factor, highest, at.scale + 1, 2 * waterline];
        match self.random.below(4) {
            0 => Line::Rescale { a, count },
            1 => Line::Modswitch { a, count },
            _ => Line::Upscale { a, bits: (self.random.pick(&sharp) - at.scale).clamp(1, 3600) as u16 },
        }
    }
}

/// How often each line of a file is named.
fn uses(file: &File) -> Vec<usize> {
    let mut uses = vec![0; file.lines().len()];
    for operand in file.lines().iter().flat_map(|line| line.operands()).flatten() {
        uses[usize::from(operand)] += 1;
    }
    uses
}

/// The listing of a schedule, with a share, in percent, of its `us` and `rs` that make a downscale folded into `ds`. Only a `us` is folded that
/// its `rs` alone names, just behind it: so the conversion is the schedule again. `held` has the schedule's scales.
pub fn folded(random: &mut Random, schedule: &File, held: &[Option<Standing>], share: usize) -> File {
    let header = schedule.header;
    let (uses, lines) = (uses(schedule), schedule.lines());
    let mut listing = File::empty(header);
    let mut numbers = vec![0; lines.len()];
    // The `us` of a downscale is left out.
    let mut left_out = None;
    for (n, &line) in lines.iter().enumerate() {
        let is_named_next = lines.get(n + 1) == Some(&Line::Rescale { a: n as u16, count: 1 }) && uses[n] == 1;
        let scale = held.get(n).copied().flatten().map(|standing| standing.scale);
        let number = |operand: u16| numbers[usize::from(operand)];
        numbers[n] = match (line, left_out.take()) {
            (Line::Upscale { a, .. }, None)
                if is_named_next && scale == Some(header.waterline + header.factor) && random.percent(share) =>
            {
                left_out = Some(number(a));
                continue;
            }
            (_, Some(a)) => listing.push(Line::Downscale { a }),
            (line, None) => listing.push(turned(&header, line.with_operands(number))),
        };
    }
    listing
}

/// One small change that may or may not break a rule.
pub fn spoil(random: &mut Random, listing: &mut File) {
    for _ in 0..20 {
        if listing.lines().is_empty() {
            return;
        }
        let n = random.below(listing.lines().len());
        let line = listing.lines()[n];
        let changed = match random.below(4) {
            0 => other_word(line),
            1 => other_level(random, line, &listing.header),
            2 => hand::other_operand(random, listing, n),
            _ => hand::other_number(random, line),
        };
        if let Some(changed) = changed.filter(|&changed| changed != line) {
            listing.replace(n, changed);
            return;
        }
    }
}

fn other_word(line: Line) -> Option<Line> {
    Some(match line {
        Line::Downscale { a } => Line::Rescale { a, count: 1 },
        Line::Rescale { a, .. } | Line::Modswitch { a, .. } => Line::Downscale { a },
        _ => return None,
    })
}

fn other_level(random: &mut Random, line: Line, header: &Header) -> Option<Line> {
    let Line::Enc { a, scale, level } = line else { return None };
    let last = header.top_level - 1;
    let level = random.pick(&[0, last, (i32::from(level) + 1).min(last), (i32::from(level) - 1).max(0)]);
    Some(Line::Enc { a, scale, level: level as u8 })
}

/// A ciphertext that keeps the rules, raised to a scale at or around W + F where that is legal, and a downscale of it.
pub fn add_sharp_downscale(random: &mut Random, listing: &mut File, held: &[Standing]) {
    let Header { factor, waterline, .. } = listing.header;
    let is_ciphertext = |&n: &usize| listing.lines()[n].kind() == ValueKind::Ciphertext;
    let ciphertexts: Vec<usize> = (0..listing.lines().len()).filter(is_ciphertext).collect();
    if ciphertexts.is_empty() || listing.lines().len() + 2 > SCHEDULE_LINES {
        return;
    }
    let n = random.pick(&ciphertexts);
    let bits = waterline + factor + random.pick(&[-2, -1, -1, 0, 0, 1]) - held[n].scale;
    let a = if bits > 0 { listing.push(Line::Upscale { a: n as u16, bits: bits as u16 }) } else { n as u16 };
    listing.push(Line::Downscale { a });
}
