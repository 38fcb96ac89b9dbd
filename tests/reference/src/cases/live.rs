//! Schedules for the live ciphertexts: values named early, late, often and never, as a fixed list of texts and at random.

use super::files::header;
use super::limits::as_both;
use crate::random::Random;
use crate::text::{File, Line, SCHEDULE_LINES};
use std::fs;
use std::path::Path;

/// As many as can be live at once: this many inputs, and the lines left name two each.
const MOST_LIVE: usize = 1194;

/// Lines that name values in every way, with spaces for tabs and `/` for line ends. Some break the rules of a line.
const SMALL: [&str; 26] = [
    "",
    "in/",
    "in/in/",
    "const 7/",
    "in/mul 0 0/",
    "in/add 0 0/mul 1 1/",
    "in/mul 0 0/neg 0/",
    "in/out 0/",
    "in/out 0/out 0/",
    "in/out 0/neg 0/out 2/",
    "const 7/enc 0 20 1/",
    "const 7/enc 0 20 1/enc 0 20 1/enc 0 20 1/",
    "const 7/const 8/enc 1 20 1/",
    "in/const 7/enc 1 20 1/add 0 2/mul 2 3/",
    "in/const 7/enc 1 20 1/enc 1 20 1/mul 0 2/add 2 4/neg 0/",
    "in/const 7/neg 0/enc 1 20 1/",
    "in/neg 0/rot 1 1/us 2 1/rs 3 1/ms 4 1/out 5/",
    "in/neg 0/rot 0 1/us 0 1/rs 0 1/ms 0 1/out 0/",
    "in/in/in/add 0 1/add 2 3/out 4/",
    "in/in/in/neg 2/neg 1/neg 0/",
    "in/in/in/neg 0/neg 1/neg 2/",
    "in/in/neg 1/in/neg 1/neg 0/",
    "in/ms 0 60/rs 1 60/us 2 3600/add 0 3/",
    "in/us 0 3600/mul 1 1/mul 2 2/rs 3 1/out 4/",
    "in/const 7/enc 1 1 1/mul 0 2/mul 2 0/add 3 4/",
    "in/const 7/enc 1 20 1/mul 0 2/enc 1 20 1/mul 3 4/us 5 20/rs 6 1/us 5 20/rs 8 1/mul 7 9/out 10/",
];

const HEADERS: [&str; 6] = ["60 20 2", "60 20 2 5", "1 1 1", "60 60 60", "60 60 60 60", "1 60 1 1"];

/// Every text of the list, and the examples.
pub fn all() -> Vec<Vec<u8>> {
    let mut list = examples();
    for header in HEADERS {
        list.extend(SMALL.iter().map(|lines| text(header, lines)));
        for inputs in [255, 256, 257, 512] {
            list.extend([false, true].map(|backwards| text(header, &negated(inputs, backwards))));
            list.extend([false, true].map(|backwards| text(header, &summed(inputs, backwards))));
        }
        for rest in ["", "in/", "out 0/", "const 7/"] {
            list.push(text(header, &format!("{}{rest}", summed(MOST_LIVE, rest.is_empty()))));
        }
        for entry in [255, 256, 1023, 1024, 1790, 1791] {
            list.extend(NAMING.iter().map(|naming| text(header, &named_at(entry, naming))));
        }
        full(&mut list, header);
    }
    list
}

fn text(header: &str, lines: &str) -> Vec<u8> {
    as_both(&format!("@ {header}/{lines}")).schedule
}

/// The schedules of the examples: the plans, of which some are a refusal, and those made by hand.
fn examples() -> Vec<Vec<u8>> {
    let folder = Path::new(env!("CARGO_MANIFEST_DIR")).join("../../examples");
    let entries = fs::read_dir(folder).expect("the folder of the examples");
    let mut paths: Vec<_> = entries.filter_map(|entry| Some(entry.ok()?.path())).collect();
    paths.retain(|path| path.extension().is_some_and(|ending| ending == "plan" || ending == "schedule"));
    paths.sort();
    paths.iter().map(|path| fs::read(path).expect("an example file")).collect()
}

/// So many inputs; then each is named by a line of its own, from the first or from the last.
fn negated(inputs: usize, backwards: bool) -> String {
    let names = (0..inputs).map(|n| if backwards { inputs - 1 - n } else { n });
    let lines: String = names.map(|name| format!("neg {name}/")).collect();
    "in/".repeat(inputs) + &lines
}

/// So many inputs; then each line names two of them, from the first or from the last, and the last one is named again where one is left over.
fn summed(inputs: usize, backwards: bool) -> String {
    let name = |n: usize| if backwards { inputs - 1 - n } else { n };
    let lines = (0..inputs).step_by(2).map(|n| format!("add {} {}/", name(n), name((n + 1).min(inputs - 1))));
    "in/".repeat(inputs) + &lines.collect::<String>()
}

/// Lines between the first three and the one that names value 1 last, which it is.
const NAMING: [[&str; 2]; 5] =
    [["in/", "neg 1/"], ["us 0 1/", "out 1/"], ["const 9/", "mul 1 1/"], ["enc 2 20 1/", "add 0 1/"], ["out 0/", "add 1 0/"]];

fn named_at(entry: usize, [filling, naming]: &[&str; 2]) -> String {
    format!("in/in/const 7/{}{naming}", filling.repeat(entry - 3))
}

/// Schedules of the most lines, or one more, of one word each.
fn full(list: &mut Vec<Vec<u8>>, header: &str) {
    for lines in [SCHEDULE_LINES, SCHEDULE_LINES + 1] {
        for filling in ["in/", "const 4294967295/", "out 0/", "neg 0/", "mul 0 0/"] {
            list.push(text(header, &format!("in/{}", filling.repeat(lines - 1))));
        }
        let chain = |n: usize| if n < 2 { "in/".to_string() } else { format!("add {} {}/", n - 2, n - 1) };
        list.push(text(header, &(0..lines).map(chain).collect::<String>()));
    }
}

/// How a line's operands are chosen among the ciphertexts.
#[derive(Clone, Copy)]
enum Choice {
    Any,
    /// One of the last few.
    Late,
    /// One of the first few.
    Early,
    /// The first that was not chosen so before.
    Next,
}

struct Maker<'a> {
    random: &'a mut Random,
    file: File,
    ciphertexts: Vec<u16>,
    constants: Vec<u16>,
    encoded: Vec<u16>,
    choice: Choice,
    /// How many were chosen in their order.
    chosen: usize,
}

/// Fresh values first, in most schedules, and then lines that name them; the rules are left to chance.
pub fn schedule(random: &mut Random) -> File {
    let size = match random.below(20) {
        0..=7 => random.below(8),
        8..=16 => random.below(64),
        17 | 18 => random.below(600),
        _ => SCHEDULE_LINES - random.below(300),
    };
    let fresh = random.pick(&[0, 1, size / 3, size / 2, size * 2 / 3]);
    let file = File::empty(header(random));
    let [ciphertexts, constants, encoded] = [(); 3].map(|()| Vec::new());
    let choice = random.pick(&[Choice::Any, Choice::Any, Choice::Late, Choice::Early, Choice::Next, Choice::Next]);
    let mut maker = Maker { random, file, ciphertexts, constants, encoded, choice, chosen: 0 };
    for n in 0..size {
        maker.add(n < fresh);
    }
    maker.file
}

impl Maker<'_> {
    fn add(&mut self, is_fresh: bool) {
        let line = if is_fresh || self.ciphertexts.is_empty() { self.fresh() } else { self.naming() };
        let number = self.file.push(line);
        match line {
            Line::Const { .. } => self.constants.push(number),
            Line::Enc { .. } => self.encoded.push(number),
            Line::Out { .. } => {}
            _ => self.ciphertexts.push(number),
        }
    }

    fn fresh(&mut self) -> Line {
        if self.random.percent(85) {
            Line::In
        } else {
            Line::Const { number: self.random.word() as u32 }
        }
    }

    fn operand(&mut self) -> u16 {
        let count = self.ciphertexts.len();
        let few = self.random.below(count.min(3));
        let place = match self.choice {
            Choice::Any => self.random.below(count),
            Choice::Late => count - 1 - few,
            Choice::Early => few,
            Choice::Next => {
                self.chosen += 1;
                (self.chosen - 1).min(count - 1)
            }
        };
        self.ciphertexts[place]
    }

    fn naming(&mut self) -> Line {
        let a = self.operand();
        match self.random.below(16) {
            0 => Line::Neg { a },
            1 => Line::Rot { a, by: self.random.between(-9, 9) as i16 },
            2 => Line::Out { a },
            3 => Line::Rescale { a, count: 1 + self.random.below(60) as u8 },
            4 => Line::Modswitch { a, count: 1 + self.random.below(60) as u8 },
            5 => Line::Upscale { a, bits: 1 + self.random.below(3600) as u16 },
            6 => Line::Mul { a, b: a },
            7 | 8 if !self.constants.is_empty() => {
                let level = self.random.between(1, self.file.header.top_level) as u8;
                Line::Enc { a: self.random.pick(&self.constants), scale: 1 + self.random.below(3600) as u16, level }
            }
            9 if !self.encoded.is_empty() => Line::Add { a: self.random.pick(&self.encoded), b: a },
            10 if !self.encoded.is_empty() => Line::Mul { a, b: self.random.pick(&self.encoded) },
            11 => self.fresh(),
            _ => Line::Add { a, b: self.operand() },
        }
    }
}

#[cfg(test)]
mod tests {
    use super::*;
    use crate::services::live_peak;
    use crate::text::{bytes_of, Reading};

    /// Both sides of a full byte, and as many as can be live at all.
    #[test]
    fn the_most_live_ciphertexts_are_listed() {
        let peaks: Vec<u32> = all().iter().map(|text| live_peak(text)).map(|reply| reply.length).collect();
        let count = |peak: u32| peaks.iter().filter(|&&found| found == peak).count();
        assert!([255, 256, MOST_LIVE as u32].iter().all(|&peak| count(peak) >= 20), "{peaks:?}");
        assert_eq!(peaks.iter().max(), Some(&(MOST_LIVE as u32)));
    }

    /// The maker's schedules can be read, and some have many live ciphertexts.
    #[test]
    fn made_schedules_can_be_read() {
        let peaks = (0..400).map(|case| {
            let schedule = schedule(&mut Random::new(7, case));
            let reply = live_peak(&bytes_of(&schedule, Reading::Schedule));
            assert_eq!(reply.number, 0, "{case}");
            reply.length
        });
        let peaks: Vec<u32> = peaks.collect();
        let count = |least: u32| peaks.iter().filter(|&&peak| peak >= least).count();
        assert!(count(5) > 80 && count(100) > 15 && count(256) > 10, "{peaks:?}");
    }
}
