//! What is measured: the example circuits, full files, and files that are refused.

use std::fs;
use std::path::Path;

/// A circuit and a schedule of it.
pub struct Input {
    pub name: String,
    pub circuit: Vec<u8>,
    pub schedule: Vec<u8>,
}

/// A listing in the rising-level dialect and a schedule; an empty one is not measured.
pub struct Conversion {
    pub name: String,
    pub listing: Vec<u8>,
    pub schedule: Vec<u8>,
}

/// The examples with this ending, by name.
fn names(folder: &Path, ending: &str) -> Vec<String> {
    let mut names: Vec<String> = fs::read_dir(folder)
        .expect("the folder of the examples")
        .filter_map(|entry| entry.ok()?.file_name().into_string().ok())
        .filter_map(|name| name.strip_suffix(ending).map(str::to_string))
        .collect();
    names.sort();
    names
}

/// The schedules of the examples that were written by hand.
pub fn example_schedules(folder: &Path) -> Vec<(String, Vec<u8>)> {
    let load = |name: &str| fs::read(folder.join(format!("{name}.schedule"))).expect("an example file");
    names(folder, ".schedule").into_iter().map(|name| (name.clone(), load(&name))).collect()
}

/// Document 000, Fig. 2b and 2c, in its own dialect: the examples of these names write each downscale as an upscale and a rescale.
pub const DOWNSCALED: [(&str, &str); 2] = [
    ("cubed_sum.proactive", "rising 60 20 2/in/in/mul 0 0/mul 1 1/add 2 3/mul 4 4/rs 5 1/ds 4/mul 6 7/out 8/"),
    ("cubed_sum.early", "rising 60 20 2/in/in/mul 0 0/mul 1 1/add 2 3/ds 4/mul 5 5/mul 6 5/out 7/"),
];

/// A text that is written with spaces for tabs and `/` for line ends.
pub fn bytes(shown: &str) -> Vec<u8> {
    shown.replace('/', "\n").replace(' ', "\t").into_bytes()
}

/// So many inputs and downscales: 100 and 846 become 1,792 lines, and one more is too many.
pub fn downscales(inputs: usize, downscales: usize) -> Vec<u8> {
    let mut text = format!("rising 60 20 2/{}", "in/".repeat(inputs));
    for i in 0..downscales {
        text.push_str(&format!("ds {}/", i % inputs));
    }
    bytes(&text)
}

/// The examples that have a plan, by name.
pub fn examples(folder: &Path) -> Vec<Input> {
    let load = |name: &str| fs::read(folder.join(name)).expect("an example file");
    names(folder, ".circuit")
        .into_iter()
        .map(|name| Input {
            circuit: load(&format!("{name}.circuit")),
            schedule: load(&format!("{name}.plan")),
            name,
        })
        .filter(|input| input.schedule.starts_with(b"schedule"))
        .collect()
}

/// A circuit of so many lines: rotations, sums and products with constants and with one another, shallow enough to fit.
pub fn long_circuit(lines: usize) -> Vec<u8> {
    let mut text = String::from("circuit\t60\t20\t60\nin\nconst\t7\n");
    for i in 2..lines {
        let before = if i == 2 { 0 } else { i - 1 };
        let line = match i % 8 {
            2 => format!("rot\t{before}\t-{i}\n"),
            3 => format!("mul\t{before}\t1\n"),
            4 => format!("add\t{before}\t0\n"),
            5 => format!("neg\t{before}\n"),
            6 => format!("add\t{before}\t1\n"),
            7 => format!("mul\t{before}\t0\n"),
            _ => format!("add\t0\t{before}\n"),
        };
        text.push_str(&line);
    }
    text.into_bytes()
}

/// A full circuit with catalogue codes of ten digits for constant numbers, each used once.
pub fn catalogue_circuit() -> Vec<u8> {
    let mut text = String::from("circuit\t60\t20\t60\nin\n");
    for i in 1..255 {
        let line = match i % 4 {
            1 | 3 => format!("const\t{}\n", u32::MAX - 9_876_543 * i),
            2 => format!("mul\t{}\t{}\n", i - 2, i - 1),
            _ => format!("add\t{}\t{}\n", i - 1, i - 2),
        };
        text.push_str(&line);
    }
    text.push_str("out\t254\n");
    text.into_bytes()
}

/// The longest circuit of all, of 4,372 bytes: a header with an H, and nothing but constants of ten digits.
pub fn longest_circuit() -> Vec<u8> {
    format!("circuit\t60\t60\t60\t60\n{}", "const\t4294967295\n".repeat(256)).into_bytes()
}

/// The same file with an H of 5, which detune factors up to 12 ask for.
pub fn with_headroom(text: &[u8]) -> Vec<u8> {
    let end = text.iter().position(|&byte| byte == b'\n').expect("a header");
    [&text[..end], b"\t5", &text[end..]].concat()
}

/// A schedule of so many lines that keeps the rules: the first seventh is kept, the rest are upscales that nobody uses.
pub fn long_schedule(lines: usize) -> (Vec<u8>, Vec<u8>) {
    let kept = lines / 7;
    let mut lines_kept = String::from("in\n");
    for i in 1..kept {
        lines_kept.push_str(&format!("rot\t{}\t{i}\n", i - 1));
    }
    let mut schedule = format!("schedule\t60\t20\t2\n{lines_kept}");
    for i in kept..lines {
        schedule.push_str(&format!("us\t{}\t{}\n", i % kept, i % 80 + 1));
    }
    (format!("circuit\t60\t20\t2\n{lines_kept}").into_bytes(), schedule.into_bytes())
}

/// A schedule of so many lines with the most live ciphertexts: two thirds are inputs, and each other line names two that are named nowhere else.
pub fn sums(lines: usize) -> Vec<u8> {
    let inputs = lines * 2 / 3;
    let mut text = format!("schedule 60 20 2/{}", "in/".repeat(inputs));
    for i in 0..lines - inputs {
        text.push_str(&format!("add {} {}/", 2 * i % inputs, (2 * i + 1) % inputs));
    }
    bytes(&text)
}

/// A constant and so many encodings of it, the longest lines but for the constants of ten digits.
pub fn encodings(count: usize) -> Vec<u8> {
    bytes(&format!("schedule 60 60 60/const 4294967295/{}", "enc 0 3600 60/".repeat(count)))
}
