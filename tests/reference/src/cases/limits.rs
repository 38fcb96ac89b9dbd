//! The limits of documents 01 and 02, each on both sides, as a fixed list of texts.

use super::damage::{past_a_power, BYTES, FIELDS, POWERS};
use super::{headroom, prices};
use crate::text::{CIRCUIT_LINES, KEPT_LINES, SCHEDULE_LINES};

/// A circuit and a schedule; all services take them.
pub struct Pair {
    pub circuit: Vec<u8>,
    pub schedule: Vec<u8>,
}

/// The worked cases and settled points, with spaces for tabs and `/` for line ends.
const WORKED: [&str; 34] = [
    "",
    "@ 60 20 1/",
    "@ 60 20 1/in/mul 0 0/",
    "@ 60 20 1/in/mul 0 0/mul 1 1/",
    "@ 60 20 2/in/mul 0 0/mul 1 1/mul 2 2/",
    "@ 60 20 2/in/mul 0 0/mul 1 1/mul 2 2/mul 3 3/",
    "@ 59 60 1/in/",
    "@ 59 60 2/in/",
    "@ 60 20 2/in/us 0 60/rs 1 1/",
    "@ 60 20 2/in/us 0 59/rs 1 1/",
    "@ 60 20 1/in/us 0 20/mul 0 1/",
    "@ 60 20 1/in/us 0 21/mul 0 1/",
    "@ 60 20 2/in/const 7/mul 0 1/mul 2 1/mul 3 3/out 4/",
    "@ 60 20 2/in/const 7/enc 1 20 2/mul 0 2/enc 1 20 2/mul 3 4/us 5 20/rs 6 1/us 5 20/rs 8 1/mul 7 9/out 10/",
    "@ 60 20 2/in/ms 0 1/",
    "@ 60 20 2/in/ms 0 2/",
    "@ 60 20 2/in/ms 0 3/",
    "@ 60 20 2/in/ms 0 60/",
    "@ 60 20 2/in/us 0 100/rs 1 1/",
    "@ 60 20 2/in/us 0 100/rs 1 2/",
    "@ 60 20 2/in/us 0 101/",
    "@ 60 20 2/in/rs 0 60/",
    "@ 60 20 60/in/us 0 3580/rs 1 59/",
    "@ 60 60 60/in/us 0 3540/rs 1 59/",
    "@ 60 20 60/in/us 0 3581/",
    "@ 1 1 60/in/us 0 59/rs 1 59/ms 2 1/",
    "@ 60 20 2/in/ms 0 1/add 0 1/",
    "@ 60 20 2/in/us 0 1/add 0 1/",
    "@ 60 20 2/in/const 1/enc 1 19 1/",
    "@ 60 20 2/in/const 1/enc 1 61 1/",
    "@ 10 20 5/const 1/enc 0 15 1/",
    "@ 10 20 5/const 1/enc 0 20 2/",
    "@ 10 20 5/const 1/enc 0 20 1/",
    "@ 10 20 5/const 1/enc 0 19 2/",
];

const CIRCUIT_FORMS: [&str; 7] = ["in", "const 5", "neg 0", "rot 0 1", "add 0 2", "mul 0 2", "out 0"];
const STRUCK_FORMS: [&str; 5] = ["enc 1 20 1", "rs 0 1", "ms 0 1", "us 0 1", "ds 0"];
/// One value of each kind comes before the line that is tried.
const BASE: &str = "in/const 5/neg 0/out 0/";
/// Fields for the tries with two at once.
pub const FEW: [&str; 15] =
    ["x", "", "-1", "-0", "01", "0", "1", "2", "3", "9", "61", "3601", "65537", "4294967297", "99999999999"];
/// Constant numbers that differ in the lower half of their bits, in the upper half, or in one bit.
const CONSTANTS: [u32; 8] = [0, 7, 65_535, 65_536, 65_543, 2_147_483_647, 2_147_483_655, 4_294_967_295];
/// What may stand on a line past a limit.
const LAST: [&str; 14] =
    ["in/", "in", "in x/", "in /", "inx/", "mul/", "mul x", "us 0 1/", "us", "ds 0/", "ds", "x", "/", "out 0/"];

fn bytes(shown: &str) -> Vec<u8> {
    shown.replace('/', "\n").replace(' ', "\t").into_bytes()
}

/// A text as a circuit and as a schedule; `@` stands for the header word.
pub fn as_both(shown: &str) -> Pair {
    let with = |word: &str| bytes(&shown.replacen('@', word, 1));
    Pair { circuit: with("circuit"), schedule: with("schedule") }
}

/// A schedule's text under the header word of a listing.
pub fn as_listing(schedule: &[u8]) -> Vec<u8> {
    let word = b"schedule";
    match schedule.windows(word.len()).position(|bytes| bytes == word) {
        Some(at) => [&schedule[..at], b"rising", &schedule[at + word.len()..]].concat(),
        None => schedule.to_vec(),
    }
}

/// Every case of the list.
pub fn all() -> Vec<Pair> {
    let mut list: Vec<Pair> = WORKED.iter().map(|shown| as_both(shown)).collect();
    headers(&mut list);
    lines(&mut list);
    constants(&mut list);
    encodings(&mut list);
    line_counts(&mut list);
    kept_counts(&mut list);
    operands_at_the_end(&mut list);
    ["60 60 60", "60 60 60 60"].iter().for_each(|header| longest_files(&mut list, header));
    long_texts(&mut list);
    ends_of_ranges(&mut list);
    downscales(&mut list);
    converted_counts(&mut list);
    headroom::limits(&mut list);
    prices::limits(&mut list);
    list
}

/// Every field of the header at every limit, and two at once.
fn headers(list: &mut Vec<Pair>) {
    for field in FIELDS {
        for header in [format!("@ {field} 20 2"), format!("@ 60 {field} 2"), format!("@ 60 20 {field}")] {
            list.push(as_both(&format!("{header}/in/")));
            list.push(as_both(&header));
        }
    }
    for power in POWERS {
        for number in ["1", "2", "60"].map(|number| past_power(number, power)) {
            for header in [format!("@ {number} 20 2"), format!("@ 60 {number} 2"), format!("@ 60 20 {number}")] {
                list.push(as_both(&format!("{header}/in/")));
            }
        }
    }
    for one in FEW {
        for other in FEW {
            list.push(as_both(&format!("@ {one} {other} 2/in/")));
            list.push(as_both(&format!("@ 60 {one} {other}/x/")));
        }
    }
    for header in
        ["@", "@ 60", "@ 60 20", "@ 60 20 2 2", "@ 60 20 2 ", " @ 60 20 2", "@@ 60 20 2", "/@ 60 20 2", "in", "circuits 1 1 1"]
    {
        list.push(as_both(&format!("{header}/in/")));
    }
    // Each file under the other's word.
    list.push(Pair { circuit: bytes("schedule 60 20 2/in/"), schedule: bytes("circuit 60 20 2/in/") });
}

/// Every field of every line at every limit, two fields at once, and too few or too many fields.
fn lines(list: &mut Vec<Pair>) {
    for form in CIRCUIT_FORMS.into_iter().chain(STRUCK_FORMS) {
        let fields: Vec<&str> = form.split(' ').collect();
        for count in 0..=5 {
            let longer: Vec<&str> = fields.iter().copied().chain(["0"; 5]).take(count).collect();
            push_line(list, &longer);
        }
        for place in 0..fields.len() {
            for field in FIELDS {
                push_line(list, &with_field(&fields, place, field));
            }
        }
        for place in 1..fields.len() {
            for power in POWERS {
                push_line(list, &with_field(&fields, place, &past_power(fields[place], power)));
            }
        }
        for place in 2..fields.len() {
            for one in FEW {
                for other in FEW {
                    push_line(list, &with_field(&with_field(&fields, place - 1, one), place, other));
                }
            }
        }
    }
}

pub fn past_power(field: &str, power: i64) -> String {
    past_a_power(field.as_bytes(), power).escape_ascii().to_string()
}

fn with_field<'a>(fields: &[&'a str], place: usize, field: &'a str) -> Vec<&'a str> {
    let mut changed = fields.to_vec();
    changed[place] = field;
    changed
}

/// The line after one value of each kind, closed and not closed, and with more behind it.
fn push_line(list: &mut Vec<Pair>, fields: &[&str]) {
    let line = fields.join(" ");
    list.push(as_both(&format!("@ 60 20 2/{BASE}{line}/")));
    list.push(as_both(&format!("@ 60 20 2/{BASE}{line}")));
    // In a schedule an encoded constant is value 4 here.
    let schedule = bytes(&format!("schedule 60 20 2/{BASE}enc 1 20 2/{line}/x/"));
    list.push(Pair { circuit: bytes(&format!("circuit 60 20 2/{BASE}in/{line}/x/")), schedule });
}

/// Constant numbers that come back through every service, each against each other, and a fault behind one that is too large.
fn constants(list: &mut Vec<Pair>) {
    for number in CONSTANTS {
        let circuit = format!("@ 60 20 2/in/const {number}/mul 0 1/add 1 2/neg 3/out 4/");
        list.push(as_both(&circuit));
        for other in CONSTANTS {
            let schedule = format!("@ 60 20 2/in/const {other}/enc 1 20 2/mul 0 2/enc 1 40 2/add 4 3/neg 5/out 6/");
            list.push(Pair { circuit: as_both(&circuit).circuit, schedule: as_both(&schedule).schedule });
            list.push(as_both(&format!("@ 60 20 2/const {number}/const {other}/in/mul 0 2/mul 3 1/")));
        }
    }
    for number in ["4294967295", "4294967296", "99999999999", "100000000000"] {
        for after in [" 1/", " x/", " /", "/x/", "/neg 9/", "/neg 0/", "x/", ""] {
            list.push(as_both(&format!("@ 60 20 2/in/const {number}{after}")));
        }
    }
}

/// E of `enc` on both sides of L, S at both ends.
fn encodings(list: &mut Vec<Pair>) {
    for top in [1, 2, 59, 60] {
        for level in [0, 1, top - 1, top, top + 1] {
            for scale in [0, 1, 20, 60, 61, 3599, 3600, 3601] {
                list.push(as_both(&format!("@ 60 20 {top}/in/const 4294967295/enc 1 {scale} {level}/")));
                list.push(as_both(&format!("@ 60 20 {top}/const 0/enc 0 {scale} {level}/in/add 1 2/")));
            }
        }
    }
}

/// 256 and 257 lines of a circuit, 1,792 and 1,793 of a schedule, and what may stand on the line too many.
fn line_counts(list: &mut Vec<Pair>) {
    for (limit, filling) in [(CIRCUIT_LINES, "in/"), (CIRCUIT_LINES, "const 1/"), (SCHEDULE_LINES - 1, "us 0 1/")] {
        for count in limit - 2..=limit + 2 {
            let full = format!("@ 60 20 60/in/{}", filling.repeat(count - 1));
            list.push(as_both(&full));
            for last in LAST {
                list.push(as_both(&format!("{full}{last}")));
            }
        }
    }
}

/// 256 and 257 kept lines among struck ones: erase has a limit there, check answers 12.
fn kept_counts(list: &mut Vec<Pair>) {
    for (circuit, schedule) in (254..=256).flat_map(|circuit| (254..=258).map(move |schedule| (circuit, schedule))) {
        let lines = |count| as_both(&format!("@ 60 20 60/{}", "in/".repeat(count)));
        list.push(Pair { circuit: lines(circuit).circuit, schedule: lines(schedule).schedule });
    }
    for count in KEPT_LINES - 2..=KEPT_LINES + 1 {
        for filling in ["in/", "us 0 1/in/", "neg 0/ms 0 1/", "const 9/"] {
            let full = format!("@ 60 20 60/in/{}", filling.repeat(count - 1));
            for last in LAST {
                list.push(as_both(&format!("{full}{last}")));
            }
            let circuit = format!("@ 60 20 60/in/{}", "in/".repeat(count - 1));
            list.push(Pair { circuit: as_both(&circuit).circuit, schedule: as_both(&format!("{full}us 0 1/")).schedule });
        }
    }
}

/// Operands of the highest numbers: the last line's own, the one before, `out` lines and constants there.
fn operands_at_the_end(list: &mut Vec<Pair>) {
    for before in ["in/", "out 0/", "const 3/"] {
        let circuit = format!("@ 60 20 60/{}{before}", "in/".repeat(254));
        let schedule = format!("@ 60 20 60/in/{}{before}", "us 0 1/".repeat(1789));
        for operand in [253, 254, 255, 256, 257, 1789, 1790, 1791, 1792] {
            for line in
                [format!("neg {operand}/"), format!("mul 0 {operand}/"), format!("add {operand} 0/"), format!("out {operand}/")]
            {
                let circuit = as_both(&format!("{circuit}{line}")).circuit;
                let schedule = as_both(&format!("{schedule}{line}")).schedule;
                list.push(Pair { circuit, schedule });
            }
        }
    }
}

/// The longest circuit and the longest schedule that can be read under this header, one more byte, and what else may stand there.
fn longest_files(list: &mut Vec<Pair>, header: &str) {
    let lines = |count, last: &str| as_both(&format!("@ {header}/{}{last}", "const 4294967295/".repeat(count)));
    let mut push = |fewer: usize, last: &str| {
        let circuit = lines(CIRCUIT_LINES - fewer, last).circuit;
        let kept = lines(KEPT_LINES - fewer, last).schedule;
        // The circuit that is whole, so that the schedule is read too.
        let whole = lines(CIRCUIT_LINES, "").circuit;
        list.push(Pair { circuit, schedule: kept });
        list.push(Pair { circuit: whole, schedule: lines(SCHEDULE_LINES - fewer, last).schedule });
    };
    for last in LAST.into_iter().chain(["const 4294967296/", "const 429496729", "mul 99999999999 99999999999/"]) {
        push(0, last);
        push(1, last);
    }
    for (n, byte) in BYTES.into_iter().enumerate() {
        push(1, &format!("const {}/", u32::MAX - 100_000_000 * n as u32));
        push(0, &char::from(byte).to_string());
    }
}

/// Fields, lines and files far longer than any of the form: work ends for these too.
fn long_texts(list: &mut Vec<Pair>) {
    for part in ["1", "0", "-", " ", "/", "in/", "x", "in ", "const 1/", "\r"] {
        let long = part.repeat(100_000);
        for text in [
            long.clone(),
            format!("@ {long} 20 2/"),
            format!("@ 60 20 2{long}/"),
            format!("@ 60 20 2 {long}/in/"),
            format!("@ 60 20 2 5 {long}/"),
            format!("@ 60 20 2/in/neg {long}/"),
            format!("@ 60 20 2/in/rot 0 -{long}/in/"),
        ] {
            list.push(as_both(&text));
        }
    }
}

/// Numbers at both ends of their ranges, behind several lines.
fn ends_of_ranges(list: &mut Vec<Pair>) {
    for inputs in 1..=8 {
        let base = format!("@ 60 20 60/const 5/{}", "in/".repeat(inputs));
        for [form, taken, refused] in [
            ["rot 1 N", "32767", "32768"],
            ["rot 1 N", "-32767", "-32768"],
            ["const N", "4294967295", "4294967296"],
            ["us 1 N", "3600", "3601"],
            ["rs 1 N", "60", "61"],
            ["ms 1 N", "60", "61"],
            ["enc 0 N 1", "3600", "3601"],
        ] {
            list.extend([taken, refused].map(|number| as_both(&format!("{base}{}/", form.replace('N', number)))));
        }
    }
}

/// Headers for downscales: W + F below, at and above the modulus at each of the levels, W below, at and above F.
const DOWNSCALE_HEADERS: [[i32; 3]; 12] = [
    [60, 20, 1],
    [60, 20, 2],
    [60, 20, 3],
    [60, 60, 2],
    [60, 60, 60],
    [59, 60, 2],
    [59, 60, 3],
    [30, 60, 3],
    [10, 60, 7],
    [1, 60, 60],
    [1, 1, 2],
    [60, 1, 2],
];

/// `ds` at every scale around W + F and at the first and last levels, once and again, and lines that name it; its operand and the
/// other conversions' numbers past a power of two.
fn downscales(list: &mut Vec<Pair>) {
    for number in POWERS.into_iter().flat_map(|power| power..power + 12) {
        list.push(as_both(&format!("@ 60 20 2/{}ds {number}/", "in/".repeat(12))));
        for form in ["us 0 N", "rs 0 N", "ms 0 N", "enc 1 N 1", "enc 1 20 N"] {
            list.push(as_both(&format!("@ 60 20 60/in/const 5/{}/", form.replace('N', &number.to_string()))));
        }
    }
    for [factor, waterline, top] in DOWNSCALE_HEADERS {
        for bits in [0, 1, factor - 2, factor - 1, factor, factor + 1, factor * top - waterline] {
            for count in [0, 1, top - 2, top - 1] {
                let up = if bits > 0 { format!("us 0 {bits}/") } else { "neg 0/".to_string() };
                let down = if count > 0 { format!("ms 1 {count}/") } else { "neg 1/".to_string() };
                let base = format!("@ {factor} {waterline} {top}/in/{up}{down}");
                list.push(as_both(&format!("{base}ds 1/")));
                list.push(as_both(&format!("{base}ds 2/ds 2/add 3 4/mul 3 5/rot 5 1/ds 3/neg 8/out 9/")));
                list.push(as_both(&format!("{base}const 3/ds 1/enc 3 {waterline} 1/add 4 5/mul 5 4/out 6/ds 2/")));
            }
        }
    }
}

/// Listings that become 1,792 lines, fewer and more: what stands on the line that no longer fits, and behind it.
fn converted_counts(list: &mut Vec<Pair>) {
    for inputs in [1, 2, 99, 100, 101, 255, 256] {
        let fitting = (SCHEDULE_LINES - inputs) / 2;
        for downscales in fitting - 1..=fitting + 2 {
            let full = format!("@ 60 20 2/{}{}", "in/".repeat(inputs), "ds 0/".repeat(downscales));
            list.push(as_both(&full));
            for last in LAST {
                list.push(as_both(&format!("{full}{last}")));
            }
            for broken in
                ["us 0 101/", "rs 0 1/", "us 0 1/add 0 N/", "ms 0 1/mul 0 N/", "us 0 60/ds N/", "ds 0/ds N/", "in/in/in/"]
            {
                list.push(as_both(&format!("{full}{}", broken.replace('N', &(inputs + downscales).to_string()))));
            }
        }
    }
}

#[cfg(test)]
mod tests {
    use super::*;

    #[test]
    fn the_longest_files_are_listed() {
        let list = all();
        let count = |length: usize, of: fn(&Pair) -> &Vec<u8>| list.iter().filter(|pair| of(pair).len() == length).count();
        for (circuit, schedule) in [(4_372, 30_485), (4_373, 30_486), (4_369, 30_482), (4_370, 30_483)] {
            assert!(count(circuit, |pair| &pair.circuit) >= 20);
            assert!(count(schedule, |pair| &pair.schedule) >= 20);
        }
    }
}
