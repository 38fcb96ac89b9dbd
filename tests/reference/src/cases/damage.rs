//! Damaged texts of every kind.

use super::files;
use crate::random::Random;
use crate::text::{CIRCUIT_LINES, SCHEDULE_LINES};

const WORDS: [&str; 19] = [
    "in", "const", "neg", "rot", "add", "mul", "out", "enc", "rs", "ms", "us", "ds", "circuit", "schedule", "rising", "IN",
    "inn", "i", "",
];

/// Fields at and past the limits, fields that are small or a limit modulo two to the 16 or to the 32, and fields that are no number.
pub const FIELDS: [&str; 64] = [
    "",
    "-",
    "-0",
    "-1",
    "0",
    "00",
    "01",
    "007",
    "1",
    "+1",
    "2",
    "3",
    "4",
    "5",
    "9",
    "59",
    "60",
    "61",
    "255",
    "256",
    "257",
    "1791",
    "1792",
    "1793",
    "3599",
    "3600",
    "3601",
    "32767",
    "32768",
    "-32767",
    "-32768",
    "65535",
    "65536",
    "65537",
    "65596",
    "-65537",
    "69136",
    "98303",
    "99999",
    "2147483647",
    "2147483648",
    "4294967294",
    "4294967295",
    "4294967296",
    "4294967297",
    "4294967356",
    "-4294967297",
    "4294970896",
    "4295000063",
    "8589934593",
    "9999999999",
    "10000000000",
    "99999999999",
    "100000000000",
    "999999999999",
    "00000000000",
    "-9999999999",
    "-99999999999",
    "x",
    "1x",
    "-x",
    " 1",
    "1\r",
    "18446744073709551616",
];

/// Where a reader of too few bits would begin at 0 again.
pub const POWERS: [i64; 2] = [1 << 16, 1 << 32];

/// Bytes that mean something here, or nearly do.
pub const BYTES: [u8; 20] = *b"\n\t\r -+0179aincmulo\0\xff";

/// The bytes next to the digits.
const BESIDE_DIGITS: [u8; 2] = *b"/:";

/// One to three changes.
pub fn damage(random: &mut Random, text: &[u8]) -> Vec<u8> {
    let mut text = text.to_vec();
    let changes = random.pick(&[1, 1, 1, 2, 3]);
    for _ in 0..changes {
        text = match random.below(6) {
            0 => damage_byte(random, text),
            1 => damage_line(random, &text),
            2 => damage_end(random, text),
            _ => damage_field(random, &text),
        };
    }
    text
}

/// A byte flipped, replaced, dropped, doubled or added.
fn damage_byte(random: &mut Random, mut text: Vec<u8>) -> Vec<u8> {
    if text.is_empty() {
        return vec![random.pick(&BYTES)];
    }
    let at = random.below(text.len());
    match random.below(6) {
        0 => text[at] ^= 1 << random.below(8),
        1 => text[at] = random.pick(&BYTES),
        2 => drop(text.remove(at)),
        3 => text.insert(at, text[at]),
        4 => text[at] = random.pick(&BESIDE_DIGITS),
        _ => text.insert(at, random.pick(&BYTES)),
    }
    text
}

/// Missing and surplus line feeds, carriage returns, cut files.
fn damage_end(random: &mut Random, mut text: Vec<u8>) -> Vec<u8> {
    match random.below(8) {
        0 => drop(text.pop()),
        1 => text.push(b'\n'),
        2 => text.truncate(random.below(text.len() + 1)),
        3 => text.push(random.pick(&BYTES)),
        4 => text.extend_from_slice(random.pick(&WORDS).as_bytes()),
        5 => text = replaced(&text, b'\n', b"\r\n"),
        6 => fill(random, &mut text),
        _ => text = replaced(&text, b'\t', random.pick(&[" ", "\t\t", ",", ""]).as_bytes()),
    }
    text
}

/// Lines up to the limit of the file, or one or two more.
fn fill(random: &mut Random, text: &mut Vec<u8>) {
    let limit = if text.starts_with(b"circuit") { CIRCUIT_LINES } else { SCHEDULE_LINES };
    let lines = text.iter().filter(|&&byte| byte == b'\n').count();
    let missing = (limit + 1 + random.below(3)).saturating_sub(lines);
    text.extend_from_slice(&b"in\n".repeat(missing));
}

fn replaced(text: &[u8], byte: u8, by: &[u8]) -> Vec<u8> {
    text.iter().flat_map(|&own| if own == byte { by.to_vec() } else { vec![own] }).collect()
}

fn lines_of(text: &[u8]) -> Vec<Vec<u8>> {
    text.split_inclusive(|&byte| byte == b'\n').map(<[u8]>::to_vec).collect()
}

/// A whole line dropped, doubled, swapped with another, emptied, or put at another place.
fn damage_line(random: &mut Random, text: &[u8]) -> Vec<u8> {
    let mut lines = lines_of(text);
    if lines.is_empty() {
        return b"\n".to_vec();
    }
    let (at, other) = (random.below(lines.len()), random.below(lines.len()));
    match random.below(7) {
        0 => drop(lines.remove(at)),
        1 => lines.insert(at, lines[at].clone()),
        2 => lines.swap(at, other),
        3 => lines[at] = b"\n".to_vec(),
        4 => drop(lines[at].pop()),
        5 => lines.insert(at, b"in\n".to_vec()),
        _ => {
            let line = lines.remove(at);
            lines.insert(other.min(lines.len()), line);
        }
    }
    lines.concat()
}

/// One field of one line changed.
fn damage_field(random: &mut Random, text: &[u8]) -> Vec<u8> {
    let mut lines = lines_of(text);
    if lines.is_empty() {
        return b"\t\n".to_vec();
    }
    // The header is one line of many, yet wants its share.
    let at = if random.percent(15) { 0 } else { random.below(lines.len()) };
    let line = &lines[at];
    let (content, end) = match line.strip_suffix(b"\n") {
        Some(content) => (content, &b"\n"[..]),
        None => (&line[..], &b""[..]),
    };
    let mut fields: Vec<Vec<u8>> = content.split(|&byte| byte == b'\t').map(<[u8]>::to_vec).collect();
    let (field, other) = (random.below(fields.len()), random.below(fields.len()));
    match random.below(13) {
        0 => drop(fields.remove(field)),
        1 => fields.insert(field, fields[field].clone()),
        2 => fields.swap(field, other),
        3 | 4 => fields[field] = random.pick(&FIELDS).as_bytes().to_vec(),
        5 => fields[0] = random.pick(&WORDS).as_bytes().to_vec(),
        6 => fields[field].insert(0, random.pick(b"0-+ ")),
        7 | 8 | 11 => limit_field(random, &mut fields),
        9 => fields.push(random.pick(&FIELDS).as_bytes().to_vec()),
        10 => fields[field] = moved_by_one(random, &fields[field]),
        _ => {
            // The word is no number.
            let number = field.max(1).min(fields.len() - 1);
            fields[number] = past_a_power(&fields[number], random.pick(&POWERS));
        }
    }
    lines[at] = [fields.join(&b'\t'), end.to_vec()].concat();
    lines.concat()
}

/// The last number that is taken at some place of the line, or the first that is not; a header without an H may get one.
fn limit_field(random: &mut Random, fields: &mut Vec<Vec<u8>>) {
    let (place, numbers): (usize, &[&str]) = match &fields[0][..] {
        b"circuit" | b"schedule" | b"rising" => (1 + random.below(4), &["0", "1", "60", "61"]),
        b"const" => (1, &["65535", "65536", "4294967295", "4294967296"]),
        b"rot" => (2, &["32767", "32768", "-32767", "-32768"]),
        b"us" | b"enc" => (2, &["3600", "3601"]),
        b"rs" | b"ms" => (2, &["60", "61"]),
        _ => return,
    };
    let number = random.pick(numbers).as_bytes().to_vec();
    match fields.get_mut(place) {
        Some(field) => *field = number,
        None => fields.push(number),
    }
}

fn changed_number(field: &[u8], change: impl Fn(i64) -> i64) -> Vec<u8> {
    let number = std::str::from_utf8(field).ok().and_then(|field| field.parse::<i64>().ok());
    number.map_or(field.to_vec(), |number| change(number).to_string().into_bytes())
}

/// A number one more or one less; another field stays.
fn moved_by_one(random: &mut Random, field: &[u8]) -> Vec<u8> {
    let step = random.pick(&[-1, 1]);
    changed_number(field, |number| number.saturating_add(step))
}

/// A number that is the same one modulo this power of two, further from zero; another field stays.
pub fn past_a_power(field: &[u8], power: i64) -> Vec<u8> {
    changed_number(field, |number| number.saturating_add(if number < 0 { -power } else { power }))
}

/// Lines of nearly the form; now and then words, numbers and ends in any order, or bytes in any order.
pub fn soup(random: &mut Random, header_word: &str) -> Vec<u8> {
    let mut text = Vec::new();
    if random.percent(95) {
        let [factor, waterline, top_level] = [(); 3].map(|()| random.between(1, 60));
        let headroom = files::headroom(random).map_or(String::new(), |headroom| format!("\t{headroom}"));
        text = format!("{header_word}\t{factor}\t{waterline}\t{top_level}{headroom}\n").into_bytes();
    }
    let lines = 1 + random.below(12);
    match random.below(10) {
        0 => text.extend((0..8 * lines).map(|_| random.word() as u8)),
        1 => text.extend((0..8 * lines).flat_map(|_| token(random).bytes())),
        _ => text.extend((0..lines).flat_map(|number| near_line(random, number, header_word))),
    }
    text
}

fn token(random: &mut Random) -> &'static str {
    match random.below(8) {
        0 | 1 => random.pick(&WORDS),
        2 => random.pick(&FIELDS),
        3 => random.pick(&["0", "1", "2"]),
        4 | 5 => "\t",
        6 => "in\n",
        _ => "\n",
    }
}

/// A word with its number of fields, filled with small numbers mostly.
fn near_line(random: &mut Random, number: usize, header_word: &str) -> Vec<u8> {
    let forms = [
        ("in", 0),
        ("in", 0),
        ("const", 1),
        ("neg", 1),
        ("rot", 2),
        ("add", 2),
        ("mul", 2),
        ("out", 1),
        ("us", 2),
        ("rs", 2),
        ("enc", 3),
        ("ds", 1),
    ];
    // The last form is a listing's.
    let forms = if header_word == "rising" { &forms[..] } else { &forms[..forms.len() - 1] };
    let (word, count) = if number == 0 { ("in", 0) } else { random.pick(forms) };
    let mut line = word.to_string();
    for _ in 0..count {
        let field = match random.below(40) {
            0 => random.pick(&FIELDS).to_string(),
            1 => number.to_string(),
            _ => random.below(number.max(1)).to_string(),
        };
        line = line + "\t" + &field;
    }
    line.push('\n');
    line.into_bytes()
}
