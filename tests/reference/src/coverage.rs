//! What the calls of a run have covered: every reply, every conversion and every limit on both sides, at each file that can show it. A run
//! that covers less than is asked fails, so that no generator passes by making nothing.

mod live;

use crate::both::Call;
use crate::cases::damage::POWERS;
use crate::check::{self, Standing};
use crate::library::{Answer, Service};
use crate::plan;
use crate::rising;
use crate::services::{QuoteReply, Reply};
use crate::text::{file_of, File, Header, Line, Reading, ValueKind, CIRCUIT_LINES, KEPT_LINES, SCHEDULE_LINES};
use std::ops::RangeInclusive;

/// A file that is handed to a service.
#[derive(Clone, Copy, PartialEq, Eq)]
enum Place {
    Plan,
    CheckCircuit,
    CheckSchedule,
    Erase,
    LeastLevel,
    Quote,
    FromRising,
    ToRising,
    MayDrop,
    LiveAfter,
    LivePeak,
    Live,
}

impl Place {
    /// Where the first file of a service is counted.
    fn of(service: Service) -> Place {
        match service {
            Service::Plan => Place::Plan,
            Service::Check => Place::CheckCircuit,
            Service::Erase => Place::Erase,
            Service::LeastLevel => Place::LeastLevel,
            Service::Quote => Place::Quote,
            Service::FromRising => Place::FromRising,
            Service::ToRising => Place::ToRising,
            Service::MayDrop { .. } => Place::MayDrop,
            Service::LiveAfter { .. } => Place::LiveAfter,
            Service::LivePeak => Place::LivePeak,
            Service::Live => Place::Live,
        }
    }

    fn header_word(self) -> &'static [u8] {
        match self {
            Place::Plan | Place::CheckCircuit | Place::LeastLevel | Place::Quote => b"circuit",
            Place::FromRising => b"rising",
            _ => b"schedule",
        }
    }
}

const PLACES: [(Place, &str); 12] = [
    (Place::Plan, "plan"),
    (Place::CheckCircuit, "check, circuit"),
    (Place::CheckSchedule, "check, schedule"),
    (Place::Erase, "erase"),
    (Place::LeastLevel, "least level"),
    (Place::Quote, "quote"),
    (Place::FromRising, "from rising"),
    (Place::ToRising, "to rising"),
    (Place::MayDrop, "may drop"),
    (Place::LiveAfter, "live after"),
    (Place::LivePeak, "live peak"),
    (Place::Live, "live"),
];

const ALL: &[Place] = &[
    Place::Plan,
    Place::CheckCircuit,
    Place::CheckSchedule,
    Place::Erase,
    Place::LeastLevel,
    Place::Quote,
    Place::FromRising,
    Place::ToRising,
    Place::MayDrop,
    Place::LiveAfter,
    Place::LivePeak,
    Place::Live,
];
const CIRCUITS: &[Place] = &[Place::Plan, Place::CheckCircuit, Place::LeastLevel, Place::Quote];
const SCHEDULES: &[Place] =
    &[Place::CheckSchedule, Place::Erase, Place::ToRising, Place::MayDrop, Place::LiveAfter, Place::LivePeak, Place::Live];
const LISTINGS: &[Place] = &[Place::FromRising];
/// Whose best reserves are worked out.
const PLANNED: &[Place] = &[Place::Plan, Place::LeastLevel, Place::Quote];
/// What has a schedule's grammar.
const LONG: &[Place] = &[
    Place::CheckSchedule,
    Place::Erase,
    Place::FromRising,
    Place::ToRising,
    Place::MayDrop,
    Place::LiveAfter,
    Place::LivePeak,
    Place::Live,
];
const RULED: &[Place] = &[Place::CheckSchedule, Place::FromRising, Place::ToRising];
/// Where a 257th kept line is refused.
const KEEPING: &[Place] = &[Place::Erase, Place::FromRising, Place::ToRising];
const WRITING: &[Place] = &[Place::Plan, Place::Erase, Place::FromRising, Place::ToRising, Place::Live];
const QUOTED: &[Place] = &[Place::Quote];
/// Where any number of kept lines is read.
const KEEPING_ALL: &[Place] = &[Place::CheckSchedule, Place::MayDrop, Place::LiveAfter, Place::LivePeak, Place::Live];
/// What is asked with a line's number, and with a value's.
const ASKED_BY_LINE: &[Place] = &[Place::MayDrop, Place::LiveAfter];
const ASKED_BY_VALUE: &[Place] = &[Place::MayDrop];
/// Where entries show, and where live counts do.
const ENTRIES: &[Place] = &[Place::MayDrop, Place::Live];
const COUNTS: &[Place] = &[Place::LiveAfter, Place::LivePeak, Place::Live];
const ALL_AT_ONCE: &[Place] = &[Place::Live];

/// What is asked for the rows of a class.
#[derive(Clone, Copy, PartialEq, Eq)]
enum Class {
    Reply,
    Conversion,
    Limit,
    Buffer,
    Price,
    Live,
}

/// The least numbers of a run, for each class; 0 where a class is not asked for.
pub struct Asked {
    pub replies: u64,
    pub conversions: u64,
    pub limits: u64,
    pub buffers: u64,
    pub prices: u64,
    pub live: u64,
    /// Whether only planning is called.
    pub only_plan: bool,
}

/// A row of the table. A limit has two sides: the last that is taken, and the first that is not. A number that is legal modulo a power of two, and is
/// refused, has the two powers for sides.
struct Row {
    name: &'static str,
    class: Class,
    sides: usize,
    places: &'static [Place],
}

const fn reply(name: &'static str, places: &'static [Place]) -> Row {
    Row { name, class: Class::Reply, sides: 1, places }
}

const fn conversion(name: &'static str) -> Row {
    let places = &[
        Place::Plan,
        Place::CheckSchedule,
        Place::Erase,
        Place::FromRising,
        Place::ToRising,
        Place::MayDrop,
        Place::LiveAfter,
        Place::LivePeak,
        Place::Live,
    ];
    Row { name, class: Class::Conversion, sides: 1, places }
}

/// A limit that has but one side to be met.
const fn met(name: &'static str, places: &'static [Place]) -> Row {
    Row { name, class: Class::Limit, sides: 1, places }
}

const fn limit(name: &'static str, places: &'static [Place]) -> Row {
    Row { name, class: Class::Limit, sides: 2, places }
}

/// A buffer of exactly the length, and one byte less.
const fn buffer(name: &'static str, places: &'static [Place]) -> Row {
    Row { name, class: Class::Buffer, sides: 2, places }
}

/// A line that has a price. One with a constant has it first or second; rescales and modswitches are one or more.
const fn price(name: &'static str, sides: usize) -> Row {
    Row { name, class: Class::Price, sides, places: QUOTED }
}

/// An answer about a value or a line, or a way in which values are named.
const fn live_row(name: &'static str, sides: usize, places: &'static [Place]) -> Row {
    Row { name, class: Class::Live, sides, places }
}

/// Replies stand at their numbers; the other rows are named below.
const ROWS: [Row; 133] = [
    reply("success", ALL),
    reply("1 text not of the form", ALL),
    reply("2 header number", ALL),
    reply("3 too many lines", ALL),
    reply("4 no usable line", ALL),
    reply("5 wrong kind", ALL),
    reply("6 too few levels", PLANNED),
    reply("7 levels differ", RULED),
    reply("8 scales differ", RULED),
    reply("9 above the modulus", RULED),
    reply("10 below the waterline", RULED),
    reply("11 other number", ALL),
    reply("12 another circuit", &[Place::CheckCircuit]),
    Row { name: "13 buffer too short", class: Class::Buffer, sides: 1, places: WRITING },
    reply("14 ds not below W + F", LISTINGS),
    conversion("success with ms"),
    conversion("success with us"),
    conversion("success with rs"),
    conversion("success with enc"),
    limit("256 | 257 circuit lines", CIRCUITS),
    limit("1792 | 1793 schedule lines", LONG),
    limit("256 | 257 kept lines", KEEPING),
    limit("F = 1 | 0", ALL),
    limit("W = 1 | 0", ALL),
    limit("L = 1 | 0", ALL),
    limit("H = 1 | 0", ALL),
    limit("F = 60 | 61", ALL),
    limit("W = 60 | 61", ALL),
    limit("L = 60 | 61", ALL),
    limit("H = 60 | 61", ALL),
    limit("const 4294967295 | 4294967296", ALL),
    limit("rot by 32767 | 32768", ALL),
    limit("rot by -32767 | -32768", ALL),
    limit("us by 3600 | 3601", LONG),
    limit("enc at 3600 | 3601", LONG),
    limit("rs by 60 | 61", LONG),
    limit("ms by 60 | 61", LONG),
    limit("field of 11 | 12 digits", ALL),
    limit("4372 | 4373 circuit bytes", CIRCUITS),
    limit("30485 | 30486 bytes", KEEPING_ALL),
    limit("const 65535, 65536 read", ALL),
    limit("12 by const, low | high", &[Place::CheckCircuit]),
    limit("header + 2^16 | + 2^32", ALL),
    limit("operand + 2^16 | + 2^32", ALL),
    limit("rot by + 2^16 | + 2^32", ALL),
    limit("us by + 2^16 | + 2^32", LONG),
    limit("enc at + 2^16 | + 2^32", LONG),
    limit("enc level + 2^16 | + 2^32", LONG),
    limit("rs by + 2^16 | + 2^32", LONG),
    limit("ms by + 2^16 | + 2^32", LONG),
    limit("enc level 1, L read", SCHEDULES),
    limit("enc level 0, L + 1 refused", SCHEDULES),
    limit("rising level 0, L - 1 read", LISTINGS),
    met("rising level L refused", LISTINGS),
    Row { name: "success with ds", class: Class::Conversion, sides: 1, places: LISTINGS },
    limit("ds at W + F - 1 | W + F", LISTINGS),
    limit("ds, W + F = F l | F l + 1", LISTINGS),
    met("9 of a ds at level 1", LISTINGS),
    limit("ds operand + 2^16 | + 2^32", LISTINGS),
    limit("1792 | 1793 lines converted", LISTINGS),
    limit("3 at ds: us fits | not it", LISTINGS),
    met("rule broken behind a 3", LISTINGS),
    reply("success with H", ALL),
    limit("H empty, a fifth field refused", ALL),
    limit("H 01, -1 refused", ALL),
    limit("H of 11 | 12 digits", ALL),
    limit("H + 2^16 | + 2^32", ALL),
    limit("12 by H in file 1 | 2 alone", &[Place::CheckCircuit]),
    met("12 by H in both", &[Place::CheckCircuit]),
    reply("9 by H alone", RULED),
    limit("in, W + H = F L | F L + 1", RULED),
    limit("enc, S + H = F l | F l + 1", RULED),
    limit("us, scale + H = F l | F l + 1", RULED),
    limit("mul, scale + H = F l | F l + 1", RULED),
    limit("ms, scale + H = F l | F l + 1", RULED),
    limit("ds, W + F + H = F l | F l + 1", LISTINGS),
    limit("best reserve H | H - 1, in", PLANNED),
    limit("best reserve H | H - 1, mul", PLANNED),
    limit("best reserve H | H - 1, by const", PLANNED),
    met("6 by H alone", PLANNED),
    met("least level higher by H", &[Place::LeastLevel]),
    limit("no H, scale = F l | F l + 1", RULED),
    limit("no H, best reserve 0 | -1", PLANNED),
    buffer("with H, buffer enough | one short", WRITING),
    buffer("no H, buffer enough | one short", WRITING),
    price("price of mul of two", 1),
    price("price of mul, const first | second", 2),
    price("price of rot", 1),
    price("price of neg", 1),
    price("price of add of two", 1),
    price("price of add, const first | second", 2),
    price("price of enc", 1),
    price("price of us", 1),
    price("price of rs by 1 | by more", 2),
    price("price of ms by 1 | by more", 2),
    price("price at level 1 | at level 60", 2),
    price("price 0", 1),
    limit("header alone, no H | with H", &[Place::Quote, Place::LivePeak, Place::Live]),
    limit("rs by 30 | ms by 59", QUOTED),
    limit("price 65535 | 65536", QUOTED),
    met("price of 4000000 or more", QUOTED),
    met("1273 lines", QUOTED),
    buffer("with H, room of bytes | one less", QUOTED),
    buffer("no H, room of bytes | one less", QUOTED),
    limit("6 | another in no room too", QUOTED),
    met("ms, us and rs of one operand", QUOTED),
    reply("4 line or value lacking", ASKED_BY_LINE),
    live_row("answer yes | no", 2, ASKED_BY_VALUE),
    live_row("no: before its line | named later", 2, ASKED_BY_VALUE),
    live_row("named: after entry | line before", 2, ASKED_BY_VALUE),
    live_row("never named: own | line before", 2, ASKED_BY_VALUE),
    live_row("of a ciphertext | of a const", 2, ASKED_BY_VALUE),
    live_row("of an enc | of an out", 2, ASKED_BY_VALUE),
    limit("value last | last + 1", ASKED_BY_VALUE),
    limit("line last | last + 1", ASKED_BY_LINE),
    limit("value 65535, 65536 lacking", ASKED_BY_VALUE),
    limit("line 65535, 65536 lacking", ASKED_BY_LINE),
    limit("value + 2^16 | + 2^31 lacking", ASKED_BY_VALUE),
    limit("line + 2^16 | + 2^31 lacking", ASKED_BY_LINE),
    limit("value alone, line alone lacking", ASKED_BY_VALUE),
    limit("4294967295 lacking: value, line", ASKED_BY_VALUE),
    limit("0 of a header, no H | with H", ASKED_BY_LINE),
    limit("file refused first: 0 | 65536 up", ASKED_BY_LINE),
    met("file refused in no room", ALL_AT_ONCE),
    limit("256, 257 kept lines read", KEEPING_ALL),
    limit("count 255, 256", COUNTS),
    met("1194 live at once", COUNTS),
    limit("entry 255, 256", ENTRIES),
    limit("entry 1023, 1024", ENTRIES),
    limit("entry 1790, 1791", ENTRIES),
    live_row("named twice by one line | by two", 2, ALL_AT_ONCE),
    live_row("named by out alone | by enc alone", 2, ALL_AT_ONCE),
    live_row("never: ciphertext | const or enc", 2, ALL_AT_ONCE),
];

const MS: usize = 15;
const US: usize = 16;
const RS: usize = 17;
const ENC: usize = 18;
const CIRCUIT_LIMIT: usize = 19;
const SCHEDULE_LIMIT: usize = 20;
const KEPT_LIMIT: usize = 21;
const HEADER_LOW: usize = 22;
const HEADER_HIGH: usize = 26;
const CONSTANT: usize = 30;
const ROTATION: usize = 31;
const ROTATION_BACK: usize = 32;
const UPSCALE: usize = 33;
const ENCODED: usize = 34;
const RESCALES: usize = 35;
const MODSWITCHES: usize = 36;
const DIGITS: usize = 37;
const CIRCUIT_LENGTH: usize = 38;
const SCHEDULE_LENGTH: usize = 39;
const SIXTEEN_BITS: usize = 40;
const ANOTHER_CONSTANT: usize = 41;
const HEADER_WRAP: usize = 42;
const OPERAND_WRAP: usize = 43;
const ROTATION_WRAP: usize = 44;
const UPSCALE_WRAP: usize = 45;
const ENCODED_WRAP: usize = 46;
const LEVEL_WRAP: usize = 47;
const RESCALES_WRAP: usize = 48;
const MODSWITCHES_WRAP: usize = 49;
const LEVEL_ENDS: usize = 50;
const LEVEL_PAST: usize = 51;
const RISING_LEVEL_ENDS: usize = 52;
const RISING_LEVEL_PAST: usize = 53;
const DOWNSCALE: usize = 54;
const DOWNSCALE_SCALE: usize = 55;
const DOWNSCALE_MODULUS: usize = 56;
const DOWNSCALE_LAST_LEVEL: usize = 57;
const DOWNSCALE_WRAP: usize = 58;
const CONVERTED: usize = 59;
const CONVERTED_PART: usize = 60;
const RULE_FIRST: usize = 61;
/// The rows of a header with an H.
const HEADROOM: usize = 62;
const HEADROOM_FORM: usize = 63;
const HEADROOM_SIGN: usize = 64;
const HEADROOM_DIGITS: usize = 65;
const HEADROOM_WRAP: usize = 66;
const HEADROOM_ALONE: usize = 67;
const HEADROOM_DIFFERS: usize = 68;
const HEADROOM_MODULUS: usize = 69;
const HEADROOM_OF_IN: usize = 70;
const HEADROOM_OF_ENC: usize = 71;
const HEADROOM_OF_US: usize = 72;
const HEADROOM_OF_MUL: usize = 73;
const HEADROOM_OF_MS: usize = 74;
const HEADROOM_OF_DOWNSCALE: usize = 75;
const HEADROOM_OF_RESERVE: usize = 76;
const HEADROOM_OF_PRODUCT: usize = 77;
const HEADROOM_BY_CONSTANT: usize = 78;
const HEADROOM_TOO_FEW: usize = 79;
const HEADROOM_LEAST_LEVEL: usize = 80;
/// The same bounds without an H, and buffers with one and without.
const MODULUS: usize = 81;
const RESERVE: usize = 82;
const HEADROOM_BUFFER: usize = 83;
const BUFFER: usize = 84;
/// The rows of a quote.
const PRICE_OF_MUL: usize = 85;
const PRICE_OF_MUL_BY_CONSTANT: usize = 86;
const PRICE_OF_ROT: usize = 87;
const PRICE_OF_NEG: usize = 88;
const PRICE_OF_ADD: usize = 89;
const PRICE_OF_ADD_OF_CONSTANT: usize = 90;
const PRICE_OF_ENC: usize = 91;
const PRICE_OF_US: usize = 92;
const PRICE_OF_RS: usize = 93;
const PRICE_OF_MS: usize = 94;
const PRICE_LEVELS: usize = 95;
const PRICE_ZERO: usize = 96;
const HEADER_ALONE: usize = 97;
const MOST_AT_ONCE: usize = 98;
const PRICE_SIXTEEN_BITS: usize = 99;
const DEAR: usize = 100;
const MOST_PLANNED_LINES: usize = 101;
const HEADROOM_QUOTED_BUFFER: usize = 102;
const QUOTED_BUFFER: usize = 103;
const NO_ROOM: usize = 104;
const ALL_CONVERSIONS: usize = 105;
/// The rows of live ciphertexts.
const LACKING: usize = 106;
const ANSWER: usize = 107;
const ANSWERED_NO: usize = 108;
const ENTRY: usize = 109;
const NEVER_NAMED: usize = 110;
const OF_VALUE: usize = 111;
const OF_OTHER: usize = 112;
const LAST_VALUE: usize = 113;
const LAST_LINE: usize = 114;
const VALUE_SIXTEEN_BITS: usize = 115;
const LINE_SIXTEEN_BITS: usize = 116;
const VALUE_WRAP: usize = 117;
const LINE_WRAP: usize = 118;
const LACKING_ALONE: usize = 119;
const LACKING_MOST: usize = 120;
const LACKING_OF_HEADER: usize = 121;
const FILE_FIRST: usize = 122;
const FILE_BEFORE_ROOM: usize = 123;
const KEPT_READ: usize = 124;
const COUNT_BYTE: usize = 125;
const MOST_LIVE: usize = 126;
const ENTRY_BYTE: usize = 127;
const ENTRY_TEN_BITS: usize = 128;
const ENTRY_END: usize = 129;
const NAMED: usize = 130;
const NAMED_ALONE: usize = 131;
const UNNAMED: usize = 132;

/// The most lines, with the header, of the plans that are known, and a price that only the dearest of them reach.
const KNOWN_LINES: u32 = 1273;
const DEAR_PRICE: u32 = 4_000_000;

/// The longest circuit and the longest schedule that can be read: a header with an H, and every line a `const` of ten digits.
const CIRCUIT_BYTES: usize = 20 + 17 * CIRCUIT_LINES;
const SCHEDULE_BYTES: usize = 21 + 17 * SCHEDULE_LINES;

/// The two sides of a limit.
const TAKEN: usize = 0;
const REFUSED: usize = 1;

#[derive(Clone)]
pub struct Coverage {
    counts: [[[u64; 2]; PLACES.len()]; ROWS.len()],
    /// How often each number was replied.
    pub numbers: [u64; 15],
    /// The last text that was written with room to spare: service, input and length.
    written: Option<(Service, Vec<u8>, usize)>,
    /// The last circuit that was quoted.
    quoted: Option<(Vec<u8>, QuoteReply)>,
}

impl Default for Coverage {
    fn default() -> Coverage {
        Coverage { counts: [[[0; 2]; PLACES.len()]; ROWS.len()], numbers: [0; 15], written: None, quoted: None }
    }
}

/// Whether a number is one that reading refuses with.
fn is_reading(number: u32) -> bool {
    matches!(number, 1..=5 | 11)
}

/// Whether the caller's number is refused, after the whole file was read.
fn is_lacking(reply: Reply) -> bool {
    reply.number == 4 && reply.place == 0
}

fn line_at(text: &[u8], place: u32) -> &[u8] {
    text.split(|&byte| byte == b'\n').nth(place as usize - 1).unwrap_or_default()
}

fn is_digits(field: &[u8], length: usize) -> bool {
    field.len() == length && field[0] != b'0' && field.iter().all(u8::is_ascii_digit)
}

/// The row of a limit that a field keeps to, where it is the last number taken (`past` 0) or the first that is not (`past` 1).
fn limit_of(line: &[u8], past: usize) -> Option<usize> {
    let ends = |numbers: [&str; 2]| line.ends_with(numbers[past].as_bytes());
    let row = match line.get(..2)? {
        b"co" if ends(["\t4294967295", "\t4294967296"]) => CONSTANT,
        b"ro" if ends(["\t32767", "\t32768"]) => ROTATION,
        b"ro" if ends(["\t-32767", "\t-32768"]) => ROTATION_BACK,
        b"us" if ends(["\t3600", "\t3601"]) => UPSCALE,
        b"en" if ends(["\t3600\t1", "\t3601\t1"]) => ENCODED,
        b"rs" if ends(["\t60", "\t61"]) => RESCALES,
        b"ms" if ends(["\t60", "\t61"]) => MODSWITCHES,
        _ => return None,
    };
    Some(row)
}

fn number_of(field: &[u8]) -> Option<u64> {
    std::str::from_utf8(field).ok().filter(|field| field.len() <= 11).and_then(|field| field.parse().ok())
}

/// The power of two, by its place, past which a number is legal that is itself too large.
fn power_past(field: &[u8], legal: RangeInclusive<u64>) -> Option<usize> {
    let number = number_of(field.strip_prefix(b"-").unwrap_or(field))?;
    POWERS.iter().position(|&power| number.checked_sub(power as u64).is_some_and(|left| legal.contains(&left)))
}

/// The rows of a line refused with 11 for a number that is legal modulo a power of two, and the power.
fn wraps_of(line: &[u8], levels: RangeInclusive<u64>) -> Vec<(usize, usize)> {
    let fields: Vec<&[u8]> = line.split(|&byte| byte == b'\t').collect();
    let of = |row, place: usize, legal| fields.get(place).and_then(|field| power_past(field, legal)).map(|power| (row, power));
    let wraps = match fields[0] {
        b"rot" => [of(ROTATION_WRAP, 2, 0..=32_767), None],
        b"us" => [of(UPSCALE_WRAP, 2, 1..=3600), None],
        b"rs" => [of(RESCALES_WRAP, 2, 1..=60), None],
        b"ms" => [of(MODSWITCHES_WRAP, 2, 1..=60), None],
        b"enc" => [of(ENCODED_WRAP, 2, 1..=3600), of(LEVEL_WRAP, 3, levels)],
        _ => [None; 2],
    };
    wraps.into_iter().flatten().collect()
}

/// The half of the bits, 0 the lower, in which a circuit's constant number and the schedule's for it differ; none where both halves do.
fn half_that_differs(circuit: &[u8], schedule: &[u8], place: u32) -> Option<usize> {
    let mut kept = schedule.split(|&byte| byte == b'\n').skip(1).filter(|line| !is_struck(line));
    let [one, other] =
        [line_at(circuit, place), kept.nth(place as usize - 2)?].map(|line| line.strip_prefix(b"const\t").and_then(number_of));
    match one? ^ other? {
        low if low >> 16 == 0 => Some(0),
        high if high & 0xffff == 0 => Some(1),
        _ => None,
    }
}

fn is_struck(line: &[u8]) -> bool {
    matches!(line.get(..2), Some(b"ms" | b"us" | b"rs" | b"en" | b"ds"))
}

/// The numbers of a header, as they are written.
fn header_fields(text: &[u8]) -> Vec<&[u8]> {
    line_at(text, 1).split(|&byte| byte == b'\t').skip(1).collect()
}

/// The top level in a header.
fn top_level_of(text: &[u8]) -> u64 {
    header_fields(text).get(2).copied().and_then(number_of).unwrap_or(0)
}

/// Whether the header of a file that was read has an H.
fn has_headroom(text: &[u8]) -> bool {
    header_fields(text).len() == 4
}

fn is_header_number(field: &&[u8]) -> bool {
    matches!(field, [b'1'..=b'9', ..]) && number_of(field).is_some_and(|number| number <= 60)
}

/// The row and side of a header that is refused with this number for its fourth field, or for a fifth; the first three are legal.
fn headroom_fault(text: &[u8], header_word: &[u8], number: u32) -> Option<(usize, usize)> {
    let fields = header_fields(text);
    let is_whole = text.contains(&b'\n') && line_at(text, 1).split(|&byte| byte == b'\t').next() == Some(header_word);
    if !is_whole || !fields.get(..3)?.iter().all(is_header_number) {
        return None;
    }
    let is_number = |digits: &[u8]| !digits.is_empty() && digits.iter().all(u8::is_ascii_digit);
    match (number, &fields[3..]) {
        (1, [b""]) => Some((HEADROOM_FORM, 0)),
        (1, [headroom, _]) if is_header_number(headroom) => Some((HEADROOM_FORM, 1)),
        (1, [[b'0', digits @ ..]]) if is_number(digits) => Some((HEADROOM_SIGN, 0)),
        (1, [[b'-', digits @ ..]]) if is_number(digits) => Some((HEADROOM_SIGN, 1)),
        (1, [headroom]) if is_digits(headroom, 12) => Some((HEADROOM_DIGITS, REFUSED)),
        (2, [headroom]) if is_digits(headroom, 11) => Some((HEADROOM_DIGITS, TAKEN)),
        (2, [headroom]) => power_past(headroom, 1..=60).map(|power| (HEADROOM_WRAP, power)),
        _ => None,
    }
}

/// The row and side of two headers that differ in H alone.
fn headroom_that_differs(circuit: &[u8], schedule: &[u8]) -> Option<(usize, usize)> {
    let [one, other] = [circuit, schedule].map(header_fields);
    if one.get(..3) != other.get(..3) {
        return None;
    }
    match [one.len(), other.len()] {
        [4, 3] => Some((HEADROOM_ALONE, 0)),
        [3, 4] => Some((HEADROOM_ALONE, 1)),
        [4, 4] => Some((HEADROOM_DIFFERS, TAKEN)),
        _ => None,
    }
}

/// The level in an `enc` line whose scale is inside its range.
fn level_of(line: &[u8]) -> Option<u64> {
    let mut fields = line.strip_prefix(b"enc\t")?.split(|&byte| byte == b'\t').skip(1);
    let scale = fields.next().and_then(number_of)?;
    fields.next().and_then(number_of).filter(|_| (1..=3600).contains(&scale))
}

/// The rows and sides of a level that was read, or refused, at the ends of its range.
fn level_limit(place: Place, level: u64, top_level: u64, is_taken: bool) -> Vec<(usize, usize)> {
    let (row, ends) = match (place, is_taken) {
        (Place::FromRising, true) => (RISING_LEVEL_ENDS, vec![0, top_level - 1]),
        (Place::FromRising, false) => (RISING_LEVEL_PAST, vec![top_level]),
        (_, true) => (LEVEL_ENDS, vec![1, top_level]),
        (_, false) => (LEVEL_PAST, vec![0, top_level + 1]),
    };
    (0..ends.len()).filter(|&side| ends[side] == level).map(|side| (row, side)).collect()
}

/// Whether a listing was read whole, and 3 is for what it becomes.
fn is_after_conversion(place: Place, text: &[u8], reply: Reply) -> bool {
    place == Place::FromRising && reply.number == 3 && file_of(text, Reading::Listing).is_ok()
}

impl Coverage {
    pub fn add(&mut self, other: &Coverage) {
        self.numbers.iter_mut().zip(other.numbers).for_each(|(sum, count)| *sum += count);
        for (row, theirs) in self.counts.iter_mut().zip(&other.counts) {
            for (place, theirs) in row.iter_mut().zip(theirs) {
                place.iter_mut().zip(theirs).for_each(|(sum, count)| *sum += count);
            }
        }
    }

    fn count(&mut self, row: usize, side: usize, place: Place) {
        self.counts[row][place as usize][side] += 1;
    }

    /// Counts a call with its answer and the bytes that it wrote.
    pub fn count_call(&mut self, call: &Call, answer: impl Into<Answer>, written: &[u8]) {
        match answer.into() {
            Answer::Reply(reply) => self.count_reply(call, reply, written),
            Answer::Quote(quote) => {
                self.count_reply(call, quote.of_planning(), written);
                self.count_quote(call.first, quote);
            }
        }
    }

    fn count_reply(&mut self, call: &Call, reply: Reply, written: &[u8]) {
        self.numbers[reply.number as usize] += 1;
        let place = Place::of(call.service);
        self.count_file(place, 1, call.first, reply);
        if WRITING.contains(&place) {
            self.count_written(place, call, reply, written);
        }
        match place {
            Place::Plan => {
                self.count_room_of_quote(call, reply);
                if reply.number == 0 {
                    self.count_conversions(Place::Plan, written);
                }
            }
            Place::FromRising => {
                if let Ok(listing) = file_of(call.first, Reading::Listing) {
                    self.count_listing(&listing, reply);
                }
            }
            Place::CheckCircuit => self.count_check(call, reply),
            Place::MayDrop | Place::LiveAfter | Place::LivePeak | Place::Live => {
                let mut found = [[false; 2]; ROWS.len()];
                live::limits(call, reply).into_iter().for_each(|(row, side)| found[row][side] = true);
                self.count_found(&found, place);
            }
            _ => {}
        }
    }

    /// The second file of a check.
    fn count_check(&mut self, call: &Call, reply: Reply) {
        if !is_reading(reply.number) || reply.file == 2 {
            self.count_file(Place::CheckSchedule, 2, call.second, reply);
        }
        if reply.number == 12 {
            self.count_another(call.first, call.second, reply.place);
        }
    }

    /// A quote: the lines that its price is made of, and numbers at their ends.
    fn count_quote(&mut self, circuit: &[u8], quote: QuoteReply) {
        self.quoted = Some((circuit.to_vec(), quote));
        let planned = file_of(circuit, Reading::Circuit).and_then(|circuit| plan::plan_of(&circuit));
        let Ok(schedule) = planned else { return };
        let mut found = [[false; 2]; ROWS.len()];
        price_limits(&schedule, quote).into_iter().for_each(|(row, side)| found[row][side] = true);
        self.count_found(&found, Place::Quote);
    }

    /// A plan of the circuit quoted last: a buffer of the quoted bytes, one byte less, and none for a circuit that is refused.
    fn count_room_of_quote(&mut self, call: &Call, reply: Reply) {
        let Some((_, quote)) = self.quoted.as_ref().filter(|(circuit, _)| circuit == call.first) else { return };
        let bytes = quote.bytes as usize;
        let row = if has_headroom(call.first) { HEADROOM_QUOTED_BUFFER } else { QUOTED_BUFFER };
        let limits = met_limits(&[
            (reply.number == 0 && call.room == bytes, (row, TAKEN)),
            (reply.number == 13 && call.room + 1 == bytes, (row, REFUSED)),
            (reply.number == 6 && call.room == 0, (NO_ROOM, 0)),
            (is_reading(reply.number) && call.room == 0, (NO_ROOM, 1)),
        ]);
        limits.into_iter().for_each(|(row, side)| self.count(row, side, Place::Quote));
    }

    /// A schedule of another circuit: in what the two differ at this place.
    fn count_another(&mut self, circuit: &[u8], schedule: &[u8], place: u32) {
        let found = match place {
            1 => headroom_that_differs(circuit, schedule),
            _ => half_that_differs(circuit, schedule, place).map(|side| (ANOTHER_CONSTANT, side)),
        };
        found.into_iter().for_each(|(row, side)| self.count(row, side, Place::CheckCircuit));
    }

    /// Counts a file that was read, or refused while it was read.
    fn count_file(&mut self, place: Place, file: u32, text: &[u8], reply: Reply) {
        if reply.number == 0 || reply.number == 13 || reply.file == file {
            self.count(reply.number as usize, TAKEN, place);
        }
        let is_read = !is_reading(reply.number) || reply.file > file || is_lacking(reply);
        if is_read || is_after_conversion(place, text, reply) {
            self.count_taken(place, text);
            if has_headroom(text) && reply.number == 0 {
                self.count(HEADROOM, TAKEN, place);
            }
            self.count_room(place, text, reply);
        } else {
            self.count_refused(place, text, reply);
        }
        if reply.number == 0 && LONG.contains(&place) {
            self.count_conversions(place, text);
        }
    }

    fn count_conversions(&mut self, place: Place, schedule: &[u8]) {
        let mut found = [false; 5];
        for line in schedule.split(|&byte| byte == b'\n') {
            match line.get(..2) {
                Some(b"ms") => found[0] = true,
                Some(b"us") => found[1] = true,
                Some(b"rs") => found[2] = true,
                Some(b"en") => found[3] = true,
                Some(b"ds") => found[4] = true,
                _ => {}
            }
        }
        for (found, row) in found.into_iter().zip([MS, US, RS, ENC, DOWNSCALE]) {
            if found {
                self.count(row, TAKEN, place);
            }
        }
    }

    /// A file that was read whole: which of its numbers and lines are the last that are taken.
    fn count_taken(&mut self, place: Place, text: &[u8]) {
        let mut found = [[false; 2]; ROWS.len()];
        let mut lines = text.split(|&byte| byte == b'\n');
        let header = lines.next().unwrap_or_default().split(|&byte| byte == b'\t').skip(1);
        for (number, field) in header.enumerate() {
            found[HEADER_LOW + number][TAKEN] = field == b"1";
            found[HEADER_HIGH + number][TAKEN] = field == b"60";
        }
        let (mut count, mut kept, top_level) = (0, 0, top_level_of(text));
        for line in lines.filter(|line| !line.is_empty()) {
            let levels = level_of(line).map(|level| level_limit(place, level, top_level, true));
            levels.into_iter().flatten().for_each(|(row, side)| found[row][side] = true);
            count += 1;
            kept += usize::from(!is_struck(line));
            if let Some(row) = limit_of(line, TAKEN) {
                found[row][TAKEN] = true;
            }
            // Once the last that was taken and the first that was not: both are taken.
            found[SIXTEEN_BITS][0] |= line == b"const\t65535";
            found[SIXTEEN_BITS][1] |= line == b"const\t65536";
        }
        found[CIRCUIT_LIMIT][TAKEN] = count == CIRCUIT_LINES && CIRCUITS.contains(&place);
        found[SCHEDULE_LIMIT][TAKEN] = count == SCHEDULE_LINES;
        found[KEPT_LIMIT][TAKEN] = kept == KEPT_LINES && KEEPING.contains(&place);
        found[KEPT_READ] = [KEPT_LINES, KEPT_LINES + 1].map(|lines| kept == lines && KEEPING_ALL.contains(&place));
        found[CIRCUIT_LENGTH][TAKEN] = text.len() == CIRCUIT_BYTES && CIRCUITS.contains(&place);
        found[SCHEDULE_LENGTH][TAKEN] = text.len() == SCHEDULE_BYTES;
        self.count_found(&found, place);
    }

    /// A file that was refused while it was read: which limit the refused line passes.
    fn count_refused(&mut self, place: Place, text: &[u8], reply: Reply) {
        let line = line_at(text, reply.place);
        let fields: Vec<&[u8]> = line.split(|&byte| byte == b'\t').skip(1).collect();
        if text.len() == CIRCUIT_BYTES + 1 && CIRCUITS.contains(&place) {
            self.count(CIRCUIT_LENGTH, REFUSED, place);
        }
        if text.len() == SCHEDULE_BYTES + 1 {
            self.count(SCHEDULE_LENGTH, REFUSED, place);
        }
        self.count_wraps(place, text, reply);
        if reply.place == 1 {
            let fault = headroom_fault(text, place.header_word(), reply.number);
            fault.into_iter().for_each(|(row, side)| self.count(row, side, place));
        }
        match reply.number {
            1 if fields.iter().any(|field| is_digits(field, 12)) => self.count(DIGITS, REFUSED, place),
            2 | 4 | 11 if fields.iter().any(|field| is_digits(field, 11)) => self.count(DIGITS, TAKEN, place),
            2 => self.count_header(place, &fields),
            3 if reply.place as usize == CIRCUIT_LINES + 2 && CIRCUITS.contains(&place) => {
                self.count(CIRCUIT_LIMIT, REFUSED, place)
            }
            3 if reply.place as usize == SCHEDULE_LINES + 2 => self.count(SCHEDULE_LIMIT, REFUSED, place),
            3 => self.count(KEPT_LIMIT, REFUSED, place),
            11 => {
                limit_of(line, REFUSED).into_iter().for_each(|row| self.count(row, REFUSED, place));
                let levels = level_of(line).map(|level| level_limit(place, level, top_level_of(text), false));
                levels.into_iter().flatten().for_each(|(row, side)| self.count(row, side, place));
            }
            _ => {}
        }
    }

    /// A line refused for a number that is legal modulo a power of two.
    fn count_wraps(&mut self, place: Place, text: &[u8], reply: Reply) {
        let line = line_at(text, reply.place);
        let fields = || line.split(|&byte| byte == b'\t').skip(1);
        let levels = || match place {
            Place::FromRising => 0..=top_level_of(text).saturating_sub(1),
            _ => 1..=top_level_of(text),
        };
        let wraps = match reply.number {
            // H has a row of its own.
            2 => fields().take(3).filter_map(|field| power_past(field, 1..=60)).map(|power| (HEADER_WRAP, power)).collect(),
            4 if reply.place > 2 => {
                let last = u64::from(reply.place) - 3;
                let row = if line.starts_with(b"ds") { DOWNSCALE_WRAP } else { OPERAND_WRAP };
                fields().take(2).filter_map(|field| power_past(field, 0..=last)).map(|power| (row, power)).collect()
            }
            11 => wraps_of(line, levels()),
            _ => Vec::new(),
        };
        wraps.into_iter().for_each(|(row, power)| self.count(row, power, place));
    }

    /// A file that was read whole: how near its scales or its best reserves come to their bounds.
    fn count_room(&mut self, place: Place, text: &[u8], reply: Reply) {
        let limits = match place {
            Place::Plan | Place::Quote => file_of(text, Reading::Circuit).map(|circuit| plan_limits(&circuit, reply)),
            Place::LeastLevel => file_of(text, Reading::Circuit).map(|circuit| least_level_limits(&circuit, reply)),
            Place::CheckSchedule if reply.number == 12 => return,
            Place::CheckSchedule | Place::ToRising => {
                file_of(text, Reading::Schedule).map(|schedule| scale_limits(&schedule, &check::standings(&schedule).0, reply))
            }
            Place::FromRising => {
                file_of(text, Reading::Listing).map(|listing| scale_limits(&listing, &rising::standings(&listing), reply))
            }
            _ => return,
        };
        let mut found = [[false; 2]; ROWS.len()];
        limits.into_iter().flatten().for_each(|(row, side): (usize, usize)| found[row][side] = true);
        self.count_found(&found, place);
    }

    /// A listing that was read whole: how near its downscales come to their bounds, and its conversion to the limit on lines.
    fn count_listing(&mut self, listing: &File, reply: Reply) {
        let mut held = [Standing::default(); SCHEDULE_LINES];
        // All but what follows a broken rule, which is at the refused line then.
        let _ = rising::keep_rules(listing, &mut held);
        let is_ruled = matches!(reply.number, 7..=10 | 14);
        let refused = if is_ruled { reply.place as usize - 2 } else { listing.lines().len() };
        let mut found = [[false; 2]; ROWS.len()];
        let mut converted = 0;
        for (n, &line) in listing.lines().iter().enumerate().take(refused + 1) {
            let mut needed = 1;
            if let Line::Downscale { a } = line {
                needed = 2;
                let number = if n == refused { reply.number } else { 0 };
                let limits = downscale_limits(&listing.header, held[usize::from(a)], number);
                limits.into_iter().for_each(|(row, side)| found[row][side] = true);
            }
            if reply.number == 3 && n + 2 == reply.place as usize {
                found[CONVERTED][REFUSED] = converted + needed == SCHEDULE_LINES + 1;
                found[CONVERTED_PART] = [1, 0].map(|left| needed == 2 && converted + left == SCHEDULE_LINES);
            }
            found[RULE_FIRST][TAKEN] |= n == refused && converted > SCHEDULE_LINES;
            converted += needed;
        }
        found[CONVERTED][TAKEN] = matches!(reply.number, 0 | 13) && converted == SCHEDULE_LINES;
        self.count_found(&found, Place::FromRising);
    }

    fn count_found(&mut self, found: &[[bool; 2]; ROWS.len()], place: Place) {
        for (row, sides) in found.iter().enumerate() {
            (0..2).filter(|&side| sides[side]).for_each(|side| self.count(row, side, place));
        }
    }

    /// A header refused with 2: one number that is just outside, the others inside.
    fn count_header(&mut self, place: Place, fields: &[&[u8]]) {
        let outside = |field: &&&[u8]| field.len() > 2 || **field == b"0" || field.len() == 2 && **field > b"60".as_slice();
        if fields.iter().filter(outside).count() != 1 {
            return;
        }
        for (number, field) in fields.iter().enumerate() {
            match *field {
                b"0" => self.count(HEADER_LOW + number, REFUSED, place),
                b"61" => self.count(HEADER_HIGH + number, REFUSED, place),
                _ => {}
            }
        }
    }

    /// A buffer of exactly the length, and one byte less.
    fn count_written(&mut self, place: Place, call: &Call, reply: Reply, written: &[u8]) {
        if reply.number == 0 && call.room > written.len() {
            self.written = Some((call.service, call.first.to_vec(), written.len()));
        }
        let row = if has_headroom(call.first) { HEADROOM_BUFFER } else { BUFFER };
        if reply.number == 0 && call.room == written.len() {
            self.count(row, TAKEN, place);
        }
        let one_short = |(service, input, length): &(Service, Vec<u8>, usize)| {
            *service == call.service && *length == call.room + 1 && input == call.first
        };
        if reply.number == 13 && self.written.as_ref().is_some_and(one_short) {
            self.count(row, REFUSED, place);
        }
    }

    /// Whether a limit was met, on either side.
    pub fn is_at_limit(&self) -> bool {
        let is_met = |counts: &[[u64; 2]; PLACES.len()]| counts.iter().flatten().any(|&count| count > 0);
        ROWS.iter().zip(&self.counts).any(|(row, counts)| row.class == Class::Limit && is_met(counts))
    }

    /// Prints the counts, and says whether each is at least what is asked.
    pub fn print(&self, asked: &Asked) -> bool {
        let places = if asked.only_plan { &PLACES[..1] } else { &PLACES };
        let heads: Vec<String> = places.iter().map(|(_, name)| format!("{name:>17}")).collect();
        println!("{:<34}{}", "what was tried", heads.concat());
        let mut enough = true;
        for (row, counts) in ROWS.iter().zip(&self.counts) {
            let least = match row.class {
                Class::Reply => asked.replies,
                Class::Conversion => asked.conversions,
                Class::Limit => asked.limits,
                Class::Buffer => asked.buffers,
                Class::Price => asked.prices,
                Class::Live => asked.live,
            };
            if least == 0 || !places.iter().any(|(place, _)| row.places.contains(place)) {
                continue;
            }
            let cells = places.iter().map(|&(place, _)| match row.places.contains(&place) {
                true => {
                    let sides = &counts[place as usize][..row.sides];
                    let is_enough = sides.iter().all(|&count| count >= least);
                    enough &= is_enough;
                    let cell = sides.iter().map(u64::to_string).collect::<Vec<String>>().join(" | ");
                    format!("{cell}{}", if is_enough { "" } else { " !" })
                }
                false => "-".to_string(),
            });
            let cells: Vec<String> = cells.map(|cell| format!("{cell:>17}")).collect();
            println!("{:<34}{}", row.name, cells.concat());
        }
        enough
    }
}

/// A row with a side, and whether it is met.
type Limit = (bool, (usize, usize));

fn met_limits(limits: &[Limit]) -> Vec<(usize, usize)> {
    limits.iter().filter(|(is_met, _)| *is_met).map(|&(_, limit)| limit).collect()
}

/// The rows and sides of a downscale of an operand that stands here, which was taken (0) or refused with this number.
fn downscale_limits(header: &Header, operand: Standing, number: u32) -> Vec<(usize, usize)> {
    let raised = header.waterline + header.factor;
    let levels_left = header.top_level - operand.level;
    let modulus = header.factor * levels_left;
    let filled = raised + header.headroom_bits();
    let row = if header.headroom.is_some() { HEADROOM_OF_DOWNSCALE } else { DOWNSCALE_MODULUS };
    met_limits(&[
        (number == 0 && operand.scale == raised - 1, (DOWNSCALE_SCALE, TAKEN)),
        (number == 14 && operand.scale == raised, (DOWNSCALE_SCALE, REFUSED)),
        (number == 0 && filled == modulus, (row, TAKEN)),
        (number == 9 && filled == modulus + 1, (row, REFUSED)),
        (number == 9 && raised <= modulus, (HEADROOM_MODULUS, TAKEN)),
        (number == 9 && levels_left == 1, (DOWNSCALE_LAST_LEVEL, TAKEN)),
    ])
}

/// The row of a scale at its bound in this line; none where the line only has its operand's, and for `ds`, which has rows of its own.
fn row_of_scale(header: &Header, line: Line) -> Option<usize> {
    let row = match line {
        Line::In => HEADROOM_OF_IN,
        Line::Enc { .. } => HEADROOM_OF_ENC,
        Line::Upscale { .. } => HEADROOM_OF_US,
        Line::Mul { .. } => HEADROOM_OF_MUL,
        Line::Modswitch { .. } => HEADROOM_OF_MS,
        _ => return None,
    };
    Some(if header.headroom.is_some() { row } else { MODULUS })
}

/// The rows and sides of the lines of a schedule or listing, from where they stand.
fn scale_limits(file: &File, held: &[Option<Standing>], reply: Reply) -> Vec<(usize, usize)> {
    let (header, headroom) = (&file.header, file.header.headroom_bits());
    let limits = file.lines().iter().zip(held).enumerate().flat_map(|(n, (&line, &standing))| {
        let number = if n + 2 == reply.place as usize { reply.number } else { 0 };
        let met = |(row, Standing { scale, level })| {
            let reserve = header.factor * level - scale;
            met_limits(&[
                (number == 0 && reserve == headroom, (row, TAKEN)),
                (number == 9 && reserve == headroom - 1, (row, REFUSED)),
                (number == 9 && reserve >= 0, (HEADROOM_MODULUS, TAKEN)),
            ])
        };
        row_of_scale(header, line).zip(standing).map_or(Vec::new(), met)
    });
    limits.collect()
}

/// The row of a best reserve at its bound in this line; none where the line only has an operand's.
fn row_of_reserve(header: &Header, lines: &[Line], line: Line) -> Option<usize> {
    let is_constant = |n: u16| lines[usize::from(n)].kind() == ValueKind::Constant;
    let row = match line {
        Line::In => HEADROOM_OF_RESERVE,
        Line::Mul { a, b } if is_constant(a) || is_constant(b) => HEADROOM_BY_CONSTANT,
        Line::Mul { .. } => HEADROOM_OF_PRODUCT,
        _ => return None,
    };
    Some(if header.headroom.is_some() { row } else { RESERVE })
}

/// The rows and sides of best reserves that are just enough, in a circuit in which all are, or that are one bit too small.
fn reserve_limits(header: &Header, lines: &[Line], is_short: bool) -> Vec<(usize, usize)> {
    let headroom = header.headroom_bits();
    let (bound, side) = if is_short { (headroom - 1, REFUSED) } else { (headroom, TAKEN) };
    let reserves = plan::best_reserves(header, lines);
    let at_bound = reserves.into_iter().zip(lines).filter(|&(reserve, _)| reserve == Some(bound));
    at_bound.filter_map(|(_, &line)| row_of_reserve(header, lines, line)).map(|row| (row, side)).collect()
}

/// The circuit without an H.
fn without_headroom(circuit: &File) -> File {
    let mut without = circuit.clone();
    without.header.headroom = None;
    without
}

/// The rows and sides of a circuit that was planned.
fn plan_limits(circuit: &File, reply: Reply) -> Vec<(usize, usize)> {
    let is_short = reply.number == 6;
    let mut limits = reserve_limits(&circuit.header, circuit.lines(), is_short);
    if is_short && plan::plan_of(&without_headroom(circuit)).is_ok() {
        limits.push((HEADROOM_TOO_FEW, TAKEN));
    }
    limits
}

/// The same for the least level: at that level and the one below, or at L = 60 where none fits.
fn least_level_limits(circuit: &File, reply: Reply) -> Vec<(usize, usize)> {
    let is_short = reply.number == 6;
    let least = if is_short { 60 } else { reply.length as i32 };
    let at_level = |top_level, is_short| {
        let header = Header { top_level, ..circuit.header };
        reserve_limits(&header, circuit.lines(), is_short)
    };
    let without = plan::least_level(&without_headroom(circuit));
    let mut limits = at_level(least, is_short);
    if !is_short && least > 1 {
        limits.extend(at_level(least - 1, true));
    }
    limits.extend(met_limits(&[
        (is_short && without.is_ok(), (HEADROOM_TOO_FEW, TAKEN)),
        (!is_short && without != Ok(least as u32), (HEADROOM_LEAST_LEVEL, TAKEN)),
    ]));
    limits
}

/// The row and side of a line's price; none where it has none.
fn row_of_price(lines: &[Line], line: Line) -> Option<(usize, usize)> {
    let is_encoded = |n: u16| lines[usize::from(n)].kind() == ValueKind::Encoded;
    let of_pair = |a: u16, b: u16, of_two, of_constant| match [is_encoded(a), is_encoded(b)] {
        [true, _] => (of_constant, 0),
        [_, true] => (of_constant, 1),
        _ => (of_two, TAKEN),
    };
    Some(match line {
        Line::Mul { a, b } => of_pair(a, b, PRICE_OF_MUL, PRICE_OF_MUL_BY_CONSTANT),
        Line::Add { a, b } => of_pair(a, b, PRICE_OF_ADD, PRICE_OF_ADD_OF_CONSTANT),
        Line::Rot { .. } => (PRICE_OF_ROT, TAKEN),
        Line::Neg { .. } => (PRICE_OF_NEG, TAKEN),
        Line::Enc { .. } => (PRICE_OF_ENC, TAKEN),
        Line::Upscale { .. } => (PRICE_OF_US, TAKEN),
        Line::Rescale { count, .. } => (PRICE_OF_RS, usize::from(count > 1)),
        Line::Modswitch { count, .. } => (PRICE_OF_MS, usize::from(count > 1)),
        _ => return None,
    })
}

/// The level that a line with a price is priced at, of several rescales or modswitches the first.
fn level_of_price(line: Line, held: &[Option<Standing>]) -> Option<i32> {
    match line {
        Line::Enc { level, .. } => Some(i32::from(level)),
        _ => line.operands()[0].and_then(|a| held[usize::from(a)]).map(|standing| standing.level),
    }
}

/// Whether the line is the last of a modswitch, an upscale and a rescale of one operand.
fn ends_all_conversions(lines: &[Line], line: Line) -> bool {
    let made_from = |line: Line| line.struck_from().map(|a| lines[usize::from(a)]);
    let Line::Rescale { .. } = line else { return false };
    let upscale = made_from(line).filter(|line| matches!(line, Line::Upscale { .. }));
    upscale.and_then(made_from).is_some_and(|line| matches!(line, Line::Modswitch { .. }))
}

/// The rows and sides of a planned schedule and its quote.
fn price_limits(schedule: &File, quote: QuoteReply) -> Vec<(usize, usize)> {
    let (lines, held) = (schedule.lines(), check::standings(schedule).0);
    let mut limits = met_limits(&[
        (quote.price == 0, (PRICE_ZERO, TAKEN)),
        (quote.price == 65_535, (PRICE_SIXTEEN_BITS, 0)),
        (quote.price == 65_536, (PRICE_SIXTEEN_BITS, 1)),
        (quote.price >= DEAR_PRICE, (DEAR, TAKEN)),
        (quote.lines == KNOWN_LINES, (MOST_PLANNED_LINES, TAKEN)),
        (quote.lines == 1, (HEADER_ALONE, usize::from(schedule.header.headroom.is_some()))),
    ]);
    for &line in lines {
        let Some(row) = row_of_price(lines, line) else { continue };
        let level = level_of_price(line, &held);
        limits.push(row);
        limits.extend(met_limits(&[
            (level == Some(1), (PRICE_LEVELS, 0)),
            (level == Some(60), (PRICE_LEVELS, 1)),
            (matches!(line, Line::Rescale { count: 30, .. }), (MOST_AT_ONCE, 0)),
            (matches!(line, Line::Modswitch { count: 59, .. }), (MOST_AT_ONCE, 1)),
            (ends_all_conversions(lines, line), (ALL_CONVERSIONS, TAKEN)),
        ]));
    }
    limits
}

#[cfg(test)]
mod tests {
    use super::*;
    use crate::services;

    fn counted(circuits: &[(&str, usize)]) -> Coverage {
        let mut coverage = Coverage::default();
        for (shown, room) in circuits {
            let circuit = shown.replace('/', "\n").replace(' ', "\t").into_bytes();
            let mut out = vec![0; *room];
            let reply = services::plan(&circuit, &mut out);
            let call = Call { service: Service::Plan, first: &circuit, second: &[], room: *room };
            coverage.count_call(&call, reply, &out[..reply.length as usize]);
        }
        coverage
    }

    /// The counts of planning in a row.
    fn row(coverage: &Coverage, row: usize) -> [u64; 2] {
        coverage.counts[row][Place::Plan as usize]
    }

    #[test]
    fn limits_are_counted_on_their_sides() {
        let constants = counted(&[("circuit 60 20 1/const 4294967295/", 99), ("circuit 60 20 1/const 4294967296/", 99)]);
        assert_eq!(row(&constants, CONSTANT), [1, 1]);
        assert_eq!([row(&constants, 0)[0], row(&constants, 11)[0]], [1, 1]);
        let headers = counted(&[("circuit 60 20 1/", 99), ("circuit 61 20 1/", 99), ("circuit 61 61 1/", 99)]);
        assert_eq!([row(&headers, HEADER_HIGH), row(&headers, HEADER_HIGH + 1)], [[1, 1], [0, 0]]);
        let headroom = ["1", "0", "60", "61", "5"].map(|number| format!("circuit 60 20 1 {number}/"));
        let headroom = counted(&headroom.each_ref().map(|header| (&header[..], 99)));
        assert_eq!([row(&headroom, HEADER_LOW + 3), row(&headroom, HEADER_HIGH + 3)], [[1, 1], [1, 1]]);
        assert_eq!([row(&headroom, HEADROOM), row(&headroom, HEADER_LOW + 2)], [[3, 0], [3, 0]]);
        let digits = counted(&[("circuit 60 20 1/in/neg 99999999999/", 99), ("circuit 60 20 1/in/neg 999999999999/", 99)]);
        assert_eq!(row(&digits, DIGITS), [1, 1]);
        let lines = ["in/".repeat(256), "in/".repeat(257)].map(|lines| format!("circuit 60 20 1/{lines}"));
        assert_eq!(row(&counted(&[(&lines[0], 9999), (&lines[1], 9999)]), CIRCUIT_LIMIT), [1, 1]);
    }

    #[test]
    fn numbers_past_a_power_are_counted_where_they_are_refused() {
        let constants = counted(&[("circuit 60 20 1/const 65535/const 65536/", 99), ("circuit 60 20 1/const 65536/", 99)]);
        assert_eq!([row(&constants, SIXTEEN_BITS), row(&constants, CONSTANT)], [[1, 2], [0, 0]]);
        let headers =
            counted(&[("circuit 65537 20 1/", 99), ("circuit 60 20 4294967356/", 99), ("circuit 60 20 4294967357/", 99)]);
        assert_eq!(row(&headers, HEADER_WRAP), [1, 1]);
        let lines = ["neg 65536/", "add 0 4294967296/", "neg 65537/", "rot 0 -65537/", "rot 0 4294967297/", "rot 0 98304/"];
        let lines = lines.map(|line| format!("circuit 60 20 1/in/{line}"));
        let lines = counted(&lines.each_ref().map(|line| (&line[..], 99)));
        assert_eq!([row(&lines, OPERAND_WRAP), row(&lines, ROTATION_WRAP)], [[1, 1], [1, 1]]);
        assert_eq!(wraps_of(b"enc\t0\t65537\t4294967298", 1..=2), [(ENCODED_WRAP, 0), (LEVEL_WRAP, 1)]);
        assert_eq!(wraps_of(b"enc\t0\t65536\t4294967299", 1..=2), []);
        assert_eq!(wraps_of(b"rs\t0\t4294967356", 1..=2), [(RESCALES_WRAP, 1)]);
    }

    /// The counts of from rising in a row, over these listings.
    fn listing_row(listings: &[&str], row: usize) -> [u64; 2] {
        let mut coverage = Coverage::default();
        for shown in listings {
            let listing = shown.replace('/', "\n").replace(' ', "\t").into_bytes();
            let mut out = vec![0; 32_768];
            let reply = services::from_rising(&listing, &mut out);
            let call = Call { service: Service::FromRising, first: &listing, second: &[], room: out.len() };
            coverage.count_call(&call, reply, &out[..reply.length as usize]);
        }
        coverage.counts[row][Place::FromRising as usize]
    }

    #[test]
    fn limits_of_a_downscale() {
        let scales = ["rising 60 20 2/in/us 0 59/ds 1/", "rising 60 20 2/in/us 0 60/ds 1/", "rising 60 20 2/in/us 0 61/ds 1/"];
        assert_eq!([listing_row(&scales, DOWNSCALE_SCALE), listing_row(&scales, 14)], [[1, 1], [2, 0]]);
        let moduli =
            ["rising 60 60 2/in/ds 0/", "rising 59 60 2/in/ds 0/", "rising 60 20 1/in/ds 0/", "rising 60 20 2/in/ds 0/"];
        assert_eq!(listing_row(&moduli, DOWNSCALE_MODULUS), [1, 1]);
        assert_eq!([listing_row(&moduli, DOWNSCALE_LAST_LEVEL), listing_row(&moduli, DOWNSCALE)], [[1, 0], [2, 0]]);
        let operands = ["rising 60 20 2/in/ds 65536/", "rising 60 20 2/in/ds 4294967296/", "rising 60 20 2/in/ds 65537/"];
        assert_eq!([listing_row(&operands, DOWNSCALE_WRAP), listing_row(&operands, OPERAND_WRAP)], [[1, 1], [0, 0]]);
        let levels = [0, 1, 2, 3].map(|level| format!("rising 60 20 2/const 5/enc 0 20 {level}/"));
        let levels = levels.each_ref().map(String::as_str);
        assert_eq!([listing_row(&levels, RISING_LEVEL_ENDS), listing_row(&levels, RISING_LEVEL_PAST)], [[1, 1], [1, 0]]);
    }

    /// The fourth field of a header, and a fifth; a header with another fault is not counted.
    #[test]
    fn faults_of_a_headroom() {
        let all = ["", "5 5", "05", "-5", "99999999999", "999999999999", "65596", "4294967297", "x", "61"];
        let headers = all.map(|field| format!("circuit 60 20 1 {field}/in/"));
        let headers = counted(&headers.each_ref().map(|header| (&header[..], 99)));
        for of in [HEADROOM_FORM, HEADROOM_SIGN, HEADROOM_DIGITS, HEADROOM_WRAP] {
            assert_eq!(row(&headers, of), [1, 1], "{}", ROWS[of].name);
        }
        let others = all.map(|field| format!("circuit 61 20 1 {field}/in/"));
        let others = counted(&others.each_ref().map(|header| (&header[..], 99)));
        let unclosed = counted(&[("circuit 60 20 1 ", 99), ("schedule 60 20 1 /", 99), ("circuit 60 20 1 5 5 5/", 99)]);
        for of in [HEADROOM_FORM, HEADROOM_SIGN, HEADROOM_DIGITS, HEADROOM_WRAP] {
            assert_eq!([row(&others, of), row(&unclosed, of)], [[0, 0]; 2], "{}", ROWS[of].name);
        }
    }

    /// x² at L = 1 has a best reserve of 20, with F = 59 and W = 30 one of −1, for which no H is needed. With F = 1 the least level goes from 1 to
    /// 60 and then there is none.
    #[test]
    fn limits_of_best_reserves() {
        let circuits = ["60 20 1 20/in/mul 0 0", "60 20 1 21/in/mul 0 0", "60 20 1 5/in/mul 0 0", "59 30 1 1/in/mul 0 0"];
        let circuits = circuits.map(|circuit| format!("circuit {circuit}/"));
        let planned = counted(&circuits.each_ref().map(|circuit| (&circuit[..], 99)));
        assert_eq!([row(&planned, HEADROOM_OF_PRODUCT), row(&planned, HEADROOM_TOO_FEW)], [[1, 1], [1, 0]]);
        let mut coverage = Coverage::default();
        for shown in circuits.into_iter().chain(["1 1 1 59", "1 1 1 60", "1 1 1"].map(|header| format!("circuit {header}/in/")))
        {
            let circuit = shown.replace('/', "\n").replace(' ', "\t").into_bytes();
            let call = Call { service: Service::LeastLevel, first: &circuit, second: &[], room: 0 };
            coverage.count_call(&call, services::least_level(&circuit), &[]);
        }
        let of = |row: usize| coverage.counts[row][Place::LeastLevel as usize];
        assert_eq!([of(HEADROOM_OF_RESERVE), of(HEADROOM_OF_PRODUCT), of(RESERVE)], [[1, 2], [1, 1], [1, 0]]);
        assert_eq!([of(HEADROOM_TOO_FEW), of(HEADROOM_LEAST_LEVEL)], [[1, 0], [2, 0]]);
        let constant = ["20", "21"].map(|headroom| format!("circuit 60 20 1 {headroom}/in/const 7/mul 1 0/"));
        let constant = counted(&constant.each_ref().map(|circuit| (&circuit[..], 99)));
        assert_eq!([row(&constant, HEADROOM_BY_CONSTANT), row(&constant, HEADROOM_OF_PRODUCT)], [[1, 1], [0, 0]]);
        let without = counted(&[("circuit 60 30 1/in/mul 0 0/", 99), ("circuit 59 30 1/in/mul 0 0/", 99)]);
        assert_eq!(row(&without, RESERVE), [1, 1]);
    }

    /// The counts of a check in a row, over pairs of a circuit's and a schedule's header and the schedule's lines.
    fn check_row(pairs: &[[&str; 3]], row: usize) -> [u64; 2] {
        let mut coverage = Coverage::default();
        for [one, other, lines] in pairs {
            let schedule = format!("schedule {other}/{lines}").replace('/', "\n").replace(' ', "\t").into_bytes();
            let mut erased = vec![0; 999];
            let length = services::erase(&schedule, &mut erased).length as usize;
            let kept = erased[..length].splitn(2, |&byte| byte == b'\n').nth(1).expect("a header and more");
            let circuit = [format!("circuit {one}\n").replace(' ', "\t").as_bytes(), kept].concat();
            let call = Call { service: Service::Check, first: &circuit, second: &schedule, room: 0 };
            coverage.count_call(&call, services::check(&circuit, &schedule), &[]);
        }
        coverage.counts[row].iter().fold([0; 2], |sum, sides| [sum[0] + sides[0], sum[1] + sides[1]])
    }

    #[test]
    fn limits_of_scales_beside_a_headroom() {
        let [forty, more] = ["60 20 1 40", "60 20 1 41"];
        let lines = [
            [forty, forty, "in/"],
            [more, more, "in/"],
            [forty, "60 20 1", "in/"],
            ["60 20 1", forty, "in/"],
            [forty, more, "in/"],
        ];
        assert_eq!(check_row(&lines, HEADROOM_OF_IN), [1, 1]);
        assert_eq!([check_row(&lines, HEADROOM_ALONE), check_row(&lines, HEADROOM_DIFFERS)], [[1, 1], [1, 0]]);
        let encoded = [[forty, forty, "const 5/enc 0 20 1/"], [more, more, "const 5/enc 0 20 1/"]];
        assert_eq!([check_row(&encoded, HEADROOM_OF_ENC), check_row(&encoded, HEADROOM_OF_IN)], [[1, 1], [0, 0]]);
        let two = "60 20 2 40";
        let raised =
            [[two, two, "in/us 0 60/"], [two, two, "in/us 0 61/"], [two, two, "in/us 0 59/"], [two, two, "in/us 0 101/"]];
        assert_eq!([check_row(&raised, HEADROOM_OF_US), check_row(&raised, HEADROOM_MODULUS)], [[1, 1], [1, 0]]);
        let levels = [[two, two, "in/ms 0 1/"], ["60 20 2 41", "60 20 2 41", "in/ms 0 1/"]];
        assert_eq!([check_row(&levels, HEADROOM_OF_MS), check_row(&levels, HEADROOM_OF_US)], [[1, 1], [0, 0]]);
        let products = [["60 20 1 20", "60 20 1 20", "in/mul 0 0/neg 1/"], ["60 20 1 21", "60 20 1 21", "in/mul 0 0/"]];
        assert_eq!(check_row(&products, HEADROOM_OF_MUL), [1, 1]);
        let without = [["60 20 1", "60 20 1", "in/us 0 40/"], ["60 20 1", "60 20 1", "in/us 0 41/"]];
        assert_eq!([check_row(&without, MODULUS), check_row(&without, HEADROOM_OF_US)], [[1, 1], [0, 0]]);
        let listings =
            ["40/in/ds 0/", "41/in/ds 0/", "40/in/us 0 61/", "40/in/us 0 60/"].map(|rest| format!("rising 60 20 2 {rest}"));
        let listings = listings.each_ref().map(String::as_str);
        assert_eq!(
            [listing_row(&listings, HEADROOM_OF_DOWNSCALE), listing_row(&listings, DOWNSCALE_MODULUS)],
            [[1, 1], [0, 0]]
        );
        assert_eq!([listing_row(&listings, HEADROOM_OF_US), listing_row(&listings, HEADROOM_MODULUS)], [[1, 1], [2, 0]]);
    }

    #[test]
    fn limits_of_a_conversion() {
        let listing = |inputs: usize, downscales: usize, last: &str| {
            format!("rising 60 20 2/{}{}{last}", "in/".repeat(inputs), "ds 0/".repeat(downscales))
        };
        let listings = [
            listing(100, 846, ""),
            listing(100, 847, ""),
            listing(101, 846, ""),
            listing(100, 846, "in/"),
            listing(100, 847, "us 0 101/"),
            listing(257, 0, ""),
            listing(1, 1792, ""),
        ];
        let listings = listings.each_ref().map(String::as_str);
        assert_eq!(listing_row(&listings, CONVERTED), [1, 2]);
        assert_eq!([listing_row(&listings, CONVERTED_PART), listing_row(&listings, RULE_FIRST)], [[1, 1], [1, 0]]);
        assert_eq!([listing_row(&listings, KEPT_LIMIT), listing_row(&listings, SCHEDULE_LIMIT)], [[0, 1], [0, 1]]);
    }

    #[test]
    fn constants_that_differ_in_one_half() {
        let half = |one: &str, other: &str| {
            let schedule = format!("schedule\t60\t20\t1\nin\nus\t0\t1\nconst\t{other}\n");
            half_that_differs(format!("circuit\t60\t20\t1\nin\nconst\t{one}\n").as_bytes(), schedule.as_bytes(), 3)
        };
        assert_eq!([half("7", "8"), half("7", "65543"), half("4294967295", "65535")], [Some(0), Some(1), Some(1)]);
        assert_eq!(half("7", "65544"), None);
    }

    #[test]
    fn a_buffer_one_short_is_known_by_the_length_before() {
        let circuit = "circuit 60 20 1/in/";
        let length = "schedule 60 20 1/in/".len();
        assert_eq!(row(&counted(&[(circuit, length - 1)]), BUFFER), [0, 0]);
        assert_eq!(row(&counted(&[(circuit, 99), (circuit, length), (circuit, length - 1)]), BUFFER), [1, 1]);
    }

    fn quote_call(circuit: &[u8]) -> Call<'_> {
        Call { service: Service::Quote, first: circuit, second: &[], room: 0 }
    }

    /// The counts of quoting in a row, over these circuits.
    fn quote_row(circuits: &[&str], row: usize) -> [u64; 2] {
        let mut coverage = Coverage::default();
        for shown in circuits {
            let circuit = shown.replace('/', "\n").replace(' ', "\t").into_bytes();
            coverage.count_call(&quote_call(&circuit), services::quote(&circuit), &[]);
        }
        coverage.counts[row][Place::Quote as usize]
    }

    /// A quote reads a circuit as planning does.
    #[test]
    fn limits_of_a_quoted_circuit() {
        let circuits = ["const 4294967295/", "const 4294967296/", "in/mul 0 0/", "in/mul 0 0/mul 1 1/", "in/neg 65536/"];
        let circuits = circuits.map(|lines| format!("circuit 60 30 1/{lines}"));
        let circuits = circuits.each_ref().map(String::as_str);
        assert_eq!([quote_row(&circuits, CONSTANT), quote_row(&circuits, OPERAND_WRAP)], [[1, 1], [1, 0]]);
        assert_eq!([quote_row(&circuits, 0), quote_row(&circuits, 6), quote_row(&circuits, 11)], [[2, 0], [1, 0], [1, 0]]);
        assert_eq!(quote_row(&circuits, RESERVE), [1, 0]);
        let lines = ["in/".repeat(256), "in/".repeat(257)].map(|lines| format!("circuit 60 20 1 5/{lines}"));
        let lines = lines.each_ref().map(String::as_str);
        assert_eq!([quote_row(&lines, CIRCUIT_LIMIT), quote_row(&lines, HEADROOM)], [[1, 1], [1, 0]]);
    }

    /// Each word in the worked listing and in the plans of `services`' tests.
    #[test]
    fn words_of_a_price() {
        let listing = ["circuit 60 20 2/in/const 7/mul 0 1/mul 2 1/mul 3 3/out 4/"];
        assert_eq!([quote_row(&listing, PRICE_OF_MUL), quote_row(&listing, PRICE_OF_MUL_BY_CONSTANT)], [[1, 0], [0, 1]]);
        assert_eq!([quote_row(&listing, PRICE_OF_US), quote_row(&listing, PRICE_OF_ENC)], [[1, 0], [1, 0]]);
        assert_eq!([quote_row(&listing, PRICE_OF_RS), quote_row(&listing, PRICE_LEVELS)], [[1, 0], [1, 0]]);
        let sum =
            ["circuit 60 60 4/in/const 7/mul 0 1/mul 2 1/add 0 3/", "circuit 60 60 3/in/const 7/mul 1 0/add 0 2/add 1 0/"];
        assert_eq!([quote_row(&sum, PRICE_OF_MS), quote_row(&sum, PRICE_OF_ADD)], [[1, 1], [2, 0]]);
        assert_eq!([quote_row(&sum, PRICE_OF_MUL_BY_CONSTANT), quote_row(&sum, PRICE_OF_ADD_OF_CONSTANT)], [[1, 1], [1, 0]]);
        let rescaled = ["circuit 10 20 5/in/mul 0 0/neg 1/rot 1 1/", "circuit 60 20 60/in/neg 0/"];
        assert_eq!([quote_row(&rescaled, PRICE_OF_RS), quote_row(&rescaled, PRICE_OF_NEG)], [[0, 1], [2, 0]]);
        assert_eq!([quote_row(&rescaled, PRICE_OF_ROT), quote_row(&rescaled, PRICE_LEVELS)], [[1, 0], [0, 1]]);
        let without = ["circuit 60 20 2/", "circuit 60 20 2 5/", "circuit 60 20 2/in/out 0/", "circuit 59 60 1/in/"];
        assert_eq!([quote_row(&without, PRICE_ZERO), quote_row(&without, HEADER_ALONE)], [[3, 0], [1, 1]]);
    }

    /// Planning is set beside the quote of the same circuit before it.
    #[test]
    fn a_buffer_of_the_quoted_bytes() {
        let room_row = |quoted: &[u8], planned: &[u8], row: usize| {
            let mut coverage = Coverage::default();
            let quote = services::quote(quoted);
            coverage.count_call(&quote_call(quoted), quote, &[]);
            for room in [0, (quote.bytes as usize).saturating_sub(1), quote.bytes as usize, 99] {
                let mut out = vec![0; room];
                let reply = services::plan(planned, &mut out);
                let call = Call { service: Service::Plan, first: planned, second: &[], room };
                coverage.count_call(&call, reply, &out[..reply.length as usize]);
            }
            coverage.counts[row][Place::Quote as usize]
        };
        let [fits, other] = [b"circuit\t60\t20\t1\nin\n", b"circuit\t60\t20\t2\nin\n"];
        assert_eq!([room_row(fits, fits, QUOTED_BUFFER), room_row(fits, other, QUOTED_BUFFER)], [[1, 1], [0, 0]]);
        let headroom = b"circuit\t60\t20\t1\t5\nin\n";
        assert_eq!(room_row(headroom, headroom, HEADROOM_QUOTED_BUFFER), [1, 1]);
        let [short, damaged] = [&b"circuit\t59\t60\t1\nin\n"[..], b"circuit\t59\t60\t1\nin"];
        assert_eq!([room_row(fits, fits, NO_ROOM), room_row(short, damaged, NO_ROOM)], [[0, 0]; 2]);
        // Three of the four rooms are 0 here.
        assert_eq!([room_row(short, short, NO_ROOM), room_row(damaged, damaged, NO_ROOM)], [[3, 0], [0, 3]]);
    }

    #[test]
    fn rows_stand_at_their_names() {
        let names = [
            (MS, "success with ms"),
            (ENC, "success with enc"),
            (CIRCUIT_LIMIT, "256 | 257 circuit lines"),
            (HEADER_LOW, "F = 1 | 0"),
        ];
        let more = [
            (HEADER_HIGH, "F = 60 | 61"),
            (CONSTANT, "const 4294967295 | 4294967296"),
            (UPSCALE, "us by 3600 | 3601"),
            (DIGITS, "field of 11 | 12 digits"),
            (SIXTEEN_BITS, "const 65535, 65536 read"),
            (HEADER_WRAP, "header + 2^16 | + 2^32"),
            (MODSWITCHES_WRAP, "ms by + 2^16 | + 2^32"),
            (14, "14 ds not below W + F"),
            (LEVEL_ENDS, "enc level 1, L read"),
            (DOWNSCALE, "success with ds"),
            (CONVERTED, "1792 | 1793 lines converted"),
            (RULE_FIRST, "rule broken behind a 3"),
            (HEADER_LOW + 3, "H = 1 | 0"),
            (HEADER_HIGH + 3, "H = 60 | 61"),
            (HEADROOM, "success with H"),
            (HEADROOM_DIFFERS, "12 by H in both"),
            (HEADROOM_OF_IN, "in, W + H = F L | F L + 1"),
            (HEADROOM_LEAST_LEVEL, "least level higher by H"),
        ];
        assert!(names.iter().chain(&more).all(|&(row, name)| ROWS[row].name == name));
        let last = [
            (BUFFER, "no H, buffer enough | one short"),
            (PRICE_OF_MUL, "price of mul of two"),
            (PRICE_OF_MS, "price of ms by 1 | by more"),
            (PRICE_ZERO, "price 0"),
            (DEAR, "price of 4000000 or more"),
            (QUOTED_BUFFER, "no H, room of bytes | one less"),
        ];
        assert!(last.iter().all(|&(row, name)| ROWS[row].name == name));
        assert_eq!(ALL_CONVERSIONS + 1, LACKING);
        assert!(PLACES.iter().enumerate().all(|(at, &(place, _))| place as usize == at));
    }

    #[test]
    fn nothing_is_not_enough() {
        let asked = Asked { replies: 1, conversions: 1, limits: 1, buffers: 1, prices: 1, live: 1, only_plan: false };
        assert!(!Coverage::default().print(&asked));
        assert!(
            counted(&[("circuit 60 20 2/in/const 7/mul 0 1/mul 2 1/mul 3 3/", 999)]).counts[US][Place::Plan as usize][0] == 1
        );
    }
}
