//! The rows of live ciphertexts: which answers and limits a call shows.

use super::*;
use crate::live::{counts, entries, may_drop, Numbers};

/// The rows and sides of a call of one of the four services.
pub fn limits(call: &Call, reply: Reply) -> Vec<(usize, usize)> {
    let text = call.first;
    match call.service {
        _ if is_reading(reply.number) && !is_lacking(reply) => refused(call),
        Service::MayDrop { value, line } if is_lacking(reply) => lacking(text, Some(value), line),
        Service::LiveAfter { line } if is_lacking(reply) => lacking(text, None, line),
        Service::MayDrop { value, line } => {
            file_of(text, Reading::Schedule).map_or(Vec::new(), |file| of_answer(&file, value, line))
        }
        Service::LiveAfter { line } => {
            let is_last = line + 1 == lines_of(text);
            [met_limits(&[(is_last, (LAST_LINE, TAKEN))]), of_counts(&[reply.length as u16])].concat()
        }
        Service::LivePeak => [of_header(text, HEADER_ALONE), of_counts(&[reply.length as u16])].concat(),
        Service::Live if reply.number == 0 => {
            let of_file = file_of(text, Reading::Schedule).map_or(Vec::new(), |file| of_tables(&file));
            [of_header(text, HEADER_ALONE), of_file].concat()
        }
        _ => Vec::new(),
    }
}

/// The lines behind the header of a schedule that was read.
fn lines_of(text: &[u8]) -> u32 {
    text.iter().filter(|&&byte| byte == b'\n').count() as u32 - 1
}

/// A file that is refused before what the caller handed.
fn refused(call: &Call) -> Vec<(usize, usize)> {
    let numbers = match call.service {
        Service::MayDrop { value, line } => [value, line],
        Service::LiveAfter { line } => [line; 2],
        Service::Live if call.room == 0 => return vec![(FILE_BEFORE_ROOM, TAKEN)],
        _ => return Vec::new(),
    };
    met_limits(&[(numbers == [0; 2], (FILE_FIRST, 0)), (numbers.iter().any(|&number| number >= 1 << 16), (FILE_FIRST, 1))])
}

/// A header alone, without an H and with one.
fn of_header(text: &[u8], row: usize) -> Vec<(usize, usize)> {
    met_limits(&[(lines_of(text) == 0, (row, usize::from(has_headroom(text))))])
}

/// Numbers that the schedule lacks, at least one of them.
fn lacking(text: &[u8], value: Option<u32>, line: u32) -> Vec<(usize, usize)> {
    let lines = lines_of(text);
    let lacks = |number: u32| number >= lines;
    let value_lacks = value.is_some_and(lacks);
    let mut limits = vec![(LACKING, TAKEN)];
    if value == Some(0) || value.is_none() && line == 0 {
        limits.extend(of_header(text, LACKING_OF_HEADER));
    }
    limits.extend(met_limits(&[
        (value_lacks && !lacks(line), (LACKING_ALONE, 0)),
        (value.is_some_and(|value| !lacks(value)) && lacks(line), (LACKING_ALONE, 1)),
    ]));
    // Each number by itself: the other one is not lacking.
    let one = |number: Option<u32>, rows: [usize; 3]| number.map_or(Vec::new(), |number| of_lacking(lines, number, rows));
    if !lacks(line) {
        limits.extend(one(value, [LAST_VALUE, VALUE_SIXTEEN_BITS, VALUE_WRAP]));
        limits.extend(met_limits(&[(value == Some(u32::MAX), (LACKING_MOST, 0))]));
    }
    if !value_lacks {
        limits.extend(one(Some(line), [LAST_LINE, LINE_SIXTEEN_BITS, LINE_WRAP]));
        limits.extend(met_limits(&[(value.is_some() && line == u32::MAX, (LACKING_MOST, 1))]));
    }
    limits
}

fn of_lacking(lines: u32, number: u32, [last, sixteen_bits, wrap]: [usize; 3]) -> Vec<(usize, usize)> {
    let is_past = |power: u32| number.checked_sub(power).is_some_and(|left| left < lines);
    met_limits(&[
        (number == lines, (last, REFUSED)),
        (number == 65_535, (sixteen_bits, 0)),
        (number == 65_536, (sixteen_bits, 1)),
        (is_past(1 << 16), (wrap, 0)),
        (is_past(1 << 31), (wrap, 1)),
    ])
}

/// Whether a line of the schedule names a value.
fn is_named(lines: &[Line], value: usize) -> bool {
    lines.iter().any(|line| line.operands().contains(&Some(value as u16)))
}

/// A value and a line that the schedule has.
fn of_answer(schedule: &File, value: u32, line: u32) -> Vec<(usize, usize)> {
    let lines = schedule.lines();
    let (own, last) = (value as usize, lines.len() as u32 - 1);
    let entry = entries(lines)[own];
    let (yes, named) = (may_drop(entry, line), is_named(lines, own));
    let side_of_kind = match lines[own].kind() {
        ValueKind::Ciphertext => (OF_VALUE, 0),
        ValueKind::Constant => (OF_VALUE, 1),
        ValueKind::Encoded => (OF_OTHER, 0),
        ValueKind::Unusable => (OF_OTHER, 1),
    };
    let before = line + 1 == u32::from(entry);
    let row = if named { ENTRY } else { NEVER_NAMED };
    let mut limits = vec![(ANSWER, usize::from(!yes)), side_of_kind];
    limits.extend(met_limits(&[
        (line < value, (ANSWERED_NO, 0)),
        (line >= value && !yes, (ANSWERED_NO, 1)),
        (line == u32::from(entry), (row, 0)),
        (before && (line >= value || !named), (row, 1)),
        (value == last, (LAST_VALUE, TAKEN)),
        (line == last, (LAST_LINE, TAKEN)),
    ]));
    limits.extend(of_entries(&[entry]));
    limits
}

fn of_entries(entries: &[u16]) -> Vec<(usize, usize)> {
    let rows = [(ENTRY_BYTE, 255), (ENTRY_TEN_BITS, 1023), (ENTRY_END, 1790)];
    let sides = rows.iter().flat_map(|&(row, first)| [(row, 0, first), (row, 1, first + 1)]);
    sides.filter(|(_, _, entry)| entries.contains(entry)).map(|(row, side, _)| (row, side)).collect()
}

fn of_counts(counts: &[u16]) -> Vec<(usize, usize)> {
    met_limits(&[
        (counts.contains(&255), (COUNT_BYTE, 0)),
        (counts.contains(&256), (COUNT_BYTE, 1)),
        (counts.contains(&1194), (MOST_LIVE, TAKEN)),
    ])
}

/// All entries and counts of a schedule, and how its values are named.
fn of_tables(schedule: &File) -> Vec<(usize, usize)> {
    let lines = schedule.lines();
    let entries = entries(lines);
    let counts = counts(lines, &entries);
    let rows = [of_entries(&entries[..lines.len()]), of_counts(&counts[..lines.len()]), of_names(lines, &entries)];
    rows.concat()
}

/// How the values of a schedule are named.
fn of_names(lines: &[Line], entries: &Numbers) -> Vec<(usize, usize)> {
    // Of each value how many lines name it, and how many of these are `out` and `enc`.
    let mut named = vec![[0; 3]; lines.len()];
    let mut twice = false;
    for line in lines {
        let [a, b] = line.operands();
        twice |= a.is_some() && a == b;
        let is_kind = [true, line.kind() == ValueKind::Unusable, line.kind() == ValueKind::Encoded];
        for operand in a.into_iter().chain(b.filter(|_| a != b)) {
            named[usize::from(operand)].iter_mut().zip(is_kind).for_each(|(count, is)| *count += u32::from(is));
        }
    }
    let is_unnamed = |is: fn(ValueKind) -> bool| (0..lines.len()).any(|n| usize::from(entries[n]) == n && is(lines[n].kind()));
    met_limits(&[
        (twice, (NAMED, 0)),
        (named.iter().any(|&[all, _, _]| all > 1), (NAMED, 1)),
        (named.iter().any(|&[all, by_out, _]| all > 0 && all == by_out), (NAMED_ALONE, 0)),
        (named.iter().any(|&[all, _, by_enc]| all > 0 && all == by_enc), (NAMED_ALONE, 1)),
        (is_unnamed(|kind| kind == ValueKind::Ciphertext), (UNNAMED, 0)),
        (is_unnamed(|kind| matches!(kind, ValueKind::Constant | ValueKind::Encoded)), (UNNAMED, 1)),
    ])
}

#[cfg(test)]
mod tests {
    use super::*;
    use crate::services;

    fn bytes(shown: &str) -> Vec<u8> {
        shown.replace('/', "\n").replace(' ', "\t").into_bytes()
    }

    /// The rows of the answer about a value after a line.
    fn drop_rows(shown: &str, value: u32, line: u32) -> Vec<(usize, usize)> {
        let schedule = bytes(shown);
        let call = Call { service: Service::MayDrop { value, line }, first: &schedule, second: &[], room: 0 };
        limits(&call, services::may_drop(&schedule, value, line))
    }

    fn live_rows(shown: &str, room: usize) -> Vec<(usize, usize)> {
        let schedule = bytes(shown);
        let call = Call { service: Service::Live, first: &schedule, second: &[], room };
        limits(&call, services::live(&schedule, &mut vec![0; room]))
    }

    const SHOWN: &str = "schedule 60 20 1/in/const 7/enc 1 20 1/add 0 2/out 0/";

    #[test]
    fn answers_are_counted() {
        assert_eq!(drop_rows(SHOWN, 0, 4), [(ANSWER, 0), (OF_VALUE, 0), (ENTRY, 0), (LAST_LINE, TAKEN)]);
        assert_eq!(drop_rows(SHOWN, 0, 3), [(ANSWER, 1), (OF_VALUE, 0), (ANSWERED_NO, 1), (ENTRY, 1)]);
        assert_eq!(drop_rows(SHOWN, 1, 0), [(ANSWER, 1), (OF_VALUE, 1), (ANSWERED_NO, 0)]);
        assert_eq!(drop_rows(SHOWN, 3, 3), [(ANSWER, 0), (OF_VALUE, 0), (NEVER_NAMED, 0)]);
        assert_eq!(drop_rows(SHOWN, 3, 2), [(ANSWER, 1), (OF_VALUE, 0), (ANSWERED_NO, 0), (NEVER_NAMED, 1)]);
        assert_eq!(drop_rows(SHOWN, 2, 3), [(ANSWER, 0), (OF_OTHER, 0), (ENTRY, 0)]);
        let last = [(ANSWER, 0), (OF_OTHER, 1), (NEVER_NAMED, 0), (LAST_VALUE, TAKEN), (LAST_LINE, TAKEN)];
        assert_eq!(drop_rows(SHOWN, 4, 4), last);
    }

    #[test]
    fn lacking_numbers_are_counted() {
        assert_eq!(drop_rows(SHOWN, 5, 0), [(LACKING, TAKEN), (LACKING_ALONE, 0), (LAST_VALUE, REFUSED)]);
        assert_eq!(drop_rows(SHOWN, 0, 5), [(LACKING, TAKEN), (LACKING_ALONE, 1), (LAST_LINE, REFUSED)]);
        assert_eq!(drop_rows(SHOWN, 5, 5), [(LACKING, TAKEN)]);
        let wrapped = [(LACKING, TAKEN), (LACKING_ALONE, 1), (LINE_SIXTEEN_BITS, 1), (LINE_WRAP, 0)];
        assert_eq!(drop_rows(SHOWN, 0, 65_536), wrapped);
        assert_eq!(drop_rows(SHOWN, (1 << 31) + 4, 0), [(LACKING, TAKEN), (LACKING_ALONE, 0), (VALUE_WRAP, 1)]);
        assert_eq!(drop_rows(SHOWN, u32::MAX, 0), [(LACKING, TAKEN), (LACKING_ALONE, 0), (LACKING_MOST, 0)]);
        assert_eq!(drop_rows("schedule 60 20 1 5/", 0, 0), [(LACKING, TAKEN), (LACKING_OF_HEADER, 1)]);
        assert_eq!([drop_rows("", 0, 0), drop_rows("x", 9, 1 << 16)], [[(FILE_FIRST, 0)], [(FILE_FIRST, 1)]]);
    }

    #[test]
    fn names_are_counted() {
        assert_eq!(live_rows("schedule 60 20 1/", 0), [(HEADER_ALONE, 0)]);
        assert_eq!(live_rows(SHOWN, 20), [(NAMED, 1), (NAMED_ALONE, 1), (UNNAMED, 0)]);
        assert_eq!(live_rows("schedule 60 20 1/in/mul 0 0/out 1/const 5/", 16), [(NAMED, 0), (NAMED_ALONE, 0), (UNNAMED, 1)]);
        assert_eq!([live_rows(SHOWN, 19), live_rows("x", 9)], [[], []]);
        assert_eq!(live_rows("x", 0), [(FILE_BEFORE_ROOM, TAKEN)]);
        let inputs = format!("schedule 60 20 1/{}", "in/".repeat(256));
        assert_eq!(live_rows(&format!("{inputs}neg 0/"), 2_000), [(ENTRY_BYTE, 0), (ENTRY_BYTE, 1), (UNNAMED, 0)]);
    }

    #[test]
    fn rows_stand_at_their_names() {
        let names = [
            (LACKING, "4 line or value lacking"),
            (LAST_VALUE, "value last | last + 1"),
            (LINE_WRAP, "line + 2^16 | + 2^31 lacking"),
            (KEPT_READ, "256, 257 kept lines read"),
            (ENTRY_END, "entry 1790, 1791"),
        ];
        assert!(names.iter().all(|&(row, name)| ROWS[row].name == name));
        assert_eq!(UNNAMED, ROWS.len() - 1);
    }
}
