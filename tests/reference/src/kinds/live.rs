//! Live ciphertexts, document 02's Job 7: the four services on a schedule, held to one another and to a scan of all later lines.

use super::{expect, rooms};
use crate::both::{ample_for_live, Both};
use crate::cases::{damage, live};
use crate::random::Random;
use crate::services::{Reply, LIVE_VALUE_BYTES};
use crate::text::{bytes_of, Reading};
use std::sync::OnceLock;

/// In schedules of no more lines each value is asked about after each line.
const TINY: usize = 6;
/// Schedules of no more lines are scanned for each value after each line.
const SMALL: usize = 24;
/// In schedules of no more lines each value is asked about, after some line.
const MIDDLING: usize = 64;
/// Of longer ones than this every fourth is scanned whole.
const LONG: usize = 200;

fn with_schedule(what: &str, schedule: &[u8]) -> String {
    format!("{what}\n  schedule: {}", schedule.escape_ascii())
}

/// "4 with place 0", of no file.
fn is_lacking(reply: Reply) -> bool {
    reply == Reply { number: 4, file: 0, place: 0, length: 0 }
}

/// What the lines of a schedule name, from the text itself.
struct Scan {
    /// Of each line; the same value twice, or one that no line has, where it names fewer than two.
    named: Vec<[usize; 2]>,
    is_ciphertext: Vec<bool>,
}

impl Scan {
    /// Of a schedule that was read.
    fn of(schedule: &[u8]) -> Scan {
        let text = String::from_utf8_lossy(schedule);
        let (mut named, mut is_ciphertext) = (Vec::new(), Vec::new());
        for line in text.lines().skip(1) {
            let mut fields = line.split('\t');
            let word = fields.next().unwrap_or_default();
            let mut operand = || fields.next().and_then(|field| field.parse().ok()).unwrap_or(usize::MAX);
            named.push(match word {
                "in" | "const" => [usize::MAX; 2],
                "add" | "mul" => [operand(), operand()],
                _ => [operand(); 2],
            });
            is_ciphertext.push(!matches!(word, "const" | "enc" | "out"));
        }
        Scan { named, is_ciphertext }
    }

    fn lines(&self) -> usize {
        self.named.len()
    }

    /// "A value never named may be dropped after its own line; for a line before its own the answer is no."
    fn may_drop(&self, value: usize, line: usize) -> bool {
        value <= line && !self.named[line + 1..].iter().any(|named| named.contains(&value))
    }

    /// How many "ciphertexts up to it have the answer no".
    fn live_after(&self, line: usize) -> usize {
        (0..=line).filter(|&value| self.is_ciphertext[value] && !self.may_drop(value, line)).count()
    }

    fn entry(&self, value: usize) -> usize {
        self.named.iter().rposition(|named| named.contains(&value)).unwrap_or(value)
    }

    fn entries(&self) -> Vec<usize> {
        (0..self.lines()).map(|value| self.entry(value)).collect()
    }

    /// After each line. Of a long schedule each ciphertext is counted after every line from its own up to its entry, that one left out.
    fn counts(&self) -> Vec<usize> {
        if self.lines() <= SMALL {
            return (0..self.lines()).map(|line| self.live_after(line)).collect();
        }
        let mut counts = vec![0; self.lines()];
        for value in (0..self.lines()).filter(|&value| self.is_ciphertext[value]) {
            counts[value..self.entry(value)].iter_mut().for_each(|count| *count += 1);
        }
        counts
    }
}

/// The entries and the counts in the bytes that were written.
fn tables(written: &[u8]) -> [Vec<usize>; 2] {
    let number = |bytes: &[u8]| usize::from(bytes[0]) + 256 * usize::from(bytes[1]);
    let column = |at: usize| written.chunks(LIVE_VALUE_BYTES).map(|four| number(&four[at..])).collect();
    [column(0), column(2)]
}

/// The four services on a schedule that may be damaged, with a value and a line or two.
pub fn few(random: &mut Random, schedule: &[u8], both: &mut Both) -> Result<(), String> {
    services_of_schedule(random, schedule, 1, both)
}

/// So many values and lines of a schedule; what is refused is refused by all four alike.
fn services_of_schedule(random: &mut Random, schedule: &[u8], times: usize, both: &mut Both) -> Result<(), String> {
    let kept = both.live(schedule, ample_for_live(schedule))?;
    let peak = both.live_peak(schedule)?;
    if kept.reply.number != 0 {
        return refused_alike(random, schedule, [kept.reply, peak], both);
    }
    let (scan, [entries, counts]) = (Scan::of(schedule), tables(&kept.written));
    let otherwise = |what: String| with_schedule(&what, schedule);
    let lengths = [entries.len(), kept.reply.length as usize / LIVE_VALUE_BYTES];
    expect(lengths == [scan.lines(); 2], || otherwise(format!("{lengths:?} entries of {} values", scan.lines())))?;
    let largest = counts.iter().copied().max().unwrap_or(0);
    expect(peak.length as usize == largest, || otherwise(format!("the counts are {counts:?}, the largest is {peak:?}")))?;
    if scan.lines() <= LONG || random.percent(25) {
        expect(entries == scan.entries(), || otherwise(format!("{entries:?} are not the entries of the scan")))?;
        expect(counts == scan.counts(), || otherwise(format!("{counts:?} are not the counts of the scan")))?;
        both.scans.entries += scan.lines() as u64;
        both.scans.counts += scan.lines() as u64;
        both.scans.peaks += 1;
    }
    let exhausts = times > 1 && scan.lines() <= TINY;
    let pairs = if exhausts { all_pairs(scan.lines()) } else { some_pairs(random, &entries, times) };
    pairs.into_iter().try_for_each(|(value, line)| answered(schedule, value, line, &scan, both))?;
    let lines = if exhausts { (0..scan.lines()).collect() } else { some_lines(random, &counts, times) };
    lines.into_iter().try_for_each(|line| counted(schedule, line, &counts, &scan, both))?;
    lacking(random, schedule, scan.lines() as u32, times, both)
}

/// A damaged schedule: "after the file's refusals" come a number that it lacks and a buffer that is too short.
fn refused_alike(random: &mut Random, schedule: &[u8], replies: [Reply; 2], both: &mut Both) -> Result<(), String> {
    let numbers = [0, 0, 1, 65_535, 65_536, 1 << 31, u32::MAX];
    let [value, line, other] = [(); 3].map(|()| random.pick(&numbers));
    let [first, second] = replies;
    let all = [second, both.may_drop(schedule, value, line)?, both.live_after(schedule, other)?, both.live(schedule, 0)?.reply];
    let is_alike = first.file == 1 && first.place > 0 && all.iter().all(|&reply| reply == first);
    expect(is_alike, || with_schedule(&format!("refused with {first:?}, yet also {all:?}"), schedule))
}

fn all_pairs(lines: usize) -> Vec<(usize, usize)> {
    (0..lines).flat_map(|value| (0..lines).map(move |line| (value, line))).collect()
}

/// Each value, or some: those at the ends, long-lived ones and others. Each comes with some line around its own, its entry and the ends.
fn some_pairs(random: &mut Random, entries: &[usize], times: usize) -> Vec<(usize, usize)> {
    let Some(last) = entries.len().checked_sub(1) else { return Vec::new() };
    let longest = (0..=last).max_by_key(|&value| entries[value] - value).unwrap_or(0);
    let mut some_value = || {
        let any = random.below(last + 1);
        random.pick(&[0, 1.min(last), longest, last, any, any, any])
    };
    let takes_each = times > 1 && entries.len() <= MIDDLING;
    let values: Vec<usize> = if takes_each { (0..=last).collect() } else { (0..2 * times - 1).map(|_| some_value()).collect() };
    let with_line = |value: usize| {
        let (entry, other) = (entries[value], random.below(last + 1));
        let around = [value, entry, entry, entry.saturating_sub(1), value.saturating_sub(1), other, last, 0];
        (value, random.pick(&around))
    };
    values.into_iter().map(with_line).collect()
}

/// Lines at the ends, at the largest count and others.
fn some_lines(random: &mut Random, counts: &[usize], times: usize) -> Vec<usize> {
    let Some(last) = counts.len().checked_sub(1) else { return Vec::new() };
    let highest = (0..=last).max_by_key(|&line| counts[line]).unwrap_or(0);
    let mut lines = if times > 1 { vec![highest] } else { Vec::new() };
    for _ in 0..times {
        let any = random.below(last + 1);
        lines.push(random.pick(&[0, last, highest, highest.saturating_sub(1), any]));
    }
    lines
}

/// "the answer equals a scan of all later lines"
fn answered(schedule: &[u8], value: usize, line: usize, scan: &Scan, both: &mut Both) -> Result<(), String> {
    let reply = both.may_drop(schedule, value as u32, line as u32)?;
    let found = scan.may_drop(value, line);
    let is_alike = reply.number == 0 && reply.length == u32::from(found);
    expect(is_alike, || with_schedule(&format!("value {value} after line {line}: {reply:?}, the scan {found}"), schedule))?;
    *if found { &mut both.scans.yes } else { &mut both.scans.no } += 1;
    Ok(())
}

fn counted(schedule: &[u8], line: usize, counts: &[usize], scan: &Scan, both: &mut Both) -> Result<(), String> {
    let reply = both.live_after(schedule, line as u32)?;
    let all = [reply.length as usize, counts[line], scan.live_after(line)];
    let is_alike = reply.number == 0 && all == [counts[line]; 3];
    expect(is_alike, || {
        with_schedule(&format!("after line {line}: {reply:?}, all at once and by the scan {all:?}"), schedule)
    })?;
    both.scans.counts += 1;
    Ok(())
}

/// A number that a schedule of so many lines lacks: the next ones, the ends of 16 and of 32 bits, and ones that it has modulo a power of two.
fn lacking_number(random: &mut Random, lines: u32) -> u32 {
    let real = random.below(lines.max(1) as usize) as u32;
    let powers = [1 << 16, 1 << 16 | real, 1 << 31, 1 << 31 | real];
    random.pick(&[lines, lines, lines + 1, (1 << 16) - 1, powers[0], powers[1], powers[1], powers[2], powers[3], u32::MAX])
}

/// Values and lines that the schedule lacks, the one or the other or both.
fn lacking(random: &mut Random, schedule: &[u8], lines: u32, times: usize, both: &mut Both) -> Result<(), String> {
    for _ in 0..times {
        if times == 1 && random.percent(70) {
            continue;
        }
        let (none, other) = (lacking_number(random, lines), lacking_number(random, lines));
        let real = random.below(lines.max(1) as usize) as u32;
        let (value, line) = random.pick(&[(none, real), (real, none), (none, other)]);
        let replies = [both.may_drop(schedule, value, line)?, both.live_after(schedule, none)?];
        expect(replies.into_iter().all(is_lacking), || {
            with_schedule(&format!("value {value}, lines {line} and {none} are lacking: {replies:?}"), schedule)
        })?;
    }
    Ok(())
}

/// Buffers of lengths around the needed one.
pub fn buffers(random: &mut Random, schedule: &[u8], both: &mut Both) -> Result<(), String> {
    let kept = both.live(schedule, ample_for_live(schedule))?;
    let needed = if kept.reply.number == 0 { kept.written.len() } else { 8 };
    for room in rooms(random, needed) {
        both.live(schedule, room)?;
    }
    Ok(())
}

fn texts() -> &'static [Vec<u8>] {
    static TEXTS: OnceLock<Vec<Vec<u8>>> = OnceLock::new();
    TEXTS.get_or_init(live::all)
}

/// The cases of this kind: the fixed list once, and then schedules made for it, every fifth of them damaged.
pub fn schedules(random: &mut Random, index: u64, both: &mut Both) -> Result<(), String> {
    let listed = texts().get(index as usize);
    let schedule = listed.cloned().unwrap_or_else(|| {
        let made = bytes_of(&live::schedule(random), Reading::Schedule);
        if random.percent(20) {
            damage::damage(random, &made)
        } else {
            made
        }
    });
    services_of_schedule(random, &schedule, 4, both)?;
    buffers(random, &schedule, both)
}

#[cfg(test)]
mod tests {
    use super::*;

    fn scan(shown: &str) -> Scan {
        Scan::of(shown.replace('/', "\n").replace(' ', "\t").as_bytes())
    }

    /// By hand, and each count by the scan itself.
    #[test]
    fn scans_of_small_schedules() {
        let small = scan("schedule 60 20 1/in/const 7/enc 1 20 1/mul 0 2/mul 0 0/out 0/");
        assert_eq!((small.entries(), small.counts()), (vec![5, 2, 3, 3, 4, 5], vec![1, 1, 1, 1, 1, 0]));
        assert_eq!(
            [small.may_drop(0, 4), small.may_drop(0, 5), small.may_drop(3, 2), small.may_drop(3, 3)],
            [false, true, false, true]
        );
        assert_eq!((scan("schedule 60 20 1/").entries(), scan("schedule 60 20 1/").counts()), (vec![], vec![]));
    }

    /// The counts of long schedules are those of the scan too.
    #[test]
    fn counts_of_long_schedules() {
        for case in 0..60 {
            let schedule = bytes_of(&live::schedule(&mut Random::new(9, case)), Reading::Schedule);
            let scan = Scan::of(&schedule);
            let counts = scan.counts();
            let step = 1 + scan.lines() / 9;
            assert!((0..scan.lines()).step_by(step).all(|line| counts[line] == scan.live_after(line)), "{case}");
        }
    }

    #[test]
    fn numbers_that_are_lacking() {
        for case in 0..500 {
            let mut random = Random::new(3, case);
            let lines = random.below(1793) as u32;
            assert!(lacking_number(&mut random, lines) >= lines);
        }
    }
}
