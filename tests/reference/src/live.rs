//! Live ciphertexts, document 02's Job 7: what is kept beside a read schedule, for each value and for each line.

use crate::text::{Line, ValueKind, SCHEDULE_LINES};

/// One number for each line of a schedule, and nothing behind them. "Lines are numbered as values."
pub type Numbers = [u16; SCHEDULE_LINES];

/// "for each value, the last line that names it"; its own line where none does, so that no entry is before the value.
pub fn entries(lines: &[Line]) -> Numbers {
    let mut entries = [0; SCHEDULE_LINES];
    for (n, line) in lines.iter().enumerate() {
        entries[n] = n as u16;
        for operand in line.operands().into_iter().flatten() {
            entries[usize::from(operand)] = n as u16;
        }
    }
    entries
}

/// "Whether a value may be dropped after a given line is answered from the value's one entry". A line before the value's own is before its entry too.
pub fn may_drop(entry: u16, line: u32) -> bool {
    u32::from(entry) <= line
}

/// "for each line how many ciphertexts up to it are still named later"
pub fn counts(lines: &[Line], entries: &Numbers) -> Numbers {
    let mut counts = [0; SCHEDULE_LINES];
    // How many ciphertexts each line is the last to name.
    let mut ends: Numbers = [0; SCHEDULE_LINES];
    let mut live = 0;
    for (n, line) in lines.iter().enumerate() {
        let entry = usize::from(entries[n]);
        if entry > n && line.kind() == ValueKind::Ciphertext {
            live += 1;
            ends[entry] += 1;
        }
        live -= ends[n];
        counts[n] = live;
    }
    counts
}

/// "The largest live count over the lines ... (0 for a bare header)".
pub fn peak(lines: &[Line], counts: &Numbers) -> u16 {
    counts[..lines.len()].iter().copied().max().unwrap_or(0)
}

#[cfg(test)]
mod tests {
    use super::*;
    use crate::text::{file_of, File, Reading};

    fn file(shown: &str) -> File {
        let bytes = shown.replace('/', "\n").replace(' ', "\t");
        match file_of(bytes.as_bytes(), Reading::Schedule) {
            Ok(file) => file,
            Err(refusal) => panic!("{refusal:?}"),
        }
    }

    /// The entries, the counts and the largest of these.
    fn kept(shown: &str) -> (Vec<u16>, Vec<u16>, u16) {
        let file = file(shown);
        let (lines, entries) = (file.lines(), entries(file.lines()));
        let counts = counts(lines, &entries);
        (entries[..lines.len()].to_vec(), counts[..lines.len()].to_vec(), peak(lines, &counts))
    }

    /// Document 01's listing. The two constants that are encoded and the output are no ciphertexts.
    #[test]
    fn the_worked_listing() {
        let listing =
            "schedule 60 20 2/in/const 7/enc 1 20 2/mul 0 2/enc 1 20 2/mul 3 4/us 5 20/rs 6 1/us 5 20/rs 8 1/mul 7 9/out 10/";
        let entries = vec![3, 4, 3, 5, 5, 8, 7, 10, 9, 10, 11, 11];
        assert_eq!(kept(listing), (entries, vec![1, 1, 1, 1, 1, 1, 2, 2, 2, 2, 1, 0], 2));
    }

    #[test]
    fn small_schedules() {
        assert_eq!(kept("schedule 60 20 1/"), (vec![], vec![], 0));
        assert_eq!(kept("schedule 60 20 1/in/"), (vec![0], vec![0], 0));
        // Named twice by one line, and by an output alone.
        assert_eq!(kept("schedule 60 20 1/in/mul 0 0/"), (vec![1, 1], vec![1, 0], 1));
        assert_eq!(kept("schedule 60 20 1/in/in/out 0/"), (vec![2, 1, 2], vec![1, 1, 0], 1));
        assert_eq!(
            kept("schedule 60 20 1/const 7/enc 0 20 1/enc 0 20 1/in/add 3 1/"),
            (vec![2, 4, 2, 4, 4], vec![0, 0, 0, 1, 0], 1)
        );
        assert_eq!(
            kept("schedule 60 20 1/in/in/in/add 0 1/add 2 3/neg 0/"),
            (vec![5, 3, 4, 4, 4, 5], vec![1, 2, 3, 3, 1, 0], 3)
        );
    }

    #[test]
    fn values_before_and_after_their_entries() {
        assert_eq!([may_drop(3, 2), may_drop(3, 3), may_drop(3, 4), may_drop(0, 0)], [false, true, true, true]);
    }

    /// Each of the remaining lines names two at most, so after a line of value n − 1 no more than n and 2·(1,792 − n) are live.
    #[test]
    fn the_most_that_can_be_live() {
        let inputs = 1194;
        let sums: String = (0..inputs / 2).map(|n| format!("add {} {}/", 2 * n, 2 * n + 1)).collect();
        let (entries, counts, peak) = kept(&format!("schedule 60 20 1/{}{sums}", "in/".repeat(inputs)));
        assert_eq!((peak, counts.len()), (1194, 1791));
        assert_eq!(
            [entries[0], entries[1193], counts[0], counts[1193], counts[1194], counts[1790]],
            [1194, 1790, 1, 1194, 1192, 0]
        );
        let most = (1..=SCHEDULE_LINES).map(|n| n.min(2 * (SCHEDULE_LINES - n))).max();
        assert_eq!(most, Some(1194));
    }
}
