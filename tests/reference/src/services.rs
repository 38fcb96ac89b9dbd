//! The services, from lent bytes to a reply, and the program's output.

use crate::text::{length, read, write, File, Reading, Refusal, Text, TEXT_BYTES};
use crate::{check, erase, live, plan, price, rising};

/// The reply of a call, laid out as in the C declarations. "number 0 is success, then file and place are 0."
#[repr(C)]
#[derive(Clone, Copy, PartialEq, Eq, Debug)]
pub struct Reply {
    pub number: u32,
    pub file: u32,
    pub place: u32,
    pub length: u32,
}

impl Reply {
    fn success(length: u32) -> Reply {
        Reply { number: 0, file: 0, place: 0, length }
    }

    /// Refused at a line of a file, "counted from 1 in the order read".
    fn refused(file: u32, refusal: Refusal) -> Reply {
        Reply { number: refusal.number, file, place: refusal.place, length: 0 }
    }

    /// "13 buffer too short, place 0, after all else."
    fn too_short() -> Reply {
        Reply { number: 13, file: 0, place: 0, length: 0 }
    }

    /// "A line or value number that the schedule lacks is 4 with place 0, after the file's refusals."
    fn lacking() -> Reply {
        Reply { number: 4, file: 0, place: 0, length: 0 }
    }
}

/// The reply of a quote, laid out as in the C declarations. On a refusal the last three are 0.
#[repr(C)]
#[derive(Clone, Copy, PartialEq, Eq, Debug)]
pub struct QuoteReply {
    pub number: u32,
    pub file: u32,
    pub place: u32,
    pub lines: u32,
    pub bytes: u32,
    pub price: u32,
}

impl QuoteReply {
    fn of(schedule: &File) -> QuoteReply {
        // "header included"
        let lines = 1 + schedule.lines().len() as u32;
        let bytes = length(schedule, Reading::Schedule) as u32;
        QuoteReply { number: 0, file: 0, place: 0, lines, bytes, price: price::price(schedule) }
    }

    fn refused(refusal: Refusal) -> QuoteReply {
        QuoteReply { number: refusal.number, file: 1, place: refusal.place, lines: 0, bytes: 0, price: 0 }
    }

    /// What planning replies where there is room: "A circuit that can't be planned gets the planner's own."
    pub fn of_planning(self) -> Reply {
        Reply { number: self.number, file: self.file, place: self.place, length: self.bytes }
    }
}

/// Plan a circuit.
pub fn plan(circuit: &[u8], out: &mut [u8]) -> Reply {
    let mut table = File::free();
    let mut schedule = File::free();
    match read(circuit, Reading::Circuit, &mut table).and_then(|()| plan::plan(&table, &mut schedule)) {
        Ok(()) => hand_back(&schedule, Reading::Schedule, out),
        Err(refusal) => Reply::refused(1, refusal),
    }
}

/// Check a schedule against a circuit: "circuit first". 12 names the circuit, the rules of a line name the schedule.
pub fn check(circuit: &[u8], schedule: &[u8]) -> Reply {
    let mut table = File::free();
    if let Err(refusal) = read(circuit, Reading::Circuit, &mut table) {
        return Reply::refused(1, refusal);
    }
    let mut lines = File::free();
    match read(schedule, Reading::Schedule, &mut lines).and_then(|()| check::check(&table, &lines)) {
        Ok(()) => Reply::success(0),
        Err(refusal) => Reply::refused(if refusal.number == 12 { 1 } else { 2 }, refusal),
    }
}

/// Erase a schedule to its circuit.
pub fn erase(schedule: &[u8], out: &mut [u8]) -> Reply {
    let mut lines = File::free();
    if let Err(refusal) = read(schedule, Reading::ScheduleToErase, &mut lines) {
        return Reply::refused(1, refusal);
    }
    let mut circuit = File::free();
    erase::erase(&lines, &mut circuit);
    hand_back(&circuit, Reading::Circuit, out)
}

/// Give the least top level.
pub fn least_level(circuit: &[u8]) -> Reply {
    let mut table = File::free();
    match read(circuit, Reading::Circuit, &mut table).and_then(|()| plan::least_level(&table)) {
        Ok(level) => Reply::success(level),
        Err(refusal) => Reply::refused(1, refusal),
    }
}

/// "From a circuit, give the planned schedule's line count (header included), byte count and price without writing it."
pub fn quote(circuit: &[u8]) -> QuoteReply {
    let mut table = File::free();
    let mut schedule = File::free();
    match read(circuit, Reading::Circuit, &mut table).and_then(|()| plan::plan(&table, &mut schedule)) {
        Ok(()) => QuoteReply::of(&schedule),
        Err(refusal) => QuoteReply::refused(refusal),
    }
}

/// Make a schedule of a listing in the rising-level dialect.
pub fn from_rising(listing: &[u8], out: &mut [u8]) -> Reply {
    let mut table = File::free();
    let mut schedule = File::free();
    match read(listing, Reading::Listing, &mut table).and_then(|()| rising::to_schedule(&table, &mut schedule)) {
        Ok(()) => hand_back(&schedule, Reading::Schedule, out),
        Err(refusal) => Reply::refused(1, refusal),
    }
}

/// Make a listing in the rising-level dialect of a schedule, which is read as for erase.
pub fn to_rising(schedule: &[u8], out: &mut [u8]) -> Reply {
    let mut table = File::free();
    let mut listing = File::free();
    match read(schedule, Reading::ScheduleToErase, &mut table).and_then(|()| rising::to_listing(&table, &mut listing)) {
        Ok(()) => hand_back(&listing, Reading::Listing, out),
        Err(refusal) => Reply::refused(1, refusal),
    }
}

/// Say whether a value may be dropped after a line: 1 for yes and 0 for no.
pub fn may_drop(schedule: &[u8], value: u32, line: u32) -> Reply {
    let mut table = File::free();
    if let Err(refusal) = read(schedule, Reading::Schedule, &mut table) {
        return Reply::refused(1, refusal);
    }
    let lines = table.lines();
    if value.max(line) as usize >= lines.len() {
        return Reply::lacking();
    }
    Reply::success(live::may_drop(live::entries(lines)[value as usize], line).into())
}

/// Count the ciphertexts up to a line that are still named later.
pub fn live_after(schedule: &[u8], line: u32) -> Reply {
    let mut table = File::free();
    if let Err(refusal) = read(schedule, Reading::Schedule, &mut table) {
        return Reply::refused(1, refusal);
    }
    let lines = table.lines();
    if line as usize >= lines.len() {
        return Reply::lacking();
    }
    Reply::success(live::counts(lines, &live::entries(lines))[line as usize].into())
}

/// Give the largest live count.
pub fn live_peak(schedule: &[u8]) -> Reply {
    let mut table = File::free();
    if let Err(refusal) = read(schedule, Reading::Schedule, &mut table) {
        return Reply::refused(1, refusal);
    }
    let lines = table.lines();
    Reply::success(live::peak(lines, &live::counts(lines, &live::entries(lines))).into())
}

/// What `live` writes for each value: its entry and the count after its own line, two bytes each, the lowest first.
pub const LIVE_VALUE_BYTES: usize = 4;

/// Give all entries and all live counts.
pub fn live(schedule: &[u8], out: &mut [u8]) -> Reply {
    let mut table = File::free();
    if let Err(refusal) = read(schedule, Reading::Schedule, &mut table) {
        return Reply::refused(1, refusal);
    }
    let lines = table.lines();
    let Some(result) = out.get_mut(..LIVE_VALUE_BYTES * lines.len()) else { return Reply::too_short() };
    let entries = live::entries(lines);
    let counts = live::counts(lines, &entries);
    for ((four, entry), count) in result.chunks_exact_mut(LIVE_VALUE_BYTES).zip(entries).zip(counts) {
        four[..2].copy_from_slice(&entry.to_le_bytes());
        four[2..].copy_from_slice(&count.to_le_bytes());
    }
    Reply::success(result.len() as u32)
}

/// "On success the bytes past the result's length are as at entry too."
fn hand_back(file: &File, reading: Reading, out: &mut [u8]) -> Reply {
    let mut text = Text::free();
    write(file, reading, &mut text);
    match out.get_mut(..text.bytes().len()) {
        Some(result) => {
            result.copy_from_slice(text.bytes());
            Reply::success(result.len() as u32)
        }
        None => Reply::too_short(),
    }
}

/// "A program reads a circuit on standard input and prints the schedule, or one line of `refused`, number and place, tab-parted
/// and closed by a line feed."
pub fn program(input: &[u8]) -> Vec<u8> {
    let mut out = [0; TEXT_BYTES];
    let reply = plan(input, &mut out);
    if reply.number == 0 {
        out[..reply.length as usize].to_vec()
    } else {
        format!("refused\t{}\t{}\n", reply.number, reply.place).into_bytes()
    }
}

#[cfg(test)]
mod tests {
    use super::*;

    fn bytes(shown: &str) -> Vec<u8> {
        shown.replace(" / ", "\n").replace('/', "\n").replace(' ', "\t").into_bytes()
    }

    #[test]
    fn worked_program() {
        let input = bytes("circuit 60 20 2 / in / const 7 / mul 0 1 / mul 2 1 / mul 3 3 / out 4/");
        let output = bytes(
            "schedule 60 20 2 / in / const 7 / enc 1 20 2 / mul 0 2 / enc 1 20 2 / mul 3 4 / us 5 20 / rs 6 1 / us 5 20 \
             / rs 8 1 / mul 7 9 / out 10/",
        );
        assert_eq!(program(&input), output);
        assert_eq!(check(&input, &output), Reply::success(0));
        assert_eq!(program(&bytes("circuit 60 20 1/in/mul 0 0/mul 1 1/")), b"refused\t6\t4\n");
    }

    /// The worked listing with other constant numbers: they are copied, and nothing else of the plan moves.
    #[test]
    fn constant_numbers_come_back() {
        for number in ["0", "65535", "65536", "65543", "4294967294", "4294967295"] {
            let circuit = bytes(&format!("circuit 60 20 2/in/const {number}/mul 0 1/mul 2 1/mul 3 3/out 4/"));
            let schedule = bytes(&format!(
                "schedule 60 20 2/in/const {number}/enc 1 20 2/mul 0 2/enc 1 20 2/mul 3 4/us 5 20/rs 6 1/us 5 20/rs 8 1/mul 7 9/out 10/"
            ));
            assert_eq!(program(&circuit), schedule);
            assert_eq!(check(&circuit, &schedule), Reply::success(0));
            let mut out = vec![b'#'; circuit.len() + 3];
            assert_eq!(erase(&schedule, &mut out), Reply::success(circuit.len() as u32));
            assert_eq!(out, [&circuit[..], b"###"].concat());
            assert_eq!(erase(&schedule, &mut out[..circuit.len() - 1]), Reply::too_short());
            assert_eq!(least_level(&circuit), Reply::success(2));
        }
    }

    #[test]
    fn constant_numbers_too_large() {
        let refused = |number, file, place| Reply { number, file, place, length: 0 };
        for (number, reply) in [("4294967296", 11), ("4294967303", 11), ("99999999999", 11), ("100000000000", 1)] {
            let circuit = bytes(&format!("circuit 60 20 2/in/const {number}/mul 0 1/"));
            let schedule = bytes(&format!("schedule 60 20 2/in/const {number}/enc 1 20 2/mul 0 2/"));
            let mut out = [b'#'; 200];
            assert_eq!(plan(&circuit, &mut out), refused(reply, 1, 3));
            assert_eq!(erase(&schedule, &mut out), refused(reply, 1, 3));
            assert!(out.iter().all(|&byte| byte == b'#'));
            assert_eq!(least_level(&circuit), refused(reply, 1, 3));
            assert_eq!(check(&circuit, &schedule), refused(reply, 1, 3));
            assert_eq!(check(&bytes("circuit 60 20 2/in/const 7/mul 0 1/"), &schedule), refused(reply, 2, 3));
            assert_eq!(program(&circuit), format!("refused\t{reply}\t3\n").into_bytes());
        }
    }

    #[test]
    fn worked_header_only() {
        let mut out = [b'#'; 20];
        let reply = plan(&bytes("circuit 60 20 1/"), &mut out);
        assert_eq!(reply, Reply::success(17));
        assert_eq!(&out[..], b"schedule\t60\t20\t1\n###");
        assert_eq!(least_level(&bytes("circuit 60 20 60/")), Reply::success(1));
    }

    #[test]
    fn a_buffer_of_exactly_the_length_is_enough() {
        let circuit = bytes("circuit 60 20 1/in/");
        let needed = bytes("schedule 60 20 1/in/").len();
        let mut out = vec![b'#'; needed - 1];
        assert_eq!(plan(&circuit, &mut out), Reply::too_short());
        assert!(out.iter().all(|&byte| byte == b'#'));
        assert_eq!(plan(&circuit, &mut vec![0; needed]), Reply::success(needed as u32));
        // 13 comes after all else.
        assert_eq!(plan(&bytes("circuit 59 60 1/in/"), &mut []).number, 6);
    }

    /// The worked program with an H: its last product has reserve 20, so the lines are the same up to H = 20, and 21 asks for a third level.
    #[test]
    fn the_headroom_is_written_through() {
        for headroom in ["", " 1", " 5", " 20"] {
            let circuit = bytes(&format!("circuit 60 20 2{headroom}/in/const 7/mul 0 1/mul 2 1/mul 3 3/out 4/"));
            let schedule = bytes(&format!(
                "schedule 60 20 2{headroom}/in/const 7/enc 1 20 2/mul 0 2/enc 1 20 2/mul 3 4/us 5 20/rs 6 1/us 5 20/rs 8 1/mul 7 9/out 10/"
            ));
            assert_eq!(program(&circuit), schedule);
            assert_eq!(check(&circuit, &schedule), Reply::success(0));
            assert_eq!(least_level(&circuit), Reply::success(2));
            let mut out = vec![b'#'; circuit.len() + 1];
            assert_eq!(erase(&schedule, &mut out[..circuit.len() - 1]), Reply::too_short());
            assert_eq!(erase(&schedule, &mut out), Reply::success(circuit.len() as u32));
            assert_eq!(out, [&circuit[..], b"#"].concat());
        }
        let refused = |number, place| Reply { number, file: 1, place, length: 0 };
        let circuit = bytes("circuit 60 20 2 21/in/const 7/mul 0 1/mul 2 1/mul 3 3/out 4/");
        assert_eq!([plan(&circuit, &mut [0; 200]), plan(&circuit, &mut [])], [refused(6, 6); 2]);
        assert_eq!(program(&circuit), b"refused\t6\t6\n");
        assert_eq!(least_level(&circuit), Reply::success(3));
    }

    /// Lines, bytes and price of the quote, which are also the plan's in a buffer of just so many bytes.
    fn quoted(shown: &str, plan_shown: &str) -> [u32; 3] {
        let (circuit, expected) = (bytes(shown), bytes(plan_shown));
        let QuoteReply { number, file, place, lines, bytes, price } = quote(&circuit);
        assert_eq!([number, file, place], [0; 3], "{shown}");
        assert_eq!([lines, bytes], [plan_shown.matches('/').count() as u32, expected.len() as u32], "{shown}");
        let mut out = vec![0; bytes as usize];
        assert_eq!(plan(&circuit, &mut out[1..]), Reply::too_short());
        assert_eq!(plan(&circuit, &mut out), Reply::success(bytes));
        assert_eq!(out, expected);
        [lines, bytes, price]
    }

    /// 13 lines. 17 bytes of the header, then 3 and 8; 11 and 8 twice; 8 and 7 twice; 8 and 7: 111. The constants are encoded at level 2 for 2·2
    /// each and multiplied there for 4·2 each, which is 24. Two `us` at level 2 are 4·2 each and two `rs` from level 2 are 6·2 each, which is 40.
    /// The product of two at level 1 is 40. Together 104.
    #[test]
    fn quote_of_the_worked_program() {
        let of_planning =
            "schedule 60 20 2/in/const 7/enc 1 20 2/mul 0 2/enc 1 20 2/mul 3 4/us 5 20/rs 6 1/us 5 20/rs 8 1/mul 7 9/out 10/";
        let shown = "circuit 60 20 2/in/const 7/mul 0 1/mul 2 1/mul 3 3/out 4/";
        assert_eq!(quoted(shown, of_planning), [13, 111, 104]);
        // An H is written in the header: a tab and a digit more, and the same price.
        let with_headroom = |shown: &str| shown.replacen("20 2/", "20 2 5/", 1);
        assert_eq!(quoted(&with_headroom(shown), &with_headroom(of_planning)), [13, 113, 104]);
    }

    #[test]
    fn quote_of_a_header_alone() {
        assert_eq!(quoted("circuit 60 20 1/", "schedule 60 20 1/"), [1, 17, 0]);
        assert_eq!(quoted("circuit 1 1 1/", "schedule 1 1 1/"), [1, 15, 0]);
        assert_eq!(quoted("circuit 60 20 1 5/", "schedule 60 20 1 5/"), [1, 19, 0]);
        assert_eq!(quoted("circuit 60 60 60 60/", "schedule 60 60 60 60/"), [1, 21, 0]);
        // These lines have no price.
        assert_eq!(quoted("circuit 60 20 2/in/const 7/out 0/", "schedule 60 20 2/in/const 7/out 0/"), [4, 17 + 3 + 8 + 6, 0]);
    }

    /// F = W = 60, L = 4. The input has reserve 180, the first product 120 at level 4, the second 60 at level 3, where m(120) = 3. The sum is at
    /// m(60) = 2: the input spends 120 on two modswitches. Price: `enc` 2·4, `mul` 4·4, `rs` 6·4, `enc` 2·3, `mul` 4·3, `ms` by 2 is 4 + 3, `rs` 6·3,
    /// `add` 2: 8 + 16 + 24 + 6 + 12 + 7 + 18 + 2 = 93.
    #[test]
    fn quote_with_two_modswitches() {
        let of_planning = "schedule 60 60 4/in/const 7/enc 1 60 4/mul 0 2/rs 3 1/enc 1 60 3/mul 4 5/ms 0 2/rs 6 1/add 7 8/";
        // 17 + 3 + 8 + 11 + 8 + 7 + 11 + 8 + 7 + 7 + 8 bytes.
        assert_eq!(quoted("circuit 60 60 4/in/const 7/mul 0 1/mul 2 1/add 0 3/", of_planning), [11, 95, 93]);
    }

    /// F = 10, W = 20, L = 5. The input has reserve 30 and m = 5; its square has 30 + 30 − 50 = 10 at level 5, more than 40 − 40 at level 4, and m(10) = 3.
    /// Price: `mul` 40·5, `rs` by 2 is 6·5 + 6·4, `neg` 3: 200 + 54 + 3 = 257.
    #[test]
    fn quote_with_two_rescales() {
        assert_eq!(
            quoted("circuit 10 20 5/in/mul 0 0/neg 1/", "schedule 10 20 5/in/mul 0 0/rs 1 2/neg 2/"),
            [5, 17 + 3 + 8 + 7 + 6, 257]
        );
    }

    /// At L = 3 with F = 60 and W = 20 an input has m = 3, and so has its product: all lines are at level 3.
    #[test]
    fn quotes_of_one_line() {
        let of_line = |line: &str, planned: &str| {
            let of_planning = format!("schedule 60 20 3/in/const 7/{planned}/");
            quoted(&format!("circuit 60 20 3/in/const 7/{line}/"), &of_planning)[2]
        };
        assert_eq!(of_line("mul 0 0", "mul 0 0"), 40 * 3);
        // With a constant, in either place, 4·3 and its `enc` at 2·3.
        assert_eq!(of_line("mul 0 1", "enc 1 20 3/mul 0 2"), 12 + 6);
        assert_eq!(of_line("mul 1 0", "enc 1 20 3/mul 2 0"), 12 + 6);
        assert_eq!(of_line("rot 0 -32767", "rot 0 -32767"), 32 * 3);
        assert_eq!(of_line("neg 0", "neg 0"), 3);
        assert_eq!(of_line("add 0 0", "add 0 0"), 3);
        assert_eq!(of_line("add 0 1", "enc 1 20 3/add 0 2"), 3 + 6);
        assert_eq!(of_line("add 1 0", "enc 1 20 3/add 2 0"), 3 + 6);
    }

    /// The planner's own refusals, and no numbers with them.
    #[test]
    fn refused_quotes() {
        let refused = |number, place| QuoteReply { number, file: 1, place, lines: 0, bytes: 0, price: 0 };
        for (shown, number, place) in [
            ("", 1, 1),
            ("schedule 60 20 1/", 1, 1),
            ("circuit 60 20 1/in", 1, 2),
            ("circuit 60 20 61/in/", 2, 1),
            ("circuit 60 20 1/in/neg 1/", 4, 3),
            ("circuit 60 20 1/const 7/neg 0/", 5, 3),
            ("circuit 60 20 1/in/rot 0 -32768/", 11, 3),
            ("circuit 60 20 1/in/mul 0 0/mul 1 1/", 6, 4),
            ("circuit 60 20 2 21/in/const 7/mul 0 1/mul 2 1/mul 3 3/out 4/", 6, 6),
            ("circuit 59 60 1/in/", 6, 2),
        ] {
            assert_eq!(quote(&bytes(shown)), refused(number, place), "{shown}");
            assert_eq!(plan(&bytes(shown), &mut []), refused(number, place).of_planning(), "{shown}");
        }
        assert_eq!(quote(&bytes(&format!("circuit 60 20 1/{}", "in/".repeat(257)))), refused(3, 258));
    }

    fn refused_at(number: u32, place: u32) -> Reply {
        Reply { number, file: u32::from(place > 0), place, length: 0 }
    }

    /// An input that is named by a sum and by an output, a constant, its encoding, and the sum, which nobody names.
    #[test]
    fn answers_about_each_value() {
        let schedule = bytes("schedule 60 20 1/in/const 7/enc 1 20 1/add 0 2/out 0/");
        let answers = |value| [0, 1, 2, 3, 4].map(|line| may_drop(&schedule, value, line).length);
        assert_eq!([answers(0), answers(1), answers(2)], [[0, 0, 0, 0, 1], [0, 0, 1, 1, 1], [0, 0, 0, 1, 1]]);
        assert_eq!([answers(3), answers(4)], [[0, 0, 0, 1, 1], [0, 0, 0, 0, 1]]);
        assert_eq!([0, 1, 2, 3, 4].map(|line| live_after(&schedule, line)), [1, 1, 1, 1, 0].map(Reply::success));
        assert_eq!(live_peak(&schedule), Reply::success(1));
        let mut out = [b'#'; 22];
        assert_eq!(live(&schedule, &mut out), Reply::success(20));
        assert_eq!(out[..], *b"\x04\0\x01\0\x02\0\x01\0\x03\0\x01\0\x03\0\x01\0\x04\0\0\0##");
        assert_eq!(live(&schedule, &mut out[..19]), Reply::too_short());
        assert_eq!(live(&schedule, &mut out[..20]), Reply::success(20));
    }

    /// A line or value that the schedule lacks, also one that it has modulo two to the 16.
    #[test]
    fn numbers_that_a_schedule_lacks() {
        let schedule = bytes("schedule 60 20 1/in/neg 0/");
        for number in [2, 3, 65_535, 65_536, 65_537, 1 << 31, u32::MAX] {
            let replies = [(number, 0), (0, number), (number, number)].map(|(value, line)| may_drop(&schedule, value, line));
            assert_eq!(replies, [refused_at(4, 0); 3], "{number}");
            assert_eq!(live_after(&schedule, number), refused_at(4, 0), "{number}");
        }
        let alone = bytes("schedule 60 20 1 5/");
        assert_eq!([may_drop(&alone, 0, 0), live_after(&alone, 0)], [refused_at(4, 0); 2]);
        assert_eq!([live_peak(&alone), live(&alone, &mut [])], [Reply::success(0); 2]);
    }

    /// The file's refusals come before the caller's, and only reading is asked of the file.
    #[test]
    fn live_ciphertexts_of_any_file() {
        for (shown, number, place) in [
            ("", 1, 1),
            ("circuit 60 20 1/in/", 1, 1),
            ("schedule 60 61 1/in/", 2, 1),
            ("schedule 60 20 1/in/neg 1/", 4, 3),
            ("schedule 60 20 1/const 7/neg 0/", 5, 3),
            ("schedule 60 20 1/in/us 0 3601/", 11, 3),
            ("schedule 60 20 1/in/ds 0/", 1, 3),
        ] {
            let schedule = bytes(shown);
            for number_asked in [0, u32::MAX] {
                let drop = may_drop(&schedule, number_asked, number_asked);
                assert_eq!([drop, live_after(&schedule, number_asked)], [refused_at(number, place); 2], "{shown}");
            }
            let mut out = [b'#'; 9];
            let replies = [live_peak(&schedule), live(&schedule, &mut []), live(&schedule, &mut out)];
            assert_eq!((replies, out), ([refused_at(number, place); 3], [b'#'; 9]), "{shown}");
        }
        // Rules that are broken, and as many kept lines as there can be.
        assert_eq!(live_peak(&bytes("schedule 60 20 1/in/ms 0 60/add 0 1/")), Reply::success(2));
        let full = format!("schedule 60 20 1/{}", "in/".repeat(1_791));
        assert_eq!(live_after(&bytes(&format!("{full}neg 0/")), 1_790), Reply::success(1));
        assert_eq!(live_peak(&bytes(&format!("{full}neg 0/in/"))), refused_at(3, 1_794));
    }

    #[test]
    fn files_are_named_in_the_order_read() {
        let circuit = bytes("circuit 60 20 1/in/");
        let refused = |number, file, place| Reply { number, file, place, length: 0 };
        assert_eq!(check(b"", b""), refused(1, 1, 1));
        assert_eq!(check(&circuit, b""), refused(1, 2, 1));
        assert_eq!(check(&circuit, &bytes("schedule 60 20 1/")), refused(12, 1, 2));
        assert_eq!(check(&circuit, &bytes("schedule 60 20 1/in/us 0 41/")), refused(9, 2, 3));
        assert_eq!(check(&circuit, &bytes("schedule 60 20 2/in/us 0 41/")), refused(12, 1, 1));
    }
}
