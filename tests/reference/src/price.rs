//! The price of a schedule that keeps the rules of a line: document 02, Job 4.

use crate::text::{File, Line, ValueKind, SCHEDULE_LINES};

/// "Price per level at which an operation starts"; "`in`, `const`, `out` nothing".
const MUL_OF_TWO: u32 = 40;
const ROT: u32 = 32;
const RESCALE: u32 = 6;
const MUL_WITH_CONSTANT: u32 = 4;
const UPSCALE: u32 = 4;
const ENC: u32 = 2;
const ADD: u32 = 1;
const NEG: u32 = 1;
const MODSWITCH: u32 = 1;

/// "Price is that number times the operand's level, for `enc` times E." Two operands stand at the same level.
pub fn price(schedule: &File) -> u32 {
    // The level of each line; a bare constant has none, and no price asks for it.
    let mut levels = [0; SCHEDULE_LINES];
    let mut price = 0;
    for (n, &line) in schedule.lines().iter().enumerate() {
        let own;
        (own, levels[n]) = price_and_level(schedule, line, &levels);
        price += own;
    }
    price
}

/// The price of a line, and the level of its value.
fn price_and_level(schedule: &File, line: Line, levels: &[u32; SCHEDULE_LINES]) -> (u32, u32) {
    let at = |operand: u16| levels[usize::from(operand)];
    match line {
        Line::In => (0, schedule.header.top_level as u32),
        Line::Const { .. } => (0, 0),
        Line::Out { a } => (0, at(a)),
        Line::Neg { a } => (NEG * at(a), at(a)),
        Line::Rot { a, .. } => (ROT * at(a), at(a)),
        Line::Add { a, .. } => (ADD * at(a), at(a)),
        Line::Mul { a, b } => (price_of_mul(schedule, a, b) * at(a), at(a)),
        Line::Enc { level, .. } => (ENC * u32::from(level), u32::from(level)),
        Line::Rescale { a, count } => (RESCALE * sum_of_levels(at(a), u32::from(count)), at(a) - u32::from(count)),
        Line::Modswitch { a, count } => (MODSWITCH * sum_of_levels(at(a), u32::from(count)), at(a) - u32::from(count)),
        Line::Upscale { a, .. } => (UPSCALE * at(a), at(a)),
        Line::Downscale { .. } => unreachable!("a schedule has no `ds`"),
    }
}

fn price_of_mul(schedule: &File, a: u16, b: u16) -> u32 {
    let is_encoded = |operand: u16| schedule.lines()[usize::from(operand)].kind() == ValueKind::Encoded;
    if is_encoded(a) || is_encoded(b) {
        MUL_WITH_CONSTANT
    } else {
        MUL_OF_TWO
    }
}

/// "Each of the C rescales or modswitches is priced at its own level": l, l − 1 and on to l − C + 1.
fn sum_of_levels(level: u32, count: u32) -> u32 {
    count * (2 * level + 1 - count) / 2
}

#[cfg(test)]
mod tests {
    use super::*;
    use crate::text::{file_of, Reading};

    fn price_of(shown: &str) -> u32 {
        let bytes = shown.replace('/', "\n").replace(' ', "\t");
        match file_of(bytes.as_bytes(), Reading::Schedule) {
            Ok(schedule) => price(&schedule),
            Err(refusal) => panic!("{refusal:?}"),
        }
    }

    #[test]
    fn sums_of_levels() {
        assert_eq!([sum_of_levels(5, 1), sum_of_levels(5, 2), sum_of_levels(5, 4)], [5, 5 + 4, 5 + 4 + 3 + 2]);
        // 60 + 59 + .. + 2 is 60·61/2 less 1.
        assert_eq!([sum_of_levels(60, 59), sum_of_levels(1, 1)], [1829, 1]);
    }

    /// Each line alone after an input and an encoded constant at level 3, which is 2·3.
    #[test]
    fn each_line_at_its_level() {
        let base = "schedule 60 20 3/in/const 7/enc 1 20 3/";
        assert_eq!([price_of("schedule 60 20 3/in/const 7/out 0/"), price_of(base)], [0, 6]);
        let of_line = |line: &str| price_of(&format!("{base}{line}/")) - 6;
        assert_eq!([of_line("mul 0 0"), of_line("mul 0 2"), of_line("mul 2 0")], [40 * 3, 4 * 3, 4 * 3]);
        assert_eq!([of_line("add 0 0"), of_line("add 0 2"), of_line("add 2 0")], [3; 3]);
        assert_eq!([of_line("rot 0 0"), of_line("rot 0 -5"), of_line("neg 0"), of_line("us 0 1")], [96, 96, 3, 12]);
        assert_eq!([of_line("ms 0 1"), of_line("ms 0 2"), of_line("in"), of_line("const 8")], [3, 3 + 2, 0, 0]);
        // A constant at E = 1, whatever the level of others.
        assert_eq!(of_line("enc 1 20 1"), 2);
        // `us` 0 1 at level 3 is 12; rescales are 6 each at 3 and at 2.
        assert_eq!([of_line("us 0 60/rs 3 1"), of_line("us 0 120/rs 3 2")], [12 + 18, 12 + 18 + 12]);
        // What follows is priced at the level reached.
        assert_eq!(of_line("ms 0 2/rot 3 1/us 3 1/neg 5/out 6/mul 3 3"), 5 + 32 + 4 + 1 + 40);
    }
}
