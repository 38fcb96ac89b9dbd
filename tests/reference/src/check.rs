//! Checking a schedule against a circuit: 12, then per line 7, 8, 10, 9.

use crate::erase::erase;
use crate::text::{File, Header, Line, Refusal, ValueKind, SCHEDULE_LINES};

/// Scale and level of a ciphertext or encoded constant. A `rs` or `ms` past zero gives negative numbers.
#[derive(Clone, Copy, PartialEq, Eq, Debug, Default)]
pub struct Standing {
    pub scale: i32,
    pub level: i32,
}

/// "Then 6; or 12, then per line 7, 8, 10, 9."
pub fn check(circuit: &File, schedule: &File) -> Result<(), Refusal> {
    let mut erased = File::free();
    erase(schedule, &mut erased);
    if let Some(place) = first_difference(circuit, &erased) {
        return Err(Refusal { number: 12, place });
    }
    keep_rules(schedule, &mut [Standing::default(); SCHEDULE_LINES])
}

/// "place of the first circuit line that differs, or one past the shorter file"
fn first_difference(circuit: &File, erased: &File) -> Option<u32> {
    if circuit.header != erased.header {
        return Some(1);
    }
    let (ours, theirs) = (circuit.lines(), erased.lines());
    let equal = ours.iter().zip(theirs).take_while(|(one, other)| one == other).count();
    // Where one file is a beginning of the other, `equal` is the length of the shorter.
    (equal < ours.len() || equal < theirs.len()).then_some(equal as u32 + 2)
}

/// Fills in where the lines stand, up to the first that breaks a rule; for 9 and 10 also where that one would.
pub fn keep_rules(schedule: &File, held: &mut [Standing; SCHEDULE_LINES]) -> Result<(), Refusal> {
    let header = &schedule.header;
    // A bare constant holds no scale; its entry is never looked at, since no rule names it.
    for (n, &line) in schedule.lines().iter().enumerate() {
        let refused = |number| Refusal::at_value(number, n);
        if let Some(standing) = standing_after(header, line, held).map_err(refused)? {
            held[n] = standing;
            within_bounds(header, standing).map_err(refused)?;
        }
    }
    Ok(())
}

/// Where each line stands, none for a bare constant, up to the first that breaks a rule, and that one's refusal.
pub fn standings(schedule: &File) -> (Vec<Option<Standing>>, Option<Refusal>) {
    let mut held = [Standing::default(); SCHEDULE_LINES];
    let refusal = keep_rules(schedule, &mut held).err();
    let count = match refusal {
        None => schedule.lines().len(),
        Some(Refusal { number: 9 | 10, place }) => place as usize - 1,
        Some(Refusal { place, .. }) => place as usize - 2,
    };
    let standing = |(line, &standing): (&Line, &Standing)| (line.kind() != ValueKind::Constant).then_some(standing);
    (schedule.lines().iter().zip(&held).take(count).map(standing).collect(), refusal)
}

/// The reserve of each line that erasing keeps, none for a bare constant; the refusal where a rule is broken.
pub fn kept_reserves(schedule: &File) -> Result<Vec<Option<i32>>, Refusal> {
    let (held, refusal) = standings(schedule);
    let reserve = |standing: Standing| schedule.header.factor * standing.level - standing.scale;
    let kept = schedule.lines().iter().zip(held).filter(|(line, _)| line.struck_from().is_none());
    refusal.map_or_else(|| Ok(kept.map(|(_, standing)| standing.map(reserve)).collect()), Err)
}

/// Where a line's value stands, by the rules of a line: 7 and 8.
fn standing_after(header: &Header, line: Line, held: &[Standing]) -> Result<Option<Standing>, u32> {
    let at = |operand: u16| held[usize::from(operand)];
    Ok(Some(match line {
        Line::In => Standing { scale: header.waterline, level: header.top_level },
        Line::Const { .. } => return Ok(None),
        Line::Neg { a } | Line::Rot { a, .. } | Line::Out { a } => at(a),
        Line::Add { a, b } => {
            same_level(at(a), at(b))?;
            if at(a).scale != at(b).scale {
                return Err(8);
            }
            at(a)
        }
        Line::Mul { a, b } => {
            same_level(at(a), at(b))?;
            Standing { scale: at(a).scale + at(b).scale, level: at(a).level }
        }
        Line::Enc { scale, level, .. } => Standing { scale: i32::from(scale), level: i32::from(level) },
        Line::Rescale { a, count } => {
            Standing { scale: at(a).scale - header.factor * i32::from(count), level: at(a).level - i32::from(count) }
        }
        Line::Modswitch { a, count } => Standing { level: at(a).level - i32::from(count), ..at(a) },
        Line::Upscale { a, bits } => Standing { scale: at(a).scale + i32::from(bits), ..at(a) },
        Line::Downscale { .. } => unreachable!("a schedule has no `ds`"),
    }))
}

fn same_level(one: Standing, other: Standing) -> Result<(), u32> {
    if one.level == other.level {
        Ok(())
    } else {
        Err(7)
    }
}

/// "Every ciphertext or encoded constant has W ≤ scale ≤ F·level", H taken in.
fn within_bounds(header: &Header, standing: Standing) -> Result<(), u32> {
    if standing.scale < header.waterline {
        Err(10)
    } else if !header.has_room_for(standing.scale, standing.level) {
        Err(9)
    } else {
        Ok(())
    }
}

#[cfg(test)]
mod tests {
    use super::*;
    use crate::erase::erasure_of;
    use crate::plan::plan_of;
    use crate::text::{file_of, Reading};

    fn file(shown: &str, reading: Reading) -> File {
        let bytes = shown.replace('/', "\n").replace(' ', "\t");
        match file_of(bytes.as_bytes(), reading) {
            Ok(file) => file,
            Err(refusal) => panic!("{refusal:?}"),
        }
    }

    /// Checks a schedule against its own erasure.
    fn rules(shown: &str) -> Option<(u32, u32)> {
        let schedule = file(shown, Reading::Schedule);
        check(&erasure_of(&schedule), &schedule).err().map(|refusal| (refusal.number, refusal.place))
    }

    fn last_standing(schedule: &File) -> Standing {
        let mut held = [Standing::default(); SCHEDULE_LINES];
        let mut last = Standing::default();
        for (n, &line) in schedule.lines().iter().enumerate() {
            if let Ok(Some(standing)) = standing_after(&schedule.header, line, &held) {
                held[n] = standing;
                last = standing;
            }
        }
        last
    }

    #[test]
    fn worked_last_products() {
        let planned = |shown: &str| plan_of(&file(shown, Reading::Circuit)).ok();
        let square = planned("circuit 60 20 1/in/mul 0 0/").map(|schedule| last_standing(&schedule));
        assert_eq!(square, Some(Standing { scale: 40, level: 1 }));
        let eighth = planned("circuit 60 20 2/in/mul 0 0/mul 1 1/mul 2 2/").map(|schedule| last_standing(&schedule));
        assert_eq!(eighth, Some(Standing { scale: 40, level: 1 }));
    }

    #[test]
    fn worked_rules() {
        assert_eq!(rules("schedule 60 20 2/in/us 0 60/rs 1 1/"), None);
        assert_eq!(last_standing(&file("schedule 60 20 2/in/us 0 60/rs 1 1/", Reading::Schedule)).scale, 20);
        assert_eq!(rules("schedule 60 20 2/in/us 0 59/rs 1 1/"), Some((10, 4)));
        assert_eq!(rules("schedule 60 20 1/in/us 0 20/mul 0 1/"), None);
        assert_eq!(rules("schedule 60 20 1/in/us 0 21/mul 0 1/"), Some((9, 4)));
        assert_eq!(rules("schedule 59 60 1/in/"), Some((9, 2)));
    }

    /// Document 01's listing; then an `out` of a raised value, which leaves the value itself as it is.
    #[test]
    fn reserves_of_kept_lines() {
        let reserves = |shown: &str| kept_reserves(&file(shown, Reading::Schedule));
        let listing =
            "schedule 60 20 2/in/const 7/enc 1 20 2/mul 0 2/enc 1 20 2/mul 3 4/us 5 20/rs 6 1/us 5 20/rs 8 1/mul 7 9/out 10/";
        assert_eq!(reserves(listing), Ok(vec![Some(100), None, Some(80), Some(60), Some(20), Some(20)]));
        assert_eq!(reserves("schedule 60 20 2/in/us 0 7/out 1/neg 0/"), Ok(vec![Some(100), Some(93), Some(100)]));
        assert_eq!(reserves("schedule 60 20 2/in/neg 0/rs 0 1/"), Err(Refusal { number: 10, place: 4 }));
    }

    #[test]
    fn past_zero() {
        assert_eq!(rules("schedule 60 20 2/in/ms 0 2/"), Some((9, 3)));
        assert_eq!(rules("schedule 60 20 2/in/ms 0 60/"), Some((9, 3)));
        assert_eq!(rules("schedule 60 20 2/in/us 0 100/rs 1 2/"), Some((10, 4)));
        assert_eq!(rules("schedule 60 20 2/in/rs 0 60/"), Some((10, 3)));
    }

    #[test]
    fn operands_that_do_not_meet() {
        assert_eq!(rules("schedule 60 20 2/in/ms 0 1/mul 0 1/"), Some((7, 4)));
        assert_eq!(rules("schedule 60 20 2/in/us 0 1/add 0 1/"), Some((8, 4)));
        assert_eq!(rules("schedule 60 20 2/in/us 0 40/ms 1 1/add 0 2/"), Some((7, 5)));
        assert_eq!(rules("schedule 60 20 2/const 1/enc 0 19 2/"), Some((10, 3)));
        assert_eq!(rules("schedule 60 20 2/const 1/enc 0 61 1/"), Some((9, 3)));
    }

    /// "Each scale must satisfy scale + H ≤ F·level": at each kind of line that makes a scale or a level, just fitting and one bit more.
    #[test]
    fn scales_beside_the_headroom() {
        for (shown, place) in [
            ("schedule 60 20 1 N/in/", 2),
            ("schedule 60 20 2 N/in/ms 0 1/", 3),
            ("schedule 60 20 2 N/in/us 0 60/", 3),
            ("schedule 60 20 2 N/in/us 0 60/neg 0/rs 1 1/rot 3 1/", 3),
            ("schedule 60 20 2 N/in/us 0 40/mul 0 1/", 4),
            ("schedule 60 20 1 N/const 7/enc 0 20 1/", 3),
            ("schedule 60 20 2 N/const 7/enc 0 20 1/in/enc 0 80 2/", 3),
            ("schedule 60 20 2 N/const 7/in/enc 0 80 2/", 4),
        ] {
            assert_eq!(rules(&shown.replace('N', "40")), None, "{shown}");
            assert_eq!(rules(&shown.replace('N', "41")), Some((9, place)), "{shown}");
            assert_eq!(rules(&shown.replace(" N", "")), None, "{shown}");
        }
        // 7, 8 and 10 do not ask for H, and come before.
        assert_eq!(rules("schedule 60 20 2 60/in/us 0 39/rs 1 1/"), Some((10, 4)));
        assert_eq!(rules("schedule 60 20 3 60/in/ms 0 1/mul 0 1/"), Some((7, 4)));
        assert_eq!(rules("schedule 60 20 3 60/in/us 0 1/add 0 1/"), Some((8, 4)));
    }

    /// H is a number of the header: the circuit of another H, or of none, is another circuit, at place 1 and before every rule.
    #[test]
    fn another_headroom() {
        let checked = |[circuit, schedule]: [&str; 2], lines: &str| {
            let circuit = file(&format!("circuit 60 20 1{circuit}/in/"), Reading::Circuit);
            let schedule = file(&format!("schedule 60 20 1{schedule}/in/{lines}"), Reading::Schedule);
            check(&circuit, &schedule).err().map(|refusal| (refusal.number, refusal.place))
        };
        for headers in [["", " 5"], [" 5", ""], [" 5", " 6"], [" 1", ""], ["", " 1"], [" 60", " 6"]] {
            assert_eq!(checked(headers, ""), Some((12, 1)), "{headers:?}");
            assert_eq!(checked(headers, "us 0 60/neg 0/"), Some((12, 1)), "{headers:?}");
        }
        for headers in [["", ""], [" 5", " 5"], [" 40", " 40"]] {
            assert_eq!(checked(headers, ""), None, "{headers:?}");
            assert_eq!(checked(headers, "neg 0/"), Some((12, 3)), "{headers:?}");
        }
        assert_eq!(checked([" 41", " 41"], ""), Some((9, 2)));
    }

    #[test]
    fn another_circuit() {
        let schedule = file("schedule 60 20 2/in/us 0 1/out 1/", Reading::Schedule);
        let against = |shown: &str| check(&file(shown, Reading::Circuit), &schedule).err().map(|refusal| refusal.place);
        assert_eq!(against("circuit 60 20 2/in/out 0/"), None);
        assert_eq!(against("circuit 60 20 3/in/out 0/"), Some(1));
        assert_eq!(against("circuit 60 20 2/in/in/"), Some(3));
        assert_eq!(against("circuit 60 20 2/in/"), Some(3));
        assert_eq!(against("circuit 60 20 2/in/out 0/in/"), Some(4));
    }

    /// Constants that are the same modulo two to the 16 are two constants.
    #[test]
    fn another_constant() {
        let checked = |number: &str, other: &str| {
            let circuit = file(&format!("circuit 60 20 2/in/const {number}/add 0 1/"), Reading::Circuit);
            let schedule = file(&format!("schedule 60 20 2/in/const {other}/enc 1 20 2/add 0 2/"), Reading::Schedule);
            check(&circuit, &schedule).err().map(|refusal| (refusal.number, refusal.place))
        };
        for [number, other] in
            [["7", "65543"], ["0", "65536"], ["65535", "4294967295"], ["2147483647", "4294967295"], ["7", "8"]]
        {
            assert_eq!(checked(number, other), Some((12, 3)), "{number} {other}");
            assert_eq!(checked(other, number), Some((12, 3)), "{other} {number}");
            assert_eq!([checked(number, number), checked(other, other)], [None; 2]);
        }
    }
}
