//! The rising-level dialect of document 02, Job 2: the rules of a listing, and the conversion each way. Here "levels count up from 0", so the
//! modulus at level k has F·(L − k) bits.

use crate::check::{self, Standing};
use crate::text::{File, Header, Line, Refusal, SCHEDULE_LINES};

/// Converts a listing that keeps its own dialect's rules into a free table: all rules first, then 3 "at the first line that no longer fits".
pub fn to_schedule(listing: &File, schedule: &mut File) -> Result<(), Refusal> {
    let mut held = [Standing::default(); SCHEDULE_LINES];
    keep_rules(listing, &mut held)?;
    convert(listing, &held, schedule)
}

/// Converts a schedule that keeps the rules into a free table. "Going out, nothing is folded into `ds`."
pub fn to_listing(schedule: &File, listing: &mut File) -> Result<(), Refusal> {
    check::keep_rules(schedule, &mut [Standing::default(); SCHEDULE_LINES])?;
    listing.header = schedule.header;
    for &line in schedule.lines() {
        listing.push(turned(&schedule.header, line));
    }
    Ok(())
}

/// "In `enc`, level E becomes L − E": the same both ways.
pub fn turned(header: &Header, line: Line) -> Line {
    match line {
        Line::Enc { a, scale, level } => Line::Enc { a, scale, level: header.top_level as u8 - level },
        other => other,
    }
}

/// Where the lines of a listing stand, up to the first that breaks a rule: per line 7, 8, 10, 14, 9.
pub fn keep_rules(listing: &File, held: &mut [Standing; SCHEDULE_LINES]) -> Result<(), Refusal> {
    // A bare constant holds no scale; its entry is never looked at, since no rule names it.
    for (n, &line) in listing.lines().iter().enumerate() {
        let standing = standing_after(&listing.header, line, held).map_err(|number| Refusal::at_value(number, n))?;
        held[n] = standing.unwrap_or_default();
    }
    Ok(())
}

/// Where each line stands by its remaining level, none for a bare constant, up to the first that breaks a rule, and that one where it has a scale.
pub fn standings(listing: &File) -> Vec<Option<Standing>> {
    let mut held = [Standing::default(); SCHEDULE_LINES];
    let count = match keep_rules(listing, &mut held) {
        Ok(()) => listing.lines().len(),
        Err(refusal) => refusal.place as usize - 1,
    };
    let remaining = |standing: Standing| Standing { level: listing.header.top_level - standing.level, ..standing };
    let standing = |&line: &Line| moved(&listing.header, line, &held).ok().flatten().map(remaining);
    listing.lines()[..count].iter().map(standing).collect()
}

/// Where a line stands that keeps the rules; a bare constant stands nowhere.
pub fn standing_after(header: &Header, line: Line, held: &[Standing]) -> Result<Option<Standing>, u32> {
    match moved(header, line, held)? {
        Some(standing) if standing.scale < header.waterline => Err(10),
        Some(standing) if is_above_modulus(header, standing) => Err(9),
        standing => Ok(standing),
    }
}

/// Where a line's operands bring it: 7 and 8, and 14 and 9 of a `ds`.
fn moved(header: &Header, line: Line, held: &[Standing]) -> Result<Option<Standing>, u32> {
    let at = |operand: u16| held[usize::from(operand)];
    Ok(Some(match line {
        Line::In => Standing { scale: header.waterline, level: 0 },
        Line::Const { .. } => return Ok(None),
        Line::Neg { a } | Line::Rot { a, .. } | Line::Out { a } => at(a),
        Line::Add { a, b } | Line::Mul { a, b } if at(a).level != at(b).level => return Err(7),
        Line::Add { a, b } if at(a).scale != at(b).scale => return Err(8),
        Line::Add { a, .. } => at(a),
        Line::Mul { a, b } => Standing { scale: at(a).scale + at(b).scale, ..at(a) },
        Line::Enc { scale, level, .. } => Standing { scale: i32::from(scale), level: i32::from(level) },
        Line::Rescale { a, count } => {
            Standing { scale: at(a).scale - header.factor * i32::from(count), level: at(a).level + i32::from(count) }
        }
        Line::Modswitch { a, count } => Standing { level: at(a).level + i32::from(count), ..at(a) },
        Line::Upscale { a, bits } => Standing { scale: at(a).scale + i32::from(bits), ..at(a) },
        Line::Downscale { a } => downscaled(header, at(a))?,
    }))
}

/// "A `ds A` line, downscale, brings a ciphertext to W one level further on", "`ds` being legal where its two lines are": its `us` to W + F must
/// raise the scale, else 14, and stay within the modulus, else 9. The `rs` then lands on W, as far within the modulus one level on.
fn downscaled(header: &Header, operand: Standing) -> Result<Standing, u32> {
    let raised = Standing { scale: header.waterline + header.factor, ..operand };
    if operand.scale >= raised.scale {
        Err(14)
    } else if is_above_modulus(header, raised) {
        Err(9)
    } else {
        Ok(Standing { scale: header.waterline, level: operand.level + 1 })
    }
}

fn is_above_modulus(header: &Header, standing: Standing) -> bool {
    !header.has_room_for(standing.scale, header.top_level - standing.level)
}

/// "A `ds` at scale s becomes `us` by W + F − s and `rs` by 1"; what named it names the `rs`.
fn convert(listing: &File, held: &[Standing; SCHEDULE_LINES], schedule: &mut File) -> Result<(), Refusal> {
    let header = listing.header;
    schedule.header = header;
    // For each line of the listing the number of its line in the schedule.
    let mut numbers = [0; SCHEDULE_LINES];
    for (n, &line) in listing.lines().iter().enumerate() {
        let needed = if matches!(line, Line::Downscale { .. }) { 2 } else { 1 };
        if schedule.lines().len() + needed > SCHEDULE_LINES {
            return Err(Refusal::at_value(3, n));
        }
        let number = |operand: u16| numbers[usize::from(operand)];
        numbers[n] = match line {
            Line::Downscale { a } => {
                let bits = header.waterline + header.factor - held[usize::from(a)].scale;
                let raised = schedule.push(Line::Upscale { a: number(a), bits: bits as u16 });
                schedule.push(Line::Rescale { a: raised, count: 1 })
            }
            other => schedule.push(turned(&header, other).with_operands(number)),
        };
    }
    Ok(())
}

#[cfg(test)]
mod tests {
    use crate::services::{check, erase, from_rising, to_rising, Reply};
    use std::fs;
    use std::path::Path;

    /// Tests write spaces for tabs and `/` for line ends, as document 01 does.
    fn bytes(shown: &str) -> Vec<u8> {
        shown.replace('/', "\n").replace(' ', "\t").into_bytes()
    }

    fn refused(number: u32, place: u32) -> Reply {
        Reply { number, file: 1, place, length: 0 }
    }

    fn written(service: fn(&[u8], &mut [u8]) -> Reply, text: &[u8]) -> Result<Vec<u8>, Reply> {
        let mut out = vec![b'#'; 32_768];
        let reply = service(text, &mut out);
        let (result, rest) = out.split_at(reply.length as usize);
        assert!(rest.iter().all(|&byte| byte == b'#'));
        match reply {
            Reply { number: 0, file: 0, place: 0, .. } => Ok(result.to_vec()),
            reply => Err(reply),
        }
    }

    fn into_schedule(listing: &str) -> Result<Vec<u8>, Reply> {
        written(from_rising, &bytes(listing))
    }

    fn into_listing(schedule: &str) -> Result<Vec<u8>, Reply> {
        written(to_rising, &bytes(schedule))
    }

    /// Converts, and the check passes what was converted against its own erasure.
    fn converts(listing: &str, schedule: &str) {
        let converted = into_schedule(listing);
        assert_eq!(converted, Ok(bytes(schedule)), "{listing}");
        passes(&bytes(schedule));
    }

    fn passes(schedule: &[u8]) {
        let erasure = written(erase, schedule).expect("it erases");
        assert_eq!(check(&erasure, schedule).number, 0);
    }

    fn is_refused(listing: &str, number: u32, place: u32) {
        assert_eq!(into_schedule(listing), Err(refused(number, place)), "{listing}");
    }

    fn is_refused_out(schedule: &str, number: u32, place: u32) {
        assert_eq!(into_listing(schedule), Err(refused(number, place)), "{schedule}");
    }

    /// Converts in, and the schedule comes out again as the listing.
    fn goes_there_and_back(listing: &str, schedule: &str) {
        converts(listing, schedule);
        assert_eq!(into_listing(schedule), Ok(bytes(listing)), "{schedule}");
    }

    #[test]
    fn levels_turn_round() {
        goes_there_and_back("rising 60 20 2/", "schedule 60 20 2/");
        goes_there_and_back("rising 60 20 2/const 7/enc 0 20 0/", "schedule 60 20 2/const 7/enc 0 20 2/");
        goes_there_and_back("rising 60 20 2/const 7/enc 0 20 1/", "schedule 60 20 2/const 7/enc 0 20 1/");
        goes_there_and_back("rising 60 20 60/const 7/enc 0 60 59/", "schedule 60 20 60/const 7/enc 0 60 1/");
        goes_there_and_back("rising 60 20 60/const 7/enc 0 3600 0/", "schedule 60 20 60/const 7/enc 0 3600 60/");
        goes_there_and_back(
            "rising 60 20 3/in/const 4294967295/enc 1 20 0/mul 0 2/us 3 40/rs 4 1/ms 5 1/rot 6 -32767/neg 7/enc 1 20 2/add 8 9/out 10/",
            "schedule 60 20 3/in/const 4294967295/enc 1 20 3/mul 0 2/us 3 40/rs 4 1/ms 5 1/rot 6 -32767/neg 7/enc 1 20 1/add 8 9/out 10/",
        );
    }

    #[test]
    fn a_level_outside_its_range() {
        let enc = |header: &str, level: &str| format!("{header}/const 7/enc 0 20 {level}/");
        is_refused(&enc("rising 60 20 2", "2"), 11, 3);
        is_refused(&enc("rising 60 20 1", "1"), 11, 3);
        is_refused(&enc("rising 60 20 2", "65537"), 11, 3);
        is_refused(&enc("rising 60 20 2", "4294967297"), 11, 3);
        is_refused(&enc("rising 60 20 2", "-1"), 1, 3);
        is_refused(&enc("rising 60 20 2", "00"), 1, 3);
        is_refused_out(&enc("schedule 60 20 2", "0"), 11, 3);
        is_refused_out(&enc("schedule 60 20 2", "3"), 11, 3);
    }

    /// F = 60, W = 20: a `ds` at scale 20 becomes `us` by 60 to 80 and `rs` to 20, at scale 79 a `us` by 1; 80 is not below W + F.
    #[test]
    fn scales_of_a_downscale() {
        converts("rising 60 20 2/in/ds 0/", "schedule 60 20 2/in/us 0 60/rs 1 1/");
        converts("rising 60 20 2/in/us 0 59/ds 1/", "schedule 60 20 2/in/us 0 59/us 1 1/rs 2 1/");
        is_refused("rising 60 20 2/in/us 0 60/ds 1/", 14, 4);
        is_refused("rising 60 20 2/in/us 0 100/ds 1/", 14, 4);
        // W = 60, F = 60: 120 is the whole modulus at level 2.
        converts("rising 60 60 2/in/us 0 59/ds 1/", "schedule 60 60 2/in/us 0 59/us 1 1/rs 2 1/");
        is_refused("rising 60 60 2/in/us 0 60/ds 1/", 14, 4);
    }

    /// At remaining level 1 its `us` is above the modulus whatever the scale. F = 59, W = 60: 119 is one above the modulus at level 2.
    #[test]
    fn levels_of_a_downscale() {
        is_refused("rising 60 20 1/in/ds 0/", 9, 3);
        is_refused("rising 60 20 1/in/us 0 40/ds 1/", 9, 4);
        is_refused("rising 60 1 2/in/ds 0/ds 1/", 9, 4);
        is_refused("rising 60 20 2/in/ms 0 1/ds 1/", 9, 4);
        is_refused("rising 59 60 2/in/ds 0/", 9, 3);
        converts("rising 59 60 3/in/ds 0/", "schedule 59 60 3/in/us 0 59/rs 1 1/");
        converts("rising 60 60 3/in/ds 0/ds 1/", "schedule 60 60 3/in/us 0 60/rs 1 1/us 2 60/rs 3 1/");
        // No operand breaks both, since its own scale is within the modulus. F = 10, W = 60: at remaining level 7 the modulus is W + F.
        is_refused("rising 10 60 7/in/us 0 10/ds 1/", 14, 4);
        is_refused("rising 10 60 7/in/ms 0 1/ds 1/", 9, 4);
    }

    /// "In all three headers", and written through each way. At remaining level 2 a `ds` leaves 120 − 80 = 40 bits, and at level 1 its `rs` as many.
    #[test]
    fn the_headroom_of_a_listing() {
        converts("rising 60 20 2 40/in/ds 0/", "schedule 60 20 2 40/in/us 0 60/rs 1 1/");
        is_refused("rising 60 20 2 41/in/ds 0/", 9, 3);
        is_refused("rising 60 20 2 40/in/ms 0 1/ds 1/", 9, 4);
        converts("rising 60 20 3 40/in/ms 0 1/ds 1/", "schedule 60 20 3 40/in/ms 0 1/us 1 60/rs 2 1/");
        // A scale of W + F leaves as many bits, so 14 and 9 do not meet here either.
        is_refused("rising 60 20 2 40/in/us 0 60/ds 1/", 14, 4);
        is_refused("rising 60 20 2 41/in/us 0 60/ds 1/", 9, 3);
        goes_there_and_back("rising 60 20 1 40/in/", "schedule 60 20 1 40/in/");
        is_refused("rising 60 20 1 41/in/", 9, 2);
        is_refused_out("schedule 60 20 1 41/in/", 9, 2);
        goes_there_and_back("rising 60 20 3 5/const 7/enc 0 55 2/", "schedule 60 20 3 5/const 7/enc 0 55 1/");
        is_refused("rising 60 20 3 5/const 7/enc 0 56 2/", 9, 3);
        is_refused_out("schedule 60 20 3 5/const 7/enc 0 56 1/", 9, 3);
        goes_there_and_back("rising 60 20 2 1/", "schedule 60 20 2 1/");
        goes_there_and_back("rising 60 20 2 60/in/us 0 40/", "schedule 60 20 2 60/in/us 0 40/");
        is_refused("rising 60 20 2 60/in/us 0 41/", 9, 3);
        is_refused("rising 60 20 2 /in/", 1, 1);
        is_refused("rising 60 20 2 0/in/", 2, 1);
        is_refused("rising 60 20 2 61/in/", 2, 1);
        is_refused_out("schedule 60 20 2 0/in/", 2, 1);
        is_refused_out("schedule 60 20 2 /in/", 1, 1);
    }

    /// Whatever names a `ds` names its `rs`, also another `ds`; equal conversions are not shared.
    #[test]
    fn users_of_a_downscale() {
        converts(
            "rising 60 20 3/in/ds 0/ds 0/mul 1 2/neg 1/ds 1/rot 5 3/const 9/enc 7 20 2/add 6 8/out 9/ds 3/out 0/",
            "schedule 60 20 3/in/us 0 60/rs 1 1/us 0 60/rs 3 1/mul 2 4/neg 2/us 2 60/rs 7 1/rot 8 3/const 9/enc 10 20 1/add 9 11/out 12\
             /us 5 40/rs 14 1/out 0/",
        );
    }

    /// Document 000, Fig. 2b and 2c, with its own `downscale`, against the examples that write each as an upscale and a rescale.
    #[test]
    fn the_schedules_of_document_000() {
        let folder = Path::new(env!("CARGO_MANIFEST_DIR")).join("../../examples");
        for (name, listing) in [
            ("proactive", "rising 60 20 2/in/in/mul 0 0/mul 1 1/add 2 3/mul 4 4/rs 5 1/ds 4/mul 6 7/out 8/"),
            ("early", "rising 60 20 2/in/in/mul 0 0/mul 1 1/add 2 3/ds 4/mul 5 5/mul 6 5/out 7/"),
        ] {
            let schedule = fs::read(folder.join(format!("cubed_sum.{name}.schedule"))).expect("an example");
            assert_eq!(into_schedule(listing), Ok(schedule.clone()), "{name}");
            passes(&schedule);
        }
    }

    #[test]
    fn rules_of_a_listing() {
        is_refused("rising 60 20 2/in/ms 0 1/mul 0 1/", 7, 4);
        is_refused("rising 60 20 2/in/ds 0/add 0 1/", 7, 4);
        is_refused("rising 60 20 2/in/const 1/enc 1 20 1/mul 0 2/", 7, 5);
        is_refused("rising 60 20 2/in/us 0 1/add 0 1/", 8, 4);
        is_refused("rising 60 20 2/in/us 0 40/ms 1 1/add 0 2/", 7, 5);
        is_refused("rising 60 20 2/in/us 0 59/rs 1 1/", 10, 4);
        is_refused("rising 60 20 2/in/us 0 100/rs 1 2/", 10, 4);
        is_refused("rising 60 20 2/in/rs 0 60/", 10, 3);
        is_refused("rising 60 20 2/const 1/enc 0 19 0/", 10, 3);
        is_refused("rising 60 20 2/in/us 0 101/", 9, 3);
        is_refused("rising 60 20 2/in/ms 0 2/", 9, 3);
        is_refused("rising 60 20 2/in/ms 0 60/", 9, 3);
        is_refused("rising 60 20 2/const 1/enc 0 61 1/", 9, 3);
        is_refused("rising 59 60 1/in/", 9, 2);
        // Lines before a broken rule may be `ds`: the place is the listing's own.
        is_refused("rising 60 20 4/in/ds 0/ds 1/ds 2/ds 3/", 9, 6);
        is_refused("rising 60 20 2/in/ds 0/us 1 41/", 9, 4);
    }

    #[test]
    fn rules_of_a_schedule_going_out() {
        is_refused_out("schedule 60 20 2/in/ms 0 1/mul 0 1/", 7, 4);
        is_refused_out("schedule 60 20 2/in/us 0 1/add 0 1/", 8, 4);
        is_refused_out("schedule 60 20 2/in/us 0 59/rs 1 1/", 10, 4);
        is_refused_out("schedule 60 20 2/in/us 0 101/", 9, 3);
        is_refused_out("schedule 59 60 1/in/", 9, 2);
        // Nothing is folded into `ds`.
        let out = into_listing("schedule 60 20 2/in/us 0 60/rs 1 1/");
        assert_eq!(out, Ok(bytes("rising 60 20 2/in/us 0 60/rs 1 1/")));
    }

    #[test]
    fn texts_not_of_the_form() {
        for (text, number, place) in [
            ("", 1, 1),
            ("rising 60 20 2", 1, 1),
            ("schedule 60 20 2/in/", 1, 1),
            ("circuit 60 20 2/in/", 1, 1),
            ("risin 60 20 2/", 1, 1),
            ("risings 60 20 2/", 1, 1),
            ("rising 60 20/", 1, 1),
            ("rising 60 20 2 1 1/", 1, 1),
            ("rising 61 20 2/", 2, 1),
            ("rising 60 0 2/", 2, 1),
            ("rising 60 20 4294967298/", 2, 1),
            ("rising 60 20 2/in/ds/", 1, 3),
            ("rising 60 20 2/in/ds 0 1/", 1, 3),
            ("rising 60 20 2/in/ds 00/", 1, 3),
            ("rising 60 20 2/in/ds -0/", 1, 3),
            ("rising 60 20 2/in/ds 100000000000/", 1, 3),
            ("rising 60 20 2/in/ds 0", 1, 3),
            ("rising 60 20 2/in/ds x/x/", 1, 3),
            ("rising 60 20 2/in/ds 1/", 4, 3),
            ("rising 60 20 2/in/ds 65536/", 4, 3),
            ("rising 60 20 2/in/ds 4294967296/", 4, 3),
            ("rising 60 20 2/in/ds 99999999999/", 4, 3),
            ("rising 60 20 2/in/out 0/ds 1/", 4, 4),
            ("rising 60 20 2/const 1/ds 0/", 5, 3),
            ("rising 60 20 2/const 1/enc 0 20 0/ds 1/", 5, 4),
            ("rising 60 20 2/in/ds 0/enc 1 20 0/", 5, 4),
            ("rising 60 20 2/const 4294967296/", 11, 2),
            ("rising 60 20 2/in/rs 0 61/", 11, 3),
            ("rising 60 20 2/in/us 0 3601/", 11, 3),
            // All is read before a rule is asked for.
            ("rising 60 20 1/in/ds 0/x/", 1, 4),
        ] {
            is_refused(text, number, place);
        }
        is_refused_out("rising 60 20 2/in/", 1, 1);
        is_refused_out("schedule 60 20 2/in/ds 0/", 1, 3);
        is_refused_out("schedule 60 20 2/in/us 0 101/x/", 1, 4);
    }

    #[test]
    fn lines_while_reading() {
        let listing =
            |kept: usize, downscales: usize| format!("rising 60 20 2/{}{}", "in/".repeat(kept), "ds 0/".repeat(downscales));
        is_refused(&listing(257, 0), 3, 258);
        is_refused(&format!("{}in x", listing(256, 1)), 3, 259);
        is_refused(&format!("{}x/", listing(256, 1)), 1, 259);
        assert!(into_schedule(&listing(256, 768)).is_ok());
        // The 1,793rd line is too many before any rule is asked for, and whatever stands there.
        let full = format!("rising 60 20 1/in/{}", "ds 0/".repeat(1791));
        is_refused(&full, 9, 3);
        is_refused(&format!("{full}x"), 3, 1794);
        let full = format!("60 20 2/in/{}", "us 0 1/".repeat(1791));
        goes_there_and_back(&format!("rising {full}"), &format!("schedule {full}"));
        is_refused(&format!("rising {full}us 0 1/"), 3, 1794);
        is_refused_out(&format!("schedule {full}us 0 1/"), 3, 1794);
        let kept = format!("60 20 2/{}", "in/".repeat(256));
        goes_there_and_back(&format!("rising {kept}us 0 1/"), &format!("schedule {kept}us 0 1/"));
        is_refused_out(&format!("schedule {kept}us 0 1/in/"), 3, 259);
    }

    #[test]
    fn lines_after_conversion() {
        let listing =
            |kept: usize, downscales: usize| format!("rising 60 20 2/{}{}", "in/".repeat(kept), "ds 0/".repeat(downscales));
        let lines = |schedule: Result<Vec<u8>, Reply>| schedule.map(|text| text.split(|&byte| byte == b'\n').count() - 2);
        assert_eq!(lines(into_schedule(&listing(100, 846))), Ok(1792));
        passes(&into_schedule(&listing(100, 846)).unwrap());
        is_refused(&listing(100, 847), 3, 948);
        is_refused(&format!("{}in/", listing(100, 846)), 3, 948);
        // Of the last `ds` only the `us` fits.
        is_refused(&listing(101, 846), 3, 948);
        assert_eq!(lines(into_schedule(&format!("{}in/", listing(101, 845)))), Ok(1792));
        // The first line that no longer fits, not the last.
        is_refused(&format!("{}in/in/in/", listing(100, 847)), 3, 948);
        // A rule that is broken further down comes first, and so does a damaged line.
        is_refused(&format!("{}us 0 101/", listing(100, 847)), 9, 949);
        is_refused(&format!("{}us 0 60/ds 947/", listing(100, 847)), 14, 950);
        is_refused(&format!("{}x/", listing(100, 847)), 1, 949);
    }

    #[test]
    fn a_buffer_too_short_is_told_last() {
        let too_short = Reply { number: 13, file: 0, place: 0, length: 0 };
        let (listing, schedule) = (bytes("rising 60 20 2/in/ds 0/"), bytes("schedule 60 20 2/in/us 0 60/rs 1 1/"));
        let mut out = vec![b'#'; schedule.len() - 1];
        assert_eq!(from_rising(&listing, &mut out), too_short);
        assert!(out.iter().all(|&byte| byte == b'#'));
        assert_eq!(from_rising(&listing, &mut vec![0; schedule.len()]).length as usize, schedule.len());
        assert_eq!(to_rising(&schedule, &mut [0; 33]).length, 33);
        assert_eq!(to_rising(&schedule, &mut [0; 32]), too_short);
        assert_eq!([from_rising(&listing, &mut []), to_rising(&schedule, &mut [])], [too_short; 2]);
        // Everything else comes before.
        assert_eq!(from_rising(&bytes("rising 60 20 1/in/ds 0/"), &mut []), refused(9, 3));
        assert_eq!(from_rising(&bytes(&format!("rising 60 20 2/in/{}", "ds 0/".repeat(895))), &mut []), too_short);
        assert_eq!(from_rising(&bytes(&format!("rising 60 20 2/in/{}", "ds 0/".repeat(896))), &mut []), refused(3, 898));
        assert_eq!(to_rising(&bytes("schedule 60 20 1/in/us 0 41/"), &mut []), refused(9, 3));
    }
}
