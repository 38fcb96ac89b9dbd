//! The rising-level dialect: listings to schedules, schedules to listings, and what document 02 says of both.

use super::{expect, likely_circuit, rooms, schedule_by_hand};
use crate::both::{ample_for, Both, Outcome};
use crate::cases::{damage, files, listings};
use crate::check::{standings, Standing};
use crate::plan::plan_of;
use crate::random::Random;
use crate::rising;
use crate::services::Reply;
use crate::text::{bytes_of, File, Reading, SCHEDULE_LINES};

fn with_texts(what: &str, listing: &[u8], schedule: &[u8]) -> String {
    format!("{what}\n  listing:  {}\n  schedule: {}", listing.escape_ascii(), schedule.escape_ascii())
}

fn has_downscale(listing: &[u8]) -> bool {
    listing.split(|&byte| byte == b'\n').any(|line| line.starts_with(b"ds"))
}

/// Converts a listing. What was converted "passes the checker against its own erasure", and goes out again: as the listing where that has no `ds`,
/// else as another one of the same schedule.
pub fn services_of_listing(listing: &[u8], both: &mut Both) -> Result<Outcome, String> {
    let converted = both.from_rising(listing, ample_for(listing))?;
    if converted.reply.number != 0 {
        return Ok(converted);
    }
    let schedule = &converted.written;
    let otherwise = |what: &str| with_texts(what, listing, schedule);
    let erased = both.erase(schedule, ample_for(schedule))?;
    expect(erased.reply.number == 0, || otherwise("a converted listing does not erase"))?;
    let checked = both.check(&erased.written, schedule)?;
    expect(checked.reply.number == 0, || otherwise("a converted listing does not pass the check against its own erasure"))?;
    let back = both.to_rising(schedule, ample_for(schedule))?;
    if has_downscale(listing) {
        let again = both.from_rising(&back.written, ample_for(&back.written))?;
        expect(again.written == *schedule, || otherwise("the schedule of a listing is another one after going out"))?;
    } else {
        expect(back.written == listing, || otherwise("a listing without ds does not come back"))?;
        both.trips.of_listing += 1;
    }
    Ok(converted)
}

/// The listing of a schedule, and the schedule again. `checked` is the check's reply against the schedule's own erasure, if it has one: "a schedule
/// going out is held to the check's line rules likewise".
pub fn services_of_schedule(schedule: &[u8], checked: Option<Reply>, both: &mut Both) -> Result<(), String> {
    let out = both.to_rising(schedule, ample_for(schedule))?;
    let otherwise = |what: &str| with_texts(what, &out.written, schedule);
    if let Some(checked) = checked {
        let is_alike = [out.reply.number, out.reply.place] == [checked.number, checked.place];
        expect(is_alike, || otherwise(&format!("the check answers {checked:?}, going out {:?}", out.reply)))?;
    }
    if out.reply.number == 0 {
        expect(!has_downscale(&out.written), || otherwise("going out, a line is folded into ds"))?;
        let back = both.from_rising(&out.written, ample_for(&out.written))?;
        expect(back.written == schedule, || otherwise("a schedule that went out does not come back"))?;
        both.trips.of_schedule += 1;
    }
    Ok(())
}

/// A listing of the form. One without `ds` is refused where the check refuses the schedule with its levels turned.
pub fn any(random: &mut Random, both: &mut Both) -> Result<(), String> {
    let listing = files::listing(random);
    let text = bytes_of(&listing, Reading::Listing);
    let reply = services_of_listing(&text, both)?.reply;
    if !matches!(reply.number, 7..=10) || has_downscale(&text) {
        return Ok(());
    }
    let mut schedule = listing.clone();
    for (n, &line) in listing.lines().iter().enumerate() {
        schedule.replace(n, rising::turned(&listing.header, line));
    }
    let schedule = bytes_of(&schedule, Reading::Schedule);
    let erased = both.erase(&schedule, ample_for(&schedule))?;
    let checked = both.check(&erased.written, &schedule)?.reply;
    let is_alike = [reply.number, reply.place] == [checked.number, checked.place];
    expect(is_alike, || with_texts(&format!("the check answers {checked:?}, the conversion {reply:?}"), &text, &schedule))
}

/// A listing made line by line, or of a plan or of a schedule made by hand.
fn legal_listing(random: &mut Random) -> File {
    if random.percent(50) {
        return listings::legal(random);
    }
    folded_schedule(random).0
}

/// A schedule, and its listing with downscales folded.
fn folded_schedule(random: &mut Random) -> (File, File) {
    let schedule = match plan_of(&likely_circuit(random, 60)) {
        Ok(planned) if random.percent(50) => planned,
        _ => schedule_by_hand(random),
    };
    let share = random.pick(&[0, 50, 100, 100]);
    let listing = listings::folded(random, &schedule, &standings(&schedule).0, share);
    (listing, schedule)
}

/// Legal listings; one with folded downscales converts to the very schedule.
pub fn legal(random: &mut Random, both: &mut Both) -> Result<(), String> {
    if random.percent(50) {
        let text = bytes_of(&listings::legal(random), Reading::Listing);
        let reply = services_of_listing(&text, both)?.reply;
        return expect(matches!(reply.number, 0 | 3), || with_texts(&format!("a legal listing gets {reply:?}"), &text, &[]));
    }
    let (listing, schedule) = folded_schedule(random);
    let texts = [bytes_of(&listing, Reading::Listing), bytes_of(&schedule, Reading::Schedule)];
    let converted = services_of_listing(&texts[0], both)?;
    let is_schedule = converted.reply.number != 0 || converted.written == texts[1];
    expect(is_schedule, || with_texts("a listing with folded downscales is not the schedule", &texts[0], &texts[1]))
}

/// Slightly illegal listings, and downscales at scales around W + F.
pub fn spoiled(random: &mut Random, both: &mut Both) -> Result<(), String> {
    let mut listing = legal_listing(random);
    let mut held = [Standing::default(); SCHEDULE_LINES];
    if random.percent(40) && rising::keep_rules(&listing, &mut held).is_ok() {
        listings::add_sharp_downscale(random, &mut listing, &held);
    } else {
        listings::spoil(random, &mut listing);
    }
    services_of_listing(&bytes_of(&listing, Reading::Listing), both).map(|_| ())
}

pub fn damaged(random: &mut Random, both: &mut Both) -> Result<(), String> {
    let listing = if random.percent(50) { files::listing(random) } else { legal_listing(random) };
    let damaged = damage::damage(random, &bytes_of(&listing, Reading::Listing));
    services_of_listing(&damaged, both).map(|_| ())
}

/// Buffers of lengths around the needed one, each way.
pub fn buffers(random: &mut Random, both: &mut Both) -> Result<(), String> {
    let most_lines = random.pick(&[3, 10, 60]);
    let size = 1 + random.below(most_lines);
    let listing = bytes_of(&listings::legal_of_size(random, size), Reading::Listing);
    let converted = both.from_rising(&listing, ample_for(&listing))?;
    let needed = if converted.reply.number == 0 { converted.written.len() } else { 8 };
    for room in rooms(random, needed) {
        both.from_rising(&listing, room)?;
    }
    let schedule =
        if converted.reply.number == 0 { converted.written } else { bytes_of(&schedule_by_hand(random), Reading::Schedule) };
    let out = both.to_rising(&schedule, ample_for(&schedule))?;
    for room in rooms(random, out.written.len()) {
        both.to_rising(&schedule, room)?;
    }
    Ok(())
}

#[cfg(test)]
mod tests {
    use super::*;
    use crate::text::Line;

    fn is_downscale(line: &Line) -> bool {
        matches!(line, Line::Downscale { .. })
    }

    /// The makers make what they say: legal listings, with and without `ds`, and folded ones among the plans.
    #[test]
    fn makers_make_downscales() {
        let (mut with, mut without, mut folded) = (0, 0, 0);
        for case in 0..400 {
            let mut random = Random::new(7, case);
            let listing = listings::legal(&mut random);
            assert!(rising::keep_rules(&listing, &mut [Standing::default(); SCHEDULE_LINES]).is_ok());
            *if listing.lines().iter().any(is_downscale) { &mut with } else { &mut without } += 1;
            folded += usize::from(folded_schedule(&mut random).0.lines().iter().any(is_downscale));
        }
        assert!(with > 50 && without > 50 && folded > 20, "{with} {without} {folded}");
    }
}
