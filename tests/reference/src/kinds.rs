//! The kinds of cases, and what is compared in each.

mod levels;
mod listings;
mod live;
mod machines;
mod quotes;
mod reserves;
mod search;

use crate::both::{Both, Outcome, AMPLE};
use crate::cases::limits::{self, Pair};
use crate::cases::{damage, files, hand};
use crate::erase::erasure_of;
use crate::plan;
use crate::random::Random;
use crate::services::Reply;
use crate::text::{bytes_of, file_of, File, Reading};
use std::sync::OnceLock;

#[derive(Clone, Copy, PartialEq, Eq, Debug)]
pub enum Kind {
    Circuit,
    Schedule,
    HandMade,
    Spoiled,
    Limit,
    DamagedCircuit,
    DamagedSchedule,
    Buffer,
    Machines,
    Search,
    Soup,
    Listing,
    LegalListing,
    SpoiledListing,
    DamagedListing,
    Live,
}

pub const KINDS: [Kind; 16] = [
    Kind::Circuit,
    Kind::Schedule,
    Kind::HandMade,
    Kind::Spoiled,
    Kind::Limit,
    Kind::DamagedCircuit,
    Kind::DamagedSchedule,
    Kind::Buffer,
    Kind::Machines,
    Kind::Search,
    Kind::Soup,
    Kind::Listing,
    Kind::LegalListing,
    Kind::SpoiledListing,
    Kind::DamagedListing,
    Kind::Live,
];

/// The kinds follow each other in this order, over and over.
const ROUND: [Kind; 27] = [
    Kind::Circuit,
    Kind::HandMade,
    Kind::DamagedCircuit,
    Kind::Limit,
    Kind::Listing,
    Kind::Schedule,
    Kind::Circuit,
    Kind::Spoiled,
    Kind::DamagedSchedule,
    Kind::LegalListing,
    Kind::Machines,
    Kind::Search,
    Kind::Circuit,
    Kind::HandMade,
    Kind::SpoiledListing,
    Kind::DamagedCircuit,
    Kind::Limit,
    Kind::Schedule,
    Kind::Soup,
    Kind::DamagedListing,
    Kind::Spoiled,
    Kind::DamagedSchedule,
    Kind::Machines,
    Kind::Buffer,
    Kind::Limit,
    Kind::DamagedListing,
    Kind::Live,
];

impl Kind {
    pub fn of_case(case: u64) -> Kind {
        ROUND[(case % ROUND.len() as u64) as usize]
    }

    /// Which case of its kind a case is, from 0.
    fn index_of_case(case: u64) -> u64 {
        let round = ROUND.len() as u64;
        let kind = Kind::of_case(case);
        let count = |kinds: &[Kind]| kinds.iter().filter(|&&other| other == kind).count() as u64;
        (case / round) * count(&ROUND) + count(&ROUND[..(case % round) as usize])
    }

    pub fn name(self) -> &'static str {
        match self {
            Kind::Circuit => "random circuits",
            Kind::Schedule => "random schedules",
            Kind::HandMade => "schedules made by hand",
            Kind::Spoiled => "slightly illegal schedules",
            Kind::Limit => "limits",
            Kind::DamagedCircuit => "damaged circuits",
            Kind::DamagedSchedule => "damaged schedules",
            Kind::Buffer => "short buffers",
            Kind::Machines => "both machines",
            Kind::Search => "exhaustive search",
            Kind::Soup => "soup",
            Kind::Listing => "random listings",
            Kind::LegalListing => "mostly legal listings",
            Kind::SpoiledListing => "slightly illegal listings",
            Kind::DamagedListing => "damaged listings",
            Kind::Live => "live ciphertexts",
        }
    }
}

/// Runs one case; a difference comes back as its description.
pub fn run(case: u64, random: &mut Random, both: &mut Both) -> Result<(), String> {
    match Kind::of_case(case) {
        Kind::Circuit => circuit(random, both),
        Kind::Schedule => schedule(random, both),
        Kind::HandMade => hand_made(random, both),
        Kind::Spoiled => spoiled(random, both),
        Kind::Limit => limit(random, case, both),
        Kind::DamagedCircuit => damaged_circuit(random, both),
        Kind::DamagedSchedule => damaged_schedule(random, both),
        Kind::Buffer => buffer(random, both),
        Kind::Machines => machines::machines(random, both),
        Kind::Search => search::tiny(random, both),
        Kind::Soup => soup(random, both),
        Kind::Listing => listings::any(random, both),
        Kind::LegalListing => listings::legal(random, both),
        Kind::SpoiledListing => listings::spoiled(random, both),
        Kind::DamagedListing => listings::damaged(random, both),
        Kind::Live => live::schedules(random, Kind::index_of_case(case), both),
    }
}

/// Both sides agree, yet what the documents say of the reply may fail to hold.
fn expect(holds: bool, otherwise: impl FnOnce() -> String) -> Result<(), String> {
    if holds {
        Ok(())
    } else {
        Err(otherwise())
    }
}

fn with_files(what: &str, circuit: &[u8], schedule: &[u8]) -> String {
    format!("{what}\n  circuit:  {}\n  schedule: {}", circuit.escape_ascii(), schedule.escape_ascii())
}

/// The circuit at another top level, with its H.
fn at_level(circuit: &File, top_level: i32) -> File {
    let mut moved = circuit.clone();
    moved.header.top_level = top_level;
    moved
}

fn circuit(random: &mut Random, both: &mut Both) -> Result<(), String> {
    let circuit = files::circuit(random);
    let [planned, least] = services_of_circuit(random, &bytes_of(&circuit, Reading::Circuit), both)?;
    levels::around(random, &circuit, planned, least, both)
}

/// Plan, quote and least level of a circuit; where it has a plan, also the way through check and back by erase, and what is live in it. Gives the
/// replies of plan and least level.
fn services_of_circuit(random: &mut Random, circuit: &[u8], both: &mut Both) -> Result<[Reply; 2], String> {
    let planned = quotes::plan_and_quote(circuit, both)?;
    let least = both.least_level(circuit)?.reply;
    if planned.reply.number == 0 {
        round_trip(circuit, &planned, both)?;
        live::few(random, &planned.written, both)?;
    }
    Ok([planned.reply, least])
}

fn round_trip(circuit: &[u8], planned: &Outcome, both: &mut Both) -> Result<(), String> {
    let otherwise = |what: &str| with_files(what, circuit, &planned.written);
    let checked = both.check(circuit, &planned.written)?;
    expect(checked.reply.number == 0, || otherwise("a plan does not pass the check"))?;
    let erased = both.erase(&planned.written, AMPLE)?;
    expect(erased.written == circuit, || otherwise("a plan does not erase to its circuit"))
}

fn schedule(random: &mut Random, both: &mut Both) -> Result<(), String> {
    let schedule = files::schedule(random);
    services_of_schedule(random, &schedule, both)
}

/// Erases a schedule, turns it into a listing and asks what is live in it; checks it against its own circuit, puts it beside that circuit's plan where
/// it passes, and checks it against another one.
fn services_of_schedule(random: &mut Random, schedule: &File, both: &mut Both) -> Result<(), String> {
    let text = bytes_of(schedule, Reading::Schedule);
    let can_be_erased = both.erase(&text, AMPLE)?.reply.number == 0;
    let erased = erasure_of(schedule);
    let circuit = bytes_of(&erased, Reading::Circuit);
    let checked = both.check(&circuit, &text)?.reply;
    if checked.number == 0 {
        reserves::beside_plan(&circuit, schedule, both)?;
    }
    listings::services_of_schedule(&text, Some(checked).filter(|_| can_be_erased), both)?;
    live::few(random, &text, both)?;
    if random.percent(40) {
        let other = hand::other_circuit(random, &erased);
        both.check(&bytes_of(&other, Reading::Circuit), &text)?;
    }
    Ok(())
}

/// A circuit that has a plan at its header, most of the time.
fn likely_circuit(random: &mut Random, most_lines: usize) -> File {
    let size = 1 + random.below(most_lines);
    let mut circuit = files::circuit_of_size(random, size);
    if let Ok(least) = plan::least_level(&circuit) {
        circuit.header.top_level = (least as i32 + random.pick(&[0, 0, 1, 2, 5])).min(60);
    }
    // An H that leaves some line no bit more, or is near that.
    if circuit.header.headroom.is_some() && random.percent(30) {
        files::set_headroom_near_best(random, &mut circuit);
    }
    circuit
}

fn schedule_by_hand(random: &mut Random) -> File {
    let most_lines = random.pick(&[6, 12, 30, 256]);
    let circuit = likely_circuit(random, most_lines);
    hand::schedule(random, &circuit)
}

fn hand_made(random: &mut Random, both: &mut Both) -> Result<(), String> {
    let schedule = schedule_by_hand(random);
    services_of_schedule(random, &schedule, both)
}

fn spoiled(random: &mut Random, both: &mut Both) -> Result<(), String> {
    let mut schedule = schedule_by_hand(random);
    let erased = bytes_of(&erasure_of(&schedule), Reading::Circuit);
    let changes = random.pick(&[1, 1, 1, 2, 5]);
    for _ in 0..changes {
        hand::spoil(random, &mut schedule);
    }
    let text = bytes_of(&schedule, Reading::Schedule);
    let checked = both.check(&erased, &text)?.reply;
    if checked.number == 0 {
        reserves::beside_plan(&erased, &schedule, both)?;
    }
    both.erase(&text, AMPLE)?;
    listings::services_of_schedule(&text, Some(checked), both)?;
    live::few(random, &text, both)
}

fn limit_pairs() -> &'static [Pair] {
    static PAIRS: OnceLock<Vec<Pair>> = OnceLock::new();
    PAIRS.get_or_init(limits::all)
}

fn limit(random: &mut Random, case: u64, both: &mut Both) -> Result<(), String> {
    // The list is gone through in order, and again from the start.
    let pairs = limit_pairs();
    let pair = &pairs[(Kind::index_of_case(case) % pairs.len() as u64) as usize];
    services_of_circuit(random, &pair.circuit, both)?;
    both.check(&pair.circuit, &pair.schedule)?;
    let erased = both.erase(&pair.schedule, AMPLE)?;
    if erased.reply.number == 0 {
        both.check(&erased.written, &pair.schedule)?;
    }
    // A sound circuit before a schedule that may be damaged: file 2.
    both.check(b"circuit\t60\t20\t2\nin\n", &pair.schedule)?;
    listings::services_of_schedule(&pair.schedule, None, both)?;
    listings::services_of_listing(&limits::as_listing(&pair.schedule), both)?;
    live::few(random, &pair.schedule, both)
}

fn damaged_circuit(random: &mut Random, both: &mut Both) -> Result<(), String> {
    let circuit = files::circuit(random);
    let sound = bytes_of(&circuit, Reading::Circuit);
    let damaged = damage::damage(random, &sound);
    services_of_circuit(random, &damaged, both)?;
    let schedule = match plan::plan_of(&circuit) {
        Ok(schedule) => bytes_of(&schedule, Reading::Schedule),
        Err(_) => damage::soup(random, "schedule"),
    };
    both.check(&damaged, &schedule)?;
    Ok(())
}

fn damaged_schedule(random: &mut Random, both: &mut Both) -> Result<(), String> {
    let schedule = if random.percent(50) { files::schedule(random) } else { schedule_by_hand(random) };
    let damaged = damage::damage(random, &bytes_of(&schedule, Reading::Schedule));
    both.erase(&damaged, AMPLE)?;
    listings::services_of_schedule(&damaged, None, both)?;
    live::few(random, &damaged, both)?;
    both.check(&bytes_of(&erasure_of(&schedule), Reading::Circuit), &damaged)?;
    // The damaged schedule may be sound still: then its own erasure is met too.
    if let Ok(sound) = file_of(&damaged, Reading::Schedule) {
        both.check(&bytes_of(&erasure_of(&sound), Reading::Circuit), &damaged)?;
    }
    Ok(())
}

/// Lengths around the needed one; for a small result now and then every length from 0.
fn rooms(random: &mut Random, needed: usize) -> Vec<usize> {
    if needed <= 120 && random.percent(5) {
        return (0..=needed + 2).collect();
    }
    let mut rooms: Vec<usize> = (needed.saturating_sub(2)..=needed + 1).collect();
    rooms.extend([0, random.below(needed + 1), needed + random.below(200)]);
    rooms
}

fn buffer(random: &mut Random, both: &mut Both) -> Result<(), String> {
    let most_lines = random.pick(&[3, 10, 60]);
    let circuit = bytes_of(&likely_circuit(random, most_lines), Reading::Circuit);
    let planned = quotes::plan_and_quote(&circuit, both)?;
    // A refused circuit is refused alike with every buffer: 13 comes after all else.
    let needed = if planned.reply.number == 0 { planned.written.len() } else { 8 };
    for room in rooms(random, needed) {
        both.plan(&circuit, room)?;
    }
    let schedule =
        if planned.reply.number == 0 { planned.written } else { bytes_of(&files::schedule(random), Reading::Schedule) };
    let erased = both.erase(&schedule, AMPLE)?;
    for room in rooms(random, erased.written.len()) {
        both.erase(&schedule, room)?;
    }
    live::buffers(random, &schedule, both)?;
    listings::buffers(random, both)
}

fn soup(random: &mut Random, both: &mut Both) -> Result<(), String> {
    let circuit = damage::soup(random, "circuit");
    let schedule = damage::soup(random, "schedule");
    let listing = damage::soup(random, "rising");
    services_of_circuit(random, &circuit, both)?;
    both.erase(&schedule, AMPLE)?;
    both.check(&circuit, &schedule)?;
    both.check(b"circuit\t60\t20\t1\n", &schedule)?;
    listings::services_of_schedule(&schedule, None, both)?;
    listings::services_of_listing(&listing, both)?;
    live::few(random, &schedule, both)?;
    // The empty slice in each place.
    both.check(&circuit, b"")?;
    both.check(b"", &schedule)?;
    both.plan(b"", 0)?;
    both.erase(b"", 0)?;
    both.from_rising(b"", 0)?;
    both.to_rising(b"", 0)?;
    both.least_level(b"")?;
    both.quote(b"")?;
    live::few(random, b"", both)
}

#[cfg(test)]
mod tests {
    use super::*;

    /// In a run of 200,000 cases every limit comes up.
    #[test]
    fn a_run_goes_through_all_limits() {
        let cases = (0..200_000).filter(|&case| Kind::of_case(case) == Kind::Limit).count();
        assert!(cases >= limit_pairs().len(), "{cases} cases, {} limits", limit_pairs().len());
    }

    #[test]
    fn cases_of_a_kind_are_counted_from_0() {
        let of_kind = |kind| (0..2000).filter(move |&case| Kind::of_case(case) == kind);
        for kind in KINDS {
            assert!(of_kind(kind).enumerate().all(|(index, case)| Kind::index_of_case(case) == index as u64), "{kind:?}");
        }
    }
}
