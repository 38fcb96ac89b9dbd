//! Compares the archive and the yardstick with the reference on seeded random cases, and fails where too little was tried. `--case K` runs one
//! case again and shows it.

use reference::both::{Both, Halves, Levels, Reserves, Runs, Scans, Searches, Trips};
use reference::coverage::{Asked, Coverage};
use reference::kinds::{run, Kind, KINDS};
use reference::random::Random;
use std::process::ExitCode;
use std::sync::atomic::{AtomicBool, AtomicU64, Ordering};
use std::sync::Mutex;
use std::thread;
use std::time::{Duration, Instant};

const USAGE: &str = "usage: compare [--cases N] [--seed S] [--case K]";
const THREADS: usize = 2;
/// Cases that a thread takes at a time.
const BLOCK: u64 = 100;
/// No more than one search in so many may give up.
const MOST_GIVEN_UP: u64 = 20;
const PROGRESS: Duration = Duration::from_secs(5);
/// What a run must have tried, whatever its number of cases.
const ASKED: Asked =
    Asked { replies: 200, conversions: 5000, limits: 20, buffers: 3000, prices: 1000, live: 1000, only_plan: false };
/// What each kind of case must have been replied: numbers, and how often at least.
fn asked_of(kind: Kind) -> (&'static [usize], u64) {
    match kind {
        Kind::Circuit => (&[0, 6], 2000),
        Kind::Schedule => (&[0, 3, 7, 8, 9, 10, 12], 200),
        Kind::HandMade => (&[0, 9, 12], 500),
        Kind::Spoiled => (&[0, 7, 8, 9, 10], 500),
        Kind::Limit => (&[0, 1, 2, 3, 4, 5, 11, 12], 200),
        Kind::DamagedCircuit => (&[0, 1, 2, 3, 4, 5, 6, 11, 12], 100),
        Kind::DamagedSchedule => (&[0, 1, 2, 3, 4, 5, 9, 10, 11, 12], 100),
        Kind::Buffer => (&[0, 13], 50_000),
        Kind::Machines => (&[0, 7, 8, 9, 10], 100),
        Kind::Search => (&[0, 6], 1000),
        Kind::Soup => (&[0, 1, 4, 5, 11, 12], 1000),
        Kind::Listing => (&[0, 3, 7, 8, 9, 10, 14], 100),
        Kind::LegalListing => (&[0, 3], 50),
        Kind::SpoiledListing => (&[0, 7, 8, 9, 10, 14], 100),
        Kind::DamagedListing => (&[0, 1, 2, 3, 4, 5, 9, 10, 11], 100),
        Kind::Live => (&[0, 1, 2, 3, 4, 5, 11, 13], 100),
    }
}

/// The searches of each answer, with an H too, the runs of each end, the lines beside half their modulus, the trips from each dialect, the lines by
/// their reserve, the plans at other levels and what was scanned for.
const ASKED_SHARP: u64 = 1000;

struct Options {
    cases: u64,
    seed: u64,
    case: Option<u64>,
}

fn options() -> Option<Options> {
    let mut options = Options { cases: 200_000, seed: 20_260_101, case: None };
    let mut words = std::env::args().skip(1);
    while let Some(word) = words.next() {
        let number = words.next()?.parse().ok()?;
        match word.as_str() {
            "--cases" => options.cases = number,
            "--seed" => options.seed = number,
            "--case" => options.case = Some(number),
            _ => return None,
        }
    }
    Some(options)
}

/// What is counted of cases.
#[derive(Clone, Default)]
struct Count {
    cases: u64,
    calls: u64,
    coverage: Coverage,
    searches: Searches,
    runs: Runs,
    halves: Halves,
    trips: Trips,
    reserves: Reserves,
    levels: Levels,
    scans: Scans,
}

impl Count {
    fn add(&mut self, other: &Count) {
        self.cases += other.cases;
        self.calls += other.calls;
        self.coverage.add(&other.coverage);
        self.searches.add(&other.searches);
        self.runs.add(&other.runs);
        self.halves.add(&other.halves);
        self.trips.add(&other.trips);
        self.reserves.add(&other.reserves);
        self.levels.add(&other.levels);
        self.scans.add(&other.scans);
    }
}

type Counts = [Count; KINDS.len()];

/// What the threads share.
struct Shared {
    options: Options,
    next: AtomicU64,
    done: AtomicU64,
    failed: AtomicBool,
    /// The difference of the lowest case number found.
    difference: Mutex<Option<(u64, String)>>,
}

fn main() -> ExitCode {
    let Some(options) = options() else {
        eprintln!("{USAGE}");
        return ExitCode::from(2);
    };
    match options.case {
        Some(case) => run_one(options.seed, case),
        None => run_all(options),
    }
}

fn run_case(seed: u64, case: u64, show: bool) -> (Result<(), String>, Count) {
    let mut random = Random::new(seed, case);
    // Guard bytes have a generator of their own: they do not move the case.
    let mut both = Both::new(Random::new(!seed, case), show);
    let result = run(case, &mut random, &mut both);
    let Both { calls, coverage, searches, runs, halves, trips, reserves, levels, scans, .. } = both;
    (result, Count { cases: 1, calls, coverage, searches, runs, halves, trips, reserves, levels, scans })
}

fn run_one(seed: u64, case: u64) -> ExitCode {
    println!("case {case}, seed {seed}, kind: {}", Kind::of_case(case).name());
    match run_case(seed, case, true) {
        (Ok(()), count) => {
            println!("compare: case {case}, {} calls, no difference", count.calls);
            ExitCode::SUCCESS
        }
        (Err(difference), _) => {
            print_difference(seed, case, &difference);
            ExitCode::FAILURE
        }
    }
}

fn print_difference(seed: u64, case: u64, difference: &str) {
    println!("difference in case {case}, seed {seed}, kind: {}", Kind::of_case(case).name());
    println!("{difference}");
    println!("run it again: compare --seed {seed} --case {case}");
}

fn run_all(options: Options) -> ExitCode {
    let shared = Shared {
        options,
        next: AtomicU64::new(0),
        done: AtomicU64::new(0),
        failed: AtomicBool::new(false),
        difference: Mutex::new(None),
    };
    let counts = thread::scope(|scope| {
        let workers: Vec<_> = (0..THREADS).map(|_| scope.spawn(|| work(&shared))).collect();
        let mut shown = Instant::now();
        while workers.iter().any(|worker| !worker.is_finished()) {
            thread::sleep(Duration::from_millis(20));
            if shown.elapsed() >= PROGRESS {
                eprintln!("{} of {} cases", shared.done.load(Ordering::Relaxed), shared.options.cases);
                shown = Instant::now();
            }
        }
        let mut counts = Counts::default();
        for worker in workers {
            let theirs = worker.join().expect("a thread ends without a panic");
            counts.iter_mut().zip(&theirs).for_each(|(sum, count)| sum.add(count));
        }
        counts
    });
    let difference = shared.difference.lock().expect("no thread panics with the lock").take();
    match difference {
        Some((case, difference)) => {
            print_difference(shared.options.seed, case, &difference);
            ExitCode::FAILURE
        }
        None => print_counts(&counts),
    }
}

fn work(shared: &Shared) -> Counts {
    let Options { cases, seed, .. } = shared.options;
    let mut counts = Counts::default();
    while !shared.failed.load(Ordering::Relaxed) {
        let first = shared.next.fetch_add(BLOCK, Ordering::Relaxed);
        if first >= cases {
            break;
        }
        for case in first..cases.min(first + BLOCK) {
            let (result, count) = run_case(seed, case, false);
            let kind = KINDS.iter().position(|&kind| kind == Kind::of_case(case)).expect("every kind is listed");
            counts[kind].add(&count);
            shared.done.fetch_add(1, Ordering::Relaxed);
            if let Err(difference) = result {
                shared.failed.store(true, Ordering::Relaxed);
                let mut kept = shared.difference.lock().expect("no thread panics with the lock");
                if kept.as_ref().is_none_or(|&(known, _)| case < known) {
                    *kept = Some((case, difference));
                }
                return counts;
            }
        }
    }
    counts
}

/// Prints a kind's replies, and says whether each that is asked for came often enough.
fn print_kind(kind: Kind, count: &Count) -> bool {
    let (asked, least) = asked_of(kind);
    let numbers = &count.coverage.numbers;
    let is_short = |number: usize| asked.contains(&number) && numbers[number] < least;
    let replied = (0..numbers.len()).filter(|&number| numbers[number] > 0 || is_short(number));
    let replied: Vec<String> =
        replied.map(|number| format!("{number}:{}{}", numbers[number], if is_short(number) { "!" } else { "" })).collect();
    println!("{:<27} {:>7} cases {:>8} calls, replies {}", kind.name(), count.cases, count.calls, replied.join(" "));
    !asked.iter().any(|&number| is_short(number))
}

/// Prints the searches, the runs, the trips, the reserves, the levels and the scans, and says whether there are enough of each.
fn print_sharp(all: &Count) -> bool {
    let Searches { exists, none, gave_up, exists_with_headroom, none_with_headroom } = all.searches;
    println!("exhaustive searches: {exists} found a schedule, {none} found that there is none, {gave_up} gave up");
    println!("  with H: {exists_with_headroom} found a schedule, {none_with_headroom} found that there is none");
    let Runs { to_the_end, stopped } = all.runs;
    println!("scale machine: {to_the_end} runs to the end, {stopped} stopped");
    let Halves { below, greatest, reached } = all.halves;
    println!("circuit lines with H: {below} of numbers below 2^(H - 1) hold numbers below half their modulus");
    println!("  where scale + H = F l: {greatest} with 2^(H - 1) - 1 are below half, {reached} with 2^(H - 1) are half");
    let Trips { of_listing, of_schedule } = all.trips;
    println!("there and back: {of_listing} listings without ds, {of_schedule} schedules");
    let searched = [exists, none, exists_with_headroom, none_with_headroom];
    let others = [to_the_end, stopped, below, greatest, reached, of_listing, of_schedule];
    let is_decided = gave_up * MOST_GIVEN_UP <= exists + none + gave_up;
    let (best, scanned) = (print_best(all), print_scans(all));
    is_decided && searched.iter().chain(&others).chain(&best).chain(&scanned).all(|&count| count >= ASKED_SHARP)
}

/// Prints what equals a scan of all later lines, and gives the counts.
fn print_scans(all: &Count) -> [u64; 5] {
    let Scans { entries, counts, peaks, yes, no } = all.scans;
    println!("live ciphertexts: {entries} entries, {counts} counts and {peaks} largest counts are those of a scan of all later lines");
    println!("  {yes} values may be dropped and {no} may not, as the scan says");
    [entries, counts, peaks, yes, no]
}

/// Prints the lines by their reserve and the plans at other levels, and gives the counts.
fn print_best(all: &Count) -> Vec<u64> {
    let Reserves { greatest, greatest_with_headroom, greatest_of_outputs, same, less, less_before_last } = all.reserves;
    println!("ciphertext lines of plans: {greatest} have the greatest reserve that the exhaustive search finds");
    println!("  of these {greatest_with_headroom} with H, {greatest_of_outputs} are out");
    println!("ciphertext lines of schedules that pass: {same} have the reserve of the plan, {less} have less, none has more");
    println!("  {less_before_last} schedules have the reserve of the plan at the last one and less before");
    let Levels { above, least, highest, below_least } = all.levels;
    println!("other levels: {above} plans above a circuit's least level fit");
    println!("  {least} circuits fit at their least level, {highest} also at 60, {below_least} not at the level below");
    let of_reserves = [greatest, greatest_with_headroom, greatest_of_outputs, same, less, less_before_last];
    [&of_reserves[..], &[above, least, highest, below_least]].concat()
}

/// Prints what was tried, and fails where it is too little.
fn print_counts(counts: &Counts) -> ExitCode {
    let mut all = Count::default();
    let mut enough = true;
    for (&kind, count) in KINDS.iter().zip(counts) {
        enough &= print_kind(kind, count);
        all.add(count);
    }
    enough &= print_sharp(&all);
    enough &= all.coverage.print(&ASKED);
    if !enough {
        println!("compare: no difference, but too little was tried: see the counts marked !, the searches, the runs, the lines with H, the trips, the reserves, the levels and the scans");
        return ExitCode::FAILURE;
    }
    println!("compare: {} cases, {} calls, no difference", all.cases, all.calls);
    ExitCode::SUCCESS
}
