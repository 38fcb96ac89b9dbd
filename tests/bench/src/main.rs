//! The services of the archive against the Rust version and the yardstick in C: the same inputs, the same run, all built for release.
//!
//! `bench` measures and prints a table; `bench --svg FILE` draws the growth with the number of lines too; `bench --smoke` only makes each
//! call a few times and compares the replies. No time is asserted.

mod inputs;
mod plot;

use inputs::{Conversion, Input};
use reference::library::{self, Answer, Lent, Library, Service};
use reference::services::{self, Reply};
use std::hint::black_box;
use std::path::Path;
use std::time::Instant;

const ROOM: usize = 131_072;
/// There are at least so many calls, so that no run passes on missing inputs.
const LEAST_CALLS: usize = 271;
/// A measurement is the shortest of so many runs, each of about so many nanoseconds: a short run is seldom disturbed.
const RUNS: usize = 150;
const RUN_TIME: f64 = 150_000.0;

/// One measured call: time in nanoseconds of the archive, of the Rust version and of the yardstick.
pub struct Row {
    pub service: &'static str,
    pub input: String,
    pub lines: usize,
    pub archive: f64,
    pub rust: f64,
    pub yardstick: f64,
}

struct Call {
    service: Service,
    name: &'static str,
    first: Vec<u8>,
    second: Vec<u8>,
}

fn lines_of(text: &[u8]) -> usize {
    text.iter().filter(|&&byte| byte == b'\n').count().saturating_sub(1)
}

fn by_rust(call: &Call, out: &mut [u8]) -> Answer {
    match call.service {
        Service::Plan => services::plan(&call.first, out).into(),
        Service::Check => services::check(&call.first, &call.second).into(),
        Service::Erase => services::erase(&call.first, out).into(),
        Service::LeastLevel => services::least_level(&call.first).into(),
        Service::FromRising => services::from_rising(&call.first, out).into(),
        Service::ToRising => services::to_rising(&call.first, out).into(),
        Service::Quote => services::quote(&call.first).into(),
        Service::MayDrop { value, line } => services::may_drop(&call.first, value, line).into(),
        Service::LiveAfter { line } => services::live_after(&call.first, line).into(),
        Service::LivePeak => services::live_peak(&call.first).into(),
        Service::Live => services::live(&call.first, out).into(),
    }
}

/// The time of one call, over so many calls.
fn time_of(calls: usize, mut call: impl FnMut() -> Answer) -> f64 {
    let start = Instant::now();
    for _ in 0..calls {
        black_box(call());
    }
    start.elapsed().as_nanos() as f64 / calls as f64
}

/// The shortest of several runs, of all in turn: other work on the machine only adds, and it meets all alike.
fn measure(call: &Call, input: &str, lines: usize, runs: usize) -> Row {
    let mut first = Lent::new(&[], &call.first, &[], false);
    let mut second = Lent::new(&[], &call.second, &[], false);
    let mut lent = Lent::new(&[], &vec![0; ROOM], &[], false);
    let mut out = vec![0; ROOM];
    let expected = by_rust(call, &mut out);
    for library in [Library::Archive, Library::Yardstick] {
        lent.bytes_mut().fill(0);
        let replied = library::call(library, call.service, &mut first, &mut second, &mut lent);
        assert_eq!(replied, expected, "{library:?}: {} of {input}", call.name);
        assert!(lent.bytes() == &out[..], "{library:?}: the bytes of {} of {input}", call.name);
    }
    let calls = (RUN_TIME / time_of(3, || by_rust(call, &mut out))).clamp(1.0, 1000.0) as usize;
    let (mut archive, mut rust, mut yardstick) = (f64::MAX, f64::MAX, f64::MAX);
    for _ in 0..runs {
        let mut of_library = |library| time_of(calls, || library::call(library, call.service, &mut first, &mut second, &mut lent));
        archive = archive.min(of_library(Library::Archive));
        yardstick = yardstick.min(of_library(Library::Yardstick));
        rust = rust.min(time_of(calls, || by_rust(call, &mut out)));
    }
    Row { service: call.name, input: input.to_string(), lines, archive, rust, yardstick }
}

fn calls_of(input: &Input) -> Vec<(Call, usize)> {
    let call = |service, name, first: &[u8], second: &[u8]| Call { service, name, first: first.to_vec(), second: second.to_vec() };
    let (circuit, schedule) = (&input.circuit[..], &input.schedule[..]);
    let mut calls = vec![
        (call(Service::Plan, "plan", circuit, &[]), lines_of(circuit)),
        (call(Service::LeastLevel, "least level", circuit, &[]), lines_of(circuit)),
        (call(Service::Quote, "quote", circuit, &[]), lines_of(circuit)),
    ];
    if !schedule.is_empty() {
        calls.push((call(Service::Check, "check", circuit, schedule), lines_of(schedule)));
        calls.push((call(Service::Erase, "erase", schedule, &[]), lines_of(schedule)));
    }
    calls
}

fn calls_of_conversion(input: &Conversion) -> Vec<(Call, usize)> {
    let both = [(Service::FromRising, "from rising", &input.listing), (Service::ToRising, "to rising", &input.schedule)];
    let is_measured = |(_, _, text): &(Service, &'static str, &Vec<u8>)| !text.is_empty();
    let call = |(service, name, text): (Service, &'static str, &Vec<u8>)| {
        (Call { service, name, first: text.clone(), second: Vec::new() }, lines_of(text))
    };
    both.into_iter().filter(is_measured).map(call).collect()
}

/// The four services of live ciphertexts. The first value is asked about, and the line in the middle.
fn calls_of_live(schedule: &[u8]) -> Vec<(Call, usize)> {
    let lines = lines_of(schedule);
    let line = lines as u32 / 2;
    let services = [
        (Service::MayDrop { value: 0, line }, "may drop"),
        (Service::LiveAfter { line }, "live after"),
        (Service::LivePeak, "live peak"),
        (Service::Live, "live"),
    ];
    services.map(|(service, name)| (Call { service, name, first: schedule.to_vec(), second: Vec::new() }, lines)).into()
}

/// What a service of the Rust version writes; none where it refuses.
fn written(service: fn(&[u8], &mut [u8]) -> Reply, text: &[u8]) -> Option<Vec<u8>> {
    let mut out = vec![0; ROOM];
    let reply = service(text, &mut out);
    out.truncate(reply.length as usize);
    (reply.number == 0).then_some(out)
}

/// A schedule and its listing.
fn turned(name: String, schedule: Vec<u8>) -> Option<Conversion> {
    written(services::to_rising, &schedule).map(|listing| Conversion { name, listing, schedule })
}

/// The examples in the dialect, those of document 000 with its downscales too.
fn example_conversions(folder: &Path) -> Vec<Conversion> {
    let schedules = inputs::example_schedules(folder);
    let downscaled = inputs::DOWNSCALED.iter().map(|(name, listing)| {
        let listing = inputs::bytes(listing);
        let converted = written(services::from_rising, &listing);
        assert!(schedules.iter().any(|(known, schedule)| known == name && Some(schedule) == converted.as_ref()), "{name}");
        Conversion { name: format!("{name} with ds"), listing, schedule: Vec::new() }
    });
    let downscaled: Vec<Conversion> = downscaled.collect();
    let plans = inputs::examples(folder).into_iter().map(|input| (format!("{}, plan", input.name), input.schedule));
    let turned = schedules.into_iter().chain(plans).filter_map(|(name, schedule)| turned(name, schedule));
    downscaled.into_iter().chain(turned).collect()
}

/// Full files each way, files that are refused, and small ones.
fn other_conversions() -> Vec<Conversion> {
    let listing = |name: &str, listing: Vec<u8>| Conversion { name: name.into(), listing, schedule: Vec::new() };
    let mut list = Vec::new();
    for lines in [112, 224, 448, 896, 1792] {
        list.push(turned(format!("{lines} lines"), inputs::long_schedule(lines).1).expect("a schedule that keeps the rules"));
    }
    let longest = inputs::with_headroom(&inputs::long_schedule(1792).1);
    list.push(turned("with H, 1792 lines".into(), longest).expect("a schedule that keeps the rules"));
    list.push(listing("100 in and 846 ds", inputs::downscales(100, 846)));
    list.push(listing("100 in and 847 ds, refused", inputs::downscales(100, 847)));
    for (name, last) in [("a damaged last line", "x/"), ("a broken rule in the last line", "us 0 101/")] {
        let schedule = [inputs::long_schedule(1791).1, inputs::bytes(last)].concat();
        let listing = [b"rising", &schedule[b"schedule".len()..]].concat();
        list.push(Conversion { name: name.into(), listing, schedule });
    }
    list.push(turned("a header alone".into(), inputs::bytes("schedule 60 20 2/")).expect("a file"));
    list.push(listing("a header and one ds", inputs::bytes("rising 60 20 2/in/ds 0/")));
    list
}

/// Schedules whose live ciphertexts are asked for: the examples' plans, full files, the longest lines, files that are refused, and small ones. In a header
/// alone the first value is lacking.
fn live_schedules(folder: &Path) -> Vec<(String, Vec<u8>)> {
    let plans = inputs::examples(folder).into_iter().map(|input| (input.name, input.schedule));
    let mut list: Vec<(String, Vec<u8>)> = plans.collect();
    for lines in [112, 224, 448, 896, 1792] {
        list.push((format!("schedule of {lines} lines"), inputs::long_schedule(lines).1));
        list.push((format!("sums, {lines} lines"), inputs::sums(lines)));
    }
    list.push(("with H, schedule of 1792 lines".into(), inputs::with_headroom(&inputs::long_schedule(1792).1)));
    list.push(("1791 encodings".into(), inputs::encodings(1791)));
    list.push(("1792 constants".into(), inputs::bytes(&format!("schedule 60 60 60 60/{}", "const 4294967295/".repeat(1792)))));
    list.push(("a damaged last line".into(), [inputs::long_schedule(1791).1, inputs::bytes("x/")].concat()));
    list.push(("a header alone".into(), inputs::bytes("schedule 60 20 2/")));
    list.push(("an empty file".into(), Vec::new()));
    list
}

/// A circuit with its plan.
fn planned(name: String, circuit: Vec<u8>) -> Input {
    let mut out = vec![0; ROOM];
    let reply = services::plan(&circuit, &mut out);
    assert_eq!(reply.number, 0, "{name} has a plan");
    out.truncate(reply.length as usize);
    Input { name, circuit, schedule: out }
}

fn full_files() -> Vec<Input> {
    let mut full = Vec::new();
    for lines in [16, 32, 64, 128, 256] {
        full.push(planned(format!("circuit of {lines} lines"), inputs::long_circuit(lines)));
    }
    full.push(planned("catalogue codes, 256 lines".into(), inputs::catalogue_circuit()));
    full.push(planned("with H, circuit of 256 lines".into(), inputs::with_headroom(&inputs::long_circuit(256))));
    full.push(planned("256 constants".into(), inputs::longest_circuit()));
    for lines in [112, 224, 448, 896, 1792] {
        let (circuit, schedule) = inputs::long_schedule(lines);
        full.push(Input { name: format!("schedule of {lines} lines"), circuit, schedule });
    }
    let (circuit, schedule) = inputs::long_schedule(1792);
    let [circuit, schedule] = [circuit, schedule].map(|text| inputs::with_headroom(&text));
    full.push(Input { name: "with H, schedule of 1792 lines".into(), circuit, schedule });
    full
}

/// A full circuit whose last line is damaged, one with too few levels at its last line, and nothing at all.
fn refused_files() -> Vec<Input> {
    let mut damaged = inputs::long_circuit(256);
    let last = damaged.len() - 2;
    damaged[last] = b'x';
    let mut few = String::from("circuit\t60\t20\t1\nin\n");
    for i in 1..254 {
        few.push_str(&format!("rot\t{}\t{i}\n", i - 1));
    }
    few.push_str("mul\t0\t0\nmul\t254\t254\n");
    let refused = |name: &str, circuit: Vec<u8>| Input { name: name.into(), circuit, schedule: Vec::new() };
    vec![refused("a damaged last line", damaged), refused("too few levels", few.into_bytes()), refused("an empty file", Vec::new())]
}

fn rows(folder: &Path, runs: usize) -> Vec<Row> {
    let mut rows = Vec::new();
    for input in inputs::examples(folder).into_iter().chain(full_files()).chain(refused_files()) {
        for (call, lines) in calls_of(&input) {
            rows.push(measure(&call, &input.name, lines, runs));
        }
    }
    for input in example_conversions(folder).into_iter().chain(other_conversions()) {
        for (call, lines) in calls_of_conversion(&input) {
            rows.push(measure(&call, &input.name, lines, runs));
        }
    }
    for (name, schedule) in live_schedules(folder) {
        for (call, lines) in calls_of_live(&schedule) {
            rows.push(measure(&call, &name, lines, runs));
        }
    }
    assert!(rows.len() >= LEAST_CALLS, "only {} calls", rows.len());
    rows
}

fn print_table(rows: &[Row]) {
    println!("| service | input | lines | archive, µs | Rust, µs | C, µs | to Rust | to C | archive, ns a line |");
    println!("|---|---|---|---|---|---|---|---|---|");
    for row in rows {
        let Row { service, input, lines, .. } = row;
        let (archive, rust, yardstick) = (row.archive / 1000.0, row.rust / 1000.0, row.yardstick / 1000.0);
        let (to_rust, to_c, a_line) = (archive / rust, archive / yardstick, row.archive / row.lines.max(1) as f64);
        println!(
            "| {service} | {input} | {lines} | {archive:.2} | {rust:.2} | {yardstick:.2} | {to_rust:.2} | {to_c:.2} | {a_line:.0} |"
        );
    }
}

fn main() {
    let words: Vec<String> = std::env::args().skip(1).collect();
    let folder = Path::new(env!("CARGO_MANIFEST_DIR")).join("../../examples");
    if words.iter().any(|word| word == "--smoke") {
        println!("bench: {} calls, all replies the same", rows(&folder, 1).len());
        return;
    }
    let rows = rows(&folder, RUNS);
    print_table(&rows);
    if let [option, file] = &words[..] {
        assert_eq!(option, "--svg", "bench [--smoke | --svg FILE]");
        std::fs::write(file, plot::growth(&rows)).expect("the plot is written");
    }
}
