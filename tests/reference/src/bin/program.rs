//! Compares what the program prints with the reference, on seeded inputs, and fails where too little was tried: `program PATH [INPUTS [SEED]]`.

use reference::both::{Call, AMPLE};
use reference::cases::{damage, files, limits};
use reference::coverage::{Asked, Coverage};
use reference::library::Service;
use reference::random::Random;
use reference::services;
use reference::text::{bytes_of, Reading};
use std::collections::HashSet;
use std::io::{self, Write};
use std::process::{Command, ExitCode, Stdio};

const INPUTS: u64 = 2_400;
const SEED: u64 = 20_260_101;
/// What a run must have tried, whatever its number of inputs. The program has room for every plan.
const ASKED: Asked = Asked { replies: 10, conversions: 50, limits: 1, buffers: 0, prices: 0, live: 0, only_plan: true };
/// The longest circuit has so many bytes.
const CIRCUIT_BYTES: usize = 4_372;
/// So many bytes decide, since a line of the form has at most 28; the program need not read more. So many inputs must be longer.
const DECIDING_BYTES: usize = CIRCUIT_BYTES + 28;
const ASKED_LONG: u64 = 50;
/// From a limit to the next that is tried, so that those of a short run are spread over the list. It is a prime.
const STRIDE: usize = 1_009;
/// Far more than the program reads.
const FAR: usize = 16_384;
/// Lengths around the longest circuit, around the bytes that decide, and around what a program may have room for.
const LENGTHS: [usize; 17] =
    [4_095, 4_096, 4_097, 4_371, 4_372, 4_373, 4_380, 4_397, 4_398, 4_399, 4_400, 4_401, 4_402, 4_607, 4_608, 4_609, 8_192];

/// What planning makes of an input, counted.
fn count(input: &[u8], coverage: &mut Coverage) {
    let mut out = [0; AMPLE];
    let reply = services::plan(input, &mut out);
    let call = Call { service: Service::Plan, first: input, second: &[], room: AMPLE };
    coverage.count_call(&call, reply, &out[..reply.length as usize]);
}

/// The circuits that stand at a limit, each once.
fn limit_inputs() -> Vec<Vec<u8>> {
    let is_at_limit = |circuit: &Vec<u8>| {
        let mut coverage = Coverage::default();
        count(circuit, &mut coverage);
        coverage.is_at_limit()
    };
    let mut known = HashSet::new();
    let circuits = limits::all().into_iter().map(|pair| pair.circuit);
    circuits.filter(|circuit| known.insert(circuit.clone())).filter(is_at_limit).collect()
}

/// A circuit that reads, of exactly so many bytes: a header with an H, constants of ten digits, and the last ones shorter.
fn circuit_of_length(length: usize) -> Vec<u8> {
    let mut text = b"circuit\t60\t60\t60\t60\n".to_vec();
    // A `const` line has 8 to 17 bytes.
    while text.len() < length {
        let left = length - text.len();
        let line = match left {
            ..=17 => left,
            18..=24 => 8,
            _ => 17,
        };
        text.extend_from_slice(b"const\t");
        text.extend_from_slice(&b"4294967295"[..line - 7]);
        text.push(b'\n');
    }
    text
}

/// Full circuits and nearly full ones, with more behind them up to each of the lengths.
fn long_inputs() -> Vec<Vec<u8>> {
    let [full, one_less] = [CIRCUIT_BYTES, CIRCUIT_BYTES - 17].map(circuit_of_length);
    let mut list = Vec::new();
    for length in LENGTHS {
        if length <= CIRCUIT_BYTES {
            list.push(circuit_of_length(length));
        }
        // Behind a full circuit; on its last line, which is closed, or not, or is of the form with the longest operands; and all in one line.
        let filled = |start: &[u8], filling: &[u8], end: &[u8]| {
            let room = length.saturating_sub(start.len() + end.len());
            let filling = filling.iter().cycle().take(room);
            start.iter().chain(filling).chain(end).copied().take(length).collect::<Vec<u8>>()
        };
        list.push(filled(&full, b"in\n", b""));
        list.push(filled(&one_less, b"const\t4", b"\n"));
        list.push(filled(&one_less, b"1", b""));
        list.push(filled(&[&one_less[..], b"mul\t99999999999\t99999999999\n"].concat(), b"in\n", b""));
        list.push(filled(b"circuit\t60\t60\t60\t6", b"0", b"\n"));
    }
    let far = list.iter().map(|input| [&input[..], &b"in\n".repeat(FAR / 3)].concat()).collect::<Vec<_>>();
    list.into_iter().chain(far).collect()
}

/// Circuits of all sizes, near their least level, damaged, at a limit, long, random words, and no text of the form at all. Of the limits
/// and of the long ones each comes in turn.
fn input(seed: u64, number: u64, limits: &[Vec<u8>], long: &[Vec<u8>]) -> Vec<u8> {
    let mut random = Random::new(seed, number);
    let (round, place) = (number / 12, number % 12);
    match place {
        3 | 7 => return damage::soup(&mut random, "circuit"),
        4 if (round as usize) < long.len() => return long[round as usize].clone(),
        // A stride that has no factor in common with the length: no limit comes again before all have come.
        8.. => return limits[((4 * round + place - 8) as usize * STRIDE) % limits.len()].clone(),
        _ => {}
    }
    let mut circuit = if place == 6 { files::circuit_of_size(&mut random, 256) } else { files::circuit(&mut random) };
    if place % 4 != 1 {
        files::set_level_near_least(&mut random, &mut circuit, 1);
    }
    let text = bytes_of(&circuit, Reading::Circuit);
    match place {
        2 | 5 => damage::damage(&mut random, &text),
        // More than the program reads.
        4 => text.repeat(1 + FAR / text.len()),
        _ => text,
    }
}

fn printed(path: &str, input: &[u8]) -> io::Result<Vec<u8>> {
    let mut child = Command::new(path).stdin(Stdio::piped()).stdout(Stdio::piped()).spawn()?;
    let mut stdin = child.stdin.take().expect("standard input is a pipe");
    // The program may end before it has read all: then the pipe is closed, and what it prints is still compared.
    let written = stdin.write_all(input);
    drop(stdin);
    if written.is_err_and(|error| error.kind() != io::ErrorKind::BrokenPipe) {
        return Err(io::Error::other("the input cannot be written"));
    }
    let output = child.wait_with_output()?;
    if !output.status.success() {
        return Err(io::Error::other(format!("{}", output.status)));
    }
    Ok(output.stdout)
}

fn main() -> ExitCode {
    let words: Vec<String> = std::env::args().skip(1).collect();
    let number = |at: usize, otherwise: u64| words.get(at).map_or(otherwise, |word| word.parse().expect("a number"));
    let path = words.first().expect("program PATH [INPUTS [SEED]]");
    let (inputs, seed) = (number(1, INPUTS), number(2, SEED));
    let (limits, long_ones) = (limit_inputs(), long_inputs());
    assert!(limits.len() % STRIDE != 0, "the stride passes over a part of {} limits", limits.len());
    let mut coverage = Coverage::default();
    let mut long = 0;
    for case in 0..inputs {
        let given = input(seed, case, &limits, &long_ones);
        let expected = services::program(&given);
        count(&given, &mut coverage);
        if let Some(deciding) = given.get(..DECIDING_BYTES).filter(|_| given.len() > DECIDING_BYTES) {
            assert_eq!(services::program(deciding), expected, "the first bytes decide: input {case}, seed {seed}");
            long += 1;
        }
        match printed(path, &given) {
            Ok(output) if output == expected => {}
            other => {
                println!("difference in input {case}, seed {seed}\n  input: {}", given.escape_ascii());
                println!("  expected: {}\n  program: {other:?}", expected.escape_ascii());
                return ExitCode::FAILURE;
            }
        }
    }
    println!("limits: {} texts; inputs longer than the {DECIDING_BYTES} bytes that decide: {long}", limits.len());
    if !coverage.print(&ASKED) || long < ASKED_LONG {
        println!("program: no difference, but too little was tried: see the counts marked ! and the long inputs");
        return ExitCode::FAILURE;
    }
    println!("program: {inputs} inputs, no difference");
    ExitCode::SUCCESS
}
