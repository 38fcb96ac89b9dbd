//! Scale and level of each line of schedules, to which the command's own are held: `standings FILE...` prints them, and
//! `standings --make FOLDER` writes generated schedules.

use reference::cases::{files, hand};
use reference::check::standings;
use reference::plan::plan_of;
use reference::random::Random;
use reference::text::{bytes_of, file_of, File, Reading, KEPT_LINES};
use std::fs;
use std::path::Path;

const SCHEDULES: u64 = 400;
const SEED: u64 = 20_260_113;

/// Plans, schedules made by hand, such schedules spoiled, and any of the form, in turn.
fn schedule(number: u64) -> Option<File> {
    let mut random = Random::new(SEED, number);
    if number % 4 == 3 {
        return Some(files::schedule(&mut random));
    }
    let circuit = files::circuit(&mut random);
    if number % 4 == 0 {
        return plan_of(&circuit).ok();
    }
    let mut schedule = hand::schedule(&mut random, &circuit);
    if number % 4 == 2 {
        hand::spoil(&mut random, &mut schedule);
    }
    Some(schedule)
}

/// Erase refuses a schedule that keeps more lines, so the command cannot draw it.
fn can_be_erased(schedule: &File) -> bool {
    schedule.lines().iter().filter(|line| line.struck_from().is_none()).count() <= KEPT_LINES
}

fn make(folder: &Path) {
    for number in 0..SCHEDULES {
        if let Some(schedule) = schedule(number).filter(can_be_erased) {
            let path = folder.join(format!("{number:03}.schedule"));
            fs::write(&path, bytes_of(&schedule, Reading::Schedule)).expect("a folder that can be written to");
        }
    }
}

fn print(path: &str) {
    let bytes = fs::read(path).expect("a file that can be read");
    let Ok(schedule) = file_of(&bytes, Reading::Schedule) else { panic!("{path} is not of the form") };
    let (held, refusal) = standings(&schedule);
    println!("{path}");
    for (n, standing) in held.iter().enumerate() {
        match standing {
            Some(standing) => println!("{} {} {}", n + 2, standing.scale, standing.level),
            None => println!("{} -", n + 2),
        }
    }
    match refusal {
        Some(refusal) => println!("refused {} {}", refusal.number, refusal.place),
        None => println!("passed"),
    }
}

fn main() {
    let words: Vec<String> = std::env::args().skip(1).collect();
    match words.as_slice() {
        [option, folder] if option == "--make" => make(Path::new(folder)),
        paths => paths.iter().for_each(|path| print(path)),
    }
}
