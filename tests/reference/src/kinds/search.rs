//! Plan and least level against the exhaustive search.

use super::{at_level, expect, levels, quotes, with_files};
use crate::both::{Both, AMPLE};
use crate::cases::files;
use crate::check::kept_reserves;
use crate::random::Random;
use crate::search::{greatest_reserves, search, Answer, MOST_LINES};
use crate::text::{bytes_of, file_of, File, Line, Reading};

/// Levels up to this one are searched.
const MOST_LEVELS: i32 = 4;

/// 6 or not 6, its place, the reserves of a plan, and the least level.
pub fn tiny(random: &mut Random, both: &mut Both) -> Result<(), String> {
    let circuit = files::tiny_circuit(random, MOST_LINES, MOST_LEVELS);
    let text = bytes_of(&circuit, Reading::Circuit);
    let planned = quotes::plan_and_quote(&text, both)?.reply;
    let answered = match planned.number {
        0 => Answer::Exists,
        _ => Answer::NoneFrom((planned.place as usize).saturating_sub(2)),
    };
    let found = counted(both, &circuit);
    let agrees = found == Answer::GaveUp || found == answered && (planned.number == 0 || planned.number == 6);
    let otherwise = |what: String| format!("{what}\n  circuit: {}", text.escape_ascii());
    expect(agrees, || otherwise(format!("the search finds {found:?}, plan answers {planned:?}")))?;
    if planned.number == 0 {
        reserves(random, circuit.clone(), both)?;
    }
    let least = both.least_level(&text)?.reply;
    least_level(random, &circuit, least.length as i32, both)?;
    levels::around(random, &circuit, planned, least, both)
}

/// The least level fits, with the reserves of its plan, and the level below does not, as far as they are searched.
fn least_level(random: &mut Random, circuit: &File, least: i32, both: &mut Both) -> Result<(), String> {
    let otherwise = |what: String| format!("{what}\n  circuit: {}", bytes_of(circuit, Reading::Circuit).escape_ascii());
    if (1..=MOST_LEVELS).contains(&least) {
        let lowest = at_level(circuit, least);
        let found = counted(both, &lowest);
        expect(found == Answer::Exists || found == Answer::GaveUp, || otherwise(format!("least level {least} does not fit")))?;
        if least != circuit.header.top_level {
            reserves(random, lowest, both)?;
        }
    }
    // Length 0 says that not even L = 60 fits: then the highest level searched must not fit either.
    let below = if least == 0 { MOST_LEVELS } else { (least - 1).min(MOST_LEVELS) };
    let fits = below > 0 && counted(both, &at_level(circuit, below)) == Answer::Exists;
    expect(!fits, || otherwise(format!("least level {least}, yet level {below} fits")))
}

/// Document 02's Job 6: "for each ciphertext line of a planned circuit the plan's reserve is the greatest that the line has in any legal schedule of
/// that circuit". Some outputs are added first, since few circuits have any.
fn reserves(random: &mut Random, mut circuit: File, both: &mut Both) -> Result<(), String> {
    let lines_left = MOST_LINES - circuit.lines().len();
    files::add_outputs(random, &mut circuit, lines_left);
    let text = bytes_of(&circuit, Reading::Circuit);
    let written = both.plan(&text, AMPLE)?.written;
    let planned = file_of(&written, Reading::Schedule).and_then(|plan| kept_reserves(&plan));
    let found = greatest_reserves(&circuit);
    if found == Err(Answer::GaveUp) {
        both.searches.gave_up += 1;
        return Ok(());
    }
    let otherwise =
        || with_files(&format!("the plan has the reserves {planned:?}, the greatest are {found:?}"), &text, &written);
    expect(found.is_ok() && planned.as_ref().ok() == found.as_ref().ok(), otherwise)?;
    count_reserves(both, &circuit);
    Ok(())
}

/// Every line but a bare constant is a ciphertext line.
fn count_reserves(both: &mut Both, circuit: &File) {
    let count = |is_counted: fn(&&Line) -> bool| circuit.lines().iter().filter(is_counted).count() as u64;
    let lines = count(|line| !matches!(line, Line::Const { .. }));
    both.reserves.greatest += lines;
    both.reserves.greatest_with_headroom += if circuit.header.headroom.is_some() { lines } else { 0 };
    both.reserves.greatest_of_outputs += count(|line| matches!(line, Line::Out { .. }));
}

/// A search that gives up decides nothing: `compare` fails if there are many.
fn counted(both: &mut Both, circuit: &File) -> Answer {
    let with_headroom = u64::from(circuit.header.headroom.is_some());
    let found = search(circuit);
    match found {
        Answer::Exists => {
            both.searches.exists += 1;
            both.searches.exists_with_headroom += with_headroom;
        }
        Answer::NoneFrom(_) => {
            both.searches.none += 1;
            both.searches.none_with_headroom += with_headroom;
        }
        Answer::GaveUp => both.searches.gave_up += 1,
    }
    found
}
