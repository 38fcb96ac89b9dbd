//! "a circuit which fits at one top level fits at every higher one up to 60": plans above a level that fits, and around the least one.

use super::{at_level, expect};
use crate::both::{Both, AMPLE};
use crate::random::Random;
use crate::services::Reply;
use crate::text::{bytes_of, File, Reading};
use std::collections::BTreeSet;

/// The highest level that a header may have.
const HIGHEST: i32 = 60;

/// Plans a circuit at other levels than its own. `planned` and `least` are the replies at its own.
pub fn around(random: &mut Random, circuit: &File, planned: Reply, least: Reply, both: &mut Both) -> Result<(), String> {
    let own = circuit.header.top_level;
    // One past the highest where not even that fits.
    let least_level = if least.number == 0 { least.length as i32 } else { HIGHEST + 1 };
    let otherwise = |what: String| format!("{what}\n  circuit: {}", bytes_of(circuit, Reading::Circuit).escape_ascii());
    let is_planned = planned.number == 0;
    expect(is_planned == (own >= least_level), || otherwise(format!("plan answers {planned:?}, least level {least:?}")))?;
    let mut fitting = BTreeSet::new();
    if is_planned {
        fitting.extend(some_above(random, own));
    }
    if least_level <= HIGHEST {
        fitting.extend([least_level, HIGHEST]);
    }
    // There it has been planned before.
    fitting.remove(&own);
    for &level in &fitting {
        let fits = fits_at(circuit, level, both)?;
        expect(fits, || otherwise(format!("least level {least_level}, yet level {level} does not fit")))?;
    }
    let below = least_level - 1;
    let fits = below > 0 && fits_at(circuit, below, both)?;
    expect(!fits, || otherwise(format!("least level {least_level}, yet level {below} fits")))?;
    both.levels.above += fitting.iter().filter(|&&level| level > least_level).count() as u64;
    both.levels.least += u64::from(least_level <= HIGHEST);
    both.levels.highest += u64::from(least_level < HIGHEST);
    both.levels.below_least += u64::from(below > 0);
    Ok(())
}

/// The next level, one between and the highest, as far as there are so many.
fn some_above(random: &mut Random, level: i32) -> Vec<i32> {
    let all: Vec<i32> = (level + 1..=HIGHEST).collect();
    match all.as_slice() {
        [next, between @ .., highest] if !between.is_empty() => vec![*next, random.pick(between), *highest],
        _ => all,
    }
}

/// Whether a circuit is planned at a level: a buffer that is too short is refused after all else. At the highest level the plan is written too.
fn fits_at(circuit: &File, level: i32, both: &mut Both) -> Result<bool, String> {
    let text = bytes_of(&at_level(circuit, level), Reading::Circuit);
    let room = if level == HIGHEST { AMPLE } else { 0 };
    match both.plan(&text, room)?.reply {
        Reply { number: 0 | 13, .. } => Ok(true),
        Reply { number: 6, .. } => Ok(false),
        other => Err(format!("a circuit that was read at another level gets {other:?}\n  circuit: {}", text.escape_ascii())),
    }
}

#[cfg(test)]
mod tests {
    use super::*;

    #[test]
    fn levels_above_a_level() {
        let above = |level| some_above(&mut Random::new(18, 0), level);
        assert_eq!([above(60), above(59), above(58), above(57)], [vec![], vec![60], vec![59, 60], vec![58, 59, 60]]);
        for case in 0..200 {
            let levels = some_above(&mut Random::new(18, case), 1);
            assert!(matches!(levels.as_slice(), [2, 3..=59, 60]), "{levels:?}");
        }
    }
}
