//! Document 02's Job 6 on schedules that pass: no line has more reserve than in the plan.

use super::{expect, with_files};
use crate::both::{Both, AMPLE};
use crate::check::kept_reserves;
use crate::text::{bytes_of, file_of, File, Reading};
use std::cmp::Ordering;

/// Plans the circuit of a schedule that passes, and compares the reserves of each ciphertext line.
pub fn beside_plan(circuit: &[u8], schedule: &File, both: &mut Both) -> Result<(), String> {
    let planned = both.plan(circuit, AMPLE)?;
    let otherwise = |what: String| with_files(&what, circuit, &bytes_of(schedule, Reading::Schedule));
    let plan = file_of(&planned.written, Reading::Schedule).and_then(|plan| kept_reserves(&plan));
    let (Ok(greatest), Ok(reserves)) = (plan, kept_reserves(schedule)) else {
        return Err(otherwise(format!("a schedule passes, yet its circuit has no legal plan: {:?}", planned.reply)));
    };
    let orders: Vec<Ordering> = reserves.iter().zip(&greatest).map(|(reserve, most)| reserve.cmp(most)).collect();
    let more = orders.iter().position(|&order| order == Ordering::Greater);
    let is_alike = reserves.len() == greatest.len() && more.is_none();
    expect(is_alike, || {
        otherwise(format!("circuit line {more:?} has more reserve, {reserves:?}, than in the plan, {greatest:?}"))
    })?;
    let ciphertexts = reserves.iter().zip(orders).filter(|(reserve, _)| reserve.is_some());
    count(both, &ciphertexts.map(|(_, order)| order).collect::<Vec<_>>());
    Ok(())
}

/// Counts the ciphertext lines of a schedule by how their reserves stand to those of the plan.
fn count(both: &mut Both, orders: &[Ordering]) {
    let less = orders.iter().filter(|order| order.is_lt()).count() as u64;
    both.reserves.same += orders.len() as u64 - less;
    both.reserves.less += less;
    both.reserves.less_before_last += u64::from(less > 0 && orders.last() == Some(&Ordering::Equal));
}
