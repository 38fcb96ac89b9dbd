//! Erasing a schedule to its circuit.

use crate::text::{File, SCHEDULE_LINES};

/// The erasure of a schedule in a table of its own.
pub fn erasure_of(schedule: &File) -> File {
    let mut circuit = File::free();
    erase(schedule, &mut circuit);
    circuit
}

/// Erases a schedule into a free table. "Erasing keeps the lines with circuit words ...; an operand on a struck line becomes
/// the kept line that it was made from, and values are counted anew." The rules need not hold.
pub fn erase(schedule: &File, circuit: &mut File) {
    circuit.header = schedule.header;
    // For each line of the schedule the number of its kept line.
    let mut kept = [0; SCHEDULE_LINES];
    for (n, &line) in schedule.lines().iter().enumerate() {
        kept[n] = match line.struck_from() {
            Some(a) => kept[usize::from(a)],
            None => circuit.push(line.with_operands(|operand| kept[usize::from(operand)])),
        };
    }
}

#[cfg(test)]
mod tests {
    use super::*;
    use crate::text::{bytes_of, file_of, Reading};

    #[test]
    fn struck_lines_fall_back_on_what_they_were_made_from() {
        let schedule = "schedule 60 20 2/in/us 0 7/ms 1 1/const 3/enc 3 27 1/add 2 4/rs 5 9/out 6/".replace('/', "\n");
        let Ok(file) = file_of(schedule.replace(' ', "\t").as_bytes(), Reading::ScheduleToErase) else { panic!("refused") };
        let expected = "circuit 60 20 2/in/const 3/add 0 1/out 2/".replace('/', "\n").replace(' ', "\t");
        assert_eq!(bytes_of(&erasure_of(&file), Reading::Circuit), expected.as_bytes());
    }
}
