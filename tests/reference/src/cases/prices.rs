//! Circuits whose plans have each line that is priced, at every level, and the longest and dearest plans that are known, as a fixed list of texts.

use super::limits::{as_both, Pair};
use crate::text::CIRCUIT_LINES;

/// Lines that are done at level L with F = 60 and W = 20, after an input and a constant.
const LINES: [&str; 9] = ["mul 0 0", "mul 0 1", "mul 1 0", "rot 0 1", "rot 0 -32767", "neg 0", "add 0 0", "add 0 1", "add 1 0"];

/// Every case of the list.
pub fn limits(list: &mut Vec<Pair>) {
    for level in 1..=60 {
        list.extend(LINES.map(|line| as_both(&format!("@ 60 20 {level}/in/const 7/{line}/"))));
        let all = LINES.join("/");
        list.push(as_both(&format!("@ 60 20 {level}/in/const 7/{all}/out 4/")));
    }
    modswitches(list);
    rescales(list);
    upscales(list);
    without_price(list);
    sixteen_bits(list);
    dearest(list);
    longest(list);
}

/// So many products with the constant, value 1: the first, which is value `number`, is of `first`, and each other of the one before.
fn products(first: usize, number: usize, count: usize) -> String {
    (0..count).map(|n| format!("mul {} 1/", if n == 0 { first } else { number + n - 1 })).collect()
}

/// With F = W each product with a constant is a level lower: the input comes to the last of them by as many modswitches, up to 59.
fn modswitches(list: &mut Vec<Pair>) {
    let counts = (1..=59).map(|count| (60, count)).chain((1..60).map(|factor| (factor, 59)));
    for (factor, count) in counts {
        let circuit = format!("@ {factor} {factor} 60/in/const 7/{}", products(0, 2, count));
        list.push(as_both(&format!("{circuit}add 0 {}/", count + 1)));
    }
    // With F = 40 and W = 60 a square is a level above its m, and comes to every second product by `ms`, `us` and `rs`.
    for count in 1..=30 {
        let circuit = format!("@ 40 60 60/in/const 7/mul 0 0/{}", products(2, 3, count));
        list.push(as_both(&format!("{circuit}add 2 {}/add {} 2/", count + 2, count + 2)));
        list.push(as_both(&format!("{circuit}mul 2 {}/", count + 2)));
    }
}

/// A square at L = 60 has its m lower by W div F: so many rescales for each line that names it, up to 30.
fn rescales(list: &mut Vec<Pair>) {
    let headers = (1..=30).map(|waterline| [1, waterline]).chain((2..=60).map(|factor| [factor, 60]));
    for [factor, waterline] in headers {
        let base = format!("@ {factor} {waterline} 60/in/const 7/mul 0 0/");
        for line in ["neg 2", "rot 2 3", "add 2 2", "add 1 2", "mul 2 1", "mul 2 2", "out 2"] {
            list.push(as_both(&format!("{base}{line}/")));
        }
    }
}

/// With W from 30 a square's square is done a level lower, and both operands are raised for it.
fn upscales(list: &mut Vec<Pair>) {
    for waterline in 1..=59 {
        for level in [2, 3, 60] {
            list.push(as_both(&format!("@ 60 {waterline} {level}/in/mul 0 0/mul 1 1/add 0 1/add 2 0/")));
        }
    }
}

/// Headers alone, and lines that have no price.
fn without_price(list: &mut Vec<Pair>) {
    for number in 1..=60 {
        for header in
            ["60 20 N", "60 20 2 N", "N 60 60", "60 N 60 1", "N N N"].map(|form| form.replace('N', &number.to_string()))
        {
            list.push(as_both(&format!("@ {header}/")));
        }
        list.push(as_both(&format!("@ 60 20 60/in/const 7/{}", "out 0/".repeat(number))));
    }
}

/// 15·(136·32 + 17) is 65535 and 16·(128·32) is 65536. An H moves no line.
fn sixteen_bits(list: &mut Vec<Pair>) {
    for headroom in 1..=40 {
        for (level, rotations, negations) in [(15, 136, 17), (16, 128, 0)] {
            let lines = "rot 0 1/".repeat(rotations) + &"neg 0/".repeat(negations);
            list.push(as_both(&format!("@ 60 20 {level} {headroom}/in/{lines}")));
        }
    }
}

/// Sums of a square with itself, which is brought from level 60 to level 30 twice each time, each time anew: a line is 2·6·(60 + .. + 31) + 30.
fn dearest(list: &mut Vec<Pair>) {
    for header in ["1 30 60", "2 60 60"] {
        for count in [1, 2, 3, 10, 100].into_iter().chain(CIRCUIT_LINES - 14..=CIRCUIT_LINES - 2) {
            list.push(as_both(&format!("@ {header}/in/mul 0 0/{}", "add 1 1/".repeat(count))));
        }
    }
}

/// Squares of a square that are done a level lower: five lines each. No known circuit line is planned as more.
fn longest(list: &mut Vec<Pair>) {
    for waterline in 30..=55 {
        list.push(as_both(&format!("@ 60 {waterline} 60/in/mul 0 0/{}", "mul 1 1/".repeat(CIRCUIT_LINES - 2))));
    }
    for headroom in ["", " 60"] {
        list.push(as_both(&format!("@ 60 30 60{headroom}/in/{}", long_operands())));
    }
}

/// The same with a new square where the plan's numbers come to three digits and to four, so that the operands are long too.
fn long_operands() -> String {
    let digits = |number: usize| number.to_string().len().max(2);
    let mut text = String::new();
    // The square in the circuit and in the plan, and the number of the plan's next line.
    let (mut square, mut planned_square, mut next) = (1, 1, 1);
    for n in 1..CIRCUIT_LINES {
        if n == 1 || digits(next) > digits(planned_square) {
            (square, planned_square) = (n, next);
            text += "mul 0 0/";
            next += 1;
        } else {
            text += &format!("mul {square} {square}/");
            next += 5;
        }
    }
    text
}

#[cfg(test)]
mod tests {
    use super::*;
    use crate::services::{quote, QuoteReply};

    fn quotes() -> Vec<QuoteReply> {
        let mut list = Vec::new();
        limits(&mut list);
        list.iter().map(|pair| quote(&pair.circuit)).collect()
    }

    /// `mul` 40·60, and 254 sums of 2·6·1365 + 30 each; two to the 22 is more.
    #[test]
    fn the_dearest_plans() {
        let quotes = quotes();
        let dearest = 2_400 + 254 * (12 * 1_365 + 30);
        assert_eq!(dearest, 4_170_540);
        assert_eq!(quotes.iter().map(|quote| quote.price).max(), Some(dearest));
        assert!(quotes.iter().filter(|quote| quote.price >= 4_000_000).count() >= 20);
    }

    /// A header, two lines, and 254 times five lines.
    #[test]
    fn the_longest_plans() {
        let quotes = quotes();
        assert_eq!(quotes.iter().map(|quote| quote.lines).max(), Some(1 + 2 + 254 * 5));
        assert!(quotes.iter().filter(|quote| quote.lines == 1_273).count() >= 20);
        assert_eq!(quotes.iter().map(|quote| quote.bytes).max(), Some(12_796));
    }

    #[test]
    fn prices_on_both_sides_of_sixteen_bits() {
        let quotes = quotes();
        for price in [65_535, 65_536] {
            assert_eq!(quotes.iter().filter(|quote| quote.price == price).count(), 40);
        }
    }
}
