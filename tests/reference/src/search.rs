//! An exhaustive search through all legal schedules of a tiny circuit, from the rules of a line alone: whether there is one, and the greatest
//! reserve that each line has in any of them.
//!
//! Nothing of the plan is used here: no best reserve, no m(r). A schedule gives each circuit line one pair of scale and level.
//! Between a line and its use stand any number of `us`, `rs` and `ms` lines; each use may have its own.

use crate::text::{File, Header, Line};
use std::collections::{HashMap, HashSet};

/// The search keeps one byte for each circuit line.
pub const MOST_LINES: usize = 8;
/// With more open choices than this the search gives up.
const MOST_CHOICES: usize = 60_000;

#[derive(Clone, Copy, PartialEq, Eq, Debug)]
struct Pair {
    scale: i32,
    level: i32,
}

#[derive(Clone, Copy, PartialEq, Eq, Debug)]
pub enum Answer {
    /// Some schedule keeps all rules.
    Exists,
    /// No schedule keeps the rules up to this line (a value number); up to the line before one does.
    NoneFrom(usize),
    /// Too large for this search.
    GaveUp,
}

/// The pair chosen for each line, as an index into the legal pairs; `NO_PAIR` where none is held or no later line asks for it.
type Choice = [u8; MOST_LINES];
const NO_PAIR: u8 = u8::MAX;
type Choices = HashSet<Choice>;

struct Search<'a> {
    header: Header,
    lines: &'a [Line],
    /// All pairs with W ≤ scale, scale + H ≤ F·level and level from 1 to L.
    pairs: Vec<Pair>,
    /// For each pair the pairs that `us`, `rs` and `ms` lines lead to, itself included.
    reach: Vec<Vec<u8>>,
    /// Products found so far, by the pairs of both operands.
    products: HashMap<(u8, u8), Vec<u8>>,
}

impl Search<'_> {
    /// None where there are more lines than a choice holds, or more pairs than a byte can count.
    fn new(circuit: &File) -> Option<Search<'_>> {
        let (header, lines) = (circuit.header, circuit.lines());
        let mut pairs = Vec::new();
        for level in 1..=header.top_level {
            for scale in header.waterline..=header.factor * level - header.headroom_bits() {
                pairs.push(Pair { scale, level });
            }
        }
        if lines.len() > MOST_LINES || pairs.len() >= usize::from(NO_PAIR) {
            return None;
        }
        let mut search = Search { header, lines, pairs, reach: Vec::new(), products: HashMap::new() };
        search.reach = (0..search.pairs.len()).map(|from| search.reach_from(from as u8)).collect();
        Some(search)
    }

    fn index(&self, pair: Pair) -> Option<u8> {
        self.pairs.iter().position(|&known| known == pair).map(|index| index as u8)
    }

    /// The legal pairs that one `us`, `rs` or `ms` line leads to.
    fn one_line_on(&self, from: u8) -> Vec<u8> {
        let Pair { scale, level } = self.pairs[usize::from(from)];
        let factor = self.header.factor;
        let upscaled = (1..=3600).take_while(|bits| scale + bits <= factor * level).map(|bits| (scale + bits, level));
        // No pair has a level below 1.
        let rescaled = (1..level).map(|count| (scale - factor * count, level - count));
        let switched = (1..level).map(|count| (scale, level - count));
        let after = upscaled.chain(rescaled).chain(switched);
        after.filter_map(|(scale, level)| self.index(Pair { scale, level })).collect()
    }

    /// The pairs that any number of such lines leads to.
    fn reach_from(&self, from: u8) -> Vec<u8> {
        let mut found = vec![false; self.pairs.len()];
        found[usize::from(from)] = true;
        let mut open = vec![from];
        while let Some(pair) = open.pop() {
            for next in self.one_line_on(pair) {
                if !found[usize::from(next)] {
                    found[usize::from(next)] = true;
                    open.push(next);
                }
            }
        }
        (0..self.pairs.len()).filter(|&pair| found[pair]).map(|pair| pair as u8).collect()
    }

    /// What operands at pair `from` can be brought to. A constant can be encoded at every legal pair.
    fn brought(&self, from: u8) -> Vec<u8> {
        if from == NO_PAIR {
            (0..self.pairs.len()).map(|pair| pair as u8).collect()
        } else {
            self.reach[usize::from(from)].clone()
        }
    }

    /// The pairs that the product of two operands can have: equal levels, the scales summed.
    fn products(&mut self, a: u8, b: u8) -> Vec<u8> {
        if let Some(known) = self.products.get(&(a, b)) {
            return known.clone();
        }
        let mut found = vec![false; self.pairs.len()];
        let second = self.brought(b);
        for x in self.brought(a).into_iter().map(|x| self.pairs[usize::from(x)]) {
            for y in second.iter().map(|&y| self.pairs[usize::from(y)]).filter(|y| y.level == x.level) {
                if let Some(pair) = self.index(Pair { scale: x.scale + y.scale, level: x.level }) {
                    found[usize::from(pair)] = true;
                }
            }
        }
        let products: Vec<u8> = (0..found.len()).filter(|&pair| found[pair]).map(|pair| pair as u8).collect();
        self.products.insert((a, b), products.clone());
        products
    }

    /// The pairs that a line can have, its operands being as chosen.
    fn pairs_of(&mut self, line: Line, choice: &Choice) -> Vec<u8> {
        let at = |operand: u16| choice[usize::from(operand)];
        match line {
            Line::In => {
                let fresh = Pair { scale: self.header.waterline, level: self.header.top_level };
                self.index(fresh).into_iter().collect()
            }
            Line::Const { .. } => vec![NO_PAIR],
            Line::Neg { a } | Line::Rot { a, .. } | Line::Out { a } => self.brought(at(a)),
            Line::Add { a, b } => {
                let second = self.brought(at(b));
                self.brought(at(a)).into_iter().filter(|pair| second.contains(pair)).collect()
            }
            Line::Mul { a, b } => self.products(at(a), at(b)),
            _ => Vec::new(),
        }
    }

    /// Whether some line after `n` has value `number` as an operand.
    fn asked_for_after(&self, n: usize, number: usize) -> bool {
        self.lines[n + 1..].iter().any(|&line| match line {
            Line::Neg { a } | Line::Rot { a, .. } | Line::Out { a } => usize::from(a) == number,
            Line::Add { a, b } | Line::Mul { a, b } => usize::from(a) == number || usize::from(b) == number,
            _ => false,
        })
    }

    /// The pairs that line `n` can have after a choice, each with the choice that it leads to.
    fn steps(&mut self, n: usize, choice: &Choice) -> Vec<(u8, Choice)> {
        // Two choices that no later line can tell apart are one.
        let mut kept = *choice;
        for number in (0..n).filter(|&number| !self.asked_for_after(n, number)) {
            kept[number] = NO_PAIR;
        }
        let is_kept = self.asked_for_after(n, n);
        let after = |pair: u8| {
            let mut longer = kept;
            longer[n] = if is_kept { pair } else { NO_PAIR };
            (pair, longer)
        };
        self.pairs_of(self.lines[n], choice).into_iter().map(after).collect()
    }

    /// The choices before the first line and after each line that keep the rules up to it; an answer where a line leaves none.
    fn forward(&mut self) -> Result<Vec<Choices>, Answer> {
        let mut choices = vec![Choices::from([[NO_PAIR; MOST_LINES]])];
        for n in 0..self.lines.len() {
            let mut next = Choices::new();
            for choice in &choices[n] {
                next.extend(self.steps(n, choice).into_iter().map(|(_, longer)| longer));
                if next.len() > MOST_CHOICES {
                    return Err(Answer::GaveUp);
                }
            }
            if next.is_empty() {
                return Err(Answer::NoneFrom(n));
            }
            choices.push(next);
        }
        Ok(choices)
    }

    /// Of the choices before line `n` those that lead to one that can be completed, and the greatest reserve that the line has on the way.
    fn backward(&mut self, n: usize, before: &Choices, completed: &Choices) -> (Choices, Option<i32>) {
        let (mut leading, mut greatest) = (Choices::new(), None);
        for &choice in before {
            for (pair, _) in self.steps(n, &choice).into_iter().filter(|(_, longer)| completed.contains(longer)) {
                leading.insert(choice);
                greatest = greatest.max(self.reserve(pair));
            }
        }
        (leading, greatest)
    }

    /// F·level − scale, none for a bare constant.
    fn reserve(&self, pair: u8) -> Option<i32> {
        self.pairs.get(usize::from(pair)).map(|pair| self.header.factor * pair.level - pair.scale)
    }
}

/// Whether a circuit has any legal schedule, of whatever length, at its header.
pub fn search(circuit: &File) -> Answer {
    let Some(mut search) = Search::new(circuit) else { return Answer::GaveUp };
    search.forward().err().unwrap_or(Answer::Exists)
}

/// The greatest reserve that each line has in any legal schedule of the whole circuit at its header, none for a bare constant; the answer where there
/// is no such schedule.
pub fn greatest_reserves(circuit: &File) -> Result<Vec<Option<i32>>, Answer> {
    let mut search = Search::new(circuit).ok_or(Answer::GaveUp)?;
    let choices = search.forward()?;
    let mut reserves = vec![None; circuit.lines().len()];
    // After the last line nothing is left to do.
    let mut completed = choices[reserves.len()].clone();
    for (n, greatest) in reserves.iter_mut().enumerate().rev() {
        (completed, *greatest) = search.backward(n, &choices[n], &completed);
    }
    Ok(reserves)
}

#[cfg(test)]
mod tests {
    use super::*;
    use crate::text::{file_of, Reading};

    fn circuit(shown: &str) -> File {
        let bytes = shown.replace('/', "\n").replace(' ', "\t");
        match file_of(bytes.as_bytes(), Reading::Circuit) {
            Ok(circuit) => circuit,
            Err(refusal) => panic!("{refusal:?}"),
        }
    }

    fn answer(shown: &str) -> Answer {
        search(&circuit(shown))
    }

    /// The greatest reserves of the ciphertext lines.
    fn greatest(shown: &str) -> Result<Vec<i32>, Answer> {
        greatest_reserves(&circuit(shown)).map(|reserves| reserves.into_iter().flatten().collect())
    }

    /// Document 01's squarings with F = 60, W = 20, all numbers divided by 20.
    #[test]
    fn squarings() {
        assert_eq!(answer("circuit 3 1 1/in/mul 0 0/"), Answer::Exists);
        assert_eq!(answer("circuit 3 1 1/in/mul 0 0/mul 1 1/"), Answer::NoneFrom(2));
        assert_eq!(answer("circuit 3 1 2/in/mul 0 0/mul 1 1/mul 2 2/"), Answer::Exists);
        assert_eq!(answer("circuit 3 1 2/in/mul 0 0/mul 1 1/mul 2 2/mul 3 3/"), Answer::NoneFrom(4));
        assert_eq!(answer("circuit 3 1 3/in/mul 0 0/mul 1 1/mul 2 2/mul 3 3/"), Answer::Exists);
    }

    /// The same with an H: x² has 20 bits of reserve, x⁸ at L = 2 too, and x⁸ at L = 3 has 80; a constant is encoded beside the H too.
    #[test]
    fn headroom() {
        assert_eq!(answer("circuit 3 1 1 1/in/mul 0 0/"), Answer::Exists);
        assert_eq!(answer("circuit 3 1 1 2/in/mul 0 0/"), Answer::NoneFrom(1));
        assert_eq!(answer("circuit 3 1 2 1/in/mul 0 0/mul 1 1/mul 2 2/"), Answer::Exists);
        assert_eq!(answer("circuit 3 1 2 2/in/mul 0 0/mul 1 1/mul 2 2/"), Answer::NoneFrom(3));
        assert_eq!(answer("circuit 3 1 3 4/in/mul 0 0/mul 1 1/mul 2 2/"), Answer::Exists);
        assert_eq!(answer("circuit 3 1 3 5/in/mul 0 0/mul 1 1/mul 2 2/"), Answer::NoneFrom(3));
        assert_eq!([answer("circuit 4 5 2 3/in/"), answer("circuit 4 5 2 4/in/")], [Answer::Exists, Answer::NoneFrom(0)]);
        assert_eq!(answer("circuit 4 3 1 1/in/const 7/add 0 1/"), Answer::Exists);
        assert_eq!(answer("circuit 4 1 1 2/in/const 7/mul 0 1/"), Answer::Exists);
        assert_eq!(answer("circuit 4 1 1 3/in/const 7/mul 0 1/"), Answer::NoneFrom(2));
    }

    #[test]
    fn constants_and_waterline_above_factor() {
        assert_eq!(answer("circuit 4 5 1/in/"), Answer::NoneFrom(0));
        assert_eq!(answer("circuit 4 5 2/in/"), Answer::Exists);
        assert_eq!(answer("circuit 3 1 2/in/const 7/mul 0 1/mul 2 1/mul 3 3/out 4/"), Answer::Exists);
        assert_eq!(answer("circuit 3 2 1/in/const 7/add 0 1/mul 1 2/"), Answer::NoneFrom(3));
    }

    /// x, x² and x⁴ at scales 1, 2 and 4, level 2; x⁸ of operands rescaled to 1 at scale 2, level 1. With L = 3 and an H of 4 likewise, one level
    /// higher: x⁸ has no bit more than H.
    #[test]
    fn greatest_of_squarings() {
        assert_eq!(greatest("circuit 3 1 2/"), Ok(vec![]));
        assert_eq!(greatest("circuit 3 1 2/in/mul 0 0/mul 1 1/mul 2 2/"), Ok(vec![5, 4, 2, 1]));
        assert_eq!(greatest("circuit 3 1 3 4/in/mul 0 0/mul 1 1/mul 2 2/"), Ok(vec![8, 7, 5, 4]));
        assert_eq!(greatest("circuit 3 1 3 5/in/mul 0 0/mul 1 1/mul 2 2/"), Err(Answer::NoneFrom(3)));
        // W above F: scales 5 and 10 at level 3. At level 2 the product does not fit.
        assert_eq!(greatest("circuit 4 5 3/in/mul 0 0/"), Ok(vec![7, 2]));
    }

    /// Document 01's listing, all numbers divided by 20: scales 1, 2 and 3 at level 2, then 2 at level 1, where level 2 would leave nothing. A sum
    /// with a constant spends nothing, and a sum has the smaller reserve of its operands.
    #[test]
    fn greatest_with_constants() {
        let listing = "circuit 3 1 2/in/const 7/mul 0 1/mul 2 1/mul 3 3/out 4/";
        let reserves = [Some(5), None, Some(4), Some(3), Some(1), Some(1)];
        assert_eq!(greatest_reserves(&circuit(listing)), Ok(reserves.to_vec()));
        assert_eq!(greatest("circuit 3 1 2/in/const 7/add 0 1/mul 2 2/add 3 0/"), Ok(vec![5, 5, 4, 4]));
        // x⁴ at scale 4, level 2, or at 1, level 1; x⁵ at 5 and 2.
        assert_eq!(greatest("circuit 3 1 2/in/mul 0 0/mul 1 1/mul 0 2/neg 3/"), Ok(vec![5, 4, 2, 1, 1]));
    }

    /// What one use spends is not spent for the others, and an `out` needs to spend nothing.
    #[test]
    fn greatest_of_each_use() {
        assert_eq!(greatest("circuit 3 1 1/in/out 0/mul 0 0/out 2/"), Ok(vec![2, 2, 1, 1]));
        assert_eq!(greatest("circuit 3 1 2/in/in/mul 0 0/mul 2 2/mul 3 3/rot 1 1/"), Ok(vec![5, 5, 4, 2, 1, 5]));
        assert_eq!(greatest(&format!("circuit 3 1 2/{}", "in/".repeat(MOST_LINES + 1))), Err(Answer::GaveUp));
    }

    /// Each `neg` may have scale 1, 2 or 3 at level 1, but the product can only be done from 1. The second `neg` of 2 or 3 has no next choice; the
    /// first of 2 or 3 has one, which cannot be completed.
    #[test]
    fn choices_that_cannot_be_completed() {
        let circuit = circuit("circuit 3 1 1/in/neg 0/neg 1/mul 2 2/");
        let Some(mut search) = Search::new(&circuit) else { panic!("gave up") };
        let Ok(choices) = search.forward() else { panic!("no schedule") };
        assert_eq!(choices.iter().map(HashSet::len).collect::<Vec<_>>(), [1, 1, 3, 3, 1]);
        let (after_second, of_product) = search.backward(3, &choices[3], &choices[4]);
        assert_eq!((after_second.len(), of_product), (1, Some(1)));
        let (after_first, of_second) = search.backward(2, &choices[2], &after_second);
        assert_eq!((after_first.len(), of_second), (1, Some(2)));
    }
}
