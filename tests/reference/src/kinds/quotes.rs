//! The quote beside the plan: "Each equals what counting over the written one gives."

use super::{expect, with_files};
use crate::both::{Both, Outcome, AMPLE};
use crate::check::{standings, Standing};
use crate::services::QuoteReply;
use crate::text::{file_of, Reading};

/// Plans a circuit in ample room and quotes it.
pub fn plan_and_quote(circuit: &[u8], both: &mut Both) -> Result<Outcome, String> {
    let planned = both.plan(circuit, AMPLE)?;
    let quote = both.quote(circuit)?;
    if quote.number == 0 {
        matches_written(circuit, quote, &planned, both)?;
    } else {
        is_planners_own(circuit, quote, &planned, both)?;
    }
    Ok(planned)
}

/// The numbers of a quote are those of the written plan, and a buffer of its bytes is the shortest that is enough.
fn matches_written(circuit: &[u8], quote: QuoteReply, planned: &Outcome, both: &mut Both) -> Result<(), String> {
    let written = &planned.written;
    let otherwise = |what: &str| with_files(&format!("{what}, {quote:?}"), circuit, written);
    expect(planned.reply == quote.of_planning(), || otherwise("the plan has another length than was quoted"))?;
    let lines = written.iter().filter(|&&byte| byte == b'\n').count();
    expect(lines == quote.lines as usize, || otherwise(&format!("the plan has {lines} lines")))?;
    let price = counted_price(written);
    expect(price == Some(quote.price.into()), || otherwise(&format!("the price of the plan is {price:?}")))?;
    let bytes = quote.bytes as usize;
    let enough = both.plan(circuit, bytes)?;
    expect(enough.reply == planned.reply && enough.written == *written, || otherwise("the quoted bytes are too few"))?;
    let short = both.plan(circuit, bytes - 1)?.reply.number;
    expect(short == 13, || otherwise(&format!("a byte less than was quoted gives {short}")))
}

/// "A circuit that can't be planned gets the planner's own", which is the same in any room.
fn is_planners_own(circuit: &[u8], quote: QuoteReply, planned: &Outcome, both: &mut Both) -> Result<(), String> {
    let otherwise = |what: &str| with_files(&format!("{what}, {quote:?}"), circuit, &[]);
    expect([quote.lines, quote.bytes, quote.price] == [0; 3], || otherwise("a refused quote has numbers"))?;
    expect(planned.reply == quote.of_planning(), || otherwise(&format!("the plan is replied {:?}", planned.reply)))?;
    let without_room = both.plan(circuit, 0)?.reply;
    expect(without_room == planned.reply, || otherwise(&format!("the plan in no room is replied {without_room:?}")))
}

/// The price of a schedule, counted from its text: words and numbers as they are written, levels from where the check lets each line stand. None
/// where it does not keep the rules.
fn counted_price(schedule: &[u8]) -> Option<i64> {
    let file = file_of(schedule, Reading::Schedule).ok()?;
    let (held, refusal) = standings(&file);
    let text = std::str::from_utf8(schedule).ok()?;
    let lines: Vec<&str> = text.lines().skip(1).collect();
    lines.iter().map(|line| counted_price_of(line, &lines, &held)).sum::<Option<i64>>().filter(|_| refusal.is_none())
}

fn counted_price_of(line: &str, lines: &[&str], held: &[Option<Standing>]) -> Option<i64> {
    let mut fields = line.split('\t');
    let word = fields.next()?;
    let mut number = || fields.next()?.parse::<usize>().ok();
    if matches!(word, "in" | "const" | "out") {
        return Some(0);
    }
    let operand = number()?;
    if word == "enc" {
        let level = number().and_then(|_| number())?;
        return Some(2 * level as i64);
    }
    let level = i64::from(held[operand]?.level);
    Some(match word {
        "mul" => {
            let has_constant = [operand, number()?].iter().any(|&operand| lines[operand].starts_with("enc"));
            level * if has_constant { 4 } else { 40 }
        }
        "rot" => 32 * level,
        "us" => 4 * level,
        "add" | "neg" => level,
        // One rescale or modswitch after the other.
        "rs" => (0..number()? as i64).map(|done| 6 * (level - done)).sum(),
        "ms" => (0..number()? as i64).map(|done| level - done).sum(),
        _ => return None,
    })
}

#[cfg(test)]
mod tests {
    use super::*;

    /// Two modswitches from level 4, a product of two at level 2, and rescales from level 5.
    #[test]
    fn prices_counted_from_a_text() {
        let price = |shown: &str| counted_price(shown.replace('/', "\n").replace(' ', "\t").as_bytes());
        assert_eq!(price("schedule 60 20 2/"), Some(0));
        assert_eq!(price("schedule 60 20 4/in/ms 0 2/mul 1 1/out 2/"), Some(4 + 3 + 80));
        assert_eq!(price("schedule 10 20 5/in/mul 0 0/rs 1 2/neg 2/"), Some(200 + 30 + 24 + 3));
        assert_eq!(price("schedule 60 20 2/in/const 7/enc 1 20 2/mul 0 2/rot 3 -1/us 4 1/"), Some(4 + 8 + 64 + 8));
        // One that breaks a rule has none here.
        assert_eq!([price("schedule 60 20 2/in/rs 0 1/"), price("schedule 60 20 2/in/ms 0 2/neg 1/")], [None; 2]);
    }
}
