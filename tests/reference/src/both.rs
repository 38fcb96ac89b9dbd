//! One call on every side: the archive and the yardstick are held to the reference in reply, every byte of the lent buffer, guard bytes
//! and inputs.

use crate::coverage::Coverage;
use crate::library::{self, Answer, Lent, Library, Service};
use crate::random::Random;
use crate::services::{self, QuoteReply, Reply, LIVE_VALUE_BYTES};
use crate::text::SCHEDULE_LINES;

/// Room that holds every result.
pub const AMPLE: usize = 32_768;

/// Room for what a schedule or listing is erased or converted to: a `ds` becomes two lines, each at most twice as long.
pub fn ample_for(text: &[u8]) -> usize {
    AMPLE.min(4 * text.len() + 64)
}

/// Room for the entries and counts of a schedule, with some bytes to spare: each line but the header has three bytes at least.
pub fn ample_for_live(schedule: &[u8]) -> usize {
    LIVE_VALUE_BYTES * SCHEDULE_LINES.min(schedule.len() / 3) + 16
}

const GUARD: usize = 32;

/// Bytes that may stand behind an input: a reader that goes too far finds something it might take for a part of the file.
const TEMPTING: [&[u8]; 6] =
    [b"\n\n\n\nin\nin\n", b"0123456789\n", b"\t0\t0\n", b"in\nneg\t0\n", b"\0\0\0\0\0\0\0\0", b"-1\t+2\r\n"];

/// A service with what it is handed. `second` is asked for by check alone.
#[derive(Clone, Copy)]
pub struct Call<'a> {
    pub service: Service,
    pub first: &'a [u8],
    pub second: &'a [u8],
    pub room: usize,
}

/// What all sides agreed on.
pub struct Outcome {
    pub reply: Reply,
    /// The bytes written: empty unless a service that writes succeeded.
    pub written: Vec<u8>,
}

pub struct Both {
    random: Random,
    show: bool,
    pub calls: u64,
    pub coverage: Coverage,
    pub searches: Searches,
    pub runs: Runs,
    pub halves: Halves,
    pub trips: Trips,
    pub reserves: Reserves,
    pub levels: Levels,
    pub scans: Scans,
}

/// Exhaustive searches, by what they came to.
#[derive(Clone, Copy, Default)]
pub struct Searches {
    pub exists: u64,
    pub none: u64,
    pub gave_up: u64,
    /// Those of the first two whose header has an H.
    pub exists_with_headroom: u64,
    pub none_with_headroom: u64,
}

impl Searches {
    pub fn add(&mut self, other: &Searches) {
        self.exists += other.exists;
        self.none += other.none;
        self.gave_up += other.gave_up;
        self.exists_with_headroom += other.exists_with_headroom;
        self.none_with_headroom += other.none_with_headroom;
    }
}

/// Runs of the scale machine, by how they ended.
#[derive(Clone, Copy, Default)]
pub struct Runs {
    pub to_the_end: u64,
    pub stopped: u64,
}

impl Runs {
    pub fn add(&mut self, other: &Runs) {
        self.to_the_end += other.to_the_end;
        self.stopped += other.stopped;
    }
}

/// Circuit lines that the scale machine ran in schedules with an H, by how near their numbers come to half the modulus.
#[derive(Clone, Copy, Default)]
pub struct Halves {
    /// With circuit numbers below two to (H − 1) alone: what they hold is below half the modulus.
    pub below: u64,
    /// Of these, with a number of two to (H − 1) less one, where scale + H is F·level.
    pub greatest: u64,
    /// With a number of two to (H − 1) there, which is half the modulus.
    pub reached: u64,
}

impl Halves {
    pub fn add(&mut self, other: &Halves) {
        self.below += other.below;
        self.greatest += other.greatest;
        self.reached += other.reached;
    }
}

/// Conversions into the other dialect and back, by where they began.
#[derive(Clone, Copy, Default)]
pub struct Trips {
    /// Of a listing without `ds`.
    pub of_listing: u64,
    pub of_schedule: u64,
}

impl Trips {
    pub fn add(&mut self, other: &Trips) {
        self.of_listing += other.of_listing;
        self.of_schedule += other.of_schedule;
    }
}

/// Ciphertext lines by what their reserve was found to be.
#[derive(Clone, Copy, Default)]
pub struct Reserves {
    /// In a plan: the greatest that the exhaustive search finds.
    pub greatest: u64,
    /// Those of them whose header has an H, and those that are `out`.
    pub greatest_with_headroom: u64,
    pub greatest_of_outputs: u64,
    /// In a schedule that passes: as in the plan of its circuit, or less.
    pub same: u64,
    pub less: u64,
    /// Such schedules, not lines: the last ciphertext line has the plan's reserve, an earlier one less.
    pub less_before_last: u64,
}

impl Reserves {
    pub fn add(&mut self, other: &Reserves) {
        self.greatest += other.greatest;
        self.greatest_with_headroom += other.greatest_with_headroom;
        self.greatest_of_outputs += other.greatest_of_outputs;
        self.same += other.same;
        self.less += other.less;
        self.less_before_last += other.less_before_last;
    }
}

/// Plans of circuits at other levels than their own.
#[derive(Clone, Copy, Default)]
pub struct Levels {
    /// Above the least level: all fit.
    pub above: u64,
    /// Circuits that fit at their least level, those that fit at 60 above it, and those that do not fit below it.
    pub least: u64,
    pub highest: u64,
    pub below_least: u64,
}

impl Levels {
    pub fn add(&mut self, other: &Levels) {
        self.above += other.above;
        self.least += other.least;
        self.highest += other.highest;
        self.below_least += other.below_least;
    }
}

/// What was found to be equal to a scan of all later lines.
#[derive(Clone, Copy, Default)]
pub struct Scans {
    pub entries: u64,
    pub counts: u64,
    pub peaks: u64,
    /// Answers about a value and a line.
    pub yes: u64,
    pub no: u64,
}

impl Scans {
    pub fn add(&mut self, other: &Scans) {
        self.entries += other.entries;
        self.counts += other.counts;
        self.peaks += other.peaks;
        self.yes += other.yes;
        self.no += other.no;
    }
}

impl Both {
    /// `show` prints every call and the replies.
    pub fn new(random: Random, show: bool) -> Both {
        let (searches, runs, halves, trips) = (Searches::default(), Runs::default(), Halves::default(), Trips::default());
        let (reserves, levels, scans) = (Reserves::default(), Levels::default(), Scans::default());
        Both { random, show, calls: 0, coverage: Coverage::default(), searches, runs, halves, trips, reserves, levels, scans }
    }

    pub fn plan(&mut self, circuit: &[u8], room: usize) -> Result<Outcome, String> {
        self.call(Call { service: Service::Plan, first: circuit, second: &[], room })
    }

    pub fn check(&mut self, circuit: &[u8], schedule: &[u8]) -> Result<Outcome, String> {
        self.call(Call { service: Service::Check, first: circuit, second: schedule, room: 0 })
    }

    pub fn erase(&mut self, schedule: &[u8], room: usize) -> Result<Outcome, String> {
        self.call(Call { service: Service::Erase, first: schedule, second: &[], room })
    }

    pub fn least_level(&mut self, circuit: &[u8]) -> Result<Outcome, String> {
        self.call(Call { service: Service::LeastLevel, first: circuit, second: &[], room: 0 })
    }

    pub fn from_rising(&mut self, listing: &[u8], room: usize) -> Result<Outcome, String> {
        self.call(Call { service: Service::FromRising, first: listing, second: &[], room })
    }

    pub fn to_rising(&mut self, schedule: &[u8], room: usize) -> Result<Outcome, String> {
        self.call(Call { service: Service::ToRising, first: schedule, second: &[], room })
    }

    pub fn quote(&mut self, circuit: &[u8]) -> Result<QuoteReply, String> {
        match self.compared(Call { service: Service::Quote, first: circuit, second: &[], room: 0 })? {
            (Answer::Quote(quote), _) => Ok(quote),
            (Answer::Reply(_), _) => unreachable!("a quote has a reply of its own"),
        }
    }

    pub fn may_drop(&mut self, schedule: &[u8], value: u32, line: u32) -> Result<Reply, String> {
        let service = Service::MayDrop { value, line };
        self.call(Call { service, first: schedule, second: &[], room: 0 }).map(|outcome| outcome.reply)
    }

    pub fn live_after(&mut self, schedule: &[u8], line: u32) -> Result<Reply, String> {
        let service = Service::LiveAfter { line };
        self.call(Call { service, first: schedule, second: &[], room: 0 }).map(|outcome| outcome.reply)
    }

    pub fn live_peak(&mut self, schedule: &[u8]) -> Result<Reply, String> {
        self.call(Call { service: Service::LivePeak, first: schedule, second: &[], room: 0 }).map(|outcome| outcome.reply)
    }

    pub fn live(&mut self, schedule: &[u8], room: usize) -> Result<Outcome, String> {
        self.call(Call { service: Service::Live, first: schedule, second: &[], room })
    }

    fn call(&mut self, call: Call) -> Result<Outcome, String> {
        match self.compared(call)? {
            (Answer::Reply(reply), written) => Ok(Outcome { reply, written }),
            (Answer::Quote(_), _) => unreachable!("only a quote is answered so"),
        }
    }

    /// A call that is compared and counted: what all sides agreed on, and the bytes written.
    fn compared(&mut self, call: Call) -> Result<(Answer, Vec<u8>), String> {
        let inputs = [self.lend_input(call.first), self.lend_input(call.second)];
        let buffer = self.lend_buffer(call.room);
        let mut expected = buffer.clone();
        let answer = reference_call(call, expected.bytes_mut());
        for library in [Library::Archive, Library::Yardstick] {
            let (theirs, fault) = called(library, call, &inputs, &buffer, (answer, &expected));
            if self.show {
                println!("{}", described(library, call, answer, theirs));
            }
            if let Some(fault) = fault {
                return Err(format!("{fault}\n{}", described(library, call, answer, theirs)));
            }
        }
        let length = match answer {
            Answer::Reply(reply) if call.service.writes() => reply.length as usize,
            _ => 0,
        };
        let written = expected.bytes()[..length].to_vec();
        self.calls += 1;
        self.coverage.count_call(&call, answer, &written);
        Ok((answer, written))
    }

    fn lend_input(&mut self, bytes: &[u8]) -> Lent {
        let before = self.noise(GUARD);
        let tempting = self.random.pick(&TEMPTING);
        let after = [tempting, &before].concat();
        Lent::new(&before, bytes, &after, self.random.percent(50))
    }

    fn lend_buffer(&mut self, room: usize) -> Lent {
        let noise = self.noise(room + 2 * GUARD);
        let (before, rest) = noise.split_at(GUARD);
        let (bytes, after) = rest.split_at(room);
        Lent::new(before, bytes, after, self.random.percent(50))
    }

    fn noise(&mut self, length: usize) -> Vec<u8> {
        let mut bytes = vec![0; length];
        for chunk in bytes.chunks_mut(8) {
            chunk.copy_from_slice(&self.random.word().to_le_bytes()[..chunk.len()]);
        }
        bytes
    }
}

fn reference_call(call: Call, out: &mut [u8]) -> Answer {
    match call.service {
        Service::Plan => services::plan(call.first, out).into(),
        Service::Check => services::check(call.first, call.second).into(),
        Service::Erase => services::erase(call.first, out).into(),
        Service::LeastLevel => services::least_level(call.first).into(),
        Service::FromRising => services::from_rising(call.first, out).into(),
        Service::ToRising => services::to_rising(call.first, out).into(),
        Service::Quote => services::quote(call.first).into(),
        Service::MayDrop { value, line } => services::may_drop(call.first, value, line).into(),
        Service::LiveAfter { line } => services::live_after(call.first, line).into(),
        Service::LivePeak => services::live_peak(call.first).into(),
        Service::Live => services::live(call.first, out).into(),
    }
}

/// A call of one library, and how it differs from the answer and the buffer expected.
fn called(
    library: Library,
    call: Call,
    inputs: &[Lent; 2],
    buffer: &Lent,
    expected: (Answer, &Lent),
) -> (Answer, Option<String>) {
    let [mut first, mut second] = inputs.clone();
    let mut out = buffer.clone();
    let answer = library::call(library, call.service, &mut first, &mut second, &mut out);
    let fault = if answer != expected.0 {
        Some("the replies differ".to_string())
    } else if let Some(at) = first_difference(out.framed(), expected.1.framed()) {
        Some(buffer_fault(at, &out, expected.1))
    } else if [first, second] != *inputs {
        Some("an input or a guard byte beside it was changed".to_string())
    } else {
        None
    };
    (answer, fault)
}

fn first_difference(one: &[u8], other: &[u8]) -> Option<usize> {
    if one == other {
        return None;
    }
    one.iter().zip(other).position(|(x, y)| x != y)
}

/// Shows both buffers around the first byte that differs.
fn buffer_fault(at: usize, out: &Lent, expected: &Lent) -> String {
    let around = |framed: &[u8]| framed[at.saturating_sub(40)..framed.len().min(at + 40)].escape_ascii().to_string();
    let place = at as i64 - out.start() as i64;
    let room = out.bytes().len();
    let (theirs, ours) = (around(out.framed()), around(expected.framed()));
    format!(
        "the lent buffer differs at byte {place} (guard bytes stand before 0 and from {room} on); around it\n  \
         library:   {theirs}\n  reference: {ours}"
    )
}

fn described(library: Library, call: Call, ours: Answer, theirs: Answer) -> String {
    let mut text =
        format!("  {library:?}, service: {:?}, room {}\n  first:  {}", call.service, call.room, call.first.escape_ascii());
    if call.service == Service::Check {
        text += &format!("\n  second: {}", call.second.escape_ascii());
    }
    text + &format!("\n  library:   {}\n  reference: {}", shown(theirs), shown(ours))
}

fn shown(answer: Answer) -> String {
    match answer {
        Answer::Reply(Reply { number, file, place, length }) => {
            format!("number {number} file {file} place {place} length {length}")
        }
        Answer::Quote(QuoteReply { number, file, place, lines, bytes, price }) => {
            format!("number {number} file {file} place {place} lines {lines} bytes {bytes} price {price}")
        }
    }
}
