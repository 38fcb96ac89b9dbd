//! What is called from C: the archive under test and the yardstick, by their C declarations and one safe wrapper.

use crate::services::{QuoteReply, Reply};

extern "C" {
    fn gowashiru_plan(circuit: *const u8, circuit_len: usize, out: *mut u8, out_len: usize) -> Reply;
    fn gowashiru_check(circuit: *const u8, circuit_len: usize, schedule: *const u8, schedule_len: usize) -> Reply;
    fn gowashiru_erase(schedule: *const u8, schedule_len: usize, out: *mut u8, out_len: usize) -> Reply;
    fn gowashiru_least_level(circuit: *const u8, circuit_len: usize) -> Reply;
    fn gowashiru_from_rising(listing: *const u8, listing_len: usize, out: *mut u8, out_len: usize) -> Reply;
    fn gowashiru_to_rising(schedule: *const u8, schedule_len: usize, out: *mut u8, out_len: usize) -> Reply;
    fn gowashiru_quote(circuit: *const u8, circuit_len: usize) -> QuoteReply;
    fn gowashiru_may_drop(schedule: *const u8, schedule_len: usize, value: u32, line: u32) -> Reply;
    fn gowashiru_live_after(schedule: *const u8, schedule_len: usize, line: u32) -> Reply;
    fn gowashiru_live_peak(schedule: *const u8, schedule_len: usize) -> Reply;
    fn gowashiru_live(schedule: *const u8, schedule_len: usize, out: *mut u8, out_len: usize) -> Reply;
    fn yardstick_plan(circuit: *const u8, circuit_len: usize, out: *mut u8, out_len: usize) -> Reply;
    fn yardstick_check(circuit: *const u8, circuit_len: usize, schedule: *const u8, schedule_len: usize) -> Reply;
    fn yardstick_erase(schedule: *const u8, schedule_len: usize, out: *mut u8, out_len: usize) -> Reply;
    fn yardstick_least_level(circuit: *const u8, circuit_len: usize) -> Reply;
    fn yardstick_from_rising(listing: *const u8, listing_len: usize, out: *mut u8, out_len: usize) -> Reply;
    fn yardstick_to_rising(schedule: *const u8, schedule_len: usize, out: *mut u8, out_len: usize) -> Reply;
    fn yardstick_quote(circuit: *const u8, circuit_len: usize) -> QuoteReply;
    fn yardstick_may_drop(schedule: *const u8, schedule_len: usize, value: u32, line: u32) -> Reply;
    fn yardstick_live_after(schedule: *const u8, schedule_len: usize, line: u32) -> Reply;
    fn yardstick_live_peak(schedule: *const u8, schedule_len: usize) -> Reply;
    fn yardstick_live(schedule: *const u8, schedule_len: usize, out: *mut u8, out_len: usize) -> Reply;
}

/// The proved archive, or the same services in plain C.
#[derive(Clone, Copy, PartialEq, Eq, Debug)]
pub enum Library {
    Archive,
    Yardstick,
}

/// A service, with the numbers that it is handed beside its files.
#[derive(Clone, Copy, PartialEq, Eq, Debug)]
pub enum Service {
    Plan,
    Check,
    Erase,
    LeastLevel,
    FromRising,
    ToRising,
    Quote,
    MayDrop { value: u32, line: u32 },
    LiveAfter { line: u32 },
    LivePeak,
    Live,
}

impl Service {
    /// Whether it writes to the buffer that it is lent.
    pub fn writes(self) -> bool {
        matches!(self, Service::Plan | Service::Erase | Service::FromRising | Service::ToRising | Service::Live)
    }
}

/// What a service answers: a quote has a reply of its own.
#[derive(Clone, Copy, PartialEq, Eq, Debug)]
pub enum Answer {
    Reply(Reply),
    Quote(QuoteReply),
}

impl From<Reply> for Answer {
    fn from(reply: Reply) -> Answer {
        Answer::Reply(reply)
    }
}

impl From<QuoteReply> for Answer {
    fn from(quote: QuoteReply) -> Answer {
        Answer::Quote(quote)
    }
}

/// Bytes to be lent, with guard bytes on both sides. Inputs are lent from memory that could be written, so that a write by
/// the called one shows afterwards and is not presumed away.
#[derive(Clone, PartialEq, Eq)]
pub struct Lent {
    framed: Vec<u8>,
    start: usize,
    length: usize,
    null_if_empty: bool,
}

impl Lent {
    pub fn new(before: &[u8], bytes: &[u8], after: &[u8], null_if_empty: bool) -> Lent {
        let framed = [before, bytes, after].concat();
        Lent { framed, start: before.len(), length: bytes.len(), null_if_empty }
    }

    pub fn bytes(&self) -> &[u8] {
        &self.framed[self.start..self.start + self.length]
    }

    pub fn bytes_mut(&mut self) -> &mut [u8] {
        &mut self.framed[self.start..self.start + self.length]
    }

    /// The lent bytes and the guard bytes around them.
    pub fn framed(&self) -> &[u8] {
        &self.framed
    }

    /// Where the lent bytes begin among the framed ones.
    pub fn start(&self) -> usize {
        self.start
    }

    fn pointer(&mut self) -> *mut u8 {
        if self.length == 0 && self.null_if_empty {
            std::ptr::null_mut()
        } else {
            // The pointer may reach the guard bytes, so a write there is seen too.
            self.framed.as_mut_ptr().wrapping_add(self.start)
        }
    }
}

/// Calls a service. `second` is asked for by check alone, `out` by those that write.
pub fn call(library: Library, service: Service, first: &mut Lent, second: &mut Lent, out: &mut Lent) -> Answer {
    let (a, a_length) = (first.pointer(), first.length);
    let (b, b_length) = (second.pointer(), second.length);
    let (result, room) = (out.pointer(), out.length);
    // SAFETY: each pointer with its length lies in a vector of its own, borrowed for writing during the call; the three do not
    // overlap; with length 0 a pointer is not followed. Threads here have more stack than the header asks for.
    unsafe {
        match (library, service) {
            (Library::Archive, Service::Plan) => gowashiru_plan(a, a_length, result, room).into(),
            (Library::Archive, Service::Check) => gowashiru_check(a, a_length, b, b_length).into(),
            (Library::Archive, Service::Erase) => gowashiru_erase(a, a_length, result, room).into(),
            (Library::Archive, Service::LeastLevel) => gowashiru_least_level(a, a_length).into(),
            (Library::Archive, Service::FromRising) => gowashiru_from_rising(a, a_length, result, room).into(),
            (Library::Archive, Service::ToRising) => gowashiru_to_rising(a, a_length, result, room).into(),
            (Library::Archive, Service::Quote) => gowashiru_quote(a, a_length).into(),
            (Library::Archive, Service::MayDrop { value, line }) => gowashiru_may_drop(a, a_length, value, line).into(),
            (Library::Archive, Service::LiveAfter { line }) => gowashiru_live_after(a, a_length, line).into(),
            (Library::Archive, Service::LivePeak) => gowashiru_live_peak(a, a_length).into(),
            (Library::Archive, Service::Live) => gowashiru_live(a, a_length, result, room).into(),
            (Library::Yardstick, Service::Plan) => yardstick_plan(a, a_length, result, room).into(),
            (Library::Yardstick, Service::Check) => yardstick_check(a, a_length, b, b_length).into(),
            (Library::Yardstick, Service::Erase) => yardstick_erase(a, a_length, result, room).into(),
            (Library::Yardstick, Service::LeastLevel) => yardstick_least_level(a, a_length).into(),
            (Library::Yardstick, Service::FromRising) => yardstick_from_rising(a, a_length, result, room).into(),
            (Library::Yardstick, Service::ToRising) => yardstick_to_rising(a, a_length, result, room).into(),
            (Library::Yardstick, Service::Quote) => yardstick_quote(a, a_length).into(),
            (Library::Yardstick, Service::MayDrop { value, line }) => yardstick_may_drop(a, a_length, value, line).into(),
            (Library::Yardstick, Service::LiveAfter { line }) => yardstick_live_after(a, a_length, line).into(),
            (Library::Yardstick, Service::LivePeak) => yardstick_live_peak(a, a_length).into(),
            (Library::Yardstick, Service::Live) => yardstick_live(a, a_length, result, room).into(),
        }
    }
}
