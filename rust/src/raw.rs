//! What `include/mtpbank.h` declares, each function as a safe one: what that header asks of a caller holds of every reference and
//! slice. All `unsafe` of this crate stands here, but for the memory.

use std::ffi::c_void;

/// An end that is open.
#[repr(C)]
#[derive(Debug)]
pub struct End {
    at: *mut c_void,
}

// What it owns may go from one thread to another: the law `may_go_to_another_thread` of crates/mtpbank_end/src/held.rt. Each call
// borrows it alone, so one thread at a time calls it.
unsafe impl Send for End {}

/// The same, as it's given back.
#[repr(C)]
struct Closing {
    at: *mut c_void,
}

/// A set of links: its own number, the point codes, N1 (0: basic error correction) and N2, how many links, and the SIO of the
/// management.
#[repr(C)]
#[derive(Clone, Copy, Debug)]
#[allow(missing_docs)]
pub struct Set {
    pub set: u16,
    pub opc: u16,
    pub dpc: u16,
    pub n1: u16,
    pub n2: u32,
    pub links: u8,
    pub sio: u8,
}

/// The timers of level 2, in octet times.
#[repr(C)]
#[derive(Clone, Copy, Debug)]
#[allow(missing_docs)]
pub struct Timers {
    pub t1: u32,
    pub t2: u32,
    pub t3: u32,
    pub t5: u32,
    pub t6: u32,
    pub t7: u32,
}

/// The timers of level 3, in octet times.
#[repr(C)]
#[derive(Clone, Copy, Debug)]
#[allow(missing_docs)]
pub struct Times {
    pub t1: u32,
    pub t2: u32,
    pub t4: u32,
    pub t5: u32,
    pub t17: u32,
    pub k1: u32,
    pub k2: u32,
}

/// How many octets were heard, and in the turns of how many of them messages for users were.
#[repr(C)]
#[derive(Clone, Copy, Debug, Default, PartialEq, Eq)]
#[allow(missing_docs)]
pub struct Heard {
    pub octets: usize,
    pub messages: usize,
}

/// What an octet did that was heard: how many octets the unit has that was appended to what is sent, the octet that goes
/// out, and 1 where a message for users was heard.
#[repr(C)]
#[derive(Default)]
pub struct Turned {
    pub unit: usize,
    pub put: u8,
    pub message: u8,
}

/// How much a text of the history is.
#[repr(C)]
#[derive(Clone, Copy, Default)]
pub struct Told {
    pub octets: usize,
    pub lines: usize,
}

/// How a link stands; the words are those of `enum mtpbank_word` and so on.
#[repr(C)]
#[derive(Clone, Copy, Debug, Default, PartialEq, Eq)]
#[allow(missing_docs)]
pub struct Look {
    pub turns: u64,
    pub sent: u64,
    pub good: u64,
    pub bad: u64,
    pub sixteen: u64,
    pub word: u8,
    pub phase: u8,
    pub cause: u8,
    pub activated: u8,
}

/// Where a message stands: `enum mtpbank_place`, and a link, code or cause.
#[repr(C)]
#[derive(Clone, Copy, Debug, Default, PartialEq, Eq)]
#[allow(missing_docs)]
pub struct Found {
    pub place: u8,
    pub detail: u8,
}

/// How long both texts are.
#[cfg(feature = "texts")]
#[repr(C)]
#[derive(Default)]
pub struct Lengths {
    pub printed: usize,
    pub told: usize,
}

extern "C" {
    fn mtpbank_open(set: &Set, timers: &Timers, times: &Times, end: &mut *mut c_void) -> i32;
    fn mtpbank_close(end: Closing);
    fn mtpbank_command(end: &mut End, link: u8, number: u8) -> i32;
    fn mtpbank_activate(end: &mut End, link: u8) -> i32;
    fn mtpbank_deactivate(end: &mut End, link: u8) -> i32;
    fn mtpbank_hear(
        end: &mut End,
        link: u8,
        octets: *const u8,
        length: usize,
        put: *mut u8,
        room: usize,
        heard: &mut Heard,
    ) -> i32;
    fn mtpbank_turn(end: &mut End, link: u8, octet: u8, unit: *mut u8, room: usize, turned: &mut Turned) -> i32;
    fn mtpbank_look(end: &mut End, link: u8, look: &mut Look) -> i32;
    fn mtpbank_offer(end: &mut End, user: u16, message: *const u8, length: usize, number: &mut u64) -> i32;
    fn mtpbank_take(end: &mut End, user: u16, put: *mut u8, room: usize, length: &mut usize) -> i32;
    fn mtpbank_find(end: &mut End, user: u16, number: u64, found: &mut Found) -> i32;
    fn mtpbank_history(end: &mut End, from: usize, put: *mut u8, room: usize, told: &mut Told) -> i32;
    fn mtpbank_checkpoint(end: &mut End) -> i32;
}

#[cfg(feature = "texts")]
extern "C" {
    fn mtpbank_text(
        subcommand: u8,
        input: *const u8,
        length: usize,
        printed: *mut u8,
        printed_room: usize,
        told: *mut u8,
        told_room: usize,
        lengths: &mut Lengths,
    ) -> i32;
}

/// An end; or the code of what is wrong.
pub fn open(set: &Set, timers: &Timers, times: &Times) -> Result<End, i32> {
    let mut at = std::ptr::null_mut();
    match unsafe { mtpbank_open(set, timers, times, &mut at) } {
        0 => Ok(End { at }),
        code => Err(code),
    }
}

impl Drop for End {
    fn drop(&mut self) {
        unsafe { mtpbank_close(Closing { at: self.at }) }
    }
}

pub fn command(end: &mut End, link: u8, number: u8) -> i32 {
    unsafe { mtpbank_command(end, link, number) }
}

pub fn activate(end: &mut End, link: u8) -> i32 {
    unsafe { mtpbank_activate(end, link) }
}

pub fn deactivate(end: &mut End, link: u8) -> i32 {
    unsafe { mtpbank_deactivate(end, link) }
}

pub fn hear(end: &mut End, link: u8, octets: &[u8], put: &mut [u8], heard: &mut Heard) -> i32 {
    unsafe { mtpbank_hear(end, link, octets.as_ptr(), octets.len(), put.as_mut_ptr(), put.len(), heard) }
}

pub fn turn(end: &mut End, link: u8, octet: u8, unit: &mut [u8], turned: &mut Turned) -> i32 {
    unsafe { mtpbank_turn(end, link, octet, unit.as_mut_ptr(), unit.len(), turned) }
}

pub fn look(end: &mut End, link: u8, look: &mut Look) -> i32 {
    unsafe { mtpbank_look(end, link, look) }
}

pub fn offer(end: &mut End, user: u16, message: &[u8], number: &mut u64) -> i32 {
    unsafe { mtpbank_offer(end, user, message.as_ptr(), message.len(), number) }
}

pub fn take(end: &mut End, user: u16, put: &mut [u8], length: &mut usize) -> i32 {
    unsafe { mtpbank_take(end, user, put.as_mut_ptr(), put.len(), length) }
}

pub fn find(end: &mut End, user: u16, number: u64, found: &mut Found) -> i32 {
    unsafe { mtpbank_find(end, user, number, found) }
}

pub fn history(end: &mut End, from: usize, put: &mut [u8], told: &mut Told) -> i32 {
    unsafe { mtpbank_history(end, from, put.as_mut_ptr(), put.len(), told) }
}

pub fn checkpoint(end: &mut End) -> i32 {
    unsafe { mtpbank_checkpoint(end) }
}

#[cfg(feature = "texts")]
pub fn text(subcommand: u8, input: &[u8], printed: &mut [u8], told: &mut [u8]) -> (i32, Lengths) {
    let mut lengths = Lengths::default();
    let code = unsafe {
        mtpbank_text(
            subcommand,
            input.as_ptr(),
            input.len(),
            printed.as_mut_ptr(),
            printed.len(),
            told.as_mut_ptr(),
            told.len(),
            &mut lengths,
        )
    };
    (code, lengths)
}
