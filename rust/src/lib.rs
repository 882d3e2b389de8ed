//! One end of a set of SS7 signalling links (ITU-T Q.703, Q.704), octet by octet.
//!
//! Safe Rust over a static library whose calls are proved (`include/mtpbank.h`): each call here meets what that header asks
//! of its caller. An [`End`] starts no thread, waits for nothing, reads no clock and does no I/O: each octet that comes on a link's
//! line is a turn of its terminal, which puts one.
//!
//! ```
//! use mtpbank_end::{End, Set, Timers, Times};
//! let mut end = End::open(&Set::basic(1, 1, 2), &Timers::USUAL, &Times::USUAL)?;
//! end.activate(0)?;
//! let mut put = [0; 160];
//! let heard = end.hear(0, &[0x7e; 160], &mut put)?;
//! assert_eq!(heard.octets, 160);
//! # Ok::<(), mtpbank_end::Code>(())
//! ```
#![deny(missing_docs)]

mod memory;
mod raw;
#[cfg(feature = "texts")]
mod texts;

use std::fmt;

pub use raw::{Found, Heard, Look, Set, Timers, Times};
#[cfg(feature = "texts")]
pub use texts::{text, Subcommand, Text};

/// The most octets of a message.
pub const LONGEST: usize = 273;

/// The most octets of a unit, without check octets.
const LONGEST_UNIT: usize = 276;

/// Why a call wasn't done, by its number in `enum mtpbank_code`.
#[derive(Clone, Copy, Debug, PartialEq, Eq)]
pub struct Code(pub i32);

impl Code {
    /// There is nothing to take; or a link is activated already, or isn't.
    pub const NOTHING: Code = Code(9);
    /// The set has no such link.
    pub const NO_SUCH_LINK: Code = Code(10);
    /// Memory was refused.
    pub const NO_MEMORY: Code = Code(16);
    /// No command, or no subcommand, has this number.
    pub const NO_SUCH_COMMAND: Code = Code(49);
    /// A buffer is too small.
    pub const NO_ROOM: Code = Code(50);
}

impl Code {
    /// What it tells, as beside its number in `include/mtpbank.h`.
    pub fn text(self) -> &'static str {
        match self.0 {
            0 => "done",
            1 => "a message of fewer than 5 octets",
            2 => "a message of more than 273 octets",
            3 => "a message of service indicator 0, which is the management's",
            4 => "1,024 messages of the stream are unsent",
            7 => "the link was left, and what the far end has isn't known yet",
            8 => "no message has this number",
            9 => "there is nothing to take, or the link is so already",
            10 => "the set has no such link",
            11 => "the message was finished before a checkpoint",
            16 => "memory was refused",
            17 => "the history or a link's turns are at their end",
            18 => "a turn of the link couldn't end before",
            19 => "a unit with 12-bit numbers",
            33 => "not 1 to 16 links",
            34 => "a point code over 16383",
            35 => "the management's service indicator isn't 0",
            36 => "N1 isn't 1 to 127, or N2 not 1 to 34671",
            37 => "a timer of level 2 is 0",
            38 => "a timer of level 3 is 0",
            48 => "users have the numbers 0 to 63",
            49 => "no command, or no subcommand, has this number",
            50 => "a buffer is too small",
            _ => "a code that the header doesn't have",
        }
    }
}

impl fmt::Display for Code {
    fn fmt(&self, to: &mut fmt::Formatter<'_>) -> fmt::Result {
        write!(to, "mtpbank answered {}: {}", self.0, self.text())
    }
}

impl std::error::Error for Code {}

/// A command to a link's terminal.
#[derive(Clone, Copy, Debug, PartialEq, Eq)]
#[allow(missing_docs)]
pub enum Command {
    Start,
    Stop,
    Emergency,
    Calm,
    Busy,
    Ease,
    Blind,
    Outage,
    Recover,
}

/// What an octet did that was heard.
#[derive(Clone, Debug, PartialEq, Eq)]
pub struct Turn {
    /// The octet that goes out.
    pub put: u8,
    /// Whether a message for users was heard.
    pub message: bool,
    /// The unit that was appended to what is sent, without check octets, if one was.
    pub unit: Option<Vec<u8>>,
}

/// A text of the history.
#[derive(Clone, Debug, PartialEq, Eq)]
pub struct History {
    /// Its lines, each ended by LF.
    pub text: String,
    /// How many they are.
    pub lines: usize,
}

/// One end of a set of links. It's closed when it's dropped, and may go to another thread.
#[derive(Debug)]
pub struct End {
    raw: raw::End,
}

fn done(code: i32) -> Result<(), Code> {
    match code {
        0 => Ok(()),
        code => Err(Code(code)),
    }
}

impl Set {
    /// So many links between two point codes, with basic error correction.
    pub fn basic(links: u8, opc: u16, dpc: u16) -> Set {
        Set { set: 0, opc, dpc, n1: 0, n2: 0, links, sio: 0x80 }
    }
}

impl Timers {
    /// Usual ones at 64 kbit/s (Q.703 12.3).
    pub const USUAL: Timers = Timers { t1: 360_000, t2: 400_000, t3: 12_000, t5: 800, t6: 32_000, t7: 8_000 };
}

impl Times {
    /// Usual ones at 64 kbit/s (Q.704 16.8).
    pub const USUAL: Times = Times { t1: 6_400, t2: 11_200, t4: 6_400, t5: 6_400, t17: 8_000, k1: 64_000, k2: 480_000 };
}

impl End {
    /// Opens an end, whose links are out of service and not activated.
    pub fn open(set: &Set, timers: &Timers, times: &Times) -> Result<End, Code> {
        let raw = raw::open(set, timers, times).map_err(Code)?;
        Ok(End { raw })
    }

    /// A command to a link's terminal, obeyed in its next turn.
    pub fn command(&mut self, link: u8, command: Command) -> Result<(), Code> {
        done(raw::command(&mut self.raw, link, command as u8))
    }

    /// Level 3 manages a link from now on (Q.704 12.2).
    pub fn activate(&mut self, link: u8) -> Result<(), Code> {
        done(raw::activate(&mut self.raw, link))
    }

    /// Level 3 manages a link no more.
    pub fn deactivate(&mut self, link: u8) -> Result<(), Code> {
        done(raw::deactivate(&mut self.raw, link))
    }

    /// Octets came on a link's line: as many are put at the front of `put`.
    ///
    /// Behind a fault other than a refusal of all of them, some may have been heard: [`End::hear_some`] tells how many.
    pub fn hear(&mut self, link: u8, octets: &[u8], put: &mut [u8]) -> Result<Heard, Code> {
        let (heard, code) = self.hear_some(link, octets, put);
        code.map(|()| heard)
    }

    /// The same: what the octets did that were heard, and whether all were.
    pub fn hear_some(&mut self, link: u8, octets: &[u8], put: &mut [u8]) -> (Heard, Result<(), Code>) {
        let mut heard = Heard::default();
        let code = raw::hear(&mut self.raw, link, octets, put, &mut heard);
        (heard, done(code))
    }

    /// An octet came on a link's line: what [`End::hear`] of it does, and the unit that its turn sends, for a capture.
    pub fn turn(&mut self, link: u8, octet: u8) -> Result<Turn, Code> {
        let (mut room, mut turned) = ([0; LONGEST_UNIT], raw::Turned::default());
        done(raw::turn(&mut self.raw, link, octet, &mut room, &mut turned))?;
        let unit = room.get(..turned.unit).filter(|octets| !octets.is_empty());
        Ok(Turn { put: turned.put, message: turned.message == 1, unit: unit.map(<[u8]>::to_vec) })
    }

    /// How a link stands.
    pub fn look(&mut self, link: u8) -> Result<Look, Code> {
        let mut look = Look::default();
        done(raw::look(&mut self.raw, link, &mut look))?;
        Ok(look)
    }

    /// A user offers a message, SIO and SIF: its number.
    pub fn offer(&mut self, user: u16, message: &[u8]) -> Result<u64, Code> {
        let mut number = 0;
        done(raw::offer(&mut self.raw, user, message, &mut number))?;
        Ok(number)
    }

    /// A user takes the oldest message that was heard, if there is one.
    pub fn take(&mut self, user: u16) -> Result<Option<Vec<u8>>, Code> {
        let (mut room, mut length) = (vec![0; LONGEST], 0);
        match done(raw::take(&mut self.raw, user, &mut room, &mut length)) {
            Ok(()) => {
                room.truncate(length);
                Ok(Some(room))
            }
            Err(Code::NOTHING) => Ok(None),
            Err(code) => Err(code),
        }
    }

    /// A user takes message after message, oldest first, until there is none.
    pub fn messages(&mut self, user: u16) -> Messages<'_> {
        Messages { end: self, user }
    }

    /// A user asks where a message stands.
    pub fn find(&mut self, user: u16, number: u64) -> Result<Found, Code> {
        let mut found = Found::default();
        done(raw::find(&mut self.raw, user, number, &mut found))?;
        Ok(found)
    }

    /// The text of the history since the last checkpoint from a line on: line 0 tells what the end was opened with, and
    /// each other line is an entry.
    pub fn history(&mut self, from: usize) -> Result<History, Code> {
        let (mut room, mut told) = (Vec::new(), raw::Told::default());
        let mut code = raw::history(&mut self.raw, from, &mut room, &mut told);
        if code == Code::NO_ROOM.0 {
            room.resize(told.octets, 0);
            code = raw::history(&mut self.raw, from, &mut room, &mut told);
        }
        done(code)?;
        Ok(History { text: String::from_utf8_lossy(&room).into_owned(), lines: told.lines })
    }

    /// The history begins anew.
    pub fn checkpoint(&mut self) -> Result<(), Code> {
        done(raw::checkpoint(&mut self.raw))
    }
}

/// The messages of a user, each taken when it's asked for.
#[derive(Debug)]
pub struct Messages<'a> {
    end: &'a mut End,
    user: u16,
}

impl Iterator for Messages<'_> {
    type Item = Result<Vec<u8>, Code>;

    fn next(&mut self) -> Option<Self::Item> {
        self.end.take(self.user).transpose()
    }
}
