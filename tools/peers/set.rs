//! A set of one link under the basic error control (Q.703 5), as the peers step it: offer, take, find, up, next, heard.
//!
//! No link fails here, and no message of the management is heard: those aren't done.
use crate::text::{checks_of, put_hex, put_named};
use std::collections::VecDeque;

const WINDOW: usize = 127;
const MOST_UNSENT: u16 = 1024;
const LONGEST_BODY: usize = 273;

#[derive(Clone, Copy, PartialEq)]
pub struct Head {
    pub bsn: u8,
    pub bib: bool,
    pub fsn: u8,
    pub fib: bool,
}

/// A unit: without a body it's a FISU, with one or two octets an LSSU, else an MSU.
#[derive(Clone, Copy, PartialEq)]
pub struct Unit<'a> {
    pub head: Head,
    pub body: &'a [u8],
}

impl<'a> Unit<'a> {
    /// Of octets without check octets.
    #[inline]
    pub fn read(octets: &'a [u8]) -> Option<Unit<'a>> {
        let [backward, forward, length, body @ ..] = octets else {
            return None;
        };
        if body.len() > LONGEST_BODY || usize::from(length & 63) != body.len().min(63) {
            return None;
        }
        let (bsn, bib) = (backward & 127, *backward > 127);
        let (fsn, fib) = (forward & 127, *forward > 127);
        Some(Unit { head: Head { bsn, bib, fsn, fib }, body })
    }

    /// Its octets and check octets, in place of what was there.
    #[inline]
    pub fn write(&self, octets: &mut Vec<u8>) {
        let Head { bsn, bib, fsn, fib } = self.head;
        octets.clear();
        let length = self.body.len().min(63) as u8;
        octets.extend_from_slice(&[bsn | u8::from(bib) << 7, fsn | u8::from(fib) << 7, length]);
        octets.extend_from_slice(self.body);
        let checks = checks_of(octets);
        octets.extend_from_slice(&checks);
    }

    #[inline]
    pub fn is_message(&self) -> bool {
        self.body.len() > 2
    }
}

#[derive(Clone, Copy, Default, PartialEq)]
pub struct Report {
    pub acked: u64,
    pub took: Took,
    pub asked: bool,
    pub resend: bool,
    pub fault: u8,
}

#[derive(Clone, Copy, Default, PartialEq)]
pub enum Took {
    #[default]
    Nothing,
    Message,
    Order,
    Ignored,
}

pub const TOOK: [(&str, Took); 4] =
    [("nothing", Took::Nothing), ("message", Took::Message), ("order", Took::Order), ("ignored", Took::Ignored)];

/// Where a message stands; the other places are those of a link that failed.
#[derive(Clone, Copy, PartialEq)]
pub enum Place {
    Waiting,
    Unacked,
    Acked,
    Parked,
}

pub const PLACES: [(&str, Place); 4] =
    [("waiting", Place::Waiting), ("unacked", Place::Unacked), ("acked", Place::Acked), ("parked", Place::Parked)];

#[derive(Clone, Copy, PartialEq)]
pub enum Answer<'a> {
    Accepted(u64),
    Sent(Unit<'a>),
    Heard(Report),
    Taken(&'a [u8]),
    /// On this link, but where it's parked.
    Found(Place, u64),
    Done,
    Refused(u8),
}

impl Answer<'_> {
    /// Its words; the octets of a unit go through the scratch.
    pub fn put(&self, out: &mut Vec<u8>, scratch: &mut Vec<u8>) {
        match self {
            Answer::Accepted(number) => put_named(out, "accepted ", *number),
            Answer::Sent(unit) => {
                unit.write(scratch);
                out.extend_from_slice(b"sent ");
                put_hex(out, scratch);
            }
            Answer::Heard(report) => put_report(out, report),
            Answer::Taken(body) => {
                out.extend_from_slice(b"taken ");
                put_hex(out, body);
            }
            Answer::Found(place, link) => {
                out.extend_from_slice(b"found ");
                out.extend_from_slice(PLACES[*place as usize].0.as_bytes());
                if *place != Place::Parked {
                    put_named(out, " ", *link);
                }
            }
            Answer::Done => out.extend_from_slice(b"done"),
            Answer::Refused(why) => put_named(out, "refused ", u64::from(*why)),
        }
    }
}

fn put_report(out: &mut Vec<u8>, report: &Report) {
    put_named(out, "heard acked=", report.acked);
    out.extend_from_slice(b" took=");
    out.extend_from_slice(TOOK[report.took as usize].0.as_bytes());
    put_named(out, " asked=", u64::from(report.asked));
    put_named(out, " resend=", u64::from(report.resend));
    put_named(out, " fault=", u64::from(report.fault));
}

struct Message {
    body: Box<[u8]>,
    place: Place,
}

/// A set: its messages, those that aren't sent and those that aren't acknowledged, the numbers of the link, what is
/// left to take, and its books.
pub struct Set {
    messages: Vec<Message>,
    unsent: VecDeque<usize>,
    unacked: VecDeque<usize>,
    inbox: VecDeque<Box<[u8]>>,
    /// The body that was taken last.
    taken: Box<[u8]>,
    /// How many unsent messages each stream has.
    streams: [u16; 16],
    up: bool,
    /// The FSN of the last message that was acknowledged.
    last: u8,
    expected: u8,
    bib: bool,
    fib: bool,
    asked: bool,
    /// How many of the unacknowledged ones need no sending now.
    cursor: usize,
    /// Whether the last two units that were heard had an abnormal BSN, or FIB.
    bsns: [bool; 2],
    fibs: [bool; 2],
    octets: u64,
    acked: u64,
}

impl Set {
    pub fn new() -> Set {
        Set {
            messages: Vec::new(),
            unsent: VecDeque::new(),
            unacked: VecDeque::with_capacity(WINDOW),
            inbox: VecDeque::new(),
            taken: Box::default(),
            streams: [0; 16],
            up: false,
            last: 127,
            expected: 0,
            bib: true,
            fib: true,
            asked: false,
            cursor: 0,
            bsns: [false; 2],
            fibs: [false; 2],
            octets: 0,
            acked: 0,
        }
    }

    #[inline]
    pub fn offer(&mut self, body: &[u8]) -> Answer<'_> {
        let why = match body {
            [] | [_] | [_, _] | [_, _, _] | [_, _, _, _] => 1,
            _ if body.len() > LONGEST_BODY => 2,
            [service, ..] if service & 15 == 0 => 3,
            [_, _, _, _, stream, ..] if self.streams[usize::from(stream >> 4)] == MOST_UNSENT => 4,
            _ => 0,
        };
        if why > 0 {
            return Answer::Refused(why);
        }
        let number = self.messages.len();
        self.messages.push(Message { body: body.into(), place: Place::Waiting });
        self.unsent.push_back(number);
        self.streams[usize::from(body[4] >> 4)] += 1;
        self.octets += body.len() as u64;
        Answer::Accepted(number as u64)
    }

    #[inline]
    pub fn take(&mut self) -> Answer<'_> {
        let Some(body) = self.inbox.pop_front() else {
            return Answer::Refused(9);
        };
        self.taken = body;
        Answer::Taken(&self.taken)
    }

    #[inline]
    pub fn find(&self, number: u64) -> Answer<'_> {
        match self.messages.get(number as usize) {
            None => Answer::Refused(8),
            Some(Message { place: Place::Waiting, .. }) if !self.up => Answer::Found(Place::Parked, 0),
            Some(message) => Answer::Found(message.place, 0),
        }
    }

    pub fn up(&mut self) -> Answer<'_> {
        if self.up {
            return Answer::Refused(6);
        }
        self.up = true;
        Answer::Done
    }

    /// The next unit: a message again, else a new one where the window has room, else a FISU.
    #[inline]
    pub fn next(&mut self) -> Answer<'_> {
        if !self.up {
            return Answer::Refused(5);
        }
        if self.cursor == self.unacked.len() && self.cursor < WINDOW {
            if let Some(number) = self.unsent.pop_front() {
                let message = &mut self.messages[number];
                message.place = Place::Unacked;
                self.streams[usize::from(message.body[4] >> 4)] -= 1;
                self.unacked.push_back(number);
            }
        }
        let mut head = Head { bsn: self.expected.wrapping_sub(1) & 127, bib: self.bib, fsn: self.top(), fib: self.fib };
        if self.cursor == self.unacked.len() {
            return Answer::Sent(Unit { head, body: &[] });
        }
        let number = self.unacked[self.cursor];
        self.cursor += 1;
        head.fsn = self.last.wrapping_add(self.cursor as u8) & 127;
        Answer::Sent(Unit { head, body: &self.messages[number].body })
    }

    /// The FSN of the last message that was sent.
    #[inline]
    fn top(&self) -> u8 {
        self.last.wrapping_add(self.unacked.len() as u8) & 127
    }

    /// A unit was heard; `None` where it's a message of the management, which isn't done here.
    #[inline]
    pub fn hear(&mut self, unit: &Unit<'_>) -> Option<Answer<'_>> {
        if !self.up {
            return Some(Answer::Refused(5));
        }
        match unit.body {
            [] => Some(Answer::Heard(self.control(unit))),
            [_] | [_, _] => Some(Answer::Refused(9)),
            [service, ..] if service & 15 == 0 => None,
            _ => Some(Answer::Heard(self.control(unit))),
        }
    }

    /// What a FISU or an MSU means (Q.703 5.2, 5.3).
    #[inline]
    fn control(&mut self, unit: &Unit<'_>) -> Report {
        let head = unit.head;
        let acked = usize::from(head.bsn.wrapping_sub(self.last) & 127);
        let abnormal_bsn = acked > self.unacked.len();
        let abnormal_fib = !abnormal_bsn && head.fib != self.bib && !self.asked;
        let fault = self.fault(abnormal_bsn, abnormal_fib);
        if abnormal_bsn || abnormal_fib {
            return Report { fault, ..Report::default() };
        }
        self.cursor = self.cursor.saturating_sub(acked);
        let resend = head.bib != self.fib;
        if resend {
            self.fib = head.bib;
            self.cursor = 0;
        }
        let (took, asked) = self.sequence(unit);
        for number in self.unacked.drain(..acked) {
            self.messages[number].place = Place::Acked;
        }
        self.last = head.bsn;
        self.acked += acked as u64;
        Report { acked: acked as u64, took, asked, resend, fault }
    }

    /// The second abnormal BSN, or FIB, in three units is a fault.
    #[inline]
    fn fault(&mut self, bsn: bool, fib: bool) -> u8 {
        let (second_bsn, second_fib) = (bsn && self.bsns.contains(&true), fib && self.fibs.contains(&true));
        self.bsns = [bsn, self.bsns[0]];
        self.fibs = [fib, self.fibs[0]];
        match (second_bsn, second_fib) {
            (true, _) => 2,
            (false, true) => 3,
            (false, false) => 0,
        }
    }

    /// Whether a message is accepted, and whether a retransmission is asked for.
    #[inline]
    fn sequence(&mut self, unit: &Unit<'_>) -> (Took, bool) {
        let head = unit.head;
        if head.fib != self.bib {
            return (Took::Nothing, false);
        }
        self.asked = false;
        if head.fsn == self.expected.wrapping_sub(1) & 127 {
            return (Took::Nothing, false);
        }
        if unit.is_message() && head.fsn == self.expected {
            self.expected = (head.fsn + 1) & 127;
            self.inbox.push_back(unit.body.into());
            return (Took::Message, false);
        }
        self.bib = !self.bib;
        self.asked = true;
        (Took::Nothing, true)
    }

    /// Its books: messages, their octets, and how many of them are acknowledged.
    pub fn books(&self) -> [u64; 3] {
        [self.messages.len() as u64, self.octets, self.acked]
    }

    /// How many messages wait, parked or not, and how many are unacknowledged.
    pub fn standing(&self) -> [u64; 2] {
        [self.unsent.len() as u64, self.unacked.len() as u64]
    }

    pub fn is_up(&self) -> bool {
        self.up
    }
}
