//! What `mtpbank play` prints of a script of one link under the basic error control, in plain Rust, for comparison alone.
//!
//! It reads a script of `set`, `together`, `offer`, `emit`, `arrive` and `take`, carries it out on two ends with the units
//! under way between them, keeps both histories, and prints each answer and how both ends stand. Retransmission is there;
//! changeover, several links and faults that tell their line aren't. Whatever else is on a line ends it.
use std::collections::VecDeque;
use std::io::{self, Read, Write};
use std::rc::Rc;

#[derive(Clone, Copy)]
struct Head {
    bsn: u8,
    bib: bool,
    fsn: u8,
    fib: bool,
}

#[derive(Clone)]
enum Unit {
    Fisu(Head),
    Msu(Head, Rc<[u8]>),
}

#[derive(Clone, Copy)]
struct Report {
    acked: usize,
    took: &'static str,
    asked: bool,
    resend: bool,
}

#[allow(dead_code)]
enum Event {
    Offer(Rc<[u8]>),
    Next,
    Heard(Unit),
    Take,
    Up,
}

enum Answer {
    Accepted(usize),
    Sent(Unit),
    Heard(Report),
    Taken(Rc<[u8]>),
    Done,
    Refused(u8),
}

#[derive(Clone, Copy, PartialEq)]
enum Fate {
    Waiting,
    Unacked,
    Acked,
}

struct Message {
    body: Rc<[u8]>,
    fate: Fate,
}

/// One end: its messages, the window of those that aren't acknowledged, the numbers of the link, and its history.
struct End {
    messages: Vec<Message>,
    waiting: VecDeque<usize>,
    unacked: VecDeque<usize>,
    inbox: VecDeque<Rc<[u8]>>,
    /// How many of the unacknowledged ones were sent in this round.
    sent: usize,
    fsn: u8,
    fib: bool,
    accepted: u8,
    bib: bool,
    history: Vec<(Event, Answer)>,
}

impl End {
    fn new() -> End {
        End {
            messages: Vec::new(),
            waiting: VecDeque::new(),
            unacked: VecDeque::new(),
            inbox: VecDeque::new(),
            sent: 0,
            fsn: 127,
            fib: true,
            accepted: 127,
            bib: true,
            history: vec![(Event::Up, Answer::Done)],
        }
    }

    fn offer(&mut self, body: Rc<[u8]>) -> Answer {
        let number = self.messages.len();
        self.messages.push(Message { body, fate: Fate::Waiting });
        self.waiting.push_back(number);
        Answer::Accepted(number)
    }

    fn next(&mut self) -> Answer {
        let head = |end: &End, fsn| Head { bsn: end.accepted, bib: end.bib, fsn, fib: end.fib };
        if self.sent < self.unacked.len() {
            let number = self.unacked[self.sent];
            let back = (self.unacked.len() - 1 - self.sent) as u8;
            self.sent += 1;
            return Answer::Sent(Unit::Msu(head(self, self.fsn.wrapping_sub(back) % 128), self.messages[number].body.clone()));
        }
        if self.unacked.len() < 127 {
            if let Some(number) = self.waiting.pop_front() {
                self.fsn = (self.fsn + 1) % 128;
                self.unacked.push_back(number);
                self.sent += 1;
                self.messages[number].fate = Fate::Unacked;
                return Answer::Sent(Unit::Msu(head(self, self.fsn), self.messages[number].body.clone()));
            }
        }
        Answer::Sent(Unit::Fisu(head(self, self.fsn)))
    }

    fn hear(&mut self, unit: &Unit) -> Answer {
        let head = match unit {
            Unit::Fisu(head) | Unit::Msu(head, _) => *head,
        };
        let left = usize::from(self.fsn.wrapping_sub(head.bsn) % 128);
        let acked = self.unacked.len().saturating_sub(left);
        for number in self.unacked.drain(..acked) {
            self.messages[number].fate = Fate::Acked;
        }
        self.sent = self.sent.saturating_sub(acked);
        let resend = head.bib != self.fib;
        if resend {
            self.fib = head.bib;
            self.sent = 0;
        }
        let (mut took, mut asked) = ("nothing", false);
        match unit {
            Unit::Msu(_, body) if head.fib == self.bib && head.fsn == (self.accepted + 1) % 128 => {
                self.accepted = head.fsn;
                self.inbox.push_back(body.clone());
                took = "message";
            }
            _ => asked = head.fib == self.bib && head.fsn != self.accepted,
        }
        if asked {
            self.bib = !self.bib;
        }
        Answer::Heard(Report { acked, took, asked, resend })
    }

    fn take(&mut self) -> Answer {
        match self.inbox.pop_front() {
            Some(body) => Answer::Taken(body),
            None => Answer::Refused(9),
        }
    }

    fn tell(&self, name: char, out: &mut Vec<u8>) {
        let count = |fate| self.messages.iter().filter(|it| it.fate == fate).count();
        let (waiting, unacked, acked) = (count(Fate::Waiting), count(Fate::Unacked), count(Fate::Acked));
        let accepted = self.messages.len();
        let _ = writeln!(
            out,
            "end {name} accepted={accepted} waiting={waiting} unacked={unacked} acked={acked} held=0 parked=0 back=0 discarded=0"
        );
    }
}

fn push_number(out: &mut Vec<u8>, number: usize) {
    let _ = write!(out, "{number}");
}

fn push_hex(out: &mut Vec<u8>, octets: &[u8]) {
    const DIGITS: &[u8; 16] = b"0123456789abcdef";
    for octet in octets {
        out.extend_from_slice(&[DIGITS[usize::from(octet >> 4)], DIGITS[usize::from(octet & 15)]]);
    }
}

/// The check octets (Q.703 4.2) of all octets that end in this table's state.
fn check(table: &[u16; 256], octets: &[u8]) -> [u8; 2] {
    let mut state = 0xffffu16;
    for octet in octets {
        state = state >> 8 ^ table[usize::from(state as u8 ^ octet)];
    }
    (!state).to_le_bytes()
}

fn table() -> [u16; 256] {
    let mut table = [0u16; 256];
    for (at, row) in table.iter_mut().enumerate() {
        let mut state = at as u16;
        for _ in 0..8 {
            state = if state & 1 == 1 { state >> 1 ^ 0x8408 } else { state >> 1 };
        }
        *row = state;
    }
    table
}

fn push_unit(table: &[u16; 256], out: &mut Vec<u8>, unit: &Unit) {
    let (head, body): (&Head, &[u8]) = match unit {
        Unit::Fisu(head) => (head, &[]),
        Unit::Msu(head, body) => (head, body),
    };
    let mut octets = Vec::with_capacity(body.len() + 5);
    let indicator = body.len().min(63) as u8;
    octets.extend_from_slice(&[head.bsn | u8::from(head.bib) << 7, head.fsn | u8::from(head.fib) << 7, indicator]);
    octets.extend_from_slice(body);
    let checks = check(table, &octets);
    octets.extend_from_slice(&checks);
    push_hex(out, &octets);
}

fn push_answer(table: &[u16; 256], out: &mut Vec<u8>, answer: &Answer) {
    match answer {
        Answer::Accepted(number) => {
            out.extend_from_slice(b"accepted ");
            push_number(out, *number);
        }
        Answer::Sent(unit) => {
            out.extend_from_slice(b"sent ");
            push_unit(table, out, unit);
        }
        Answer::Heard(report) => {
            out.extend_from_slice(b"heard acked=");
            push_number(out, report.acked);
            out.extend_from_slice(b" took=");
            out.extend_from_slice(report.took.as_bytes());
            out.extend_from_slice(if report.asked { b" asked=1" } else { b" asked=0" });
            out.extend_from_slice(if report.resend { b" resend=1" } else { b" resend=0" });
            out.extend_from_slice(b" fault=0");
        }
        Answer::Taken(body) => {
            out.extend_from_slice(b"taken ");
            push_hex(out, body);
        }
        Answer::Done => out.extend_from_slice(b"done"),
        Answer::Refused(why) => {
            out.extend_from_slice(b"refused ");
            push_number(out, usize::from(*why));
        }
    }
    out.push(b'\n');
}

fn octets_of(digits: &str) -> Option<Rc<[u8]>> {
    let value = |digit: u8| char::from(digit).to_digit(16).map(|it| it as u8);
    let octets: Option<Vec<u8>> = digits.as_bytes().chunks(2).map(|it| Some(value(it[0])? << 4 | value(*it.get(1)?)?)).collect();
    Some(octets?.into())
}

/// What a line asks for is done, and its answer printed; `None`: it can't be read, or can't be done.
fn line(table: &[u16; 256], ends: &mut [End; 2], ways: &mut [VecDeque<Unit>; 2], text: &str, out: &mut Vec<u8>) -> Option<()> {
    let mut words = text.split(' ');
    let name = words.next()?;
    if name == "together" {
        out.extend_from_slice(b"up\n");
        return Some(());
    }
    let at = match words.next()? {
        "a" => 0,
        "b" => 1,
        _ => return None,
    };
    let (event, answer) = match name {
        "offer" => {
            let body = octets_of(words.next()?)?;
            (Event::Offer(body.clone()), ends[at].offer(body))
        }
        "emit" => {
            let answer = ends[at].next();
            if let Answer::Sent(unit) = &answer {
                ways[1 - at].push_back(unit.clone());
            }
            (Event::Next, answer)
        }
        "arrive" => {
            let unit = ways[at].pop_front()?;
            let answer = ends[at].hear(&unit);
            (Event::Heard(unit), answer)
        }
        "take" => (Event::Take, ends[at].take()),
        _ => return None,
    };
    push_answer(table, out, &answer);
    ends[at].history.push((event, answer));
    Some(())
}

fn main() -> io::Result<()> {
    let table = table();
    let mut ends = [End::new(), End::new()];
    let mut ways = [VecDeque::new(), VecDeque::new()];
    let (mut input, mut output) = (io::stdin().lock(), io::stdout().lock());
    let (mut piece, mut kept, mut out) = ([0u8; 4096], Vec::new(), Vec::new());
    let mut is_open = false;
    loop {
        let read = input.read(&mut piece)?;
        if read == 0 {
            break;
        }
        for part in piece[..read].split_inclusive(|it| *it == b'\n') {
            kept.extend_from_slice(part);
            if part.last() != Some(&b'\n') {
                continue;
            }
            let text = std::str::from_utf8(&kept[..kept.len() - 1]).unwrap_or("");
            if !text.is_empty() && !text.starts_with('#') {
                if is_open && line(&table, &mut ends, &mut ways, text, &mut out).is_none() {
                    output.write_all(&out)?;
                    std::process::exit(1);
                }
                is_open = true;
            }
            kept.clear();
        }
        output.write_all(&out)?;
        out.clear();
    }
    ends[0].tell('a', &mut out);
    ends[1].tell('b', &mut out);
    output.write_all(&out)
}
