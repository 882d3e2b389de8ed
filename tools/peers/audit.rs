//! What `mtpbank audit` prints of a history of one link under the basic error control, in plain Rust, for
//! comparison alone (tools/bench --all).
//!
//! It reads a history, an entry as it comes, asks a set of its own (set.rs) what the entry asks, and compares the
//! answer with the one that stands there, as units and reports, not as text; check octets are tested. What is kept is
//! the set, and no history. Entries are offer, take, find, up, next and hear. At the first wrong answer it tells what
//! the set answers, and the lines behind it have to be readable all the same. A line that can't be read ends it, and so
//! does what isn't done here: links that fail, several links, messages of the management, the cyclic method, the wide
//! profile, checkpoints.
#[allow(dead_code)] // a part of it
mod set;
mod text;

use set::{Answer, Place, Report, Set, Unit, PLACES, TOOK};
use std::io::{self, Read, Write};
use std::process::ExitCode;
use text::{checks_of, put_named, read_hex, read_number};

enum Event<'a> {
    Offer(&'a [u8]),
    Take,
    Find(u64),
    Up,
    Next,
    Hear(Unit<'a>),
}

/// What a line asks; `None`: of a link that isn't there.
type Asked<'a> = Option<Event<'a>>;

/// The octets of what a line asks, and of what it tells as answered.
#[derive(Default)]
struct Scratch {
    asked: Vec<u8>,
    answered: Vec<u8>,
}

type Words<'a, 'w> = &'w mut dyn Iterator<Item = &'a [u8]>;

struct Audit {
    set: Set,
    is_open: bool,
    line: u64,
    calls: u64,
    /// The line of the first wrong answer, and what the set answers there.
    wrong: Option<(u64, Vec<u8>)>,
    scratch: Scratch,
}

impl Audit {
    /// `None`: the line can't be read, or isn't done here.
    fn line(&mut self, text: &[u8]) -> Option<()> {
        self.line += 1;
        if text.is_empty() || text[0] == b'#' {
            return Some(());
        }
        if !self.is_open {
            self.is_open = true;
            return text.starts_with(b"set links=1 method=basic ").then_some(());
        }
        let Audit { set, scratch, .. } = self;
        let mut words = text.split(|it| *it == b' ');
        let is_actor = read_actor(&mut words)?;
        let event = read_event(&mut words, &mut scratch.asked)?;
        let answer = read_answer(&mut words, &mut scratch.answered)?;
        if words.next().is_some() {
            return None;
        }
        self.calls += 1;
        if self.wrong.is_some() {
            return Some(());
        }
        let mut told = Vec::new();
        if is_actor {
            let answers = step(set, event)?;
            if answers == answer {
                return Some(());
            }
            answers.put(&mut told, &mut Vec::new());
        } else {
            told.extend_from_slice(b"no such user or terminal");
        }
        self.wrong = Some((self.line, told));
        Some(())
    }

    fn verdict(&self) -> Vec<u8> {
        let mut out = Vec::new();
        if let Some((line, told)) = &self.wrong {
            put_named(&mut out, "legal=no line=", *line);
            out.extend_from_slice(b" -> ");
            out.extend_from_slice(told);
        } else {
            let [accepted, octets, acked] = self.set.books();
            put_named(&mut out, "legal=yes calls=", self.calls);
            put_named(&mut out, " accepted=", accepted);
            put_named(&mut out, " octets=", octets);
            put_named(&mut out, " acked=", acked);
        }
        out.push(b'\n');
        out
    }
}

/// What the set answers.
fn step<'a>(set: &'a mut Set, asked: Asked<'_>) -> Option<Answer<'a>> {
    Some(match asked {
        None => Answer::Refused(10),
        Some(Event::Offer(body)) => set.offer(body),
        Some(Event::Take) => set.take(),
        Some(Event::Find(number)) => set.find(number),
        Some(Event::Up) => set.up(),
        Some(Event::Next) => set.next(),
        Some(Event::Hear(unit)) => set.hear(&unit)?,
    })
}

/// Whether the actor that stands there is one of a set.
fn read_actor(words: Words<'_, '_>) -> Option<bool> {
    let most = match words.next()? {
        b"user" => 63,
        b"terminal" => 15,
        _ => return None,
    };
    Some(read_number(words.next()?, u64::MAX)? <= most)
}

/// A unit as a history has it, whose spare bits are zeros and whose status is one octet.
fn read_unit(octets: &[u8]) -> Option<Unit<'_>> {
    let unit = Unit::read(octets)?;
    let is_plain = match unit.body {
        [_, _] => false,
        [status] => *status < 8,
        _ => true,
    };
    (is_plain && octets[2] < 64).then_some(unit)
}

/// The words up to the arrow.
fn read_event<'a>(words: Words<'_, '_>, scratch: &'a mut Vec<u8>) -> Option<Asked<'a>> {
    let name = words.next()?;
    if name == b"offer" {
        let body = words.next()?;
        if body == b"->" {
            return Some(Some(Event::Offer(&[])));
        }
        read_hex(body, scratch)?;
        return (words.next()? == b"->").then_some(Some(Event::Offer(scratch)));
    }
    let event = match name {
        b"take" => Event::Take,
        b"find" => Event::Find(read_number(words.next()?, u64::MAX)?),
        b"up" | b"next" | b"hear" => {
            let link = read_number(words.next()?, u64::MAX)?;
            let event = match name {
                b"up" => Event::Up,
                b"next" => Event::Next,
                _ => {
                    read_hex(words.next()?, scratch)?;
                    Event::Hear(read_unit(scratch)?)
                }
            };
            return (words.next()? == b"->").then_some((link == 0).then_some(event));
        }
        _ => return None,
    };
    (words.next()? == b"->").then_some(Some(event))
}

/// The words behind the arrow.
fn read_answer<'a>(words: Words<'_, '_>, scratch: &'a mut Vec<u8>) -> Option<Answer<'a>> {
    Some(match words.next()? {
        b"accepted" => Answer::Accepted(read_number(words.next()?, u64::MAX)?),
        b"sent" => {
            read_hex(words.next()?, scratch)?;
            let (octets, checks) = scratch.split_last_chunk::<2>()?;
            if checks_of(octets) != *checks {
                return None;
            }
            Answer::Sent(read_unit(octets)?)
        }
        b"heard" => Answer::Heard(read_report(words)?),
        b"taken" => {
            read_hex(words.next()?, scratch)?;
            Answer::Taken(scratch)
        }
        b"found" => read_place(words)?,
        b"done" => Answer::Done,
        b"refused" => Answer::Refused(read_number(words.next()?, 11).filter(|why| *why > 0)? as u8),
        _ => return None,
    })
}

fn read_report(words: Words<'_, '_>) -> Option<Report> {
    let mut named = |name: &str| words.next()?.strip_prefix(name.as_bytes());
    let acked = read_number(named("acked=")?, 127)?;
    let took = named("took=")?;
    let (_, took) = TOOK.iter().find(|(name, _)| name.as_bytes() == took)?;
    let asked = read_number(named("asked=")?, 1)? == 1;
    let resend = read_number(named("resend=")?, 1)? == 1;
    let fault = read_number(named("fault=")?, 3)? as u8;
    Some(Report { acked, took: *took, asked, resend, fault })
}

fn read_place<'a>(words: Words<'_, '_>) -> Option<Answer<'a>> {
    let name = words.next()?;
    let (_, place) = PLACES.iter().find(|(told, _)| told.as_bytes() == name)?;
    let link = if *place == Place::Parked { 0 } else { read_number(words.next()?, 15)? };
    Some(Answer::Found(*place, link))
}

fn fault(line: u64, what: &str) -> ExitCode {
    eprintln!("fault line {line} {what}");
    ExitCode::FAILURE
}

fn main() -> io::Result<ExitCode> {
    let mut input = io::stdin().lock();
    let (mut piece, mut kept) = ([0u8; 4096], Vec::new());
    let set = Set::new();
    let mut audit = Audit { set, is_open: false, line: 0, calls: 0, wrong: None, scratch: Scratch::default() };
    loop {
        let read = input.read(&mut piece)?;
        if read == 0 {
            break;
        }
        for part in piece[..read].split_inclusive(|it| *it == b'\n') {
            let Some(end) = part.strip_suffix(b"\n") else {
                kept.extend_from_slice(part);
                continue;
            };
            let done = if kept.is_empty() {
                audit.line(end)
            } else {
                kept.extend_from_slice(end);
                audit.line(&kept)
            };
            if done.is_none() {
                return Ok(fault(audit.line, "text"));
            }
            kept.clear();
        }
    }
    if !kept.is_empty() || !audit.is_open {
        return Ok(fault(audit.line + 1, "text"));
    }
    io::stdout().write_all(&audit.verdict())?;
    Ok(match audit.wrong {
        None => ExitCode::SUCCESS,
        Some((line, _)) => fault(line, "illegal"),
    })
}
