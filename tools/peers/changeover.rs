//! What `mtpbank play` prints of a script of two links, one of which is left (COO, COA), in plain Rust, for comparison
//! alone (tools/bench --all).
//!
//! It reads a script of `set`, `together`, `offer`, `emit`, `arrive`, `hear`, `take`, `find` and `down`, carries it out
//! on two ends with the units under way between them, keeps both histories, and prints each answer and how both ends
//! stand. Streams have their links, messages their places, and what waits for a link that is left goes over to the
//! other in order. Units come in order and none is lost: there is no retransmission, and nothing is parked; neither is
//! there a changeback. Whatever else is on a line ends it, and so does what isn't done here.
mod text;

use std::collections::VecDeque;
use std::io::{self, Read, Write};
use std::rc::Rc;
use text::{checks_of, put_hex, put_named, read_hex, read_number};

const WINDOW: usize = 127;
const MOST_UNSENT: u16 = 1024;
const COO: u8 = 0x11;
const COA: u8 = 0x21;

#[derive(Clone)]
struct Unit {
    bsn: u8,
    fsn: u8,
    /// `None`: a FISU.
    body: Option<Rc<[u8]>>,
}

#[derive(Clone, Copy, PartialEq)]
enum Fate {
    Waiting,
    Unacked,
    Acked,
    Held,
}

const FATES: [&str; 4] = ["found waiting ", "found unacked ", "found acked ", "found held "];

struct Message {
    body: Rc<[u8]>,
    fate: Fate,
    link: u8,
    is_order: bool,
}

#[allow(dead_code)] // a history is kept, and not read here
enum Event {
    Offer(Rc<[u8]>),
    Next(usize),
    Heard(usize, Unit),
    Take,
    Find(u64),
    Up(usize),
    Down(usize),
}

enum Answer {
    Accepted(usize),
    Sent(Unit),
    Heard(usize, &'static str),
    Taken(Rc<[u8]>),
    Found(Fate, u8),
    Done,
    Refused(u8),
}

#[derive(Default)]
struct Link {
    is_up: bool,
    waiting: VecDeque<usize>,
    unacked: VecDeque<usize>,
    /// The FSN of the last message that was sent, and of the last that was accepted.
    sent: u8,
    accepted: u8,
}

/// One end: its messages, its links, the link of each stream and how many unsent messages it has, what was offered
/// since a link was left, and its history.
struct End {
    codes: [u16; 2],
    messages: Vec<Message>,
    links: [Link; 2],
    streams: [u8; 16],
    unsent: [u16; 16],
    held: VecDeque<usize>,
    inbox: VecDeque<Rc<[u8]>>,
    history: Vec<(Event, Answer)>,
}

impl End {
    fn new(codes: [u16; 2]) -> End {
        End {
            codes,
            messages: Vec::new(),
            links: Default::default(),
            streams: std::array::from_fn(|stream| stream as u8 % 2),
            unsent: [0; 16],
            held: VecDeque::new(),
            inbox: VecDeque::new(),
            history: Vec::new(),
        }
    }

    fn raise(&mut self, link: usize) {
        self.links[link] = Link { is_up: true, sent: 127, accepted: 127, ..Link::default() };
        self.history.push((Event::Up(link), Answer::Done));
    }

    fn offer(&mut self, body: Rc<[u8]>) -> Option<Answer> {
        let why = match *body {
            [service, _, _, _, stream, ..] if service & 15 > 0 => {
                if self.unsent[usize::from(stream >> 4)] < MOST_UNSENT {
                    0
                } else {
                    4
                }
            }
            [_, _, _, _, _, ..] => 3,
            _ => 1,
        };
        if why > 0 {
            return Some(Answer::Refused(why));
        }
        let (number, stream) = (self.messages.len(), usize::from(body[4] >> 4));
        let link = self.streams[stream];
        let is_up = self.links[usize::from(link)].is_up;
        if !is_up && !self.links[usize::from(1 - link)].is_up {
            return None; // parked
        }
        let fate = if is_up { Fate::Waiting } else { Fate::Held };
        self.messages.push(Message { body, fate, link, is_order: false });
        self.unsent[stream] += 1;
        if is_up {
            self.links[usize::from(link)].waiting.push_back(number);
        } else {
            self.held.push_back(number);
        }
        Some(Answer::Accepted(number))
    }

    fn next(&mut self, at: usize) -> Answer {
        let link = &mut self.links[at];
        if !link.is_up {
            return Answer::Refused(5);
        }
        let mut body = None;
        if link.unacked.len() < WINDOW {
            if let Some(number) = link.waiting.pop_front() {
                link.sent = (link.sent + 1) & 127;
                link.unacked.push_back(number);
                let message = &mut self.messages[number];
                message.fate = Fate::Unacked;
                if !message.is_order {
                    self.unsent[usize::from(message.body[4] >> 4)] -= 1;
                }
                body = Some(message.body.clone());
            }
        }
        Answer::Sent(Unit { bsn: link.accepted, fsn: link.sent, body })
    }

    /// `None`: it isn't done here.
    fn hear(&mut self, at: usize, unit: &Unit) -> Option<Answer> {
        if !self.links[at].is_up {
            return Some(Answer::Refused(5));
        }
        let acked = self.acknowledge(at, unit.bsn)?;
        let link = &mut self.links[at];
        let Some(body) = &unit.body else {
            return (unit.fsn == link.accepted).then_some(Answer::Heard(acked, "nothing"));
        };
        if unit.fsn != (link.accepted + 1) & 127 {
            return None;
        }
        link.accepted = unit.fsn;
        if body[0] & 15 > 0 {
            self.inbox.push_back(body.clone());
            return Some(Answer::Heard(acked, "message"));
        }
        self.obey(body)?;
        Some(Answer::Heard(acked, "order"))
    }

    /// What the far end accepted on a link is acknowledged: how many messages.
    fn acknowledge(&mut self, at: usize, number: u8) -> Option<usize> {
        let link = &mut self.links[at];
        let left = usize::from(link.sent.wrapping_sub(number) & 127);
        let acked = link.unacked.len().checked_sub(left)?;
        for number in link.unacked.drain(..acked) {
            self.messages[number].fate = Fate::Acked;
        }
        Some(acked)
    }

    /// A link is left: the far end is told what was accepted on it, where the other is up.
    fn leave(&mut self, at: usize, heading: u8) -> Option<()> {
        let other = &mut self.links[1 - at];
        if !other.is_up {
            return None;
        }
        let number = self.messages.len();
        other.waiting.push_back(number);
        self.links[at].is_up = false;
        let [own, far] = self.codes.map(u32::from);
        let label = (far | own << 14 | (at as u32) << 28).to_le_bytes();
        let body = [0x80, label[0], label[1], label[2], label[3], heading, self.links[at].accepted];
        self.messages.push(Message { body: body.into(), fate: Fate::Waiting, link: 1 - at as u8, is_order: true });
        Some(())
    }

    /// An order of the far end, which has left a link.
    fn obey(&mut self, order: &[u8]) -> Option<()> {
        let &[_, _, _, _, label, heading, number] = order else {
            return None;
        };
        let at = usize::from(label >> 4);
        match heading {
            COO if self.links[at].is_up => self.leave(at, COA)?,
            COA if !self.links[at].is_up => {}
            _ => return None,
        }
        self.acknowledge(at, number)?;
        self.move_from(at);
        Some(())
    }

    /// What isn't acknowledged on a link that was left waits for the other then, in order, and its streams run there.
    fn move_from(&mut self, at: usize) {
        let Link { waiting, unacked, .. } = std::mem::take(&mut self.links[at]);
        for number in &unacked {
            let message = &self.messages[*number];
            if !message.is_order {
                self.unsent[usize::from(message.body[4] >> 4)] += 1;
            }
        }
        let held = std::mem::take(&mut self.held);
        let to = 1 - at as u8;
        self.links[usize::from(to)].waiting.reserve(unacked.len() + waiting.len() + held.len());
        for number in unacked.into_iter().chain(waiting).chain(held) {
            let message = &mut self.messages[number];
            (message.fate, message.link) = (Fate::Waiting, to);
            self.links[usize::from(to)].waiting.push_back(number);
        }
        self.streams = [to; 16];
    }

    fn take(&mut self) -> Answer {
        self.inbox.pop_front().map_or(Answer::Refused(9), Answer::Taken)
    }

    fn find(&self, number: u64) -> Answer {
        self.messages.get(number as usize).map_or(Answer::Refused(8), |it| Answer::Found(it.fate, it.link))
    }

    fn tell(&self, name: char, out: &mut Vec<u8>) {
        let users = || self.messages.iter().filter(|it| !it.is_order);
        let count = |fate| users().filter(|it| it.fate == fate).count();
        let (waiting, unacked, acked) = (count(Fate::Waiting), count(Fate::Unacked), count(Fate::Acked));
        let (accepted, held) = (users().count(), count(Fate::Held));
        let _ = write!(out, "end {name} accepted={accepted} waiting={waiting} unacked={unacked} acked={acked} ");
        let _ = writeln!(out, "held={held} parked=0 back=0 discarded=0");
    }
}

fn put_unit(out: &mut Vec<u8>, unit: &Unit) {
    let body = unit.body.as_deref().unwrap_or_default();
    let mut octets = Vec::with_capacity(body.len() + 5);
    octets.extend_from_slice(&[unit.bsn | 128, unit.fsn | 128, body.len().min(63) as u8]);
    octets.extend_from_slice(body);
    let checks = checks_of(&octets);
    octets.extend_from_slice(&checks);
    put_hex(out, &octets);
}

fn put_answer(out: &mut Vec<u8>, answer: &Answer) {
    match answer {
        Answer::Accepted(number) => put_named(out, "accepted ", *number as u64),
        Answer::Sent(unit) => {
            out.extend_from_slice(b"sent ");
            put_unit(out, unit);
        }
        Answer::Heard(acked, took) => {
            put_named(out, "heard acked=", *acked as u64);
            out.extend_from_slice(b" took=");
            out.extend_from_slice(took.as_bytes());
            out.extend_from_slice(b" asked=0 resend=0 fault=0");
        }
        Answer::Taken(body) => {
            out.extend_from_slice(b"taken ");
            put_hex(out, body);
        }
        Answer::Found(fate, link) => put_named(out, FATES[*fate as usize], u64::from(*link)),
        Answer::Done => out.extend_from_slice(b"done"),
        Answer::Refused(why) => put_named(out, "refused ", u64::from(*why)),
    }
    out.push(b'\n');
}

struct World {
    ends: [End; 2],
    /// Units under way to each end, on each link.
    ways: [[VecDeque<Unit>; 2]; 2],
    octets: Vec<u8>,
}

impl World {
    /// What a line asks for is done, and its answer printed; `None`: it can't be read, or isn't done here.
    fn line(&mut self, text: &[u8], out: &mut Vec<u8>) -> Option<()> {
        let mut words = text.split(|it| *it == b' ');
        let name = words.next()?;
        let who = words.next()?;
        if name == b"together" {
            let link = read_number(who, 1)? as usize;
            self.ends.iter_mut().for_each(|end| end.raise(link));
            out.extend_from_slice(b"up\n");
            return Some(());
        }
        let at = [b"a", b"b"].iter().position(|it| *it == who)?;
        let end = &mut self.ends[at];
        let mut link = || Some(read_number(words.next()?, 1)? as usize);
        let (event, answer) = match name {
            b"offer" => {
                read_hex(words.next()?, &mut self.octets)?;
                let body: Rc<[u8]> = self.octets.as_slice().into();
                (Event::Offer(body.clone()), end.offer(body)?)
            }
            b"emit" => {
                let link = link()?;
                let answer = end.next(link);
                if let Answer::Sent(unit) = &answer {
                    self.ways[1 - at][link].push_back(unit.clone());
                }
                (Event::Next(link), answer)
            }
            b"arrive" => {
                let link = link()?;
                let unit = self.ways[at][link].pop_front()?;
                let answer = end.hear(link, &unit)?;
                (Event::Heard(link, unit), answer)
            }
            b"hear" => {
                let link = link()?;
                read_hex(words.next()?, &mut self.octets)?;
                let [bsn @ 128..=255, fsn @ 128..=255, 0] = self.octets[..] else {
                    return None;
                };
                let unit = Unit { bsn: bsn & 127, fsn: fsn & 127, body: None };
                let answer = end.hear(link, &unit)?;
                (Event::Heard(link, unit), answer)
            }
            b"down" => {
                let link = link()?;
                end.leave(link, COO)?;
                (Event::Down(link), Answer::Done)
            }
            b"take" => (Event::Take, end.take()),
            b"find" => {
                let number = read_number(words.next()?, u64::MAX)?;
                (Event::Find(number), end.find(number))
            }
            _ => return None,
        };
        put_answer(out, &answer);
        end.history.push((event, answer));
        Some(())
    }
}

fn main() -> io::Result<()> {
    let ends = [End::new([2, 1]), End::new([1, 2])];
    let mut world = World { ends, ways: Default::default(), octets: Vec::new() };
    let (mut input, mut output) = (io::stdin().lock(), io::stdout().lock());
    let (mut piece, mut kept, mut out) = ([0u8; 4096], Vec::new(), Vec::new());
    let mut is_open = false;
    loop {
        let read = input.read(&mut piece)?;
        if read == 0 {
            break;
        }
        for part in piece[..read].split_inclusive(|it| *it == b'\n') {
            kept.extend_from_slice(part);
            let Some(text) = kept.strip_suffix(b"\n") else {
                continue;
            };
            let done = if text.is_empty() || text[0] == b'#' {
                Some(())
            } else if !is_open {
                is_open = true;
                (text == b"set links=2 method=basic a=2 b=1 sio=80").then_some(())
            } else {
                world.line(text, &mut out)
            };
            if done.is_none() {
                output.write_all(&out)?;
                std::process::exit(1);
            }
            kept.clear();
        }
        output.write_all(&out)?;
        out.clear();
    }
    world.ends[0].tell('a', &mut out);
    world.ends[1].tell('b', &mut out);
    output.write_all(&out)
}
