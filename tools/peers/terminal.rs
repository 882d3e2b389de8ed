//! What `mtpbank terminal` prints of one link under the basic error control, in plain Rust, for comparison alone
//! (tools/bench --all).
//!
//! Its octets are taken one by one: bits are deframed (deframer.rs), a turn obeys, hears, lets its timers run and
//! chooses what is sent (turning.rs, machines.rs, set.rs), and an octet of that goes out: check octets, inserted zeros,
//! a flag. The history of the set is kept. Lines are emergency, start, busy, ease, stop, octets, hear, flags, offer,
//! take, find, look and history; `hear` has octets, `fisu` or `lssu status=S`. Whatever else is on a line ends it, and
//! so does what isn't done here: a link that fails while it's up, messages of the management, several links, the cyclic
//! method, other timers.
mod deframer;
mod history;
mod machines;
mod set;
mod text;
mod turning;

use deframer::{Deframer, Mark};
use machines::{Link, Word};
use set::Unit;
use std::io::{self, Read, Write};
use std::process::ExitCode;
use text::{checks_of, put_hex, put_named, read_hex, read_number};

const FLAG: u32 = 0x7E;

/// The text of an octet behind a run of up to four ones: its bits, how many they are, and the run of ones they end in.
static TEXTS: [[(u16, u8, u8); 256]; 5] = texts();

const fn texts() -> [[(u16, u8, u8); 256]; 5] {
    let mut table = [[(0, 0, 0); 256]; 5];
    let mut at = 0;
    while at < 5 * 256 {
        let (mut bits, mut count, mut run, mut place) = (0, 0, at / 256, 0);
        while place < 8 {
            let bit = at as u16 >> place & 1;
            bits |= bit << count;
            count += 1;
            run = if bit == 1 { run + 1 } else { 0 };
            if run == 5 {
                count += 1;
                run = 0;
            }
            place += 1;
        }
        table[at / 256][at % 256] = (bits, count, run as u8);
        at += 1;
    }
    table
}

/// Bits of a line: whole octets, and a part of one.
#[derive(Default)]
struct Bits {
    octets: Vec<u8>,
    part: u32,
    count: u32,
}

impl Bits {
    fn put(&mut self, bits: u32, count: u32) {
        self.part |= bits << self.count;
        self.count += count;
        while self.count >= 8 {
            self.octets.push(self.part as u8);
            self.part >>= 8;
            self.count -= 8;
        }
    }

    /// Octets with inserted zeros, and a flag.
    fn put_text(&mut self, octets: &[u8]) {
        let mut run = 0;
        for octet in octets {
            let (bits, count, next) = TEXTS[usize::from(run)][usize::from(*octet)];
            self.put(u32::from(bits), u32::from(count));
            run = next;
        }
        self.put(FLAG, 8);
    }
}

#[derive(Default)]
struct Counts {
    turns: u64,
    sent: u64,
    marks: [u64; 3],
}

/// Units that were sent one behind another and are told alike, and how many they are.
#[derive(Default)]
struct Row {
    words: Vec<u8>,
    times: u64,
}

impl Row {
    fn add(&mut self, words: &[u8], out: &mut Vec<u8>) {
        if self.times == 0 || self.words != words {
            self.end(out);
            self.words.extend_from_slice(words);
        }
        self.times += 1;
    }

    fn end(&mut self, out: &mut Vec<u8>) {
        if self.times > 0 {
            out.extend_from_slice(b"sent 0 ");
            out.extend_from_slice(&self.words);
            if self.times > 1 {
                put_named(out, " x", self.times);
            }
            out.push(b'\n');
        }
        self.words.clear();
        self.times = 0;
    }
}

struct Terminal {
    deframer: Deframer,
    link: Link,
    counts: Counts,
    /// Bits that came and are no octet yet.
    came: Bits,
    /// What is left to send, and how many octets of it were.
    left: Bits,
    gone: usize,
    /// The unit that was appended last: its octets, and where units are told its words.
    octets: Vec<u8>,
    words: Vec<u8>,
    row: Row,
    /// Whether units that are sent are told.
    is_telling: bool,
}

impl Terminal {
    fn new() -> Terminal {
        let left = Bits { octets: vec![FLAG as u8], ..Bits::default() };
        Terminal {
            deframer: Deframer::new(),
            link: Link::new(),
            counts: Counts::default(),
            came: Bits::default(),
            left,
            gone: 0,
            octets: Vec::new(),
            words: Vec::new(),
            row: Row::default(),
            is_telling: false,
        }
    }

    /// A turn: the octet that goes out.
    fn turn(&mut self, octet: u8, out: &mut Vec<u8>) -> u8 {
        let before = self.link.word();
        self.counts.turns += 1;
        self.link.messages = 0;
        self.link.obey();
        self.hear(octet);
        self.link.tick();
        let sent = self.gone == self.left.octets.len();
        if sent {
            self.send();
        }
        self.tell(before, out);
        if sent && self.is_telling {
            self.row.add(&self.words, out);
        }
        self.gone += 1;
        self.left.octets[self.gone - 1]
    }

    /// The messages of a turn, and the link's word where it's another.
    fn tell(&mut self, before: Word, out: &mut Vec<u8>) {
        let after = self.link.word();
        if self.link.messages == 0 && before == after {
            return;
        }
        self.row.end(out);
        for _ in 0..self.link.messages {
            put_named(out, "message 0 turn=", self.counts.turns);
            out.push(b'\n');
        }
        if before != after {
            out.extend_from_slice(b"link 0 ");
            out.extend_from_slice(after.name().as_bytes());
            put_named(out, " turn=", self.counts.turns);
            if after == Word::Out {
                put_named(out, " cause=", u64::from(self.link.cause));
            }
            out.push(b'\n');
        }
    }

    fn hear(&mut self, octet: u8) {
        let (mut bits, mut left) = (u64::from(octet), 8);
        while left > 0 {
            let plain = self.deframer.pass(bits, left);
            if plain == left {
                return;
            }
            let mark = self.deframer.feed((bits >> plain & 1) as u8);
            bits >>= plain + 1;
            left -= plain + 1;
            if let Some(mark) = mark {
                self.link.hear(matches!(mark, Mark::Good).then(|| self.deframer.unit()));
                self.counts.marks[mark as usize] += 1;
            }
        }
    }

    /// Appends what is sent next.
    fn send(&mut self) {
        let Terminal { link, left, octets, words, is_telling, .. } = self;
        left.octets.clear();
        self.gone = 0;
        self.counts.sent += 1;
        link.send(|unit| {
            unit.write(octets);
            left.put_text(octets);
            if *is_telling {
                words.clear();
                put_unit(words, unit);
            }
        });
    }

    /// Octets that came on the line: those that went out.
    fn exchange(&mut self, octets: &[u8], out: &mut Vec<u8>) {
        let mut gone = Vec::with_capacity(octets.len());
        for octet in octets {
            let whole = self.came.part | u32::from(*octet) << self.came.count;
            self.came.part = whole >> 8;
            gone.push(self.turn(whole as u8, out));
        }
        out.extend_from_slice(b"octets 0 ");
        put_hex(out, &gone);
    }

    /// Bits that came so often: the units that went out, and how many turns it were.
    fn listen(&mut self, bits: &Bits, times: u64, out: &mut Vec<u8>) {
        self.is_telling = true;
        let before = self.counts.turns;
        for _ in 0..times {
            for octet in &bits.octets {
                self.came.put(u32::from(*octet), 8);
            }
            self.came.put(bits.part, bits.count);
            let came = std::mem::take(&mut self.came.octets);
            for octet in &came {
                self.turn(*octet, out);
            }
            self.came.octets = came;
            self.came.octets.clear();
        }
        self.row.end(out);
        self.is_telling = false;
        put_named(out, "turns ", self.counts.turns - before);
    }

    fn look(&self, out: &mut Vec<u8>) {
        let phase = if self.link.set.is_up() { "up" } else { "settled" };
        let Counts { turns, sent, marks: [good, bad, sixteen] } = self.counts;
        let (word, cause) = (self.link.word().name(), self.link.cause);
        let _ = write!(out, "look 0 {word} phase={phase} turns={turns} sent={sent} good={good} bad={bad} ");
        let _ = write!(out, "sixteen={sixteen} cause={cause}");
    }

    /// The messages of this end, by where they stand.
    fn put_end(&self, out: &mut Vec<u8>) {
        let set = &self.link.set;
        let ([accepted, _, acked], [unsent, unacked]) = (set.books(), set.standing());
        let (waiting, parked) = if set.is_up() { (unsent, 0) } else { (0, unsent) };
        let _ = write!(out, "end a accepted={accepted} waiting={waiting} unacked={unacked} acked={acked} held=0 ");
        let _ = writeln!(out, "parked={parked} back=0 discarded=0");
    }

    /// What a line asks for is done, and its answer printed; `None`: it can't be read, or isn't done here.
    fn line(&mut self, text: &[u8], out: &mut Vec<u8>) -> Option<()> {
        let mut words = text.split(|it| *it == b' ');
        let name = words.next()?;
        if !matches!(name, b"offer" | b"take" | b"find" | b"history") && words.next()? != b"0" {
            return None;
        }
        match name {
            b"octets" => {
                let mut octets = Vec::new();
                read_hex(words.next()?, &mut octets)?;
                self.exchange(&octets, out);
            }
            b"hear" => {
                let bits = read_unit(&mut words)?;
                self.listen(&bits, read_times(words.next())?, out);
            }
            b"flags" => {
                let times = read_number(words.next()?, 1 << 20)?;
                let flag = Bits { octets: vec![FLAG as u8], ..Bits::default() };
                self.listen(&flag, times, out);
            }
            b"offer" => {
                let mut body = Vec::new();
                read_hex(words.next().unwrap_or(b""), &mut body)?;
                self.link.offer(&body).put(out, &mut Vec::new());
            }
            b"take" => self.link.take().put(out, &mut Vec::new()),
            b"find" => self.link.find(read_number(words.next()?, u64::MAX)?).put(out, &mut Vec::new()),
            b"look" => self.look(out),
            b"history" => {
                let mut scratch = Vec::new();
                self.link.history.iter().for_each(|entry| entry.put(out, &mut scratch));
                out.extend_from_slice(b"done");
            }
            _ => {
                *match name {
                    b"emergency" => &mut self.link.commands.emergency,
                    b"start" => &mut self.link.commands.start,
                    b"busy" => &mut self.link.commands.busy,
                    b"ease" => &mut self.link.commands.ease,
                    b"stop" => &mut self.link.commands.stop,
                    _ => return None,
                } = true;
                out.extend_from_slice(b"done");
            }
        }
        out.push(b'\n');
        (words.next().is_none() && !self.link.is_beyond).then_some(())
    }
}

fn put_unit(words: &mut Vec<u8>, unit: &Unit<'_>) {
    let kind = match unit.body.len() {
        0 => "fisu bsn=",
        1 | 2 => "lssu bsn=",
        _ => "msu bsn=",
    };
    put_named(words, kind, u64::from(unit.head.bsn));
    put_named(words, " bib=", u64::from(unit.head.bib));
    put_named(words, " fsn=", u64::from(unit.head.fsn));
    put_named(words, " fib=", u64::from(unit.head.fib));
    match unit.body {
        [] => {}
        [status] | [status, _] => put_named(words, " status=", u64::from(status & 7)),
        body => {
            words.extend_from_slice(b" body=");
            put_hex(words, body);
        }
    }
}

/// The text of a unit on a line, and a flag.
fn read_unit<'a>(words: &mut impl Iterator<Item = &'a [u8]>) -> Option<Bits> {
    let mut octets = Vec::new();
    match words.next()? {
        b"fisu" => octets.extend_from_slice(&[255, 255, 0]),
        b"lssu" => {
            let status = read_number(words.next()?.strip_prefix(b"status=")?, 7)?;
            octets.extend_from_slice(&[255, 255, 1, status as u8]);
        }
        word => read_hex(word, &mut octets).filter(|()| (1..=276).contains(&(word.len() / 2)))?,
    }
    let checks = checks_of(&octets);
    octets.extend_from_slice(&checks);
    let mut bits = Bits::default();
    bits.put_text(&octets);
    Some(bits)
}

fn read_times(word: Option<&[u8]>) -> Option<u64> {
    match word {
        None => Some(1),
        Some(word) => read_number(word.strip_prefix(b"x")?, 1 << 20).filter(|it| *it > 0),
    }
}

fn main() -> io::Result<ExitCode> {
    let mut terminal = Terminal::new();
    let (mut input, mut output) = (io::stdin().lock(), io::stdout().lock());
    let (mut piece, mut kept, mut out) = ([0u8; 4096], Vec::new(), Vec::new());
    let mut is_open = false;
    loop {
        let read = input.read(&mut piece)?;
        if read == 0 {
            break;
        }
        for part in piece[..read].split_inclusive(|it| *it == b'\n') {
            kept.extend_from_slice(part);
            let Some(text) = kept.strip_suffix(b"\n") else {
                continue;
            };
            let done = if text.is_empty() || text[0] == b'#' {
                Some(())
            } else if !is_open {
                is_open = true;
                text.starts_with(b"set links=1 method=basic ").then_some(())
            } else {
                terminal.line(text, &mut out)
            };
            if done.is_none() {
                output.write_all(&out)?;
                return Ok(ExitCode::FAILURE);
            }
            kept.clear();
        }
        output.write_all(&out)?;
        out.clear();
    }
    terminal.put_end(&mut out);
    output.write_all(&out)?;
    Ok(ExitCode::SUCCESS)
}
