//! A peer of `mtpbank units` in plain Rust: the same input, the same text, nothing proved
//! (tools/bench --all).
//!
//! It goes the same ways: digits are read in pairs, up to 56 bits of which none comes after five
//! ones are taken at once, check bits are reckoned by a table, and a line goes straight into the
//! buffer that is written. A fault of the input ends the program with status 1.
mod deframer;
#[allow(dead_code)] // a part of it
mod text;

use deframer::{Deframer, Mark};
use std::io::{Read, Write};
use std::process::ExitCode;
use text::{put_number, DIGITS};

const NO_DIGIT: u8 = 255;

static VALUES: [u8; 256] = values();

const fn values() -> [u8; 256] {
    let mut table = [NO_DIGIT; 256];
    let mut value = 0;
    while value < 16 {
        let digit = b"0123456789ABCDEF"[value];
        table[digit as usize] = value as u8;
        table[digit.to_ascii_lowercase() as usize] = value as u8;
        value += 1;
    }
    table
}

fn put_head(out: &mut Vec<u8>, kind: &[u8], unit: &[u8]) {
    out.extend_from_slice(kind);
    out.extend_from_slice(b" bsn=");
    put_number(out, u64::from(unit[0] & 127));
    out.extend_from_slice(if unit[0] < 128 {
        b" bib=0 fsn="
    } else {
        b" bib=1 fsn="
    });
    put_number(out, u64::from(unit[1] & 127));
    out.extend_from_slice(if unit[1] < 128 { b" fib=0" } else { b" fib=1" });
}

fn put_good(out: &mut Vec<u8>, unit: &[u8]) {
    if unit.len() > 276 || usize::from(unit[2] & 63) != (unit.len() - 3).min(63) {
        out.extend_from_slice(if unit.len() > 276 {
            b"good fault=2\n"
        } else {
            b"good fault=3\n"
        });
        return;
    }
    match &unit[3..] {
        [] => put_head(out, b"good fisu", unit),
        [status] | [status, _] => {
            put_head(out, b"good lssu", unit);
            out.extend_from_slice(b" status=");
            out.push(b'0' + (status & 7));
        }
        body => {
            put_head(out, b"good msu", unit);
            out.extend_from_slice(b" body=");
            let mut digits = [[0; 2]; 273];
            for (pair, octet) in digits.iter_mut().zip(body) {
                *pair = DIGITS[usize::from(*octet)];
            }
            out.extend_from_slice(digits[..body.len()].as_flattened());
        }
    }
    out.push(b'\n');
}

/// The line under way, and how many marks of each kind it gave.
struct Line {
    deframer: Deframer,
    counts: [u64; 3],
}

impl Line {
    fn mark(&mut self, mark: Mark, out: &mut Vec<u8>) {
        match mark {
            Mark::Good => put_good(out, self.deframer.unit()),
            Mark::Bad => out.extend_from_slice(b"bad\n"),
            Mark::Sixteen => out.extend_from_slice(b"sixteen\n"),
        }
        self.counts[mark as usize] += 1;
    }

    fn feed(&mut self, octets: &[u8], out: &mut Vec<u8>) {
        for piece in octets.chunks(7) {
            let mut word = [0; 8];
            word[..piece.len()].copy_from_slice(piece);
            let (mut bits, mut left) = (u64::from_le_bytes(word), 8 * piece.len() as u32);
            loop {
                let plain = self.deframer.pass(bits, left);
                if plain == left {
                    break;
                }
                let mark = self.deframer.feed((bits >> plain & 1) as u8);
                bits >>= plain + 1;
                left -= plain + 1;
                if let Some(mark) = mark {
                    self.mark(mark, out);
                }
                if left == 0 {
                    break;
                }
            }
        }
    }
}

/// Appends the octets of these digits, two each; tells whether all could be read.
fn read(text: &[u8], high: &mut Option<u8>, octets: &mut Vec<u8>) -> bool {
    let mut left = text;
    while let [first, rest @ ..] = left {
        if let (None, [second, more @ ..]) = (*high, rest) {
            let (first, second) = (VALUES[usize::from(*first)], VALUES[usize::from(*second)]);
            if first | second < 16 {
                octets.push(first << 4 | second);
                left = more;
                continue;
            }
        }
        left = rest;
        let value = VALUES[usize::from(*first)];
        if value < 16 {
            match high.take() {
                Some(before) => octets.push(before << 4 | value),
                None => *high = Some(value),
            }
        } else if !matches!(first, b' ' | b'\t' | b'\r' | b'\n') {
            return false;
        }
    }
    true
}

fn main() -> ExitCode {
    let mut input = std::io::stdin().lock();
    let mut output = std::io::stdout().lock();
    let mut line = Line {
        deframer: Deframer::new(),
        counts: [0; 3],
    };
    let mut buffer = [0; 4096];
    let mut octets = Vec::with_capacity(buffer.len());
    let mut out = Vec::new();
    let mut high = None;
    loop {
        let Ok(count) = input.read(&mut buffer) else {
            return ExitCode::FAILURE;
        };
        if count == 0 {
            break;
        }
        octets.clear();
        out.clear();
        let all_read = read(&buffer[..count], &mut high, &mut octets);
        line.feed(&octets, &mut out);
        if output.write_all(&out).is_err() || !all_read {
            return ExitCode::FAILURE;
        }
    }
    if high.is_some() {
        return ExitCode::FAILURE;
    }
    let [good, bad, sixteen] = line.counts;
    match writeln!(output, "end good={good} bad={bad} sixteen={sixteen}") {
        Ok(()) => ExitCode::SUCCESS,
        Err(_) => ExitCode::FAILURE,
    }
}
