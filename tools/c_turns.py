"""Instructions of a turn by the C function mtpbank_hear, beside those of the bench's own, as valgrind counts them.

Both do the same turns: of a link in service, with fill-in units, whose line is joined to itself (tools/c_turns.c, and
PROGRAM, which is proved and built in a temporary folder). A turn is the difference of two runs."""
import re
import shutil
import subprocess
import sys
from pathlib import Path

import crates

TOP = Path(__file__).resolve().parent.parent
USES = ["end_calls", "link_term", "term_managed"]
PIECES, TURNS = (8, 160, 2040), (163_200, 489_600)
NAME = "turn_bench"

PROGRAM = """//! Turns of a link in service whose line is joined to itself.
#![tactic(auto)]
ghost use Rattle.std.specs.Prelude.{◌≡◌, ◌<◌, ◌≤◌, length};

use end_calls::{SetValues, TimeValues, TimerValues, activate, look, open};
use link_term::NoTap;
use std::io::{self, Read};
use std::process::ExitCode;
use term_managed::ManagedBench;

const MOST: usize = 2_040;

const SET: SetValues = SetValues {
    set: 0,
    opc: 2,
    dpc: 1,
    n1: 0,
    n2: 0,
    links: 1,
    sio: 0x80,
};

const TIMERS: TimerValues = TimerValues {
    t1: 360_000,
    t2: 400_000,
    t3: 12_000,
    t5: 800,
    t6: 32_000,
    t7: 8_000,
};

const TIMES: TimeValues = TimeValues {
    t1: 6_400,
    t2: 11_200,
    t4: 6_400,
    t5: 6_400,
    t17: 8_000,
    k1: 64_000,
    k2: 480_000,
};

/// Each octet has its turn: whether all had.
fn hears(end: &mut ManagedBench, octets: &[u8], put: &mut [u8]) -> bool
    requires there { 0 < length end.old.bench.links }
    requires room { length octets.now ≤ length put.old }
    ensures links { length end.new.bench.links ≡ length end.old.bench.links }
{
    for place in 0..octets.len() {
        match end.hear_octet(0, octets[place], &mut NoTap) {
            Ok(managed) => put[place] = managed.turn().put,
            Err(_) => return false,
        }
    }
    true
}

/// So many pieces go round; whether all did.
fn plays(end: &mut ManagedBench, piece: usize, pieces: u64) -> bool {
    let mut comes = [0x7E; MOST];
    let mut goes = [0; MOST];
    if piece > MOST || activate(end, 0).is_err() {
        return false;
    }
    for _round in 0..pieces {
        if end.bench().links() == 0 || !hears(end, &comes[..piece], &mut goes[..piece]) {
            return false;
        }
        comes[..piece].copy_from_slice(&goes[..piece]);
    }
    matches!(look(end, 0), Ok(values) if values.word == 6)
}

/// Whether there is such a value, of which it's so.
fn holds_of<T: Drop, F: FnOnce(&mut T) -> bool>(value: Option<T>, case: F) -> bool
    requires { F.IsAlwaysCallable case }
{
    match value {
        Some(mut value) => case(&mut value),
        None => false,
    }
}

/// The numbers in a text of two, of digits and a space between.
fn numbers_in(text: &[u8]) -> [u64; 2] {
    let mut numbers = [0u64; 2];
    let mut at = 0usize;
    for octet in text {
        if octet.is_ascii_digit() {
            numbers[at % 2] = numbers[at % 2].wrapping_mul(10).wrapping_add(u64::from(*octet & 15));
        } else {
            at = 1;
        }
    }
    numbers
}

fn main(rt: HostRuntime) -> io::Result<ExitCode> {
    let mut buffer = [0u8; 64];
    let mut reader = rt.reader();
    let count = reader.read(&mut buffer)?;
    let [piece, turns] = numbers_in(&buffer[..count]);
    if piece == 0 || piece > 2_040 {
        return Ok(ExitCode::from(2));
    }
    let end = open(rt.alloc(), &SET, &TIMERS, &TIMES).ok();
    if holds_of(end, |end| plays(end, piece as usize, turns / piece)) {
        Ok(ExitCode::SUCCESS)
    } else {
        Ok(ExitCode::from(1))
    }
}
"""

INVARIANT = """use Rattle.std.proofs.Common.{◌≡◌, length}
use Rattle.turn_bench.proofs.hears.Given as goal

abbrev pub invariant-loop-place : goal.invariant-loop-place
invariant-loop-place l = record {
  links : length l.end.bench.links ≡ length l.initial.end.bench.links;
  room : length l.put ≡ length l.initial.put;
}
"""


def program_in(folder):
    """The program, proved and built over a copy of the crates that it stands on, with what is built of them."""
    uses = crates.libraries()
    below = sorted({it for name in USES for it in (name, *crates.below(name, uses))})
    for name in below:
        shutil.copytree(TOP / "crates" / name, folder / "crates" / name, ignore=shutil.ignore_patterns("must-fail", "planted", "incremental"))
    shutil.copy(TOP / "HANDLES", folder / "HANDLES")
    subprocess.run(["git", "init", "-q", str(folder)], check=True)
    lists = [line for line in (TOP / "crates.txt").read_text().splitlines() if line.split(":")[0] in below]
    (folder / "crates.txt").write_text("\n".join([*lists, f"{NAME}: {' '.join(USES)}"]) + "\n")
    top = folder / "crates" / NAME
    (top / "src").mkdir(parents=True)
    (top / "src/main.rt").write_text(PROGRAM)
    (top / "proofs/hears").mkdir(parents=True)
    (top / "proofs/Lib.antt").write_text("")
    (top / "proofs/hears/Invariants.antt").write_text(INVARIANT)
    subprocess.run(["rt", "fmt"], cwd=top, stdin=subprocess.DEVNULL, capture_output=True, check=True)
    ran = subprocess.run(["rt", "run"], cwd=top, input="8 0", capture_output=True, text=True, check=False)
    if not (top / "out" / NAME).exists():
        sys.exit(f"the bench's own turns aren't proved and built:\n{ran.stdout}\n{ran.stderr}")
    return top / "out" / NAME


def instructions(words, text, room):
    """How many instructions a run takes."""
    ran = subprocess.run(["valgrind", "--tool=callgrind", f"--callgrind-out-file={room}/callgrind", *map(str, words)],
                         input=text, capture_output=True, text=True, check=False)
    if ran.returncode:
        sys.exit(f"{' '.join(map(str, words))} ended with status {ran.returncode}:\n{ran.stdout}{ran.stderr}")
    return int(re.search(r"Collected : (\d+)", ran.stderr)[1])


def rows(library, room):
    """For each length of pieces: the instructions of a turn by the C function, and of the bench's own."""
    by_c = room / "turns-by-c"
    subprocess.run(["gcc", "-std=c99", "-Wall", "-Wextra", "-Werror", "-O2", f"-I{TOP}/include", TOP / "tools/c_turns.c",
                    TOP / "examples/c/memory.c", library, "-o", by_c], check=True)
    own = program_in(room / "own")
    for piece in PIECES:
        of = [[instructions(words(turns), f"{piece} {turns}", room) for turns in TURNS]
              for words in (lambda turns: [by_c, piece, turns], lambda turns: [own])]
        yield piece, *((more - fewer) / (TURNS[1] - TURNS[0]) for fewer, more in of)
