//! The machines of one terminal (Q.703 7 to 12), as its peer turns them: initial alignment, link state and flow
//! control, and the timers T1 to T7.
use crate::history::Entry;
use crate::set::{Answer, Head, Set};

pub const SIO: u8 = 0;
const SIN: u8 = 1;
const SIE: u8 = 2;
pub const SIOS: u8 = 3;
const SIPO: u8 = 4;
pub const SIB: u8 = 5;

const T1: usize = 0;
const T2: usize = 1;
const T3: usize = 2;
const T4: usize = 3;
pub const T5: usize = 4;
const T6: usize = 5;
pub const T7: usize = 6;
const LENGTHS: [u64; 7] = [360_000, 400_000, 12_000, 65_536, 800, 32_000, 8_000];
const EMERGENCY_PROVING: u64 = 4_096;
const NEVER: u64 = u64::MAX;

/// Nothing was sent or accepted yet.
pub const START: Head = Head { bsn: 127, bib: true, fsn: 127, fib: true };

#[derive(Clone, Copy, PartialEq)]
pub enum Align {
    Idle,
    NotAligned,
    Aligned,
    Proving,
}

#[derive(Clone, Copy, PartialEq)]
pub enum State {
    Out,
    Aligning,
    Ready,
    InService,
}

#[derive(Clone, Copy, PartialEq)]
pub enum Input {
    Start,
    Stop,
    Emergency,
    Heard(u8),
    Timer(usize),
    Abort,
    Good,
    Complete,
    NotPossible,
    /// A FISU or an MSU.
    Traffic,
    Failure(u8),
}

/// What waits for the next turn.
#[derive(Clone, Copy, Default, PartialEq)]
pub struct Commands {
    pub emergency: bool,
    pub start: bool,
    pub busy: bool,
    pub ease: bool,
    pub stop: bool,
}

/// How the link stands, as it's told.
#[derive(Clone, Copy, PartialEq)]
pub enum Word {
    Out,
    Unaligned,
    Aligned,
    Proving,
    Ready,
    Waiting,
    Up,
    Paused,
}

impl Word {
    pub fn name(self) -> &'static str {
        ["out", "unaligned", "aligned", "proving", "ready", "waiting", "up", "paused"][self as usize]
    }
}

pub struct Link {
    pub set: Set,
    pub history: Vec<Entry>,
    pub commands: Commands,
    pub cause: u8,
    /// Messages for users that this turn brought.
    pub messages: u64,
    /// Something came that isn't done here.
    pub is_beyond: bool,
    pub align: Align,
    pub local: bool,
    pub short: bool,
    pub aborts: u8,
    pub pending: bool,
    pub status: u8,
    pub state: State,
    pub paused: bool,
    /// Errors until the proving is aborted, where one is monitored.
    pub aerm: Option<u8>,
    /// The count and the number of units, where they are monitored.
    pub suerm: Option<(u8, u8)>,
    pub busy: bool,
    pub far_busy: bool,
    pub awaiting: bool,
    pub b_due: bool,
    pub up: bool,
    pub top: u8,
    pub last: Head,
    /// Octet times so far, at which of them each timer ends, and the first such.
    pub time: u64,
    pub ends: [u64; 7],
    pub soonest: u64,
}

impl Link {
    pub fn new() -> Link {
        Link {
            set: Set::new(),
            history: Vec::new(),
            commands: Commands::default(),
            cause: 0,
            messages: 0,
            is_beyond: false,
            align: Align::Idle,
            local: false,
            short: false,
            aborts: 0,
            pending: false,
            status: SIO,
            state: State::Out,
            paused: false,
            aerm: None,
            suerm: None,
            busy: false,
            far_busy: false,
            awaiting: false,
            b_due: false,
            up: false,
            top: 127,
            last: START,
            time: 0,
            ends: [NEVER; 7],
            soonest: NEVER,
        }
    }

    #[inline]
    pub fn word(&self) -> Word {
        match (self.state, self.align) {
            (State::Out, _) => Word::Out,
            (State::Aligning, Align::Idle | Align::NotAligned) => Word::Unaligned,
            (State::Aligning, Align::Aligned) => Word::Aligned,
            (State::Aligning, Align::Proving) => Word::Proving,
            (State::Ready, _) => Word::Ready,
            (State::InService, _) if !self.up => Word::Waiting,
            (State::InService, _) if self.paused => Word::Paused,
            (State::InService, _) => Word::Up,
        }
    }

    fn set_timer(&mut self, timer: usize, end: u64) {
        self.ends[timer] = end;
        self.soonest = self.ends.into_iter().min().unwrap_or(NEVER);
    }

    pub fn start(&mut self, timer: usize) {
        self.set_timer(timer, self.time + LENGTHS[timer]);
    }

    pub fn stop(&mut self, timer: usize) {
        self.set_timer(timer, NEVER);
    }

    /// An octet time has gone by.
    #[inline]
    pub fn tick(&mut self) {
        self.time += 1;
        if self.time >= self.soonest {
            self.end_timers();
        }
    }

    fn end_timers(&mut self) {
        for timer in T1..=T7 {
            if self.ends[timer] > self.time {
                continue;
            }
            self.stop(timer);
            match timer {
                T1 => self.state(Input::Timer(T1)),
                T2 | T3 | T4 => self.align(Input::Timer(timer)),
                T5 if self.busy => self.send_busy(),
                T5 => {}
                T6 => self.state(Input::Failure(5)),
                _ => self.state(Input::Failure(6)),
            }
        }
    }

    /// Initial alignment (Q.703 7.3).
    pub fn align(&mut self, input: Input) {
        match (self.align, input) {
            (Align::Idle | Align::NotAligned, Input::Emergency) => self.local = true,
            (Align::Idle, Input::Start) => {
                self.align = Align::NotAligned;
                self.status = SIO;
                self.start(T2);
            }
            (Align::NotAligned, Input::Heard(SIO | SIN)) => self.find_far_end(self.local),
            (Align::NotAligned, Input::Heard(SIE)) => self.find_far_end(true),
            (Align::Aligned, Input::Emergency) => {
                (self.local, self.short) = (true, true);
                self.status = SIE;
            }
            (Align::Aligned, Input::Heard(heard @ (SIN | SIE))) => {
                self.short |= heard == SIE;
                self.aborts = 0;
                self.stop(T3);
                self.prove();
            }
            (Align::Proving, Input::Emergency) => {
                self.local = true;
                self.status = SIE;
                self.shorten();
            }
            (Align::Proving, Input::Heard(SIE)) => self.shorten(),
            (Align::Proving, Input::Heard(SIO)) => {
                self.align = Align::Aligned;
                self.pending = false;
                self.aerm = None;
                self.start(T3);
                self.stop(T4);
            }
            (Align::Aligned | Align::Proving, Input::Heard(SIOS)) => self.end_align(Some(Input::NotPossible)),
            (Align::Proving, Input::Abort) if self.pending => {}
            (Align::Proving, Input::Abort) if self.aborts == 4 => self.end_align(Some(Input::NotPossible)),
            (Align::Proving, Input::Abort) => {
                self.aborts += 1;
                self.pending = true;
                self.aerm = None;
            }
            (Align::Proving, Input::Good | Input::Timer(T4)) if self.pending => self.prove(),
            (Align::Proving, Input::Timer(T4)) => self.end_align(Some(Input::Complete)),
            (Align::NotAligned, Input::Timer(T2)) | (Align::Aligned, Input::Timer(T3)) => {
                self.end_align(Some(Input::NotPossible));
            }
            (_, Input::Stop) => self.end_align(None),
            _ => {}
        }
    }

    fn find_far_end(&mut self, short: bool) {
        self.align = Align::Aligned;
        self.short = short;
        self.status = if self.local { SIE } else { SIN };
        self.stop(T2);
        self.start(T3);
    }

    fn shorten(&mut self) {
        if !self.short {
            self.short = true;
            self.prove();
        }
    }

    fn prove(&mut self) {
        self.align = Align::Proving;
        self.pending = false;
        self.aerm = Some(if self.short { 1 } else { 4 });
        let length = if self.short { EMERGENCY_PROVING } else { LENGTHS[T4] };
        self.set_timer(T4, self.time + length);
    }

    fn end_align(&mut self, end: Option<Input>) {
        self.align = Align::Idle;
        (self.local, self.short, self.pending, self.aborts) = (false, false, false, 0);
        self.aerm = None;
        [T2, T3, T4].into_iter().for_each(|timer| self.stop(timer));
        if let Some(end) = end {
            self.state(end);
        }
    }

    /// Link state control (Q.703 12).
    pub fn state(&mut self, input: Input) {
        match (self.state, input) {
            (State::Out, Input::Start) => {
                self.state = State::Aligning;
                self.align(Input::Start);
            }
            (State::Aligning, Input::Complete) => {
                self.state = State::Ready;
                self.suerm = Some((0, 0));
                self.start(T1);
            }
            (State::Aligning, Input::NotPossible) => self.fail(8),
            (State::Ready, Input::Traffic) => {
                self.state = State::InService;
                self.paused = false;
                self.stop(T1);
                self.rise();
            }
            (State::Ready, Input::Heard(SIPO)) => self.stop(T1),
            (State::Ready, Input::Heard(SIO | SIOS)) => self.fail(7),
            (State::Ready, Input::Timer(T1)) => self.fail(4),
            (State::InService, Input::Traffic) => self.paused = false,
            (State::InService, Input::Heard(SIPO)) => self.paused = true,
            (State::InService, Input::Heard(SIO | SIN | SIE | SIOS)) => self.fail(7),
            (State::Ready | State::InService, Input::Failure(cause)) => self.fail(cause),
            (State::Aligning | State::Ready | State::InService, Input::Stop) => {
                self.align(Input::Stop);
                self.fail(9);
            }
            _ => {}
        }
    }

    fn fail(&mut self, cause: u8) {
        self.is_beyond |= self.up;
        self.state = State::Out;
        self.cause = cause;
        self.suerm = None;
        (self.busy, self.far_busy, self.awaiting, self.b_due) = (false, false, false, false);
        [T1, T5, T6, T7].into_iter().for_each(|timer| self.stop(timer));
    }

    pub fn rise(&mut self) {
        self.up = self.set.up() == Answer::Done;
        self.top = 127;
        self.history.push(Entry::Up);
    }

    /// Flow control (Q.703 9): SIB is due, and again when T5 ends.
    pub fn send_busy(&mut self) {
        self.b_due = true;
        self.start(T5);
    }

    pub fn hear_busy(&mut self) {
        if !self.far_busy {
            self.far_busy = true;
            self.start(T6);
        }
        if self.awaiting {
            self.start(T7);
        }
    }

    pub fn hear_acknowledgement(&mut self, more: bool) {
        self.far_busy = false;
        self.awaiting = more;
        self.stop(T6);
        self.stop(T7);
        if more {
            self.start(T7);
        }
    }
}
