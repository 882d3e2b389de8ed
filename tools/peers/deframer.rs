//! Signal units out of the bits of a line (Q.703 3, 4), as the peers find them.
use crate::text::checks_of;

const FLAG: u8 = 0x7E;
const LONGEST_WAIT: u32 = 2677;
const SIXTEEN_OCTETS: u32 = 128;
/// Where no good unit can end at the next flag.
const TOO_MANY: usize = 279;

/// What ends at a bit of the line (Q.703 3.1, 4.1).
pub enum Mark {
    Good,
    Bad,
    Sixteen,
}

/// What is kept of a line: the last eight bits, and the content since the last flag without inserted zeros.
pub struct Deframer {
    last: u8,
    /// The content's whole octets, and behind a mark `Good` the unit's.
    octets: [u8; TOO_MANY + 8],
    len: usize,
    unit: usize,
    part: u64,
    more: u32,
    counting: bool,
    room: u32,
}

impl Deframer {
    #[inline]
    pub fn new() -> Self {
        Deframer {
            last: FLAG,
            octets: [0; TOO_MANY + 8],
            len: 0,
            unit: 0,
            part: 0,
            more: 0,
            counting: false,
            room: LONGEST_WAIT,
        }
    }

    /// Takes up to 56 bits; eight octets are put behind those that are there, though only some of them are whole.
    #[inline]
    fn add(&mut self, bits: u64, count: u32) {
        let whole = self.part | bits << self.more;
        let more = self.more + count;
        self.octets[self.len..self.len + 8].copy_from_slice(&whole.to_le_bytes());
        self.len = (self.len + (more / 8) as usize).min(TOO_MANY);
        self.part = whole >> (more & 0x38);
        self.more = more & 7;
    }

    /// Takes the first of up to 56 bits, up to one that comes after five ones or may be counted; gives how many.
    #[inline]
    pub fn pass(&mut self, bits: u64, left: u32) -> u32 {
        let window = (bits << 8 | u64::from(self.last)) >> 3;
        let pairs = window & window >> 1;
        let fives = pairs & pairs >> 2 & window >> 4;
        let plain = fives.trailing_zeros().min(left).min(self.room - 1);
        self.add(bits & ((1 << plain) - 1), plain);
        self.last = ((bits << 8 | u64::from(self.last)) >> plain) as u8;
        self.room -= plain;
        plain
    }

    #[inline]
    pub fn feed(&mut self, bit: u8) -> Option<Mark> {
        let before = self.last;
        self.last = before >> 1 | bit << 7;
        if self.last == FLAG {
            return self.flag();
        }
        if before >= 0xFC {
            self.len = TOO_MANY;
        } else if before < 0xF8 {
            self.add(u64::from(bit), 1);
        }
        if self.room > 1 && self.last >> 1 != 0x7F {
            self.room -= 1;
            return None;
        }
        if self.counting {
            return self.count();
        }
        self.counting = true;
        self.room = SIXTEEN_OCTETS;
        None
    }

    /// The octets of the last good unit, until more bits come.
    #[inline]
    pub fn unit(&self) -> &[u8] {
        &self.octets[..self.unit]
    }

    #[inline]
    fn count(&mut self) -> Option<Mark> {
        if self.room > 1 {
            self.room -= 1;
            return None;
        }
        self.room = SIXTEEN_OCTETS;
        Some(Mark::Sixteen)
    }

    #[inline]
    fn flag(&mut self) -> Option<Mark> {
        let good = self.is_good();
        let len = std::mem::take(&mut self.len);
        (self.part, self.more) = (0, 0);
        if good {
            self.counting = false;
            self.room = LONGEST_WAIT;
            self.unit = len - 2;
            return Some(Mark::Good);
        }
        if self.counting {
            return self.count();
        }
        let empty = self.room > LONGEST_WAIT - 8;
        self.room = LONGEST_WAIT;
        if empty {
            None
        } else {
            Some(Mark::Bad)
        }
    }

    /// Whether the content is whole octets, few enough, whose last two are the check octets of the others; the flag
    /// that closes it leaves a zero and five ones.
    #[inline]
    fn is_good(&self) -> bool {
        if self.more != 6 || self.part != 0x3E || !(5..TOO_MANY).contains(&self.len) {
            return false;
        }
        let (text, check) = self.octets[..self.len].split_at(self.len - 2);
        check == checks_of(text)
    }
}
