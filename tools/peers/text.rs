//! What the peers share of texts: hexadecimal digits, numbers, and check octets by a table (Q.703 4.2).
const NO_DIGIT: u8 = 255;

static VALUES: [u8; 256] = values();
pub static DIGITS: [[u8; 2]; 256] = digits();
static CHECKS: [u16; 256] = checks();

const fn values() -> [u8; 256] {
    let mut table = [NO_DIGIT; 256];
    let mut value = 0;
    while value < 16 {
        table[b"0123456789abcdef"[value] as usize] = value as u8;
        value += 1;
    }
    table
}

const fn digits() -> [[u8; 2]; 256] {
    let mut table = [[0; 2]; 256];
    let mut octet = 0;
    while octet < 256 {
        table[octet] = [b"0123456789abcdef"[octet >> 4], b"0123456789abcdef"[octet & 15]];
        octet += 1;
    }
    table
}

const fn checks() -> [u16; 256] {
    let mut table = [0; 256];
    let mut octet = 0;
    while octet < 256 {
        let mut register = octet as u16;
        let mut bit = 0;
        while bit < 8 {
            register = register >> 1 ^ if register & 1 == 1 { 0x8408 } else { 0 };
            bit += 1;
        }
        table[octet] = register;
        octet += 1;
    }
    table
}

/// The check octets of these octets.
#[inline]
pub fn checks_of(octets: &[u8]) -> [u8; 2] {
    let register =
        octets.iter().fold(0xFFFF, |register: u16, octet| register >> 8 ^ CHECKS[(register as u8 ^ octet) as usize]);
    (!register).to_le_bytes()
}

#[inline]
pub fn put_number(out: &mut Vec<u8>, mut value: u64) {
    let mut digits = [0; 20];
    let mut at = digits.len();
    loop {
        at -= 1;
        digits[at] = b'0' + (value % 10) as u8;
        value /= 10;
        if value == 0 {
            break;
        }
    }
    out.extend_from_slice(&digits[at..]);
}

/// A word and a number behind it.
pub fn put_named(out: &mut Vec<u8>, name: &str, value: u64) {
    out.extend_from_slice(name.as_bytes());
    put_number(out, value);
}

pub fn put_hex(out: &mut Vec<u8>, octets: &[u8]) {
    out.reserve(2 * octets.len());
    for octet in octets {
        out.extend_from_slice(&DIGITS[usize::from(*octet)]);
    }
}

/// The octets of a word of two digits each, without capitals, in place of those that were there.
pub fn read_hex(word: &[u8], octets: &mut Vec<u8>) -> Option<()> {
    octets.clear();
    octets.reserve(word.len() / 2);
    let (pairs, []) = word.as_chunks::<2>() else {
        return None;
    };
    for [first, second] in pairs {
        let (high, low) = (VALUES[usize::from(*first)], VALUES[usize::from(*second)]);
        if high | low == NO_DIGIT {
            return None;
        }
        octets.push(high << 4 | low);
    }
    Some(())
}

/// A decimal number without leading zeros, up to a bound.
pub fn read_number(word: &[u8], most: u64) -> Option<u64> {
    if word.len() > 1 && word[0] == b'0' || word.is_empty() || word.len() > 18 {
        return None;
    }
    let mut value = 0;
    for digit in word {
        value = 10 * value + u64::from(digit.checked_sub(b'0').filter(|it| *it < 10)?);
    }
    (value <= most).then_some(value)
}
