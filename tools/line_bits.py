"""The octets and bits of a signalling line (ITU-T Q.703 2, 3.1, 3.2, 4.1, 4.2), for the tools beside this file.

Units to bits: `check_octets`, `stuffed`, `packed`. Bits back to units: `marks`, `unit_of`, `units_text`. Both are
written from the standard and docs/DECISIONS.md, apart from the program's code, so that they can be held against it.
"""
from typing import NamedTuple

FLAG = [0, 1, 1, 1, 1, 1, 1, 0]
BLANKS = b" \t\r\n"
HEX_DIGITS = b"0123456789abcdefABCDEF"


class Profile(NamedTuple):
    """How many numbers messages have, the octets before a unit's body and the most in it, and those of an order's FSN."""

    numbers: int
    front: int
    longest: int
    fsn: int


NARROW = Profile(128, 3, 273, 1)
WIDE = Profile(4096, 4, 272, 2)


class Unit(NamedTuple):
    """A signal unit as it is read; `body` is the status field, or SIO and SIF."""

    kind: str
    bsn: int
    bib: int
    fsn: int
    fib: int
    body: bytes


def check_octets(octets):
    """The two check octets, the low one first."""
    register = 0xFFFF
    for octet in octets:
        register ^= octet
        for _ in range(8):
            register = register >> 1 ^ (0x8408 if register & 1 else 0)
    register ^= 0xFFFF
    return [register & 0xFF, register >> 8]


def stuffed(octets):
    """The bits of these octets on the line, a zero inserted after each five ones."""
    bits = []
    run = 0
    for octet in octets:
        for place in range(8):
            bit = octet >> place & 1
            bits.append(bit)
            run = run + 1 if bit else 0
            if run == 5:
                bits.append(0)
                run = 0
    return bits


def packed(bits):
    """Octets of these bits, the lowest first; bits behind the last whole octet are left out."""
    whole = len(bits) // 8 * 8
    return bytes(sum(bit << place for place, bit in enumerate(bits[start:start + 8])) for start in range(0, whole, 8))


def length_indicator(body):
    return min(len(body), 63)


def front_of(profile, backward, forward, indicator):
    """The octets before a body. A number stands with its indicator bit above it; the lowest octet is the first."""
    if profile is WIDE:
        return (backward | forward << 13 | indicator % 64 << 26).to_bytes(4, "little")
    return bytes([backward, forward, indicator])


def unit_of(octets, profile=NARROW):
    """The unit that octets without check octets stand for, or None."""
    if not profile.front <= len(octets) <= profile.front + profile.longest:
        return None
    body = bytes(octets[profile.front:])
    front = int.from_bytes(octets[:4], "little") if profile is WIDE else octets[0] | octets[1] << 8 | octets[2] << 16
    size = 2 * profile.numbers
    backward, forward, indicator = front % size, front // size % size, front // size ** 2 % 64
    if indicator != length_indicator(body):
        return None
    kind = "fisu" if not body else "lssu" if len(body) < 3 else "msu"
    return Unit(kind, backward % profile.numbers, backward // profile.numbers, forward % profile.numbers, forward // profile.numbers, body)


def content_of(raw):
    """The octets of a good signal unit whose text on the line these bits are, or None."""
    if "111111" in raw or raw.endswith("11111"):
        return None
    bits = raw.replace("111110", "11111")
    if len(bits) % 8 or not 40 <= len(bits) <= 278 * 8:
        return None
    octets = [int(bits[start:start + 8][::-1], 2) for start in range(0, len(bits), 8)]
    return octets[:-2] if check_octets(octets[:-2]) == octets[-2:] else None


def marks(bits):
    """The marks of a line's bits, a text of 0 and 1: the octets of a good unit, "bad" or "sixteen"."""
    flag = "01111110"
    line = flag + bits
    began = 8
    counted = None
    for end in range(9, len(line) + 1):
        is_flag = line[end - 8:end] == flag
        unit = content_of(line[began:end - 8]) if is_flag else None
        if unit is not None:
            counted = None
            yield unit
        elif counted is not None:
            counted += 1
            if counted % 128 == 0:
                yield "sixteen"
        elif is_flag and began < end - 8:
            yield "bad"
        elif not is_flag and (line[end - 7:end] == "1111111" or end - began == 2677):
            counted = 0
        if is_flag:
            began = end


def mark_line(mark):
    """The line that `units` prints for a mark."""
    if isinstance(mark, str):
        return mark
    unit = unit_of(mark)
    if unit is None:
        return "good fault=3"
    text = f"good {unit.kind} bsn={unit.bsn} bib={unit.bib} fsn={unit.fsn} fib={unit.fib}"
    if unit.kind == "lssu":
        text += f" status={unit.body[0] % 8}"
    return text + (f" body={unit.body.hex()}" if unit.kind == "msu" else "")


def units_text(octets):
    """What `units` prints of this input, and the place of its fault or None."""
    bad = [place for place, octet in enumerate(octets) if octet not in BLANKS and octet not in HEX_DIGITS][:1]
    digits = bytes(octet for octet in octets[:bad[0] if bad else None] if octet not in BLANKS)
    place = bad[0] if bad else len(octets) if len(digits) % 2 else None
    line = bytes.fromhex(digits[:len(digits) // 2 * 2].decode())
    lines = [mark_line(mark) for mark in marks("".join(f"{octet:08b}"[::-1] for octet in line))]
    if place is None:
        counts = [sum(line.startswith(kind) for line in lines) for kind in ("good", "bad", "sixteen")]
        lines.append("end good={} bad={} sixteen={}".format(*counts))
    return "".join(line + "\n" for line in lines).encode(), place
