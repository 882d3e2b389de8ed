"""What lines do to the octets of joined ends, by a seed: they take their time; inverted bits, lost octets, cuts."""
import sys
from collections import Counter, deque
from math import log


class Lines:
    """What the lines do to the octets, by a seed."""

    def __init__(self, asked, rng):
        self.asked, self.rng = asked, rng
        self.slice = asked.slice  # octets that a line carries at a time
        self.bits = self.octets = sys.maxsize
        last = max(1, asked.turns - asked.cut_turns)
        self.cuts_at = sorted(rng.randrange(last) for _ in range(asked.cuts))[::-1]
        self.cut = {}
        self.dead = set(range(asked.links - asked.dead, asked.links))
        self.under_way = {direction: [self.line_of(rng) for _ in range(asked.links)] for direction in ("ab", "ba")}
        self.phases = [rng.randrange(max(1, 2 * asked.spells)) for _ in range(asked.links)]
        self.counts = Counter()

    def line_of(self, rng):
        """The slices under way on a line whose length is drawn: a line that was idle."""
        return deque([b"7e" * self.slice] * (rng.randrange(self.asked.delays + 1) // self.slice if self.asked.delays else 0))

    def begin(self):
        self.bits, self.octets = self.gap(self.asked.noise), self.gap(self.asked.slips)

    def gap(self, rate):
        """How many go by before the next that is hit."""
        return int(log(1.0 - self.rng.random()) / log(1.0 - rate)) if rate else sys.maxsize

    def is_noisy(self, number, turn):
        spells = self.asked.spells
        return not spells or (turn + self.phases[number]) // spells % 2 == 0

    def carry(self, lines, turn, direction):
        """One direction's slices, as they arrive; a line is `octets L HEX`."""
        links = len(lines)
        lines = [self.delayed(line, row) for line, row in zip(lines, self.under_way[direction])]
        while self.bits < links * self.slice * 8:
            number, bit = divmod(self.bits, self.slice * 8)
            if self.is_noisy(number, turn):
                self.change(lines, number, lambda octets: self.invert(octets, bit), "bits inverted")
            self.bits += 1 + self.gap(self.asked.noise)
        self.bits -= links * self.slice * 8
        while self.octets < links * self.slice:
            number, place = divmod(self.octets, self.slice)
            self.change(lines, number, lambda octets: octets[:place] + octets[place + 1:] + octets[-1:], "octets lost")
            self.octets += 1 + self.gap(self.asked.slips)
        self.octets -= links * self.slice
        cut = {number for number, (directions, _) in self.cut.items() if direction in directions}
        for number in cut | self.dead:
            lines[number] = b"octets %d %s" % (number, b"ff" * self.slice)
        return lines

    @staticmethod
    def delayed(line, row):
        """What was put into the line as long ago as it's long."""
        if not row:
            return line
        word, number, digits = line.split(b" ")
        row.append(digits)
        return b"%s %s %s" % (word, number, row.popleft())

    def change(self, lines, number, change, what):
        word, number_digits, digits = lines[number].split(b" ")
        octets = change(bytes.fromhex(digits.decode()))
        lines[number] = b"%s %s %s" % (word, number_digits, octets.hex().encode())
        self.counts[what] += 1

    @staticmethod
    def invert(octets, bit):
        place = bit // 8 % len(octets)
        return octets[:place] + bytes([octets[place] ^ 1 << bit % 8]) + octets[place + 1:]

    def turn_by(self, turn, ends):
        """Cuts begin and are mended."""
        for number in [it for it, (_, until) in self.cut.items() if until <= turn]:
            del self.cut[number]
        while self.cuts_at and self.cuts_at[-1] <= turn:
            number = self.rng.randrange(len(ends[0].links))
            alone = self.is_alone(number, ends)
            is_up = all(end.links[number].is_up() for end in ends)
            spared = (alone and not self.asked.cut_last) or (not is_up and self.rng.random() < 0.75)
            if spared or number in self.cut or number in self.dead:
                self.cuts_at[-1] = turn + 1_000
                return
            self.cuts_at.pop()
            self.cut[number] = self.rng.choice((("ab",), ("ba",), ("ab", "ba"))), turn + self.asked.cut_turns
            self.counts["cuts"] += 1

    def is_alone(self, number, ends):
        """Whether no other link is up at both ends, with a line that isn't cut just now."""
        others = [it for it in range(len(ends[0].links)) if it != number and it not in self.cut]
        return not any(all(end.links[it].is_up() for end in ends) for it in others)

    def mend(self):
        self.cut.clear()
        self.dead.clear()
        self.cuts_at.clear()
        self.bits = self.octets = sys.maxsize
