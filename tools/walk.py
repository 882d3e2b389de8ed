"""Scripts of `mtpbank play` that are made line by line as the program answers: what can be carried out is then known.

A `Walk` draws its lines from a random number generator. It holds each answer against a `Trace` at once.
"""
from line_bits import WIDE, front_of
from play_trace import OTHER, Trace, expect

IDLE = "heard acked=0 took=nothing asked=0 resend=0 fault=0"


class Walk:
    """A script under way, and the program that plays it."""

    def __init__(self, program, rng, hostile=False):
        self.program = program
        self.rng = rng
        self.trace = Trace()
        self.script = []
        self.printed = []
        self.process = program.start(["play"])
        self.links = rng.choice([1, 2, 2, 2, 3, 4, 8, 16])
        self.spare = rng.randrange(self.links) if rng.random() < 0.7 else None
        self.streams = rng.sample(range(16), rng.choice([1, 2, 4, 16]))
        rates = {"offer": 20, "emit": 30, "arrive": 28, "take": 5, "find": 4, "together": 6, "remark": 1}
        rates.update(lose=rng.choice([0, 2, 8]), down=rng.choice([0, 1, 3]), blind=rng.choice([0, 0, 0, 1]))
        rates.update(noanswer=rng.choice([0, 0, 0, 1]), timed=rng.choice([0, 0, 0, 1]), hear=12 if hostile else 0)
        rates.update(restore=rng.choice([0, 2, 6]), redeclare=rng.choice([0, 2, 6]), backtimeout=rng.choice([0, 0, 0, 1]))
        self.kinds, self.rates = list(rates), list(rates.values())

    def say(self, text):
        """Hands a line to the program, and gives its answer: None where the line ends the script."""
        fault = self.trace.fault_of(text)
        self.script.append(text + b"\n")
        try:
            self.process.stdin.write(text + b"\n")
            self.process.stdin.flush()
        except BrokenPipeError:
            expect(False, "a script has ended before its end")
        if fault:
            return None
        if self.trace.is_silent(text):
            self.trace.open(text)
            return ""
        answer = self.process.stdout.readline()
        self.printed.append(answer)
        expect(answer.endswith(b"\n"), "a line is answered by nothing")
        self.trace.answered(text, answer.decode("ascii").rstrip("\n"))
        return answer.decode("ascii").rstrip("\n")

    def walk(self, steps):
        """The first line, most links up, and so many lines after it."""
        rng = self.rng
        is_wide = rng.random() < 0.3
        limits = ([1, 2, 130, 4095], [1, 30, 1000, 1113840]) if is_wide else ([1, 2, 5, 127], [1, 30, 1000, 34671])
        method = rng.choice(["basic", "cyclic:{}:{}".format(*map(rng.choice, limits))])
        codes = f"a={rng.randrange(16384)} b={rng.randrange(16384)} sio={rng.choice(['80', 'C0', '00'])}"
        profile = " profile=wide" if is_wide else rng.choice(["", "", " profile=narrow"])
        self.say(f"set links={self.links} method={method} {codes}{profile}".encode())
        for link in range(self.links):
            if link == self.spare or rng.random() < 0.8:
                self.say(f"together {link}".encode())
        for _ in range(steps):
            line = self.next_line()
            if line is not None:
                self.say(line.encode())

    def next_line(self):
        """A line that can be carried out, or None."""
        rng, trace = self.rng, self.trace
        kind, end = rng.choices(self.kinds, self.rates)[0], rng.choice("ab")
        link = rng.randrange(self.links)
        if kind == "remark":
            return rng.choice(["", "# remark", "#\r"])
        if kind == "offer":
            return f"offer {end} {self.body().hex()}".rstrip()
        if kind in ("take", "find"):
            return f"take {end}" if kind == "take" else f"find {end} {rng.randrange(trace.ends[end].rows + 2)}"
        if kind in ("arrive", "lose"):
            return self.line_of_a_unit(kind)
        if kind == "together":
            found = [l for l in range(self.links) if trace.is_settled(l)]
            return f"together {rng.choice(found)}" if found else None
        if kind == "hear":
            return f"hear {end} {link} {self.hostile_unit(end, link).hex()}"
        return None if kind in ("down", "blind") and link == self.spare else f"{kind} {end} {link}"

    def line_of_a_unit(self, kind):
        """One of the units under way arrives or is lost."""
        under_way = {(e, l): len(self.trace.ends[e].links[l].coming) for e in "ab" for l in range(self.links)}
        found = [place for place, units in under_way.items() if units]
        if not found:
            return None
        end, link = self.rng.choice(found)
        return f"{kind} {end} {link}" + (f" {self.rng.randrange(under_way[end, link])}" if kind == "lose" else "")

    def body(self):
        """A message of a user that differs from all others; now and then one that is to be refused."""
        rng = self.rng
        label = rng.randbytes(3) + bytes([rng.choice(self.streams) << 4 | rng.randrange(16)])
        body = bytes([rng.choice([0x85, 0x83, 0xC1])]) + label + len(self.script).to_bytes(3, "big")
        if rng.random() < 0.1:
            body += rng.randbytes(rng.choice([53, 54, 55, 56, 57, 264, 265, rng.randrange(265)]))
        refused = [b"", body[:4], bytes([0x80]) + body[1:], (body * 40)[:self.trace.profile.longest + 1]]
        return rng.choice(refused) if rng.random() < 0.02 else body

    def hostile_unit(self, end, link):
        """A unit near what the link expects, or far from it, with a body of any kind."""
        rng, own = self.rng, self.trace.ends[end].links[link]
        profile, some = self.trace.profile, rng.randrange(self.trace.profile.numbers)
        near = [own.accepted, own.accepted, own.accepted + rng.randint(-3, 3), some]
        acked = [own.acked - 1, own.acked - 1, own.acked + rng.randint(-3, 3), some]
        numbers = [rng.choice(choice) % profile.numbers + profile.numbers * (rng.random() < 0.8) for choice in (acked, near)]
        order = self.hostile_order(own)
        message, rubbish = self.body()[:profile.longest], rng.randbytes(rng.randint(3, profile.longest))
        status, cut = rng.randbytes(rng.randint(1, 2)), order[:rng.randint(3, 7)]
        body = rng.choice([b"", b"", status, order, order, order, cut, message, rubbish])
        return front_of(profile, *numbers, min(len(body), 63) + 64 * rng.choice([0, 0, 0, 1, 2, 3])) + body

    def hostile_order(self, own):
        """An order for any link, with any number, with spare bits, or with octets too few or too many."""
        rng = self.rng
        heading = rng.choice([0x11, 0x21, 0x12, 0x22, 0x51, 0x61, rng.randrange(256)])
        place = rng.randrange(self.links + 1) % 16 << 4 | rng.randrange(2)
        profile = self.trace.profile
        number = rng.choice([own.acked, rng.randrange(128), rng.randrange(profile.numbers)]) % profile.numbers
        number += profile.numbers * rng.randrange(16 if profile is WIDE else 2)
        fsn = number.to_bytes(profile.fsn, "little")
        content = rng.choice([b"", fsn, fsn, rng.randbytes(1), rng.randbytes(2)])
        return bytes([rng.choice([0x80, 0x00, 0xF0]), 1, 128, 0, place, heading]) + content

    def rude_line(self):
        """A line that can't be read or carried out, or that can though its numbers are large."""
        link = self.rng.randrange(self.links)
        large = self.rng.choice([16, 255, 256, 65536, 2 ** 63, 2 ** 64 - 1, 2 ** 64, 10 ** 40])
        unit = self.hostile_unit("a", link)
        place, bit = (3, 4) if self.trace.profile is WIDE else (2, 1)
        wrong_length = unit[:place] + bytes([unit[place] ^ bit]) + unit[place + 1:]
        return self.rng.choice([
            f"emit a {large}", f"hear b {large} {unit.hex()}", f"find a {large}", f"lose a {link} {large}",
            f"arrive b {large}", f"together {large}", f"noanswer b {large}", f"restore a {large}", f"redeclare b {large}", f"hear a {link} {unit[:2].hex()}",
            f"hear a {link} {wrong_length.hex()}", f"hear b {link} {(unit * 100)[:277].hex()}",
            f"hear a {link} {unit.hex()}0", f"offer c {unit.hex()}", f"down a 0{link}", f"blind a -{link}",
            "set links=2 method=basic a=2 b=1 sio=80"])

    def drain(self):
        """Both ends send and hear until nothing is left to do, and users take all messages.

        A link that one end left fails at the other too, since orders that wait for it would never arrive.
        """
        quiet = 0
        for _ in range(3000):
            quiet = 0 if self.is_busy_round() else quiet + 1
            if quiet == 2 and self.leave_half_links():
                quiet = 0
            if quiet == 2:
                break
        expect(quiet == 2, "the ends don't come to rest")
        for end in "ab":
            while self.say(f"take {end}".encode()) != "refused 9":
                pass

    def leave_half_links(self):
        """The links that one end left fail at the other; tells whether there were any."""
        ends = self.trace.ends
        half = [(end, link) for end in "ab" for link in range(self.links)
                if ends[end].links[link].phase == "up" != ends[OTHER[end]].links[link].phase]
        for end, link in half:
            self.say(f"down {end} {link}".encode())
        return half

    def is_busy_round(self):
        """Each link that is up sends a unit at each end, and all units arrive; tells whether they did anything."""
        busy = False
        for link in range(self.links):
            for end in "ab":
                if self.trace.ends[end].links[link].phase == "up":
                    self.say(f"emit {end} {link}".encode())
            for end in "ab":
                coming = self.trace.ends[end].links[link].coming
                while coming:
                    is_message = coming[0].kind == "msu"
                    answer = self.say(f"arrive {end} {link}".encode())
                    busy |= answer != "lost" and (is_message or answer != IDLE)
        return busy

    def is_stuck(self):
        """Whether a changeover or a changeback waits for an order."""
        ends = self.trace.ends.values()
        return any(link.phase == "down" for end in ends for link in end.links) or any(end.streams.asked for end in ends)

    def finish(self):
        """Ends the input, and gives the script and the whole answer."""
        out, err = self.process.communicate()
        octets = b"".join(self.script)
        return octets, self.program.end(self.process, ["play"], octets, b"".join(self.printed) + out, err)
