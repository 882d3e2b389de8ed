"""Walks in which links are given up, for `tools/two-ends-walk --given-up`: two ends of a set of 1 to 4 links, either method,
whose links are lost, left, left blindly, settled by time or without an answer and brought up again, while messages
are offered in all streams, and streams are asked back, asked back again and given up. Then nothing is lost any more: a
link that is up at one end alone fails there too, each link comes up, streams on their way home are asked back once
more, and messages are offered in all streams.

Held against what `mtpbank play` shows, for each walk's end:
  arrives  each message that was offered in that end arrives once, and those of a stream in order
  stays    no link that came up there is left again
  free     no changeback code is open or spent, once each home's timer has run out
  kept     no message is told discarded, since no answer came, that its end never sent

Counted over each whole walk, as a link that is up at one end when the other left it can do so: messages that arrived twice,
messages that count as acknowledged and never arrived, and messages that were discarded."""

import random
import subprocess
from collections import Counter, defaultdict

LSSU = "ffff0100"
QUIET_ROUNDS = 20_000
ROUNDS_ALONE = 200


class Walk:
    def __init__(self, path, rng, figures):
        self.rng = rng
        self.figures = figures
        self.script = []
        self.count = rng.choice([1, 1, 2, 2, 3, 4])
        self.lines = defaultdict(int)  # by end and link: how many units are under way to it
        self.offered = {"a": [], "b": []}  # bodies by the numbers under which they were accepted
        self.got = {"a": [], "b": []}
        self.sent = {"a": set(), "b": set()}  # bodies that went out at least once
        self.process = subprocess.Popen([path, "play"], stdin=subprocess.PIPE, stdout=subprocess.PIPE)
        method = rng.choice(["basic", f"cyclic:{rng.randrange(1, 128)}:{rng.randrange(1, 2000)}"])
        figures[f"walks, {method.split(':')[0]}"] += 1
        self.put(f"set links={self.count} method={method} a=2 b=1 sio=80")

    def put(self, line):
        self.script.append(line)
        self.process.stdin.write(line.encode() + b"\n")
        self.process.stdin.flush()

    def say(self, line):
        self.put(line)
        answer = self.process.stdout.readline().decode("ascii").rstrip("\n")
        if not answer or answer.startswith("fault"):
            raise AssertionError(f"answers: {line}: {answer}")
        self.figures["steps"] += 1
        return answer

    # What is asked of the ends.

    def is_up(self, end, link):
        return self.say(f"hear {end} {link} {LSSU}") == "refused 9"

    def are_up(self, link):
        return self.is_up("a", link) and self.is_up("b", link)

    def offer(self, end, stream):
        body = f"850180{0:02x}{16 * stream:02x}{end.encode().hex()}{len(self.script):08x}"
        answer = self.say(f"offer {end} {body}")
        if answer.startswith("accepted "):
            self.offered[end].append((int(answer.split()[1]), body))
            return body
        return None

    def emit(self, end, link):
        """Whether the link sent a message."""
        answer = self.say(f"emit {end} {link}")
        if not answer.startswith("sent "):
            return False
        self.lines["b" if end == "a" else "a", link] += 1
        unit = answer.split()[1]
        self.sent[end].add(unit[6:-4])
        return unit[4:6] != "00"

    def arrive(self, end, link):
        """What the unit in front told, beside that it came."""
        self.lines[end, link] -= 1
        answer = self.say(f"arrive {end} {link}")
        return "took=nothing" not in answer and answer != "lost" or "acked=0" not in answer and answer != "lost"

    def take(self, end):
        while (answer := self.say(f"take {end}")) != "refused 9":
            self.got[end].append(answer.split()[1])

    def rise(self, link):
        """The link comes up, if it isn't up at an end; a changeover that isn't answered is given up."""
        if self.is_up("a", link) or self.is_up("b", link):
            return
        for end in "ab":
            self.give_up(end, link)
        self.say(f"together {link}")
        self.lines["a", link] = self.lines["b", link] = 0
        self.figures["came up"] += 1

    def give_up(self, end, link):
        """The link settles by time where its order never was sent, else without an answer."""
        if self.say(f"timed {end} {link}") == "done":
            self.figures["settled by time"] += 1
        else:
            self.figures["given up"] += self.say(f"noanswer {end} {link}") == "done"

    # The walk.

    def step(self):
        rng = self.rng
        end, link = rng.choice("ab"), rng.randrange(self.count)
        rates = {"offer": 20, "emit": 40, "arrive": 36, "lose": 4, "take": 4, "leave": 2, "give up": 1, "rise": 4,
                 "restore": 3, "ask again": 4, "time out": 1}
        kind = rng.choices([*rates], [*rates.values()])[0]
        if kind == "offer":
            self.offer(end, rng.randrange(16))
        elif kind == "emit":
            self.emit(end, link)
        elif kind == "arrive" and self.lines[end, link]:
            self.arrive(end, link)
        elif kind == "lose" and self.lines[end, link]:
            self.say(f"lose {end} {link} {rng.randrange(self.lines[end, link])}")
            self.lines[end, link] -= 1
        elif kind == "take":
            self.take(end)
        elif kind == "leave":
            self.figures["left"] += self.say(f"{rng.choice(['down', 'down', 'blind'])} {end} {link}") == "done"
        elif kind == "give up":
            self.give_up(end, link)
        elif kind == "rise":
            self.rise(link)
        elif kind == "restore":
            self.say(f"restore {end} {link}")
        elif kind == "ask again":
            for home in range(self.count):
                self.ask_again(end, home)
        elif kind == "time out":
            self.say(f"backtimeout {end} {link}")

    def ask_again(self, end, link):
        self.figures["asked back again"] += self.say(f"redeclare {end} {link}") == "done"

    def drain(self):
        """Units go and come, and none is lost, until nothing but fill-in units does."""
        for turn in range(QUIET_ROUNDS):
            told = turn % ROUNDS_ALONE == ROUNDS_ALONE - 1 and self.fails_alone()
            for link in range(self.count):
                for end, other in ("ab", "ba"):
                    told |= self.emit(end, link)
                    while self.lines[other, link]:
                        told |= self.arrive(other, link)
            for end in "ab":
                self.take(end)
            if not told:
                return
        raise AssertionError("arrives: units go on and on")

    def fails_alone(self):
        """Whether a link was up at one end alone: its level 2, which hears the other end no more, takes it down."""
        failed = False
        for link in range(self.count):
            up = [end for end in "ab" if self.is_up(end, link)]
            if len(up) == 1:
                failed |= self.say(f"down {up[0]} {link}") == "done"
        return failed

    def end(self):
        """Nothing is lost any more, each link comes up, and messages are offered in all streams."""
        for _ in range(2):
            # an order that is under way may leave a link while this goes on
            for link in range(self.count):
                if not self.are_up(link):
                    for end in "ab":
                        self.say(f"down {end} {link}")
            self.drain()
        for link in range(self.count):
            self.rise(link)
            self.drain()
        self.stay()
        for end in "ab":
            for link in range(self.count):
                self.ask_again(end, link)
        self.drain()
        for end in "ab":
            for link in range(self.count):
                self.say(f"backtimeout {end} {link}")
        self.drain()
        fresh = {end: [[self.offer(end, stream) for _ in range(3)] for stream in range(16)] for end in "ab"}
        self.drain()
        for end, other in ("ab", "ba"):
            for stream, bodies in enumerate(fresh[end]):
                came = [body for body in self.got[other] if body in bodies]
                if came != bodies:
                    raise AssertionError(f"arrives: stream {stream} of end {end}: {bodies}, got {came}")
        self.stay()
        for end in "ab":
            for link in range(self.count):
                if self.say(f"backtimeout {end} {link}") != "refused 9":
                    raise AssertionError(f"free: a code of link {link} isn't free at end {end}")

    def stay(self):
        for link in range(self.count):
            if not self.are_up(link):
                raise AssertionError(f"stays: link {link} was left again")

    def count_wrong(self):
        for end, other in ("ab", "ba"):
            came = Counter(self.got[other])
            self.figures["messages"] += len(self.offered[end])
            for number, body in self.offered[end]:
                place = self.say(f"find {end} {number}")
                acked = place.startswith("found acked")
                if place.startswith("found discarded"):
                    was_sent = body in self.sent[end]
                    if not was_sent and place == "found discarded 3":
                        raise AssertionError(f"kept: message {number} of end {end} was never sent: {place}")
                    self.figures["sent and discarded"] += was_sent
                    self.figures["never sent, discarded for an impossible FSN"] += not was_sent
                self.figures["arrived twice"] += came[body] > 1
                self.figures["acknowledged, never arrived"] += acked and not came[body]

    def walk(self):
        for link in range(self.count):
            self.rise(link)
        for _ in range(self.rng.randrange(50, 600)):
            self.step()
        self.end()
        self.count_wrong()

    def leave(self):
        self.process.stdin.close()
        self.process.stdout.read()
        self.process.wait()


def walked(path, seed, walks, only=None):
    """So many walks, or one: the figures, and what broke with its number and script."""
    figures = Counter()
    broken = []
    for number in range(walks) if only is None else [only]:
        walk = Walk(path, random.Random(f"given up {seed} {number}"), figures)
        figures["walks"] += 1
        try:
            walk.walk()
        except AssertionError as what:
            broken.append((str(what), number, walk.script))
        finally:
            walk.leave()
    return figures, broken
