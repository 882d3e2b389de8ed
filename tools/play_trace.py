"""What can be said of a script of `mtpbank play` and of what it prints, without the rules of the error control.

A `Trace` follows a script line by line with its answers: which line is at fault and how, which links are up, what is
under way, which messages were offered, sent, heard and taken. It's written from `mtpbank play --help`, the standard
(ITU-T Q.703 5, Q.704 5, 6 and 15) and docs/DECISIONS.md, apart from the program's code. A line or an answer that can't
be raises `Finding`.

What is checked of every script: the line and kind of its fault, the form of every answer, the numbers of accepted
messages, what is taken (the oldest message heard, octet for octet), the check octets, BSN and FSN of every unit sent,
that what is sent again is what was sent under that FSN, what becomes of an order, which links can come up, which
streams can be asked back and how many declarations that makes, which are made once more, that a code is in use while an
acknowledgement is owed, that a message stands back just by the code that its stream waits for, and that the places on
each `end` line add up to the messages accepted there, and how many are back.

Of a script in which no unit was heard by `hear` and neither `noanswer` nor `timed` was obeyed also: no unit shows a fault; what a link
brought is what was sent on it, from the first on, in order; each message that counts as acknowledged was heard; and of
each stream what was heard is what was offered, from the first on, in order. Where a `blind` was obeyed, of each
stream messages may be missing, but none comes twice or out of order; where a `backtimeout` was obeyed, none comes
twice.
"""
import re
from collections import Counter, deque
from functools import lru_cache
from typing import NamedTuple, Optional

from declarations import Declarations
from line_bits import NARROW, WIDE, Unit, check_octets, unit_of

NUMBER = rb"(0|[1-9][0-9]*)"
HEX = rb"((?:[0-9a-fA-F]{2})+)"
SHAPE = re.compile(rb"(together) N|(take) ([ab])|(offer) ([ab])(?: X)?|(emit|arrive|find|rise|fill) ([ab]) N"
                   rb"|(down|blind|noanswer|timed|restore|redeclare|backtimeout) ([ab]) N"
                   rb"|(lose) ([ab]) N N|(hear) ([ab]) N X".replace(b"N", NUMBER).replace(b"X", HEX))
OPENING = re.compile(rb"set links=N method=(?:basic|cyclic:N:N) a=N b=N sio=([0-9a-fA-F]{2})(?: profile=(narrow|wide))?".replace(b"N", NUMBER))
PLACES = ("waiting", "unacked", "acked", "held", "parked", "back", "discarded")
END_LINE = re.compile(r"end ([ab]) accepted=(\d+) " + " ".join(rf"{place}=(\d+)" for place in PLACES))
REPORT = re.compile(r"heard acked=(\d+) took=(nothing|message|order|ignored) asked=([01]) resend=([01]) fault=([023])")
FOUND = re.compile(r"found (?:(?:waiting|unacked|acked|held|back) (\d+)|parked|discarded [123])")
OTHER = {"a": "b", "b": "a"}


class Finding(Exception):
    """Something that can't be."""


def expect(holds, what):
    if not holds:
        raise Finding(what)


class Line(NamedTuple):
    """A line of the script after the first."""

    kind: str
    end: Optional[str] = None
    number: Optional[int] = None
    place: Optional[int] = None
    octets: bytes = b""


def opening_of(text):
    """How many links the first line gives the pair, and its profile, or None where it's unreadable."""
    match = OPENING.fullmatch(text)
    if match is None:
        return None
    links, n1, n2, a, b = (int(word or 1) for word in match.groups()[:5])
    profile = WIDE if match[7] == b"wide" else NARROW
    most = profile.numbers - 1
    fits = 1 <= links <= 16 and 1 <= n1 <= most and 1 <= n2 <= most * profile.longest and a < 16384 and b < 16384
    return (links, profile) if fits and int(match[6], 16) % 16 == 0 else None


@lru_cache(1 << 16)
def line_of(text, profile=NARROW):
    """What a line after the first asks for, or None where it's unreadable."""
    match = SHAPE.fullmatch(text)
    if match is None:
        return None
    kind, *words = [word.decode() for word in match.groups() if word is not None]
    end = words.pop(0) if kind != "together" else None
    octets = bytes.fromhex(words.pop()) if kind in ("offer", "hear") and words else b""
    numbers = [int(word) for word in words]
    if any(number >= 2 ** 64 for number in numbers) or kind == "hear" and unit_of(octets, profile) is None:
        return None
    return Line(kind, end, *(numbers + [None, None])[:2], octets)


def stream_of(body):
    return body[4] >> 4


def order_of(body, profile=NARROW):
    """The link and the name of the order that a body of the management stands for, or None."""
    if len(body) < 6:
        return None
    told = {0x12: ("eco", 0), 0x22: ("eca", 0), 0x11: ("coo", profile.fsn), 0x21: ("coa", profile.fsn), 0x51: ("cbd", 1), 0x61: ("cba", 1)}
    name, octets = told.get(body[5], (None, 0))
    return (body[4] >> 4, name) if name and len(body) - 6 == octets else None


class Link:
    """A link at one end: its phase, and since it last came up what was sent, acknowledged and accepted on it."""

    def __init__(self):
        self.phase = "settled"
        self.coming = deque()
        self.cover = "inside"  # of a life at the other end: awaited where this end may join it, missed where it heard first that it's over
        self.rise()

    def rise(self):
        self.sent = []
        self.acked = 0
        self.accepted = 0


class Streams:
    """Where the streams of an end run: on a link, on none, or on their way home; and its changeback codes.

    The code of streams that go from an alternative to their home is 16 times the home, and the alternative.
    """

    def __init__(self, links):
        self.links = links
        self.on = {stream: None for stream in range(16)}  # for those on their way home: where they come from
        self.code = {}
        self.used = set()
        self.asked = set()
        self.spent = set()
        self.owed = Counter()  # acknowledgements, by code
        self.back = Counter()  # how many messages stand back, by code

    def home(self, stream):
        return stream % self.links

    def offered(self, stream):
        self.used.add(stream)
        if stream in self.code:
            self.back[self.code[stream]] += 1

    def rise(self, link):
        """Streams that run nowhere run on the link, and those whose home it is and that have had no message."""
        for stream, on in self.on.items():
            is_new = self.home(stream) == link and stream not in self.used
            if on is None or is_new and stream not in self.code:
                self.on[stream] = link

    def is_away(self, stream, home, link):
        return self.home(stream) == home and stream not in self.code and self.on[stream] == link

    def can_ask(self, home, up):
        """The other links that are up from which streams of this home can be asked back."""
        return [link for link in up if link != home and 16 * home + link not in self.asked | self.spent
                and any(self.is_away(stream, home, link) for stream in range(16))]

    def ask(self, home, links):
        for link in links:
            away = [stream for stream in range(16) if self.is_away(stream, home, link)]
            self.code.update((stream, 16 * home + link) for stream in away)
            self.asked.add(16 * home + link)
            self.owed[16 * home + link] = 1

    def leave(self, home):
        """Its streams go no further home, and their codes will only be freed by an acknowledgement."""
        codes = {code for code in self.asked if code // 16 == home}
        self.asked -= codes
        self.spent |= codes
        for stream in [it for it, code in self.code.items() if code in codes]:
            del self.code[stream]
        for code in codes:
            del self.back[code]

    def settle(self, link, target):
        """Its streams run on the target, the lowest link that is up; and those on their way home come from there."""
        for stream, on in self.on.items():
            if on == link:
                self.on[stream] = target

    def acknowledge(self, code):
        """The code is acknowledged: it's spent while more is owed under it, and then free. Tells whether it was in use."""
        owed = self.owed[code] - 1
        was_used = self.free(code)
        if owed > 0:
            self.spent.add(code)
            self.owed[code] = owed
        return was_used

    def free(self, code):
        """The code is given up, or no more is owed: its streams run on their home. Tells whether it was in use."""
        was_used = code in self.asked | self.spent
        self.asked.discard(code)
        self.spent.discard(code)
        del self.owed[code]
        for stream in [it for it, own in self.code.items() if own == code]:
            del self.code[stream]
            self.on[stream] = code // 16
        del self.back[code]
        return was_used


class End:
    """One end: its messages as they were offered and heard, its links and its streams."""

    def __init__(self, links):
        self.streams = Streams(links)
        self.declarations = Declarations(links)
        self.rows = 0
        self.offered = {}
        self.bodies = set()
        self.inbox = deque()
        self.heard = []
        self.links = [Link() for _ in range(links)]

    def up(self):
        return [number for number, link in enumerate(self.links) if link.phase == "up"]

    def settle(self, number, moves_sent=False, moves_waiting=True):
        """The link settled: whether what was sent goes on over another link, and what waits, else it's discarded."""
        self.links[number].phase = "settled"
        target = next(iter(self.up()), None)
        self.streams.settle(number, target)
        self.declarations.settle(number, target, moves_sent, moves_waiting)

    def settle_upto(self, number, fsn, numbers):
        """The same by the FSN that the far end accepted last: with one that can't be what was sent and waits is discarded."""
        link = self.links[number]
        reached = (fsn - link.acked + 1) % numbers
        is_reasonable = reached <= len(link.sent) - link.acked
        if is_reasonable:
            self.declarations.are_acked(number, link.acked + reached)
        self.settle(number, is_reasonable, is_reasonable)

    def leave(self, number):
        """The link is left: its codes are spent."""
        self.streams.leave(number)
        self.close_codes()

    def close_codes(self):
        for code in set(self.declarations.last) - self.streams.asked:
            self.declarations.closes(code)


class Trace:
    """A script as far as it has come."""

    def __init__(self):
        self.ends = None
        self.profile = NARROW
        self.by_hand = False
        self.gave_up = False
        self.strayed = False  # an end came up in a life that it left or missed, or filled a line that it doesn't rise on
        self.was_blind = False
        self.timed_out = False

    def links(self):
        return len(self.ends["a"].links)

    def is_sound(self):
        """Whether the error control may be held to what it promises of two ends."""
        return not self.by_hand and not self.gave_up and not self.strayed

    def fault_of(self, text):
        """None, or why this line ends the script."""
        if len(text) > 4096:
            return "text"
        if self.is_remark(text):
            return None
        if self.ends is None:
            return None if opening_of(text) else "text"
        line = line_of(text, self.profile)
        return "text" if line is None else None if self.can(line) else "step"

    @staticmethod
    def is_remark(text):
        return not text or text.startswith(b"#")

    def can(self, line):
        if line.kind in ("take", "offer", "find"):
            return True
        if line.number >= self.links():
            return False
        if line.kind == "together":
            return self.is_settled(line.number)
        if line.kind == "rise":
            return self.ends[line.end].links[line.number].phase == "settled"
        under_way = len(self.ends[line.end].links[line.number].coming) if line.end else 0
        return line.kind not in ("arrive", "lose") or (line.place or 0) < under_way

    def is_settled(self, number):
        """Whether both ends have settled the link, so that it can come up."""
        return all(end.links[number].phase == "settled" for end in self.ends.values())

    def is_silent(self, text):
        """Whether this line, which has no fault, prints nothing."""
        return self.is_remark(text) or self.ends is None

    def open(self, text):
        """Takes a line that prints nothing."""
        if not self.is_remark(text):
            links, self.profile = opening_of(text)
            self.ends = {name: End(links) for name in "ab"}

    def answered(self, text, answer):
        """Takes a line that prints, with what it printed."""
        line = line_of(text, self.profile)
        end = self.ends[line.end or "a"]
        getattr(self, "on_" + line.kind)(line, end, answer)

    def on_together(self, line, _end, answer):
        expect(answer == "up", "together isn't answered up")
        for end in self.ends.values():
            end.links[line.number].coming.clear()
            self.comes_up(end, line.number)

    @staticmethod
    def comes_up(end, number):
        link = end.links[number]
        link.phase, link.cover = "up", "inside"
        link.rise()
        end.streams.rise(number)
        end.declarations.rise(number)

    def on_rise(self, line, end, answer):
        expect(answer == "up", "a rise isn't answered up")
        link, far = end.links[line.number], self.ends[OTHER[line.end]].links[line.number]
        if far.phase == "settled":
            far.cover = "awaited"
            far.coming.clear()
            link.coming.clear()
        elif link.cover != "awaited":
            self.strayed = True
        self.comes_up(end, line.number)

    def on_fill(self, line, end, answer):
        link = end.links[line.number]
        octets = bytes.fromhex(answer.removeprefix("sent "))
        expect(answer == f"sent {octets.hex()}" and list(octets[-2:]) == check_octets(octets[:-2]), "check octets are wrong")
        unit = unit_of(octets[:-2], self.profile)
        last = self.profile.numbers - 1
        expect(unit and unit.kind == "fisu" and unit.bsn == unit.fsn == last and unit.bib == unit.fib == 1, "a fill isn't the first FISU of an end")
        self.strayed = self.strayed or link.cover != "awaited"
        self.ends[OTHER[line.end]].links[line.number].coming.append(unit)

    def on_offer(self, line, end, answer):
        body = line.octets
        refusal = 1 if len(body) < 5 else 2 if len(body) > self.profile.longest else 3 if body[0] % 16 == 0 else 0
        if refusal:
            expect(answer == f"refused {refusal}", f"an offer that is to be refused {refusal} isn't")
        elif answer == "refused 4":
            of_stream = [other for other in end.offered.values() if stream_of(other) == stream_of(body)]
            expect(len(of_stream) >= 1024, "an offer is refused 4 with fewer than 1,024 messages of its stream")
        else:
            expect(answer == f"accepted {end.rows}", f"an offer isn't accepted under the number {end.rows}")
            end.offered[end.rows] = body
            end.bodies.add(body)
            end.rows += 1
            end.streams.offered(stream_of(body))

    def on_take(self, _line, end, answer):
        body = end.inbox.popleft() if end.inbox else None
        taken = "refused 9" if body is None else f"taken {body.hex()}"
        expect(answer == taken, "what is taken isn't the oldest message heard")

    def on_find(self, line, end, answer):
        if line.number >= end.rows:
            expect(answer == "refused 8", "a message that doesn't exist was found")
            return
        place = FOUND.fullmatch(answer)
        expect(place, "a message wasn't found")
        if answer.startswith("found back"):
            body = end.offered.get(line.number)
            code = body and end.streams.code.get(stream_of(body))
            expect(code == int(place[1]), "a message stands back whose stream isn't on its way home by that code")
        if answer.startswith("found acked") and line.number in end.offered and self.is_sound():
            heard = self.ends[OTHER[line.end]].heard
            expect(end.offered[line.number] in heard, "a message counts as acknowledged that the far end never heard")

    def on_emit(self, line, end, answer):
        link = end.links[line.number]
        if link.phase != "up":
            expect(answer == "refused 5", "a link that isn't up sends")
            return
        octets = bytes.fromhex(answer.removeprefix("sent "))
        expect(answer == f"sent {octets.hex()}" and list(octets[-2:]) == check_octets(octets[:-2]), "check octets are wrong")
        unit = unit_of(octets[:-2], self.profile)
        is_plain = self.profile is WIDE or octets[2] < 64
        expect(unit and unit.kind != "lssu" and is_plain, "what is sent is no fill-in unit and no message")
        expect(unit.bsn == (link.accepted - 1) % self.profile.numbers, "the BSN isn't the FSN last accepted")
        self.check_fsn(unit, line.number, end)
        self.ends[OTHER[line.end]].links[line.number].coming.append(unit)

    def check_fsn(self, unit, number, end):
        """A message goes first under the next FSN, and again under its own; a fill-in unit has the last one."""
        link = end.links[number]
        back = (len(link.sent) - unit.fsn) % self.profile.numbers
        if unit.kind == "fisu":
            expect(back == 1, "a fill-in unit hasn't the last FSN")
        elif back == 0:
            expect(len(link.sent) - link.acked < self.profile.numbers - 1, f"{self.profile.numbers} messages are unacknowledged")
            expect(unit.body in end.bodies or order_of(unit.body, self.profile), "what is sent was never offered")
            link.sent.append(unit.body)
            if unit.body[0] % 16 == 0 and order_of(unit.body, self.profile)[1] == "cbd":
                waited = end.declarations.is_sent(number, unit.body[6], len(link.sent) - 1)
                expect(waited, "a declaration is sent that doesn't wait for the link")
        else:
            expect(back <= len(link.sent) - link.acked, "what is sent again isn't unacknowledged")
            expect(unit.body == link.sent[-back], "what is sent again was another message under that FSN")

    def on_arrive(self, line, end, answer):
        link = end.links[line.number]
        unit = link.coming.popleft()
        if link.phase != "up":
            expect(answer == "lost", "a link that isn't up hears")
            return
        self.hears(line, end, unit, answer)

    def on_lose(self, line, end, answer):
        del end.links[line.number].coming[line.place]
        expect(answer == "lost", "a lost unit isn't answered lost")

    def on_hear(self, line, end, answer):
        unit = unit_of(line.octets, self.profile)
        if end.links[line.number].phase != "up":
            expect(answer == "refused 5", "a link that isn't up hears")
        elif unit.kind == "lssu":
            expect(answer == "refused 9", "a link status signal unit isn't refused 9")
        else:
            self.by_hand = True
            self.hears(line, end, unit, answer)

    def hears(self, line, end, unit: Unit, answer):
        match = REPORT.fullmatch(answer)
        expect(match, "a heard unit isn't reported")
        link = end.links[line.number]
        link.acked += int(match[1])
        expect(link.acked <= len(link.sent), "more is acknowledged than was sent")
        end.declarations.are_acked(line.number, link.acked)
        expect(not self.is_sound() or match[5] == "0", "a fault is told though nothing was heard by hand")
        if match[2] == "nothing":
            return
        expect(unit.kind == "msu", "a unit without a body brought one")
        if self.is_sound():
            sent = self.ends[OTHER[line.end]].links[line.number].sent
            is_next = link.accepted < len(sent) and sent[link.accepted] == unit.body
            expect(is_next, "a link brought something else than was sent")
        link.accepted += 1
        expect(match[2] == self.became(end, unit.body), "a body became something else than it is")

    def became(self, end, body):
        """What becomes of an accepted body: a message, an order that is obeyed, or nothing."""
        if body[0] % 16:
            end.inbox.append(body)
            end.heard.append(body)
            return "message"
        number, name = order_of(body, self.profile) or (16, None)
        if name == "cbd":  # acknowledged, whatever it speaks of
            end.rows += 1
            return "order"
        if name == "cba":
            was_used = end.streams.acknowledge(body[6])
            end.close_codes()
            return "order" if was_used else "ignored"
        if number >= len(end.links):
            return "ignored"
        link = end.links[number]
        if name in ("coa", "eca") and link.phase != "down":
            return "ignored"
        if name in ("coo", "eco") and link.phase != "down":
            end.rows += 1
        if name in ("coo", "eco") and link.phase == "settled" and link.cover == "awaited":
            link.cover = "missed"
        if link.phase == "up":
            end.leave(number)
        if link.phase != "settled" and name in ("coo", "coa"):
            end.settle_upto(number, int.from_bytes(body[6:], "little") % self.profile.numbers, self.profile.numbers)
        elif link.phase != "settled":
            end.settle(number)
        return "order"

    def on_down(self, line, end, answer):
        link = end.links[line.number]
        done = "done" if link.phase == "up" else "refused 5"
        expect(answer == done, "a link that is up can't go down, or one that isn't can")
        if link.phase == "up":
            link.phase = "down"
            end.leave(line.number)
            end.rows += 1
            self.was_blind = self.was_blind or line.kind == "blind"

    on_blind = on_down

    def on_noanswer(self, line, end, answer):
        link = end.links[line.number]
        done = "done" if link.phase == "down" else "refused 9"
        expect(answer == done, "noanswer isn't obeyed just where an answer is wanted")
        if link.phase == "down":
            end.settle(line.number, moves_waiting=False)
            self.gave_up = True

    def on_timed(self, line, end, answer):
        link = end.links[line.number]
        expect(answer in (("done", "refused 9") if link.phase == "down" else ("refused 9",)),
               "timed is obeyed where no order is to be sent")
        if answer == "done":
            end.settle(line.number)
            self.gave_up = True

    def on_restore(self, line, end, answer):
        is_up = end.links[line.number].phase == "up"
        links = end.streams.can_ask(line.number, end.up()) if is_up else []
        expect(answer == ("done" if links else "refused 9" if is_up else "refused 5"),
               "streams are asked back just where there are some")
        end.streams.ask(line.number, links)
        for link in links:
            end.declarations.ask(16 * line.number + link)
        end.rows += len(links)

    def on_redeclare(self, line, end, answer):
        codes = end.declarations.overdue(line.number)
        expect(answer == ("done" if codes else "refused 9"), "redeclare isn't obeyed just where a declaration is on its way no more")
        for code in codes:
            end.declarations.declare(code, end.links[end.declarations.via[code]].phase == "up")
            end.streams.owed[code] += 1
        end.rows += len(codes)

    def on_backtimeout(self, line, end, answer):
        codes = [16 * line.number + link for link in range(16)]
        freed = [code for code in codes if end.streams.free(code)]
        end.close_codes()
        expect(answer == ("done" if freed else "refused 9"), "backtimeout isn't obeyed just where an answer is wanted")
        self.timed_out = self.timed_out or bool(freed)

    def ended(self, lines):
        """Takes the lines that are printed when the script has ended, and gives the counts of each end."""
        if self.ends is None:
            expect(not lines, "a script without a first line prints")
            return None
        matches = [END_LINE.fullmatch(line) for line in lines]
        expect(all(matches) and [match[1] for match in matches] == ["a", "b"], "the end lines aren't those of a and b")
        counts = {}
        for match in matches:
            accepted, *places = [int(word) for word in match.groups()[1:]]
            offered = len(self.ends[match[1]].offered)
            expect(accepted == offered == sum(places), "the places don't add up to the accepted messages")
            counts[match[1]] = dict(zip(PLACES, places))
            back = self.ends[match[1]].streams.back.total()
            expect(counts[match[1]]["back"] == back, f"there are {back} messages back, which the end line doesn't tell")
        if self.is_sound():
            self.check_streams(counts)
        return counts

    def check_streams(self, counts):
        """What each end heard, against what the other offered."""
        for name, end in self.ends.items():
            heard = self.ends[OTHER[name]].heard
            count = counts[name]
            sent = count["acked"] + count["unacked"] + count["discarded"]
            expect(count["acked"] <= len(heard), "the far end heard fewer messages than are acknowledged")
            expect(len(heard) <= sent, "the far end heard more messages than were sent")
            expect(self.was_blind or not count["discarded"], "messages were discarded without an emergency")
            for stream in range(16):
                offered = [body for body in end.offered.values() if stream_of(body) == stream]
                got = [body for body in heard if stream_of(body) == stream]
                left = iter(offered)
                in_order = all(body in left for body in got) if self.was_blind else got == offered[:len(got)]
                if self.timed_out:
                    in_order = Counter(got) <= Counter(offered)
                expect(in_order, f"stream {stream} from end {name} is lost, doubled or out of order")
