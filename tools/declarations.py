"""Where the declarations of an end stand (Q.704 6.3), for `play_trace`: which of them are on their way, and so how many
codes a `redeclare` declares once more. No lookup shows an order; its way is read from what is sent, acknowledged and
settled."""


class Declarations:
    """The declarations of an end, each a list of its code alone: two of one code have equal octets."""

    def __init__(self, links):
        self.waiting = [[] for _ in range(links)]
        self.held = [[] for _ in range(links)]
        self.unacked = [[] for _ in range(links)]  # with their places among what was sent on the link
        self.parked = []
        self.last = {}  # of each open code
        self.via = {}  # of each open code: the link from which its streams come

    def declare(self, code, is_up):
        """A declaration stands at the end of the link from which the streams come."""
        made = [code]
        (self.waiting if is_up else self.held)[self.via[code]].append(made)
        self.last[code] = made

    def ask(self, code):
        self.via[code] = code % 16
        self.declare(code, True)

    def closes(self, code):
        """The code is open no more. What was declared stays where it stands."""
        self.last.pop(code, None)
        self.via.pop(code, None)

    def overdue(self, home):
        """The open codes of this home whose declaration is on its way no more, the lowest first."""
        sent = [made for line in self.unacked for _, made in line]
        standing = {id(made) for line in [*self.waiting, *self.held, self.parked, sent] for made in line}
        return sorted(code for code, made in self.last.items() if code // 16 == home and id(made) not in standing)

    def is_sent(self, link, code, place):
        """A declaration goes out for the first time: the one of this code that waits foremost."""
        made = next((it for it in self.waiting[link] if it == [code]), None)
        if made is not None:
            self.waiting[link] = [it for it in self.waiting[link] if it is not made]
            self.unacked[link].append((place, made))
        return made is not None

    def are_acked(self, link, count):
        """So many of what was sent on the link are acknowledged."""
        self.unacked[link] = [(place, made) for place, made in self.unacked[link] if place >= count]

    def rise(self, link):
        self.waiting[link] += self.parked
        self.parked = []

    def settle(self, link, target, moves_sent, moves_waiting):
        """The link settled: what isn't moved is discarded."""
        moved = [made for _, made in self.unacked[link]] if moves_sent else []
        moved += (self.waiting[link] if moves_waiting else []) + self.held[link]
        self.unacked[link], self.waiting[link], self.held[link] = [], [], []
        (self.parked if target is None else self.waiting[target]).extend(moved)
        if target is not None:
            self.via.update((code, target) for code, via in self.via.items() if via == link)
