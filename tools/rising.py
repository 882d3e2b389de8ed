"""Runs in which each end of a link comes up by itself, for `tools/two-ends-walk --rises`: the other end joins that life later, or
never, or hears first that it's over.

A run of either kind is walked, with `rise` and `fill` beside `together`. What such a run is, is read here anew, not taken from the
definitions:
  a link that is settled at an end comes up there alone. Where it's settled at the other end too, a life begins: nothing is under
  way on the link, nothing counts at either end, and the other end may join. Else the end joins the life of the other, if it may,
  and what is under way stays so
  an end that may join fills the line with units of an end that sent and accepted nothing
  an end that hears a changeover order about a link that it may join has missed that life, and joins it no more
All that is held against a run in which links come up together is held against these. Beside it:
  orders   a changeover order about a settled link is heard by an end alone that may join that life; it answers that it accepted
           nothing there"""
from line_bits import unit_of
from play_trace import OTHER

# what such an end sends, with its check bits
FILLED = "sent ffff00ffff"
IDLE = unit_of(bytes.fromhex(FILLED.removeprefix("sent "))[:-2])


class Rises:
    """A run of two ends whose links come up one after the other, over a run in which they come up together."""

    def __init__(self, *given):
        super().__init__(*given)
        # by end and link: inside that life, or it may join it, or missed it
        self.stands = {(name, number): "inside" for name in self.ends for number in range(self.count)}
        self.joins = self.rng.choice([0.05, 0.3, 0.8])  # how soon an end follows the other

    def may_join(self, end, number):
        return self.stands[end.name, number] == "may join"

    def may_rise(self, end, number):
        far = self.ends[OTHER[end.name]]
        is_first = far.links[number].phase == "settled"
        return end.links[number].phase == "settled" and (is_first or self.may_join(end, number))

    def rise(self, end, number):
        far = self.ends[OTHER[end.name]]
        own, other = end.links[number], far.links[number]
        answer = self.say(f"rise {end.name} {number}")
        self.holds("rest", answer == "up", f"a link that is settled at end {end.name} can't come up there: {answer}")
        if other.phase == "settled":
            own.rise()
            other.rise()
            self.stands[far.name, number] = "may join"
            self.figures["lives begun at one end"] += 1
        else:
            self.figures["lives joined"] += 1
            self.figures["lives joined that the other end had left"] += other.phase == "down"
        self.stands[end.name, number] = "inside"
        own.phase = "up"
        end.fresh.add(number)
        self.look(end, [*end.queues["parked"]])

    def together(self, number):
        """Both ends come up, or one of them, and perhaps the other at once."""
        if self.rng.random() < 0.15:
            super().together(number)
            for name in self.ends:
                self.stands[name, number] = "inside"
            return
        first = self.rng.choice("ab")
        self.rise(self.ends[first], number)
        if self.rng.random() < self.joins:
            self.rise(self.ends[OTHER[first]], number)

    def fill(self, end, number):
        answer = self.say(f"fill {end.name} {number}")
        self.holds("answers", answer == FILLED, f"a line that is filled is answered {answer}")
        self.ends[OTHER[end.name]].links[number].coming.append(IDLE)
        self.figures["lines filled"] += 1

    def obeyed(self, end, about, name, body):
        if end.links[about].phase == "settled" and name in ("coo", "eco"):
            self.holds("orders", self.may_join(end, about),
                       f"end {end.name} hears {name} about link {about}, which is settled there, and which it can't join")
            self.stands[end.name, about] = "missed"
            self.figures["lives missed"] += 1
            self.figures["lives missed, left in an emergency"] += name == "eco"
        super().obeyed(end, about, name, body)

    def phases(self, number):
        """As of links that come up together: settled where an end may come up."""
        if any(self.may_rise(end, number) for end in self.ends.values()):
            return {"settled"}
        return super().phases(number)

    def alone(self, spare):
        """The links that are up at an end alone, whose life the other end may yet join."""
        return [(end, number) for end in self.ends.values() for number in range(self.count)
                if number != spare and end.links[number].phase == "up" and self.may_join(self.ends[OTHER[end.name]], number)]

    def bring(self, end):
        """What waits at an end goes out on its lowest link, and arrives."""
        far = self.ends[OTHER[end.name]]
        up = [number for number, link in enumerate(end.links) if link.phase == "up"]
        if up and far.links[up[0]].phase == "up":
            for _ in range(self.rng.choice([1, 4, 16])):
                self.emit(end, up[0])
            for _ in range(len(far.links[up[0]].coming)):
                self.arrive(far, up[0])

    def step(self, kind, streams, spare):
        rng = self.rng
        if kind in ("down", "blind") and rng.random() < 0.7 and (alone := self.alone(spare)):
            end, number = rng.choice(alone)
            self.down(end, number, kind)
            self.figures["links left that were up at one end"] += 1
            if rng.random() < 0.7:
                self.bring(end)
        elif kind == "together":
            self.come_up()
        elif kind == "take" and rng.random() < 0.3:
            joining = [(end, number) for end in self.ends.values() for number in range(self.count)
                       if self.may_join(end, number)]
            if joining:
                self.fill(*rng.choice(joining))
        else:
            super().step(kind, streams, spare)

    def come_up(self):
        """A link comes up at an end, or at both."""
        rng = self.rng
        ready = [(end, number) for end in self.ends.values() for number in range(self.count) if self.may_rise(end, number)]
        joining = [it for it in ready if self.may_join(*it)]
        fresh = [it for it in ready if not self.may_join(*it)]
        if joining and (rng.random() < self.joins or not fresh and rng.random() < 0.3):
            self.rise(*rng.choice(joining))
        elif fresh:
            self.together(rng.choice(fresh)[1])
