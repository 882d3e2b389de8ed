"""The tests 6.1 and 6.2 of ITU-T Q.781, error rates of 1 in 256 and of 1 in 254, with the turn in which the signal unit
error rate monitor (Q.703 10.2: T = 64, D = 256) takes the link out of service, by a count that is written here from the
standard."""
from line_bits import check_octets, stuffed

# a flag is eight bits, and so are the zeros of a unit that is too short
SHORT_UNIT, SHORT_UNIT_BITS = "0000000001111110", 16
OPENING = """set links=1 method=basic a=2 b=1 sio=80
emergency 0
start 0
"""
# the turn in which proving ends: T4 = 4,096 octet times from the turn in which the first SIE has ended
SIO_TIMES, SIE_TIMES, PROVING = 3, 600, 4096


def unit_bits(octets):
    """How many bits a unit has on the line, with its check octets, inserted zeros and closing flag."""
    return len(stuffed(octets + check_octets(octets))) + 8


FISU = unit_bits([255, 255, 0])
SIO, SIE = (unit_bits([255, 255, 1, status]) for status in (0, 2))


def turn_of(bits):
    """The turn in which the last of so many bits is taken."""
    return -(-bits // 8)


def failing_turn(good, cycles):
    """The turn in which the link fails, if it does, where so many FISUs and a unit too short come in turn so often."""
    opening = SIO_TIMES * SIO + SIE_TIMES * SIE
    first_sie = turn_of(SIO_TIMES * SIO + SIE)
    ready = first_sie + PROVING - 1
    ends = [SIO_TIMES * SIO + SIE * place for place in range(1, SIE_TIMES + 1)]
    marks = sum(turn_of(end) > ready for end in ends)
    count, bits = 0, opening
    for _ in range(cycles):
        # no error stands among these units, so the count falls once for each 256th mark
        count = max(0, count - ((marks + good) // 256 - marks // 256))
        marks, bits = marks + good + 1, bits + good * FISU + SHORT_UNIT_BITS
        if count == 63:
            return turn_of(bits)
        count = max(0, count + 1 - (marks % 256 == 0))
    return None


def script(good, cycles):
    rows = f"hear 0 fisu x{good}\nbits 0 {SHORT_UNIT}\n"
    return f"{OPENING}hear 0 lssu status=0 x{SIO_TIMES}\nhear 0 lssu status=2 x{SIE_TIMES}\n{rows * cycles}look 0\n"


def tests():
    """Each test's number, title, script, and the rows of failures that are to be printed."""
    for number, good, cycles in (("6.1", 255, 10000), ("6.2", 253, 8100)):
        turn = failing_turn(good, cycles)
        wanted = [] if turn is None else [f"link 0 out turn={turn} cause=1"]
        yield number, f"Error rate of 1 in {good + 1}", script(good, cycles), wanted
