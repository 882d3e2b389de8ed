"""A chart of a script of `terminal` and of what was printed for it: what the tester put on the line at the left, what
the terminal was told and did at the right.

 line  tester                          |       | terminal
   10                                  |       | start
   11  SIO x3                          | -->   |
                                       |       | unaligned, turn 1
                                       | <--   | SIO
"""
import re

EVENTS = ("link ", "message ", "sent ")
STATUSES = ["SIO", "SIN", "SIE", "SIOS", "SIPO", "SIB"]
COMMANDS = ("start", "stop", "emergency", "calm", "busy", "ease", "blind", "outage", "recover")
# the columns of the tester and of the terminal
WIDE, TERMINAL_WIDE = 44, 64


def asked_lines(script):
    """The lines of a script that are answered, with their numbers."""
    lines = [(at, line) for at, line in enumerate(script.splitlines(), 1) if line and not line.startswith("#")]
    return [it for it in lines if not it[1].startswith(("set ", "timers "))]


def answered(script, printed):
    """Of each answered line of a script its number, itself, and the place and the text of the rows that are its own:
    events, and its answer last; then what is printed behind them all."""
    rows, found, at = printed.splitlines(), [], 0
    for number, line in asked_lines(script):
        end = next((to for to in range(at, len(rows)) if not rows[to].startswith(EVENTS)), len(rows) - 1)
        found.append((number, line, at, rows[at:end + 1]))
        at = end + 1
    return found, rows[at:]


def unit_words(words):
    """A unit in the words of the trade, from those of the language; the header where it isn't that of the beginning."""
    told = dict(it.split("=", 1) for it in words if "=" in it)
    times = [it for it in words if re.fullmatch(r"x\d+", it)]
    kind = words[0]
    name = {"fisu": "FISU", "msu": "MSU"}.get(kind, words[0])
    if kind == "lssu":
        status = int(told["status"])
        name = STATUSES[status] if status < len(STATUSES) else f"LSSU status={status}"
    numbers = [f"{it}={told.get(it, '127')}" for it in ("fsn", "bsn")]
    bits = [f"{it}=0" for it in ("bib", "fib") if told.get(it) == "0"]
    shown = numbers + bits if kind == "msu" or bits or numbers != ["fsn=127", "bsn=127"] else []
    return " ".join([name, *shown, *([told["body"]] if "body" in told else []), *times])


def put(words):
    """What a line puts on the line of its link, in words, or nothing."""
    if words[0] == "hear":
        return unit_words(words[2:])
    if words[0] == "flags":
        return f"{words[2]} flags"
    return " ".join(words) if words[0] in ("bits", "octets") else ""


def told(line, answer):
    """What a user, the set's timers or an operator tell the terminal, and its answer."""
    words = line.split()
    if words[0] in COMMANDS:
        return words[0] if answer == "done" else f"{words[0]}: {answer}"
    if words[0] == "look":
        return "looked at: " + re.sub(r"^look \d+ | turns=.* sixteen=\d+", "", answer)
    return f"{line}: {answer}"


def event_row(event, arrow):
    words = event.split()
    if words[0] == "sent":
        return arrow("<--", words[1]), unit_words(words[2:])
    if words[0] == "message":
        return arrow("", words[1]), f"message accepted, {words[2].replace('=', ' ')}"
    return arrow("", words[1]), ", ".join(it.replace("=", " ") for it in words[2:])


def arrows(script):
    """What stands between the columns: an arrow, and the link's number where a script has several links."""
    is_one = " links=1 " in f" {script} "
    return lambda way, link: way if is_one else f"{way:<3} {link}"


def cut(text, wide):
    return text if len(text) <= wide else f"{text[:wide - 2]}.."


def row(number, tester, arrow, terminal):
    return f"{number:>5}  {cut(tester, WIDE):<{WIDE}} | {arrow:<5} | {cut(terminal, TERMINAL_WIDE)}".rstrip()


def chart(script, printed, until=None):
    """The rows of the chart, up to the line of the script that printed the row `until` (from 0)."""
    rows = [f" line  {'tester':<{WIDE}} |       | terminal"]
    found, rest = answered(script, printed)
    arrow = arrows(script)
    for number, line, at, own in found:
        words = line.split()
        tester = put(words)
        answer = own[-1] if own else "no answer"
        rows.append(row(number, tester, arrow("-->", words[1]), "") if tester else
                    row(number, "", "", told(line, answer)))
        rows += [row("", "", *event_row(it, arrow)) for it in own if it.startswith(EVENTS)]
        if not own or until is not None and at + len(own) > until:
            return rows
    return rows + [row("", "", "", it) for it in rest]
