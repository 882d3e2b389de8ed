"""Drives the page in headless Chromium: what it makes of each stored run, and what a reader does with it."""
import base64
import functools
import http.server
import json
import sys
import tempfile
import threading
import time
from pathlib import Path

from browser import CONTROL, SHIFT, Browser

TOP = Path(__file__).resolve().parent.parent
DATA = TOP / "crates/mtpbank_runs/data"
OPENING = b"set links=1 method=basic a=2 b=1 sio=80\n"

# The subcommands by the endings of the names of stored runs (enum mtpbank_subcommand), the ending of their input where that
# is another, and that of what is printed: nothing where it's the name's own.
EXPLAINED = 16
RUNS = {
    "play": (0, None, "stdout"), "ladder": (1, "play", None), "pcap": (2, "play", None), "history_a": (3, "play", None),
    "history_b": (4, "play", None), "history": (5, None, "stdout"), "decode": (6, None, "stdout"),
    "decode_wide": (7, None, "stdout"), "terminal": (8, None, "stdout"), "terminal_kept": (9, None, "stdout"),
    "units": (10, None, "stdout"),
    "explained": (16, "play", "stdout"), "ladder_explained": (17, "play", "ladder"), "pcap_explained": (18, "play", "pcap"),
    "history_a_explained": (19, "play", "history_a"), "history_b_explained": (20, "play", "history_b"),
    "history_explained": (21, "history", "stdout"), "decode_explained": (22, "decode", "stdout"),
    "decode_wide_explained": (23, "decode_wide", "stdout"), "terminal_explained": (24, "terminal", "stdout"),
    "terminal_kept_explained": (25, "terminal_kept", None),
}
# Tables of lines that are told alike, each behind these lines; and of four lines each that are told.
TABLES = {"first": b"", "second": OPENING}
TOLD = {"told_first": (16, b""), "told_second": (16, OPENING), "audited_first": (21, b""), "audited_second": (21, OPENING),
        "terminal_first": (24, b""), "terminal_second": (24, OPENING), "terminal_third": (24, OPENING + b"start 0\n")}
NOT_HERE = {"run", "words"}  # threads, and words of the command line

VIEWS = {"play": {"ladder": 0, "stdout": 1, "history_a": 2, "history_b": 3}}

MAKE = """((asked) => asked.map(([number, input]) => {
    const made = texts.make(number, Uint8Array.from(atob(input), (it) => it.charCodeAt(0)));
    let printed = "";
    for (const octet of made.printed) printed += String.fromCharCode(octet);
    return [btoa(printed), made.told];
}))(%s)"""
SHOWN = "[...document.getElementById('rows').children].map((row) => row.textContent).join('\\n')"


def told(text):
    print(text, flush=True)


def need(fact, text):
    if not fact:
        told(f"page: {text}")
        sys.exit(1)


def beside(path, ending):
    return path.with_name(f"{path.name.rpartition('.')[0]}.{ending}")


def text_of(path):
    return path.read_text() if path.is_file() else ""


def stored(path):
    """What is asked of a stored run, and what it gives: number, input, what is printed (or nothing), what is told."""
    ending = path.name.rpartition(".")[2]
    if ending in TABLES:
        for line in path.read_bytes().split(b"\n")[:-1]:
            yield 0, TABLES[ending] + line + b"\n", beside(path, "stdout").read_bytes(), text_of(beside(path, "fault"))
    elif ending in TOLD:
        number, before = TOLD[ending]
        lines = path.read_bytes().split(b"\n")[:-1]
        for at in range(0, len(lines), 4):
            yield number, before + lines[at + 2][2:] + b"\n", None, b"\n".join(lines[at:at + 4]).decode() + "\n"
    else:
        number, source, printed = RUNS[ending]
        explains = number >= EXPLAINED and ending != "terminal_kept_explained"
        yield (number, (beside(path, source) if source else path).read_bytes(),
               (beside(path, printed) if printed else path).read_bytes(),
               text_of(path if explains else beside(path, "fault")))


def check_runs(browser):
    """Each stored run gives in the browser what is stored."""
    names = [it for it in (DATA / "list").read_text().split() if it.rpartition(".")[2] not in NOT_HERE]
    calls, began = 0, time.monotonic()
    for name in names:
        asked = list(stored(DATA / name))
        given = browser.run(MAKE % json.dumps([[number, base64.b64encode(text).decode()] for number, text, *_ in asked]))
        for (_, _, printed, said), (made, was_told) in zip(asked, given):
            calls += 1
            need(printed is None or base64.b64decode(made) == printed, f"{name} prints another text")
            need(was_told == said, f"{name} tells {was_told!r}, not {said!r}")
    told(f"page: {len(names)} stored runs, {calls} calls, as stored; {time.monotonic() - began:.1f} s")


def rows_of(browser):
    return browser.run(SHOWN) + "\n"


def view(browser, at):
    browser.click(f"#views button:nth-child({at + 1})")


def check_examples(browser):
    """Each example shows in the page what is stored beside it."""
    known = browser.run("EXAMPLES.map(({ name, kind }) => [name, kind])")
    shown = 0
    for name, kind in known:
        browser.run(f"(() => {{ $('example').value = {json.dumps(name)}; $('example').onchange(); }})()")
        path = TOP / "examples" / f"{name}.{kind}"
        for ending, at in VIEWS.get(kind, {"stdout": 0}).items():
            if not beside(path, ending).is_file():
                continue
            view(browser, at)
            need(rows_of(browser) == beside(path, ending).read_text(), f"{name} shows another {ending}")
            need(browser.run("$('told').textContent") == "", f"{name} tells of a fault")
            shown += 1
    told(f"page: {len(known)} examples show what is stored, {shown} views")


def marked_word(shown, caret):
    """The word above the caret, of a line that is shown whole."""
    at = len(caret) - 1
    return shown[at:].split(" ")[0] or shown[at:at + 1] or " "


def check_faults(browser):
    """The word that an explanation's caret shows is the one that is marked."""
    seen = 0
    for table in ("wrong_lines.told_second", "wrong_steps.told_second"):
        lines = (DATA / "runs" / table).read_text().split("\n")[:-1]
        for at in range(0, len(lines), 4):
            shown, caret = lines[at + 2], lines[at + 3]
            if ".." in shown or "." in shown:
                continue
            browser.run(f"(() => {{ setText({json.dumps(OPENING.decode() + shown[2:])}); setKind('play'); show(); }})()")
            marked = browser.run("document.querySelector('#marks div:nth-child(2) .fault')?.textContent")
            need(marked == marked_word(shown, caret), f"{shown!r} has {marked!r} marked, not what stands above {caret!r}")
            seen += 1
    told(f"page: {seen} faults have their word marked")


def edit_by_keys(browser):
    """With keys alone: an example, a row and its line, a fault and back, a view."""
    browser.run("location.hash = ''")
    browser.open(browser.run("location.href").split("#")[0])
    first = "document.activeElement.id"
    browser.key("Tab")
    need(browser.run(first) == "example", "the first stop of Tab is the choice of an example")
    stops = ["example"]
    while len(stops) < 12 and stops[-1] != "rows":
        browser.key("Tab")
        stops.append(browser.run(f"{first} || document.activeElement.getAttribute('role')"))
    need({"kind", "open", "save", "capture", "script", "tab", "words", "rows"} <= set(stops), f"Tab stops at {stops}")
    while browser.run("document.querySelector('#rows [aria-selected]')?.dataset.line") != "24":
        browser.key("ArrowDown")
    need(browser.run("document.querySelector('#marks .here').textContent") == "arrive a 1", "row 24 shows its line")
    browser.key("Enter")
    need(browser.run(f"{first} + lineOfCaret()") == "script24", "Enter goes to the row's line")
    browser.key("End", SHIFT)
    browser.type("arive a 1")
    said = browser.run("$('told').textContent")
    need(said.startswith("fault line 24 text\nline 24: no line of a script begins with"), "the fault is told")
    need(browser.run("document.querySelector('#marks .fault').textContent") == "arive", "the word at fault is marked")
    browser.key("Home", CONTROL)
    browser.key("F8")
    need(browser.run("getSelection().toString()") == "arive", "F8 goes to the word at fault")
    browser.type("arrive")
    need(browser.run("$('fault').hidden && $('example').value") == "call", "the example is whole again")
    browser.key("Enter", CONTROL)
    chosen = browser.run(f"{first} + document.querySelector('#rows [aria-selected]').dataset.line")
    need(chosen == "rows24", "Ctrl+Enter goes to the row")
    while browser.run("document.activeElement.getAttribute('role')") != "tab":
        browser.key("Tab", SHIFT)
    browser.key("ArrowRight")
    need(rows_of(browser) == (TOP / "examples/call.stdout").read_text(), "the next view is the answers")
    told("page: edited by keys alone: a row's line, a fault and its word, back, a view")


def click_and_save(browser, downloads):
    """A click on a row shows its line; what is saved is what is stored."""
    browser.open(browser.run("location.href").split("#")[0] + "#example=call")
    row = browser.run("document.querySelector('#rows [data-line=\"30\"]').id")
    browser.click(f"#{row}")
    marked = browser.run("document.querySelector('#marks .here').textContent")
    need(marked == "arrive b 0", "a click on a row shows its line")
    need(browser.run("document.querySelectorAll('#rows .here').length") == 4, "all rows of the line are marked")
    for button, name, want in (("#capture", "mtpbank.pcap", "call.pcap"), ("#save", "mtpbank.play", "call.play")):
        browser.click(button)
        end, saved = time.monotonic() + 20, downloads / name
        while not (saved.is_file() and saved.read_bytes() == (TOP / "examples" / want).read_bytes()):
            need(time.monotonic() < end, f"{name} isn't {want}")
            time.sleep(0.05)
    view(browser, 2)
    browser.click("#audit")
    need(rows_of(browser).startswith("legal=yes "), "the history of end a is audited")
    told("page: a click shows a row's line; the capture and the script are saved as stored; a history is audited")


CONTRASTS = """(() => {
    const light = (css) => {
        const linear = (it) => (it <= 0.04045 ? it / 12.92 : ((it + 0.055) / 1.055) ** 2.4);
        const [r, g, b] = css.match(/[\\d.]+/g).map((it) => linear(it / 255));
        return 0.2126 * r + 0.7152 * g + 0.0722 * b;
    };
    const ground = (it) => {
        const css = getComputedStyle(it).backgroundColor;
        return /, 0\\)$/.test(css) ? ground(it.parentElement) : css;
    };
    const seen = [...document.querySelectorAll("body *")].filter((it) => it.checkVisibility() && it.textContent);
    return seen.filter((it) => it.id !== "script").map((it) => {
        const [one, other] = [light(getComputedStyle(it).color), light(ground(it))];
        return [(Math.max(one, other) + 0.05) / (Math.min(one, other) + 0.05), `${it.tagName} ${it.id} ${it.className}`];
    }).sort((one, other) => one[0] - other[0])[0];
})()"""


def check_looks(browser, shots):
    """Light and dark, wide and narrow: all text is legible, and nothing is wider than the screen."""
    least = {}
    script = (TOP / "examples/call.play").read_text().replace("arrive a 1", "arive a 1", 1)
    for width, height, scheme, name in ((1280, 760, "light", "page"), (1280, 760, "dark", "page_dark"),
                                        (390, 800, "dark", "page_narrow"), (320, 640, "light", None)):
        browser.size(width, height, scheme)
        for text in (None, script):
            browser.open(browser.run("location.href").split("#")[0] + "#example=call")
            browser.click("#row-13")
            if text:
                browser.run(f"(() => {{ setText({json.dumps(text)}); show(); goToFault(); }})()")
            need(browser.run("document.documentElement.scrollWidth") <= width, f"the page is wider than {width} pixels")
            ratio, where = browser.run(CONTRASTS)
            need(ratio >= 4.5, f"{where} has a contrast of {ratio:.1f} in {scheme}")
            least[scheme] = min(ratio, least.get(scheme, ratio))
            if shots and name and (text is None or name == "page"):
                browser.shot(shots / f"{name}{'_fault' if text else ''}.png")
    browser.size(1280, 760)
    told(f"page: fits 320 pixels; least contrast {least['light']:.1f} light, {least['dark']:.1f} dark")


class Quiet(http.server.SimpleHTTPRequestHandler):
    def log_message(self, *words):
        pass


def run(folder, shots):
    """Serves the page's folder and drives it; then opens it from the disk."""
    server = http.server.ThreadingHTTPServer(("127.0.0.1", 0), functools.partial(Quiet, directory=folder))
    threading.Thread(target=server.serve_forever, daemon=True).start()
    if shots:
        shots.mkdir(parents=True, exist_ok=True)
    with tempfile.TemporaryDirectory(prefix="page-") as downloads:
        browser = Browser(downloads)
        try:
            told(f"page: {browser.call('Browser.getVersion', session=False)['product']}")
            browser.size(1280, 760)
            browser.open(f"http://127.0.0.1:{server.server_port}/index.html")
            need(browser.run("WebAssembly.Module.imports(texts.module).length") == 0, "the module imports something")
            check_runs(browser)
            check_examples(browser)
            check_faults(browser)
            edit_by_keys(browser)
            click_and_save(browser, Path(downloads))
            check_looks(browser, shots)
            loaded = browser.run("performance.getEntriesByType('resource').map((it) => new URL(it.name).pathname)")
            need(set(loaded) <= {f"/{it.name}" for it in folder.iterdir()}, f"it loads {loaded}")
            browser.open(f"file://{folder}/index.html")
            need(rows_of(browser) == (TOP / "examples/call.ladder").read_text(), "from a disk it shows another chart")
            need(not browser.complaints(), f"the browser complains: {browser.complaints()}")
            told("page: it loads its own files alone, opens from a disk too, and the browser complains of nothing")
        finally:
            browser.close()
            server.shutdown()
