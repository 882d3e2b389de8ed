"""The program that a tool runs where it's given none."""
import subprocess
import sys
from pathlib import Path

TOP = Path(__file__).resolve().parent.parent
PLACES = [TOP / "crates/mtpbank/out" / name for name in ("mtpbank", "mtpbank-unproved")]


def program():
    """The proved program of these sources, or else the unproved one: the launcher builds it where it's missing or older
    than a source, and says on standard error that it's unproved."""
    subprocess.run([TOP / "mtpbank", "units"], stdin=subprocess.DEVNULL, stdout=subprocess.DEVNULL, check=False)
    built = [it for it in PLACES if it.is_file()]
    if not built:
        sys.exit("no program is built here: `tools/prove` builds a proved one, `./mtpbank units` an unproved one")
    return str(max(built, key=lambda it: it.stat().st_mtime))
