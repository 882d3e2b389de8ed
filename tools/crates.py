"""The crates of the repository as crates.txt and the folders tell them: what each stands on, and how large it is."""
import os
import re
import shutil
import subprocess
import time
from concurrent.futures import FIRST_COMPLETED, ThreadPoolExecutor, wait

TOP = os.path.dirname(os.path.dirname(os.path.abspath(__file__)))


def libraries(top=TOP):
    """Returns each crate with the crates of this repository that it names, lowest first."""
    named = {}
    with open(f"{top}/crates.txt", encoding="utf-8") as file:
        for line in file:
            head, colon, tail = line.partition("#")[0].partition(":")
            if colon:
                named[head.split()[0]] = tail.split()
    own = {name: [it for it in used if it in named] for name, used in named.items()}
    order = []
    while len(order) < len(own):
        ready = [it for it in own if it not in order and all(below in order for below in own[it])]
        if not ready:
            raise SystemExit("crates.txt: two crates stand on each other")
        order += ready
    return {name: own[name] for name in order}


def below(name, uses):
    """Returns the crates that this one stands on, each after those that it stands on itself."""
    found = []
    for it in uses[name]:
        found += [deeper for deeper in [*below(it, uses), it] if deeper not in found]
    return found


def files(name, kinds=(".rt", ".antt"), top=TOP):
    """Returns the paths of the crate's sources."""
    found = []
    for at, folders, names in os.walk(f"{top}/crates/{name}"):
        folders[:] = sorted(it for it in folders if it != "out")
        found += [f"{at}/{it}" for it in sorted(names) if it.endswith(kinds)]
    return found


def edits(name, home, top=TOP):
    """Returns the names of the edits of the crate in this home, must-fail or planted."""
    folder = f"{top}/crates/{name}/{home}"
    return sorted(os.listdir(folder)) if os.path.isdir(folder) else []


def lines(name, top=TOP):
    """Returns how many lines of code, definitions and proofs the crate has, which its check goes by."""
    return sum(open(it, "rb").read().count(b"\n") for it in files(name, top=top))


def processors():
    """Returns how many processors there are to use, or what JOBS says."""
    said = os.environ.get("JOBS", "")
    return int(said) if re.fullmatch("[1-9][0-9]*", said) else len(os.sched_getaffinity(0))


def free_memory():
    """Returns the free memory in bytes."""
    with open("/proc/meminfo", encoding="ascii") as file:
        return 1024 * int(re.search(r"MemAvailable:\s+(\d+)", file.read())[1])


def sandbox(name, uses, room, top=TOP, kept=""):
    """Makes a tree of its own in room for work on one crate, as rt lets only one work in a crate and those below it at a time:
    the sources of the crate and of those below it, what was built of these, and what a check of the crate left in the folder
    kept, to begin with. Returns the crate's folder there."""
    for it in [*below(name, uses), name]:
        to = f"{room}/crates/{it}"
        os.makedirs(to)
        for part in os.listdir(f"{top}/crates/{it}"):
            if os.path.isdir(f"{top}/crates/{it}/{part}") and part not in ("out", "must-fail", "planted"):
                shutil.copytree(f"{top}/crates/{it}/{part}", f"{to}/{part}")
        built = f"{top}/crates/{it}/out/rlib"
        if os.path.isdir(built):
            # links to the files: rt replaces them and never writes into them
            shutil.copytree(built, f"{to}/out/rlib", copy_function=os.link)
    if os.path.isdir(f"{kept}/out/incremental"):
        shutil.copytree(f"{kept}/out/incremental", f"{room}/crates/{name}/out/incremental", copy_function=os.link)
    shutil.copy(f"{top}/HANDLES", f"{room}/HANDLES")
    there = {*below(name, uses), name}
    with open(f"{top}/crates.txt", encoding="utf-8") as file, open(f"{room}/crates.txt", "w", encoding="utf-8") as to:
        to.writelines(line for line in file if line.partition("#")[0].split(":")[0].split()[:1] and line.split(":")[0].split()[0] in there)
    return f"{room}/crates/{name}"


def in_lanes(tasks, told=lambda key, gave, seconds, running: None):
    """Runs tasks side by side, as many as there are processors and memory for, each once those that it waits for have ended, and
    first those with the longest chain of others behind them. A task is a tuple: what it waits for, its weight, its memory in bytes for
    one process (and as much as half of it for each further one), and a call that gets the number of processes that it may use. Stops
    after the first that gives something true, which says that it failed, and returns what each gave."""
    behind = {}
    for key in reversed([*tasks]):
        behind[key] = behind.get(key, 0) + tasks[key][1]
        for it in tasks[key][0]:
            behind[it] = max(behind.get(it, 0), behind[key])
    left, running, gave, began = sorted(tasks, key=lambda it: -behind[it]), {}, {}, {}
    lanes, memory = processors(), 0.85 * free_memory()
    with ThreadPoolExecutor(lanes) as pool:
        while left and not any(gave.values()) or running:
            ready = [it for it in left if all(at in gave for at in tasks[it][0])] if not any(gave.values()) else []
            for at, key in enumerate(ready):
                room = memory - sum(taken for _, taken, _ in running.values())
                idle = lanes - sum(jobs for _, _, jobs in running.values())
                if idle > 0 and (not running or tasks[key][2] <= room):
                    more = int(max(room - tasks[key][2], 0) / (tasks[key][2] / 2))
                    jobs = max(1, min(4, idle // (len(ready) - at), 1 + more))
                    left.remove(key)
                    began[key] = time.monotonic()
                    taken = tasks[key][2] * (1 + jobs) / 2
                    running[pool.submit(tasks[key][3], jobs)] = key, taken, jobs
            for done in wait(running, return_when=FIRST_COMPLETED).done:
                key = running.pop(done)[0]
                gave[key] = done.result()
                told(key, gave[key], time.monotonic() - began[key], [it for it, _, _ in running.values()])
    return gave


def need(name, uses, top=TOP):
    """Returns the memory that a check of the crate from nothing is likely to take, in bytes."""
    below_it = sum(lines(it, top) for it in below(name, uses))
    return 1_500_000_000 + 400_000 * lines(name, top) + 40_000 * below_it


def is_fresh(name, uses, made, top=TOP):
    """Returns whether this file was made after the last change of the sources that it is made from."""
    if not os.path.isfile(made):
        return False
    sources = [file for it in [*below(name, uses), name] for file in files(it, top=top)]
    return max(map(os.path.getmtime, sources)) <= os.path.getmtime(made)


def library(name, uses, jobs, room, top=TOP):
    """Proves and builds the crate's library in a tree of its own; returns nothing, or what the run printed where it failed."""
    if is_fresh(name, uses, f"{top}/crates/{name}/out/rlib/stamp", top):
        return ""
    folder = sandbox(name, uses, f"{room}/{name}", top, f"{top}/crates/{name}")
    how = {"cwd": folder, "stdin": subprocess.DEVNULL, "stdout": subprocess.PIPE, "stderr": subprocess.STDOUT}
    ran = subprocess.run(["rt", "lib", "--jobs", str(jobs)], text=True, errors="replace", **how)
    if ran.returncode:
        return ran.stdout or f"rt ended with status {ran.returncode}"
    for part in ("rlib", "incremental"):
        shutil.rmtree(f"{top}/crates/{name}/out/{part}", ignore_errors=True)
        if os.path.isdir(f"{folder}/out/{part}"):
            os.makedirs(f"{top}/crates/{name}/out", exist_ok=True)
            shutil.move(f"{folder}/out/{part}", f"{top}/crates/{name}/out/{part}")
    os.utime(f"{top}/crates/{name}/out/rlib/stamp")
    shutil.rmtree(f"{room}/{name}", ignore_errors=True)
    return ""


def of_libraries(names, uses, room, top=TOP):
    """Returns the tasks that prove and build these libraries and all below them, lowest first."""
    wanted = {it for name in names for it in [*below(name, uses), name]}
    # the default binds the name of each turn
    return {
        name: (uses[name], lines(name, top), need(name, uses, top), lambda jobs, it=name: library(it, uses, jobs, room, top))
        for name in uses if name in wanted
    }
