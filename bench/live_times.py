#!/usr/bin/env python3
"""Times whole runs of the program, and the memory that they take.

    live_times.py PROGRAM FOLDER [TIMES]

Each row is the least time of some runs, and the most memory that one of them had at once. Each run but the last one
works on a new file in the folder:

- a document of some 8 million bytes is loaded, committed and asked for, beside a document of one number in its place. One
  document has small objects, and one has strings of 1,000 bytes;
- 10,000 commits of small documents, beside 10,000 commits of one number each;
- the volume of the 10,000 small documents is opened, and its last document asked for;
- of a document of 100,000 nodes one scalar is set and committed, 10 times.

The replies are checked: a run whose replies are others counts for nothing.
"""

import json
import re
import subprocess
import sys
import time
from pathlib import Path

COMMITS = 10_000
# A line has at most 8,388,608 bytes.
LARGE = 8_000_000


def object_of(make):
    """The canonical text of one object of such values, of at most so many bytes."""
    members, size = [], 2
    while True:
        number = len(members)
        member = json.dumps(f"key{number}") + ":" + json.dumps(make(number), separators=(",", ":"))
        if size + len(member) + 1 > LARGE:
            return "{" + ",".join(members) + "}"
        members.append(member)
        size += len(member) + 1


def part(number):
    return {"id": number, "name": f"part {number}", "price": number / 4, "tags": ["steel", "M8"], "sold": number % 3 == 0}


def small_document(number):
    return json.dumps({"order": number, "state": "new", "count": number % 40}, separators=(",", ":"))


def most_memory(run):
    """The most bytes of memory that the run had at once, of which it is asked until it ends."""
    most = 0
    while run.poll() is None:
        try:
            status = Path(f"/proc/{run.pid}/status").read_text()
        except (FileNotFoundError, ProcessLookupError):
            continue
        if peak := re.search(r"VmHWM:\s*(\d+) kB", status):
            most = int(peak.group(1)) * 1024
        time.sleep(0.001)
    return most


def measured(program, path, script, replies):
    """Seconds and the most bytes of memory of one run, which has to give these replies."""
    out = path.with_suffix(".out")
    with script.open("rb") as source, out.open("wb") as sink:
        start = time.monotonic()
        run = subprocess.Popen([program, "live", path], stdin=source, stdout=sink)
        memory = most_memory(run)
        seconds = time.monotonic() - start
    if run.returncode != 0:
        sys.exit(f"the program ended with status {run.returncode}")
    if not replies(out.read_text().splitlines()):
        sys.exit(f"other replies than wanted, in {out}")
    return seconds, memory


def row(name, program, path, script, replies, times, anew=True):
    """Runs a script some times, and prints what it took."""
    source = path.with_suffix(".sx")
    source.write_text(script)
    seconds, memory = [], []
    for _ in range(times):
        if anew:
            path.unlink(missing_ok=True)
            subprocess.run([program, "create", path], check=True)
        spent, most = measured(program, path, source, replies)
        seconds.append(spent)
        memory.append(most)
    print(f"| {name} | {len(script):,} | {min(seconds):.3f} | {max(memory):,} |", flush=True)


def main():
    program, folder = sys.argv[1], Path(sys.argv[2])
    times = int(sys.argv[3]) if len(sys.argv) > 3 else 5
    print("| Run | Bytes of the script | Seconds | Bytes of memory |")
    print("|---|---|---|---|")
    for name, text in (
        ("a number", "7"),
        ("small objects", object_of(part)),
        ("long strings", object_of(lambda number: "x" * 1000)),
    ):
        script = f"load {text}\ncommit\nopen 1\ntext 0\n"
        wanted = f"ok {text}"
        row(name, program, folder / "large.sirix", script, lambda lines, wanted=wanted: lines[-1] == wanted, times)
    for name, file, make in (
        ("10,000 numbers", "numbers.sirix", str),
        ("10,000 small documents", "small.sirix", small_document),
    ):
        script = "".join(f"load {make(n)}\ncommit\n" for n in range(COMMITS))
        row(name, program, folder / file, script, lambda lines: len(lines) == 2 * COMMITS and lines[-1].split()[1] == str(COMMITS), times)
    wanted = [f"ok {COMMITS}", f"ok {small_document(COMMITS - 1)}"]
    row("opening these", program, folder / "small.sirix", "open latest\ntext 0\n", lambda lines: lines == wanted, times, anew=False)

    items = ",".join(str(n) for n in range(99_998))
    script = f"load [{items}]\ncommit\n" + "".join(f"set 2 {n}\ncommit\n" for n in range(10)) + "open latest\nnode 2\n"
    row("10 scalars set in 100,000 nodes", program, folder / "scalars.sirix", script, lambda lines: lines[-1].split()[-1] == "9", times)


if __name__ == "__main__":
    main()
