#!/usr/bin/env python3
"""Makes JSON documents of 1, 5 and 10 MB in a folder, and measures how long Python's json reads and writes them.

Each document is one object of 10,000, 50,000 or 100,000 members. A member is about 100 bytes: a name, and an object
of a number, a text with an escape and a letter beyond ASCII, an array and a literal name. There is no white space
outside strings, so that what is written is what was read.
"""

import json
import sys
import time
from pathlib import Path

MEMBERS = {"1mb.json": 10_000, "5mb.json": 50_000, "10mb.json": 100_000}
RUNS = 5


def member(place):
    """The name and the value of the member at the place."""
    value = {
        "id": place,
        "text": f'line\n"{place:08}" ä',
        "list": [place % 7, -place / 4, True, None],
        "kind": "row",
    }
    return f"member {place:06}", value


def write_out(value):
    return json.dumps(value, separators=(",", ":"), ensure_ascii=False).encode()


def best(task):
    """The least seconds of some runs."""
    times = []
    for _ in range(RUNS):
        start = time.perf_counter()
        task()
        times.append(time.perf_counter() - start)
    return min(times)


def main():
    folder = Path(sys.argv[1] if len(sys.argv) > 1 else ".")
    folder.mkdir(parents=True, exist_ok=True)
    print(f"Python {sys.version.split()[0]}")
    for name, members in MEMBERS.items():
        text = write_out(dict(member(place) for place in range(members)))
        (folder / name).write_bytes(text)
        value = json.loads(text)
        assert write_out(value) == text
        reading = best(lambda: json.loads(text))
        writing = best(lambda: write_out(value))
        print(f"{name}: {len(text)} bytes, {members} members; read in {reading:.3f} s, written in {writing:.3f} s")


if __name__ == "__main__":
    main()
