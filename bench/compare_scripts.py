#!/usr/bin/env python3
"""Runs random scripts on the program and on plain_store.py, and compares all replies and the volumes.

    compare_scripts.py PROGRAM FOLDER COUNT [SEED]

Each script edits a document, commits, and asks about all revisions; some of its lines are refused. The times of its commits are those
that the program tells.
"""

import random
import subprocess
import sys
from pathlib import Path

from plain_store import AXES, Store

NAMES = ["a", "b", "state", "x y", "\u00e9", ""]
WORDS = ["frob", "set 1 []", "insert middle 1 1", "load [1", "axis up 1", "open 99", "rename 2 x", "path", "text -1", "select a", "valid x"]


class Maker:
    def __init__(self, seed):
        self.random, self.store = random.Random(seed), None

    def pick(self, *choices):
        return self.random.choice(choices)

    def name(self):
        return '"' + self.pick(*NAMES) + '"'

    def scalar(self):
        return self.pick("null", "true", "false", "0", "-0", "1.50e+3", "17", '"x"', '"2024-06-01T00:00:00Z"', '"\\u0041\\n"', '""')

    def value(self, depth=3):
        chance = self.random.random()
        if depth == 0 or chance < 0.4:
            return self.scalar()
        if chance < 0.7:
            return "[" + ",".join(self.value(depth - 1) for _ in range(self.random.randrange(4))) + "]"
        names = self.random.sample([*NAMES, "validFrom", "validTo"], self.random.randrange(4))
        return "{" + ",".join(f'"{name}": {self.value(depth - 1)}' for name in names) + "}"

    def number(self, state=None):
        """A node of the document with the open edits, or of this state; now and then another number."""
        state = state or self.store.draft or self.store.states[-1]
        if self.random.random() < 0.1:
            return self.random.randrange(state.next + 2)
        return self.pick(*[node.number for node in state.top.preorder()])

    def edit(self):
        where = self.pick("first", "last", "before", "after")
        return self.pick(
            f"insert {where} {self.number()} {self.value()}",
            f"field {where} {self.number()} {self.name()} {self.value()}",
            f"set {self.number()} {self.scalar()}",
            f"replace {self.number()} {self.value()}",
            f"rename {self.number()} {self.name()}",
            f"remove {self.number()}",
            f"load {self.value()}",
            "rollback" if self.random.random() < 0.2 else "commit",
            "commit",
        )

    def path(self):
        steps = ["[]", "/a", "//state", '//"x y"', '/"b"', "//a", '/""']
        return "".join(self.random.choices(steps, k=self.pick(1, 1, 2, 3)))

    def question(self, client):
        state = self.store.states[self.store.opened[client]]
        number = self.number(state)
        return self.pick(
            f"text {number}", f"node {number}", f"hash {number}", f"axis {self.pick(*AXES)} {number}",
            f"path {self.random.randrange(12)}", "paths", f"select {self.path()}", "select .", f"valid {self.pick(0, 1717200000000, -5)}",
            "open latest", f"open {self.random.randrange(6)}", f"open {self.random.randrange(6)}",
        )

    def line(self):
        chance = self.random.random()
        if chance < 0.45:
            return self.edit()
        if chance < 0.95:
            client = self.pick(0, 0, 1, 31)
            return (f"r{client}: " if client else "") + self.question(client)
        return self.pick(*WORDS)

    def script(self):
        self.store = Store([0])
        lines = [f"load {self.value(4)}"]
        for _ in range(60):
            self.store.reply(lines[-1].encode())
            lines.append(self.line())
        return "".join(line + "\n" for line in lines)


def main():
    program, folder, count = sys.argv[1], Path(sys.argv[2]), int(sys.argv[3])
    maker = Maker(int(sys.argv[4]) if len(sys.argv) > 4 else 1)
    path, lines = folder / "compared.sirix", 0
    for number in range(count):
        script = maker.script()
        path.unlink(missing_ok=True)
        subprocess.run([program, "create", path], check=True)
        ran = subprocess.run([program, "live", path], input=script.encode(), capture_output=True)
        replies = ran.stdout.decode().splitlines()
        asked = [line for line in script.encode().split(b"\n") if line]
        times = [int(r.split()[2]) for line, r in zip(asked, replies) if line == b"commit" and r.startswith("ok")]
        store = Store([*times, 0])
        wanted = [store.reply(line) for line in asked]
        for line, reply, want in zip(asked, replies, wanted):
            if reply != want:
                sys.exit(f"script {number}: {line.decode()}: {reply} in place of {want}\n{script}")
        if ran.returncode != 0 or len(replies) != len(wanted):
            sys.exit(f"script {number}: status {ran.returncode}, {len(replies)} replies of {len(wanted)}\n{script}")
        if path.read_bytes() != store.volume():
            sys.exit(f"script {number}: another volume\n{script}")
        checked = subprocess.run([program, "check", path], capture_output=True)
        if checked.stdout != f"ok {len(times)} {len(times)}\n".encode():
            sys.exit(f"script {number}: check says {checked.stdout.decode()}")
        lines += len(wanted)
    print(f"{count} scripts of {lines} lines: no difference")


if __name__ == "__main__":
    main()
