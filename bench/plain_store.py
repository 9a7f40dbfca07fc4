#!/usr/bin/env python3
"""The store by its definitions alone: what a script answers, and the bytes of the volume behind it.

    plain_store.py SCRIPT [--volume FILE] [--moments M,M,..]

replays every commit on nested trees, and knows nothing of how the program keeps records. It writes the replies of the script to
standard output, and with --volume the whole volume, born with the names validFrom and validTo. The clock answers the moments in
turn, the last one again and again (at first 1000). Instants are those of whole milliseconds in UTC with a Z behind them alone.
"""

import argparse
import hashlib
import json
import re
import struct
import sys
from datetime import datetime, timezone

from json_faults import ROWS, Stop, Text

DOCUMENT, OBJECT, ARRAY, KEY, STR, NUMBER, BOOL, NULL = range(8)
KINDS = ["Document", "Object", "Array", "Key", "String", "Number", "Bool", "Null"]
NONE, LAST_NUMBER = 0xFFFFFFFF, 1 << 30
AXES = ["child", "descendant", "ancestor", "following", "preceding", "following-sibling", "preceding-sibling"]


class Pairs(list):
    """The members of an object, in their order."""


class Literal(str):
    """A number as it was written."""


class Fault(Exception):
    """What a text of JSON has wrong."""


class Refusal(Exception):
    """Why an edit is not taken."""


def read_json(text, whole=True):
    """The value that the text spells, or with `whole` not set the string at its front and how many bytes it takes."""
    reader = Text(text)
    try:
        if whole:
            reader.value()
            reader.blanks()
            if reader.at < len(reader.bytes) or reader.cut:
                reader.bad(reader.at)
        else:
            if reader.peek() != 0x22:
                reader.bad(reader.at)
            content = reader.string()[1]
    except Stop:
        pass
    if reader.known:
        _, row, at = min(reader.known, key=lambda known: known[:2])
        raise Fault(ROWS[row] + ("" if ROWS[row] == "Ended" else f" {at}"))
    if not whole:
        return content, reader.at
    return json.loads(
        text.decode(), object_pairs_hook=Pairs, parse_float=Literal, parse_int=Literal, parse_constant=Literal
    )


def write_string(content):
    def escaped(match):
        char = match.group()
        short = {'"': '\\"', "\\": "\\\\", "\b": "\\b", "\f": "\\f", "\n": "\\n", "\r": "\\r", "\t": "\\t"}
        return short.get(char, f"\\u{ord(char):04x}")

    return '"' + re.sub('["\\\\\x00-\x1f]', escaped, content.decode()) + '"'


class Node:
    def __init__(self, number, kind, label=b"", children=None):
        self.number, self.kind, self.label, self.children = number, kind, label, children or []

    def preorder(self):
        yield self
        for child in self.children:
            yield from child.preorder()

    def copy(self):
        return Node(self.number, self.kind, self.label, [child.copy() for child in self.children])

    def hash(self):
        own = int.from_bytes(hashlib.sha256(bytes([self.kind]) + self.label).digest()[:16], "big")
        return (own + 257 * sum(child.hash() for child in self.children)) % 2**128

    def text(self):
        if self.kind == OBJECT:
            return "{" + ",".join(child.text() for child in self.children) + "}"
        if self.kind == ARRAY:
            return "[" + ",".join(child.text() for child in self.children) + "]"
        if self.kind == KEY:
            return write_string(self.label) + ":" + self.children[0].text()
        if self.kind == DOCUMENT:
            return self.children[0].text() if self.children else ""
        return self.scalar_text()

    def scalar_text(self):
        if self.kind in (KEY, STR):
            return write_string(self.label)
        return {BOOL: ["false", "true"][self.label == b"\1"], NULL: "null"}.get(self.kind, self.label.decode())


def tree_of(value, number):
    """The tree of the value with numbers from this one on, and the next number."""
    if isinstance(value, Pairs):
        node, number = Node(number, OBJECT), number + 1
        for name, member in value:
            key = Node(number, KEY, name.encode())
            below, number = tree_of(member, number + 1)
            key.children.append(below)
            node.children.append(key)
        return node, number
    if isinstance(value, list):
        node, number = Node(number, ARRAY), number + 1
        for item in value:
            below, number = tree_of(item, number)
            node.children.append(below)
        return node, number
    if isinstance(value, bool):
        return Node(number, BOOL, bytes([value])), number + 1
    if value is None:
        return Node(number, NULL), number + 1
    kind = NUMBER if isinstance(value, Literal) else STR
    return Node(number, kind, value.encode()), number + 1


def depth(value):
    if isinstance(value, Pairs):
        return 1 + max((depth(member) for _, member in value), default=0)
    if isinstance(value, list):
        return 1 + max((depth(item) for item in value), default=0)
    return 0


class State:
    def __init__(self):
        self.top, self.next, self.paths = Node(0, DOCUMENT), 1, []

    def copy(self):
        other = State()
        other.top, other.next, other.paths = self.top.copy(), self.next, list(self.paths)
        return other

    def above(self, number):
        """The node of this number and those above it, the nearest first."""

        def seek(node, chain):
            if node.number == number:
                return [node, *chain]
            for child in node.children:
                found = seek(child, [node, *chain])
                if found:
                    return found
            return None

        return seek(self.top, [])

    def path_of(self, chain):
        path = ()
        for node, parent in zip(chain[-2::-1], chain[::-1]):
            if parent.kind == DOCUMENT:
                path = (".",)
            elif parent.kind == ARRAY:
                path += ("[]",)
            elif node.kind == KEY:
                path += (node.label,)
        return path

    def value_paths(self):
        return [self.path_of(self.above(n.number)) for n in self.top.preorder() if n.kind not in (DOCUMENT, KEY)]

    def enter_paths(self):
        for path in self.value_paths():
            if path not in self.paths:
                self.paths.append(path)

    def find(self, number):
        chain = self.above(number)
        if chain is None:
            raise Refusal(f"NoNode {number}")
        return chain

    def wrong(self, node):
        raise Refusal(f"WrongKind {node.number} {KINDS[node.kind]}")

    def take(self, key, value):
        """A value's tree with the next numbers, below a new key where there is one."""
        new = depth(value)
        nodes = tree_of(value, 0)[1] + (key is not None)
        if self.next + nodes > LAST_NUMBER:
            raise Refusal(f"NumbersSpent {self.next}")
        number = self.next
        if key is None:
            node, self.next = tree_of(value, number)
            return node
        below, self.next = tree_of(value, number + 1)
        return Node(number, KEY, key, [below])

    def check_depth(self, chain, value):
        nested = sum(node.kind in (OBJECT, ARRAY) for node in chain) + depth(value)
        if nested > 256:
            raise Refusal(f"TooDeep {nested}")

    def insert(self, where, number, name, value):
        chain = self.find(number)
        node = chain[0]
        if where in ("first", "last"):
            if node.kind not in (DOCUMENT, OBJECT, ARRAY):
                self.wrong(node)
            parents = chain
            at = 0 if where == "first" else len(node.children)
        else:
            if node.kind == DOCUMENT or chain[1].kind == KEY:
                self.wrong(node)
            parents = chain[1:]
            at = parents[0].children.index(node) + (where == "after")
        parent = parents[0]
        if parent.kind == OBJECT and name is not None:
            for key in parent.children:
                if key.label == name:
                    raise Refusal(f"NameTaken {key.number}")
        if parent.kind == DOCUMENT and parent.children:
            raise Refusal("DocumentFull 0")
        self.check_depth(parents, value)
        key = parent.kind == OBJECT
        if self.next + tree_of(value, 0)[1] + key > LAST_NUMBER:
            raise Refusal(f"NumbersSpent {self.next}")
        if key and name is None:
            raise Refusal("NameMissing")
        if not key and name is not None:
            raise Refusal("NameUnasked")
        first = self.next
        parent.children.insert(at, self.take(name if key else None, value))
        return first

    def replace(self, number, value):
        chain = self.find(number)
        node = chain[0]
        if node.kind in (DOCUMENT, KEY):
            self.wrong(node)
        self.check_depth(chain[1:], value)
        first = self.next
        new = self.take(None, value)
        siblings = chain[1].children
        siblings[siblings.index(node)] = new
        return first

    def load(self, value):
        if self.top.children:
            return self.replace(self.top.children[0].number, value)
        return self.insert("last", 0, None, value)

    def set(self, number, value):
        node = self.find(number)[0]
        if node.kind not in (STR, NUMBER, BOOL, NULL):
            self.wrong(node)
        new, _ = tree_of(value, number)
        node.kind, node.label = new.kind, new.label

    def rename(self, number, name):
        chain = self.find(number)
        node = chain[0]
        if node.kind != KEY:
            self.wrong(node)
        for key in chain[1].children:
            if key is not node and key.label == name:
                raise Refusal(f"NameTaken {key.number}")
        node.label = name

    def remove(self, number):
        chain = self.find(number)
        node = chain[0]
        if node.kind == DOCUMENT or chain[1].kind == KEY:
            self.wrong(node)
        chain[1].children.remove(node)

    # ---- records

    def links(self, chain):
        node = chain[0]
        siblings = chain[1].children if len(chain) > 1 else [node]
        at = next(i for i, other in enumerate(siblings) if other is node)
        number = lambda nodes: nodes[0].number if nodes else NONE
        return [
            number(chain[1:]), number(siblings[at - 1 : at] if at else []), number(siblings[at + 1 :]),
            number(node.children), number(node.children[-1:]),
        ]

    def path_number(self, chain):
        path = self.path_of(chain)
        return self.paths.index(path) + 1 if path else 0

    def node_record(self, number):
        chain = self.above(number)
        node = chain[0]
        counts = struct.pack(">2I", len(node.children), sum(1 for _ in node.preorder()) - 1)
        tail = struct.pack(">II", self.path_number(chain), len(node.label)) + node.label
        return bytes([node.kind]) + struct.pack(">5I", *self.links(chain)) + counts + node.hash().to_bytes(16, "big") + tail

    def path_record(self, path):
        parent = self.paths.index(path[:-1]) + 1 if path[:-1] else 0
        step = {".": 0, "[]": 1}.get(path[-1], 2)
        name = path[-1] if step == 2 else b""
        return struct.pack(">IBII", parent, step, self.value_paths().count(path), len(name)) + name

    def body(self):
        numbers = sorted(node.number for node in self.top.preorder())
        nodes = b"".join(struct.pack(">I", number) + self.node_record(number) for number in numbers)
        paths = b"".join(self.path_record(path) for path in self.paths)
        return struct.pack(">I", len(numbers)) + nodes + struct.pack(">I", len(self.paths)) + paths

    # ---- questions

    def node_reply(self, number):
        chain = self.above(number)
        node = chain[0]
        links = ["-" if link == NONE else str(link) for link in self.links(chain)]
        below = sum(1 for _ in node.preorder()) - 1
        label = node.scalar_text() if node.kind >= KEY else "-"
        return " ".join([KINDS[node.kind], *links, str(len(node.children)), str(below), str(self.path_number(chain)), label])

    def axis(self, name, number):
        nodes = [self.above(node.number) for node in self.top.preorder()]
        at = next(i for i, chain in enumerate(nodes) if chain[0].number == number)
        here, before, behind = nodes[at], nodes[:at], nodes[at + 1 :]
        among = lambda node, chain: any(node is other for other in chain)
        same = lambda chain: len(chain) > 1 and len(here) > 1 and chain[1] is here[1]
        listed = {
            "child": lambda: [c for c in behind if c[1] is here[0]],
            "descendant": lambda: [c for c in behind if among(here[0], c[1:])],
            "ancestor": lambda: [c for c in before if among(c[0], here[1:])][::-1],
            "following": lambda: [c for c in behind if not among(here[0], c[1:])],
            "preceding": lambda: [c for c in before if not among(c[0], here[1:])][::-1],
            "following-sibling": lambda: [c for c in behind if same(c)],
            "preceding-sibling": lambda: [c for c in before if same(c)][::-1],
        }[name]()
        return [chain[0].number for chain in listed]

    def select(self, steps):
        chosen = self.top.children[:1]
        for slash, name in steps:
            if slash == "[]":
                next_ones = [item for node in chosen if node.kind == ARRAY for item in node.children]
            elif slash == "/":
                next_ones = [k.children[0] for node in chosen if node.kind == OBJECT for k in node.children if k.label == name]
            else:
                below = [n for node in chosen for n in list(node.preorder())[1:]]
                next_ones = [n.children[0] for n in below if n.kind == KEY and n.label == name]
            chosen = [n for n in self.top.preorder() if any(n is other for other in next_ones)]
        return [node.number for node in chosen]

    def valid(self, moment):
        def field(node, name):
            return next((key.children[0] for key in node.children if key.label == name), None)

        def instant(node):
            if node is None or node.kind != STR:
                return None
            try:
                at = datetime.strptime(node.label.decode(), "%Y-%m-%dT%H:%M:%SZ").replace(tzinfo=timezone.utc)
            except ValueError:
                return None
            return int(at.timestamp()) * 1000

        listed = []
        for node in self.top.preorder():
            if node.kind != OBJECT:
                continue
            start, end = instant(field(node, b"validFrom")), field(node, b"validTo")
            open_end = end is None or end.kind == NULL
            if start is not None and start <= moment and (open_end or (instant(end) is not None and instant(end) > moment)):
                listed.append(node.number)
        return listed

    def path_text(self, path):
        return "." if path == (".",) else "".join("[]" if step == "[]" else "/" + write_string(step) for step in path[1:])


STEP = re.compile(rb'(//|/)([A-Za-z_][A-Za-z0-9_-]*)|(\[\])')


def steps_of(text):
    if text == b".":
        return []
    rest = text[1:] if text.startswith(b".") else text
    steps = []
    while rest:
        match = STEP.match(rest)
        if match:
            steps.append(("[]", b"") if match.group(3) else (match.group(1).decode(), match.group(2)))
            rest = rest[match.end() :]
            continue
        slash = b"//" if rest.startswith(b"//") else b"/"
        if not rest.startswith(slash + b'"'):
            return None
        try:
            name, took = read_json(rest[len(slash) :], whole=False)
        except Fault:
            return None
        steps.append((slash.decode(), name))
        rest = rest[len(slash) + took :]
    return steps if 1 <= len(steps) <= 256 else None


class Line(Exception):
    """The line is no command."""


def number_in(text, limit):
    if not re.fullmatch(rb"0|[1-9][0-9]*", text) or int(text) >= limit:
        raise Line
    return int(text)


class Store:
    def __init__(self, moments):
        self.commits, self.states, self.draft = [], [State()], None
        self.opened, self.moments = [0] * 32, list(moments)

    def now(self):
        return self.moments.pop(0) if len(self.moments) > 1 else self.moments[0]

    def edit(self, change):
        draft = (self.draft or self.states[-1]).copy()
        first = change(draft)
        draft.enter_paths()
        self.draft = draft
        return "ok" if first is None else f"ok {first}"

    def commit(self):
        time = max(self.now(), self.commits[-1] if self.commits else -(2**63))
        self.states.append((self.draft or self.states[-1]).copy())
        self.commits.append(time)
        self.draft = None
        return f"ok {len(self.commits)} {time}"

    def write_edit(self, words, rest):
        """The change that a writer's line asks for."""
        if words == b"load":
            value = read_json(rest)
            return lambda state: state.load(value)
        if words in (b"insert", b"field"):
            where, _, rest = rest.partition(b" ")
            number, blank, rest = rest.partition(b" ")
            if where not in (b"first", b"last", b"before", b"after") or not blank:
                raise Line
            number = number_in(number, LAST_NUMBER - 1 + 1)
            name = None
            if words == b"field":
                name, took = read_json(rest, whole=False)
                if rest[took : took + 1] != b" ":
                    raise Line
                rest = rest[took + 1 :]
            value = read_json(rest)
            return lambda state: state.insert(where.decode(), number, name, value)
        if words in (b"set", b"replace"):
            number, blank, rest = rest.partition(b" ")
            number = number_in(number, LAST_NUMBER)
            if not blank:
                raise Line
            value = read_json(rest)
            if words == b"replace":
                return lambda state: state.replace(number, value)
            if isinstance(value, list):
                raise Line
            return lambda state: state.set(number, value)
        if words == b"rename":
            number, blank, rest = rest.partition(b" ")
            number = number_in(number, LAST_NUMBER)
            if not blank:
                raise Line
            name, took = read_json(rest, whole=False)
            if took != len(rest):
                raise Line
            return lambda state: state.rename(number, name)
        number = number_in(rest, LAST_NUMBER)
        return lambda state: state.remove(number)

    def ask(self, state, words, rest):
        known = lambda number: state.above(number) is not None
        lists = lambda numbers: " ".join(["ok", *map(str, numbers)])
        if words == b"paths" and rest is None:
            return f"ok {len(state.paths)}"
        if rest is None:
            raise Line
        if words in (b"text", b"node", b"hash"):
            number = number_in(rest, LAST_NUMBER)
            if not known(number):
                return f"refused NoNode {number}"
            node = state.above(number)[0]
            if words == b"text":
                return "ok " + (node.text() or "empty")
            return "ok " + (state.node_reply(number) if words == b"node" else f"{node.hash():032x}")
        if words == b"axis":
            name, _, number = rest.partition(b" ")
            if name.decode("latin1") not in AXES:
                raise Line
            number = number_in(number, LAST_NUMBER)
            return lists(state.axis(name.decode(), number)) if known(number) else f"refused NoNode {number}"
        if words == b"path":
            number = number_in(rest, LAST_NUMBER)
            if not 1 <= number <= len(state.paths):
                return f"refused NoPath {number}"
            path = state.paths[number - 1]
            return f"ok {state.value_paths().count(path)} {state.path_text(path)}"
        if words == b"select":
            steps = steps_of(rest)
            if steps is None:
                raise Line
            return lists(state.select(steps))
        if words == b"valid":
            if not re.fullmatch(rb"0|-?[1-9][0-9]*", rest) or not -(2**63) <= int(rest) < 2**63:
                raise Line
            return lists(state.valid(int(rest)))
        raise Line

    def run(self, client, line):
        words, blank, rest = line.partition(b" ")
        rest = rest if blank else None
        if words in (b"load", b"insert", b"field", b"set", b"replace", b"rename", b"remove"):
            if client or rest is None:
                raise Line
            return self.edit(self.write_edit(words, rest))
        if line in (b"rollback", b"commit"):
            if client:
                raise Line
            if line == b"commit":
                return self.commit()
            self.draft = None
            return "ok"
        if words == b"open":
            if rest is None:
                raise Line
            asked = len(self.commits) if rest == b"latest" else number_in(rest, 2**32)
            if asked > len(self.commits):
                return f"refused Missing {asked} {len(self.commits)}"
            self.opened[client] = asked
            return f"ok {asked}"
        return self.ask(self.states[self.opened[client]], words, rest)

    def reply(self, line):
        """The reply to a line, nothing to one that is skipped, and None to `quit`."""
        if line.endswith(b"\r"):
            line = line[:-1]
        if not line.strip(b" \t") or line.startswith(b"#"):
            return ""
        if line == b"quit":
            return None
        match = re.match(rb"(w|r[1-9]|r[12][0-9]|r3[01]): ", line)
        client = 0 if not match or match.group(1) == b"w" else int(match.group(1)[1:])
        try:
            return self.run(client, line[match.end() :] if match else line)
        except Line:
            return "refused line"
        except Fault as fault:
            return f"refused Json {fault}"
        except Refusal as refusal:
            return f"refused {refusal}"

    def volume(self, window=1, names=(b"validFrom", b"validTo")):
        padded = b"".join(bytes([len(name)]) + name.ljust(64, b"\0") for name in names)
        fields = b"SXSNAP01" + bytes([0, window]) + padded
        out = b"\1" + fields + hashlib.sha256(fields).digest()
        for place, (time, state) in enumerate(zip(self.commits, self.states[1:])):
            body = state.body()
            frame = b"\5" + struct.pack(">I", len(body)) + body
            nodes = sum(1 for _ in state.top.preorder())
            head = b"SXGR" + struct.pack(
                ">IqIIIIIIII", place + 1, time, place, 1, place + 1, 0, state.next, nodes, len(state.paths), len(frame)
            )
            head += struct.pack(">I", len(frame)) + hashlib.sha256(frame).digest()
            out += b"\1" + head + hashlib.sha256(head).digest() + frame
        return out + b"\0"


def main():
    options = argparse.ArgumentParser()
    options.add_argument("script")
    options.add_argument("--volume")
    options.add_argument("--moments", default="1000")
    given = options.parse_args()
    store = Store(int(moment) for moment in given.moments.split(","))
    with open(given.script, "rb") as script:
        lines = script.read().split(b"\n")
    for line in lines[:-1] if lines[-1] == b"" else lines:
        reply = store.reply(line)
        if reply is None:
            break
        if reply:
            sys.stdout.buffer.write(reply.encode() + b"\n")
    if given.volume:
        with open(given.volume, "wb") as volume:
            volume.write(store.volume())


if __name__ == "__main__":
    main()
