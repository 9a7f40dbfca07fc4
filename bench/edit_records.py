#!/usr/bin/env python3
"""Makes the records of documents by the definition alone: their links, counts, hashes and paths, and their bytes.

It writes the tables of `crates/sx_edit_rows/src/tables.rt`, but for their layout. A path is a tuple of steps, of which the first is
b"." for the document's child; a name has a / before it.
"""

import hashlib
import struct

KINDS = ["Document", "Object", "Array", "Key", "Str", "Number", "Bool", "Null"]
NONE = 0xFFFFFFFF


class Node:
    def __init__(self, number, kind, label=b"", children=()):
        self.number, self.kind, self.label, self.children = number, KINDS.index(kind), label, list(children)

    def size(self):
        return 1 + sum(child.size() for child in self.children)

    def hash(self):
        digest = hashlib.sha256(bytes([self.kind]) + self.label).digest()
        own = int.from_bytes(digest[:16], "big")
        return (own + 257 * sum(child.hash() for child in self.children)) % 2**128


def path_below(node, path, child):
    kind = KINDS[node.kind]
    return {"Document": (b".",), "Object": (*path, b"/" + child.label), "Array": (*path, b"[]")}.get(kind, path)


def value_paths(node, path=()):
    """The paths of the values in preorder."""
    if KINDS[node.kind] not in ("Document", "Key"):
        yield path
    for child in node.children:
        yield from value_paths(child, path_below(node, path, child))


def listed(documents):
    """The paths of documents that came one after another."""
    paths = []
    for root in documents:
        for path in value_paths(root):
            if path not in paths:
                paths.append(path)
    return paths


def path_records(documents):
    paths = listed(documents)
    standing = list(value_paths(documents[-1]))
    for place, path in enumerate(paths):
        parent = paths.index(path[:-1]) + 1 if path[:-1] else 0
        step = {b".": 0, b"[]": 1}.get(path[-1], 2)
        name = path[-1][1:] if step == 2 else b""
        yield place + 1, struct.pack(">IBII", parent, step, standing.count(path), len(name)) + name


def record(node, parent, left, right, path):
    first = node.children[0].number if node.children else NONE
    last = node.children[-1].number if node.children else NONE
    links = struct.pack(">5I", parent, left, right, first, last)
    counts = struct.pack(">2I", len(node.children), node.size() - 1)
    label = struct.pack(">I", len(node.label)) + node.label
    return bytes([node.kind]) + links + counts + node.hash().to_bytes(16, "big") + struct.pack(">I", path) + label


def records(node, paths, path=(), parent=NONE, left=NONE, right=NONE):
    yield node.number, record(node, parent, left, right, paths.index(path) + 1 if path else 0)
    numbers = [NONE, *(child.number for child in node.children), NONE]
    for place, child in enumerate(node.children):
        below = path_below(node, path, child)
        yield from records(child, paths, below, node.number, numbers[place], numbers[place + 2])


def number(place, text):
    return Node(place, "Number", text.encode())


def document(child=None):
    return Node(0, "Document", b"", [child] if child else [])


def fields(scalar=("Number", b"1"), name=b"a", items=(6, 7, 8)):
    array = Node(5, "Array", b"", [number(item, str(item - 5)) for item in items])
    keys = [Node(2, "Key", name, [Node(3, *scalar)]), Node(4, "Key", b"b", [array])]
    return document(Node(1, "Object", b"", keys))


def pairs(last):
    left = Node(2, "Array", b"", [number(3, "1"), number(4, last)])
    right = Node(5, "Array", b"", [number(6, "2"), number(7, "1")])
    return document(Node(1, "Array", b"", [left, right]))


def array(items):
    """An array, whose elements have these numbers and texts."""
    return document(Node(1, "Array", b"", [number(place, text) for place, text in items]))


def three(place):
    """The array of 1, 2 and 3 with a 7 at the place."""
    items = [(2, "1"), (3, "2"), (4, "3")]
    return array([*items[:place], (5, "7"), *items[place:]])


def replaced(node):
    """The array of 1, 2 and 3 with an array in the place of the node."""
    new = Node(5, "Array", b"", [Node(6, "Array"), Node(7, "Str", b"x")])
    items = [new if place == node else number(place, str(place - 1)) for place in (2, 3, 4)]
    return document(Node(1, "Array", b"", items))


def members(at):
    """The fields with one more member at the place."""
    root = fields().children[0]
    array = Node(12, "Array", b"", [Node(13, "Bool", b"\1"), Node(14, "Null")])
    key = Node(9, "Key", b"c", [Node(10, "Object", b"", [Node(11, "Key", b"d", [array])])])
    return document(Node(1, "Object", b"", [*root.children[:at], key, *root.children[at:]]))


def deep(name):
    inner = Node(5, "Array", b"", [number(6, "1"), Node(7, "Array", b"", [number(8, "2")])])
    middle = Node(3, "Object", b"", [Node(4, "Key", b"b", [inner])])
    return document(Node(1, "Object", b"", [Node(2, "Key", name, [middle])]))


def back():
    """The fields whose second member went, and another one with its name came."""
    keys = [Node(2, "Key", b"a", [number(3, "1")]), Node(9, "Key", b"b", [Node(10, "Array", b"", [number(11, "4")])])]
    return document(Node(1, "Object", b"", keys))


def branched():
    keys = [Node(2, "Key", b"a", [Node(3, "Object", b"", [Node(4, "Key", b"x", [number(5, "1")])])])]
    return document(Node(1, "Object", b"", [*keys, Node(6, "Key", b"b", [number(7, "2")])]))


TABLES = {
    "FIELDS": fields(),
    "SCALAR": fields(scalar=("Str", b"x")),
    "NAMED": fields(name=b"c"),
    "NO_FIRST": fields(items=(7, 8)),
    "NO_MIDDLE": fields(items=(6, 8)),
    "NO_LAST": fields(items=(6, 7)),
    "NO_KEY": document(Node(1, "Object", b"", [Node(2, "Key", b"a", [number(3, "1")])])),
    "ONE": document(Node(1, "Array", b"", [number(2, "1")])),
    "NONE": document(Node(1, "Array")),
    "EMPTY": document(),
    "PAIRS": pairs("1"),
    "MIRRORED": pairs("2"),
    "THREE": array([(2, "1"), (3, "2"), (4, "3")]),
    "NEW_ALONE": array([(2, "7")]),
    "NEW_BEFORE": array([(3, "7"), (2, "1")]),
    "NEW_BEHIND": array([(2, "1"), (3, "7")]),
    "NEW_AT_0": three(0),
    "NEW_AT_1": three(1),
    "NEW_AT_2": three(2),
    "NEW_AT_3": three(3),
    "NEW_MEMBER": members(1),
    "FIRST_REPLACED": replaced(2),
    "MIDDLE_REPLACED": replaced(3),
    "LAST_REPLACED": replaced(4),
    "LOADED": document(Node(3, "Object", b"", [Node(4, "Key", b"a", [number(5, "1")])])),
    "BACK": back(),
    "DEEP": deep(b"a"),
    "DEEP_NAMED": deep(b"c"),
    "BRANCHED": branched(),
}

# Of each table of paths the documents that came one after another, with the last one's values counted.
PATHS = {
    "FIELDS_PATHS": ["FIELDS"],
    "NAMED_PATHS": ["FIELDS", "NAMED"],
    "SHORTER_PATHS": ["FIELDS", "NO_FIRST"],
    "NO_KEY_PATHS": ["FIELDS", "NO_KEY"],
    "NEW_MEMBER_PATHS": ["FIELDS", "NEW_MEMBER"],
    "NESTED_PATHS": ["PAIRS"],
    "NONE_PATHS": ["NONE"],
    "ONE_PATHS": ["ONE"],
    "TWO_PATHS": ["ONE", "NEW_BEFORE"],
    "THREE_PATHS": ["THREE"],
    "FOUR_PATHS": ["THREE", "NEW_AT_0"],
    "REPLACED_PATHS": ["THREE", "FIRST_REPLACED"],
    "LOADED_PATHS": ["ONE", "LOADED"],
    "ONE_GONE_PATHS": ["ONE", "NONE"],
    "EMPTIED_PATHS": ["FIELDS", "EMPTY"],
    "BACK_PATHS": ["FIELDS", "NO_KEY", "BACK"],
    "DEEP_PATHS": ["DEEP"],
    "DEEP_NAMED_PATHS": ["DEEP", "DEEP_NAMED"],
    "DEEP_AGAIN_PATHS": ["DEEP", "DEEP_NAMED", "DEEP"],
    "BRANCHED_PATHS": ["BRANCHED"],
}

# The documents that came before, where their paths stay.
BEFORE = {
    "NAMED": ["FIELDS"], "NEW_MEMBER": ["FIELDS"], "LOADED": ["ONE"], "BACK": ["FIELDS"], "DEEP_NAMED": ["DEEP"],
}



def write(name, rows):
    print(f"pub(crate) const {name}: [(u32, &[u8]); {len(rows)}] = [")
    for place, data in rows:
        print(f'    ({place}, b"{"".join(chr(92) + f"x{byte:02x}" for byte in data)}"),')
    print("];\n")


for name, root in TABLES.items():
    earlier = [TABLES[before] for before in BEFORE.get(name, [])]
    write(name, list(records(root, listed([*earlier, root]))))
for name, documents in PATHS.items():
    write(name, list(path_records([TABLES[document] for document in documents])))
