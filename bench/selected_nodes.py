#!/usr/bin/env python3
"""What axes list and paths select in a document, by the definitions alone.

`selected_nodes.py JSON PATH..` numbers the nodes of the document in preorder, prints the rows of its nodes (number, byte of the
kind, parent, left, right, first, last, label), every axis of every node, and what each path selects.
"""

import json
import re
import sys

KINDS = {dict: 1, list: 2, str: 4, int: 5, float: 5, bool: 6, type(None): 7}
STEP = re.compile(r'(//|/)("(?:[^"\\]|\\.)*"|[A-Za-z_][A-Za-z0-9_-]*)|(\[\])')


class Pairs(list):
    """The members of an object, in their order."""


def nodes_of(value):
    """The nodes in preorder, each with those above it, the nearest first."""
    nodes = []

    def add(kind, label, above):
        node = {"number": len(nodes), "kind": kind, "label": label, "above": above}
        nodes.append(node)
        return node

    def tree(value, above):
        if isinstance(value, Pairs):
            node = add(1, "", above)
            for name, member in value:
                tree(member, [add(3, name, [node] + above), node] + above)
        elif isinstance(value, list):
            node = add(2, "", above)
            for item in value:
                tree(item, [node] + above)
        else:
            add(KINDS[type(value)], value if isinstance(value, str) else json.dumps(value), above)

    document = add(0, "", [])
    tree(value, [document])
    return nodes


def axes(nodes, k):
    node, before, behind = nodes[k], nodes[:k], nodes[k + 1 :]
    same = lambda m: m["above"][:1] == node["above"][:1]
    among = lambda m, ns: any(m is n for n in ns)
    yield "child", [m for m in behind if m["above"][0] is node]
    yield "descendant", [m for m in behind if among(node, m["above"])]
    yield "ancestor", [m for m in before if among(m, node["above"])][::-1]
    yield "following", [m for m in behind if not among(node, m["above"])]
    yield "preceding", [m for m in before if not among(m, node["above"])][::-1]
    yield "following-sibling", [m for m in behind if same(m)]
    yield "preceding-sibling", [m for m in before if same(m)][::-1]


def selected(nodes, text):
    chosen = [n for n in nodes if n["above"] and n["above"][0]["kind"] == 0]
    for slash, name, item in STEP.findall(text):
        name = json.loads(name) if name.startswith('"') else name

        def leads(above):
            if item:
                return above[0]["kind"] == 2 and above[0] in chosen
            if not (above[0]["kind"] == 3 and above[0]["label"] == name):
                return False
            if slash == "/":
                return above[1]["kind"] == 1 and above[1] in chosen
            return any(n in chosen for n in above[1:])

        chosen = [n for n in nodes if n["above"] and leads(n["above"])]
    return chosen


def links(nodes, node):
    row = dict(axes(nodes, node["number"]))
    first = lambda ns: ns[0]["number"] if ns else "-"
    parent = node["above"][0]["number"] if node["above"] else "-"
    ends = row["child"]
    return [parent, first(row["preceding-sibling"]), first(row["following-sibling"]), first(ends), first(ends[-1:])]


def main():
    nodes = nodes_of(json.loads(sys.argv[1], object_pairs_hook=Pairs))
    for node in nodes:
        print(node["number"], node["kind"], *links(nodes, node), repr(node["label"]))
        for name, listed in axes(nodes, node["number"]):
            print("   ", name, *(m["number"] for m in listed))
    for path in sys.argv[2:]:
        print(path, *(m["number"] for m in selected(nodes, path)))


if __name__ == "__main__":
    main()
