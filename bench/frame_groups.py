#!/usr/bin/env python3
"""Makes a newborn volume and two groups of frames by the format alone, as the constants of `crates/sx_log_rows/src/commits.rt`."""

import hashlib
import struct

LEAF = b"\x01\x00\x00\x00\x04leaf"
EMPTY = b"\x02\x00\x00\x00\x00"


def sha(data):
    return hashlib.sha256(data).digest()


def newborn():
    name = lambda text: bytes([len(text)]) + text.ljust(64, b"\0")
    fields = b"SXSNAP01\x00\x03" + name(b"validFrom") + name(b"validTo")
    return b"\x01" + fields + sha(fields) + b"\0"


def group(revision, time, first_frame, node_root, path_root, next_number, nodes, paths, frames):
    body = b"".join(frames)
    head = b"SXGR" + struct.pack(
        ">IqIIIIIIII", revision, time, first_frame, len(frames), node_root, path_root, next_number, nodes, paths, len(body)
    )
    table = b"".join(struct.pack(">I", len(frame)) + sha(frame) for frame in frames)
    return head + table + sha(head + table) + body + b"\0"


def constant(name, data):
    print(f"const {name}: [u8; {len(data)}] = [")
    for at in range(0, len(data), 16):
        print("    " + " ".join(f"0x{byte:02x}," for byte in data[at : at + 16]))
    print("];\n")


constant("NEWBORN", newborn())
constant("FIRST", group(1, 1000, 0, 1, 0, 1, 1, 0, [LEAF]))
constant("SECOND", group(2, 1000, 1, 2, 0, 3, 2, 0, [EMPTY, LEAF]))
constant("LEAF", sha(LEAF))
constant("EMPTY", sha(EMPTY))
