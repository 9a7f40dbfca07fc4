"""Writes a volume with a birth and so many groups, each of one frame of so many bytes.

python3 log_groups.py FILE GROUPS BYTES
"""
import hashlib
import struct
import sys


def birth_part():
    fields = b"SXSNAP01" + bytes([0, 1])
    for name in (b"validFrom", b"validTo"):
        fields += bytes([len(name)]) + name.ljust(64, b"\0")
    return fields + hashlib.sha256(fields).digest()


def group(revision, frame):
    head = b"SXGR" + struct.pack(
        ">Iq8I", revision, 1000 + revision, revision - 1, 1, revision, 0, 1, 1, 0, len(frame)
    )
    head += struct.pack(">I", len(frame)) + hashlib.sha256(frame).digest()
    return head + hashlib.sha256(head).digest() + frame


def main():
    path, groups, size = sys.argv[1], int(sys.argv[2]), int(sys.argv[3])
    frame = b"\1" + struct.pack(">I", size - 5) + bytes(size - 5)
    with open(path, "wb") as out:
        out.write(b"\1" + birth_part())
        for revision in range(1, groups + 1):
            out.write(b"\1" + group(revision, frame))
        out.write(b"\0")


if __name__ == "__main__":
    main()
