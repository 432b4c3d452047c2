#!/usr/bin/env python3
"""A list in memory for a replica that is alone: it takes the place of vlm-list. service/list.c has its frames."""

import struct
import sys

LENGTH, REVISION = struct.Struct("<I"), struct.Struct("<Q")


def tell(letter, *parts):
    frame = b"".join((letter, *parts))
    sys.stdout.buffer.write(LENGTH.pack(len(frame)) + frame)
    sys.stdout.buffer.flush()


def main():
    revision = 0
    tell(b"r")
    while head := sys.stdin.buffer.read(LENGTH.size):
        frame = sys.stdin.buffer.read(LENGTH.unpack(head)[0])
        if frame[:1] == b"a":
            revision += 1
            tell(b"b", REVISION.pack(revision), frame[1:])
            tell(b"a")


if __name__ == "__main__":
    main()
