#!/usr/bin/env python3
"""Holds what `list` says of a small image with each byte changed, cut at each place, and with a byte more, against an own reader of
the format (tests/fuzzing/formats.py). What is still an image is that of its own listing; what has another magic is a text.
usage: each_byte.py VUTHGAL"""
import multiprocessing
import os
import sys
import tempfile
from pathlib import Path

sys.dont_write_bytecode = True
sys.path.insert(0, str(Path(__file__).resolve().parent.parent / "fuzzing"))

from calls import Finding, Room
from formats import image_fault

# a phaser, two threads and three rows
IMAGE = bytes.fromhex("50425731 0100 0000 0200 0300 ff 00 0200 00000000 00000000 00000000 00000000")
IMAGE += bytes.fromhex("1800000000000000 0e00000000000000 0000000000000000")
# beyond each bound of a field, and at the ends
VALUES = [*range(67), 127, 128, 254, 255]


def files():
    yield IMAGE + b"\0"
    for at, byte in enumerate(IMAGE):
        yield from (IMAGE[:at] + bytes([value]) + IMAGE[at + 1 :] for value in VALUES if value != byte)
        yield IMAGE[:at]


def judge(room, file):
    """What is wrong with the answer to this file, if anything is."""
    room.put("file", file)
    listed = room.call("list", "file")
    if not file.startswith((b"PBW1", b"PBW2")):
        return None if listed.errors.startswith(b"refused asm ") or not file else "a text"
    fault = image_fault(file)
    if fault is not None:
        return None if listed.errors == f"refused {fault}\n".encode() else fault
    if listed.status != 0:
        return "ok"
    room.put("listing", listed.output)
    room.call("asm", "listing", "again", may=(0,))
    return None if room.get("again") == file else "the listing's image"


def judge_part(program, first, step):
    """How many files of this part there were, and what is wrong with the answers to them."""
    wrong, part = [], list(files())[first::step]
    with tempfile.TemporaryDirectory() as folder:
        room = Room(program, folder)
        for file in part:
            try:
                answer = judge(room, file)
            except Finding as finding:
                answer = str(finding)
            if answer is not None:
                wrong.append(f"{file.hex()}: not {answer}")
        os.chdir("/")
    return len(part), wrong


def main(program):
    step = len(os.sched_getaffinity(0))
    with multiprocessing.Pool(step) as pool:
        answers = pool.starmap(judge_part, [(program, first, step) for first in range(step)])
    for _, wrong in answers:
        print(*wrong[:20], sep="\n", end="\n" if wrong else "")
    print(sum(count for count, _ in answers), "files")


if __name__ == "__main__":
    main(sys.argv[1])
