#!/usr/bin/env python3
"""Calls of the library that are made by chance, by Node and by the native library: each status, output, line, and what each session
answers have to be the same. The inputs are examples, changed examples, and those of tests/fuzzing. Before the last line stands how
many calls of each name and status there were. The last line is `N passed, N failed`, of kinds of calls.
    tests/node/calls.py SECONDS [SEED] [LIBRARY]    by default a seed of its own, and lib/libvuthgal.so.2"""
import base64
import collections
import ctypes
import hashlib
import json
import random
import struct
import subprocess
import sys
import time
from pathlib import Path

sys.dont_write_bytecode = True
HERE = Path(__file__).resolve().parent
TOP = HERE.parent.parent
sys.path.insert(0, str(HERE.parent / "fuzzing"))
import inputs  # noqa: E402

ROOM = 1 << 22
U8, U16, U32, SIZE = ctypes.c_uint8, ctypes.c_uint16, ctypes.c_uint32, ctypes.c_size_t
# of each call: how many inputs it has, and what else it takes
CALLS = {
    "run": (2, ()), "both": (1, ()), "asm": (1, ()), "list": (1, ()), "compare": (2, ()), "choices": (1, ()), "plan": (2, (U32, U8)),
    "seeds": (2, (U32, U32, U32, U8)), "show": (2, ()), "draw": (2, (U16,)), "debug": (2, ()), "explain": (1, ()),
}
WHATS = "idle ok = out wait throw enter unwind catch die end".split()
STATUSES = "runs throws waits waits ended died".split()


class Native:
    """The native library by ctypes, with answers as answering.mjs gives them."""

    def __init__(self, path):
        self.library = ctypes.CDLL(str(path))
        self.output, self.line = ctypes.create_string_buffer(ROOM), ctypes.create_string_buffer(4096)
        self.length, self.line_length = SIZE(), SIZE()
        self.handle = (ctypes.c_uint64 * 2)()

    def has(self, name):
        return hasattr(self.library, f"vuthgal_{name}")

    def ask(self, name, *words):
        asked = getattr(self.library, f"vuthgal_{name}")
        asked.restype = U8
        return asked(*words)

    @staticmethod
    def given(inputs):
        return [word for it in inputs for word in (ctypes.c_char_p(it), SIZE(len(it)))]

    def places(self):
        return [self.output, SIZE(ROOM), ctypes.byref(self.length), self.line, SIZE(4096), ctypes.byref(self.line_length)]

    def call(self, name, inputs, more):
        kinds = CALLS[name][1]
        status = self.ask(name, *self.given(inputs), *(kind(it) for kind, it in zip(kinds, more)), *self.places())
        if self.length.value > ROOM:
            return None
        told = self.output.raw[: self.length.value]
        line = self.line.raw[: min(self.line_length.value, 4096)].decode("utf-8", "replace")
        return {"status": status, "length": len(told), "output": hashlib.sha256(told).hexdigest(), "line": line}, told

    def session(self, program, asked):
        status = self.ask("session_open", self.handle, *self.given([program]), *self.places()[3:])
        if status:
            return [{"fault": {3: "Refused", 4: "OutOfMemory", 5: "TooLong"}[status]}]
        answers = [getattr(self, what)(*words) for what, *words in asked]
        self.ask("session_close", self.handle)
        return answers

    def step(self, thread, expiry):
        event = ctypes.create_string_buffer(24)
        status = self.ask("session_step", self.handle, U8(thread), U8(expiry), event)
        if status in (7, 8):
            return self.command(f"s {'x' if expiry else 't'}{thread}")[:-1]
        number, value, view, row, of, what, mark = struct.unpack_from("<QiiHHBB", event)
        words = [number, f"{'x' if expiry else 't'}{thread}", row, WHATS[what]]
        words += [value] if what in (2, 3, 5, 8, 9) else []
        words += [["", "+p", "+b", "-b"][mark] + str(of)] if mark else []
        return " ".join(map(str, words + [view] * (mark == 1)))

    def back(self):
        return None if self.ask("session_back", self.handle) == 0 else {"fault": "NoHistory"}

    def enabled(self):
        turns, expiries = ctypes.c_uint64(), ctypes.c_uint64()
        self.ask("session_enabled", self.handle, ctypes.byref(turns), ctypes.byref(expiries))
        return {name: [bit for bit in range(64) if it.value >> bit & 1] for name, it in (("turns", turns), ("expiries", expiries))}

    def look(self):
        state, threads, phasers, barriers, cells = map(ctypes.create_string_buffer, (16, 48 * 64, 12 * 64, 8 * 64, 4 * 32))
        self.ask("session_look", self.handle, state, threads, SIZE(64), phasers, SIZE(64), barriers, SIZE(64), cells, SIZE(32))
        choices, steps, *counts, standing = struct.unpack("<QIBBBB", state.raw)
        none = lambda it: None if it == 65535 else it  # noqa: E731
        of_threads = []
        for number in range(counts[0]):
            *registers, value, row, of, outputs, entries, status, interrupted = struct.unpack_from("<9iHHHBBB", threads, 48 * number)
            waits = status in (2, 3) and of != 65535
            of_threads.append({
                "number": number, "row": row, "status": STATUSES[status], "exception": value if status in (1, 5) else None,
                "awaits": "pb"[status - 2] + str(of) if waits else None, "phase": value if status == 2 else None,
                "interrupted": interrupted == 1, "registers": registers, "entries": entries, "outputs": outputs,
            })
        of_phasers = [dict(zip(("number", "view", "parties", "arrived", "unarrived", "parent"), (number, *it[:4], none(it[4]))))
                      for number, it in enumerate(struct.iter_unpack("<iHHHH", phasers.raw[: 12 * counts[1]]))]
        of_barriers = [{"number": number, "parties": it[0], "waiting": it[1], "runner": none(it[2]), "broken": it[3] == 1}
                       for number, it in enumerate(struct.iter_unpack("<HHHBx", barriers.raw[: 8 * counts[2]]))]
        of_cells = [[number, it] for number, (it,) in enumerate(struct.iter_unpack("<i", cells.raw[:128])) if it]
        return {"choices": choices, "steps": steps, "word": ["live", "stuck", "all"][standing], "threads": of_threads,
                "phasers": of_phasers, "barriers": of_barriers, "cells": of_cells}

    def listed(self, name, thread, most, size):
        room, count = ctypes.create_string_buffer(most * size), SIZE()
        status = self.ask(name, self.handle, U8(thread), room, SIZE(most), ctypes.byref(count))
        return None if status == 7 else room.raw[: count.value * size]

    def stack(self, thread):
        raw = self.listed("session_stack", thread, 64, 4)
        return {"fault": "RangeError"} if raw is None else [f"{'CHAX'[kind]}{number}" for number, kind in struct.iter_unpack("<HBx", raw)]

    def outputs(self, thread):
        raw = self.listed("session_outputs", thread, 4096, 4)
        return {"fault": "RangeError"} if raw is None else [it for (it,) in struct.iter_unpack("<i", raw)]

    def other(self, thread, expiry, most, rest):
        words = (U8(thread), U8(expiry), U32(most), *self.given([rest.encode()]))
        status = self.ask("session_other", self.handle, *words, *self.places()[:3])
        return {"fault": "RangeError"} if status in (3, 7) else self.output.raw[: self.length.value].decode().rstrip()

    def command(self, line):
        self.ask("session_command", self.handle, *self.given([line.encode()]), *self.places()[:3])
        return self.output.raw[: self.length.value].decode()

    def copy(self):
        other = (ctypes.c_uint64 * 2)()
        self.ask("session_copy", self.handle, other)
        self.ask("session_close", self.handle)
        self.handle = other


class Chance(random.Random):
    """What is drawn for the inputs."""

    def changed(self, data):
        data = bytearray(data)
        for _ in range(self.randint(0, 3) if data else 0):
            at = self.randrange(len(data) or 1)
            data[at : at + self.randint(0, 1)] = bytes([self.choice([self.randrange(32, 127), self.randrange(256)])] * self.randint(0, 1))
        return bytes(data)

    def schedule(self):
        words = (f"{self.choice('tttttx')}{self.randrange(5)}{self.choice(['', '', f'*{self.randint(1, 9)}'])}" for _ in range(self.randint(0, 80)))
        return " ".join(words).encode() if self.random() < 0.9 else self.changed(" ".join(words).encode())

    def asked(self):
        """What a session is asked."""
        thread = self.choice([0, 0, 1, 1, 2, 3, 9])
        expiry = int(self.random() < 0.1)
        return self.choice([
            *[["step", thread, expiry]] * 6, ["back"], ["enabled"], ["look"], ["stack", thread], ["outputs", thread], ["copy"],
            ["other", min(thread, 3), expiry, self.choice([1, 20, 200]), self.choice(["", "t0*3 t1*2", "t0 x1 t2*9", "t0*"])],
            ["command", self.choice(["p", "k 2", "c 2", "g t0*3 t1", "g t0*2 t9", "b", "?", "s t1"])],
        ])


def plans(chance):
    return chance.choice([b"..", b"ann. bob.", b"a. b. a.", b"(t0 t1)*3 ..", b"?7", b"t0*3 t1. ..*9", b"?3*50 (..*2 ?1*3)*4", b"xt0", b"((", b"?"])


def round_of(chance, programs):
    """The calls of a round: names, inputs and what else they take; those that need what a call before them gave are functions of it."""
    program = chance.choice([chance.choice(programs), chance.changed(chance.choice(programs)), inputs.program(chance)])
    program = program.encode() if isinstance(program, str) else program
    schedule = chance.schedule()
    trace = yield "run", [program, schedule], ()
    yield "draw", [program, schedule], (chance.choice([0, 60, 80, 200, 65535]),)
    image = yield "asm", [program], ()
    for one in (image, chance.changed(image)):
        yield "list", [one], ()
        yield "run", [one, schedule], ()
    for one in (trace, chance.changed(trace)):
        yield "compare", [program, one], ()
        yield "choices", [one], ()
    yield "both", [program + chance.choice([b"\n.run\n", b"\n .run ; x\n", b".run"]) + schedule], ()
    yield "plan", [program, plans(chance)], (chance.choice([1, 20, 1000]), chance.choice([0, 1]))
    yield "seeds", [program, chance.choice([b"", b"t0*2", b"("])], (chance.randrange(9), chance.randint(0, 9), 200, chance.choice([0, 1]))
    yield "debug", [program, "".join(f"{chance.choice(['s t0', 's t1', 'b', 'p', 'g t0 t1*4 t2', 'k 3', 'c', 'q'])}\n" for _ in range(40)).encode()], ()
    words = ["paaa", "refused asm 3 3", "idle", "exception 4", "zzz", "status 4", "?", "", "refused load 7 1 2", "x" * 70000]
    yield "explain", [chance.choice(words).encode()], ()
    yield "show", [program, schedule], ()
    yield "session", program, [chance.asked() for _ in range(60)]


def main(seconds, seed, path):
    native, chance = Native(path), Chance(seed)
    programs = [it.read_bytes() for it in sorted((TOP / "examples").rglob("*.asm"))]
    node = subprocess.Popen(["node", str(HERE / "answering.mjs")], stdin=subprocess.PIPE, stdout=subprocess.PIPE)
    seen, failed, until = collections.Counter(), {}, time.monotonic() + seconds

    def answered(request):
        node.stdin.write(json.dumps(request).encode() + b"\n")
        node.stdin.flush()
        return json.loads(node.stdout.readline())

    while time.monotonic() < until and len(failed) < 3:
        calls, told = round_of(chance, programs), None
        while True:
            try:
                name, given, more = calls.send(told)
            except StopIteration:
                break
            told = b""
            if name == "session":
                wanted = native.session(given, more)
                got = answered({"program": base64.b64encode(given).decode(), "asked": more})
            elif native.has(name):
                wanted, told = native.call(name, given, more) or (None, b"")
                got = answered({"name": name, "inputs": [base64.b64encode(it).decode() for it in given], "more": list(more)})
            else:
                continue
            kind = name if name == "session" else f"{name} {wanted and wanted['status']}"
            seen[kind] += 1
            if wanted is not None and got != wanted and kind not in failed:
                failed[kind] = f"{given!r:.500} {more}: {first_unlike(wanted, got, more)}"
    node.stdin.close()
    node.wait()
    for kind, what in failed.items():
        print(f"FAILED {kind}: {what}")
    print(f"seed {seed}: " + ", ".join(f"{kind} {count}" for kind, count in sorted(seen.items())))
    print(f"{len(seen) - len(failed)} passed, {len(failed)} failed")
    return 1 if failed or not seen else 0


def first_unlike(wanted, got, asked):
    """Where the answers of a session part, or all of a call's."""
    if isinstance(wanted, list) and isinstance(got, list):
        for one, two, what in zip(wanted, got, asked):
            if one != two:
                return f"{what}: native {one!r:.600}, Node {two!r:.600}"
    return f"native {wanted!r:.600}, Node {got!r:.600}"


if __name__ == "__main__":
    if not sys.argv[1:]:
        sys.exit(__doc__)
    seed = int(sys.argv[2]) if sys.argv[2:] else random.randrange(1 << 32)
    sys.exit(main(float(sys.argv[1]), seed, sys.argv[3] if sys.argv[3:] else TOP / "lib/libvuthgal.so.2"))
