#!/usr/bin/env python3
"""Measures `papyrus check` and `papyrus show` beside `sha256sum` on compiled files of 16 MiB.

Every figure is processor time, of the program and of the system for it, so that a busy machine disturbs it little. The status is
1 where a bound of README.md isn't met. At last come a quarter, a half and the whole of the ordinary file, each beside the one before it; no
file has the double.

  pex.py            every file, and the growth
  pex.py NAME..     these files, and no growth
"""
import argparse
import pathlib
import random
import struct
import subprocess
import sys
import tempfile

import measure

LIMIT = 16 * 1024 * 1024
MOST = 0xFFFF
CHECK_BOUND, SHOW_BOUND, ORDINARY_SHOW_BOUND, MEMORY_BOUND = 2, 8, 5, 12


def u8(n):
    return struct.pack(">B", n)


def u16(n):
    return struct.pack(">H", n)


def u32(n):
    return struct.pack(">I", n)


def string(text):
    return u16(len(text)) + text


def listed(items):
    return u16(len(items)) + b"".join(items)


def file_of(strings, objects, debug=b"\0"):
    head = bytes.fromhex("fa57c0de03020001") + bytes(8) + string(b"Bench.psc") + string(b"") + string(b"")
    return head + listed([string(text) for text in strings]) + debug + listed([]) + listed(objects)


def object_of(variables, properties, states, name=1):
    data = u16(0) * 2 + u32(0) + u16(0) + listed(variables) + listed(properties) + listed(states)
    return u16(name) + u32(len(data) + 4) + data


def state_of(functions):
    return u16(0) + listed(functions)


def function_of(code=(), slots=(), locals_of=()):
    """A function with its name."""
    return u16(1) + u16(2) + u16(0) + u32(0) + u8(0) + listed(slots) + listed(locals_of) + listed(code)


NAMES = [b"", b"Bench", b"None"]


def nops():
    """Functions of 65,000 `nop` each."""
    function = function_of([b"\0"] * 65_000)
    count = (LIMIT - 200) // len(function)
    return file_of(NAMES, [object_of([], [], [state_of([function] * count)])])


def strings():
    """A full string table, each string with other bytes."""
    return file_of([b"%06d" % n + b"s" * 248 for n in range(MOST)], [])


def functions():
    """Functions with nothing in them."""
    function = function_of()
    left = (LIMIT - 400) // len(function)
    states = []
    while left > 0:
        states.append(state_of([function] * min(left, MOST)))
        left -= MOST
    return file_of(NAMES, [object_of([], [], states)])


def noise():
    """Random bytes, which break P1."""
    return random.Random(1).randbytes(LIMIT)


def noise_behind_header():
    """A good beginning, and random bytes behind it."""
    return file_of(NAMES, [])[:-2] + random.Random(2).randbytes(LIMIT - 60)


def word(n):
    return b"\1" + u16(n)


def integer(n):
    return b"\3" + struct.pack(">i", n)


def ordinary_function(rng, words):
    """Some calls, assignments, additions, comparisons and jumps."""
    def one():
        kind = rng.randrange(6)
        a, b, c = (word(rng.randrange(3, words)) for _ in range(3))
        if kind == 0:
            return b"\x17" + a + b + c + integer(2) + integer(rng.randrange(1000)) + word(rng.randrange(3, words))
        if kind == 1:
            return b"\x0d" + a + b"\2" + u16(rng.randrange(3, words))
        if kind == 2:
            return b"\x01" + a + b + integer(rng.randrange(-9, 9))
        if kind == 3:
            return b"\x0f" + a + b + c
        if kind == 4:
            return b"\x16" + a + integer(rng.randrange(1, 9))
        return b"\x1a" + (b"\0" if rng.random() < 0.5 else b"\5\1")
    slots = [u16(rng.randrange(3, words)) + u16(2) for _ in range(rng.randrange(4))]
    return function_of([one() for _ in range(rng.randrange(3, 40))], slots, slots)


def ordinary(limit=LIMIT):
    """Objects with variables, auto properties and functions, and debug lines for each function."""
    rng = random.Random(3)
    texts = NAMES + [b"name_%d" % n for n in range(4_000)]
    objects, entries, size = [], [], 0
    while size < limit - 200_000:
        functions_here = [ordinary_function(rng, len(texts)) for _ in range(30)]
        variables = [u16(rng.randrange(3, len(texts))) + u16(2) + u32(0) + integer(7) for _ in range(20)]
        properties = [u16(rng.randrange(3, len(texts))) + u16(2) * 2 + u32(0) + u8(7) + u16(3) for _ in range(10)]
        objects.append(object_of(variables, properties, [state_of(functions_here)], rng.randrange(3, len(texts))))
        if len(entries) < 60_000:
            entries += [u16(1) * 3 + u8(0) + listed([u16(n) for n in range(10)]) for _ in functions_here]
            size += 30 * 29
        size += len(objects[-1])
    return file_of(texts, objects, b"\1" + bytes(8) + listed(entries))


def quarter():
    """An ordinary file of 4 MiB."""
    return ordinary(LIMIT // 4)


def half():
    """An ordinary file of 8 MiB."""
    return ordinary(LIMIT // 2)


FILES = {make.__name__: make for make in (nops, strings, functions, noise, noise_behind_header, ordinary)}
PARTS = {make.__name__: make for make in (quarter, half, ordinary)}


def make_apart(name, path):
    """Makes a file in a process of its own, whose memory isn't counted to the commands that this one starts."""
    subprocess.run([sys.executable, __file__, "--make", name, str(path)], check=True)


def compare(name):
    """Prints a row for each command, and gives whether a bound is missed."""
    with tempfile.TemporaryDirectory() as folder:
        path = pathlib.Path(folder) / "B.pex"
        make_apart(name, path)
        size = path.stat().st_size
        missed = False
        for command, bound in (("check", CHECK_BOUND), ("show", ORDINARY_SHOW_BOUND if name == "ordinary" else SHOW_BOUND)):
            words = [measure.program(), command, "B.pex"]
            own, base, ratio = measure.beside(words, ["sha256sum", "B.pex"], folder, (0, 6), runs=7)
            measure.row(f"{name}: sha256sum", *base)
            measure.row(f"{name}: {command}", *own, ratio=ratio)
            missed |= ratio > bound
            missed |= (name, command) == ("ordinary", "check") and own[1] * 1024 > MEMORY_BOUND * size
    return missed


def growth():
    """Prints how the times of both commands grow with an ordinary file."""
    before = {}
    for name in PARTS:
        with tempfile.TemporaryDirectory() as folder:
            make_apart(name, pathlib.Path(folder) / "B.pex")
            for command in ("check", "show"):
                seconds, memory = measure.best([measure.program(), command, "B.pex"], folder)
                measure.row(f"{name}: {command}", seconds, memory, before.get(command))
                before[command] = seconds


def main():
    arguments = argparse.ArgumentParser()
    arguments.add_argument("--make", nargs=2, help=argparse.SUPPRESS)
    arguments.add_argument("names", nargs="*")
    given = arguments.parse_args()
    if given.make:
        content = {**FILES, **PARTS}[given.make[0]]()
        assert len(content) <= LIMIT
        pathlib.Path(given.make[1]).write_bytes(content)
        return 0
    missed = any([compare(name) for name in given.names or FILES])
    if not given.names:
        growth()
    return int(missed)


if __name__ == "__main__":
    sys.exit(main())
