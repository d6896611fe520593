#!/usr/bin/env python3
"""Measures the rules of sets of compiled files, on sets of a quarter, a half and the whole of three sizes.

`papyrus exec` runs a scene without instances and turns on each set, and `papyrus check` reads the same file. The time is that of `exec` less
that of `check`: so it is that of judging the set, and of starting a machine which does nothing. No set has the double: it has at most
4,096 objects, and a function at most 8,192 parameters and locals and 65,535 instructions.

  verify.py                  every set
  verify.py --runs COUNT     the best of so many runs counts, in place of seven
"""
import argparse
import pathlib
import subprocess
import tempfile

import measure
from pex import file_of, function_of, integer, u16, u32, word

SCENE = '{"version": 1, "instances": [], "calls": [], "order": "round", "turns": 0}'
REPORT = b"turns 0\n"


class Strings:
    """A string table that grows with use."""

    def __init__(self):
        self.places = {}

    def __call__(self, text):
        return self.places.setdefault(text.encode(), len(self.places))

    def list(self):
        return list(self.places)


def named(string, name, code=(), slots=(), locals_of=(), result="None", bits=0):
    """A function with its name, result and bits."""
    body = function_of(code, slots, locals_of)
    return u16(string(name)) + u16(string(result)) + u16(string("")) + u32(0) + bytes([bits]) + body[11:]


def pair(string, name, kind):
    return u16(string(name)) + u16(string(kind))


def script(string, name, parent, functions, variables=()):
    """An object whose functions stand in its empty state."""
    data = u16(string(parent)) + u16(string("")) + u32(0) + u16(string("")) + u16(len(variables)) + b"".join(variables)
    data += u16(0) + u16(1) + u16(string("")) + u16(len(functions)) + b"".join(functions)
    return u16(string(name)) + u32(len(data) + 4) + data


def call(string, name, result, *arguments):
    """A call of a method of `self`."""
    parts = [word(string(text)) for text in (name, "self", result)]
    return b"\x17" + b"".join(parts) + integer(len(arguments)) + b"".join(arguments)


def objects(count):
    """A chain of objects: each is the parent of the next, replaces a function, and calls it and one of the first object."""
    string = Strings()
    made = []
    for number in range(count):
        code = [call(string, "Step", "sum", integer(number)), call(string, "Base", "sum")]
        functions = [
            named(string, "Step", code, [pair(string, "at", "Int")], [pair(string, "sum", "Int")], "Int"),
            named(string, f"Own{number}", code, (), [pair(string, "sum", "Int")]),
        ]
        if number == 0:
            functions.append(named(string, "Base", [b"\x1a" + integer(1)], result="Int"))
        made.append(script(string, f"Script{number}", f"Script{number - 1}" if number else "", functions))
    return file_of(string.list(), made)


def instructions(count):
    """One function of additions, calls and jumps."""
    string = Strings()
    code = []
    for number in range(count):
        kind = number % 4
        if kind == 0:
            code.append(b"\x01" + word(string("sum")) + word(string("sum")) + integer(number))
        elif kind == 1:
            code.append(call(string, "Step", "sum", word(string("sum"))))
        elif kind == 2:
            code.append(b"\x15" + word(string("sum")) + integer(1))
        else:
            code.append(b"\x0d" + word(string("total")) + word(string("sum")))
    variable = u16(string("total")) + u16(string("Int")) + u32(0) + integer(0)
    functions = [
        named(string, "Long", code, (), [pair(string, "sum", "Int")]),
        named(string, "Step", [], [pair(string, "at", "Int")], (), "Int"),
    ]
    made = script(string, "Wide", "", functions, [variable])
    return file_of(string.list(), [made])


def locals_of_one(count):
    """One function of so many locals, each of which is written once."""
    string = Strings()
    names = [f"local{number}" for number in range(count)]
    code = [b"\x0d" + word(string(name)) + integer(1) for name in names]
    slots = [pair(string, name, "Int") for name in names]
    made = script(string, "Wide", "", [named(string, "Many", code, (), slots)])
    return file_of(string.list(), [made])


SIZES = (
    (objects, "objects", (1024, 2048, 4096)),
    (instructions, "instructions", (15_000, 30_000, 60_000)),
    (locals_of_one, "locals", (2048, 4096, 8192)),
)


def least(words, folder, runs):
    """The least time of some runs, and the peak memory."""
    return measure.best(words, folder, runs=runs)[0], measure.peak_memory(words, folder)


def measured(folder, runs):
    """Prints rows for each size, with how many times as long it takes as the one before."""
    program = measure.program()
    check, run = [program, "check", "set.pex"], [program, "exec", "scene.json", "set.pex"]
    for make, what, counts in SIZES:
        before = None
        for count in counts:
            size = folder.joinpath("set.pex").write_bytes(make(count))
            answer = subprocess.run(run, cwd=folder, capture_output=True).stdout
            if answer != REPORT:
                raise SystemExit(f"{count} {what}: {answer}")
            read, read_memory = least(check, folder, runs)
            whole, memory = least(run, folder, runs)
            measure.row(f"{count} {what}, {size} bytes: check", read, read_memory)
            measure.row(f"{count} {what}, {size} bytes", whole - read, memory, before)
            before = whole - read


def main():
    arguments = argparse.ArgumentParser()
    arguments.add_argument("--runs", type=int, default=7)
    given = arguments.parse_args()
    with tempfile.TemporaryDirectory() as made:
        folder = pathlib.Path(made)
        folder.joinpath("scene.json").write_text(SCENE)
        measured(folder, given.runs)


if __name__ == "__main__":
    main()
