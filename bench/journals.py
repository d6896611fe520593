#!/usr/bin/env python3
"""Measures `papyrus waits` on journals of 128 MiB, beside `sha256sum` on the same file: at most 6 times as long, with at most 20 MiB beside the file.

No legal journal is that long, since it has at most 1,000,000 turns. So each has so many, and then more up to 128 MiB: what stands behind the last turn that
may be is read, and the first line of it is refused. The legal part alone is measured too, without a bound.

The memory that counts is that under the C library's own settings. Under those of the launcher freed blocks are kept, and the other figure has them too.

  journals.py              every journal
  journals.py --runs N     so many turns, in place of fifteen
"""
import argparse
import os
import pathlib
import tempfile

import measure

LIMIT = 128 * 1024 * 1024
TIMES = 6
BESIDE = 20
MIB = 1024 * 1024
TURNS = 1_000_000


def crowded(turn):
    """1,024 stacks that each take one of 256 instances in turn, let go of it and wait again behind all others."""
    stack = turn % 1024
    instance = stack % 256
    return f"turn {turn}\nrun {stack}\ntake {stack} {instance}\nrelease {stack} {instance}\njoin {stack} {instance}\n"


def lonely(turn):
    """One stack that takes its instance, sleeps, and joins it again."""
    return f"turn {turn}\n" + ("" if turn == 0 else "join 0 0\n") + f"run 0\ntake 0 0\nrelease 0 0\nsleep 0 {turn + 1}\n"


def idle(turn):
    """Nothing at all."""
    return f"turn {turn}\nidle\n"


def steady(turn):
    """Eight stacks that wait for one instance, and the one that holds it runs on."""
    return f"turn {turn}\nrun 0\n" + ("take 0 0\n" if turn == 0 else "")


# Each journal with the number of its instances, and of the stacks that begin by joining in the first turn.
JOURNALS = ((crowded, 256, 1024), (lonely, 1, 1), (idle, 1, 0), (steady, 1, 8))


def written(path, turn_of, instances, stacks, most):
    """Writes a journal of so many turns, or of those that 128 MiB have room for. Gives its size."""
    text = "journal 1\n" + "".join(f"instance place{number}\n" for number in range(instances))
    joins = "".join(f"join {stack} {stack % instances}\n" for stack in range(stacks))
    size, turn = len(text) + len(joins), 0
    with path.open("w") as file:
        file.write(text)
        while turn < most:
            lines = turn_of(turn)
            if size + len(lines) + len("end 1000000\n") > LIMIT:
                break
            size += len(lines)
            if turn == 0:
                head, rest = lines.split("\n", 1)
                lines = f"{head}\n{joins}{rest}"
            file.write(lines)
            turn += 1
        file.write(f"end {turn}\n")
    return path.stat().st_size


def own_memory(words, folder):
    """The peak memory in KiB of one run under the C library's own settings."""
    settings = os.environ.get("GLIBC_TUNABLES")
    os.environ["GLIBC_TUNABLES"] = ""
    memory = measure.peak_memory(words, folder)
    if settings is None:
        del os.environ["GLIBC_TUNABLES"]
    else:
        os.environ["GLIBC_TUNABLES"] = settings
    return memory


def measured_one(folder, name, size, accepted, runs):
    """Prints two rows for a journal; gives how many times as long as sha256sum it took, and the memory beside the file."""
    program, sums = measure.program(), measure.tool("sha256sum")
    words = [program, "waits", "made.journal"]
    base = [sums, "made.journal"] if sums else ["true"]
    (seconds, _), (other, _), ratio = measure.beside(words, base, folder, accepted, runs)
    memory = measure.peak_memory(words, folder)
    beside = own_memory(words, folder) / 1024 - size / MIB
    measure.row(f"{name}, {size / MIB:.1f} MiB: sha256sum", other, 0)
    measure.row(f"{name}: waits, {beside:.1f} MiB beside the file", seconds, memory, other, ratio)
    return (ratio if sums else 0), beside


def measured(folder, runs):
    """Goes over the journals; gives the number of bounds that are passed."""
    passed = 0
    for turn_of, instances, stacks in JOURNALS:
        size = written(folder / "made.journal", turn_of, instances, stacks, TURNS)
        measured_one(folder, f"{turn_of.__name__}, legal", size, (0,), runs)
        size = written(folder / "made.journal", turn_of, instances, stacks, LIMIT)
        ratio, beside = measured_one(folder, f"{turn_of.__name__}, full", size, (12,), runs)
        passed += (ratio > TIMES) + (beside > BESIDE)
    return passed


def main():
    arguments = argparse.ArgumentParser()
    arguments.add_argument("--runs", type=int, default=15)
    given = arguments.parse_args()
    with tempfile.TemporaryDirectory() as made:
        return 1 if measured(pathlib.Path(made), given.runs) else 0


if __name__ == "__main__":
    raise SystemExit(main())
