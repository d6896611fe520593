#!/usr/bin/env python3
"""Measures `papyrus hold` and `papyrus resume` beside `sha256sum` on held files of a quarter, a half and nearly all of 64 MiB.

Every figure is processor time, of the program and of the system for it, so that a busy machine disturbs it little. No turn is run: `hold 0`
reads, verifies, binds, starts and saves, and `resume 0` loads, verifies, binds and restores. The status is 1 where a bound of README.md isn't met.
"""

import json
import subprocess
import sys
import tempfile
from pathlib import Path

import measure

TIME_BOUND, MEMORY_BOUND = 4, 6
TEXTS, TEXT = 256, 1_000
INSTANCES = {"a quarter": 64, "a half": 128, "nearly all": 254}


def script():
    """A script whose variables hold texts."""
    lines = [f'String v{number} = "{number:04d}{"t" * (TEXT - 4)}"' for number in range(TEXTS)]
    return "\n".join(["Scriptname Held", *lines, ""])


def scene(instances):
    """A scene of so many instances of the script, and no call."""
    names = [{"name": f"held_{number}", "script": "Held"} for number in range(instances)]
    return json.dumps({"version": 1, "instances": names, "calls": [], "order": "round", "turns": 1})


def prepare(folder):
    folder.joinpath("Held.psc").write_text(script())
    subprocess.run([measure.program(), "compile", "Held.psc"], cwd=folder, env=measure.environment(), check=True)


def compare(folder, name, instances, before):
    """Prints a row for each command, and gives whether a bound is missed."""
    folder.joinpath("scene.json").write_text(scene(instances))
    hold = [measure.program(), "hold", "0", "scene.json", "held", "Held.pex"]
    subprocess.run(hold, cwd=folder, env=measure.environment(), check=True)
    size = folder.joinpath("held").stat().st_size
    missed = False
    for command, words in (("hold 0", hold), ("resume 0", [measure.program(), "resume", "0", "held"])):
        own, base, ratio = measure.beside(words, ["sha256sum", "held"], folder, runs=7)
        memory = measure.peak_memory(words, folder) or own[1]
        measure.row(f"{name}, {size / 2**20:.1f} MiB: sha256sum", *base)
        measure.row(f"{name}, {size / 2**20:.1f} MiB: {command}", own[0], memory, ratio=ratio)
        if command in before:
            print(f"{own[0] / before[command]:.2f} times the one before")
        before[command] = own[0]
        missed |= ratio > TIME_BOUND or memory * 1024 > MEMORY_BOUND * size
    return missed


def main():
    with tempfile.TemporaryDirectory() as name:
        folder, before = Path(name), {}
        prepare(folder)
        missed = [compare(folder, *part, before) for part in INSTANCES.items()]
    return int(any(missed))


if __name__ == "__main__":
    sys.exit(main())
