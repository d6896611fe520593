#!/usr/bin/env python3
"""Measures how long scenes of nearly 16 MiB with many keys take, by `papyrus run` on a script that hasn't their properties.

The scene is read whole before the script is, and refused then by C5; so the time is that of reading and of the bind up to the first entry.
The status is 1 where a bound of README.md isn't met.

  scenes.py                 the proved program
  scenes.py PROGRAM         another
"""

import json
import sys
import tempfile
from pathlib import Path

import measure

TIME_BOUND, MEMORY_BOUND = 0.5, 1536 << 10
REFUSED = 7


def scene(sets):
    """A scene of an instance for each of these sets."""
    instances = [{"name": f"i{number}", "script": "Set", "set": dict.fromkeys(keys, 1)} for number, keys in enumerate(sets)]
    return json.dumps({"version": 1, "instances": instances, "calls": [], "order": "round", "turns": 1}, separators=(",", ":"))


SCENES = {
    "130 instances of 9,000 keys": lambda: scene([f"k{number:06}" for number in range(9_000 * i, 9_000 * (i + 1))] for i in range(130)),
    "one instance of 1,450,000 keys": lambda: scene([[f"{number:x}" for number in range(1_450_000)]]),
}


def main():
    program = sys.argv[1] if len(sys.argv) > 1 else measure.program()
    missed = False
    with tempfile.TemporaryDirectory() as name:
        folder = Path(name)
        folder.joinpath("Set.psc").write_text("ScriptName Set\n")
        for what, text in SCENES.items():
            folder.joinpath("scene.json").write_text(text())
            seconds, memory = measure.best([program, "run", "scene.json", "Set.psc"], folder, (REFUSED,))
            measure.row(what, seconds, memory)
            missed |= seconds > TIME_BOUND or memory > MEMORY_BOUND
    return int(missed)


if __name__ == "__main__":
    sys.exit(main())
