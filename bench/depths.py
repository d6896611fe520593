#!/usr/bin/env python3
"""How many machine instructions a pass takes that adds to a variable of a script far above its instance's, counted by `valgrind --tool=callgrind`.

An instance's script stands 1, 16 or 255 below the script that has the variable and the loop. It is the difference of two runs of other lengths, so the stages
before the run count nothing.

  depths.py            the proved program
  depths.py PROGRAM    another one, as a build without proofs
"""

import json
import re
import subprocess
import sys
import tempfile
from pathlib import Path

import measure

DEPTHS = 1, 16, 255
FEW, MANY, QUANTUM = 20, 60, 1_000
ROOT = "Scriptname Script0\n\nInt count\n\nFunction Work()\n    While True\n        count = count + 1\n    EndWhile\nEndFunction\n"


def scene(depth, turns):
    """One instance of the lowest script, which counts for so many turns."""
    return {
        "version": 2,
        "instances": [{"name": "counter", "script": f"Script{depth}"}],
        "calls": [{"turn": 0, "instance": "counter", "function": "Work", "arguments": []}],
        "quantum": QUANTUM,
        "order": "round",
        "turns": turns,
    }


def instructions(program, depth, turns, folder):
    """What a run of so many turns takes."""
    names = [f"Script{number}.psc" for number in range(depth + 1)]
    (folder / names[0]).write_text(ROOT)
    for number in range(1, depth + 1):
        (folder / names[number]).write_text(f"Scriptname Script{number} extends Script{number - 1}\n")
    (folder / "scene.json").write_text(json.dumps(scene(depth, turns)))
    words = ["valgrind", "--tool=callgrind", "--callgrind-out-file=counts", program, "run", "scene.json", *names]
    run = subprocess.run(words, check=True, capture_output=True, text=True, cwd=folder, env=measure.environment())
    return int(re.search(r"refs:\s+([\d,]+)", run.stderr)[1].replace(",", ""))


def main():
    if measure.tool("valgrind") is None:
        return
    program = str(Path(sys.argv[1]).resolve()) if len(sys.argv) > 1 else measure.program()
    for depth in DEPTHS:
        with tempfile.TemporaryDirectory() as folder:
            few, many = (instructions(program, depth, turns, Path(folder)) for turns in (FEW, MANY))
        print(f"{depth:3} below: {(many - few) / (MANY - FEW) / QUANTUM:,.0f} machine instructions a pass")


if __name__ == "__main__":
    main()
