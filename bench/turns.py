#!/usr/bin/env python3
"""How many machine instructions a turn of `papyrus sample` takes, counted by `valgrind --tool=callgrind`, so that a busy machine disturbs it not at all.

It is the difference of runs with 40 and 20 workers, which do 120,040 and 60,020 turns, by the 60,020 turns between them: so the stages before the run,
which are the same but for the number of scripts, count little.

  turns.py            the proved program
  turns.py PROGRAM    another one, as a build without proofs
"""

import re
import subprocess
import sys
import tempfile
from pathlib import Path

import measure

FEW, MANY = 20, 40


def instructions(program, workers, folder):
    """What one run takes, and the turns that it does."""
    words = ["valgrind", "--tool=callgrind", f"--callgrind-out-file={Path(folder) / 'counts'}", program, "sample", str(workers)]
    run = subprocess.run(words, check=True, capture_output=True, text=True, env=measure.environment())
    turns = next(int(line.split()[-1]) for line in run.stdout.splitlines() if line.startswith("turns "))
    return int(re.search(r"refs:\s+([\d,]+)", run.stderr)[1].replace(",", "")), turns


def main():
    if measure.tool("valgrind") is None:
        return
    program = sys.argv[1] if len(sys.argv) > 1 else measure.program()
    with tempfile.TemporaryDirectory() as folder:
        few, first = instructions(program, FEW, folder)
        many, last = instructions(program, MANY, folder)
    print(f"{(many - few) / (last - first):,.0f} machine instructions a turn, of {last - first:,} turns")


if __name__ == "__main__":
    main()
