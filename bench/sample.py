#!/usr/bin/env python3
"""`papyrus sample N` beside Lua coroutines that do the same work (`sample.lua`), with 10, 50, 100 and 200 workers.

Every figure is processor time, so that a busy machine disturbs it little. The time of `papyrus` has all stages from the scripts' texts
to the report; that of Lua has its start and the compiling of `sample.lua`.
"""

import subprocess
from pathlib import Path

import measure

HERE = Path(__file__).resolve().parent
WORKERS = (10, 50, 100, 200)


def told(words):
    """The turns and the total that a run prints."""
    text = subprocess.run(words, check=True, stdout=subprocess.PIPE, text=True).stdout
    values = {line.split()[0]: int(line.split()[-1]) for line in text.splitlines() if line.split()[-1].isdigit()}
    return values["turns"], values.get("Total", values.get("total"))


def figures(name, words, turns, base=None):
    """Prints the time and the turns a second of these words, and gives the time."""
    seconds, memory = measure.best(words, HERE)
    measure.row(name, seconds, memory, base)
    print(f"{'':44} {turns / seconds / 1e6:8.2f} million turns a second")
    return seconds


def beside_lua(workers, lua):
    words = [measure.program(), "sample", str(workers)]
    turns, total = told(words)
    base = None
    if lua is not None:
        others = [lua, str(HERE / "sample.lua"), str(workers)]
        if told(others) != (turns, total):
            raise SystemExit(f"{workers} workers: Lua does other work")
        base = figures(f"lua5.4 sample.lua, {workers} workers", others, turns)
    figures(f"papyrus sample, {workers} workers", words, turns, base)


def main():
    lua = measure.tool("lua5.4")
    for workers in WORKERS:
        beside_lua(workers, lua)


if __name__ == "__main__":
    main()
