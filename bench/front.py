#!/usr/bin/env python3
"""The front end on 1 MiB of ordinary script, beside `luac5.4 -p` on 1 MiB of comparable Lua.

Every figure is processor time, so that a busy machine disturbs it little. The last line of each script uses a name that
nothing has, so that `compile` refuses it by K1 after the last stage of the front end, which judges every line.
"""

import tempfile
from pathlib import Path

import measure
from ordinary import MEBIBYTE, functions_of, growth, lua, many_scripts, papyrus

REFUSED = (5,)
BROKEN = """Function Last()
    nothing = 1
EndFunction
"""


def script(functions, name):
    return papyrus(functions, name) + BROKEN


def beside_lua(folder, whole):
    folder.joinpath("Ordinary.psc").write_text(script(whole, "Ordinary"))
    words = [measure.program(), "compile", "Ordinary.psc"]
    luac = measure.tool("luac5.4")
    if luac is None:
        measure.row("front end, 1 MiB", *measure.best(words, folder, REFUSED))
        return
    folder.joinpath("ordinary.lua").write_text(lua(functions_of(lua, MEBIBYTE)))
    own, base, ratio = measure.beside(words, [luac, "-p", "ordinary.lua"], folder, REFUSED, runs=45)
    measure.row("luac5.4 -p, 1 MiB", *base)
    measure.row("front end, 1 MiB", *own, ratio=ratio)


def main():
    whole = functions_of(lambda count: script(count, "Ordinary"), MEBIBYTE)
    with tempfile.TemporaryDirectory() as name:
        folder = Path(name)
        beside_lua(folder, whole)
        growth(folder, "front end", script, whole, REFUSED)
        many_scripts(folder, "front end", script, REFUSED)


if __name__ == "__main__":
    main()
