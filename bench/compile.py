#!/usr/bin/env python3
"""`papyrus compile` on 1 MiB of ordinary script, beside `luac5.4 -o` on 1 MiB of comparable Lua.

Every figure is processor time, so that a busy machine disturbs it little. Both write their files to the same folder.
"""

import tempfile
from pathlib import Path

import measure
from ordinary import MEBIBYTE, functions_of, growth, lua, many_scripts, papyrus


def beside_lua(folder, whole):
    text = papyrus(whole, "Ordinary")
    folder.joinpath("Ordinary.psc").write_text(text)
    words = [measure.program(), "compile", "Ordinary.psc"]
    luac = measure.tool("luac5.4")
    if luac is None:
        measure.row("papyrus compile, 1 MiB", *measure.best(words, folder))
    else:
        folder.joinpath("ordinary.lua").write_text(lua(functions_of(lua, MEBIBYTE)))
        own, base, ratio = measure.beside(words, [luac, "-o", "ordinary.luac", "ordinary.lua"], folder, runs=45)
        measure.row("luac5.4 -o, 1 MiB", *base)
        measure.row("papyrus compile, 1 MiB", *own, ratio=ratio)
    size = folder.joinpath("Ordinary.pex").stat().st_size
    print(f"the file has {size} bytes, {size / len(text):.2f} times the script")


def main():
    whole = functions_of(lambda count: papyrus(count, "Ordinary"), MEBIBYTE)
    with tempfile.TemporaryDirectory() as name:
        folder = Path(name)
        beside_lua(folder, whole)
        growth(folder, "papyrus compile", papyrus, whole)
        many_scripts(folder, "papyrus compile", papyrus)


if __name__ == "__main__":
    main()
