#!/usr/bin/env python3
"""Counts the lines of code of each crate, as they would stand without contracts.

  code_lines.py [CRATE..]     a line for each crate and one for all; with one crate a line for each of its files

Not counted are blank lines, comments, contracts (a line with nothing but the `{` of a body that begins behind a contract belongs to these: without
them it would stand at the end of the line before), ghost items, models, attributes that steer proofs, tests, and the crates that hold nothing but
tests. Definitions and proofs stand in files of their own and aren't counted either.
"""
import pathlib
import re
import sys

ROOT = pathlib.Path(__file__).resolve().parent.parent
COMMENT = re.compile(r"//[^\n]*")
TEXT = re.compile(r'b?"(?:\\.|[^"\\])*"|b?\'(?:\\[^\n]|[^\\\'\n])\'', re.S)
PROOF_ATTRIBUTE = re.compile(r"#!?\[(?:tactic|cycle|measure)\b")
TEST = re.compile(r"#\[(?:cfg\(test\)|test)\]")
MODEL = re.compile(r"(?m)^[ \t]*impl(?:<[^>]*>)?\s+(?:\w+::)*Model\s+for\b")
GHOST = re.compile(r"(?m)^[ \t]*(?:pub(?:\(\w+\))?\s+)?ghost\b")
CONTRACT = re.compile(r"(?m)^[ \t]*(?:requires|ensures)\b[^{\n]*(?=\{)")
MARK = "\0"


def without(text, start, end):
    """The text with that part made of nothing but its line breaks."""
    return text[:start] + re.sub(r"[^\n]", " ", text[start:end]) + text[end:]


def behind(text, at, opening, closing):
    """The place behind the bracket that closes the first opening one from `at` on."""
    depth = 0
    for place in range(at, len(text)):
        if text[place] == opening:
            depth += 1
        elif text[place] == closing:
            depth -= 1
            if depth == 0:
                return place + 1
    return len(text)


def plain(text):
    """The text without comments and with nothing in its string literals, so that brackets in them don't count."""
    parts, at = [], 0
    for found in re.finditer(f"{COMMENT.pattern}|{TEXT.pattern}", text, re.S):
        word = found.group()
        parts.append(text[at : found.start()])
        parts.append("" if word.startswith("//") else re.sub(r"[^\n\"']", "x", word))
        at = found.end()
    return "".join([*parts, text[at:]])


def end_of_item(text, at):
    """The place behind an item: its `;`, the `,` of a member, or the bracket that closes its body."""
    depth = 0
    for place in range(at, len(text)):
        sign = text[place]
        if sign in "({[":
            depth += 1
        elif sign in ")}]":
            depth -= 1
            rest = text[place + 1 :].lstrip()
            if depth < 0:
                return place
            if depth == 0 and sign == "}" and not rest.startswith((";", "{", "ensures", "requires")):
                return place + 1
        elif sign in ";," and depth == 0:
            return place + 1
    return len(text)


def without_items(text):
    """The text without tests, models, ghost items and attributes of proofs."""
    while found := TEST.search(text):
        text = without(text, found.start(), end_of_item(text, found.end()))
    while found := PROOF_ATTRIBUTE.search(text):
        text = without(text, found.start(), behind(text, found.start(), "[", "]"))
    while found := MODEL.search(text):
        text = without(text, found.start(), behind(text, found.end(), "{", "}"))
    while found := GHOST.search(text):
        text = without(text, found.start(), end_of_item(text, found.end()))
    return text


def without_contracts(text):
    """The text without its contracts, in whose place a mark stands."""
    while found := CONTRACT.search(text):
        end = behind(text, found.end(), "{", "}")
        text = without(text, found.start(), end)
        text = text[: found.start()] + MARK + text[found.start() + 1 :]
    return text


def count(file):
    """The number of lines of code in a file."""
    lines, is_behind_contract = 0, False
    for line in without_contracts(without_items(plain(file.read_text()))).split("\n"):
        word = line.strip()
        if MARK in word:
            is_behind_contract = True
        elif word and not (word == "{" and is_behind_contract):
            lines += 1
        if word and MARK not in word:
            is_behind_contract = False
    return lines


def main():
    wanted = sys.argv[1:]
    crates = sorted(it for it in (ROOT / "crates").iterdir() if (it / "src").is_dir() and not it.name.endswith("_tests"))
    unknown = set(wanted) - {it.name for it in crates}
    if unknown:
        sys.exit(f"code_lines: no crate with code is called {', '.join(sorted(unknown))}")
    if len(wanted) == 1:
        for file in sorted((ROOT / "crates" / wanted[0] / "src").rglob("*.rt")):
            print(f"{count(file):6}  {file.name}")
    sums = {it.name: sum(map(count, (it / "src").rglob("*.rt"))) for it in crates if not wanted or it.name in wanted}
    for name, lines in sorted(sums.items(), key=lambda it: -it[1]):
        print(f"{lines:6}  {name}")
    print(f"{sum(sums.values()):6}  all")


if __name__ == "__main__":
    main()
