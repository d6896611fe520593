#!/usr/bin/env python3
"""Writes docs/rule_index.md: each rule with the code that tells it, its definition, and the tests and cases that show it.

What is written is computed from rules.md, the crates and the cases. checks/check_pages.py says whether the page is up to date.
"""
import pathlib
import re
import sys

ROOT = pathlib.Path(__file__).resolve().parent.parent
DOCS = ROOT / "docs"
CRATES = ROOT / "crates"
CASES = ROOT / "cases"
# The texts of all rules stand in this file, which tells none.
TEXTS = CRATES / "command_files" / "src" / "refusal.rt"
HEADING = re.compile(r"^### ([A-Z]\d+) (\w+)$|^\| ([A-Z]\d+) (\w+) \|", re.MULTILINE)
CASES_SHOWN = 2
# What code calls or gives where it tells a rule without naming it.
TELLING = {
    "LineRule::BadBlock": r"\bbad_block\(",
    "LiftRule::NotLifted": r"\bNOT_LIFTED\b",
    "HeldRule::BadState": r"Err\(RestoreFault::BadState\)|\bstruct JudgedState\b",
    "HeldRule::OtherDevices": r"Err\(RestoreFault::OtherDevices\)",
}
# Definitions in whose words the code tests a rule, or accepted input keeps it, for rules that no definition names.
KEPT = {
    "script_linker/specs/Link.antt": "N1 N2 N3 N5",
    "papy_base/specs/Circles.antt": "N4",
    "papy_base/specs/Lineage.antt": "N8",
    "script_linker/specs/Signature.antt": "N9 N11",
    "expression_rules/specs/Conversions.antt": "K6",
    "expression_rules/specs/Operations.antt": "K7",
    "pex_verify/specs/Loading.antt": "V4",
    "pex_verify/specs/Soundness.antt": "V6 V8",
    "pex_verify/specs/Accepted.antt": "V7",
    "pex_verify/specs/Found.antt": "V9 V10",
    "pex_verify/specs/Sets.antt": "V13",
    "pex_verify/specs/Properties.antt": "V14",
    "pex_lift/specs/Lifted.antt": "U1",
}
HEAD = """# Index of rules

Each rule leads to [rules.md](rules.md), which says where it is broken, with an example and how to mend it. Beside it stand the code that tells it; files of definitions that name it, or, behind "by", in whose words the code tests it or accepted input keeps it;
and what shows it: tests of the crates, cases, and files of rows. Where no definition stands, rules.md alone says it. [`checks/make_rule_index.py`](../checks/make_rule_index.py) writes this page anew.
"""


def rules():
    """The rules of rules.md, in its order."""
    text = (DOCS / "rules.md").read_text()
    return [(found[1] or found[3], found[2] or found[4]) for found in HEADING.finditer(text)]


def titles():
    """What rules.md calls the rules of each letter."""
    return dict(re.findall(r"^## ([A-Z]): (.*)$", (DOCS / "rules.md").read_text(), re.MULTILINE))


def kinds():
    """The type of each rule of the program, by its code and name."""
    found = re.findall(r'(\w+Rule)::\w+\s*=>\s*b"([A-Z]\d+ \w+)"', TEXTS.read_text())
    return {rule: kind for kind, rule in found}


def linked(path):
    """A link to a file, named by its crate and its place in it."""
    return f"[`{'/'.join(path.relative_to(CRATES).parts)}`](../{path.relative_to(ROOT)})"


def told_in(text):
    """The rules that a source tells, as `Kind::Name`: a match on one is no such place."""
    told = set(re.findall(r"\b(\w+Rule::\w+)\b(?!\s*=>)", text))
    return told | {rule for rule, way in TELLING.items() if re.search(way, text)}


def shown_in(text):
    """The rules that a test speaks of: as `Kind::Name`, as `L1 BadByte`, or by the name alone behind an import of its kind."""
    spoken = set(re.findall(r"\b\w+Rule\b", text))
    alone = {f"{kind}::{word}" for kind in spoken for word in re.findall(r"\b[A-Z]\w+", text)}
    return alone | set(re.findall(r"\b[A-Z]\d+ [A-Z]\w+", text))


def coded_in(text):
    """The rules whose codes the comments of a file of definitions name."""
    return {code for comment in re.findall(r"--.*", text) for code in re.findall(r"\b[A-Z]\d+\b", comment)}


def defined_in(text):
    """The rules that a file of definitions speaks of, but for their numbers and texts, as `Kind::Name` or by their codes in comments."""
    kinds = re.findall(r"\b(\w+Rule)\.TheVariants", text)
    lines = [line for line in text.splitlines() if "rule_number" not in line and "_rule_text" not in line]
    names = re.findall(r"\.([A-Z]\w+)", "\n".join(lines)) if kinds else []
    imported = [(kind, name) for kind, listed in re.findall(r"\b(\w+Rule)\.TheVariants\.\{([^}]*)\}", text) for name in re.findall(r"\w+", listed)]
    used = {f"{kind}::{name}" for kind, name in imported if len(re.findall(rf"\b{name}\b", text)) > 1}
    return used | coded_in(text) | {f"{kind}::{name}" for kind in kinds for name in names}


class Sources:
    """Which rules the files of the crates tell, test and define."""

    def __init__(self):
        self.code, self.tests, self.specs = {}, {}, {}
        for path in sorted(CRATES.glob("*/src/**/*.rt")):
            if path.relative_to(CRATES).parts[0].endswith("_tests"):
                self.tests[path] = shown_in(path.read_text())
            elif path != TEXTS:
                self.code[path] = told_in(path.read_text())
        for path in sorted(CRATES.glob("*/specs/**/*.antt")):
            self.specs[path] = defined_in(path.read_text())

    @staticmethod
    def having(files, *rules):
        return [path for path, found in files.items() if found & set(rules)]

    def telling(self, kind, name):
        return self.having(self.code, f"{kind}::{name}")

    def defining(self, kind, code, name):
        return self.having(self.specs, f"{kind}::{name}", code)

    def testing(self, kind, code, name):
        return self.having(self.tests, f"{kind}::{name}", f"{code} {name}")


class Shown:
    """Which cases and rows show a rule."""

    def __init__(self):
        self.cases, self.rows = {}, {}
        for notes in sorted(CASES.rglob("notes")):
            for code in self.codes(notes.read_bytes().decode("latin-1")):
                self.cases.setdefault(code, []).append(str(notes.parent.relative_to(CASES)))
        for path in sorted(CASES.glob("*.rows")):
            for line in path.read_bytes().decode("latin-1").splitlines():
                for code in self.codes(line.rpartition("  =>  ")[2]):
                    self.rows.setdefault(code, set()).add(path.name)

    @staticmethod
    def codes(text):
        return set(re.findall(r": ([A-Z]\d+ \w+)\s*$", text)) | set(re.findall(r"\S ([A-Z]\d+ \w+)\s*$", text))

    def cell(self, rule):
        cases = self.cases.get(rule, [])
        words = [f"[{name}](../cases/{name})" for name in cases[:CASES_SHOWN]]
        if len(cases) > CASES_SHOWN:
            words.append(f"{len(cases) - CASES_SHOWN} more")
        words += [f"[{file}](../cases/{file})" for file in sorted(self.rows.get(rule, ()))]
        return ", ".join(words)


def definitions(code, name, kind, sources):
    """The cell of a rule's definitions."""
    named = ", ".join(map(linked, sources.defining(kind, code, name)))
    kept = [linked(CRATES / path) for path, codes in KEPT.items() if code in codes.split()]
    return named or "".join(f"by {link}" for link in kept)


def row(code, name, kind, sources, shown):
    heading = f"{code.lower()}-{name.lower()}"
    example = "rules.md#c-scenes" if code[0] == "C" else f"rules.md#{heading}"
    tests = [*map(linked, sources.testing(kind, code, name)), shown.cell(f"{code} {name}")]
    cells = [
        f"[{code} {name}]({example})",
        ", ".join(map(linked, sources.telling(kind, name))),
        definitions(code, name, kind, sources),
        ", ".join(filter(None, tests)),
    ]
    return "| " + " | ".join(cells) + " |"


def page(sources, shown):
    """The text of the page."""
    lines, letter, named, types = [HEAD], "", titles(), kinds()
    for code, name in rules():
        if code[0] != letter:
            letter = code[0]
            lines += [f"\n## {letter}: {named[letter]}\n", "| Rule | Told in | Definitions | Tests and cases |", "|---|---|---|---|"]
        lines.append(row(code, name, types.get(f"{code} {name}", ""), sources, shown))
    return "\n".join(lines).replace("\n\n\n", "\n\n") + "\n"


def bare(sources, shown):
    """What is missing: rules of the program that rules.md doesn't have, and rules that no code tells, no test and no case shows."""
    types = kinds()
    listed = [f"{code} {name}" for code, name in rules()]
    for rule in types:
        if rule not in listed:
            yield f"docs/rules.md has no {rule}"
    for code, name in rules():
        rule = f"{code} {name}"
        if rule not in types or not sources.telling(types[rule], name):
            yield f"no code tells {rule}"
        elif not shown.cell(rule) and not sources.testing(types[rule], code, name):
            yield f"neither a test nor a case shows {rule}"


def main():
    sources, shown = Sources(), Shown()
    (DOCS / "rule_index.md").write_text(page(sources, shown))
    wrong = list(bare(sources, shown))
    print("\n".join(wrong), end="\n" if wrong else "")
    return 1 if wrong else 0


if __name__ == "__main__":
    sys.exit(main())
