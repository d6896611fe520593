#!/usr/bin/env python3
"""Prints what docs/rules.md says of a rule, as plain text, and of the rules C4 to C10 how docs/scenes.md finds the entry.

  explain.py         lists the rules, a line each
  explain.py RULE    explains a rule, which is named by its code, its name or both, in any case. What stands before both, as in the line of a
                     refusal, doesn't count, and a name that several rules have stands for all of them

The statuses are those of the program: 2 where there is no such rule, and those near it go to standard error; 3 where a page can't be read, 4 where
what is printed can't be written.
"""
import collections
import difflib
import os
import pathlib
import posixpath
import re
import shutil
import signal
import sys
import textwrap

ROOT = pathlib.Path(__file__).resolve().parent.parent
RULES, SCENES = "docs/rules.md", "docs/scenes.md"
# A code in a text, which stays as it is, or a link.
LINK = re.compile(r"`[^`]*`|\[((?:`[^`]*`|[^\[\]`])*)\]\(([^()\s]+)\)")
RULE = re.compile(r"[A-Z]\d+ \w+")
# Before an item of a list.
ITEM = re.compile(r"\n(?=- |\d+\. )")
# The fewest letters of a part of a name that is looked for.
PART = 3
DOTS = "..."
FEWEST_COLUMNS, MOST_COLUMNS = 80, 100

# A paragraph, whose lines are joined to one, or the items of a list; the rows of a table; or a fence with its words.
Block = collections.namedtuple("Block", "form lines kind name", defaults=("", ""))
Rule = collections.namedtuple("Rule", "code name blocks")


def sections(text):
    """The lines below each heading of a page, by heading in the order of the page."""
    found, inside = {"": []}, False
    for line in text.splitlines():
        inside ^= line.startswith("```")
        if line.startswith("#") and not inside:
            found[line.lstrip("# ")] = []
        else:
            found[list(found)[-1]].append(line)
    return found


def unlinked(text, page):
    """A text of a page whose links are the paths of what they lead to, from the top of the repository."""

    def path(link):
        if link[2] is None or re.match(r"[a-z]+:", link[2]):
            return link[0] if link[2] is None else f"{link[1]} ({link[2]})"
        file, _, heading = link[2].partition("#")
        target = posixpath.normpath(posixpath.join(posixpath.dirname(page), file)) if file else page
        place = f"{target}#{heading}" if heading else target
        return place if link[1].strip("`") in (file, target) else f"{link[1]} ({place})"

    return LINK.sub(path, text)


def blocks(lines, page):
    """The paragraphs, tables and fences of a section."""
    found, at = [], 0
    while at < len(lines):
        end = at + 1
        if lines[at].startswith("```"):
            end = lines.index("```", at + 1) + 1
            kind, _, name = lines[at][3:].partition(" ")
            found.append(Block("fence", lines[at + 1 : end - 1], kind, name))
        elif lines[at]:
            end = next((place for place in range(at, len(lines)) if not lines[place] or lines[place].startswith("```")), len(lines))
            table = lines[at].startswith("|")
            texts = lines[at:end] if table else ITEM.split("\n".join(lines[at:end]))
            found.append(Block("table" if table else "prose", [unlinked(re.sub(r"\n\s*", " ", text), page) for text in texts]))
        at = end
    return found


def cells(row):
    return [cell.strip().replace("\\|", "|") for cell in re.split(r"(?<!\\)\|", row)[1:-1]]


def table_of(found):
    """The rows of the first table of these blocks, of which the first has the names of the columns."""
    rows = next((block.lines for block in found if block.form == "table"), [])
    return [cells(row) for row in rows if not re.match(r"\|[-|]+$", row)]


def sentence(text):
    """A text of a cell as a sentence."""
    return text[:1].upper() + text[1:] + ("" if text.endswith(".") else ".")


def prose(text):
    return Block("prose", [text])


class Pages:
    """What the pages say of rules."""

    def __init__(self, rules, scenes):
        self.parts = {heading: blocks(lines, RULES) for heading, lines in sections(rules).items()}
        finding = sections(scenes).get("How to find the entry", [])
        self.finding = blocks(finding, SCENES)
        self.head = self.parts[next((heading for heading in self.parts if heading), "")]
        self.titles = {heading[0]: heading[3:] for heading in self.parts if re.match(r"[A-Z]: ", heading)}
        # What a line of an example stands in where it isn't a file: these lines, of which one has dots, or behind this listing.
        self.frame = next((block.lines for block in self.head if DOTS in map(str.strip, block.lines)), [DOTS])
        self.listing = next((block for part in self.parts.values() for block in part if block.kind == "listing" and block.name == "J.txt"), None)
        self.rules = list(self.all_rules())

    def all_rules(self):
        """The rules of the page, which are headings or rows of a table, in their order."""
        for heading, found in self.parts.items():
            if RULE.fullmatch(heading):
                yield Rule(*heading.split(), found)
            columns, *rows = table_of(found) or [[]]
            yield from (self.of_row(columns, row) for row in rows if RULE.fullmatch(row[0]))

    def of_row(self, columns, row):
        """The rule of a row of a table."""
        code, name = row[0].split()
        told = [prose(sentence(row[1])), *(prose(f"{column}: {cell}") for column, cell in list(zip(columns, row))[2:])]
        return Rule(code, name, [*told, *self.how_to_find(code)])

    def how_to_find(self, code):
        """The blocks on finding the entry that a rule's line doesn't tell: the row of the rule, and the paragraph behind the table."""
        columns, *rows = table_of(self.finding) or [[]]
        row = next((row for row in rows if row[0] == code), [])
        yield from (prose(f"{column}: {cell}") for column, cell in list(zip(columns, row))[1:] if cell)
        forms = [block.form for block in self.finding]
        if row and "prose" in forms[forms.index("table") :]:
            yield self.finding[forms.index("prose", forms.index("table"))]

    def refused(self, code):
        """What a rule refuses, as the table of the page's head has it."""
        for row in table_of(self.head)[1:]:
            if code[0] in re.findall(r"[A-Z]", re.sub(r"\([^)]*\)", "", row[0])):
                return f"Refuses {row[1]}, with status {row[2]}. The place that its line tells: {row[3]}."
        return ""

    def framed(self, lines):
        """These lines in the frame, in the place of its line with dots."""
        at = next(at for at, line in enumerate(self.frame) if line.strip() == DOTS)
        return [*self.frame[:at], *(self.frame[at].replace(DOTS, line) for line in lines), *self.frame[at + 1 :]]

    def file_of(self, fence):
        """The name of the file that a fence stands for, if it is one, and all its lines."""
        if fence.kind == "papyrus" and not fence.name:
            alone = fence.lines[0].lower().startswith("scriptname")
            return "A.psc", fence.lines if alone else self.framed(fence.lines)
        if fence.kind == "listing" and not fence.name and self.listing:
            return self.listing.name, [*self.listing.lines, *fence.lines]
        return fence.name, fence.lines


def wrapped(text, width):
    """The lines of a text. What stands between two backticks isn't broken."""
    whole = re.sub(r"`[^`]*`", lambda code: code[0].replace(" ", "\0"), text)
    lines = textwrap.wrap(whole, width, break_long_words=False, break_on_hyphens=False)
    return [line.replace("\0", " ") for line in lines]


def explained(rule, pages, width):
    """The lines that explain a rule."""
    lines = [f"{rule.code} {rule.name}", *wrapped(pages.refused(rule.code), width)]
    for block in rule.blocks:
        lines.append("")
        if block.form == "fence":
            name, content = pages.file_of(block)
            digits = ", in hexadecimal digits" if block.kind == "hex" else ""
            lines += [*([f"{name}{digits}:"] if name else []), *(f"    {line}".rstrip() for line in content)]
        else:
            lines += [line for text in block.lines for line in wrapped(text, width)]
    return lines


def listed(rules, longest, width):
    """A line for each rule, with the first sentence on it, where the longest name has so many letters."""
    for rule in rules:
        first = re.match(r".*?\.(?= |$)|.*", rule.blocks[0].lines[0])[0]
        begin = f"{rule.code:3} {rule.name:{longest}}  "
        yield begin + textwrap.shorten(first, width - len(begin), placeholder=" ..")


def keys(rule):
    """How a rule may be named, in lower case."""
    return {rule.code.lower(), rule.name.lower(), f"{rule.code} {rule.name}".lower()}


def near(word, rules):
    """The rules near a word: of its letter, else of its number; or with a name like it, or with it as a part."""
    exact = [rule for rule in rules if word in keys(rule)]
    code = re.fullmatch(r"([a-z])(\d*)", word)
    if code and not exact:
        return [rule for rule in rules if rule.code[0].lower() == code[1]] or [rule for rule in rules if rule.code[1:] == code[2]]
    close = difflib.get_close_matches(word, [rule.name.lower() for rule in rules], n=len(rules))
    return exact or [rule for rule in rules if rule.name.lower() in close or (len(word) >= PART and word in rule.name.lower())]


def all_listed(pages, width):
    """The rules, a line each, below what they are of."""
    longest = max(len(rule.name) for rule in pages.rules)
    groups = {letter: [rule for rule in pages.rules if rule.code[0] == letter] for letter in pages.titles}
    return joined([f"{letter}: {pages.titles[letter]}", *listed(rules, longest, width)] for letter, rules in groups.items())


def joined(groups):
    """The lines of all groups, with an empty one between two groups."""
    return [line for at, group in enumerate(groups) for line in ([""] if at else []) + list(group)]


def answer(words, pages, width):
    """The status, what goes to standard output, and what goes to standard error."""
    if not words:
        return 0, all_listed(pages, width), []
    asked = " ".join(words).split()[-2:]
    found = [rule for rule in pages.rules if " ".join(asked).lower() in keys(rule)]
    if found:
        return 0, joined(explained(rule, pages, width) for rule in found), []
    close = [rule for word in asked for rule in near(word.lower(), pages.rules)]
    lack = f"papyrus: there is no rule {' '.join(asked)}"
    if close:
        longest = max(len(rule.name) for rule in close)
        return 2, [], [f"{lack}. Near it are", *listed([rule for rule in pages.rules if rule in close], longest, width)]
    return 2, [], [f"{lack}, and none is near it. papyrus explain lists the rules"]


def read_pages():
    return Pages(*((ROOT / page).read_text(encoding="utf-8") for page in (RULES, SCENES)))


def put(stream, lines):
    """Whether these lines were written whole."""
    data = "".join(line + "\n" for line in lines).encode("utf-8", "replace")
    try:
        while data:
            data = data[os.write(stream, data) :]
    except OSError:
        return False
    return True


def main():
    signal.signal(signal.SIGPIPE, signal.SIG_DFL)
    try:
        pages = read_pages()
    except OSError as error:
        return 3 if put(2, [f"papyrus: cannot read {error.filename}"]) else 4
    width = min(max(shutil.get_terminal_size((MOST_COLUMNS, 0)).columns, FEWEST_COLUMNS), MOST_COLUMNS)
    status, lines, notes = answer(sys.argv[1:], pages, width)
    if put(1, lines) and put(2, notes):
        return status
    put(2, ["papyrus: cannot write"])
    return 4


if __name__ == "__main__":
    sys.exit(main())
