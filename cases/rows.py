"""Files of rows: black-box cases of one line each. The head of run.py says what stands in them."""
import re

HEADING = re.compile(r"\[(file) (\S+)\](?: (.*))?|\[(words|earlier|out)\] (.+)|\[(rows|anew)\]")
PLACE = re.compile(r"@([1-9])")
ESCAPE = re.compile(r"\\\{((?:[^\\{}]|\\[^{])*)\*(\d+)\}|\\x([0-9A-Fa-f]{2})|\\(.?)", re.DOTALL)
SINGLE = {"n": "\n", "r": "\r", "t": "\t", "\\": "\\", "|": "|"}


class Malformed(Exception):
    """A line that has no form, with what is wrong with it."""


class Row:
    """A row of a file: the files and the commands that it is run with, and what it wants.

    All text is held as one character a byte."""

    def __init__(self, name, files, earlier, words, status, answer):
        self.name = name
        self.files = files
        self.earlier = earlier
        self.words = words
        self.status = status
        self.answer = answer


class MalformedRow:
    """Stands for a line of a file of rows that has no form: a case that always fails."""

    def __init__(self, name, fault):
        self.name = name
        self.fault = fault


def unescaped(text):
    def meaning(found):
        part, times, byte, single = found.groups()
        if times:
            return unescaped(part) * int(times)
        if byte:
            return chr(int(byte, 16))
        if single not in SINGLE:
            raise Malformed(f"there is no escape \\{single}")
        return SINGLE[single]

    return ESCAPE.sub(meaning, text)


def filled(text, fields, used):
    """The text with the fields at their places, which are noted as used."""

    def field(found):
        number = int(found[1])
        if number > len(fields):
            raise Malformed(f"there is no field for @{number}")
        used.add(number)
        return fields[number - 1]

    return PLACE.sub(field, text)


def parts_of(line):
    """The fields of a row, as they are written, with its status and its answer."""
    written, arrow, answer = line.rpartition("  =>  ")
    if not arrow:
        raise Malformed("a row has its answer behind two blanks, => and two blanks")
    status, _, text = answer.partition(" ")
    if not status.isdigit():
        raise Malformed(f"the answer begins with a status, and {status!r} is none")
    return written.split(" | "), status, unescaped(text)


class Reader:
    """Goes over the lines of a file of rows, and keeps what the sections so far have set."""

    def __init__(self, name):
        self.name = name
        self.rows = []
        self.start_over()

    def start_over(self):
        self.files = {}
        self.earlier = []
        self.words = None
        self.out = "@0"
        self.file = None
        self.in_rows = False

    def heading(self, line):
        found = HEADING.fullmatch(line)
        if not found:
            raise Malformed("there is no such heading")
        file, name, text, setting, value, single = found.groups()
        self.file = name if text is None else None
        self.in_rows = single == "rows"
        if file:
            self.files[name] = text or ""
        elif setting == "earlier":
            self.earlier.append(value)
        elif setting:
            setattr(self, setting, value)
        elif single == "anew":
            self.start_over()
        elif self.words is None:
            raise Malformed("no [words] stand before these rows")

    def row(self, number, line):
        written, status, answer = parts_of(line)
        fields = [unescaped(field) for field in written]
        used = set()
        files = {name: filled(text, fields, used) for name, text in self.files.items()}
        earlier, words = (
            [[unescaped(word) for word in filled(command, written, used).split()] for command in commands]
            for commands in (self.earlier, [self.words])
        )
        if status == "0":
            answer = unescaped(self.out).replace("@0", answer)
        for at, field in enumerate(fields, 1):
            if field and at not in used:
                raise Malformed(f"no file and no word has a place @{at}")
        self.rows.append(Row(f"{self.name}:{number}", files, earlier, words[0], status, answer))

    def line(self, number, line):
        if line.startswith("["):
            self.heading(line)
        elif self.file is not None:
            self.files[self.file] += line + "\n"
        elif line.strip() and not line.startswith("#"):
            if not self.in_rows:
                raise Malformed("a row stands behind a heading [rows]")
            self.row(number, line)


def rows_of(path):
    """The rows of a file in their order. A malformed line, and a file without rows, is one that fails."""
    reader = Reader(path.stem)
    for number, line in enumerate(path.read_bytes().decode("latin-1").split("\n"), 1):
        try:
            reader.line(number, line)
        except Malformed as fault:
            reader.rows.append(MalformedRow(f"{path.stem}:{number}", str(fault)))
    return reader.rows or [MalformedRow(path.stem, "the file has no rows")]
