"""What must hold in every order of turns: `chest.Gold = 3` and `gate @Open` at the end, `always ..` of these at every turn, `every stack ends`,
`no faults`, and `never "text"` of what is traced."""
import operator
import re

from .outcomes import split, values

ORDERS = {"<": operator.lt, "<=": operator.le, ">": operator.gt, ">=": operator.ge}
COMPARED = re.compile(r"(?P<instance>\S+)\.(?P<name>\w+)\s*(?P<sign>=|!=|<=|>=|<|>)\s*(?P<value>-?\d+|true|false|none|\"[^\"]*\")", re.IGNORECASE)
STATE = re.compile(r"(?P<instance>\S+)\s+@(?P<state>\w*)")
NEVER = re.compile(r"never\s+\"(?P<text>[^\"]+)\"", re.IGNORECASE)
ALWAYS = re.compile(r"always\s+(?P<rest>.*)", re.IGNORECASE)


class NoExpectation(Exception):
    """A text that is no expectation, or that names nothing of the scene."""


class Report:
    """What a closing report tells of instances: their properties and their states."""

    def __init__(self, report):
        self.values, self.states = {}, {}
        closing = split(report)[1]
        for instance, text in values(closing):
            name, _, value = text.rstrip("\n").partition(" = ")
            self.values[instance.lower(), name.lower()] = value
        for line in closing:
            text = line.decode(errors="backslashreplace").rstrip("\n")
            if " : " in text and not text.startswith("  "):
                instance, _, rest = text.partition(" : ")
                self.states[instance.lower()] = rest.partition(" @")[2]


class Condition:
    """A property that is compared with a value, or an instance that is in a state. `broken` gives what is found in its place, or nothing."""

    def __init__(self, text):
        compared, state = COMPARED.fullmatch(text), STATE.fullmatch(text)
        if compared is None and state is None:
            raise NoExpectation(f"{text}: is no expectation")
        self.text, self.sign = text, compared and compared["sign"]
        # As they are written, and in the case in which reports are looked up.
        self.written = [(compared or state)["instance"], compared and compared["name"]]
        self.instance, self.name = (word and word.lower() for word in self.written)
        self.value = compared["value"] if compared else state["state"]

    def look_up(self, start):
        """Refuses what the report of a scene's start doesn't have."""
        if self.instance not in start.states:
            raise NoExpectation(f"{self.text}: no instance of the scene is {self.written[0]}")
        if self.name is None:
            return
        found = start.values.get((self.instance, self.name))
        if found is None:
            raise NoExpectation(f"{self.text}: {self.written[0]} has no property {self.written[1]}")
        if self.sign in ORDERS and not (is_number(self.value) and is_number(found)):
            raise NoExpectation(f"{self.text}: {self.sign} compares numbers alone")

    def broken(self, report):
        if self.name is None:
            found = report.states[self.instance]
            return None if found.lower() == self.value.lower() else f"{self.written[0]} is @{found}"
        found = report.values[self.instance, self.name]
        return None if self.holds(found) else f"{'.'.join(self.written)} is {found}"

    def holds(self, found):
        if self.sign in ORDERS:
            return is_number(found) and ORDERS[self.sign](int(found), int(self.value))
        if self.value.startswith('"'):
            same = found == self.value[1:-1]
        elif is_number(self.value):
            same = is_number(found) and int(found) == int(self.value)
        else:
            same = found.lower() == self.value.lower()
        return same == (self.sign == "=")


def is_number(text):
    return re.fullmatch(r"-?\d+", text) is not None


class Expectation:
    """One of them. It has a condition at the end or at every turn, or is of lines, or that every stack ends."""

    def __init__(self, text):
        self.text = " ".join(text.split())
        always, never = ALWAYS.fullmatch(self.text), NEVER.fullmatch(text.strip())
        self.condition = self.never = None
        self.is_of_end = self.is_of_faults = self.is_always = False
        if self.text.lower() == "every stack ends":
            self.is_of_end = True
        elif self.text.lower() == "no faults":
            self.is_of_faults = True
        elif never:
            self.never = never["text"].encode()
        else:
            self.is_always = always is not None
            self.condition = Condition(always["rest"] if always else self.text)

    def broken_by_line(self, lines):
        """The first of these lines that breaks it, or nothing."""
        for line in lines:
            if line.startswith(b"!") if self.is_of_faults else self.never is not None and line.startswith(b"#") and self.never in line:
                return line.decode(errors="backslashreplace").rstrip("\n")
        return None


class Expectations:
    """Those that a command line asks for."""

    def __init__(self, words):
        self.all = [expectation for word in words for expectation in read(word)]
        self.of_lines = [(place, one) for place, one in enumerate(self.all) if one.is_of_faults or one.never is not None]
        self.always = [(place, one) for place, one in enumerate(self.all) if one.is_always]
        self.at_end = [(place, one) for place, one in enumerate(self.all) if one.condition]

    def look_up(self, report):
        start = Report(report)
        for one in self.all:
            if one.condition:
                one.condition.look_up(start)

    def broken_by_lines(self, lines):
        """Which are broken by these lines, and how."""
        found = [(place, one.broken_by_line(lines)) for place, one in self.of_lines]
        return [(place, how) for place, how in found if how is not None]

    def broken_by_values(self, report, is_end):
        """Which are broken by the values of a report, and how."""
        told = Report(report)
        found = [(place, one.condition.broken(told)) for place, one in (self.at_end if is_end else self.always)]
        return [(place, how) for place, how in found if how is not None]


def read(word):
    """The expectation that a word is, or those of the file that it names, one a line. Empty lines, and those that begin with #, have none."""
    try:
        return [Expectation(word)]
    except NoExpectation as fault:
        try:
            with open(word, encoding="utf-8") as file:
                lines = file.read().splitlines()
        except (OSError, ValueError):
            raise NoExpectation(f"{word}: is no expectation, and no file that can be read") from fault
    return [Expectation(line) for line in lines if line.strip() and not line.lstrip().startswith("#")]
