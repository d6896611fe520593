"""Whether a page's table of turns is that of a run, by the program's own reports of that run's first turns.

A report tells which stacks are ready, and not which of them holds what. Who has a turn is found so: the scene is run with the turns
before it as a list, and that turn idle; the first stack that is ready then, in round order, has it. Whether a stack keeps an instance
in its turn is found by one more call on that instance, which waits where the stack keeps it and is next where it doesn't.

Of a row these words are compared: the stack; "takes `x`", "keeps", "lets .. go", "waits for `x`", "behind stack k", "is due at turn t",
"done", "traces", "`P` becomes n", "idle" and "nobody is ready"; and of columns `P` after it, `x` is, and who waits. A row of several turns
has the columns of its last one.
"""
import functools
import json
import pathlib
import re
import subprocess
import tempfile

NOBODY = 65535
TABLE = re.compile(r"\| Turn \| (Stack|Listed) \|")


class Report:
    """What a report tells."""

    def __init__(self, text):
        self.lines = [line for line in text if line[:1] in "#!"]
        self.turns = int(next(line for line in text if line.startswith("turns ")).split()[1])
        self.status = {int(found[1]): found[2] for found in (re.match(r"stack (\d+) (.*)", line) for line in text) if found}
        self.values = [line.strip().partition(" = ")[::2] for line in text if line.startswith("  ")]

    def ready(self):
        return sorted(stack for stack, status in self.status.items() if status == "ready")

    def released(self, instance, before):
        """Whether a stack that waited for the instance in the report before is its next taker now."""
        return any(self.status.get(stack) == "ready" for stack, status in before.status.items() if status == f"waits {instance}")


class Run:
    """A run of a scene, turn by turn."""

    def __init__(self, program, place, scene, scripts):
        self.program, self.place, self.scripts = program, place, scripts
        self.scene = json.loads((place / scene).read_text())
        self.chosen = []
        self.total = self.report(self.scene["turns"], self.scene["order"]).turns
        for turn in range(self.total):
            self.chosen.append(self.choice(turn))

    def report(self, turns, order, call=None):
        """The report of the first turns, in that order, perhaps with one more call."""
        scene = {**self.scene, "turns": turns, "order": order, "calls": self.scene["calls"] + ([call] if call else [])}
        with tempfile.NamedTemporaryFile("w", suffix=".json") as file:
            json.dump(scene, file)
            file.flush()
            ran = subprocess.run([str(self.program), "run", file.name, *self.scripts], cwd=self.place, stdout=subprocess.PIPE, check=True)
        return Report(ran.stdout.decode().splitlines())

    def choice(self, turn):
        """The stack that has the turn, or None."""
        ready = self.begun(turn).ready()
        listed = self.scene["order"]
        if listed != "round":
            return listed[turn] if turn < len(listed) and listed[turn] in ready else None
        last = next((stack for stack in reversed(self.chosen) if stack is not None), -1)
        return min(ready, key=lambda stack: (stack <= last, stack), default=None)

    def order(self, turns):
        """The list of the stacks of the first turns."""
        return [NOBODY if stack is None else stack for stack in self.chosen[:turns]]

    def begun(self, turn):
        """The report after the calls and sleepers of a turn, before its act."""
        return self.report(turn + 1, [*self.order(turn), NOBODY])

    @functools.lru_cache(maxsize=None)
    def after(self, turn):
        return self.report(turn + 1, self.order(turn + 1))

    def probe(self, turn, instance):
        """A call on the instance at a turn, and the number of its stack."""
        number = sum(call["turn"] <= turn for call in self.scene["calls"])
        return {"turn": turn, "instance": instance, "function": "GetState"}, number

    def is_kept(self, turn, instance):
        """Whether the stack that has the turn holds the instance behind it.

        It has the next turn in place of this one, so that the further call waits behind it also where it woke in this one."""
        call, number = self.probe(turn + 1, instance)
        idle = [*self.order(turn), NOBODY]
        before = self.report(turn + 2, [*idle, NOBODY], call)
        after = self.report(turn + 2, [*idle, self.chosen[turn]], call)
        return after.status.get(number) == f"waits {instance}" and not after.released(instance, before)

    def waits(self, turn, stack, instance):
        """Whether the stack waits for the instance behind the turn."""
        status = self.after(turn).status.get(stack)
        if status != "ready":
            return status == f"waits {instance}"
        call, number = self.probe(turn + 1, instance)
        order = [*self.order(turn + 1), NOBODY]
        return self.report(turn + 2, order, call).status.get(number) == f"waits {instance}"

    def instances(self):
        return [instance["name"] for instance in self.scene["instances"]]


def cells_of(line):
    return [cell.strip() for cell in line.strip().strip("|").split("|")]


def numbers_of(cell):
    """The numbers of `3`, `3, 4` and `3 to 5`."""
    found = re.fullmatch(r"(\d+) to (\d+)", cell)
    if found:
        return list(range(int(found[1]), int(found[2]) + 1))
    return [int(word) for word in re.findall(r"\d+", cell)]


class Table:
    """A table of turns while it is compared with its run."""

    def __init__(self, run, lines):
        self.run = run
        self.head = cells_of(lines[0])
        self.rows = [dict(zip(self.head, cells_of(line))) for line in lines[2:]]
        self.at = dict(enumerate(call["instance"] for call in sorted(run.scene["calls"], key=lambda call: call["turn"])))
        self.wrong = []
        self.turn = None

    def tell(self, text):
        self.wrong.append(f"turn {self.turn}: {text}")

    def faults(self):
        """What the table says otherwise than the run."""
        told = []
        for number, row in enumerate(self.rows):
            turns = numbers_of(row["Turn"]) or told[-1:]
            told += [turn for turn in turns if turn not in told]
            goes_on = number + 1 < len(self.rows) and not self.rows[number + 1]["Turn"]
            if not goes_on:
                self.row(turns, row)
        if told != list(range(self.run.total)):
            self.turn = self.run.total
            self.tell(f"the run has the turns 0 to {self.run.total - 1}, and the table others")
        return self.wrong

    def row(self, turns, row):
        text = " ".join(row[name] for name in self.head if name in ("What it does", "Then it"))
        stacks = numbers_of(row.get("Stack", ""))
        if len(stacks) not in (0, 1, len(turns)):
            self.turn = turns[0]
            self.tell("there are as many stacks as turns, or one")
            return
        before = len(self.run.after(turns[0] - 1).lines) if turns[0] else 0
        for place, self.turn in enumerate(turns):
            if "Listed" in self.head:
                self.listed(row["Listed"], text)
            else:
                self.stack(stacks[place % len(stacks)] if stacks else None, text)
        self.columns(row)
        traced = len(self.run.after(turns[-1]).lines) > before
        if traced != bool(re.search(r"\btraces\b", text)):
            self.tell("a trace is printed" if traced else "no trace is printed")
        if len(turns) == 1 and self.run.chosen[turns[0]] is not None:
            self.claims(self.run.chosen[turns[0]], text)

    def stack(self, stack, text):
        chosen = self.run.chosen[self.turn]
        if stack != chosen:
            self.tell(f"stack {chosen} has it, and not {stack}")
        if stack is None and not re.search(r"idle|nobody is ready", text):
            self.tell("it is idle")

    def listed(self, cell, text):
        order = self.run.scene["order"]
        wanted = str(order[self.turn]) if self.turn < len(order) else ""
        if cell != wanted:
            self.tell(f"{wanted or 'nobody'} is listed")
        if (self.run.chosen[self.turn] is None) != ("idle" in text):
            self.tell("it is idle" if self.run.chosen[self.turn] is None else "it isn't idle")

    def columns(self, row):
        values = self.run.after(self.turn).values
        for name, cell in row.items():
            found = re.fullmatch(r"`?(\w+)`?(?: after it)?", name)
            if found and any(found[1] == known for known, _ in values) and (found[1], cell) not in values:
                self.tell(f"{found[1]} isn't {cell}")
            found = re.fullmatch(r"Then `(\w+)` is", name)
            if found and cell:
                self.owner(found[1], cell)
            if name == "Who waits then, in order":
                for stack, instance in re.findall(r"(\d+) for `(\w+)`", cell):
                    if not self.run.waits(self.turn, int(stack), instance):
                        self.tell(f"stack {stack} doesn't wait for {instance}")

    def owner(self, instance, cell):
        kept = self.run.is_kept(self.turn, instance)
        if kept != cell.startswith("held by"):
            self.tell(f"{instance} is {'held' if kept else 'free'}")
        for stack in re.findall(r"(\d+) waits", cell):
            if not self.run.waits(self.turn, int(stack), instance):
                self.tell(f"stack {stack} doesn't wait for {instance}")

    def claims(self, stack, text):
        """Compares what is said of one stack in its one turn."""
        status = self.run.after(self.turn).status
        own = self.at.get(stack)
        taken = re.search(r"takes `(\w+)`", text)
        if taken and taken[1] in self.run.instances():
            if own not in (None, taken[1]):
                self.tell(f"it takes {own}")
            own = taken[1]
        if own and re.search(r"\bkeeps\b|\blets\b", text) and self.run.is_kept(self.turn, own) != bool(re.search(r"\bkeeps\b", text)):
            self.tell(f"{own} is {'let go' if 'keeps' in text else 'kept'}")
        waits = re.search(r"waits for (?:`(\w+)`|it\b)", text)
        self.at[stack] = (waits[1] or own) if waits else None if re.search(r"\blets\b(?!.*due)", text) else own
        if waits and not self.run.waits(self.turn, stack, self.at[stack]):
            self.tell(f"stack {stack} doesn't wait for {self.at[stack]}")
        if waits and "behind" in text and status.get(stack) != f"waits {self.at[stack]}":
            self.tell(f"stack {stack} is the first that waits")
        due = re.search(r"(?:is due at|until) turn (\d+)", text)
        if due and status.get(stack) != f"asleep {due[1]}":
            self.tell(f"stack {stack} is {status.get(stack)}")
        if bool(re.search(r"\bdone\b", text)) != (status.get(stack) == "done"):
            self.tell(f"stack {stack} is {status.get(stack)}")
        for name, value in re.findall(r"`(\w+)` becomes (\w+)", text):
            if (name, value) not in self.run.after(self.turn).values:
                self.tell(f"{name} doesn't become {value}")


def faults(program, place, command, lines):
    """What a table says otherwise than the run of the page's last command."""
    words = command.split()
    at = words.index("run")
    scripts = [word for word in words[at + 2:] if word.endswith(".psc")]
    return Table(Run(program, pathlib.Path(place), words[at + 1], scripts), lines).faults()
