"""Reads a journal by the rules J1 and J2, a line at a time, as the program's command `waits` does."""
import collections
import functools
import heapq
import io
import re

MOST_BYTES = 128 * 1024 * 1024
MOST_INSTANCES, LAST_STACK, MOST_TURNS, LARGEST = 256, 1023, 1_000_000, 4_294_967_295
NAMES = {"J1": "BadLine", "J2": "BadMove"}
NUMBER = re.compile(rb"0|[1-9][0-9]{0,9}")
INSTANCE = re.compile(rb"[A-Za-z0-9_]{1,64}")
# How many numbers stand behind each word.
NUMBERS = {"turn": 1, "end": 1, "run": 1, "idle": 0, "free": 1, "leave": 1, "done": 1, "join": 2, "take": 2, "release": 2, "sleep": 2}
OF_INSTANCES = {"join", "take", "release"}

ON = {word: f"on_{word}" for word in ("journal", "instance", *NUMBERS)}

# A line that was read: its turn, whether it stands behind the turn's `run`, its word and its numbers.
Line = collections.namedtuple("Line", "turn acted word numbers")


class Broken(Exception):
    """The rule that a journal breaks, and the first line that does so."""

    def __init__(self, rule, line):
        super().__init__(f"{line}: {rule} {NAMES[rule]}")
        self.rule, self.line = rule, line


class BadLine(Exception):
    """A line breaks J1."""


class BadMove(Exception):
    """A line breaks J2."""


# Most lines of a long journal stand in it many times.
@functools.lru_cache(maxsize=1 << 15)
def parsed(text):
    """The word of a line and what stands behind it: a name of bytes, or numbers."""
    first, *rest = text.split(b" ")
    word = first.decode("ascii", "replace")
    if word == "journal" and rest == [b"1"]:
        return word, ()
    if word == "instance" and len(rest) == 1 and INSTANCE.fullmatch(rest[0]):
        return word, tuple(rest)
    if NUMBERS.get(word) != len(rest) or not all(map(NUMBER.fullmatch, rest)):
        raise BadLine
    numbers = tuple(map(int, rest))
    if max(numbers, default=0) > LARGEST:
        raise BadLine
    return word, numbers


class Standing:
    """What the lines so far leave: where each stack is, and who waits."""

    def __init__(self):
        # Which lines may follow: start, instances, begun, ran, idle, ended.
        self.stage = "start"
        self.names = []
        # How many turns have begun. The last of them has the number below.
        self.turns = 0
        # A stack's place: free, between or done, or one of waits and holds with an instance, or asleep with a turn.
        self.places = []
        self.queues = []
        self.holders = []
        self.sleepers = []
        self.woken = -1
        self.running = None
        self.left = False
        self.just_ran = False

    def may_stand(self, word, numbers):
        """Whether a line of this form may stand here, else it breaks J1."""
        if word in ("turn", "end"):
            return self.stage in ("instances", "ran", "idle") and numbers[0] == self.turns <= MOST_TURNS
        if word == "journal":
            return self.stage == "start"
        if word == "instance":
            return self.stage == "instances" and not self.turns and len(self.names) < MOST_INSTANCES
        if self.stage not in (("begun",) if word in ("run", "idle") else ("begun", "ran")):
            return False
        if word in OF_INSTANCES and numbers[1] >= len(self.names):
            return False
        return word == "idle" or numbers[0] <= LAST_STACK

    def go_past(self, word, numbers):
        """Goes past a line, or tells that it isn't allowed."""
        just_ran, self.just_ran = self.just_ran, False
        if word == "take":
            self.take(just_ran, *numbers)
        else:
            getattr(self, ON[word])(*numbers)

    def place(self, stack):
        return self.places[stack] if stack < len(self.places) else ("new", None)

    def nobody_is_due(self):
        while self.sleepers and self.places[self.sleepers[0][1]] != ("asleep", self.sleepers[0][0]):
            heapq.heappop(self.sleepers)
        return not self.sleepers or self.sleepers[0][0] >= self.turns

    def is_ready(self, stack):
        kind, instance = self.place(stack)
        if kind == "waits":
            return self.holders[instance] is None and self.queues[instance][0] == stack
        return kind in ("free", "holds")

    def on_journal(self):
        self.stage = "instances"

    def on_instance(self, name):
        self.names.append(name.decode("ascii"))
        self.queues.append(collections.deque())
        self.holders.append(None)

    def settle_turn(self):
        """The turn that ends: its stack took its instance where it waited, and has a place again where it let go."""
        if self.running is not None and self.place(self.running)[0] in (("between",) if self.left else ("waits",)):
            raise BadMove
        self.running, self.left, self.woken = None, False, -1

    def on_turn(self, _):
        self.settle_turn()
        self.turns += 1
        self.stage = "begun"

    def on_end(self, _):
        self.settle_turn()
        self.stage = "ended"

    def on_idle(self):
        if not self.nobody_is_due():
            raise BadMove
        self.stage = "idle"

    def on_run(self, stack):
        if not self.nobody_is_due() or not self.is_ready(stack):
            raise BadMove
        self.running, self.stage, self.just_ran = stack, "ran", True

    def take(self, just_ran, stack, instance):
        if not just_ran or stack != self.running or self.place(stack) != ("waits", instance):
            raise BadMove
        self.queues[instance].popleft()
        self.holders[instance] = stack
        self.places[stack] = ("holds", instance)

    def let_go(self, stack, place):
        if self.stage != "ran" or stack != self.running or self.left or self.place(stack) != place:
            raise BadMove
        self.left = True
        self.places[stack] = ("between", None)

    def on_release(self, stack, instance):
        self.let_go(stack, ("holds", instance))
        self.holders[instance] = None

    def on_leave(self, stack):
        self.let_go(stack, ("free", None))

    def move(self, stack, place, begins=False):
        """A stack comes to a place: as a new one, where that may be; as a sleeper that is due; or after it let go."""
        if self.stage == "ran":
            allowed = stack == self.running and self.place(stack)[0] == "between"
        elif begins and self.woken < 0 and stack == len(self.places):
            self.places.append(place)
            return
        else:
            kind, until = self.place(stack)
            allowed = kind == "asleep" and until < self.turns and self.woken < stack
            self.woken = stack
        if not allowed:
            raise BadMove
        self.places[stack] = place

    def on_join(self, stack, instance):
        self.move(stack, ("waits", instance), begins=True)
        self.queues[instance].append(stack)

    def on_free(self, stack):
        self.move(stack, ("free", None))

    def on_sleep(self, stack, until):
        if self.stage != "ran" or until < self.turns:
            raise BadMove
        self.move(stack, ("asleep", until))
        heapq.heappush(self.sleepers, (until, stack))

    def on_done(self, stack):
        if self.stage != "ran":
            raise BadMove
        self.move(stack, ("done", None))

    def statuses(self):
        """How a report tells each stack's place between two turns."""
        return [self.status(stack) for stack in range(len(self.places))]

    def status(self, stack):
        kind, value = self.places[stack]
        if self.is_ready(stack):
            return "ready"
        return {"waits": f"waits {self.names[value]}" if kind == "waits" else "", "asleep": f"asleep {value}"}.get(kind, kind)


def lines_of(data, standing):
    """The lines of a journal in their order, each when the standing is just past it."""
    if len(data) > MOST_BYTES:
        raise Broken("J1", 0)
    number = 0
    for number, text in enumerate(io.BytesIO(data), 1):
        try:
            if not text.endswith(b"\n"):
                raise BadLine
            word, numbers = parsed(text[:-1])
            if not standing.may_stand(word, numbers):
                raise BadLine
            line = Line(standing.turns - 1, standing.stage == "ran", word, numbers)
            standing.go_past(word, numbers)
        except BadLine:
            raise Broken("J1", number) from None
        except BadMove:
            raise Broken("J2", number) from None
        yield line
    if standing.stage != "ended":
        raise Broken("J1", number + 1)
