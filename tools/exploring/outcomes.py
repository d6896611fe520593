"""What a search found: the outcomes, which states lead to each, and where the orders of two part."""
import array
import collections

from .search import Path, by_stack

# An outcome: what is told of it, the state that is reached first among those that have it, how many states lead to it, and whether stacks run on for ever.
Outcome = collections.namedtuple("Outcome", "lines state leading ends")
# Where the orders of two outcomes part: the state, the two steps, and the two orders behind them.
Parting = collections.namedtuple("Parting", "state steps orders")


def split(report):
    """The lines of a run and those of its closing report, without the number of turns."""
    lines = report.splitlines(keepends=True)
    at = next(number for number, line in enumerate(lines) if line.startswith(b"turns "))
    return lines[:at], lines[at + 1:]


def kept(report, properties):
    """What counts of a report: each stack's lines and the closing report, or, where properties are asked for, these alone."""
    lines, closing = split(report)
    if not properties:
        return tuple(by_stack(b"".join(lines)) + closing)
    return tuple(f"{name}.{value}".encode() for name, value in values(closing) if is_asked(name, value, properties))


def values(closing):
    """The properties of a closing report: the instance, and the name and the value as they are written."""
    name = None
    for line in closing:
        text = line.decode(errors="backslashreplace")
        if text.startswith("  "):
            yield name, text[2:]
        elif " : " in text:
            name = text.split(" : ")[0]


def is_asked(instance, value, properties):
    name = value.split(" = ")[0].lower()
    return any(asked.lower() in (name, f"{instance.lower()}.{name}") for asked in properties)


class Edges:
    """The steps from each state, or those to each."""

    def __init__(self, count, heads):
        starts = array.array("l", bytes(8 * (count + 1)))
        for head in heads:
            starts[head + 1] += 1
        for number in range(count):
            starts[number + 1] += starts[number]
        self.starts, self.rows, places = starts, array.array("l", bytes(8 * len(heads))), array.array("l", starts)
        for edge, head in enumerate(heads):
            self.rows[places[head]] = edge
            places[head] += 1

    def of(self, state):
        return self.rows[self.starts[state]:self.starts[state + 1]]


class Findings:
    """The outcomes of a graph, and which of them each state leads to."""

    def __init__(self, graph, properties):
        self.graph, self.count = graph, len(graph)
        self.leaving, self.coming = Edges(self.count, graph.sources), Edges(self.count, graph.targets)
        self.lines, numbers, self.of_end = [], {}, {}
        told = [kept(report, properties) for report in graph.reports]
        for end, report in graph.ends.items():
            number = numbers.setdefault(told[report], len(self.lines))
            if number == len(self.lines):
                self.lines.append(told[report])
            self.of_end[end] = number
        self.masks = self.spread({end: 1 << number for end, number in self.of_end.items()})

    def spread(self, marks):
        """For each state the marks of all states that it leads to, those of itself too."""
        found = [0] * self.count
        work = []
        for state, mark in marks.items():
            found[state] |= mark
            work.append(state)
        while work:
            state = work.pop()
            for edge in self.coming.of(state):
                source = self.graph.sources[edge]
                if found[state] & ~found[source]:
                    found[source] |= found[state]
                    work.append(source)
        return found

    def outcomes(self):
        """The outcomes in which every stack ends, those with the shortest orders first."""
        first, leading = {}, collections.Counter()
        for end, number in self.of_end.items():
            if number not in first or (self.graph.turns[end], end) < (self.graph.turns[first[number]], first[number]):
                first[number] = end
        for mask in self.masks:
            for number in range(len(self.lines)):
                leading[number] += mask >> number & 1
        order = sorted(first, key=lambda number: (self.graph.turns[first[number]], first[number]))
        return {number: Outcome(self.lines[number], first[number], leading[number], True) for number in order}

    def endless(self):
        """Groups of states that no order leaves, and in which not every stack is done: the first state of each, and the stacks that run in it."""
        open_or_end = self.spread({state: 1 for state in [*self.of_end, *self.graph.open]})
        trapped = [state for state in range(self.count) if not open_or_end[state]]
        found = []
        for group in self.bottoms(trapped):
            runs = {self.graph.made[edge].stack for state in group for edge in self.leaving.of(state)}
            found.append((min(group, key=lambda state: (self.graph.turns[state], state)), sorted(runs), group))
        return found

    def bottoms(self, states):
        """The strongly connected groups of these states that no step leaves, by Tarjan's algorithm without recursion."""
        index, low, on_pile, pile, groups = {}, {}, set(), [], []
        for root in states:
            if root in index:
                continue
            work = [(root, iter(self.leaving.of(root)))]
            index[root] = low[root] = len(index)
            pile.append(root)
            on_pile.add(root)
            while work:
                state, edges = work[-1]
                for edge in edges:
                    target = self.graph.targets[edge]
                    if target not in index:
                        index[target] = low[target] = len(index)
                        pile.append(target)
                        on_pile.add(target)
                        work.append((target, iter(self.leaving.of(target))))
                        break
                    if target in on_pile:
                        low[state] = min(low[state], index[target])
                else:
                    work.pop()
                    if work:
                        low[work[-1][0]] = min(low[work[-1][0]], low[state])
                    if low[state] == index[state]:
                        group = set()
                        while state not in group:
                            on_pile.discard(pile[-1])
                            group.add(pile.pop())
                        if all(self.graph.targets[edge] in group for member in group for edge in self.leaving.of(member)):
                            groups.append(sorted(group))
        return sorted(groups)

    def parting(self, one, other):
        """The last state at which the orders of two outcomes part: one step leads to the one and no more to the other, or, where no such
        step is, each to its own. None where no state leads to both."""
        best = None
        for state in range(self.count):
            if not (self.masks[state] >> one & 1 and self.masks[state] >> other & 1):
                continue
            steps = self.steps_apart(state, one, other)
            if steps:
                rank = (steps[0], self.graph.turns[state], -state)
                if best is None or rank > best[0]:
                    best = (rank, state, steps[1:])
        if best is None:
            return None
        _, state, edges = best
        orders = [self.order_behind(edge, number) for edge, number in zip(edges, (one, other))]
        return Parting(state, [self.graph.made[edge] for edge in edges], orders)

    def steps_apart(self, state, one, other):
        """Whether the two steps decide, and the steps."""
        edges = list(self.leaving.of(state))
        mask = {edge: self.masks[self.graph.targets[edge]] for edge in edges}
        found = None
        for left in edges:
            for right in edges:
                if left != right and mask[left] >> one & 1 and mask[right] >> other & 1:
                    decides = not (mask[left] >> other & 1) or not (mask[right] >> one & 1)
                    if found is None or decides > found[0]:
                        found = (decides, left, right)
        return found

    def order_behind(self, edge, number):
        """The steps from an edge on to the nearest state with an outcome."""
        start = self.graph.targets[edge]
        came, work = {start: None}, collections.deque([start])
        while work:
            state = work.popleft()
            if self.of_end.get(state) == number:
                break
            for next_edge in self.leaving.of(state):
                target = self.graph.targets[next_edge]
                if target not in came and self.masks[target] >> number & 1:
                    came[target] = next_edge
                    work.append(target)
        steps = []
        while came[state] is not None:
            steps.append(self.graph.made[came[state]])
            state = self.graph.sources[came[state]]
        return [self.graph.made[edge], *reversed(steps)]


def path_to(graph, state, orders, behind=()):
    """The path to a state, and these steps behind it."""
    return Path([*graph.path(state), *behind], orders)
