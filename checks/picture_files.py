"""Reads a picture of `papyrus view` or `papyrus picture` back from its HTML file, and the journal of the run from that."""
import collections
import html.parser
import re

QUARTERS, ACT = 4, 3
VOID = {"meta", "input", "br"}

# A bar of a lane: its classes, where it begins, how long it is, what it tells and its text.
Bar = collections.namedtuple("Bar", "kind begin length title text")


class Row:
    """A row with the bars of each lane, and the text of its panel."""

    def __init__(self, anchor, kind, folded=False):
        self.anchor, self.kind, self.folded, self.lanes = anchor, kind, folded, []
        self.name, self.heading, self.panel = "", "", ""

    def bars(self, kind=""):
        return [bar for lane in self.lanes for bar in lane if not kind or bar.kind.split()[0] == kind]


class Picture(html.parser.HTMLParser):
    """The rows, tables, anchors and links of a picture. `wrong` tells what no browser would take as it is meant."""

    def __init__(self, text):
        super().__init__()
        self.rows, self.ids, self.links, self.cells, self.wrong = [], [], [], [], []
        self.turns = None
        self.open = []
        self.look = ""
        self.feed(text)
        self.close()
        self.wrong += [f"{tag} isn't closed" for tag, _ in self.open]
        self.wrong += [f"the anchor {one} stands twice" for one, times in collections.Counter(self.ids).items() if times > 1]
        self.wrong += [f"nothing is at {link}" for link in self.links if link.startswith("#") and link[1:] not in self.ids]
        self.wrong += [f"{link} is somewhere else" for link in self.links if not link.startswith("#")]

    def handle_starttag(self, tag, attributes):
        values = dict(attributes)
        style = dict(re.findall(r"--(\w+):([\d.]+)", values.get("style") or ""))
        kind = values.get("class") or ""
        if tag not in VOID:
            self.open.append((tag, kind))
        if "id" in values:
            self.ids.append(values["id"])
        if "href" in values or "src" in values:
            self.links.append(values.get("href") or values.get("src"))
        if kind == "sheet":
            self.turns = int(style["t"])
        elif kind.split()[:1] == ["row"]:
            self.rows.append(Row(values.get("id", ""), kind.split()[1], "untouched" in kind.split()))
        elif kind.split()[:1] == ["lane"]:
            self.rows[-1].lanes.append([])
        elif tag in ("i", "u") and self.rows and "lane" in dict(self.open[-2:-1]).get("div", ""):
            self.rows[-1].lanes[-1].append(Bar(kind, int(style["a"]), int(style["n"]), values.get("title", ""), ""))
        elif tag in ("td", "th"):
            self.cells.append("")

    def handle_endtag(self, tag):
        if not self.open or self.open[-1][0] != tag:
            self.wrong.append(f"{tag} is closed where {self.open[-1:]} is open")
            return
        self.open.pop()

    def handle_data(self, data):
        tags = [tag for tag, _ in self.open]
        kinds = [kind for _, kind in self.open]
        if any(kind.split()[:1] == ["look"] for kind in kinds):
            self.look += data
        elif "name" in kinds and {"b", "button"} & set(tags):
            self.rows[-1].name += data
        elif "name" in kinds and "small" in tags:
            self.rows[-1].heading += data
        elif "panel" in kinds:
            self.rows[-1].panel += data if "p" in tags else f"\n{data}\n"
        elif tags[-1:] == ["i"] and self.rows and self.rows[-1].lanes and self.rows[-1].lanes[-1]:
            self.rows[-1].lanes[-1][-1] = self.rows[-1].lanes[-1][-1]._replace(text=data)
        elif {"td", "th"} & set(tags):
            self.cells[-1] += data

    def of_kind(self, kind):
        return [row for row in self.rows if row.kind == kind]

    def journal(self):
        """The text of the journal that the rows of the stacks tell, from the first turn to the last that is drawn."""
        names = [row.name for row in self.of_kind("instance")]
        begun, acted = collections.defaultdict(list), collections.defaultdict(list)
        for stack, row in enumerate(self.of_kind("stack")):
            self.moves(stack, [bar for bar in row.lanes[0] if bar.kind != "act"], begun, acted)
        lines = ["journal 1", *(f"instance {name}" for name in names)]
        for turn, stack in enumerate(self.whose()):
            lines += [f"turn {turn}", *(line for _, line in sorted(begun[turn]))]
            lines += [f"run {stack}", *acted[turn]] if stack is not None else ["idle"]
        return "".join(f"{line}\n" for line in [*lines, f"end {self.turns}"]).encode()

    def whose(self):
        """Whose each turn is, by the row of turns."""
        found = []
        for bar in self.of_kind("turns")[0].lanes[0]:
            found += [int(bar.text) if bar.kind == "whose" else None] * (bar.length // QUARTERS)
        return found

    def moves(self, stack, bars, begun, acted):
        """Tells for each turn what a stack did in it before its `run`, with what it is sorted by, and behind that."""
        last = None
        for bar in bars:
            kind, _, instance = bar.kind.partition(" c")
            turn, behind = divmod(bar.begin, QUARTERS)
            if behind not in (0, ACT):
                self.wrong.append(f"a bar begins at {bar.begin}")
            new = last is None
            if behind:
                acted[turn].append({"waits": f"join {stack} {instance}", "asleep": f"sleep {stack} {bar.title.split()[-1]}"}.get(kind, f"{kind} {stack}"))
            elif kind == "free":
                begun[turn].append(((not new, stack), f"free {stack}"))
            elif kind == "waits" or last is None or last.kind == "asleep":
                begun[turn].append(((not new, stack), f"join {stack} {instance}"))
            if kind == "holds":
                acted[turn].append(f"take {stack} {instance}")
            if kind in ("holds", "free") and (bar.begin + bar.length) % QUARTERS:
                acted[(bar.begin + bar.length) // QUARTERS].append(f"release {stack} {instance}" if kind == "holds" else f"leave {stack}")
            last = bar
