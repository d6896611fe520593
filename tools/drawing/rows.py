"""The rows of a picture as HTML."""
import html

from . import bars, report, words

QUARTERS = bars.QUARTERS
# How many turns a printed line may be wide behind the last turn, where the page cuts it.
LONGEST_LINE = 40
# The most sentences on bars in the panel of a row.
MOST_SENTENCES = 200


def escaped(text):
    return html.escape(text, quote=True)


def bar(kind, begin, length, title, text="", anchor="", height=None):
    """A bar of a lane, of which it may have a part of the height. Where its text doesn't fit, the text isn't shown."""
    style = f"--a:{begin};--n:{length}" + (f";--k:{height:.3g}" if height is not None else "")
    place = f' id="{anchor}"' if anchor else ""
    return f'<i class="{kind}" style="{style}"{place} role="img" title="{escaped(title)}">{escaped(text)}</i>'


def row(kind, name, lanes, panel, anchor, heading="", label=""):
    """A row with its name, which opens its panel, and what stands before and behind that."""
    button = f'{label}<button aria-expanded="false" aria-controls="{anchor}-panel">{escaped(name)}</button>'
    lane = "".join(f'<div class="{style}">{content}</div>' for style, content in lanes)
    return (
        f'<div class="row {kind}" id="{anchor}"><div class="name">{button}<small>{heading}</small></div><div class="lanes">{lane}</div></div>\n'
        f'<div class="panel" id="{anchor}-panel"><div>{panel}</div></div>\n'
    )


def items(lines, tag="ol"):
    return f"<{tag}>{''.join(f'<li>{line}</li>' for line in lines)}</{tag}>" if lines else ""


def sentences(titles):
    """The first of these as a list."""
    rest = len(titles) - MOST_SENTENCES
    more = [f"and {words.counted(rest, 'bar')} more, which tell the same when one points at them"] if rest > 0 else []
    return items([escaped(title) for title in titles[:MOST_SENTENCES]] + more)


class Rows:
    """The rows of one picture."""

    def __init__(self, recorder, names, statuses, reports):
        self.recorder, self.names, self.statuses, self.reports = recorder, names, statuses, reports
        self.shown, self.sums = recorder.shown(), recorder.sums()
        self.held_by = recorder.held_by()
        self.turn_bars = recorder.turn_bars()
        self.printed = {}
        for one in reports.printed(recorder.runs):
            self.printed.setdefault(one.stack, []).append(one)
        self.last = reports.last(recorder.turns)
        self.told = range(len(names)) if reports.all else []
        self.changes = {instance: reports.changes(instance, recorder.runs) for instance in self.told}
        self.overwrites = []
        for instance in self.told:
            self.overwrites += report.overwrites(instance, self.changes[instance], self.held_by[instance], QUARTERS)
        self.overwrites.sort(key=lambda over: over.change.turn)
        self.unfinished = [stack for stack, status in enumerate(statuses) if status != "done"] if recorder.turns else []
        self.untouched = [instance for instance in range(len(names)) if not recorder.is_touched(instance) and not self.changes.get(instance)]
        self.acts = {}
        for stack, first, count in self.turn_bars:
            self.acts.setdefault(stack, []).append((first, count))

    def anchor_of(self, over):
        """The name of the place of an overwritten change."""
        return f"over-{over.instance}-{list(self.changes[over.instance]).index(over.name)}-{over.change.turn}"

    def turns_row(self):
        """Whose each turn is."""
        found = []
        for stack, first, count in self.turn_bars:
            whose = "is idle" if stack is None else f"is that of {self.names.stack(stack)}"
            title = f"turn {first} {whose}" if count == 1 else f"each of the turns {first} to {first + count - 1} {whose}"
            found.append(bar("idle" if stack is None else "whose", first * QUARTERS, count * QUARTERS, title, "idle" if stack is None else str(stack)))
        return f'<div class="row turns"><div class="name"><b>turn of stack</b></div><div class="lanes"><div class="lane">{"".join(found)}</div></div></div>\n'

    def stack_row(self, stack):
        gathered = self.recorder.stacks[stack]
        titles = [words.of_bar(one, self.names) for one in gathered.bars]
        found = [self.stack_bar(one, title) for one, title in zip(gathered.bars, titles)]
        found += [f'<u class="act" style="--a:{first * QUARTERS};--n:{count * QUARTERS}"></u>' for first, count in self.acts.get(stack, [])]
        if gathered.done is not None and gathered.done < self.shown * QUARTERS:
            titles.append(f"{self.names.stack(stack)} is done in turn {gathered.done // QUARTERS}")
            found.append(bar("done", gathered.done, 0, titles[-1], "done"))
        printed = self.printed.get(stack, [])
        lanes = [("lane", "".join(found)), *self.print_lane(printed)]
        summary = f"<p>{escaped(words.summary_of_stack(stack, gathered.bars, self.statuses[stack], self.names))}</p>"
        panel = summary + items([printed_line(one) for one in printed], "ul") + sentences(titles)
        call = self.names.calls[stack] if stack < len(self.names.calls) else ""
        label = f'<span class="sign">{stack}</span>' if call else ""
        # It may be broken behind the name of the instance.
        name = call.replace(".", ".\u200b", 1) or f"stack {stack}"
        return row("stack", name, lanes, panel, f"stack-{stack}", escaped(self.statuses[stack].replace("asleep", "asleep until")), label)

    def stack_bar(self, one, title):
        kind = f"{one.kind} c{one.value}" if one.kind in ("holds", "waits") else one.kind
        text = {"asleep": "asleep", "free": ""}.get(one.kind) if kind == one.kind else self.names[one.value]
        text = f"waits for\xa0{text}" if one.kind == "waits" else text
        anchor = f"wait-{one.stack}-{one.since}" if one.kind == "waits" else ""
        return bar(kind, one.begin, one.end - one.begin, title, text, anchor)

    def print_lane(self, printed):
        """What was printed in turns that are known, each up to what was printed next."""
        known = {}
        for one in printed:
            if len(one.turns) == 1 and one.turns[0] < self.shown:
                known.setdefault(one.turns[0], []).append(one)
        ends = [*list(known)[1:], self.shown + LONGEST_LINE]
        found = [self.print_bar(turn, ones, end) for (turn, ones), end in zip(known.items(), ends)]
        return [("lane prints", "".join(found))] if found else []

    def print_bar(self, turn, ones, end):
        kind = "fault" if any(one.fault for one in ones) else "trace"
        title = f"in turn {turn} {words.listed([printed_text(one, self.names) for one in ones])}"
        return bar(kind, turn * QUARTERS, (end - turn) * QUARTERS, title, "; ".join(one.text for one in ones))

    def instance_row(self, instance):
        name, sums = self.names[instance], self.sums[instance]
        held = [self.held_bar(one) for one in self.held_by[instance]]
        crowds = [self.crowd_bar(instance, *crowd, sums.most) for crowd in self.recorder.crowds(instance)]
        lanes = [("lane", "".join(held)), ("lane crowds", "".join(crowds))]
        titles = [words.holds(one, self.names) for one in self.held_by[instance]]
        heading = f"{words.turns(sums.waited)} of waiting"
        panel = self.instance_panel(instance) + sentences(titles)
        kind = "instance untouched" if instance in self.untouched else "instance"
        label = f'<span class="sign c{instance}">{words.sign(instance)}</span>'
        return row(kind, name, lanes, panel, f"instance-{instance}", heading, label) + self.value_rows(instance)

    def untouched_row(self):
        """The instances whose rows are folded away, as one row that unfolds them."""
        if not self.untouched:
            return ""
        count = words.counted(len(self.untouched), "instance")
        listed = escaped(", ".join(self.names[instance] for instance in self.untouched))
        return (
            f'<div class="row rest"><div class="name"><button data-unfold aria-expanded="false">{count} more</button></div>'
            f'<div class="lanes"><div class="rest">No stack took {"it" if len(self.untouched) == 1 else "one of them"} or waited for it: {listed}</div></div></div>\n'
        )

    def held_bar(self, one):
        return bar(f"holds by c{one.value}", one.begin, one.end - one.begin, words.holds(one, self.names), f"stack {one.stack}")

    def crowd_bar(self, instance, begin, end, number, most):
        title = words.of_crowd(number, self.names[instance], begin // QUARTERS, (end - 1) // QUARTERS)
        text = f"{number} {'waits' if number == 1 else 'wait'}"
        return bar(f"crowd c{instance}", begin, end - begin, title, text, height=number / max(most, 1))

    def instance_panel(self, instance):
        sums = self.sums[instance]
        told = f"<p>Taken {words.times(sums.takes)}; stacks waited {words.turns(sums.waited)} for it, at most {sums.most:,} at once.</p>"
        if not self.last:
            return told
        values = self.last.values[instance]
        state = f", in the state {self.last.states[instance]}" if self.last.states[instance] else ""
        lines = items([f"{escaped(name)} = {escaped(value)}" for name, value in values.items()], "ul")
        return f"{told}<p>At the end of the run it is of the script {escaped(self.last.scripts[instance])}{escaped(state)}.</p>{lines}"

    def value_rows(self, instance):
        """A row for each property whose value is seen to change."""
        if instance not in self.told:
            return ""
        known = self.reports.values(instance)
        return "".join(self.value_row(instance, name, known[name]) for name in known if len({value for _, _, value in known[name]}) > 1)

    def value_row(self, instance, name, known):
        overs = {over.change.turn: over for over in self.overwrites if (over.instance, over.name) == (instance, name)}
        changes = {change.turn: change for change in self.changes[instance].get(name, [])}
        found, first_value = [], ""
        for first, count, value in known:
            if first < 0:
                first_value = f"{value} at first"
            elif first < self.shown:
                found.append(self.value_bar(instance, name, (first, count, value), changes.get(first), overs.get(first)))
        return (
            f'<div class="row value"><div class="name"><b>{escaped(name)}</b><small>{escaped(first_value)}</small></div>'
            f'<div class="lanes"><div class="lane">{"".join(found)}</div></div></div>\n'
        )

    def value_bar(self, instance, name, known, change, over):
        first, count, value = known
        owner = self.names[instance]
        title = words.of_value(name, owner, first, count, value)
        title += f"; {words.of_change(change, name, owner, self.names)}" if change else ""
        title += "; this may lose an update" if over else ""
        kind = "known over" if over else "known changed" if change else "known"
        count = min(count, self.shown - first)
        anchor = self.anchor_of(over) if over else ""
        return bar(kind, first * QUARTERS, count * QUARTERS, title, f"{'! ' if over else ''}{value}", anchor)


def printed_text(one, names):
    return f"{names.stack(one.stack)} {'has the fault' if one.fault else 'traces'} {one.text}"


def printed_line(one):
    """A line of the report, with the turns in which it may have been printed."""
    text = f"{'!' if one.fault else '#'}{one.stack} {one.text}"
    when = f" <small>in turn {one.turns[0]}</small>" if len(one.turns) == 1 else ""
    return f'<code class="{"fault" if one.fault else "trace"}">{escaped(text)}</code>{when}'
