"""What is said of the bars of a picture, in the words of docs/locking.md."""


class Names(list):
    """The names of the instances, and the calls of the stacks where a scene tells them."""

    def __init__(self, instances, calls=()):
        super().__init__(instances)
        self.calls = calls

    def stack(self, number):
        """How a stack is called in a sentence."""
        return f"stack {number} ({self.calls[number]})" if number < len(self.calls) else f"stack {number}"


def sign(instance):
    """The letters of an instance, by which it is told where its name has no room: A to Z, then AA and so on."""
    letters = ""
    while instance >= 0:
        instance, letter = divmod(instance, 26)
        letters, instance = chr(ord("A") + letter) + letters, instance - 1
    return letters


def counted(number, thing):
    return f"{number:,} {thing}{'' if number == 1 else 's'}"


def turns(number):
    return counted(number, "turn")


def times(number):
    return "once" if number == 1 else f"{number:,} times"


def listed(things):
    """These things in a row, with `and` before the last."""
    return " and ".join([", ".join(things[:-1]), things[-1]] if len(things) > 1 else things)


def span(first, last):
    return f"in turn {first}" if first == last else f"in turns {first} to {last}"


def ending(bar):
    """Until when a bar lasts."""
    if bar.until is None:
        return f"from turn {bar.since} to the end of the run"
    return f"in turn {bar.since}" if bar.since == bar.until else f"from turn {bar.since} to turn {bar.until}"


def holds(bar, names):
    waited = f", after {turns(bar.waited)} of waiting" if bar.waited else ""
    return f"{names.stack(bar.stack)} holds {names[bar.value]} {ending(bar)}{waited}"


def waits(bar, names):
    """A wait, as the command `waits` counts it."""
    if bar.until is None:
        return f"{names.stack(bar.stack)} waits for {names[bar.value]} from turn {bar.since} to the end of the run: {turns(bar.waited)}"
    return f"{names.stack(bar.stack)} waits for {names[bar.value]} from turn {bar.since}, and takes it in turn {bar.until}: {turns(bar.waited)}"


def asleep(bar, names):
    return f"{names.stack(bar.stack)} is asleep from turn {bar.since}, and due at turn {bar.value}"


def free(bar, names):
    return f"{names.stack(bar.stack)} runs free {ending(bar)}"


def of_bar(bar, names):
    return {"holds": holds, "waits": waits, "asleep": asleep, "free": free}[bar.kind](bar, names)


def of_crowd(number, name, first, last):
    return f"{span(first, last)} {counted(number, 'stack')} {'waits' if number == 1 else 'wait'} for {name}"


def of_value(name, instance, first, count, value):
    last = first + count - 1
    return f"{name} of {instance} is {value} after turn {first}" + (f" and up to turn {last}" if last > first else "")


def of_change(change, name, instance, names):
    return f"{names.stack(change.stack)} changes {name} of {instance} from {change.old} to {change.new} in turn {change.turn}"


def of_overwrite(over, names):
    """An overwritten change, as a sentence with the reason to look at it."""
    change, other, instance = over.change, over.other, names[over.instance]
    return (
        f"In turn {change.turn} {names.stack(change.stack)} changes {over.name} of {instance} from {change.old} to {change.new}. "
        f"It had let {instance} go in turn {over.left}, and in turn {other.turn} {names.stack(other.stack)} changed {over.name} from {other.old} to {other.new}."
    )


def of_wait(wait, names):
    end = "still at the end of the run" if wait.until is None else f"until turn {wait.until}"
    return f"{turns(wait.turns)}: {names.stack(wait.stack)} for {names[wait.instance]}, from turn {wait.since}, {end}"


def summary_of_stack(stack, bars, status, names):
    """What a stack did in the turns that are drawn."""
    held = sum(bar.kind == "holds" for bar in bars)
    waited = sum(bar.waited for bar in bars if bar.kind == "waits")
    slept = sum(bar.kind == "asleep" for bar in bars)
    parts = [f"took instances {times(held)}"] * (held > 0) + [f"waited {turns(waited)}"] * (waited > 0) + [f"slept {times(slept)}"] * (slept > 0)
    did = f"S{names.stack(stack)[1:]} {listed(parts)}. " if parts else ""
    return f"{did}At the end of the run it {at_end(status)}."


def at_end(status):
    """A status of a report, as a sentence goes on."""
    kind, _, value = status.partition(" ")
    return {
        "done": "is done",
        "ready": "is ready",
        "waits": f"waits for {value}",
        "asleep": f"is asleep until turn {value}",
    }[kind]


def of_unfinished(stack, status, standing, names):
    """How a stack stands that isn't done at the end of the run: what it waits for and who holds that, or when it ran last."""
    kind, _, value = status.partition(" ")
    if kind == "waits":
        holder, taken = standing.holder
        held = f", which {names.stack(holder)} holds since turn {taken}" if holder is not None else ""
        return f"{names.stack(stack)} waits for {value} since turn {standing.since}{held}"
    ran = f"it had {turns(standing.acts)}, the last one turn {standing.last}" if standing.acts else "it had no turn"
    ready = "could go on" if kind == "ready" else at_end(status)
    return f"{names.stack(stack)} {ready}; {ran}"
