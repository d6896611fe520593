"""Reads as much of a held run as a choice of turns rests on: where each stack is. All numbers have their highest byte first."""
import struct

NOBODY = 0xFFFF


class Held:
    """A held run: the turns that are done, where stacks are, and the bytes of all else.

    owners    {instance: stack}
    waiters   [(instance, stack)], in the order of joining
    free      stacks that run without an instance
    asleep    [(stack, turn at which it is due)]
    started   how many stacks have started
    """

    def __init__(self, data):
        at = 5
        (files,), at = struct.unpack_from(">H", data, at), at + 2
        for _ in range(files + 1):
            # the files, and the scene behind them
            (size,) = struct.unpack_from(">I", data, at)
            at += 4 + size
        (self.turn,) = struct.unpack_from(">I", data, at)
        at += 6
        begin = at
        at = after_instances(data, at)
        self.values = data[begin:at]
        owners, at = pairs(data, at)
        self.owners = dict(owners)
        self.waiters, at = pairs(data, at)
        (count,) = struct.unpack_from(">H", data, at)
        self.free = list(struct.unpack_from(f">{count}H", data, at + 2))
        at += 2 + 2 * count
        (count,) = struct.unpack_from(">H", data, at)
        self.asleep = list(struct.iter_unpack(">HI", data[at + 2:at + 2 + 6 * count]))
        at += 2 + 6 * count
        begin = at
        at = after_arrays(data, at)
        at = after_devices(data, at)
        self.others = data[begin:at]
        (self.started,) = struct.unpack_from(">H", data, at)
        self.stacks = data[at:]

    def is_done(self):
        """Whether every stack that has started is done."""
        return not (self.owners or self.waiters or self.free or self.asleep)

    def instances_of_stacks(self):
        """The instance of each stack's innermost frame; None where it has none, or is done."""
        at, found = 2, []
        for _ in range(self.started):
            (frames,), at = struct.unpack_from(">H", self.stacks, at), at + 2
            instance = NOBODY
            for _ in range(frames):
                (instance,) = struct.unpack_from(">H", self.stacks, at + 1)
                at = after_frame(self.stacks, at)
            found.append(None if instance == NOBODY else instance)
        return found


    def standing(self, stack):
        """Where the frames of a stack stand that run, outermost first, and the name of what it enters, none where that isn't pending."""
        at = 2
        for _ in range(stack):
            at = after_frames(self.stacks, at)
        (frames,), at = struct.unpack_from(">H", self.stacks, at), at + 2
        bodies, enters = [], None
        for _ in range(frames):
            if self.stacks[at] == 0:
                enters = text_at(self.stacks, at + (6 if self.stacks[at + 3] in (1, 2) else 4))
            else:
                bodies.append(body_at(self.stacks, at + 3))
            at = after_frame(self.stacks, at)
        return bodies, enters


def text_at(data, at):
    return data[at + 2:after_text(data, at)]


def body_at(data, at):
    """The place of a running frame: the script's number, the state, the name and the kind of its function, and the instruction."""
    (script,) = struct.unpack_from(">H", data, at)
    behind = after_text(data, at + 2)
    end = after_text(data, behind)
    return script, text_at(data, at + 2), text_at(data, behind), data[end], struct.unpack_from(">H", data, end + 1)[0]


def pairs(data, at):
    (count,) = struct.unpack_from(">H", data, at)
    end = at + 2 + 4 * count
    return list(struct.iter_unpack(">HH", data[at + 2:end])), end


# How many bytes a value has behind its kind; a text has a length of two bytes and its bytes.
WIDTHS = {0: 0, 1: 4, 2: 1, 4: 2, 5: 2}


def after_text(data, at):
    return at + 2 + (data[at] << 8 | data[at + 1])


def after_values(data, at, count):
    for _ in range(count):
        kind = data[at]
        at = after_text(data, at + 1) if kind == 3 else at + 1 + WIDTHS[kind]
    return at


def after_instances(data, at):
    (count,), at = struct.unpack_from(">H", data, at), at + 2
    for _ in range(count):
        at = after_text(data, at)
        (values,) = struct.unpack_from(">I", data, at)
        at = after_values(data, at + 4, values)
    return at


def after_arrays(data, at):
    (count,), at = struct.unpack_from(">H", data, at), at + 2
    for _ in range(count):
        at += 3 if data[at] == 3 else 1
        at = after_values(data, at + 1, data[at])
    return at


def after_devices(data, at):
    (count,), at = struct.unpack_from(">H", data, at), at + 2
    for _ in range(count):
        (cells,) = struct.unpack_from(">I", data, at + 1)
        at += 5 + 4 * cells + 8
    return at


def after_list(data, at):
    (count,) = struct.unpack_from(">H", data, at)
    return after_values(data, at + 2, count)


def after_frames(data, at):
    (count,), at = struct.unpack_from(">H", data, at), at + 2
    for _ in range(count):
        at = after_frame(data, at)
    return at


def after_frame(data, at):
    if data[at] == 0:
        way = data[at + 3]
        return after_list(data, after_text(data, at + (6 if way in (1, 2) else 4)))
    at = after_text(data, after_text(data, at + 5))
    at = after_list(data, at + 3)
    return at + 1 if data[at] == 0 else after_values(data, at + 1, 1)
