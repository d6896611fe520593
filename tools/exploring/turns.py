"""The turns that may come next: which calls begin, which sleepers wake, and which stacks are ready then."""
import collections
import itertools


# A turn that may come next: so many idle turns before it, in which nothing can be done or nothing is begun, the calls that begin, and the stack whose
# turn it is.
Step = collections.namedtuple("Step", "idle calls stack")


class Orders:
    """Which orders of turns are followed: of a scene whose calls begin at their turns, or at any later turn as well."""

    def __init__(self, scene, any_start):
        self.scene, self.any_start = scene, any_start
        self.earliest = [call["turn"] for call in scene.calls]
        # The order in which calls begin that have their own turns.
        self.planned = sorted(range(len(self.earliest)), key=lambda call: self.earliest[call])

    def pending(self, held, begun):
        """The calls that haven't begun."""
        if self.any_start:
            return [call for call in range(len(self.earliest)) if call not in begun]
        return self.planned[held.started:]

    def key(self, held, begun):
        """What is to come of the scene's calls, counted from the turn."""
        left = [(call, max(0, self.earliest[call] - held.turn)) for call in self.pending(held, begun)]
        return repr(left).encode()

    def choices(self, held, begun):
        """The steps that may come next, None where nothing is left to do."""
        pending = self.pending(held, begun)
        if not pending and held.is_done():
            return None
        instances = held.instances_of_stacks() if held.asleep else []
        steps = []
        for idle in self.idle_turns(held, pending):
            goes_on = False
            for calls in self.beginnings(pending, held.turn + idle):
                ready = ready_stacks(held, held.turn + idle, instances, [self.scene.targets[call] for call in calls])
                steps += [Step(idle, calls, stack) for stack in ready]
                goes_on |= bool(ready) and not (self.any_start and calls)
            if goes_on:
                break
        return steps

    def idle_turns(self, held, pending):
        """How many idle turns may come next, up to the last at which a sleeper wakes or a call may begin. Where calls may begin at any turn, each
        number is another choice, and else only those count after which something happens."""
        turns = {until for _, until in held.asleep} | {self.earliest[call] for call in pending}
        later = sorted(turn - held.turn for turn in turns if turn > held.turn)
        if self.any_start:
            return range(later[-1] + 1 if later else 1)
        return [0, *later]

    def beginnings(self, pending, turn):
        """The lists of calls that may begin at a turn."""
        due = [call for call in pending if self.earliest[call] <= turn]
        if not self.any_start:
            return [tuple(due)]
        return itertools.chain.from_iterable(itertools.combinations(due, count) for count in range(len(due) + 1))


def ready_stacks(held, turn, instances, targets):
    """The stacks that are ready at a turn, in ascending order, where calls on these instances begin first."""
    waiters = list(held.waiters)
    waiters += [(target, held.started + number) for number, target in enumerate(targets)]
    ready = set(held.owners.values()) | set(held.free)
    for stack, until in held.asleep:
        if until <= turn:
            if instances[stack] is None:
                ready.add(stack)
            else:
                waiters.append((instances[stack], stack))
    taken = set(held.owners)
    for instance, stack in waiters:
        if instance not in taken:
            taken.add(instance)
            ready.add(stack)
    return sorted(ready)
