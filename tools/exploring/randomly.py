"""Runs of random orders."""
import collections
import random

from . import search

# A run: its turns, its report where it ended, and of each expectation that it breaks how it does so and after which turns.
Run = collections.namedtuple("Run", "path report broken")


def one_run(task):
    """A run in which each turn is a ready stack's, each with the same chance."""
    seed, number, most_turns = task
    chance = random.Random(f"{seed} {number}")
    path, broken = search.Path([], search.walker.orders), {}
    while True:
        reached = search.walker.reached(path, None)
        for place, how in reached.broken:
            broken.setdefault(place, (how, path))
        if reached.choices is None:
            return Run(path, reached.report, broken)
        choices = [step for step in reached.choices if len(path.order) + step.idle < most_turns]
        if not choices:
            return Run(path, None, broken)
        path = path.with_step(chance.choice(choices))


class RunProgress(search.Line):
    """A line on a terminal that tells how many runs were made."""

    def __init__(self, stream, wanted):
        super().__init__(stream)
        self.wanted = wanted

    def tell(self, made):
        self.write(lambda seconds: f"{made} of {self.wanted} runs, {made / seconds:.1f} a second")


def random_runs(walker_words, words, progress):
    """So many runs, which rest on the seed and not on the number of jobs; fewer where Ctrl-C ends them."""
    tasks = [(words.seed, number, words.until) for number in range(words.random)]
    runs = []
    try:
        with search.pool(words.jobs, walker_words) as pool:
            for run in pool(one_run, tasks):
                runs.append(run)
                progress.tell(len(runs))
    except KeyboardInterrupt:
        pass
    progress.clear()
    return runs
