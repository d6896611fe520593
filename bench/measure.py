"""Measures commands for the benchmarks: the best of some runs, in seconds of processor time, and the peak memory."""

import os
import shutil
import statistics
import subprocess
from pathlib import Path

ROOT = Path(__file__).resolve().parent.parent
PROGRAM = ROOT / "crates" / "papyrus" / "out" / "papyrus"


def program():
    """The proved program, or an exit with a word on how to build it."""
    if not PROGRAM.exists():
        raise SystemExit("no proved program yet: run ./prove, which leaves it")
    return str(PROGRAM)


def tool(name):
    """The path of a tool to compare with, or None where this machine lacks it."""
    path = shutil.which(name)
    if path is None:
        print(f"{name}: not on this machine, so its comparison is skipped")
    return path


def environment():
    """The environment in which the launcher runs the program."""
    lines = (ROOT / "tools" / "environment.sh").read_text().splitlines()
    settings = dict(line.split("=", 1) for line in lines if not line.startswith("#"))
    return {**settings, **os.environ}


def once(words, folder, accepted):
    """One run: its seconds of processor time and its peak memory in KiB. All that is compared has the launcher's environment."""
    child = subprocess.Popen(words, cwd=folder, env=environment(), stdout=subprocess.DEVNULL, stderr=subprocess.DEVNULL)
    _, status, usage = os.wait4(child.pid, 0)
    child.returncode = os.waitstatus_to_exitcode(status)
    if child.returncode not in accepted:
        raise SystemExit(f"{' '.join(words)}: status {child.returncode}")
    return usage.ru_utime + usage.ru_stime, usage.ru_maxrss


def best(words, folder, accepted=(0,), runs=7):
    """The least time of some runs, with the most memory that one of them took."""
    results = [once(words, folder, accepted) for _ in range(runs)]
    return min(seconds for seconds, _ in results), max(memory for _, memory in results)


def beside(words, base, folder, accepted=(0,), runs=15):
    """Two commands in turn: the best time and the most memory of each, and how many times as long as the base the first takes.

    The last is the median over the turns, so that a machine that changes its speed meanwhile disturbs it little.
    """
    turns = [(once(base, folder, (0,)), once(words, folder, accepted)) for _ in range(runs)]
    ratio = statistics.median(second[0] / first[0] for first, second in turns)
    other, own = [(min(seconds for seconds, _ in each), max(memory for _, memory in each)) for each in zip(*turns)]
    return own, other, ratio


def peak_memory(words, folder):
    """The peak memory in KiB of one run under GNU time, or 0 without it.

    The figure of `once` is at least that of Python, whose memory a child counts until it becomes the program.
    """
    path = shutil.which("time")
    if path is None:
        return 0
    ran = subprocess.run([path, "-f", "%M", *words], cwd=folder, env=environment(), stdout=subprocess.DEVNULL, stderr=subprocess.PIPE, text=True)
    return int(ran.stderr.split()[-1])


def row(name, seconds, memory, base=None, ratio=None):
    """Prints one line of a table: seconds, memory in MiB, and how many times as long as the base, if it isn't told."""
    ratio = seconds / base if base and not ratio else ratio
    times = "" if not ratio else f"{ratio:8.2f} times"
    print(f"{name:44} {seconds:8.3f} s {memory / 1024:8.1f} MiB {times}", flush=True)
