#!/usr/bin/env python3
"""Refuses the allocations of the built program in turn, and reports an answer that want of memory may not have.

  want_of_memory.py                   the cases named below: each command that runs scripts, and those that read and write files
  want_of_memory.py CASE..            these folders of cases/
  want_of_memory.py --all             every case, but those with a limit of their own
  want_of_memory.py --at-most N       at most N allocations of each case, evenly spread
  want_of_memory.py --program PATH    another program than crates/papyrus/out/papyrus
  want_of_memory.py -j N              N runs at a time, 2 where it isn't given

A case is run once to count its allocations, and then twice for each of them: once with this one refused, and once with all that
follow it refused too. `refuse_allocation.c`, which is compiled for that and preloaded, stands in for malloc and its kin.

A run may give the case's own answer. Else it ends with status 1, `papyrus: out of memory` on standard error, and a first part of the output.
Of the files that it writes, in the order of the words, some are whole, one may hold a first part, and the rest are as they were. The line on
standard error is missing where the memory for the command line or the devices was refused, before the command began. All else is reported,
and then the script ends with status 1.
"""
import argparse
import collections
import concurrent.futures
import dataclasses
import functools
import pathlib
import shutil
import subprocess
import sys
import tempfile

ROOT = pathlib.Path(__file__).resolve().parent.parent
sys.dont_write_bytecode = True
sys.path.insert(0, str(ROOT / "cases"))
import run as black_box

NAMES = (
    "once/trace",
    "show/object_with_counted_size",
    "asm/object_with_counted_size",
    "asm/g2_index_of_a_spelled_string",
    "asm/g4_last_line_without_line_feed",
    "run/gate_and_controller",
    "compile/two_scripts",
    "exec/compiled_gate_and_controller",
)
OUT_OF_MEMORY = b"papyrus: out of memory\n"
# So many runs share a folder, whose files are laid anew where a run changed them.
PART = 100
# So many wrong answers of a case are printed.
SHOWN = 10


@dataclasses.dataclass
class Whole:
    """A case's run that had all its memory."""

    case: pathlib.Path
    before: dict
    status: int
    out: bytes
    notes: bytes
    after: dict
    allocations: int
    at_start: int


def compiled(folder):
    """The library that refuses allocations, or nothing where there is no C compiler."""
    compiler = shutil.which("cc") or shutil.which("gcc") or shutil.which("clang")
    if compiler is None:
        return None
    library = folder / "refuse_allocation.so"
    subprocess.run([compiler, "-O2", "-shared", "-fPIC", "-o", library, ROOT / "bench" / "refuse_allocation.c"], check=True)
    return library


def through(library, **settings):
    """The words that run the command behind them with the library."""
    return [shutil.which("env"), f"LD_PRELOAD={library}", *(f"{name}={value}" for name, value in settings.items())]


def count_at_start(case, words):
    """The allocations for the command line and the devices: those of a run with as many words that are no command."""
    subprocess.run([*words, black_box.PROGRAM, b"-", *black_box.words_of(case)[1:]], capture_output=True)


def whole_run(library, case):
    """The case's run with all its memory, and how many allocations it has."""
    with tempfile.TemporaryDirectory() as folder, tempfile.TemporaryDirectory() as room:
        count, room = pathlib.Path(folder) / "count", pathlib.Path(room)
        counting = through(library, ALLOCATION_COUNT=count)
        black_box.lay(case, room)
        before = black_box.files_in(room)
        answer = black_box.answer_of(case, room, counting)
        allocations = int(count.read_text())
        count_at_start(case, counting)
        return Whole(case, before, *answer, black_box.files_in(room), allocations, int(count.read_text()))


def written_names(case):
    """The files that the case's command writes, in the order in which it does."""
    words = [word.decode("utf-8", "surrogateescape") for word in black_box.words_of(case)]
    if words[:1] == ["compile"]:
        return [word[: -len(".psc")] + ".pex" for word in words[1:]]
    return words[2:3] if words[:1] in (["asm"], ["upgrade"]) else []


def wrong_files(whole, found):
    """The files that hold what they may not after status 1."""
    wanted = dict(whole.before)
    for name in written_names(whole.case):
        if found.get(name) == whole.after.get(name):
            wanted[name] = whole.after.get(name)
            continue
        if name in found and whole.after.get(name, b"").startswith(found[name]):
            wanted[name] = found[name]
        elif name not in found:
            wanted.pop(name, None)
        break
    return sorted(name for name in wanted.keys() | found.keys() if wanted.get(name) != found.get(name))


def wrong_cut(whole, number, out, notes, found):
    """What is wrong with an answer of status 1 where this allocation was refused."""
    silent = number <= whole.at_start or b"notes" in black_box.expected_of(whole.case, "closed")
    if notes != OUT_OF_MEMORY and not (silent and notes == b""):
        return f"notes {notes[:100]!r}"
    if not whole.out.startswith(out):
        return f"output {out[-100:]!r}"
    wrong = wrong_files(whole, found)
    return f"files {wrong}" if wrong else None


def wrong_answer(whole, number, status, out, notes, found):
    if (status, out, notes, found) == (whole.status, whole.out, whole.notes, whole.after):
        return None
    if status == 1:
        return wrong_cut(whole, number, out, notes, found)
    return f"status {status} with notes {notes[:100]!r} and output of {len(out)} bytes"


def laid_anew(room, before, found):
    """Makes the folder hold what it held before."""
    for name in found.keys() - before.keys():
        (room / name).unlink()
    for name, content in before.items():
        if found.get(name) != content:
            (room / name).write_bytes(content)


def some_runs(library, whole, runs):
    """The statuses of these runs, and what is wrong with them. A run is a number, and whether those behind it are refused too."""
    counts, wrong = collections.Counter(), []
    with tempfile.TemporaryDirectory(dir="/dev/shm" if pathlib.Path("/dev/shm").is_dir() else None) as room:
        room = pathlib.Path(room)
        black_box.lay(whole.case, room)
        for number, behind in runs:
            refusing = through(library, REFUSED_ALLOCATION=number, **({"REFUSED_BEHIND": 1} if behind else {}))
            answer = black_box.answer_of(whole.case, room, refusing)
            found = black_box.files_in(room)
            counts[answer[0]] += 1
            what = wrong_answer(whole, number, *answer, found)
            if what:
                wrong.append(f"allocation {number}{' and all behind it' if behind else ''}: {what}")
            if found != whole.before:
                laid_anew(room, whole.before, found)
    return counts, wrong


def spread(count, most):
    """The numbers from 1 to the count, or so many of them, evenly spread."""
    if most is None or count <= most:
        return range(1, count + 1)
    return sorted({1 + number * (count - 1) // max(most - 1, 1) for number in range(most)})


def run_case(library, pool, case, most):
    """Prints what came of a case, and gives the number of its runs and of the wrong ones."""
    failed = black_box.run(case)
    if failed:
        print(f"{black_box.name_of(case)}: failed, with all its memory too", *(f"    {line}" for line in failed), sep="\n")
        return 1, 1
    whole = whole_run(library, case)
    runs = [(number, behind) for behind in (False, True) for number in spread(whole.allocations, most)]
    parts = [runs[at : at + PART] for at in range(0, len(runs), PART)]
    counts, wrong = collections.Counter(), []
    for found, bad in pool.map(functools.partial(some_runs, library, whole), parts):
        counts += found
        wrong += bad
    ended = ", ".join(f"{counts[status]} with status {status}" for status in sorted(counts))
    print(f"{black_box.name_of(case)}: {whole.allocations} allocations, {whole.at_start} of them at the start; {ended}", flush=True)
    for text in wrong[:SHOWN]:
        print(f"    {text}", flush=True)
    return len(runs), len(wrong)


def cases_of(words):
    if words.all:
        return [case for case in black_box.folders() if not any((case / limit).exists() for limit in black_box.LIMITS)]
    return [black_box.CASES / name for name in words.cases]


def parsed():
    parser = argparse.ArgumentParser(description=__doc__, formatter_class=argparse.RawDescriptionHelpFormatter)
    parser.add_argument("cases", nargs="*", default=NAMES)
    parser.add_argument("--all", action="store_true")
    parser.add_argument("--at-most", type=int)
    parser.add_argument("--program", type=pathlib.Path, default=black_box.PROGRAM)
    parser.add_argument("-j", type=int, default=2)
    return parser.parse_args()


def main():
    words = parsed()
    black_box.PROGRAM = words.program.resolve()
    with tempfile.TemporaryDirectory() as folder, concurrent.futures.ThreadPoolExecutor(words.j) as pool:
        library = compiled(pathlib.Path(folder))
        if library is None:
            print("skipped: there is no C compiler")
            return 0
        done = [run_case(library, pool, case, words.at_most) for case in cases_of(words)]
    runs, wrong = (sum(column) for column in zip(*done))
    print(f"{runs} runs, {wrong} wrong")
    return 1 if wrong or not runs else 0


if __name__ == "__main__":
    sys.exit(main())
