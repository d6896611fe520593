#!/usr/bin/env python3
"""Draws a run as one HTML file, which opens in any browser without a network and goes to standard output.

  view.py JOURNAL              the picture of a run, of the journal that `papyrus journal` wrote
  view.py JOURNAL REPORT..     with what the stacks of the run printed and the values that it left. Reports of the same run after fewer turns
                               show in which turn that was, and the changes of a property that may have lost another stack's

The statuses are those of the program: 2 where the words are none, or a file is no report of this run; 3 where a file can't be read, 4 where the
picture can't be written, and 12 where the journal breaks J1 or J2, with the line that `papyrus waits` tells of it.
"""
import os
import signal
import sys

from drawing import bars, journal, page, report, words


class Refused(Exception):
    """The status and the line of a refusal."""

    def __init__(self, status, line):
        super().__init__(line)
        self.status, self.line = status, line


def contents(name, most=-1):
    try:
        with open(name, "rb") as file:
            return file.read(most)
    except (OSError, ValueError):
        raise Refused(3, f"papyrus: cannot read {name}") from None


def read_report(name):
    try:
        return report.Report(contents(name).decode("utf-8", "backslashreplace"))
    except report.NoReport:
        raise Refused(2, f"papyrus: {name} is no report") from None


def gathered(data, reports):
    """Where the stacks stand behind the lines of a journal, and its bars; the reports keep what they are compared with."""
    standing, recorder = journal.Standing(), bars.Recorder()
    for line in journal.lines_of(data, standing):
        recorder.note(line)
        if line.word in ("turn", "end"):
            reports.note(standing, line.numbers[0])
    return standing, recorder


def drawn(given):
    """The picture that these words ask for."""
    if not given or not all(given):
        raise Refused(2, "papyrus: usage")
    name, *others = given
    data = contents(name, journal.MOST_BYTES + 1)
    reports = report.Reports([read_report(other) for other in others])
    try:
        standing, recorder = gathered(data, reports)
    except journal.Broken as broken:
        raise Refused(12, f"{name}:{broken}") from None
    if not reports.fit(standing.names):
        raise Refused(2, f"papyrus: not the {'report' if len(others) == 1 else 'reports'} of the run of {name}")
    return page.page(f"The run of {os.path.basename(name)}", recorder, words.Names(standing.names), standing.statuses(), reports)


def put(stream, data):
    """Whether these bytes were written whole."""
    try:
        while data:
            data = data[os.write(stream, data) :]
    except OSError:
        return False
    return True


def written(picture):
    """The status where a picture goes to standard output."""
    if put(1, picture.encode("utf-8", "surrogateescape")):
        return 0
    put(2, b"papyrus: cannot write\n")
    return 4


def main():
    signal.signal(signal.SIGPIPE, signal.SIG_DFL)
    try:
        picture = drawn(sys.argv[1:])
    except Refused as refused:
        return refused.status if put(2, f"{refused.line}\n".encode("utf-8", "surrogateescape")) else 4
    return written(picture)


if __name__ == "__main__":
    sys.exit(main())
