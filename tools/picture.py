#!/usr/bin/env python3
"""Runs scripts or compiled files on a scene, and draws the run as one HTML file, which opens in any browser without a network.

  picture.py SCENE FILE.. > run.html    the files are scripts (.psc), which it compiles, or compiled files. No other file is written

It is what `view` draws of the run's journal and of the reports after each of its first 2,000 turns and the last one, and each row of a stack has the call
of the scene in it. A scene that `explore` writes is one, too. The statuses are those of the program, with its lines: 2 where the words are others, 3 where a
file can't be read, 4 where the picture can't be written, and 5, 6, 7, 9 and 10 where a file is refused.
"""
import os
import signal
import sys

import view
from drawing import page, report, running, words


def drawn(given, program):
    """The picture that these words ask for."""
    if len(given) < 2 or not all(given) or len({is_script(file) for file in given[1:]}) > 1:
        raise running.Refused(2, b"papyrus: usage\n")
    scene, *files = given
    with running.room() as room:
        run = running.Run(program, scene, files, room)
        data, text = run.journal()
        last = of_text(text)
        reports = report.Reports([*map(of_text, run.reports(last.turns)), last])
        calls = run.calls()
    standing, recorder = view.gathered(data, reports)
    if not reports.fit(standing.names):
        raise running.Refused(2, f"papyrus: the reports of {scene} aren't those of its journal\n".encode("utf-8", "surrogateescape"))
    return page.page(f"The run of {os.path.basename(scene)}", recorder, words.Names(standing.names, calls), standing.statuses(), reports)


def of_text(text):
    return report.Report(text.decode("utf-8", "backslashreplace"))


def is_script(file):
    return file.lower().endswith(running.SCRIPT)


def main():
    signal.signal(signal.SIGPIPE, signal.SIG_DFL)
    # Files that live shortly are taken away, however it ends.
    for number in (signal.SIGINT, signal.SIGTERM, signal.SIGHUP):
        signal.signal(number, lambda number, _: sys.exit(128 + number))
    try:
        picture = drawn(sys.argv[1:], os.environ["PAPYRUS_PROGRAM"])
    except running.Refused as refused:
        return refused.status if view.put(2, refused.notes) else 4
    return view.written(picture)


if __name__ == "__main__":
    sys.exit(main())
