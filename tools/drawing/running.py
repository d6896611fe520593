"""Runs the program for a picture: the journal of a run on a scene, and the report after each of its first turns."""
import concurrent.futures
import contextlib
import json
import os
import pathlib
import shutil
import subprocess
import tempfile

SCRIPT = ".psc"
# The most turns after each of which a report is made, and how many of them are gone on for from one held run.
MOST_REPORTS, STRIDE = 2000, 50
# The longest call that labels a row.
LONGEST_CALL = 48


class Refused(Exception):
    """The status of the program, and what it wrote to standard error."""

    def __init__(self, status, notes):
        super().__init__(notes)
        self.status, self.notes = status, notes


@contextlib.contextmanager
def room():
    """A folder for files that live shortly, in memory where that can be."""
    path = tempfile.mkdtemp(prefix="papyrus-picture-", dir="/dev/shm" if os.access("/dev/shm", os.W_OK) else None)
    try:
        yield pathlib.Path(path)
    finally:
        shutil.rmtree(path, ignore_errors=True)


class Run:
    """A run of scripts or compiled files on a scene, with files of its own in a folder."""

    def __init__(self, program, scene, files, folder):
        self.program, self.folder = str(program), folder
        # What the user calls the files that the program is given.
        self.given = {}
        self.scene = self.call("scene.json", scene)
        self.must("upgrade", scene, self.scene)
        self.tree = json.loads(pathlib.Path(self.scene).read_bytes())
        self.files = self.compiled(files) if files[0].lower().endswith(SCRIPT) else list(files)

    def call(self, name, word):
        """A path in the folder that stands for a word."""
        path = self.folder / name
        path.parent.mkdir(exist_ok=True)
        self.given[os.fsencode(path)] = os.fsencode(word)
        return str(path)

    def must(self, *words):
        """What a command that must do well prints; else it is refused, with the line that tells it of the user's own files."""
        how = {"stdin": None if words[0] == "upgrade" else subprocess.DEVNULL, "stdout": subprocess.PIPE, "stderr": subprocess.PIPE}
        ran = subprocess.run([self.program, *words], **how)
        if ran.returncode:
            notes = ran.stderr
            for path, word in self.given.items():
                notes = notes.replace(path, word)
            raise Refused(ran.returncode, notes)
        return ran.stdout

    def compiled(self, scripts):
        copies = [self.call(f"script{number}/{os.path.basename(script)}", script) for number, script in enumerate(scripts)]
        for script, copy in zip(scripts, copies):
            with contextlib.suppress(OSError):
                shutil.copyfile(script, copy)
        self.must("compile", *copies)
        return [f"{copy[: -len(SCRIPT)]}.pex" for copy in copies]

    def journal(self):
        """The journal of the run, and the report of it."""
        path = str(self.folder / "journal")
        report = self.must("journal", self.scene, path, *self.files)
        return pathlib.Path(path).read_bytes(), report

    def held(self, turns):
        """What is printed in so many turns, and the file that the run is held in then, where it isn't too large."""
        path = str(self.folder / f"held{turns}")
        try:
            return self.must("hold", str(turns), self.scene, path, *self.files), path
        except Refused:
            return b"", None

    def reports(self, turns):
        """The report after each of the turns but the last, up to the most that are made."""
        stops = range(0, min(turns, MOST_REPORTS), STRIDE)
        with concurrent.futures.ThreadPoolExecutor(len(os.sched_getaffinity(0))) as side_by_side:
            held = dict(zip(stops, side_by_side.map(self.held, stops)))
            return list(side_by_side.map(lambda turn: self.report(turn, *held[turn - turn % STRIDE]), range(min(turns, MOST_REPORTS))))

    def report(self, turns, printed, held):
        """The report after so many turns, gone on to from a held run, or else from the first turn."""
        if held:
            return printed + self.must("resume", str(turns % STRIDE), held)
        scene = self.folder / f"scene{turns}.json"
        scene.write_text(json.dumps({**self.tree, "turns": turns}))
        return self.must("exec", str(scene), *self.files)

    def calls(self):
        """The call of each stack, in the order in which they start."""
        return [call_text(call) for call in sorted(self.tree["calls"], key=lambda call: call["turn"])]


def call_text(call):
    """A call of a scene as the row of its stack has it."""
    arguments = ", ".join(value_text(value) for value in call.get("arguments", []))
    text = f"{call['instance']}.{call['function']}"
    whole = f"{text}({arguments})" if arguments else text
    return whole if len(whole) <= LONGEST_CALL else f"{text}(..)"


def value_text(value):
    """A value of a scene: an instance by its name."""
    return value["instance"] if isinstance(value, dict) and "instance" in value else json.dumps(value, ensure_ascii=False)
