"""Runs the program's commands on a scene whose order of turns, starts of calls and number of turns are given."""
import json
import os
import pathlib
import shutil
import subprocess
import tempfile

MOST_TURNS = 1000000
# No stack has this number, so a turn of it is idle.
NO_STACK = 65535


class Refused(Exception):
    """The program ended with another status than 0: what it wrote to standard error, and the status."""

    def __init__(self, line, status):
        super().__init__(line)
        self.line, self.status = line, status


def folder():
    """A new folder for files that live shortly, in memory where that can be."""
    return tempfile.mkdtemp(prefix="papyrus-explore-", dir="/dev/shm" if os.access("/dev/shm", os.W_OK) else None)


class Scene:
    """A scene as its file has it, and what it becomes with another order of turns."""

    def __init__(self, data):
        self.tree = json.loads(data)
        self.calls = self.tree["calls"]
        self.turns = self.tree["turns"]
        self.names = [instance["name"] for instance in self.tree["instances"]]
        numbers = {name.lower(): number for number, name in enumerate(self.names)}
        self.targets = [numbers[call["instance"].lower()] for call in self.calls]

    def ordered(self, order, turns, starts=None):
        """The text of the scene with this list as its order and so many turns. `starts` has the turn of each call, where not its own."""
        tree = dict(self.tree, order=list(order), turns=turns)
        if starts is not None:
            tree["calls"] = [dict(call, turn=turn) for call, turn in zip(self.calls, starts)]
        return json.dumps(tree)


class Program:
    """The program, with the compiled files of a set and a folder for scenes and held runs."""

    def __init__(self, path, files, room):
        self.path, self.files, self.room = str(path), [str(file) for file in files], room
        self.environment = dict(os.environ)
        self.scene, self.held, self.out = (os.path.join(room, name) for name in ("scene.json", "held", "out"))
        self.notes = os.path.join(room, "notes")
        flags = os.O_WRONLY | os.O_CREAT | os.O_TRUNC
        self.streams = [(os.POSIX_SPAWN_OPEN, 1, self.out, flags, 0o600), (os.POSIX_SPAWN_OPEN, 2, self.notes, flags, 0o600)]

    def run(self, words):
        """What the program writes to standard output."""
        process = os.posix_spawn(self.path, [self.path, *words], self.environment, file_actions=self.streams)
        status = os.waitstatus_to_exitcode(os.waitpid(process, 0)[1]) if hasattr(os, "waitstatus_to_exitcode") else os.waitpid(process, 0)[1] >> 8
        if status:
            raise Refused(read(self.notes).decode(errors="replace"), status)
        return read(self.out)

    def write_scene(self, text):
        with open(self.scene, "w") as file:
            file.write(text)

    def hold(self, text, turns):
        """The lines and the held file after so many turns of a scene."""
        self.write_scene(text)
        lines = self.run(["hold", str(turns), self.scene, self.held, *self.files])
        return lines, read(self.held)

    def report(self, text):
        """The report of a scene."""
        self.write_scene(text)
        return self.run(["exec", self.scene, *self.files])


def read(path):
    with open(path, "rb") as file:
        return file.read()


def first_look(program, scene, room):
    """The scene of a file that the program reads."""
    new = os.path.join(room, "upgraded.json")
    ran = subprocess.run([program, "upgrade", scene, new], stdin=subprocess.DEVNULL, stdout=subprocess.DEVNULL, stderr=subprocess.PIPE)
    if ran.returncode:
        raise Refused(ran.stderr.decode(errors="replace"), ran.returncode)
    return Scene(read(new))


def compiled(program, words, room):
    """The compiled files of scripts, in a folder of their own; words that are no scripts name compiled files themselves."""
    if not all(word.endswith(".psc") for word in words):
        return words
    copies = []
    for number, word in enumerate(words):
        copy = pathlib.Path(room, f"script{number}", pathlib.Path(word).name)
        copy.parent.mkdir()
        try:
            shutil.copyfile(word, copy)
        except OSError:
            raise Refused(f"papyrus: cannot read {word}\n", 3)
        copies.append(str(copy))
    ran = subprocess.run([program, "compile", *copies], stdin=subprocess.DEVNULL, stdout=subprocess.DEVNULL, stderr=subprocess.PIPE)
    if ran.returncode:
        line = ran.stderr.decode(errors="replace")
        for copy, word in zip(copies, words):
            line = line.replace(copy, word)
        raise Refused(line, ran.returncode)
    return [copy[:-len(".psc")] + ".pex" for copy in copies]
