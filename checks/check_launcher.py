#!/usr/bin/env python3
"""Checks how the launcher finds the program of the code as it is, and what `install` puts into a folder, prints what is wrong, and ends with
'N passed, M failed'.

  check_launcher.py                  all of these
  check_launcher.py --program PATH   another program than PAPYRUS_PROGRAM in the environment, or the one that was built last

  fresh      in a small repository whose programs are scripts, the launcher runs a program only while the code is that which it was made of: after each
             kind of change by which an editor, a copy or a checkout leaves other code it looks for another one, also where the times of files are kept or set
             back; after changes of other files it runs the same, and after the code is as before it runs it again
  install    what is installed runs without the sources, and answers as the launcher does; whether the proofs were checked is told; what somebody else put
             into the folder stays as it is, and is refused where it stands in the way; a call that is ended, or finds no room, leaves a program that runs;
             it may be done again, with other programs too, and taken back, and then the folder is as it was
"""
import argparse
import os
import pathlib
import resource
import shutil
import subprocess
import sys
import tempfile
import time

ROOT = pathlib.Path(__file__).resolve().parent.parent
DOCS = ROOT / "docs"
sys.path[:0] = [str(ROOT / "checks")]
import check_examples
import check_pages

FILES = {
    "crates.txt": "papyrus: low\nlow:\n",
    "crates/papyrus/src/main.rt": "fn main() {}\n",
    "crates/papyrus/args": "--version\n",
    "crates/low/src/lib.rt": "mod part;\n",
    "crates/low/src/part/one.rt": "const ONE: u8 = 1;\n",
    "crates/low/src/part/two.rt": "const TWO: u8 = 2;\n",
    "crates/low/specs/Lib.antt": "-- one\n",
    "crates/low/proofs/Lib.antt": "-- one\n",
    "crates/low/out/kept": "1\n",
}
PROVED, UNPROVED = "crates/papyrus/out/papyrus", "crates/papyrus/out/unproved/papyrus"
JOURNAL = "journal 1\ninstance a\nturn 0\njoin 0 0\nrun 0\ntake 0 0\nrelease 0 0\ndone 0\nend 1\n"
SCRIPT = 'ScriptName A\nEvent OnInit()\n  Debug.Trace("a")\nEndEvent\n'
ROOM = 200_000
KILLS = 12
NO_PROGRAM = (125, b"", b"papyrus: the program must be built first, and the kit's rt isn't on the PATH\n")
# The words by which a program here is called, and how often code is changed at once behind a call.
WORDS, TIMES = ["any"], 20
# More than a step of the clocks of files, in seconds.
STEP = 0.02


class Copy:
    """A repository of these files with the launcher of this one."""

    def __init__(self, root):
        self.root = root
        for name, text in FILES.items():
            self.path(name).parent.mkdir(parents=True, exist_ok=True)
            self.path(name).write_text(text)
        shutil.copy(ROOT / "papyrus", root)
        shutil.copytree(ROOT / "tools", root / "tools", ignore=shutil.ignore_patterns("__pycache__"))
        shutil.copytree(DOCS, root / "docs", ignore=shutil.ignore_patterns("__pycache__", "pictures"))
        for name in ("install", "LICENSE"):
            shutil.copy(ROOT / name, root)
        (root / "bin").mkdir()
        # All that the launcher needs, and no rt.
        for name in ("sh", "find", "cksum", "sort", "xargs", "touch", "rm", "readlink", "dirname", "python3", "cat"):
            (root / "bin" / name).symlink_to(sys.executable if name == "python3" else shutil.which(name))

    def path(self, name):
        return self.root / name

    def make(self, name, data=None):
        """Makes a program of the code as it is, which prints its own name where its bytes aren't given."""
        path = self.path(name)
        path.parent.mkdir(parents=True, exist_ok=True)
        path.write_bytes(data or f"#!/bin/sh\necho {name}\n".encode())
        path.chmod(0o755)
        sums = [subprocess.run([self.path("tools/sources"), *words], stdout=subprocess.PIPE, check=True).stdout for words in ([], ["all"])]
        stamp = pathlib.Path(f"{path}.sources")
        stamp.write_bytes(b"".join(sums))
        os.utime(stamp, (0, 0))

    def settle(self, name):
        """Makes the stamp of a program younger than all that is there, as that of one is which is called a second behind the last change."""
        time.sleep(STEP)
        os.utime(self.path(f"{name}.sources"))
        time.sleep(STEP)

    def run(self, words, **how):
        """What words answer: their status, standard output and standard error."""
        streams = {"stdin": subprocess.DEVNULL, "stdout": subprocess.PIPE, "stderr": subprocess.PIPE}
        ran = subprocess.run([str(word) for word in words], env={**os.environ, "PATH": str(self.root / "bin")}, **streams, **how)
        return ran.returncode, ran.stdout, ran.stderr

    def call(self):
        return self.run([self.path("papyrus"), *WORDS])

    def wants(self, name):
        """What is wrong with the launcher's answer, where it is to run this program, or none; or nothing."""
        found = self.call()
        wanted = (0, f"{name}\n".encode(), b"") if name else NO_PROGRAM
        return "" if found == wanted else f"{found} and not {wanted}"


def in_place(path, text):
    """Writes a file of the same length in its place, and sets its times back."""
    before = path.stat()
    path.write_text(text)
    os.utime(path, ns=(before.st_atime_ns, before.st_mtime_ns))


def put_over(path, text):
    """Moves an older file over it, as a copy that keeps times does."""
    other = path.with_name("other")
    other.write_text(text)
    os.utime(other, (0, 0))
    os.replace(other, path)


def moved(path, to):
    """Moves a file or folder, and sets the time of the folder that it is in back."""
    before = path.parent.stat()
    path.rename(to)
    os.utime(path.parent, ns=(before.st_atime_ns, before.st_mtime_ns))


# What leaves other code, and then what leaves it as it was before that.
CHANGES = {
    "a file is written in place": (lambda at: in_place(at("crates/low/src/part/one.rt"), "const ONE: u8 = 3;\n"),
                                   lambda at: in_place(at("crates/low/src/part/one.rt"), FILES["crates/low/src/part/one.rt"])),
    "an older file is moved over one": (lambda at: put_over(at("crates/low/src/lib.rt"), "mod other;\n"),
                                        lambda at: put_over(at("crates/low/src/lib.rt"), FILES["crates/low/src/lib.rt"])),
    "a file is removed": (lambda at: moved(at("crates/low/src/part/two.rt"), at("two")),
                          lambda at: moved(at("two"), at("crates/low/src/part/two.rt"))),
    "a file comes": (lambda at: at("crates/low/src/part/three.rt").write_text(""), lambda at: at("crates/low/src/part/three.rt").unlink()),
    "a folder comes": (lambda at: shutil.copytree(at("crates/low/src/part"), at("crates/low/src/more")), lambda at: shutil.rmtree(at("crates/low/src/more"))),
    "a folder is removed": (lambda at: moved(at("crates/low/src/part"), at("part")), lambda at: moved(at("part"), at("crates/low/src/part"))),
    "a crate loses its code": (lambda at: moved(at("crates/low/src"), at("src")), lambda at: moved(at("src"), at("crates/low/src"))),
    "a crate is removed": (lambda at: moved(at("crates/low"), at("low")), lambda at: moved(at("low"), at("crates/low"))),
    "a crate comes": (lambda at: shutil.copytree(at("crates/low"), at("crates/new")), lambda at: shutil.rmtree(at("crates/new"))),
    "all crates are others": (lambda at: (moved(at("crates/low/src"), at("src")), shutil.copytree(at("src/part"), at("crates/low/src"))),
                              lambda at: (shutil.rmtree(at("crates/low/src")), moved(at("src"), at("crates/low/src")))),
    "crates.txt is another": (lambda at: in_place(at("crates.txt"), "papyrus: low\nbow:\n"), lambda at: in_place(at("crates.txt"), FILES["crates.txt"])),
}
# What leaves the code as it is.
OTHERS = {
    "nothing changes": lambda at: None,
    "a definition changes": lambda at: at("crates/low/specs/Lib.antt").write_text("-- two\n"),
    "a proof comes": lambda at: at("crates/low/proofs/Two.antt").write_text("-- two\n"),
    "something else is built": lambda at: at("crates/low/out/made").write_text("2\n"),
    "a file has the time of now": lambda at: os.utime(at("crates/low/src/lib.rt")),
    "a file is written as it was": lambda at: at("crates/low/src/lib.rt").write_text(FILES["crates/low/src/lib.rt"]),
}


def check_changes(tally, copy, made):
    """Each change with this program, where the launcher has called it before and where it hasn't."""
    for name, (change, back) in CHANGES.items():
        tally.note(named(name, "before", copy.wants(made)))
        copy.settle(made)
        change(copy.path)
        tally.note(named(name, "after", copy.wants("")))
        tally.note(named(name, "after it, again", copy.wants("")))
        back(copy.path)
        tally.note(named(name, "taken back", copy.wants(made)))
    for name, change in OTHERS.items():
        change(copy.path)
        for when in ("at once", "again"):
            tally.note(named(name, when, copy.wants(made)))


def named(name, when, fault):
    return fault and f"{name}, {when}: {fault}"


def check_at_once(tally, copy, made):
    """A change right behind a call, while clocks may stand still, is seen by the next call."""
    path = copy.path("crates/low/src/part/one.rt")
    for number in range(TIMES):
        path.write_text(FILES["crates/low/src/part/one.rt"])
        fault = copy.wants(made)
        path.write_text("const ONE: u8 = 4;\n")
        fault = fault or copy.wants("")
        tally.note(named("a change at once", f"time {number}", fault))
    path.write_text(FILES["crates/low/src/part/one.rt"])


def git(copy, *words):
    how = {"stdin": subprocess.DEVNULL, "stdout": subprocess.DEVNULL, "stderr": subprocess.DEVNULL, "check": True}
    settings = ["-c", "user.name=x", "-c", "user.email=x", "-c", "commit.gpgsign=false"]
    subprocess.run(["git", *settings, *words], cwd=copy.root, env={**os.environ, "GIT_CONFIG_GLOBAL": os.devnull}, **how)


def check_checkout(tally, copy, made):
    """Another commit is other code, and the first one the code that the program was made of."""
    if not shutil.which("git"):
        return
    copy.path(".gitignore").write_text("out/\nbin/\n")
    for words in (["init"], ["add", "."], ["commit", "-m", "one"], ["branch", "one"]):
        git(copy, *words)
    copy.path("crates/low/src/lib.rt").write_text("mod other;\n")
    git(copy, "commit", "-am", "two")
    for branch, wanted in (("one", made), ("-", ""), ("-", made), ("-", "")) * 3:
        git(copy, "checkout", branch)
        tally.note(named("a checkout", branch, copy.wants(wanted)))
    git(copy, "checkout", "one")


def check_fresh(tally):
    with tempfile.TemporaryDirectory(prefix="papyrus-launcher-") as room:
        copy = Copy(pathlib.Path(room).resolve())
        tally.note(named("no program", "at first", copy.wants("")))
        copy.make(UNPROVED)
        check_changes(tally, copy, UNPROVED)
        check_at_once(tally, copy, UNPROVED)
        check_checkout(tally, copy, UNPROVED)
        copy.make(PROVED)
        check_changes(tally, copy, PROVED)
        copy.path("crates/low/src/lib.rt").write_text("mod newer;\n")
        copy.make(UNPROVED)
        tally.note(named("the proved program is of other code", "at once", copy.wants(UNPROVED)))
        copy.path("crates/low/src/lib.rt").write_text(FILES["crates/low/src/lib.rt"])
        tally.note(named("the code is the proved program's", "again", copy.wants(PROVED)))


def tree(folder):
    """All that is in a folder, with its kind and what it holds, but for what Python keeps of its modules."""
    found = {}
    for path in sorted(folder.rglob("*")):
        if "__pycache__" not in path.parts:
            holds = os.readlink(path) if path.is_symlink() else path.read_bytes() if path.is_file() else ""
            found[str(path.relative_to(folder))] = (path.lstat().st_mode, holds)
    return found


class Installed:
    """A folder in which other files stand, and what `install` does to it."""

    def __init__(self, copy, folder):
        self.copy, self.folder = copy, folder
        (folder / "bin").mkdir(parents=True)
        (folder / "bin" / "other").write_text("other\n")
        (folder / "share" / "man").mkdir(parents=True)
        self.before = tree(folder)

    def install(self, *words, **how):
        return self.copy.run([self.copy.path("install"), *(words or [self.folder])], **how)

    def remove(self):
        return self.install("--remove", self.folder)

    def command(self):
        return self.folder / "bin" / "papyrus"

    def others_stay(self):
        """What of the files that were there is other now, or nothing."""
        now = tree(self.folder)
        return "".join(f"{name} was changed" for name, holds in self.before.items() if now.get(name) != holds)


def wanted(tally, what, found, status, *texts):
    """Notes whether an answer has this status, and these texts in its lines."""
    text = (found[1] + found[2]).decode(errors="replace")
    good = found[0] == status and all(one in text for one in texts)
    tally.note("" if good else f"install, {what}: {found} and not {status} with {texts}")


def check_answers(tally, copy, installed, room):
    """What is installed answers as the launcher, from another folder and through a link, where the sources are away."""
    place = room / "elsewhere"
    place.mkdir()
    (place / "journal").write_text(JOURNAL)
    (place / "A.psc").write_text(SCRIPT)
    (room / "link").symlink_to(installed.command())
    several = [["--version"], ["--help"], ["once", "A.psc"], ["explain", "L4"], ["view", "journal"], ["explain", "?"], ["run", "none.json", "A.psc"]]
    answers = [copy.run([copy.path("papyrus"), *words], cwd=place) for words in several]
    copy.root.rename(room / "away")
    bin_folder = room / "away" / "bin"
    for words, answer in zip(several, answers):
        for command in (installed.command(), room / "link"):
            ran = subprocess.run([command, *words], cwd=place, stdin=subprocess.DEVNULL, stdout=subprocess.PIPE, stderr=subprocess.PIPE, env={**os.environ, "PATH": str(bin_folder)})
            tally.note("" if (ran.returncode, ran.stdout, ran.stderr) == answer else f"install: papyrus {' '.join(words)} answers {ran} and not {answer}")
    (room / "away").rename(copy.root)


def check_told(tally, copy, installed, program):
    """Whether the proofs were checked, and that another program comes in the place of the first."""
    wanted(tally, "the first time", installed.install(), 0, f"{installed.command()} is installed. Its proofs weren't checked", "first on the PATH")
    first = tree(installed.folder)
    wanted(tally, "again", installed.install(), 0, "is installed")
    tally.note("" if tree(installed.folder) == first else "install: the second time other files are there than the first time")
    copy.make(PROVED, program.read_bytes())
    wanted(tally, "a proved program", installed.install(), 0, "Its proofs were checked.")
    copy.path("crates/low/specs/Lib.antt").write_text("-- three\n")
    wanted(tally, "another definition", installed.install(), 0, "Its proofs were checked, but not as they are now")
    copy.path("crates/low/specs/Lib.antt").write_text(FILES["crates/low/specs/Lib.antt"])
    tally.note("" if len(list((installed.folder / "lib" / "papyrus").iterdir())) == 4 else "install: more than two versions are kept")
    copy.path(PROVED).unlink()
    tally.note(named("install", "files of others", installed.others_stay()))


def check_in_the_way(tally, copy, room):
    """What somebody else put there is refused and stays, and the folder is as it was."""
    ways = {
        "bin/papyrus": lambda path: path.write_text("mine\n"),
        "share/man/man1/papyrus.1": lambda path: path.write_text("mine\n"),
        "share/bash-completion/completions/papyrus": lambda path: path.mkdir(),
        "share/zsh/site-functions/_papyrus": lambda path: path.symlink_to("/dev/null"),
        "lib/papyrus": lambda path: path.mkdir() or (path / "mine").write_text("mine\n"),
        "share/zsh": lambda path: path.write_text("mine\n"),
        "lib": lambda path: path.write_text("mine\n"),
    }
    for number, (name, put) in enumerate(ways.items()):
        installed = Installed(copy, room / f"way{number}")
        (installed.folder / name).parent.mkdir(parents=True, exist_ok=True)
        put(installed.folder / name)
        before = tree(installed.folder)
        wanted(tally, f"{name} is in the way", installed.install(), 1, "install: ", name.split("/")[-1])
        tally.note("" if tree(installed.folder) == before else f"install: {name} is in the way, and the folder was changed")
    (room / "file").write_text("mine\n")
    for words, status, text in (([room / "file"], 1, "is no folder"), ([room / "file" / "below"], 1, "File exists"), ([copy.root / "crates"], 1, "is inside the sources"),
                                (["/proc/none"], 1, "/proc/none"), ([""], 2, "it takes a folder"), (["--help"], 2, "it takes a folder"), (["a", "b"], 2, "it takes a folder"),
                                (["--remove", room / "none"], 1, "nothing is installed")):
        wanted(tally, f"of {words}", installed.install(*words), status, text)


def check_no_room(tally, installed):
    """Where files find no room nothing is left the first time, and later what was there."""
    before = tree(installed.folder)
    limit = {"preexec_fn": lambda: resource.setrlimit(resource.RLIMIT_FSIZE, (ROOM, ROOM))}
    wanted(tally, "no room", installed.install(**limit), 1, "install: ", "File too large")
    tally.note("" if tree(installed.folder) == before else "install: no room, and the folder was changed")


def check_ended(tally, copy, installed, program):
    """A call that is ended at any moment leaves the program that was there, or another; the next call does well."""
    for number in range(KILLS):
        copy.make(UNPROVED, program.read_bytes() + bytes(number))
        before = installed.command().exists()
        process = subprocess.Popen([copy.path("install"), installed.folder], stdout=subprocess.DEVNULL, stderr=subprocess.DEVNULL, env={**os.environ, "PATH": str(copy.path("bin"))})
        time.sleep(number * 0.3 / KILLS)
        process.kill()
        process.wait()
        answer = copy.run([installed.command(), "--version"]) if before or installed.command().exists() else (0, b"papyrus 0.1.0\n", b"")
        tally.note("" if answer == (0, b"papyrus 0.1.0\n", b"") else f"install, ended: papyrus --version answers {answer}")
        tally.note(named("install, ended", "files of others", installed.others_stay()))
        wanted(tally, "behind one that was ended", installed.install(), 0, "is installed")


def check_remove(tally, installed):
    page = installed.folder / "share" / "man" / "man1" / "papyrus.1"
    page.write_text("mine\n")
    wanted(tally, "a changed page", installed.install(), 1, "papyrus.1 is there, and isn't as an install put it there")
    wanted(tally, "a changed page stays", installed.remove(), 0, "is removed", "papyrus.1 stays, since it was changed")
    tally.note("" if page.read_text() == "mine\n" else "install: a changed page was taken away")
    page.unlink()
    page.parent.rmdir()
    tally.note("" if tree(installed.folder) == installed.before else f"install: removed, and there is {sorted(set(tree(installed.folder)) ^ set(installed.before))}")
    wanted(tally, "removed twice", installed.remove(), 1, "nothing is installed")


def check_install(tally, program):
    with tempfile.TemporaryDirectory(prefix="papyrus-install-") as name:
        room = pathlib.Path(name).resolve()
        copy = Copy(room / "sources")
        copy.make(UNPROVED, program.read_bytes())
        installed = Installed(copy, room / "a folder's")
        check_no_room(tally, installed)
        check_told(tally, copy, installed, program)
        check_no_room(tally, installed)
        check_answers(tally, copy, installed, room)
        check_ended(tally, copy, installed, program)
        check_remove(tally, installed)
        check_in_the_way(tally, copy, room)
        new = room / "new" / "folder"
        wanted(tally, "a folder that isn't there", installed.install(new), 0, "is installed")
        wanted(tally, "and remove it", installed.install("--remove", new), 0, "is removed")
        tally.note("" if not new.exists() else "install: a folder that was made stays")


def main():
    parser = argparse.ArgumentParser(description=__doc__, formatter_class=argparse.RawDescriptionHelpFormatter)
    parser.add_argument("--program", type=pathlib.Path, default=check_examples.PROGRAM)
    words = parser.parse_args()
    if not words.program.exists():
        print("the program isn't built: run ./papyrus --version first")
        return 2
    tally = check_pages.Tally()
    check_fresh(tally)
    check_install(tally, words.program.resolve())
    print("\n".join([*tally.wrong, f"{tally.passed} passed, {len(tally.wrong)} failed"]))
    return 1 if tally.wrong else 0


if __name__ == "__main__":
    sys.exit(main())
