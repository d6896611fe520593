"""The scenes of the cases and the examples, each with the rule that it is refused by."""
import pathlib
import re
import subprocess
import sys
import tempfile

ROOT = pathlib.Path(__file__).resolve().parent.parent
CASES = ROOT / "cases"
sys.path.insert(0, str(CASES))
# In which word of a command the scene stands.
COMMANDS = {b"run": 1, b"exec": 1, b"upgrade": 1}


def rule_of(line, scene):
    """The rule C that the line of a refusal tells of this file, or an empty text."""
    found = re.match(re.escape(scene) + rb": (C\d+) ", line)
    return found.group(1).decode() if found else ""


def scene_word(words):
    at = COMMANDS.get(words[0]) if words else None
    return words[at] if at and at < len(words) else None


def scene_of_case(case):
    """The bytes of the scene that the case's program reads, with the rule that refuses it, or nothing."""
    import run as cases

    scene = scene_word(cases.words_of(case))
    if not scene or b"notes" in cases.expected_of(case, "closed").split():
        return
    with tempfile.TemporaryDirectory(prefix="papyrus-scene-") as room:
        for path in case.iterdir():
            if path.name not in cases.EXPECTED:
                name, content = cases.laid(path.name, path.read_bytes())
                (pathlib.Path(room) / name).write_bytes(content)
        if (case / "generate").exists():
            subprocess.run([sys.executable, str(case / "generate")], cwd=room, check=True)
        path = pathlib.Path(room) / scene.decode("utf-8", "surrogateescape")
        if path.is_file():
            yield cases.name_of(case), path.read_bytes(), rule_of(cases.expected_of(case, "notes"), scene)


def scenes_of_rows(path):
    """The same of each row of a file of rows."""
    from rows import rows_of

    for row in rows_of(path):
        words = [word.encode("latin-1") for word in getattr(row, "words", [])]
        scene = scene_word(words)
        text = row.files.get(scene.decode("latin-1")) if scene else None
        if text is not None:
            yield row.name, text.encode("latin-1"), rule_of(row.answer.encode("latin-1"), scene)


def scenes():
    """Each scene: where it stands, its bytes, and the rule that refuses it."""
    for case in sorted(path.parent for path in CASES.rglob("args")):
        yield from scene_of_case(case)
    for path in sorted(CASES.glob("*.rows")):
        yield from scenes_of_rows(path)
    for path in sorted((ROOT / "examples").rglob("scene.json")):
        yield str(path.relative_to(ROOT)), path.read_bytes(), ""
