"""Inputs at every limit and one past it, the longest chains and the deepest nestings, for `hostile.py`.

Each is a name, the words of some runs in one folder, the folder's files, and the status of all these runs as a text, or None
where any status of the table will do.
"""
import json

SCRIPT = 1 << 20
PEX = SCENE = 1 << 24
LISTING = 1 << 27
HEAD = b"ScriptName A\n"
EVENT = b"Event OnInit()\n"
END = b"EndEvent\n"


def filled(start, unit, size, end=b""):
    """Exactly so many bytes: as many units as fit, and blanks."""
    count = max(0, (size - len(start) - len(end)) // len(unit))
    text = start + unit * count + end
    return text + b" " * (size - len(text))


def event(*lines, head=HEAD):
    return head + EVENT + b"".join(line + b"\n" for line in lines) + END


def one_script(name, content, expected):
    return name, [["once", "A.psc"]], {"A.psc": content}, expected


def pairs(limit, make, name, within="0", past="5"):
    """A script at a limit, and one past it."""
    yield one_script(f"{name} {limit}", make(limit), within)
    yield one_script(f"{name} {limit + 1}", make(limit + 1), past)


# ---- scripts


def script_sizes():
    for size, comes in ((SCRIPT, None), (SCRIPT + 1, "5")):
        yield one_script("comments", filled(HEAD, b"; a comment\n", size), comes and "5")
        yield one_script("traces", filled(HEAD + EVENT, b"Debug.Trace(1 + 2)\n", size, END), "5")
        yield one_script("one expression", filled(HEAD + EVENT + b"Debug.Trace(1", b"+1", size, b")\n" + END), "5")
        yield one_script("line feeds", b"\n" * size, "5")
        yield one_script("brackets", b"(" * size, "5")
        yield one_script("zeros", bytes(size), "5")
        yield one_script("one word", b"a" * size, "5")
        yield one_script("one text", b'"' + b"a" * (size - 1), "5")
        yield one_script("one number", b"1" * size, "5")
        yield one_script("joins", HEAD + b"\\\n" * ((size - len(HEAD)) // 2), None)
        yield one_script("properties", filled(HEAD, b"Int Property P Auto\n", size), "5")
        yield one_script("states", filled(HEAD, b"State S\nEndState\n", size), "5")
        yield one_script("functions", filled(HEAD, b"Function F()\nEndFunction\n", size), "5")


def expression_of(tokens):
    """An expression of so many tokens, and of far fewer parts."""
    count, rest = divmod(tokens - 9, 10)
    return b"- " * (rest % 2) + b"((((1))))" + b" + ((((1))))" * count + b" + 1" * (rest // 2)


def default_texts(count, size):
    """Calls of functions that write out so many texts."""
    places = range(count)
    functions = b"".join(b'Function F%d(String a = "%s")\nEndFunction\n' % (place, b"%04d" % place + b"t" * (size - 4)) for place in places)
    starts = range(0, count, 1000)
    calls = b"".join(b"Function G%d()\n" % start + b"".join(b"F%d()\n" % place for place in places[start : start + 1000]) + b"EndFunction\n" for start in starts)
    return HEAD + functions + calls + EVENT + END


def script_limits():
    yield from pairs(65535, lambda n: HEAD + EVENT + END + b"\n" * (n - 3), "lines")
    yield from pairs(255, lambda n: event(b"Int " + b"a" * n), "bytes of a name")
    yield from pairs(1024, lambda n: event(b'Debug.Trace("' + b"a" * n + b'")'), "bytes of a text")
    yield from pairs(65535, lambda n: event(b"Return", head=b"ScriptName A {" + b"d" * n + b"}\n"), "bytes of a documentation")
    yield from pairs(64, lambda n: event(b"Int i = " + b"(" * n + b"1" + b")" * n), "brackets")
    yield from pairs(64, lambda n: event(*[b"If True"] * n, *[b"EndIf"] * n), "If blocks")
    yield from pairs(64, lambda n: event(*[b"While False"] * n, *[b"EndWhile"] * n), "While blocks")
    yield from pairs(8000, lambda n: event(b"Int i = " + expression_of(n - 3)), "tokens")
    yield from pairs(20000, lambda n: b"ScriptName A\n" + b"".join(b"Int v%d\n" % number for number in range(n - 2)) + EVENT + END, "words")
    yield from pairs(128, lambda n: event(b"Int[] a = New Int[%d]" % n), "elements of an array")
    yield from pairs(4000, lambda n: event(*[b"Return"] * n), "parts of a function")
    functions = b"".join(b"Function F%d()\n" % number + b"1\n" * 2000 + b"EndFunction\n" for number in range(49))
    yield from pairs(200000 - 49 * 4000, lambda n: event(*[b"Return"] * (n - 14), head=HEAD + functions), "parts of a script", None, None)
    yield from pairs(8192, lambda n: default_texts(n, 5), "default texts")
    yield from pairs(512, lambda n: default_texts(n, 1024), "default texts of 1,024 bytes")


def nested_scripts():
    for depth in (63, 64, 65, 200, 20000):
        yield one_script(f"brackets {depth}", event(b"Debug.Trace(" + b"(" * depth + b"1" + b")" * depth + b")"), None)
        yield one_script(f"signs {depth}", event(b"Debug.Trace(" + b"!" * depth + b"True)"), None)
        yield one_script(f"calls {depth}", event(b"F(" * depth + b"1" + b")" * depth, head=HEAD + b"Int Function F(Int a)\nReturn a\nEndFunction\n"), None)
        yield one_script(f"indexes {depth}", event(b"Int[] a = New Int[1]", b"Int i = " + b"a[" * depth + b"0" + b"]" * depth), None)
        yield one_script(f"right sides {depth}", event(b"Bool b = " + b"True || (" * depth + b"True" + b")" * depth), None)
        deepest = b"0 || 1 && 1 == 1 + 1 * -F(" * depth + b"True" + b")" * depth
        yield one_script(f"all right sides {depth}", event(b"Bool b = " + deepest, head=HEAD + b"Int Function F(Bool b)\nReturn b as Int\nEndFunction\n"), None)
        yield one_script(f"all right sides in blocks {depth}", event(*[b"If " + deepest] * min(depth, 64), *[b"EndIf"] * min(depth, 64), head=HEAD + b"Int Function F(Bool b)\nReturn b as Int\nEndFunction\n"), None)
        yield one_script(f"while and if {depth}", event(*[b"While True", b"If True"] * (depth // 2), *[b"EndIf", b"EndWhile"] * (depth // 2)), None)
    for count in (1000, 2600, 3999, 4001):
        for name, unit in (("plus", b" + 1"), ("equal", b" == 1"), ("and", b" && 1"), ("or", b" || 1"), ("times", b" * 1")):
            yield one_script(f"{name} {count}", event(b"Debug.Trace(1" + unit * min(count, 3990) + b")"), None)
        yield one_script(f"members {count}", event(b"A a = Self", b"a" + b".P" * min(count, 3990), head=HEAD + b"A Property P Auto\n"), None)
        yield one_script(f"method calls {count}", event(b"Self" + b".F()" * min(count, 1990), head=HEAD + b"A Function F()\nReturn Self\nEndFunction\n"), None)
        yield one_script(f"else ifs {count}", event(b"If False", *[b"ElseIf False"] * count, b"EndIf"), None)
        yield one_script(f"joined texts {count}", event(b'String s = ""' + b' + "a"' * min(count, 3990), b"Debug.Trace(s)"), None)


def script_sets():
    for count in (256, 257):
        names = [f"S{number}" for number in range(count)]
        files = {f"{name}.psc": f"ScriptName {name}\nEvent OnInit()\nEndEvent\n".encode() for name in names}
        files["s.json"] = json.dumps(scene()).replace('"A"', '"S0"').encode()
        status = "0" if count == 256 else "2"
        scripts = [name for name in files if name.endswith(".psc")]
        values = [f"{name}.pex" for name in names]
        yield f"{count} scripts", [["once", *scripts], ["compile", *scripts], ["run", "s.json", *scripts], ["exec", "s.json", *values]], files, status
        yield f"{count} compiled files", [["exec", "s.json", *(["A.pex"] * count)]], {"s.json": b"{}", "A.pex": b""}, "7" if count == 256 else "2"
    chain = {f"S{number}.psc": (f"ScriptName S{number} extends S{number + 1}\n" if number < 255 else f"ScriptName S{number}\nEvent OnInit()\nEndEvent\n").encode() for number in range(256)}
    yield "a chain of 256 parents", [["once", *chain], ["compile", *chain]], chain, "0"
    circle = {f"S{number}.psc": f"ScriptName S{number} extends S{(number + 1) % 256}\n".encode() for number in range(256)}
    yield "a circle of 256 parents", [["once", *circle], ["compile", *circle]], circle, "5"
    replaced = {f"S{number}.psc": content + b"".join(b"Function F%d()\nEndFunction\n" % place for place in range(200)) for number, content in enumerate(chain.values())}
    yield "256 scripts that replace 200 functions", [["once", *replaced]], replaced, "0"


# ---- scenes


def scene(**changes):
    return {"version": 2, "instances": [{"name": "a", "script": "A"}], "calls": [], "order": "round", "turns": 3, **changes}


def one_scene(name, tree, expected, script=event(b"Return")):
    content = tree if isinstance(tree, bytes) else json.dumps(tree).encode()
    return name, [["run", "s.json", "A.psc"], ["upgrade", "s.json", "n.json"]], {"s.json": content, "A.psc": script}, expected


def scene_limits():
    def at(name, limit, make, expected=("0", "7")):
        yield one_scene(f"{name} {limit}", make(limit), expected[0])
        yield one_scene(f"{name} {limit + 1}", make(limit + 1), expected[1])

    call = {"turn": 0, "instance": "a", "function": "OnInit"}
    yield from at("instances", 256, lambda n: scene(instances=[{"name": f"i{number}", "script": "A"} for number in range(n)]))
    yield from at("calls", 1024, lambda n: scene(calls=[call] * n))
    yield from at("numbers of a tape", 100000, lambda n: scene(tapes=[[7] * n]))
    yield from at("entries of an order", 1000000, lambda n: scene(order=[0] * n))
    yield from at("turns", 1000000, lambda n: scene(turns=n))
    yield from at("turn of a call", 1000000, lambda n: scene(calls=[{**call, "turn": n}]))
    yield from at("quantum", 1000, lambda n: scene(quantum=n))
    yield from at("a latency", 1000000, lambda n: scene(natives={"Debug.Trace": {"kind": "trace", "latency": n}}))
    yield from at("bytes of an instance's name", 64, lambda n: scene(instances=[{"name": "a" * n, "script": "A"}]))
    yield from at("a stack number", 65535, lambda n: scene(order=[n]))
    yield from at("tapes", 4, lambda n: scene(tapes=[[]] * n), ("0", None))
    yield from at("the greatest cell", 2**31 - 1, lambda n: scene(tapes=[[n]]))
    yield from at("the least cell", 2**31, lambda n: scene(tapes=[[-n]]))
    yield from at("a device", 3, lambda n: scene(natives={"Utility.RandomInt": {"kind": "device", "device": n}}), ("0", None))
    yield from at("the greatest device", 65535, lambda n: scene(natives={"Utility.RandomInt": {"kind": "device", "device": n}}), (None, "7"))
    text = HEAD + b"String Property T Auto\n" + EVENT + END
    yield one_scene("a text of 1,024 bytes", scene(instances=[{"name": "a", "script": "A", "set": {"T": "x" * 1024}}]), "0", text)
    yield one_scene("a text of 1,025 bytes", scene(instances=[{"name": "a", "script": "A", "set": {"T": "x" * 1025}}]), "7", text)
    for depth in (126, 127, 128, 200000):
        yield one_scene(f"arrays {depth}", b"[" * depth + b"]" * depth, "7")
        yield one_scene(f"objects {depth}", b'{"a":' * depth + b"1" + b"}" * depth, "7")


def scene_sizes():
    for size in (SCENE, SCENE + 1):
        start = b'{"version":1,"instances":[],"calls":[],"turns":1,"order":['
        yield one_scene("an order", filled(start, b"0,", size, b"0]}"), "7")
        yield one_scene("blanks", filled(start + b"0]}", b" ", size), "0" if size == SCENE else "7")
        yield one_scene("an array", b"[" + b"1," * (size // 2 - 1) + b"1]"[: size % 2 + 1], "7")
        yield one_scene("objects", filled(b"[", b"{},", size, b"{}]"), "7")
        yield one_scene("one text", b'"' + b"a" * (size - 2) + b'"', "7")
        yield one_scene("zeros", bytes(size), "7")


# ---- compiled files and listings


def listing(*lines, strings=(b"", b"A", b"None", b"x", b"Int", b"self", b"OnInit")):
    head = [b"pex 2 0", b'source "A.psc"', b'user ""', b'machine ""', *(b'string "%s"' % text for text in strings), b"nodebug"]
    return b"".join(line + b"\n" for line in (*head, *lines))


def one_listing(name, content, expected_of_exec):
    yield name, [["asm", "A.txt", "A.pex"], ["check", "A.pex"], ["show", "A.pex"]], {"A.txt": content}, "0"
    yield f"{name}, run", [["asm", "A.txt", "A.pex"], ["exec", "s.json", "A.pex"]], {"A.txt": content, "s.json": json.dumps(scene()).encode()}, expected_of_exec


def pex_limits():
    for size in (PEX, PEX + 1):
        for name, content in (("zeros", bytes(size)), ("noise behind a header", bytes.fromhex("fa57c0de03010001") + b"\xff" * (size - 8)), ("zeros behind a header", bytes.fromhex("fa57c0de03010001") + bytes(size - 8))):
            yield f"{size} {name}", [["check", "A.pex"], ["show", "A.pex"], ["exec", "s.json", "A.pex"]], {"A.pex": content, "s.json": json.dumps(scene()).encode()}, "6"
    body = (b"object A counted #0 #0 0 #0", b"state #0", b"function OnInit None #0 0 0")
    for count in (8192, 8193):
        names = [b"v%d" % number for number in range(count)]
        locals_ = listing(*body, *(b"local %s Int" % name for name in names), strings=(b"", b"A", b"None", b"x", b"Int", b"OnInit", *names))
        yield from one_listing(f"{count} locals", locals_, None)
    for count in (4096, 4097):
        names = [b"A", *(b"o%d" % number for number in range(1, count))]
        objects = listing(*(b"object %s counted #0 #0 0 #0" % name for name in names), strings=(b"", *names))
        yield from one_listing(f"{count} objects", objects, None)
        chain = listing(*(b"object %s counted %s #0 0 #0" % pair for pair in zip(names, [*names[1:], b"Form"])), strings=(b"", b"Form", *names))
        yield from one_listing(f"{count} objects in a chain", chain, None)
    for count in (65535,):
        yield from one_listing(f"{count} instructions", listing(*body, *[b"nop"] * count), None)
        yield from one_listing(f"{count} arguments", listing(*body, b"callmethod id OnInit id self id x" + b" int 1" * count), None)
        yield from one_listing(f"{count} jumps to themselves", listing(*body, *[b"jmp int 0"] * count), None)
        yield from one_listing(f"{count} jumps forward", listing(*body, *[b"jmp int 1"] * count), None)
    yield f"65536 instructions", [["asm", "A.txt", "A.pex"]], {"A.txt": listing(*body, *[b"nop"] * 65536)}, "8"
    for size in (65535, 65536):
        yield f"a string of {size}", [["asm", "A.txt", "A.pex"]], {"A.txt": listing(strings=(b"a" * size,))}, "0" if size == 65535 else "8"


def listing_sizes():
    for size in (LISTING, LISTING + 1):
        for name, unit in (("strings", b'string "a"\n'), ("line feeds", b"\n"), ("one line", b"a")):
            yield f"{size} {name}", [["asm", "A.txt", "B.pex"]], {"A.txt": filled(b"pex 1 0\n", unit, size)}, "8"


# ---- words and runs


def word_limits():
    for size, status in ((4096, "3"), (4097, "2")):
        name = "a" * size
        yield f"words of {size}", [["check", name], ["show", name], ["asm", name, "B.pex"], ["upgrade", name, "n.json"], ["once", "a" * (size - 4) + ".psc"],
                                   ["compile", "a" * (size - 4) + ".psc"], ["run", name, "A.psc"], ["exec", name, "A.pex"]], {}, status
    for words in ([], ["once"], ["run"], ["run", "s.json"], ["compile"], ["exec", "s.json"], ["check"], ["show", "a", "b"], ["asm", "a"], ["sample"], ["sample", "1", "2"], ["upgrade", "a"], ["once", ""],
                  ["once", ".psc"], ["once", "A.PSC"], ["check", ""], ["Once", "A.psc"], ["sample", "0"], ["sample", "201"], ["sample", "01"], ["sample", "+1"], ["sample", "9" * 4096]):
        yield "words", [words], {}, "2"
    yield "samples", [["sample", "1"], ["sample", "200"]], {}, "0"


def long_runs():
    busy_scene = {"version": 2, "instances": [{"name": f"i{n}", "script": "A"} for n in range(256)],
                  "calls": [{"turn": 0, "instance": f"i{n % 256}", "function": "OnInit"} for n in range(1024)], "order": "round", "turns": 1_000_000, "quantum": 1}
    bodies = {
        "sleeps": event(b"While True", b"Scene.Sleep(1)", b"EndWhile"),
        "long sleeps": event(b"While True", b"Scene.Sleep(1000000)", b"EndWhile"),
        "passes": event(b"While True", b"EndWhile"),
        "frames": HEAD + b"Function F()\nF()\nEndFunction\n" + EVENT + b"F()\n" + END,
        "frames without end": HEAD + b"Function F()\nWhile True\nF()\nEndWhile\nEndFunction\n" + EVENT + b"F()\n" + END,
        "arrays": event(b"While True", b"Int[] a = New Int[128]", b"EndWhile"),
        "texts": event(b'String s = "a"', b"While True", b"s += s", b"EndWhile"),
        "traces": event(b"While True", b'Debug.Trace("a")', b"EndWhile"),
        "states": event(b"While True", b'GotoState("a")', b"EndWhile"),
    }
    for name, script in bodies.items():
        yield f"a run of {name}", [["run", "s.json", "A.psc"]], {"s.json": json.dumps(busy_scene).encode(), "A.psc": script}, "0"
    yield "a list of 1,000,000 idle turns", [["run", "s.json", "A.psc"]], {"s.json": json.dumps({**busy_scene, "order": [1023] * 1_000_000}).encode(), "A.psc": bodies["sleeps"]}, "0"


def all_inputs():
    for group in (word_limits, script_sizes, script_limits, nested_scripts, script_sets, scene_limits, scene_sizes, pex_limits, listing_sizes, long_runs):
        yield from group()
