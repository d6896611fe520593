"""On which lines of scripts stacks stand, by what `papyrus show` lists of compiled files."""

# The scripts of the prelude stand before those of files.
PRELUDE = 6


class Lines:
    """The line of each instruction, as far as compiled files tell."""

    def __init__(self, program, files):
        self.objects, self.lines = [], {}
        for file in files:
            self.read(program.run(["show", file]).decode(errors="backslashreplace"))

    def read(self, listing):
        strings = []
        for line in listing.splitlines():
            word, *rest = line.split(" ")
            if word == "string":
                strings.append(line[len("string ") + 1:-1])
            elif word == "object":
                self.objects.append(named(rest[0], strings))
            elif word == "lines":
                name, state, function = (named(part, strings).lower() for part in rest[:3])
                self.lines[name, state, function, int(rest[3])] = [int(number) for number in rest[4:]]

    def told(self, bodies):
        """Where a stack with these bodies stands, outermost first: the innermost line that is known, or nothing."""
        for script, state, function, kind, instruction in reversed(bodies):
            if PRELUDE <= script < PRELUDE + len(self.objects):
                name = self.objects[script - PRELUDE]
                words = [part.decode(errors="backslashreplace") for part in (state, function)]
                lines = self.lines.get((name.lower(), *(word.lower() for word in words), kind), [])
                return f"line {lines[min(instruction, len(lines) - 1)]} of {name}.{words[1]}" if lines else f"{name}.{words[1]}"
        return None


def named(word, strings):
    """The name that a word of a listing is, by itself or by its number in the table of strings."""
    return strings[int(word[1:])] if word.startswith("#") else word
