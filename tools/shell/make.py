#!/usr/bin/env python3
"""Makes papyrus.bash, _papyrus (of zsh), papyrus.1 and helpers.txt of commands.table, and of docs/rules.md, which has the codes of rules."""
import pathlib
import sys

HERE = pathlib.Path(__file__).resolve().parent
sys.path.insert(0, str(HERE.parent))
import explain

MADE = "made by make.py of commands.table: change that"


class Table:
    """The rows of commands.table, by section."""

    def __init__(self, text):
        sections = {}
        for line in text.splitlines():
            if line.startswith("["):
                rows = sections.setdefault(line.strip("[]"), [])
            elif line and not line.startswith("#"):
                rows.append([cell.strip() for cell in line.split("|")])
        self.commands = sections["commands"]
        self.helpers = sections["helpers"]
        self.options = {}
        for helper, *option in sections["options"]:
            self.options.setdefault(helper, []).append(option)
        self.words = {name: (pattern, meaning) for name, pattern, meaning in sections["words"]}
        self.statuses = sections["statuses"]
        codes = " ".join(rule.code for rule in explain.read_pages().rules)
        # The words of which one may stand in a place where no file does.
        self.choices = {"RULE": codes, "COMMAND": " ".join(row[0] for row in self.commands + self.helpers if not row[0].startswith("-"))}

    def pattern(self, word):
        return self.words[word.strip("[].")][0]


def lines_of(rows, all_rows):
    """A line for each of these rows, as wide as all need."""
    width = max(len(spelled(row)) for row in all_rows)
    return [f"  {spelled(row):{width}}  {row[2]}" for row in rows]


def spelled(row):
    return " ".join(["papyrus", row[0], row[1]]).rstrip()


def help_lines(table):
    """The lines of commands in the program's own `papyrus --help`."""
    return lines_of(table.commands, table.commands)


def helpers(table):
    """What the launcher prints behind that."""
    lines = ["", "Beside the program, this launcher has", "", *lines_of(table.helpers, table.commands + table.helpers)]
    return "\n".join(lines) + "\n"


def bash(table):
    lines = [f"# Completion of papyrus for bash, {MADE}.", "", "_papyrus() {",
             "    local word=${COMP_WORDS[COMP_CWORD]} pattern=",
             "    COMPREPLY=()",
             "    if [ \"$COMP_CWORD\" -eq 1 ]; then",
             f"        COMPREPLY=($(compgen -W \"{' '.join(row[0] for row in table.commands + table.helpers)}\" -- \"$word\"))",
             "        return",
             "    fi",
             "    case ${COMP_WORDS[1]} in"]
    for command, words, _, _ in table.commands:
        lines += bash_arm(command, words.split(), table)
    for helper, words, _, _ in table.helpers:
        choice = words.strip("[]")
        if choice in table.choices:
            begun = "${word^^}" if choice == "RULE" else "$word"
            lines += [f"    {helper})", f"        [ \"$COMP_CWORD\" -gt 2 ] || COMPREPLY=($(compgen -W \"{table.choices[choice]}\" -- \"{begun}\"))", "        ;;"]
        else:
            lines += bash_options(helper, table) + bash_arm(helper, unbracketed(words), table)
    lines += ["    esac",
              "    [ -n \"$pattern\" ] || return",
              "    local IFS=$'\\n'",
              "    COMPREPLY=($(compgen -f -X \"!$pattern\" -- \"$word\") $(compgen -d -- \"$word\"))",
              "    compopt -o filenames 2>/dev/null",
              "}", "",
              "complete -F _papyrus papyrus ./papyrus"]
    return "\n".join(lines) + "\n"


def bash_options(helper, table):
    """The arm of a helper's options."""
    names = " ".join(option for option, _, _ in table.options.get(helper, []))
    return [f"    {helper})", f"        case $word in --*) COMPREPLY=($(compgen -W \"{names}\" -- \"$word\")); return ;; esac", "        ;;&"] if names else []


def unbracketed(words):
    """The words of a command or a helper, without the signs of those that may lack."""
    return [word.strip("[]") for word in words.split()]


def bash_arm(command, words, table):
    """The arm of a command: which files stand at which place."""
    patterns = [table.pattern(word) for word in words]
    if not any(patterns):
        return []
    if len(words) == 1 and words[0].endswith(".."):
        return [f"    {command}) pattern='{patterns[0]}' ;;"]
    lines = [f"    {command})", "        case $COMP_CWORD in"]
    for at, (word, pattern) in enumerate(zip(words, patterns), 2):
        lines.append(f"        {'*' if word.endswith('..') else at}) pattern='{pattern}' ;;")
    return [*lines, "        esac", "        ;;"]


def zsh(table):
    lines = ["#compdef papyrus", f"# Completion of papyrus for zsh, {MADE}.", "", "local -a commands", "commands=("]
    for command, _, line, _ in table.commands + table.helpers:
        escaped = line.replace("'", "'\\''")
        lines.append(f"    '{command}:{escaped}'")
    lines += [")", "if (( CURRENT == 2 )); then", "    _describe command commands", "    return", "fi", "case $words[2] in"]
    for command, words, _, _ in table.commands + table.helpers:
        spec = [zsh_word(word, table) for word in unbracketed(words)] + [zsh_option(option) for option in table.options.get(command, [])]
        if spec:
            lines.append(f"    {command}) shift words; (( CURRENT-- )); _arguments {' '.join(spec)} ;;")
    return "\n".join([*lines, "esac"]) + "\n"


def zsh_word(word, table):
    """What completes a word of a command."""
    pattern, meaning = table.words[word.rstrip(".")]
    action = f"({table.choices[word]})" if word in table.choices else f"_files -g \"{pattern}\"" if pattern else ""
    return f"'{'*' if word.endswith('..') else ''}:{meaning.split(',')[0]}:{action}'"


def zsh_option(option):
    """What completes an option."""
    name, word, meaning = option
    return f"'{name}[{meaning}]{':' + word.rstrip('.').lower() + ':' if word else ''}'"


def roff(text):
    """A text as roff takes it at a line's start."""
    text = text.replace("\\", "\\e").replace("-", "\\-")
    return "\\&" + text if text[:1] in (".", "'") else text


def man(table):
    lines = [f'.\\" {MADE}', ".TH PAPYRUS 1", ".SH NAME", roff("papyrus") + " \\- compiles Papyrus scripts and runs them under instance locks",
             ".SH SYNOPSIS"]
    for command, words, _, _ in table.commands + table.helpers:
        lines += [".B papyrus " + roff(command), *([".I " + roff(words)] if words else []), ".br"]
    lines += [".SH DESCRIPTION", "Works on files, each of which is named by its path from the current folder, or from the root.",
              "What a command is for goes to standard output. Where it ends otherwise than well, one line goes to standard error.", ".SH COMMANDS"]
    for command, words, _, sentence in table.commands:
        lines += [".TP", f".B {roff(command)}" + (f" \\fI{roff(words)}\\fR" if words else ""), roff(sentence)]
    lines += [".SH HELPERS", "The launcher at the top of the repository has these beside the program."]
    for helper, words, _, sentence in table.helpers:
        lines += [".TP", f".B {roff(helper)} \\fI{roff(words)}\\fR", roff(sentence)]
        for option, word, meaning in table.options.get(helper, []):
            lines += [".RS", ".TP", f".B {roff(option)}" + (f" \\fI{roff(word)}\\fR" if word else ""), roff(meaning[0].upper() + meaning[1:]) + ".", ".RE"]
    lines += [".SH WORDS"]
    for word, (_, meaning) in table.words.items():
        lines += [".TP", f".I {roff(word)}", roff(meaning[0].upper() + meaning[1:]) + "."]
    lines += [".SH EXIT STATUS"]
    for status, meaning in table.statuses:
        lines += [".TP", f".B {status}", roff(meaning[0].upper() + meaning[1:]) + "."]
    lines += [".SH SEE ALSO", "The pages in the folder docs of the repository: commands.md, scenes.md, rules.md and locking.md first."]
    return "\n".join(lines) + "\n"


def made():
    """The files that are made, by name."""
    table = Table((HERE / "commands.table").read_text())
    return {"papyrus.bash": bash(table), "_papyrus": zsh(table), "papyrus.1": man(table), "helpers.txt": helpers(table)}


def main():
    for name, text in made().items():
        (HERE / name).write_text(text)
    return 0


if __name__ == "__main__":
    sys.exit(main())
