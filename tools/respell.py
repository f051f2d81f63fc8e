#!/usr/bin/env python3
"""Brings this repository's own names in antt to today's spelling. Run once, at the top, right after
/opt/rattle/port/port.py (docs/PORT.md).

A definition's or a lemma's words are in snake case: sizeOf becomes size_of. A dash stays only between two names of
definitions, as in length-split; else it becomes an underscore, as in look_turn, and a lemma that would then have a
definition's name gets _lem. A name counts as the repository's own where an .antt file of crates/ has it and, with a dash,
the library has not. Names are turned in .antt and .rt files, must-fail edits and, within backticks, in comments and
pages."""
import pathlib
import re

WORD = re.compile(r"(?<![0-9A-Za-z_'\\\-])[a-z][0-9A-Za-z_'\-]*")
DECLARED = re.compile(r"(?:abbrev |unfoldable )?(?:pub )?(?:data |record |ruleset |abbrev )?([a-z][^\s:]*) (?::|=)")
# made by Rattle, in today's spelling already
MADE = {"uint_Tells", "uint_Makes", "mut_Tells", "mut_slice_Tells", "shr_slice_Tells"}
# a lemma of a section that stands beside an import which has the plain name
BESIDE = {"calm-saids"}
# definitions of the library that lemmas here are named after
KIT = {"length", "take", "drop", "set", "cond", "map", "append", "max"}


def snake(word):
    return re.sub(r"(?<=[0-9a-z])[A-Z]", lambda letter: "_" + letter.group().lower(), word)


def code(line):
    return line.split("--")[0]


def camel_names(files):
    found = {word for file in files for line in file.read_text().split("\n")
             for word in WORD.findall(code(line)) if re.search("[A-Z]", word)}
    return {word: snake(word) for word in found - MADE if "-" not in word}


def library_names():
    """Each name with a dash in the library's own files."""
    found = set()
    for file in pathlib.Path("/opt/rattle/rattle").glob("**/*.antt"):
        found |= set(re.findall(r"[A-Za-z_][0-9A-Za-z_'\-]*", file.read_text()))
    return found


def dashed_names(files, known):
    """The names with dashes, each with its new spelling; known are the names of definitions and functions."""
    words = {word for file in files for line in file.read_text().split("\n") for word in WORD.findall(code(line))}
    phrases = sorted((name for name in known if "_" in name), key=len, reverse=True)
    taken = words | known
    stated = {match.group(1) for file in files for line in file.read_text().split("\n")
              if (match := re.match(r"(?:abbrev |unfoldable |pub |ruleset )*([a-z][^\s:]*)", code(line)))}
    turned = {}
    for name in sorted(word for word in words - library_names() if "-" in word):
        text = f"-{name}-"
        for phrase in phrases:
            text = text.replace("-" + phrase.replace("_", "-") + "-", f"-{phrase}-")
        parts = text.strip("-").split("-")
        new = parts[0]
        for before, part in zip(parts, parts[1:]):
            new += ("-" if before in known and part in known else "_") + part
        while new != name and new in taken and (name in stated or name in BESIDE):
            new += "_lem"
        taken.add(new)
        turned[name] = new
    return turned


def camel(text):
    """The names in camel case that are still there."""
    words = {word for word in WORD.findall(text) if re.search("[A-Z]", word) and "-" not in word}
    return {word: snake(word) for word in words - MADE if re.search("[0-9a-z][A-Z]", word)}


def turn_code(text, names):
    return WORD.sub(lambda word: names.get(word.group(), word.group()), text)


def turn_quoted(text, names):
    return re.sub("`[^`\n]*`", lambda quoted: turn_code(quoted.group(), names), text)


def turn_file(file, names, mark):
    lines = []
    for line in file.read_text().split("\n"):
        before, sign, comment = line.partition(mark) if mark else ("", "", line)
        lines.append(turn_code(before, names) + sign + turn_quoted(comment, names))
    turned = "\n".join(lines)
    if turned != file.read_text():
        file.write_text(turned)


def main():
    crates = pathlib.Path("crates")
    proofs = sorted(crates.glob("*/*/**/*.antt"))
    stated = sorted(crates.glob("*/specs/**/*.antt"))
    lemmas = sorted(crates.glob("*/proofs/*.antt"))
    sources = sorted(crates.glob("*/src/**/*.rt"))
    edits = sorted(crates.glob("*/must-fail/*"))
    pages = [pathlib.Path("README.md"), *sorted(pathlib.Path("docs").glob("**/*.md"))]

    def turn(names):
        for file in proofs:
            turn_file(file, names, "--")
        for file in edits:
            # port.py turns no edit: the names that it has turned elsewhere are turned here
            turn_file(file, camel(file.read_text()) | names, "\n")
        for file in sources:
            turn_file(file, names, "//")
        for file in pages:
            turn_file(file, names, "")
        print(len(names), "names")

    turn(camel_names(proofs))
    functions = {name for file in sources for name in re.findall(r"\bfn ([a-z][a-z0-9_]*)", file.read_text())}
    definitions = {match.group(1) for file in stated for line in file.read_text().split("\n")
                   if (match := DECLARED.match(code(line)))}
    plain = {name for name in definitions if "-" not in name}
    turn(dashed_names([*stated, *lemmas], KIT | functions | plain))


main()
