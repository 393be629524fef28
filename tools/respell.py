#!/usr/bin/env python3
"""Respells this repository's own ghost names as the library spells its own: words in snake case, types in camel case.

Run once, at the top, right after /opt/rattle/port/port.py. It goes through the ghost text of crates/ and through the pages.
A name counts as the repository's own where a file of specs/ or proofs/ declares it, or binds it as a variable. Names that
the check generates (goals, steps, clauses) and names of the library keep their hyphens, and so do comments and strings.
"""
import glob
import re

NAME = r"[^\W\d][\w']*(?:-[\w']+)+"
TOKEN = re.compile(r"(?<![\w'\-])" + NAME + r"(?![\w'\-])")
# A name that would fall together with a field of the code gets another one.
INSTEAD = {"end-mark": "has_end_mark", "image-length": "length_of_image"}


def files(kind):
    return sorted(glob.glob(f"crates/**/*.{kind}", recursive=True))


def read(path):
    with open(path, encoding="utf-8") as file:
        return file.read()


def declared(text):
    """The names that a file declares, but for answers to goals."""
    names = set()
    for line in text.splitlines():
        code = line.split("--")[0].rstrip()
        if not code or code.lstrip().startswith("use ") or re.search(r":\s*goal\.", code):
            continue
        head = re.match(r"^\s*(?:(?:pub|abbrev|unfoldable)\s+)*(?:record|data|ruleset)\s+([^\s:({]+)", code)
        if head:
            names.add(head.group(1))
        found = re.match(r"^\s*(?:(?:pub|abbrev|unfoldable)\s+)*((?:[^\s:(){}=,;.]+\s+)*[^\s:(){}=,;.]+)\s+:\s", code)
        if found:
            names |= set(found.group(1).split())
    return {name for name in names if re.fullmatch(NAME, name)}


def imported(text):
    """The names that a file brings in from anywhere."""
    names = set()
    for line in text.splitlines():
        if line.lstrip().startswith("use "):
            names |= set(TOKEN.findall(line))
    return names


def goals(text):
    return set(re.findall(r"goal\.(" + NAME + ")", text))


def clauses():
    """Names of clauses, as the check spells them in goals."""
    names = set()
    for path in files("rt"):
        for name in re.findall(r"\b(?:ensures|requires|ghost)\s+(\w+)\s*[:{]", read(path)):
            names.add(name.replace("_", "-"))
    return names


def respelled(name):
    if name in INSTEAD:
        return INSTEAD[name]
    if name[0].isupper():
        return "".join(part[0].upper() + part[1:] for part in name.split("-"))
    return name.replace("-", "_")


def respell_antt(text, own, kept):
    """`own` everywhere in code; other names only where the file itself binds them."""
    local = set(TOKEN.findall("\n".join(line.split("--")[0] for line in text.splitlines())))
    local -= own | kept | imported(text) | goals(text)
    answers = bool(goals(text))
    lines = []
    for line in text.splitlines(keepends=True):
        code, dashes, comment = line.partition("--")

        def turn(match):
            name, before = match.group(0), code[: match.start()]
            if answers and before.endswith(".") and (before.endswith("goal.") or name in GENERATED | kept):
                return name
            if name in own or (name in local and not before.endswith(".")):
                return respelled(name)
            return name

        lines.append(TOKEN.sub(turn, code) + dashes + comment)
    return "".join(lines)


def respell_rt(text, own):
    lines = []
    for line in text.splitlines(keepends=True):
        parts = re.split(r'("(?:\\.|[^"\\])*"|//.*)', line)
        for i in range(0, len(parts), 2):
            parts[i] = TOKEN.sub(lambda m: respelled(m.group(0)) if m.group(0) in own else m.group(0), parts[i])
        lines.append("".join(parts))
    return "".join(lines)


def respell_page(text, own):
    def turn(quoted):
        return TOKEN.sub(lambda m: respelled(m.group(0)) if m.group(0) in own else m.group(0), quoted.group(0))

    return re.sub(r"`[^`\n]+`", turn, text)


# Steps of the code that bear the name of a definition.
GENERATED = {"end-mark", "image-length", "alike-to", "first-difference", "end-difference", "same-entry", "code-entry-at",
             "cells-wanted", "query-of-digits", "lengths-fit", "most-entries"}


def main():
    own = set()
    for path in files("antt"):
        own |= declared(read(path))
    kept = clauses()
    for path in files("antt"):
        write(path, respell_antt(read(path), own, kept))
    for path in files("rt") + files("edit"):
        write(path, respell_rt(read(path), own))
    for path in sorted(glob.glob("docs/*.md")) + ["README.md"]:
        write(path, respell_page(read(path), own))


def write(path, text):
    if text != read(path):
        with open(path, "w", encoding="utf-8") as file:
            file.write(text)


if __name__ == "__main__":
    main()
