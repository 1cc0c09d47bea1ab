#!/usr/bin/env python3
"""Brings the names that this repository defines in specs/ and proofs/ from words-with-hyphens to words_with_underscores.

Usage: python3 tools/respell.py [FOLDER]   (the repository's top; default: the current folder)

Renamed are definitions, lemmas, constructors, fields, parameters and other bound names of the .antt files. Names that the checker makes
(those of goals and steps) and names of the library stay, and so do comments, strings, and the names of functions. Run once, on a tree that
was brought to the toolchain's spelling; a second run changes nothing.
"""
import os
import re
import sys

NAME = r"[A-Za-z_][A-Za-z0-9_']*(?:-[A-Za-z0-9_']+)+"
WORD = r"[A-Za-z_][A-Za-z0-9_'-]*"
TOKEN = re.compile(r"(?<![A-Za-z0-9_'-])" + NAME + r"(?![A-Za-z0-9_'-])")


def files(top):
    for folder, dirs, names in os.walk(os.path.join(top, "crates")):
        dirs[:] = sorted(d for d in dirs if d != "out")
        for name in sorted(names):
            if name.endswith((".antt", ".rt")):
                yield os.path.join(folder, name)


def split(line, antt):
    """A line's code, and its comment."""
    mark = "--" if antt else "//"
    at = line.find(mark)
    return (line, "") if at < 0 else (line[:at], line[at:])


def bound(code):
    """The names that a line of an .antt file binds, and those that it only answers: goals."""
    found, goals = set(), set()
    if code.lstrip().startswith(("use ", "pub use ")):
        found.update(re.findall(r" as (" + NAME + r")", code))
        return found, goals
    head, colon, kind = code.partition(" :")
    if colon and not kind.startswith(":") and re.fullmatch(r"[\w' {}-]+", head.strip() or "!"):
        names = set(TOKEN.findall(re.sub(r"\{[^}]*\}", "", head)))
        (goals if re.match(r"\s*(goal|rules|need|given)\.", kind) else found).update(names)
    for group in re.findall(r"[({]([\w' -]+) :", code):
        found.update(TOKEN.findall(group))
    for group in re.findall(r"λ ([\w' -]+)\.", code):
        found.update(TOKEN.findall(group))
    found.update(re.findall(r"\blet (" + NAME + r")", code))
    left, equals, _ = (code + " ").partition(" = ")
    if equals and not re.search(r"\b(let|record)\b|[:;.]", left):
        found.update(TOKEN.findall(left))
    return found, goals


def main():
    top = sys.argv[1] if len(sys.argv) > 1 else "."
    found, goals = set(), set()
    for path in files(top):
        with open(path, encoding="utf-8") as f:
            for line in f:
                if path.endswith(".antt"):
                    some, answered = bound(split(line.rstrip("\n"), True)[0])
                    found |= some
                    goals |= answered
                else:
                    found.update(re.findall(r"ghost use .* as (" + NAME + r")", line))
    names = found - goals
    for path in files(top):
        antt = path.endswith(".antt")
        out = []
        with open(path, encoding="utf-8") as f:
            for line in f:
                code, comment = split(line, antt)
                parts = [code] if antt else re.split(r'("(?:[^"\\]|\\.)*")', code)
                parts = [p if p.startswith('"') else TOKEN.sub(lambda m: m.group(0).replace("-", "_") if m.group(0) in names else m.group(0), p) for p in parts]
                out.append("".join(parts) + comment)
        text = "".join(out)
        with open(path, encoding="utf-8") as f:
            old = f.read()
        if text != old:
            with open(path, "w", encoding="utf-8") as f:
                f.write(text)
    print(f"{len(names)} names")


main()
