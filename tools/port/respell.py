#!/usr/bin/env python3
"""Respells the repository's own hyphenated names as the library spells its own.

    python3 tools/port/respell.py          at the top of the repository, once, after the kit's port.py

A definition, lemma, constructor or field gets underscores and small letters, a type or predicate
(its name begins with a capital) is written in camel case. Names of the library, and names that
the checker makes for a function's goals, keep their spelling: only names that a file of specs/ or
proofs/ declares, or that a `use` gives by `as`, are turned. Prints the table, and stops where a
new name is in use for something else.
"""
import glob
import re
import sys

TOKEN = re.compile(r"[^\s(){}\[\],;.⟨⟩⌜⌝λ:|`\"]+")
USE = re.compile(r"^(?:ghost |pub )*use ([\w'′]+(?:\.[\w'′]+)*)(?:\.\{([^}]*)\})?", re.M)
DECLARED = re.compile(r"\s*(?:abbrev |unfoldable |pub |data |record )*((?:[^\s(){}:,;.=λ]+ )*?[^\s(){}:,;.=λ]+)(?:\s+[({].*|\s*):(?:\s|$)")
BY_HAND = {"T-left": "T_left", "T-right": "T_right", "same-HOLD": "same_h", "isOk": "IsValue", "unOk": "un_ok"}
GOAL = re.compile(r"\b(?:goal|rules)\.([^\s(){},;]+)")


def spelled(name):
    if name in BY_HAND:
        return BY_HAND[name]
    if name[0].isupper():
        return "".join(part[0].upper() + part[1:] for part in name.split("-"))
    return name.replace("getD", "get_or").replace("-", "_").lower()


def code_of(line, comment):
    """The part of a line before a comment."""
    at = line.find(comment)
    while at > 0 and not line[at - 1].isspace():
        at = line.find(comment, at + 1)
    return (line, "") if at < 0 else (line[:at], line[at:])


def main():
    crates = [line.split(":")[0].split()[0] for line in open("crates.txt") if ":" in line and line[0] != "#"]
    antt = sorted(f for part in ("specs", "proofs") for f in glob.glob(f"crates/*/{part}/**/*.antt", recursive=True))
    rust = sorted(glob.glob("crates/*/src/**/*.rt", recursive=True))
    library, declared, tokens, goals = set(), set(), set(), set()
    for path in antt + rust:
        text = open(path).read()
        for use in USE.finditer(text):
            parts = use.group(1).split(".")
            own = parts[0] == "Rattle" and len(parts) > 1 and parts[1] in crates
            for name in (use.group(2) or "").split(","):
                words = name.strip().split(" as ")
                if len(words) > 1:
                    declared.add(words[1])
                if not own:
                    library.add(words[0])
        goals.update(GOAL.findall(text))
        for line in text.splitlines():
            code, _ = code_of(line, "--" if path.endswith(".antt") else "//")
            if path.endswith(".antt") and not re.search(r"\.(?:Goals|Given) as ", code):
                tokens.update(TOKEN.findall(code))
            found = DECLARED.match(code) if path.endswith(".antt") else None
            if found:
                declared.update(found.group(1).split())
    table = {n: spelled(n) for n in declared - library - goals if n in BY_HAND or "-" in n and re.search("[A-Za-z]", n)}
    taken = [n for n, new in table.items() if new in tokens or list(table.values()).count(new) > 1]
    for name in sorted(table):
        print(f"{name}\t{table[name]}")
    if taken:
        sys.exit("in use already: " + ", ".join(f"{n} as {table[n]}" for n in sorted(taken)))
    for path in antt + rust:
        comment = "--" if path.endswith(".antt") else "//"
        out = []
        for line in open(path).read().split("\n"):
            code, rest = code_of(line, comment)
            out.append(TOKEN.sub(lambda m: table.get(m.group(0), m.group(0)), code) + rest)
        open(path, "w").write("\n".join(out))


main()
