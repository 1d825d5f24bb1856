#!/usr/bin/env python3
"""Counts the places of the design pass in src/ (tests left out) and in proofs/: python3 tools/design/count.py [POINT ..]

Run at the top of the repository. It finds candidates by text; docs/DESIGN-PASS.md says of each what it is.
"""
import collections
import glob
import re
import sys


def sources():
    for path in sorted(glob.glob("crates/*/src/*.rt")):
        if path.endswith("tests.rt"):
            continue
        text = open(path).read()
        cut = text.find("#[cfg(test)]\nmod tests {")
        yield path, text if cut < 0 else text[:cut]


FN = re.compile(r"^ *(pub(\(crate\))? )?fn (\w+)", re.M)


def functions(text):
    """Each function as (line, name, head with clauses, body)."""
    for m in FN.finditer(text):
        line = text.count("\n", 0, m.start()) + 1
        depth, i, body = 0, m.end(), None
        start = None
        indent = len(m.group(0)) - len(m.group(0).lstrip())
        close = re.compile(r"^ {%d}\}|;$" % indent, re.M)
        opening = re.compile(r"(^ {%d}\{\}?$| \{\}?$)" % indent, re.M)
        o = opening.search(text, m.end())
        semi = text.find(";\n", m.end())
        if o is None or (0 <= semi < o.start() and "\n\n" not in text[m.end():semi] and text[m.end():semi].count("{") == text[m.end():semi].count("}")):
            yield line, m.group(3), text[m.start():semi if semi > 0 else len(text)], ""
            continue
        if o.group(0).endswith("{}"):
            yield line, m.group(3), text[m.start():o.start()], ""
            continue
        e = re.compile(r"^ {%d}\}" % indent, re.M).search(text, o.end())
        yield line, m.group(3), text[m.start():o.start()], text[o.end():e.start() if e else len(text)]


def clauses(head):
    for m in re.finditer(r"(?:requires|ensures)\*? ?(\w+ )?\{ (.*) \}", head):
        yield m.group(2)


def grep(pattern, flags=0):
    for path, text in sources():
        for n, line in enumerate(text.split("\n"), 1):
            if re.search(pattern, line, flags) and not line.lstrip().startswith(("//", "ghost use")):
                yield path, n, line.strip()


def show(title, rows):
    rows = list(rows)
    print("%s: %d" % (title, len(rows)))
    for row in rows:
        print("   ", *row)


def point1():
    show("enums", grep(r"^(pub(\(crate\))? )?enum "))
    show("functions that answer an optional refusal", grep(r"-> Option<(Refusal|Fault)>"))
    show("fields that are flags", grep(r"^ +pub(\(crate\))? \w+: bool,"))
    show("functions that answer a number for a kind", grep(r"fn \w+\((self|byte: u8|kind: u8.*|answer: u8|status: u8)\) -> (u8|u32|Instruction|Result<Event, Refusal>)"))
    show("functions that answer a number with no meaning", grep(r"^pub fn \w+\(\) -> u8"))


def point2():
    shapes = collections.defaultdict(list)
    for path, text in sources():
        for line, name, head, body in functions(text):
            words = re.findall(r"\w+|[^\w\s]", body)
            if len(words) < 6:
                continue
            shape = " ".join("_" if re.match(r"\w", w) and w not in ("match", "if", "else", "for", "let", "return", "self") else w for w in words)
            shapes[shape].append("%s:%d %s" % (path, line, name))
    show("functions of one shape", [tuple(v) for v in shapes.values() if len(v) > 1])
    heads = collections.defaultdict(list)
    for path, text in sources():
        for line, name, head, body in functions(text):
            key = tuple(sorted(clauses(head)))
            if key:
                heads[key].append("%s:%d %s" % (path, line, name))
    show("functions of the same clauses", [tuple(v) for v in heads.values() if len(v) > 1])
    show("implementations of one trait of the repository", grep(r"^impl.* (Part|Backing) for "))


def point3():
    show("while and loop", grep(r"^ *(while|loop)\b"))
    show("for over a range", grep(r"^ *for \w+ in [^{]*\.\."))
    show("counters", grep(r"\b(\w+) [+-]= 1;"))


def point4():
    show("fields compared one by one", grep(r"(\w+)\.(\w+) == (\w+)\.\2 &&"))
    show("conversions", grep(r"fn (number|of|named|decode|layer|length|protection|letter_of|word|words|from|try_from)\b"))
    show("texts of a value", grep(r"=> (writer\.bytes\(|b\"|\")"))


def point5():
    seen = collections.defaultdict(set)
    groups = collections.defaultdict(set)
    for path, text in sources():
        for line, name, head, body in functions(text):
            where = "%s:%d %s" % (path, line, name)
            for c in clauses(head):
                seen[re.sub(r"\b(self|backing)\.(old|now)\b", r"_", c)].add(where)
            params = [p.strip() for p in re.sub(r"\n", " ", head.split(") ->")[0]).replace("pub(crate)", "pub").split("(", 1)[-1].split(",")]
            params = [p for p in params if ":" in p]
            for i, a in enumerate(params):
                for b in params[i + 1:]:
                    groups[a + ", " + b].add(where)
    show("clauses in three functions or more", [(len(v), k) for k, v in sorted(seen.items()) if len(v) > 2])
    show("parameters that travel together, in three functions or more", [(len(v), k) for k, v in sorted(groups.items()) if len(v) > 2])


def point6():
    show("a buffer to fill and a count as the answer", grep(r"fn .*&mut \[u8\].*-> (usize|Result<usize)"))
    show("fixed buffers", grep(r"= \[.*; \w+\];"))


def point7():
    show("function pointers, boxes, dyn", grep(r"\bdyn\b|Box<|: fn\("))


def point8():
    files = [p for p in sorted(glob.glob("crates/*/proofs/**/*.antt", recursive=True)) if "/out/" not in p]
    own, answers, lines = 0, 0, 0
    for path in files:
        text = open(path).read()
        lines += text.count("\n")
        names = re.findall(r"^(?:pub |abbrev pub |abbrev |unfoldable pub |unfoldable )*([\w'<>=+.-]+) : ", text, re.M)
        if path.endswith(("Answers.antt", "Invariants.antt")):
            answers += len(names)
        else:
            own += len(names)
    print("lemmas and definitions of proofs/: %d" % own)
    print("answers, invariants and measures: %d" % answers)
    print("lines: %d" % lines)


if __name__ == "__main__":
    wanted = sys.argv[1:] or list("12345678")
    for n in wanted:
        print("== point %s" % n)
        globals()["point" + n]()
