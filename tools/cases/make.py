#!/usr/bin/env python3
"""Expands a script of cases into captures and the output expected of them.

    python3 make.py SCRIPT TABLE OUT

writes OUT/data/NAME.cap for each case, OUT/data/index and OUT/stdout. In the
repository OUT is crates/cases, SCRIPT is script.txt and TABLE is table.txt: single
calls and their answers, written by hand too, whose lines follow those of the cases.

This is no model of the chip. It keeps the levels of the pins, to know when D
must move and where C stands, and "the Q that stands", the letter that a step
of the script gave last. It works out no status, no latch, no cell, no hold and
no refusal: each of these stands in the script, written by hand.

A line is empty, or "case NAME", "shows TEXT" (one line, the second of a case),
or steps with ";" between them. "#" begins a comment. q is 0, 1 or z. A row is
bytes in hexadecimal: 3C, or FF*128 (the byte 128 times), or 00..0F (counting up
or, as 0F..00, down), or 00..0F*3.

Steps of one record. The letter becomes the Q that stands.
  pin P L -> q       the pin P (S C D W HOLD) goes to the level L
  rec K L -> q       kind and level as decimal numbers
  fall -> q          pin C 0
  rise -> q          pin C 1
  end -> q           the write cycle ends (rec 5 0)
  power -> q         power off and on (rec 6 0)
  select             pin S 0 -> z
  deselect           pin S 1 -> z
"refused N" in place of "-> q": the record is refused with N. Steps after it go
into the capture, and nothing of them is expected.
  tail B refused N   a last odd byte; the capture is refused whole with N

Steps of more records.
  bits 0110          for each bit: D moves if it must, C rises, C falls. Every
                     record answers the Q that stands. C is low before and after.
  bits 0110 open     the same without the last fall: C is high afterwards.
  bits3 0110         for each bit: C falls, D moves if it must, C rises. Every
                     record answers the Q that stands. C is high before and after.
  send ROW [open]    bits for each byte of the row, highest bit first
  send3 ROW          the same with bits3
  clocks N -> q      N times: C rises, C falls. Every record answers q.
  readbits 0110      for each bit: C falls, C rises. Both answer the bit. C is
                     high before and after.
  read ROW           readbits for each byte of the row, highest bit first
  read ROW while ROW the same; between fall and rise D moves, if it must, to the
                     bits of the second row, and answers the bit as well

Whole stretches.
  in ROW             select; send ROW; deselect
  each ROW [then ROW]  for each byte B of the first row: in B and the second row
  out ROW gives ROW next q
                     select; send the first ROW open; read the second ROW;
                     fall -> q; deselect
"""

import os
import re
import sys

PINS = {"S": 0, "C": 1, "D": 2, "W": 3, "HOLD": 4}
S, C, D = 0, 1, 2
LIMIT = 60000


def row(words):
    """The bytes of a row."""
    out = []
    for word in words:
        m = re.fullmatch(r"([0-9A-F]{2})(?:\.\.([0-9A-F]{2}))?(?:\*(\d+))?", word)
        if not m:
            raise ValueError("not a row: " + word)
        first = int(m[1], 16)
        last = int(m[2], 16) if m[2] else first
        step = 1 if first <= last else -1
        out += list(range(first, last + step, step)) * int(m[3] or 1)
    if not out:
        raise ValueError("an empty row")
    return out


def bits_of(numbers):
    return "".join(format(b, "08b") for b in numbers)


def split(words, word):
    """The words before and after a word; None for the latter if it is missing."""
    if word in words:
        i = words.index(word)
        return words[:i], words[i + 1:]
    return words, None


class Case:
    def __init__(self, name):
        self.name = name
        self.shows = None
        self.bytes = bytearray()
        self.letters = ""
        self.fault = None
        self.levels = [1, 0, 0, 1, 1]
        self.q = "z"

    def record(self, kind, level, q):
        self.bytes += bytes([kind, level])
        if kind <= 4 and level <= 1:
            self.levels[kind] = level
        if self.fault is None:
            if q not in ("0", "1", "z"):
                raise ValueError("no letter: " + q)
            self.letters += q
            self.q = q

    def refused(self, kind, level, number):
        self.bytes += bytes([kind, level])
        if self.fault is None:
            self.fault = "refused %d at %d" % (number, len(self.letters))

    def outcome(self, kind, level, words):
        if len(words) == 2 and words[0] == "->":
            self.record(kind, level, words[1])
        elif len(words) == 2 and words[0] == "refused":
            self.refused(kind, level, int(words[1]))
        else:
            raise ValueError("neither a letter nor a refusal")

    def clock_at(self, level):
        if self.levels[C] != level:
            raise ValueError("C stands at the other level")

    def data(self, bit, q):
        if self.levels[D] != int(bit):
            self.record(D, int(bit), q)

    def bits(self, bits, leave_high):
        self.clock_at(0)
        for i, bit in enumerate(bits):
            self.data(bit, self.q)
            self.record(C, 1, self.q)
            if i + 1 < len(bits) or not leave_high:
                self.record(C, 0, self.q)

    def bits3(self, bits):
        self.clock_at(1)
        for bit in bits:
            self.record(C, 0, self.q)
            self.data(bit, self.q)
            self.record(C, 1, self.q)

    def readbits(self, bits, moves=None):
        self.clock_at(1)
        for i, bit in enumerate(bits):
            self.record(C, 0, bit)
            if moves is not None:
                self.data(moves[i], bit)
            self.record(C, 1, bit)

    def stretch_in(self, numbers):
        self.record(S, 0, "z")
        self.bits(bits_of(numbers), False)
        self.record(S, 1, "z")

    def step(self, words):
        name, rest = words[0], words[1:]
        if name == "pin":
            self.outcome(PINS[rest[0]], int(rest[1]), rest[2:])
        elif name == "rec":
            self.outcome(int(rest[0]), int(rest[1]), rest[2:])
        elif name in ("fall", "rise"):
            self.outcome(C, 0 if name == "fall" else 1, rest)
        elif name == "end":
            self.outcome(5, 0, rest)
        elif name == "power":
            self.outcome(6, 0, rest)
        elif name == "select" and not rest:
            self.record(S, 0, "z")
        elif name == "deselect" and not rest:
            self.record(S, 1, "z")
        elif name == "tail":
            if rest[1] != "refused" or len(rest) != 3:
                raise ValueError("a tail is refused")
            self.bytes += bytes(row(rest[:1]))
            self.letters = ""
            self.fault = "refused %d at 0" % int(rest[2])
        elif name in ("bits", "send"):
            rest, after = split(rest, "open")
            if after:
                raise ValueError("words after open")
            self.bits("".join(rest) if name == "bits" else bits_of(row(rest)),
                      after is not None)
        elif name == "bits3":
            self.bits3("".join(rest))
        elif name == "send3":
            self.bits3(bits_of(row(rest)))
        elif name == "clocks":
            number, q = split(rest, "->")
            for _ in range(int(number[0])):
                self.record(C, 1, q[0])
                self.record(C, 0, q[0])
        elif name == "readbits":
            self.readbits("".join(rest))
        elif name == "read":
            rest, moves = split(rest, "while")
            moves = None if moves is None else bits_of(row(moves))
            self.readbits(bits_of(row(rest)), moves)
        elif name == "in":
            self.stretch_in(row(rest))
        elif name == "each":
            first, more = split(rest, "then")
            for byte in row(first):
                self.stretch_in([byte] + (row(more) if more else []))
        elif name == "out":
            sent, got = split(rest, "gives")
            got, last = split(got, "next")
            self.record(S, 0, "z")
            self.bits(bits_of(row(sent)), True)
            self.readbits(bits_of(row(got)))
            self.record(C, 0, last[0])
            self.record(S, 1, "z")
        else:
            raise ValueError("no such step: " + " ".join(words))

    def text(self):
        return self.letters + "\n" + (self.fault + "\n" if self.fault else "")


def read_script(path):
    cases = []
    with open(path, encoding="ascii") as lines:
        for number, line in enumerate(lines, 1):
            line = line.split("#")[0].strip()
            try:
                if line.startswith("case "):
                    cases.append(Case(line[5:].strip()))
                elif line.startswith("shows "):
                    if cases[-1].shows is not None or cases[-1].bytes:
                        raise ValueError("shows comes once, right after case")
                    cases[-1].shows = line[6:].strip()
                elif line:
                    for step in line.split(";"):
                        cases[-1].step(step.split())
            except (ValueError, IndexError, KeyError, TypeError) as why:
                sys.exit("%s:%d: %s" % (path, number, why))
    names = [case.name for case in cases]
    for case in cases:
        if not re.fullmatch(r"\d{2,3}(-[a-z0-9]+)+", case.name):
            sys.exit("not a name: " + case.name)
        if not case.shows:
            sys.exit(case.name + " shows nothing")
        if len(case.bytes) > LIMIT:
            sys.exit(case.name + " is too long")
    if names != sorted(set(names)):
        sys.exit("the cases are not in the order of their names")
    return cases


# What a buffer holds before a call, and what the array of a delivered part holds.
FILL, BLANK = 170, 255


def kept(call, answer, note):
    """What a row's line says of the buffer: how many bytes stay, and the first that is neither FILL nor BLANK."""
    words = call.split()
    if words[0] == "event":
        return ""
    room = int(words[3])
    if words[0] == "copy":
        stay = room - 256 if answer.startswith("value") else room
        first = note
    else:
        taken = int(answer.split()[-1])
        stay = room - taken
        first = "2 at 0" if taken else None
    return ", %d kept" % stay + (", " + first if first else "")


def read_table(path):
    """The lines of the table's rows. A note "BYTE at PLACE" ends a row whose buffer gets another byte than BLANK."""
    lines = []
    with open(path, encoding="ascii") as file:
        for line in file:
            cells = [c.strip() for c in line.split("|")]
            if line.startswith("#") or len(cells) < 8:
                continue
            name, call, answer = cells[0], cells[6], cells[7]
            note = cells[8] if len(cells) > 8 else None
            lines.append("%s: %s%s\n" % (name, answer, kept(call, answer, note)))
    return lines


def main():
    script, table, out = sys.argv[1:]
    cases = read_script(script)
    os.makedirs(os.path.join(out, "data"), exist_ok=True)
    for case in cases:
        with open(os.path.join(out, "data", case.name + ".cap"), "wb") as file:
            file.write(case.bytes)
    with open(os.path.join(out, "data", "index"), "w", encoding="ascii") as file:
        for case in cases:
            file.write("%s: %s\n" % (case.name, case.shows))
    with open(os.path.join(out, "stdout"), "w", encoding="ascii") as file:
        for case in cases:
            file.write("%s: %s\n%s" % (case.name, case.shows, case.text()))
        file.writelines(read_table(table))


if __name__ == "__main__":
    main()
