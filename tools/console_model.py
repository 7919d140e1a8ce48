#!/usr/bin/env python3
"""An independent model of the console, over straight intervals, and the sessions that the gate replays.

    python3 tools/console_model.py          checks that crates/sessions/data, and the stored input and output of
                                            crates/receiver, are what the model computes
    python3 tools/console_model.py write    writes it anew
    python3 tools/console_model.py run      reads a session from standard input and prints what the console should

The sessions are drawn with a fixed seed, so writing them again gives the same bytes.
"""
import os
import random
import re
import sys

from model import rows_of_run

NUMBER = rb"([0-9]{1,10})"
CRATES = os.path.join(os.path.dirname(os.path.abspath(__file__)), "..", "crates")
DATA = os.path.join(CRATES, "sessions", "data")


class Refused(Exception):
    pass


class Console:
    def __init__(self, width, slots):
        self.width, self.slots, self.top = width, min(slots, 120), 2**width - 1
        self.held = []  # straight intervals, ascending, with a gap between any two

    def straight(self, first, last):
        return [(first, last)] if first <= last else [(0, last), (first, self.top)]

    def added(self, pieces):
        joined = []
        for first, last in sorted(self.held + pieces):
            if joined and first <= joined[-1][1] + 1:
                joined[-1] = (joined[-1][0], max(joined[-1][1], last))
            else:
                joined.append((first, last))
        return joined

    def dropped(self, pieces):
        left = list(self.held)
        for first, last in pieces:
            left = [
                part
                for a, b in left
                for part in ((a, min(b, first - 1)), (max(a, last + 1), b))
                if part[0] <= part[1]
            ]
        return sorted(left)

    def runs(self, held):
        if len(held) > 1 and held[0][0] == 0 and held[-1][1] == self.top:
            return held[1:-1] + [(held[-1][0], held[0][1])]
        return held

    def rows(self, held):
        return [row for first, last in self.runs(held) for row in rows_of_run(self.width, first, last)]

    def edit(self, verb, first, last):
        if first > self.top or last > self.top:
            raise Refused(2)
        pieces = self.straight(first, last)
        held = self.added(pieces) if verb == b"+" else self.dropped(pieces)
        if len(self.runs(held)) > 16:
            raise Refused(6)
        count = len(self.rows(held))
        if count > self.slots:
            raise Refused(7)
        self.held = held
        return "ok %d" % count

    def ask(self, number):
        if number > self.top:
            raise Refused(2)
        return "yes" if any(a <= number <= b for a, b in self.held) else "no"

    def answer(self, line):
        edit = re.fullmatch(rb"([+-]) " + NUMBER + b" " + NUMBER, line)
        question = re.fullmatch(rb"\? " + NUMBER, line)
        if len(line) > 64 or not (edit or question):
            raise Refused(13)
        if edit:
            return self.edit(edit[1], int(edit[2]), int(edit[3]))
        return self.ask(int(question[1]))


def opened(lines):
    setup = re.fullmatch(NUMBER + b" " + NUMBER, lines[0]) if lines else None
    if not setup:
        raise Refused(13)
    if not 1 <= int(setup[1]) <= 32:
        raise Refused(1)
    return Console(int(setup[1]), int(setup[2]))


def said(call, *arguments):
    try:
        return call(*arguments)
    except Refused as refused:
        return "refused %d" % refused.args[0]


def output(text):
    lines = text.split(b"\n")
    if lines[-1] == b"":
        lines.pop()
    console = said(opened, lines)
    if isinstance(console, str):
        return console + "\n"
    answers = [said(console.answer, line) for line in lines[1:]]
    return "".join(line + "\n" for line in answers + console.rows(console.held))


MALFORMED = [
    b"", b" ", b"+", b"+ ", b"+ 1", b"+ 1 ", b"+ 1  2", b"+  1 2", b" + 1 2", b"+ 1 2 ", b"+ 1 2 3", b"+1 2", b"? ", b"?", b"? 1 2",
    b"? -1", b"? +1", b"? 12345678901", b"+ 00000000001 2", b"+ 1 00000000002", b"* 1 2", b"++ 1 2", b"+\t1 2", b"+ 1\t2", b"? 1\r", b"? 0x1", b"? \xd9\xa1",
    b"ok 3", b"\x00", b"+ \x00 2", b"\xff\xfe", b"? 1\x00", b"+ 1 2" + b" " * 60, b"? " + b"1" * 62, b"? " + b"1" * 63, b"x" * 64, b"x" * 65, b"y" * 5000,
]


def random_lines(random, top, count):
    for _ in range(count):
        kind = random.randrange(10)
        a, b = random.randrange(top + 1), random.randrange(top + 1)
        if kind == 0:
            b = min(top, a + random.randrange(4))
        if kind < 4:
            yield b"+ %d %d" % (a, b)
        elif kind < 6:
            yield b"- %d %d" % (a, b)
        elif kind < 9:
            yield b"? %d" % a
        else:
            yield random.choice([b"+ %d %d" % (a, top + 1), b"- %d 0" % (top + 1), b"? %d" % (top + 1), b"?  %d" % a])


def sessions():
    draw = random.Random(20)
    one = [b"1 4"] + [b"%c %d %d" % (verb, a, b) for verb in b"++--+" for a in range(3) for b in range(2)] + [b"? 0", b"? 1", b"? 2"]
    yield "width-1", b"\n".join(one) + b"\n"
    yield "width-3", b"\n".join([b"3 8"] + list(random_lines(draw, 7, 90))) + b"\n"
    yield "width-3-two-slots", b"\n".join([b"03 2"] + list(random_lines(draw, 7, 60)))
    singles = [b"+ %d %d" % (3000 * i + 7, 3000 * i + 7) for i in range(20)]
    yield "width-16", b"\n".join([b"16 120"] + singles + list(random_lines(draw, 65535, 60)) + singles[:9]) + b"\n"
    few = [b"+ %d %d" % (5 * i, 5 * i + 2) for i in range(18)] + [b"- 0 65535", b"+ 1 65534", b"+ 65535 0", b"- 7 7"]
    yield "width-16-many-slots", b"\n".join([b"16 9999999999"] + few + list(random_lines(draw, 255, 40)))
    wide = [b"+ 1 4294967294", b"? 0", b"? 4294967295", b"? 4294967296", b"+ 4294967295 0", b"- 2147483647 2147483648", b"- 0 0", b"? 9999999999"]
    yield "width-32", b"\n".join([b"32 120"] + wide + list(random_lines(draw, 2**32 - 1, 70))) + b"\n"
    yield "malformed", b"\n".join([b"5 20", b"+ 3 9"] + MALFORMED + [b"? 3", b"- 4 4"]) + b"\n"
    yield "no-slots", b"4 0\n+ 1 2\n- 1 2\n? 1\n+ 16 0"
    yield "first-line-absent", b""
    yield "first-line-empty", b"\n3 8\n"
    yield "first-line-two-spaces", b"3  8\n+ 1 2\n"
    yield "first-line-too-long", b"3 8" + b" " * 62 + b"\n+ 1 2\n"
    yield "width-0", b"0 8\n+ 0 0\n"
    yield "width-33", b"33 8\n? 1\n"


def program_session():
    """The session of the pages, lines enough for several pieces of the program's loop, and its edits once more."""
    edits = [b"+ 1 4", b"+ 6 6", b"- 4 4"]
    first = [b"3 8"] + edits + [b"? 6", b"? 4", b"+ 7 9"]
    return b"\n".join(first + list(random_lines(random.Random(16), 7, 1500)) + [b"- 0 7"] + edits) + b"\n"


def stored():
    for name, text in sessions():
        yield os.path.join(DATA, name + ".in"), os.path.join(DATA, name + ".out"), text
    yield os.path.join(CRATES, "receiver", "stdin"), os.path.join(CRATES, "receiver", "stdout"), program_session()


def main():
    if sys.argv[1:] == ["run"]:
        sys.stdout.write(output(sys.stdin.buffer.read()))
        return
    lines = 0
    refusals = set()
    for input_path, output_path, text in stored():
        expected = output(text).encode()
        lines += text.count(b"\n")
        refusals |= set(re.findall(rb"refused (\d+)", expected))
        for path, content in ((input_path, text), (output_path, expected)):
            if sys.argv[1:] == ["write"]:
                with open(path, "wb") as file:
                    file.write(content)
            else:
                with open(path, "rb") as file:
                    assert file.read() == content, path + " is not what the model computes"
    print("%d lines, refusals %s" % (lines, b" ".join(sorted(refusals, key=int)).decode()))


if __name__ == "__main__":
    main()
