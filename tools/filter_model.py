#!/usr/bin/env python3
"""An independent model of the filter, on Python sets. It prints the account of filters that `filter_trial` prints, and fails
if crates/filter_trial/stdout has another.
"""
import os

from model import rows_of_run

WIDTH, TAG = 4, 7


def runs(numbers):
    """The longest unbroken stretches on the circle, by their first number."""
    size = 2**WIDTH
    if len(numbers) == size:
        return [(0, size - 1)]
    found = []
    for first in sorted(x for x in numbers if (x - 1) % size not in numbers):
        last = first
        while (last + 1) % size in numbers:
            last = (last + 1) % size
        found.append((first, last))
    return found


def rows(numbers):
    return [row for run in runs(numbers) for row in rows_of_run(WIDTH, *run)]


class Ledger:
    def __init__(self, slots):
        self.slots, self.numbers, self.held = slots, set(), False

    def edit(self, verb, first, last, tag):
        if not self.held or tag != TAG:
            return "refused 9"
        if max(first, last) >= 2**WIDTH:
            return "refused 2"
        inside = {x for x in range(2**WIDTH) if (first <= x <= last if first <= last else x >= first or x <= last)}
        numbers = self.numbers | inside if verb == "add" else self.numbers - inside
        if len(runs(numbers)) > 16:
            return "refused 6"
        count = len(rows(numbers))
        if count > self.slots:
            return "refused 7"
        self.numbers = numbers
        return "1 row" if count == 1 else f"{count} rows"

    def release(self, tag):
        if not self.held or tag != TAG:
            return f"refused 9, token {tag} back"
        self.held = False
        return "released"

    def hold(self):
        if self.held:
            return "refused 8"
        self.held = True
        return f"token {TAG}"

    def ask(self, number):
        if self.held:
            return "refused 8"
        if number >= 2**WIDTH:
            return "refused 2"
        return "yes" if number in self.numbers else "no"

    def placed(self):
        filled = rows(self.numbers)
        return filled + ["empty"] * (self.slots - len(filled))

    def slot(self, slot):
        return self.placed()[slot] if slot < self.slots else "refused 4"

    def run(self, index):
        listed = runs(self.numbers)
        return "%d to %d" % listed[index] if index < len(listed) else "none"


def said(ledger, call):
    """How a call is printed, and its answer."""
    verb, *numbers = call
    if verb == "hold":
        return "hold", ledger.hold()
    if verb in ("add", "drop"):
        first, last, tag = numbers
        return f"{verb} {first} to {last}, token {tag}", ledger.edit(verb, first, last, tag)
    if verb == "release":
        return f"release, token {numbers[0]}", ledger.release(*numbers)
    return f"{verb} {numbers[0]}", {"ask": ledger.ask, "slot": ledger.slot, "run": ledger.run}[verb](*numbers)


def flipped(row, mask):
    exchange = {"0": "1", "1": "0", "-": "-"}
    return "".join(exchange[s] if m == "1" else s for s, m in zip(row, mask))


def carried(slots, carry):
    return " ".join(row if row == "empty" else carry(row) for row in slots)


def two_runs():
    ledger = Ledger(4)
    calls = [("hold",), ("add", 8, 11, TAG), ("add", 0, 3, TAG), ("run", 0), ("run", 1), ("run", 2)]
    for call in calls:
        yield "%s: %s" % said(ledger, call)
    yield "slots: " + " ".join(ledger.placed())


def mixture():
    ledger = Ledger(4)
    calls = [("ask", 3), ("add", 0, 3, TAG), ("hold",), ("ask", 3), ("add", 0, 3, 8), ("add", 0, 16, TAG)]
    calls += [("add", 8, 11, TAG), ("add", 0, 3, TAG), ("slot", 0), ("slot", 4), ("release", 8), ("release", TAG)]
    calls += [("ask", 9), ("hold",), ("add", 13, 15, TAG), ("add", 5, 5, TAG), ("drop", 8, 14, TAG), ("run", 0), ("run", 1)]
    for call in calls:
        words, answer = said(ledger, call)
        yield f"{words}: {answer} | {answer} | {answer}"
    slots = ledger.placed()
    for name in ("slot table", "column table", "pile, on top"):
        yield f"{name}: " + " ".join(slots)
    yield "pile, below the flip: " + carried(slots, lambda row: flipped(row, "0001"))
    yield "pile, at the bottom: " + carried(slots, lambda row: flipped(row, "0001")[::-1])


def words(row):
    """The record of a slot, word by word: a 1 of the care mask where the row has no dash."""
    if row == "empty":
        return "empty, value 0, care 0"
    value = int(row.replace("-", "0"), 2)
    care = int("".join("0" if s == "-" else "1" for s in row), 2)
    return f"filled, value {value}, care {care}"


def lent_records():
    yield f"122 marked records at width {WIDTH}, lent to a filter over a flip of 0001 over a turn over a slot table"
    ledger = Ledger(120)
    for call in [("hold",), ("add", 1, 3, TAG), ("add", 8, 11, TAG)]:
        yield "%s: %s" % said(ledger, call)
    below = [row if row == "empty" else flipped(row, "0001")[::-1] for row in ledger.placed()]
    records = [words(row) for row in below] + ["filled, value 5, care 7"] * 2
    for index in (0, 1, 2, 3, 119, 120, 121):
        yield f"record {index}: {records[index]}"


def main():
    stored = os.path.join(os.path.dirname(os.path.abspath(__file__)), "..", "crates", "filter_trial", "stdout")
    with open(stored, encoding="utf-8") as file:
        text = file.read()
    for account in (two_runs(), mixture(), lent_records()):
        expected = "\n".join(account) + "\n"
        print(expected, end="")
        assert expected in text, "crates/filter_trial/stdout has another account"


if __name__ == "__main__":
    main()
