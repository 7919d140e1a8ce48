#!/usr/bin/env python3
"""An independent model of the row rules, on strings of symbols.

Run it with no argument: it checks, at every width up to 6 and for every range, that the rows take
just the numbers of the range. As a module it gives `rows_of_range`.
"""


def straight(a, b):
    """The rows of the straight range from a to b, two strings of binary digits of one length."""
    m = len(a)
    if "1" not in a and "0" not in b:
        return ["-" * m]
    if a[0] == b[0]:
        return [a[0] + row for row in straight(a[1:], b[1:])]
    if "1" not in a:
        c = bin(int(b, 2) + 1)[2:].zfill(m)
        return [c[:i] + "0" + "-" * (m - i - 1) for i in range(m) if c[i] == "1"]
    if "0" not in b:
        exchange = str.maketrans("01", "10")
        return [row.translate(exchange) for row in straight("0" * m, a.translate(exchange))]
    dashes = "-" * (m - 2)
    rest_a, rest_b = a[2:], b[2:]
    lowest, highest = "0" * (m - 2), "1" * (m - 2)

    def inner():
        return straight("0" + rest_a, "1" + rest_b)

    if (a[1], b[1]) == ("1", "0"):
        return ["01" + row for row in straight(rest_a, highest)] + ["10" + row for row in straight(lowest, rest_b)]
    if (a[1], b[1]) == ("0", "0"):
        return ["01" + dashes] + [row[0] + "0" + row[1:] for row in inner()]
    if (a[1], b[1]) == ("1", "1"):
        return ["10" + dashes] + [row[0] + "1" + row[1:] for row in inner()]
    if int("0" + rest_a, 2) > int("0" + rest_b, 2) + 1:
        return (
            ["00" + row for row in straight(rest_a, highest)]
            + ["01" + dashes, "10" + dashes]
            + ["11" + row for row in straight(lowest, rest_b)]
        )
    widened = {"0": "-0", "1": "1-", "-": "--"}
    return ["01" + dashes] + [widened[row[0]] + row[1:] for row in inner()]


def round_run(f, l):
    """The rows of the run from f over the highest number and 0 to l."""
    m = len(f)
    if f[0] == l[0]:
        other = "1" if f[0] == "0" else "0"
        return [other + "-" * (m - 1)] + [f[0] + row for row in round_run(f[1:], l[1:])]
    exchange = {"0": "1", "1": "0", "-": "-"}
    return [exchange[row[0]] + row[1:] for row in straight("0" + f[1:], "1" + l[1:])]


def rows_of_run(n, f, l):
    first, last = bin(f)[2:].zfill(n), bin(l)[2:].zfill(n)
    return straight(first, last) if f <= l else round_run(first, last)


def rows_of_range(n, f, l):
    if f == l + 1:
        f, l = 0, 2**n - 1
    return rows_of_run(n, f, l)


def takes(row, n, x):
    return all(symbol in ("-", digit) for symbol, digit in zip(row, bin(x)[2:].zfill(n)))


def in_range(f, l, x):
    return f <= x <= l if f <= l else x >= f or x <= l


def main():
    for n in range(1, 7):
        for f in range(2**n):
            for l in range(2**n):
                rows = rows_of_range(n, f, l)
                for x in range(2**n):
                    assert any(takes(row, n, x) for row in rows) == in_range(f, l, x), (n, f, l, x)
    print("every range up to width 6: the rows take just its numbers")


if __name__ == "__main__":
    main()
