#!/usr/bin/env python3
"""permitted_test.py RATING: the permitted charge current as the code has it, a line for each row of crates/rows_60/src/rows.rt or
of rows_90, to hold beside the laboratory's page; RATING is 60000 or 90000. The status is 1 if a row is not document 01's L, and standard
error says which.

For `expected` this is a module: what permitted_test is held to, L worked out from document 01 for types 1, 2 and 3 and for two numbers that
are no type, at every temperature that has a row, at the tenth before the first row, at the two after the last, and at the least and the
greatest."""
import pathlib
import re
import signal
import sys

CRATES = pathlib.Path(__file__).resolve().parent.parent / "crates"
ROW_COUNT = 250
TEMPERATURES = (-32_768, -1, *range(ROW_COUNT), 250, 251, 32_767)
TYPES = (1, 2, 3, 0, 255)


def charge_rating(battery):
    """C: 60,000 mA of types 1 and 2, 90,000 of type 3. There is no fourth type; where one is asked for, type 1's rating answers."""
    return 90_000 if battery == 3 else 60_000


def limit(rating, c):
    """L: 0 if c < 0; C × (c + 50)² ÷ 90,000 rounded down if 0 ≤ c < 250; otherwise C."""
    if c < 0:
        return 0
    return rating * (c + 50) ** 2 // 90_000 if c < 250 else rating


def permitted(battery, c):
    return limit(charge_rating(battery), c)


def files():
    lines = (f"{battery} {c} {permitted(battery, c)}\n" for battery in TYPES for c in TEMPERATURES)
    yield "crates/permitted_test/stdout", "".join(lines).encode()


def coded(rating):
    """The rows that the code has for a rating."""
    text = (CRATES / f"rows_{rating // 1000}/src/rows.rt").read_text()
    table = re.search(r"ROWS: \[i32; 250\] = \[(.*?)\];", text, re.DOTALL)[1]
    return [int(row.replace("_", "")) for row in re.sub(r"//.*", "", table).split(",") if row.strip()]


def main():
    signal.signal(signal.SIGPIPE, signal.SIG_DFL)  # a closed pipe ends it as it ends cat
    if sys.argv[1:] not in (["60000"], ["90000"]):
        sys.exit(__doc__.split("\n\n")[0])
    rating = int(sys.argv[1])
    rows = coded(rating)
    for c, row in enumerate(rows):
        print(f"{c // 10:>2}.{c % 10} °C {row:>7,} mA")
    wrong = [f"row {c}: {row}, not {limit(rating, c)}\n" for c, row in enumerate(rows) if row != limit(rating, c)]
    if len(rows) != ROW_COUNT:
        wrong.append(f"{len(rows)} rows, not {ROW_COUNT}\n")
    sys.stderr.write("".join(wrong))
    return int(bool(wrong))


if __name__ == "__main__":
    sys.exit(main())
