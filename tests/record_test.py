"""What crates/record_test runs on and must print: a table of records for `stdin`, each the sound one with one thing changed, on either side
of each limit of document 01's list "Unsound" and judged here by that list; then the calls on a record whose command count is next to its
ceiling. Nothing of the engine's own is read."""
import struct

CRATE = "crates/record_test"

# a sound record: type 1, Operational, last time 1,000
BASE = dict(battery=1, last=1000, mask=0, charged=0, discharged=0, previous=None, spans=[None] * 8, long=[], short=[])


def unsound(r):
    entries = r["long"] + r["short"]
    return (r["battery"] not in (1, 2, 3) or r["last"] > 345_600_000 or len(r["long"]) > 64 or len(r["short"]) > 16
            or any(protection > 7 for protection, _ in entries) or r["mask"] >= 1 << 13
            or max(r["charged"], r["discharged"]) > 2_000_000 * r["last"]
            or any(start is not None and start > r["last"] for start in r["spans"])
            or r["previous"] is not None and (r["previous"][0] > r["last"] or abs(r["previous"][1]) > 2_000_000))


def exported(entries):
    return sum(10 if trip else 6 for _, trip in entries)


def line(name, r):
    if unsound(r):
        return f"{name}: unsound, power loss 5 kept, early power on 5 kept, long refused 5 kept, short refused 5 kept"
    return (f"{name}: sound, power loss 0, early power on 6 kept, "
            f"long {exported(r['long'])} kept, short {exported(r['short'])} kept")


def long(count, place, protection):
    return [(protection if i == place else 0, True) for i in range(count)]


def short(count, place, protection):
    return [(protection if i == place else 0, i != place) for i in range(count)]


def cases():
    """Each a name, what record_test is told to change (which, place, small number, number), and what that is."""
    for n in (0, 1, 3, 4):
        yield f"type {n}", (0, 0, n, 0), dict(battery=n)
    for t in (345_600_000, 345_600_001):
        yield f"last {t}", (1, 0, 0, t), dict(last=t)
    for which, account in ((2, "charged"), (3, "discharged")):
        for q in (2_000_000_000, 2_000_000_001):
            yield f"{account} {q}", (which, 0, 0, q), {account: q}
    for mask in (8191, 8192):
        yield f"mask {mask}", (4, 0, 0, mask), dict(mask=mask)
    for t in (1000, 1001):
        yield f"measured {t}", (5, 0, 0, t), dict(previous=(t, 0))
    for i in (2_000_000, 2_000_001, -2_000_000, -2_000_001):
        yield f"current {i}", (6, 0, 0, i % 2 ** 32), dict(previous=(1000, i))
    for number in range(8):
        for which, side in ((7, "beyond"), (8, "within")):
            for t in (1000, 1001):
                spans = [t if n == number else None for n in range(8)]
                yield f"{side} since {t}, {number}", (which, number, 0, t), dict(spans=spans)
    for which, name, most, make in ((9, "long", 64, long), (10, "short", 16, short)):
        yield f"{name} {most}", (which, 0, 0, most), {name: make(most, 0, 0)}
        yield f"{name} {most + 1}", (which, 0, 0, most + 1), {name: make(most + 1, 0, 0)}
        for count, protection, place in ((3, 7, 2), (3, 8, 0), (3, 8, 2), (3, 8, 3), (most, 8, most - 1)):
            told = (which, place, protection, count)
            yield f"{name} {count} with {protection} in place {place}", told, {name: make(count, place, protection)}


def table():
    for name, (which, place, small, n), _ in cases():
        yield struct.pack("<BBBBI", which, place, small, len(name), n) + name.encode()


def limit_lines():
    for name, _, changes in cases():
        yield line(name, dict(BASE, **changes))
    yield "buffers, long 640 kept, long refused 11 kept, short 156 kept, short refused 11 kept"


def view(state, command_number):
    return f"""type 1
state {state}
command {command_number}
override 0
last 1000
commands 4294967295
test 0
failed 0000
failed_count 0
tripped 00
contactor 0
charged 0
discharged 0
long -
short -
long_count 0
short_count 0"""


def ceiling_lines():
    yield "ceiling"
    yield "open 0"
    yield view(2, 1)
    yield "automated 10 kept, override 0, maintenance 0, force closed 10 kept, power loss 0"
    yield view(0, 0)


def files():
    yield f"{CRATE}/stdin", b"".join(table())
    yield f"{CRATE}/stdout", "".join(line + "\n" for line in [*limit_lines(), *ceiling_lines()]).encode()
