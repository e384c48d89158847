#!/usr/bin/env python3
"""Two lists of calls for a battery of type 3, alike in all but the on or off values of their override calls, that show what demand 3 says
of two such runs: `alike_first` and `alike_second`; and up to where the contactors are last apart `apart_first` and `apart_second`.
`checked` gives them as logs with what the independent model prints for each and holds after it, once these are as document 01 says.
alike.py: checks them, and that the check refuses each of the pairs that `spoiled` makes."""
import itertools
import sys

import benchlog
import model
from benchlog import clear, command, measurement, override, power_loss, power_on, request

LOW = [1699] + [3300] * 7  # beyond of 1 and, by the spread, of 7
COLD = [-1, 20, 20, 20]  # with a current above 500, beyond of 3

# The calls of both lists; an override call is (time, value in the first, value in the second).
FIRST_SESSION = [
    measurement(0), (0, 1, 0),  # 8: Unpowered
    power_on(0), power_on(0),  # 8: powered
    (100, 0, 1), command(100, 1), clear(100),  # 10, 10, 10: Dormant
    request(200, 3), request(200, 1), request(200, 2),  # 9: Dormant to Maintenance
    (300, 0, 1), measurement(1000, current=60_000), measurement(3000, current=60_000),
    command(3000, 2), clear(3000), command(3000, 1), command(3000, 0),  # 10, 10: Operational
    measurement(2999), (2999, 1, 0), measurement(345_600_001), (345_600_001, 1, 0),  # 6, 6, 7, 7
    measurement(10_000, current=-180_001), measurement(40_500, current=-180_001),  # 6 trips: liftable
    measurement(41_000, current=-1_100_001),  # 5 trips: not liftable
    measurement(42_000, current=-180_000), measurement(43_000, current=-1000), measurement(52_000, current=-1000),  # 5 and 6 are released
    (53_000, 1, 0), measurement(54_000, LOW), measurement(56_000, LOW), measurement(64_000, LOW),  # 1 trips, then 7: liftable
    (64_000, 0, 0), (64_000, 1, 1),
    request(65_000, 1), request(65_000, 2),  # entering Dormant sets override off
    request(66_000, 3), command(66_000, 2), (66_000, 0, 1), measurement(66_500, LOW), (67_000, 1, 0),
    clear(67_000),
    measurement(70_000, current=501, temperatures=COLD), measurement(71_000, current=501, temperatures=COLD),  # 3 trips: liftable
    measurement(72_000, 3651), measurement(72_500, 3651),  # 1 is released, then 0 trips: not liftable
    (73_000, 0, 1), request(73_000, 1), (73_000, 1, 0),  # Maintenance to Dormant sets override off; 10: Dormant
    power_loss(80_000), command(80_000, 0),  # 8
]
SECOND_SESSION = [
    power_on(90_000), measurement(90_500, current=-30_000), request(91_000, 2), (91_000, 0, 1),
    measurement(92_000, 3651), measurement(92_500, 3651),  # 0 trips
    measurement(93_000), measurement(95_000, current=95_000),  # 0 is released
    measurement(98_000, current=95_000), request(98_000, 3), command(98_000, 2),  # 4 trips: not liftable
    measurement(99_000, current=-180_001), measurement(109_000, current=-180_001),  # 4 is released
    measurement(129_500, current=-180_001), measurement(130_000, LOW), measurement(132_000, LOW),  # 6 trips, then 1
    measurement(140_000, LOW),  # 7 trips and 6 is released
    (150_000, 1, 0), measurement(160_000, 3000, 20_000), measurement(162_000, 3000, 20_000),  # 1 is released
    (163_000, 0, 1), command(163_500, 1), command(164_000, 2), measurement(165_000, LOW, -40_000), measurement(167_000, LOW, -40_000),
    clear(166_000), (166_000, 1, 0), (170_000, 1, 0), (170_000, 0, 1),  # 6, 6
]
FAILURE = [
    measurement(180_000, [3300] * 7 + [499], 2_000_001, [250, 250, 250, 881]),  # sensors 7, 8 and 12
    request(179_999, 2), command(180_000, 2), request(180_000, 3), (180_000, 0, 1),  # 6; Maintenance to itself
]
PAIRS = {"apart": FIRST_SESSION + SECOND_SESSION, "alike": FIRST_SESSION + SECOND_SESSION + FAILURE}


def run(calls, which):
    """One of the two runs: its calls, and the text and the record that follow from them."""
    events = [override(call[0], call[1 + which]) if isinstance(call, tuple) else call for call in calls]
    log = benchlog.log(3, *events)
    return events, model.text(log), model.view(log)


def call_of(event):
    """Its kind's name, its time and its values."""
    record, _ = benchlog.read(event, 0)
    return record.kind.name, record.time, record.values


# ---- what document 01 says of two runs

def rows(text):
    """Per event: number, refusal, state, contactor, tripped mask, override, test."""
    return [[int(x, 16 if i == 4 else 10) for i, x in enumerate(line.split())] for line in text.splitlines()[:-1]]


def held(events, answers):
    """Command and override after each call, by the calls that were accepted and the states that they led to."""
    which, on, state = 0, 0, 0
    for (name, _, values), row in zip(map(call_of, events), answers):
        if row[1] == 0:
            if name in ("power on", "power loss") or row[2] != state:
                which, on = 0, on * (row[2] > 1)
            which = values[-1] if name == "contactor command" else which
            on = values[-1] if name == "battle override" else on
        state = row[2]
        yield which, on


def check_calls(first, second):
    """One length; in order the same kind and arguments, save the on or off value of an override call."""
    assert len(first) == len(second)
    for a, b in zip(map(call_of, first), map(call_of, second)):
        assert a == b or a[0] == "battle override" and a[:2] == b[:2] and {*a[2], *b[2]} == {0, 1}, (a, b)


def check_answers(first, second):
    """The two texts agree in all but override and contactor; each of these is as document 01 says for its list, and the contactors differ
    exactly when demand 3 says so. Gives what was met on the way."""
    answers, others = rows(first[1]), rows(second[1])
    assert len(answers) == len(others) == len(first[0]) and first[1].splitlines()[-1] == second[1].splitlines()[-1]
    met, before = set(), (0, 0, 0)  # state and both overrides before the call
    for a, b, (which, on), (_, other) in zip(answers, others, held(first[0], answers), held(second[0], others)):
        assert [a[i] for i in (0, 1, 2, 4, 6)] == [b[i] for i in (0, 1, 2, 4, 6)] and (a[5], b[5]) == (on, other), (a, b)
        state, tripped, permit = a[2], a[4], a[6] == 1 and (a[2], which) in ((2, 0), (3, 2))
        liftable = tripped & ~0xCA == 0
        assert (a[3] != b[3]) == (on != other and permit and tripped != 0 and liftable), (a, b)
        for row in a, b:
            assert row[3] == int(permit and (tripped == 0 or liftable and row[5] == 1)), row
        met |= {("refusal", a[1]), ("state", state)}
        if (before[0], state) == (3, 1):
            met |= {("Maintenance to Dormant", *before[1:])}
        before = state, on, other
        if permit and tripped:
            met |= {("liftable", state, on, other) if liftable else ("not liftable", on, other)}
    return met


def entries(export):
    """Kind and protection of each entry of an export in hex."""
    return [(entry.kind.name, entry.values[0]) for entry in benchlog.read_export(export)]


def check_record(shown, events, text):
    """The record shows what the last answer, the last line and the accepted calls say."""
    answers, end = rows(text), text.splitlines()[-1].split()
    *_, (which, on) = held(events, answers)
    accepted = [call_of(event) for event, row in zip(events, answers) if row[1] == 0]
    assert [int(shown[n]) for n in ("state", "contactor", "override", "test")] == [answers[-1][i] for i in (2, 3, 5, 6)], shown
    assert int(shown["tripped"], 16) == answers[-1][4] and int(shown["failed"], 16).bit_count() == int(shown["failed_count"]), shown
    assert [int(shown[n]) for n in ("type", "command", "override")] == [3, which, on], shown
    assert int(shown["commands"]) == sum(name == "contactor command" for name, _, _ in accepted), shown
    assert int(shown["last"]) == accepted[-1][1], shown
    assert end == ["end", shown["charged"], shown["discharged"], str(len(entries(shown["long"])))], shown


def check(first, second):
    """Gives what the pair shows: what was met in the answers, and the fields of the first record."""
    check_calls(first[0], second[0])
    met = check_answers(first, second)
    a, b = (dict(line.split(" ", 1) for line in view.splitlines()) for _, _, view in (first, second))
    assert a.keys() == b.keys() and [n for n in a if a[n] != b[n] and n not in ("override", "contactor")] == [], (a, b)
    for shown, (events, text, _) in (a, first), (b, second):
        check_record(shown, events, text)
    return met, a


def check_shown(name, met, record):
    """That a pair shows what it is for, in its answers and in its last record, where nothing is 0 that could be."""
    wanted = {("refusal", n) for n in (0, 6, 7, 8, 9, 10)} | {("state", n) for n in range(4)}
    wanted |= {("liftable", 2, *two) for two in itertools.product((0, 1), repeat=2)}
    wanted |= {("liftable", 3, 0, 1), ("liftable", 3, 1, 0), ("not liftable", 0, 1), ("not liftable", 1, 0), ("Maintenance to Dormant", 0, 1)}
    assert wanted <= met, wanted - met
    zeros = [n for n, value in record.items() if value.strip("0") in ("", "-")]
    assert set(zeros) == {"override", "contactor", *(("failed", "failed_count") if name == "apart" else ())}, zeros
    assert 1 < int(record["commands"]), record
    for store in "long", "short":
        stored = entries(record[store])
        assert {number in (1, 3, 6, 7) for kind, number in stored if kind == "trip"} == {False, True}, stored
    assert any(kind == "release" for kind, _ in stored), stored


def checked():
    """Each log's name, its bytes, its text and its view."""
    for name, calls in PAIRS.items():
        both = [run(calls, which) for which in (0, 1)]
        check_shown(name, *check(*both))
        for which, (events, text, view) in zip(("first", "second"), both):
            yield f"{name}_{which}", benchlog.log(3, *events), text, view


# ---- pairs that the check must refuse

def replaced(parts, place, part):
    return [*parts[:place], part, *parts[place + 1:]]


def spoiled(first, second):
    """Each a name and a pair with one thing changed, in one run or alike in both."""
    (calls, text, view), lines = first, first[1].splitlines()
    names = [call_of(event)[0] for event in calls]
    at, switch = names.index("measurement"), names.index("battle override")
    for name, other in [("a call left out", calls[:-1]), ("a current", replaced(calls, at, measurement(0, current=1))),
                        ("a command", [command(3000, 0) if call == command(3000, 1) else call for call in calls]),
                        ("an override's time", replaced(calls, switch, override(1, 1))),
                        ("an override's kind", replaced(calls, switch, power_on(0)))]:
        yield name, (other, text, view), second
    for place, line in enumerate(lines):
        for column, word in enumerate(line.split()):
            changed = " ".join(replaced(line.split(), column, "0" if word.strip("0") else "1"))
            yield f"line {place + 1}, word {column + 1}", (calls, "\n".join(replaced(lines, place, changed)), view), second
    for place in range(len(lines) - 1):
        flipped = []
        for events, answers, record in first, second:
            words = answers.splitlines()[place].split()
            changed = " ".join(replaced(words, 3, "1" if words[3] == "0" else "0"))
            flipped.append((events, "\n".join(replaced(answers.splitlines(), place, changed)), record))
        yield f"line {place + 1}, both contactors", *flipped
    for place, line in enumerate(view.splitlines()):
        changed = replaced(view.splitlines(), place, line[:-1] + ("1" if line[-1] == "0" else "0"))
        yield f"view: {line[:20]}", (calls, text, "\n".join(changed)), second
        if not line.startswith(("long", "short")):
            yield f"both views: {line}", (calls, text, "\n".join(changed)), (*second[:2], "\n".join(changed))


def main():
    tried = 0
    for name, _, _, _ in checked():
        print(name, "as document 01 says")
    for name, calls in PAIRS.items():
        both = [run(calls, which) for which in (0, 1)]
        for what, *pair in [*spoiled(*both), ("override the same in both", both[0], both[0])]:
            tried += 1
            try:
                check_shown(name, *check(*pair))
            except AssertionError:
                continue
            sys.exit(f"{name}: accepted with this changed: {what}")
    print(tried, "spoiled pairs refused")


if __name__ == "__main__":
    main()
