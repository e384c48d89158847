"""What crates/program_test runs on and must print. The vectors go in with their tables, and the examples with theirs, as copies, since rt
follows no links. The other logs are made here, and what they print is said here too or worked out by the independent model, never by
sixt."""
import alike
import benchlog
import engine_test
import examples
import model
import permitted_test
import vectors
from benchlog import clear, command, measurement, override, power_loss, power_on, request
from engine_test import sensors

CRATE = "crates/program_test"

START = benchlog.log(1, power_on(0), request(0, 2))
STARTED = "1 0 1 0 00 0 0\n2 0 2 0 00 0 0\n"


def long_log():
    """More than two buffers of 64 KiB. Cells swing through both limits of protection 0 and below that of protection 1, so that trips
    and releases come all along, past the long-term store's 64; now and then a command."""
    log = START
    for i in range(1, 4101):
        cell = 3300 + 380 * ((i // 20) % 2) if i < 2000 else 3300 - 1650 * ((i // 30) % 2)
        log += measurement(250 * i, cell, 1000 * (i % 120) - 60000)
        if i % 97 == 0:
            log += override(250 * i, i // 97 % 2)
        if i % 331 == 0:
            log += power_loss(250 * i) + power_on(250 * i) + request(250 * i, 2)
    assert len(log) > 2 * 65536
    return log


def protections(battery):
    """Document 01's table, a row for each protection (and three for 4: in the warm, and at both ends of the range that has rows):
    hold, release, a frame that is beyond, those just not beyond, one within, one just not within."""
    draw = 180_000 if battery == 3 else 120_000

    def all_cells(mv):
        return dict(cells=mv)

    def flowing(current, temperature=250):
        return dict(current=current, temperatures=temperature)

    def apart(mv):
        return dict(cells=[3400] + 7 * [3400 - mv])

    def permitted(temperature):
        most = permitted_test.permitted(battery, temperature)
        return (3000, 10_000, flowing(most + 2001, temperature), [flowing(most + 2000, temperature)],
                flowing(most, temperature), flowing(most + 1, temperature))

    return [
        (500, 2000, all_cells(3651), [all_cells(3650)], all_cells(3500), all_cells(3501)),
        (2000, 2000, all_cells(1699), [all_cells(1700)], all_cells(2800), all_cells(2799)),
        (1000, 5000, flowing(0, 711), [flowing(0, 710)], flowing(0, 600), flowing(0, 601)),
        (1000, 5000, flowing(501, -1), [flowing(501, 0), flowing(500, -1)], flowing(0, 50), flowing(0, 49)),
        permitted(250),
        permitted(249),
        permitted(0),
        (0, 1000, flowing(-1_100_001), [flowing(-1_100_000)], flowing(-draw), flowing(-draw - 1)),
        (30_500, 10_000, flowing(-draw - 1), [flowing(-draw)], flowing(-draw), flowing(-draw - 1)),
        (10_000, 10_000, apart(501), [apart(500)], apart(300), apart(301)),
    ]


def limits(battery):
    """Each protection at its hold, its release time and its limits, and one off them; then each sensor at its range and past it."""
    log, t = bytes([battery]), 0
    for hold, release, beyond, inside, within, outside in protections(battery):
        # a session each: beyond for a millisecond less than the hold (one frame where that is 0, and it trips), then not beyond for a
        # millisecond more
        for frame, length in [(beyond, hold - 1), *((frame, hold + 1) for frame in inside)]:
            log += power_on(t) + request(t, 2) + measurement(t, **frame)
            log += measurement(t + length, **frame) if 0 < length else b""
            t += hold + 1
            log += power_loss(t)
        # a trip; not within for the release time, which releases nothing; within for as long, which does, and not before
        log += power_on(t) + request(t, 2) + measurement(t, **beyond) + measurement(t + hold, **beyond)
        t += hold + 1
        log += measurement(t, **outside) + measurement(t + release, **outside)
        t += release + 1
        log += measurement(t, **within) + measurement(t + release - 1, **within) + measurement(t + release, **within)
        t += release + 1
        log += power_loss(t)
    log += power_on(t) + request(t, 2)
    return log + b"".join(measurement(t, **held) for _, held in sensors())


def border_log():
    """Its first part, of 64 KiB, ends where an event ends; trips and releases stand on both sides of that border."""
    log, i = START, 0
    while len(log) + 33 + 20 <= 65536:
        i += 1
        log += measurement(250 * i, 3300 + 380 * (i // 20 % 2), 1000 * (i % 120) - 60000)
    # twenty bytes or more are left: events of five bytes (power ons, refused) and of six (overrides) fill them
    left = 65536 - len(log)
    fives = -left % 6
    log += fives * power_on(250 * i) + (left - 5 * fives) // 6 * override(250 * i, 1)
    assert len(log) == 65536
    for j in range(i + 1, i + 101):
        log += measurement(250 * j, 3300 + 380 * (j // 20 % 2), 1000 * (j % 120) - 60000)
    return log + power_loss(250 * (i + 100))


# logs that can't be read to their end or have none, and what they print
DAMAGED = {
    "empty": (b"", "stop 1 0\n"),
    "type-0": (benchlog.log(0, power_on(0)), "stop 1 0\n"),
    "type-4": (benchlog.log(4, power_on(0)), "stop 1 0\n"),
    "type-255": (benchlog.log(255), "stop 1 0\n"),
    "type-alone": (benchlog.log(2), "end 0 0 0\n"),
    "unknown-kind": (START + bytes([8, 0, 0, 0, 0]), STARTED + "stop 2 12\n"),
    "bad-last-byte": (START + command(0, 3), STARTED + "stop 4 12\n"),
    "cut-in-body": (START + request(0, 1)[:-1], STARTED + "stop 3 12\n"),
    "cut-after-kind": (START + clear(0)[:1], STARTED + "stop 3 12\n"),
    "cut-in-measurement": (START + measurement(1000) + measurement(2000)[:17], STARTED + "3 0 2 1 00 0 1\nstop 3 45\n"),
}


# document 02, S-3: what follows Maintenance with Force closed, override on and a closed contactor, or with Automated and an open one. The one
# request leaves the contactor open; the first of the two that it means has it closed, in Operational with Automated
MAINTENANCE_LINES = "1 0 1 0 00 0 0\n2 0 2 0 00 0 0\n3 0 3 0 00 0 0\n"
FORCED_LINES = MAINTENANCE_LINES + "4 0 3 0 00 0 0\n5 0 3 0 00 1 0\n6 0 3 1 00 1 1\n"
AUTOMATED_LINES = MAINTENANCE_LINES + "4 0 3 0 00 0 1\n"
SHORTCUTS = {
    "shortcut": FORCED_LINES + "7 0 1 0 00 0 1\n",
    "shortcut_in_two": FORCED_LINES + "7 0 2 1 00 1 1\n8 0 1 0 00 0 1\n",
    "shortcut_automated": AUTOMATED_LINES + "5 0 1 0 00 0 1\n",
    "shortcut_automated_in_two": AUTOMATED_LINES + "5 0 2 1 00 0 1\n6 0 1 0 00 0 1\n",
    "shortcut_early": FORCED_LINES + "7 0 3 1 00 1 1\n8 6 3 1 00 1 1\n",
    "shortcut_late": FORCED_LINES + "7 7 3 1 00 1 1\n",
    "shortcut_unpowered": FORCED_LINES + "7 0 0 0 00 0 0\n8 8 0 0 00 0 0\n",
}


# below 0 °C nothing is permitted: 2,001 mA are beyond 4 (and, above 500, beyond 3), 1 mA is not within 4, which stays tripped, and none is, so
# that it is released. The contactor is open from the trips on
def charge_below_0():
    def frames(start, end, current):
        return [measurement(t, current=current, temperatures=-1) for t in (start, end)]

    log = START + b"".join(frames(0, 3000, 2001) + frames(3001, 13_001, 1) + frames(13_002, 23_002, 0))
    lines = "3 0 2 1 00 0 1\n" + "".join(f"{event} 0 2 0 18 0 1\n" for event in range(4, 8)) + "8 0 2 0 08 0 1\n"
    charged = 2001 * 3000 + (2001 + 1) // 2 + 1 * 10_000 + (1 + 0) // 2  # by the mean current: at 2,001 mA, from there to 1 mA, at 1 mA, to none
    return log, STARTED + lines + f"end {charged} 0 2\n"


# document 02, S-5: the lines of those logs of CHARGES whose measurements aren't all plausible and accepted, or trip a protection (4; 5, then 6),
# and the trips
CHARGE_LINES = {
    "charge_to_implausible": ("3 0 2 1 00 0 1\n4 0 2 0 00 0 2\n5 0 2 1 00 0 1\n", 0),
    "charge_over_power_loss": ("3 0 2 1 00 0 1\n4 0 0 0 00 0 0\n5 0 1 0 00 0 0\n6 0 1 0 00 0 1\n", 0),
    "charge_over_refused": ("3 0 2 1 00 0 1\n4 6 2 1 00 0 1\n5 0 2 1 00 0 1\n", 0),
    "charge_for_the_mission": ("3 0 2 1 00 0 1\n4 0 2 0 10 0 1\n5 0 0 0 00 0 0\n", 1),
    "discharge_for_the_mission": ("3 0 2 0 20 0 1\n4 0 2 0 60 0 1\n5 0 0 0 00 0 0\n", 2),
}


def charges():
    for name, (events, charged, discharged) in engine_test.CHARGES.items():
        closed = "".join(f"{k} 0 2 1 00 0 1\n" for k in range(3, 3 + len(events)))
        lines, trips = CHARGE_LINES.get(name, (closed, 0))
        yield name, benchlog.log(1, *engine_test.LOGS[name]), f"{STARTED}{lines}end {charged} {discharged} {trips}\n"


def logs(folder):
    """Each log's name, its bytes and its text. The model is asked about every one, those whose text is said elsewhere too."""
    for name, log, text, _ in vectors.logs(folder):
        yield name, log, text
    for name, (log, text) in DAMAGED.items():
        yield name, log, text
    yield "charge-below-0", *charge_below_0()
    for name, lines in SHORTCUTS.items():
        yield name, benchlog.log(1, *engine_test.LOGS[name]), lines + "end 0 0 0\n"
    yield from charges()
    for name, log in ("long", long_log()), ("limits-1", limits(1)), ("limits-3", limits(3)), ("border", border_log()):
        yield name, log, model.text(log)
    for name, log, text, _ in alike.checked():
        yield name, log, text
    yield from examples.logs()


def files(folder):
    names, expected = "", ""
    for name, log, text in logs(folder):
        assert model.text(log) == text, name
        yield f"{CRATE}/data/{name}.log", log
        names += f"{name}.log\n"
        expected += f"== {name}.log\n{text}"
    yield f"{CRATE}/args", names.encode()
    yield f"{CRATE}/stdout", expected.encode()
