"""What crates/engine_test runs on and must print. It runs on the vectors, on logs made here that show one thing each, and on the pairs of
`alike`. The text is what a reader answers step by step on the first two logs, by the layout in `benchlog`; then what the independent model
holds after each log made here and the vectors' views, each view with the number of entries in both stores after it. Nothing of the
engine's own is read."""
import alike
import benchlog
import model
import vectors
from benchlog import clear, command, measurement, override, power_loss, power_on, request

CRATE = "crates/engine_test"


# ---- logs

def short_circuits(count):
    """Trips of protection 5, each of another value, each released 1,000 ms after its first frame within."""
    for k in range(count):
        t = 2000 * k
        yield measurement(t, current=-1_100_001 - k)
        yield measurement(t + 500)
        yield measurement(t + 1500)


def sensors():
    """Each sensor at both ends of its range and one past them: its bit in the mask or None, and what the measurement holds."""
    for k in range(8):
        for v, bit in (500, None), (499, k), (5000, None), (5001, k):
            yield bit, dict(cells=[v if j == k else 3300 for j in range(8)])
    for i, bit in (-2_000_000, None), (-2_000_001, 8), (2_000_000, None), (2_000_001, 8):
        yield bit, dict(current=i)
    for k in range(4):
        for v, bit in (-540, None), (-541, 9 + k), (880, None), (881, 9 + k):
            yield bit, dict(temperatures=[v if j == k else 250 for j in range(4)])


def failed():
    """A log for each failed sensor, below its range and above it, with the mask that document 01 gives; one with all 13; and one whose
    failures a power on forgets."""
    sides = {}
    for bit, held in sensors():
        if bit is not None:
            sides[bit] = "high" if bit in sides else "low"
            yield f"failed_{bit}_{sides[bit]}", 1 << bit, [power_on(0), measurement(0), measurement(10, **held)]
    every = [power_on(0), measurement(10, 0, -2**31, -2**15)]
    yield "failed_all", 2**13 - 1, every
    yield "failed_forgotten", 0, [*every, power_loss(20), power_on(30)]


MAINTENANCE = [request(0, 2), request(0, 3)]
LOW = [1699] + [3300] * 7  # one cell below 1,700: protection 1, and a spread above 500: protection 7
FORCED = [power_on(0), *MAINTENANCE, command(0, 2), override(0, 1), measurement(0)]  # Force closed, override on: the contactor is closed
AUTOMATED = [power_on(0), *MAINTENANCE, measurement(0)]  # open, and closed in Operational

# what the reader is shown to read, step by step: a log of each kind to its end, and one to a last byte that isn't in its list
STEPS = {
    "steps": [power_on(0), *MAINTENANCE, measurement(0), command(0, 1), override(0, 1), clear(0), power_loss(0)],
    "steps_refused": [power_on(0), measurement(0), command(0, 3), power_loss(0)],
}


def neighbours(*currents, apart=1):
    """Plausible measurements of these currents, from 0 on."""
    return [measurement(apart * k, current=i) for k, i in enumerate(currents)]


# document 02, S-5: measurements, and what they add to charged and to discharged
CHARGES = {
    "charge_marked": (neighbours(60_000, 60_000, apart=1000), 60_000_000, 0),
    "charge_mean": (neighbours(60_000, -20_000, apart=1000), 20_000_000, 0),
    "charge_mean_negated": (neighbours(-60_000, 20_000, apart=1000), 0, 20_000_000),
    # the last current counts too, and the first by its half alone
    "charge_to_0": (neighbours(60_000, 0, apart=1000), 30_000_000, 0),
    "charge_from_0": (neighbours(0, 60_000, apart=1000), 30_000_000, 0),
    # halved towards zero, and each pair by itself: 3 adds 1, as -3 does; three pairs of 3 add 3 and not 4
    "charge_sum_1": (neighbours(-1, 2), 0, 0),
    "charge_sum_minus_1": (neighbours(1, -2), 0, 0),
    "charge_sum_3": (neighbours(1, 2), 1, 0),
    "charge_sum_minus_3": (neighbours(-1, -2), 0, 1),
    "charge_each_pair": (neighbours(1, 2, 1, 2), 3, 0),
    "discharge_each_pair": (neighbours(-1, -2, -1, -2), 0, 3),
    # 3 mA for 3 ms: the product is halved, 9 to 4, not the sum
    "charge_odd_sum": (neighbours(1, 2, apart=3), 4, 0),
    "charge_cancelled": (neighbours(50_000, -50_000, apart=1000), 0, 0),
    "charge_at_one_time": (neighbours(60_000, 60_000, apart=0), 0, 0),
    # no neighbours: one of the two is implausible, or there is a power loss between them. A refused call parts nothing
    "charge_to_implausible": ([measurement(0, current=60_000), measurement(500, 5001, 60_000), measurement(1000, current=60_000)], 0, 0),
    "charge_over_power_loss": ([measurement(0, current=60_000), power_loss(500), power_on(500), measurement(1000, current=60_000)], 0, 0),
    "charge_over_refused": ([measurement(1000, current=60_000), measurement(999, current=-60_000), measurement(2000, current=60_000)], 60_000_000, 0),
    # the greatest current for the whole mission: 2,000,000 × 345,600,000, which a sound record may hold. The power loss is accepted, not refused with 5
    "charge_for_the_mission": ([*neighbours(2_000_000, 2_000_000, apart=345_600_000), power_loss(345_600_000)], 691_200_000_000_000, 0),
    "discharge_for_the_mission": ([*neighbours(-2_000_000, -2_000_000, apart=345_600_000), power_loss(345_600_000)], 0, 691_200_000_000_000),
}

LOGS = {
    **STEPS,
    # 70 trips: the first 64 stay; a clear leaves none
    "seventy": [power_on(0), *MAINTENANCE, *short_circuits(70)],
    "seventy_cleared": [power_on(0), *MAINTENANCE, *short_circuits(70), clear(140_000)],
    # 10 trips and 10 releases: the last 16 of the 20 entries stay
    "twenty": [power_on(0), *short_circuits(10)],
    # the hold of 500 ms begins anew after a power loss: 490 ms of it are no trip, 500 are
    "power_loss_mid_hold": [power_on(0), measurement(0, 3651), measurement(400, 3651), power_loss(450), power_on(460),
                            measurement(470, 3651), measurement(960, 3651)],
    "power_loss_whole_hold": [power_on(0), measurement(0, 3651), measurement(400, 3651), power_loss(450), power_on(460),
                              measurement(470, 3651), measurement(960, 3651), measurement(970, 3651)],
    # mistake: counting values between beyond and within as within. 3,501 for 3,000 ms releases nothing; 3,500 for 2,000 ms does
    "between": [power_on(0), request(0, 2), measurement(0, 3651), measurement(500, 3651), measurement(600, 3501), measurement(3600, 3501)],
    "between_then_within": [power_on(0), request(0, 2), measurement(0, 3651), measurement(500, 3651), measurement(600, 3501),
                            measurement(3600, 3500), measurement(5600, 3500)],
    # mistake: stretching a span over a power loss
    "stretched": [power_on(0), measurement(0, 3651), power_loss(100), power_on(200), measurement(600, 3651)],
    # mistake: letting Force closed pass a tripped protection with override off; with it on, protection 1 is lifted. The two lists are alike
    # in all but that value
    "force_closed": [power_on(0), *MAINTENANCE, command(0, 2), override(0, 0), measurement(0, LOW), measurement(2000, LOW)],
    "force_closed_lifted": [power_on(0), *MAINTENANCE, command(0, 2), override(0, 1), measurement(0, LOW), measurement(2000, LOW)],
    # mistake: skipping trip entries under override
    "override_entries": [power_on(0), request(0, 2), override(0, 1), measurement(0, LOW), measurement(10_000, LOW)],
    # mistake: keeping the newest 64
    "newest": [power_on(0), *short_circuits(65)],
    # document 02, S-3: Maintenance straight to Dormant, and as the two requests that it means, with Force closed and with Automated; at an
    # early time (6), at a late one (7), and while Unpowered (8)
    "forced": FORCED,
    "shortcut": [*FORCED, request(10, 1)],
    "shortcut_in_two": [*FORCED, request(10, 2), request(10, 1)],
    "shortcut_automated": [*AUTOMATED, request(10, 1)],
    "shortcut_automated_in_two": [*AUTOMATED, request(10, 2), request(10, 1)],
    "shortcut_early": [*FORCED, measurement(10), request(9, 1)],
    "shortcut_late": [*FORCED, request(345_600_001, 1)],
    "shortcut_unpowered": [*FORCED, power_loss(10), request(10, 1)],
    **{name: [power_on(0), request(0, 2), *events] for name, (events, _, _) in CHARGES.items()},
    **{name: events for name, _, events in failed()},
}

# what the model's views are held to besides, by the papers alone
COUNTS = {"seventy": (64, 16), "seventy_cleared": (0, 16), "twenty": (10, 16), "newest": (64, 16)}
MASKS = {name: mask for name, mask, _ in failed()}
SHOWN = {
    "forced": "state 3, command 2, override 1, last 0, contactor 1",
    "shortcut": "state 1, command 0, override 0, last 10, contactor 0",
    "shortcut_in_two": "state 1, command 0, override 0, last 10, contactor 0",
    "shortcut_automated": "state 1, command 0, override 0, last 10, contactor 0",
    "shortcut_automated_in_two": "state 1, command 0, override 0, last 10, contactor 0",
    "shortcut_early": "state 3, command 2, override 1, last 10, contactor 1",
    "shortcut_late": "state 3, command 2, override 1, last 0, contactor 1",
    "shortcut_unpowered": "state 0, command 0, override 0, last 10, contactor 0",
    **{name: f"charged {charged}, discharged {discharged}" for name, (_, charged, discharged) in CHARGES.items()},
}
SAME = {"shortcut_in_two": "shortcut", "shortcut_automated_in_two": "shortcut_automated"}  # logs that leave one record


def counted(shown):
    """A view, and after it the number of entries in each store, which a view leaves out."""
    named = dict(s.split(" ", 1) for s in shown.splitlines())
    long_count, short_count = (len(benchlog.read_export(named[store])) for store in ("long", "short"))
    return shown + f"long_count {long_count}\nshort_count {short_count}\n"


def judge(name, views):
    """Holds the view of a log made here to what the papers say of it; `views` has those of the logs before it too."""
    lines = views[name].splitlines()
    wanted = SHOWN[name].split(", ") if name in SHOWN else []
    if name in COUNTS:
        wanted += ["long_count %d" % COUNTS[name][0], "short_count %d" % COUNTS[name][1]]
    if name in MASKS:
        wanted += ["failed %04x" % MASKS[name], "failed_count %d" % MASKS[name].bit_count()]
    assert set(wanted) <= set(lines), name
    if name in SAME:
        assert views[name] == views[SAME[name]], name


def step_lines(events):
    """Ten reads. At the end, and at bytes that can't be read, the reader stays where it is."""
    log, at = benchlog.log(1, *events), 1
    for _ in range(10):
        answer = "end"
        try:
            if at < len(log):
                _, at = benchlog.read(log, at)
                answer = f"found, next {at}"
        except benchlog.Unreadable as refused:
            answer = f"refused {refused.number} at {refused.at}"
        yield f"{answer}, position {at}, rest {len(log) - at}\n"


def made():
    """Each log made here or by `alike`, and what the model holds after it."""
    for name, events in LOGS.items():
        log = benchlog.log(1, *events)
        yield name, log, model.view(log)
    for name, log, _, shown in alike.checked():
        yield name, log, shown


def files(folder):
    text = [line for name, events in STEPS.items() for line in (f"{name}.log\n", *step_lines(events))]
    logs, views = {}, {}
    for name, log, shown in made():
        logs[name], views[name] = log, counted(shown)
        judge(name, views)
    for name, log, _, shown in vectors.logs(folder):
        logs[name], views[name] = log, counted(shown)
        assert model.view(log) == shown, name
    text += [f"{name}.log\n{shown}" for name, shown in views.items()]
    yield from ((f"{CRATE}/data/{name}.log", log) for name, log in logs.items())
    yield f"{CRATE}/args", "".join(f"{name}.log\n" for name in logs).encode()
    yield f"{CRATE}/stdout", "".join(text).encode()
