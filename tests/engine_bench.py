#!/usr/bin/env python3
"""engine_bench.py DIRECTORY: writes three logs for engine_bench, of 4,096 events each: quiet.log trips nothing, and
neither does charging.log, in which each frame charges near 10 °C; trips.log trips and releases at two of three frames. The same bytes every time."""
import pathlib
import random
import sys

from benchlog import log, measurement, power_on, request


def quiet(count):
    """All within or between limits: cells within 300 mV of each other and below 3,650, currents that are permitted."""
    for k in range(count):
        base = random.randint(2900, 3350)
        cells = [base + random.randint(0, 290) for _ in range(8)]
        yield measurement(1000 * k, cells, random.randint(-119_999, 60_000), [random.randint(250, 590) for _ in range(4)])


def trips(count):
    """A short circuit, then two frames of rest, the second of which releases it; now and then a high cell or a hot sensor."""
    for k in range(count):
        short = k % 3 == 0
        high = k % 40 in (10, 11, 12)
        hot = k % 60 in (20, 21, 22, 23)
        cells = [random.randint(3660, 3700) if high else random.randint(3200, 3400) for _ in range(8)]
        yield measurement(1000 * k, cells, -1_200_000 - k if short else 0, 720 if hot else 300)


def charging(count):
    """As quiet, but for a current below the 14,602 mA that are permitted at 9.8 °C."""
    for k in range(count):
        base = random.randint(2900, 3350)
        cells = [base + random.randint(0, 290) for _ in range(8)]
        yield measurement(1000 * k, cells, random.randint(9_000, 14_000), [random.randint(98, 103) for _ in range(4)])


def main():
    to = pathlib.Path(sys.argv[1])
    for name, frames in (("quiet", quiet), ("trips", trips), ("charging", charging)):
        random.seed(6)
        (to / f"{name}.log").write_bytes(log(1, power_on(0), request(0, 2), *frames(4094)))


if __name__ == "__main__":
    main()
