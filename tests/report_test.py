"""What crates/report_test runs on and must print: a log, and what the independent model prints for each prefix of it, and for all of it,
however it is divided."""
import benchlog
import model
from benchlog import clear, command, measurement, override, power_loss, power_on, request

CRATE = "crates/report_test"

LOG = benchlog.log(
    1,
    power_on(0),
    request(0, 2),
    measurement(1000, current=60_000),
    command(1000, 2),  # Force closed: refused
    override(1000, 1),
    measurement(1500, 7 * [3300] + [499], 60_000),  # implausible
    command(1500, 1),
    request(900, 1),  # too early: refused
    power_loss(2000),
    clear(2000),  # refused
)


def files():
    whole = model.text(LOG)
    text = "".join(f"== {n}\n" + model.text(LOG[:n]) for n in range(len(LOG) + 1))
    text += "".join(f"== {n} and on\n" + whole for n in range(1, len(LOG) + 1))
    text += "== line by line\n" + whole
    yield f"{CRATE}/stdin", LOG
    yield f"{CRATE}/stdout", text.encode()
