"""The independent model, peer's `model`, which was written from the papers alone: what it prints for a log, and holds after it."""
import functools
import pathlib
import subprocess

PEER = pathlib.Path(__file__).resolve().parent.parent / "peer"


@functools.cache
def built():
    """The program, built anew where its sources have changed, so that no answer is an older model's."""
    subprocess.run(["cargo", "build", "--release", "--quiet", "--bin", "model"], cwd=PEER, check=True)
    return PEER / "target/release/model"


def answer(log, *options):
    return subprocess.run([built(), *options], input=log, capture_output=True, check=True).stdout.decode()


def text(log):
    return answer(log)


def view(log):
    return answer(log, "--view")
