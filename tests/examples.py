"""The examples: NAME.log is what NAME.words says, NAME.txt the independent model's table of it. `first` is document 01's own, and what
crates/sixt is run on."""
import pathlib

import benchlog
import model

FOLDER = pathlib.Path(__file__).resolve().parent.parent / "examples"

# document 01, "The program"
FIRST = """1 0 1 0 00 0 0
2 0 2 0 00 0 0
3 0 2 1 00 0 1
4 10 2 1 00 0 1
end 0 0 0
"""


def logs():
    """Each example's name, its log and its table."""
    for path in sorted(FOLDER.glob("*.words")):
        log, wrong = benchlog.encode(path.read_text())
        assert not wrong, (path.name, wrong)
        yield path.stem, log, model.text(log)


def files():
    for name, log, text in logs():
        yield f"examples/{name}.log", log
        yield f"examples/{name}.txt", text.encode()
        if name == "first":
            assert text == FIRST
            yield "crates/sixt/stdin", log
            yield "crates/sixt/stdout", FIRST.encode()
