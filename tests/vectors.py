"""The vectors: logs with the answers of another reading of the papers. `NAME.out` and `NAME.view` of the twelve are document 01's; `02/older.txt`
has the lines of theirs that a request of document 02 changes, and the folder `02/S-N` the logs or the cases of request S-N. A file named `all-..` has every
request in force, and is not read before that."""

LANDED = ["S-1", "S-3", "S-5"]  # the requests of document 02 that are in force


def is_table(line):
    """Whether a line is of a table; else it is of a view."""
    return line.split()[0].isdigit() or line.split()[0] in ("end", "stop")


def put(text, lines):
    """Each of the lines in place of the one with the same first word. A request that adds a line to a view has no place for it here yet."""
    rows = {row.split()[0]: row for row in text.splitlines()}
    for line in lines:
        assert line.split()[0] in rows, line
        rows[line.split()[0]] = line
    return "".join(row + "\n" for row in rows.values())


def changes(folder, name):
    """The lines that the landed requests change for a log of document 01."""
    for row in (folder / "02/older.txt").read_text().splitlines():
        log, number, line = row.split(" ", 2)
        if log == name and number in LANDED:
            yield line


def logs(folder):
    """Each log's name, its bytes, its table and its view."""
    for path in sorted(folder.glob("*.log")):
        lines = list(changes(folder, path.stem))
        table = put(path.with_suffix(".out").read_text(), [line for line in lines if is_table(line)])
        view = put(path.with_suffix(".view").read_text(), [line for line in lines if not is_table(line)])
        yield path.stem, path.read_bytes(), table, view
    for request in LANDED:
        assert any((folder / "02" / request).iterdir()), request
        for path in sorted((folder / "02" / request).glob("*.log")):
            yield path.stem, path.read_bytes(), path.with_suffix(".out").read_text(), path.with_suffix(".view").read_text()


def blocks(folder):
    """Each case of S-1: its name, battery type, the events before the block, the block, the length of the answer buffer; what the block answers, and the
    view afterwards."""
    paths = sorted((folder / "02/S-1").glob("alone-*.txt"))
    assert paths
    for path in paths:
        rows = [row.split(" ", 1) for row in path.read_text().splitlines()]
        held = dict(rows)
        names = [name for name, _ in rows]
        assert names[:8] == ["type", "prior", "block", "room", "refusal", "count", "number", "answers"], path
        prior, data = (b"" if held[name] == "-" else bytes.fromhex(held[name]) for name in ("prior", "block"))
        said, shown = ("".join(f"{name} {value}\n" for name, value in part) for part in (rows[4:8], [rows[0], *rows[8:]]))
        yield f"S-1-{path.stem}", int(held["type"]), prior, data, int(held["room"]), said, shown
