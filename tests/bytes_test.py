"""What crates/bytes_test runs on and must print: the readers and writers of events and entries on byte strings, answered by the layout in
`benchlog` alone. A case is what src/main.rt says: which, position, room, length, bytes."""
import benchlog

EVENT, ENTRY, TRIP, RELEASE = range(4)
TABLES = {EVENT: benchlog.EVENTS, ENTRY: benchlog.ENTRIES}
TIMES = 0, 1, 345_600_000, 2**32 - 1
FILL = 0xEE  # the byte that a buffer is full of before the write

# the words that the test program prints for a kind
PRINTED = {"power on": "power-on", "power loss": "power-loss", "contactor command": "command", "state request": "request",
           "battle override": "override"}


# ---- answers

def printed(record):
    words = [PRINTED.get(record.kind.name, record.kind.name), str(record.time)]
    for field, values in record.fields():
        listed = isinstance(field.allowed, dict)
        words += [field.allowed[values[0]].replace(" ", "-")] if listed else map(str, values)
    return " ".join(words)


def written(record, room):
    """The writer's answer and the buffer after it."""
    data = benchlog.pack(record.kind.name, record.time, *record.values)
    refused = [field.refusal for field, values in record.fields() if field.misses(values[0])]
    if refused or room < len(data):
        return f", refused {refused[0] if refused else 11} {bytes([FILL] * room).hex()}"
    return f", written {len(data)} {(data + bytes([FILL] * (room - len(data)))).hex()}"


def answer(which, position, room, data):
    if which in (TRIP, RELEASE):
        values = (data[0], -2) if which == TRIP else (data[0],)
        record = benchlog.Record(benchlog.NAMED["trip" if which == TRIP else "release"], 1, values)
        return printed(record) + written(record, room)
    if len(data) <= position:
        return "end"
    try:
        record, after = benchlog.read(data, position, TABLES[which])
    except benchlog.Unreadable as refused:
        return f"refused {refused.number} {refused.at}"
    return f"{printed(record)}, next {after}{written(record, room)}"


# ---- cases

def numbers(field):
    """A field's least value, -1 or 1, a value whose bytes all differ, and its greatest."""
    span = field.fitting()
    return span[0], -1 if span[0] < 0 else 1, {1: 0x12, 2: 0x1234, 4: 0x12345678}[(len(span) - 1).bit_length() // 8], span[-1]


def values(kind, turn):
    """The values of a kind's record at each of the four times; those of a list in turn, its last one standing for any that is missing."""
    for field in kind.fields:
        listed = None if field.allowed is None else list(field.allowed)
        yield from [numbers(field)[turn] if listed is None else listed[min(turn, len(listed) - 1)]] * field.count


def unlisted(field):
    """The first value outside a list, some further off, and the greatest."""
    first = next(value for value in range(256) if value not in field.allowed)
    return sorted({first, 4, 8, 255} - set(field.allowed))


def sample(kind):
    """Values whose bytes all differ, and the last of a list."""
    held = []
    for field in kind.fields:
        held += [numbers(field)[2] if field.allowed is None else list(field.allowed)[-1]] * field.count
    return held


def of_kind(which, kind):
    """A record at each of the four times; one into buffers too short, empty and too long, and after other bytes; each prefix of it; then
    values that its list doesn't have, and one of them cut short, which is the refusal that comes first."""
    size = kind.layout.size
    for turn, time in enumerate(TIMES):
        yield which, 0, size, benchlog.pack(kind.name, time, *values(kind, turn))
    held = sample(kind)
    whole = benchlog.pack(kind.name, TIMES[2], *held)
    yield from ((which, 0, room, whole) for room in (size - 1, 0))
    yield which, 0, size + 3, whole + b"\0"
    yield which, 3, size, bytes([0x99, 0x98, 0x97]) + whole
    yield from ((which, 0, size, whole[:n]) for n in range(1, size))
    for place, field in enumerate(kind.fields):
        if field.allowed is not None:
            for value in unlisted(field):
                whole = benchlog.pack(kind.name, TIMES[2], *held[:place], value, *held[place + 1:])
                yield which, 0, size, whole
            yield which, 0, size, whole[:-1]


def elsewhere(which, unknown, whole):
    """Kinds that this reader doesn't know, with room for a body and without; positions at the end and past it; a second record."""
    for number in sorted(unknown - {kind.number for kind in TABLES[which]}):
        yield which, 0, 10, bytes([number]) + bytes(40)
        yield which, 0, 10, bytes([number])
    yield from ((which, position, 10, b"") for position in (0, 1, 255))
    size = len(whole)
    yield from ((which, position, 10, whole) for position in (size - 1, size, size + 1, 200))
    yield which, size, 10, whole + whole


def cases():
    for kind in benchlog.EVENTS:
        yield from of_kind(EVENT, kind)
    yield from elsewhere(EVENT, {0x00, 0x08, 0x14, 0x20, 0x21, 0x22, 0x23, 0xFF}, benchlog.power_on(7))
    for kind in benchlog.ENTRIES:
        yield from of_kind(ENTRY, kind)
    yield from elsewhere(ENTRY, {0x00, 0x01, 0x07, 0x08, 0x14, 0x20, 0x23, 0xFF}, benchlog.pack("release", 7, 3))
    for protection in (0, 7, 8, 255):
        for room in (0, 5, 6, 9, 10, 12):
            yield from ((which, 0, room, bytes([protection])) for which in (TRIP, RELEASE))


def files():
    tried = list(cases())
    yield "crates/bytes_test/stdin", b"".join(bytes([which, position, room, len(data)]) + data for which, position, room, data in tried)
    yield "crates/bytes_test/stdout", "".join(answer(*case) + "\n" for case in tried).encode()
