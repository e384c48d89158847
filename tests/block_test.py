"""What crates/block_test runs on and must print: document 02, S-1. It runs on the vectors of that request; on every other log of the vectors, as one
block and in parts, single calls and blocks by turns; and on cases made here, around each limit of a block. What the blocks answer and leave is said by the
vectors, by column 2 of a log's table and by its view, or by those of the independent model on the events taken, one by one."""
import struct

import alike
import benchlog
import model
import vectors
from benchlog import clear, command, measurement, override, power_loss, power_on, request
from engine_test import counted

CRATE = "crates/block_test"
MOST = 1000  # "a block of up to 1,000 events"
MARK = 0xEE  # what stands in each byte of an answer buffer before the call


# ---- the steps of a case, as the program reads them

def step(kind, data=b"", room=0):
    return struct.pack("<BII", kind, len(data), room) + data


def singly(data):
    return step(0, data)


def block(data, room):
    return step(1, data, room)


SPOIL = step(2)


# ---- what a block answers

def readable(data):
    """The events before the first byte that can't be read, as the bytes of each, and the reader's number (0 if none)."""
    events, at = [], 0
    try:
        while at < len(data):
            _, after = benchlog.read(data, at)
            events.append(data[at:after])
            at = after
    except benchlog.Unreadable as unreadable:
        return events, unreadable.number
    return events, 0


def check(count, room):
    """"12, more than 1,000 readable events, then 13, answer buffer shorter than the number of readable events"."""
    return 12 if count > MOST else 13 if room < count else 0


def answer_lines(refusal, count, number, answers, room):
    """The text of a block; bytes past the answers are as they were."""
    buffer = bytes(answers) + bytes([MARK] * (room - len(answers)))
    return f"refusal {refusal}\ncount {count}\nnumber {number}\nanswers {buffer.hex() or '-'}\n"


def column_2(table):
    """The refusals of a table's events."""
    return [int(row.split()[1]) for row in table.splitlines()[:-1]]


class Case:
    """A case on a battery, as it is put together: its bytes, the events taken so far, and the text of its blocks."""

    def __init__(self, battery=1):
        self.battery, self.steps, self.taken, self.text, self.sound = battery, [], [], "", True

    def singly(self, *events):
        self.steps.append(singly(b"".join(events)))
        self.taken += events
        return self

    def block(self, data, room=None):
        """With a buffer that just fits where no room is named."""
        events, number = readable(data)
        room = len(events) if room is None else room
        refusal = check(len(events), room)
        self.steps.append(block(data, room))
        if refusal:
            self.text += answer_lines(refusal, 0, 0, [], room)
        elif not self.sound:
            self.text += answer_lines(0, len(events), number, [5] * len(events), room)
        else:
            self.taken += events
            answers = column_2(model.text(self.log()))[len(self.taken) - len(events):]
            self.text += answer_lines(0, len(events), number, answers, room)
        return self

    def spoil(self):
        self.steps.append(SPOIL)
        self.sound = False
        return self

    def log(self):
        return benchlog.log(self.battery, *self.taken)

    def view(self):
        """What the model holds after the events taken. Of an unsound record the exports are refused."""
        shown = counted(model.view(self.log()))
        if self.sound:
            return shown
        rows = (row.split(" ", 1) for row in shown.splitlines())
        spoiled = {"type": "0", "long": "refused 5", "short": "refused 5"}
        return "".join(f"{name} {spoiled.get(name, value)}\n" for name, value in rows)

    def file(self):
        return bytes([self.battery]) + b"".join(self.steps)


# ---- cases made here

def many(count):
    """As many events, accepted and refused ones, of every kind."""
    cycle = [power_on(0), request(0, 2), measurement(0), override(0, 1), command(0, 1), command(0, 2), override(0, 0), request(0, 3), clear(0), clear(0),
             command(0, 0), request(0, 1), power_loss(0), override(0, 1), power_loss(0)]
    return b"".join(cycle[k % len(cycle)] for k in range(count))


FEW = many(7)
UNKNOWN, CUT, UNLISTED = b"\x08", measurement(0)[:-1], command(0, 3)  # the reader's 2, 3 and 4
BEGUN = [power_on(0), request(0, 2), measurement(0, current=60_000)]

CASES = {
    "of_999": Case().block(many(999)),
    "of_1000": Case().block(many(1000)),
    "of_1001": Case().block(many(1001)),
    # what follows the thousandth is no event
    "of_1000_then_unknown": Case().block(many(1000) + UNKNOWN),
    "of_1000_then_cut": Case().block(many(1000) + CUT),
    "of_1000_then_unlisted": Case().block(many(1000) + UNLISTED),
    "of_1001_then_unknown": Case().block(many(1001) + UNKNOWN),
    # readable events are those before the first byte that can't be read
    "of_7_then_unknown_then_1500": Case().block(FEW + UNKNOWN + many(1500)),
    "unknown_after_7": Case().block(FEW + UNKNOWN),
    "cut_after_7": Case().block(FEW + CUT),
    "unlisted_after_7": Case().block(FEW + UNLISTED + FEW),
    "empty": Case().block(b""),
    "empty_with_room": Case().block(b"", 3),
    "unreadable_from_the_start": Case().block(UNKNOWN + FEW),
    "unreadable_from_the_start_with_room": Case().block(UNLISTED + FEW, 3),
    # buffers: one byte short, none at all, longer; 12 comes before 13
    "room_for_6_of_7": Case().singly(*BEGUN).block(FEW, 6),
    "room_for_none": Case().singly(*BEGUN).block(FEW, 0),
    "room_for_12_of_7": Case().singly(*BEGUN).block(FEW, 12),
    "room_for_999_of_1000": Case().block(many(1000), 999),
    "room_for_1000_of_1001": Case().block(many(1001), 1000),
    "room_for_none_of_1001": Case().block(many(1001), 0),
    "room_for_6_of_7_then_unknown": Case().block(FEW + UNKNOWN, 6),
    # a refused block leaves the record to the next one
    "refused_then_taken": Case().singly(*BEGUN).block(many(1001)).block(FEW, 6).block(FEW, 7).singly(measurement(10)).block(FEW, 8),
    # an unsound record: 12 and 13 first, then 5 for each event
    "unsound": Case().singly(*BEGUN).spoil().block(FEW, 9).block(FEW + UNKNOWN).block(many(1001)).block(FEW, 6),
}


def alike_cases():
    """Two lists alike in all but the values of override: the first half singly, the second as a block. The blocks answer the same."""
    both = {}
    for which, name in enumerate(("alike_first", "alike_second")):
        events, _, _ = alike.run(alike.PAIRS["alike"], which)
        half = len(events) // 2
        both[name] = Case(3).singly(*events[:half]).block(b"".join(events[half:]) + UNKNOWN, len(events))
    first, second = both.values()
    assert first.text == second.text and first.file() != second.file()
    return both


# ---- the logs of the vectors

def as_one_block(log, table):
    """The whole log as a block: its answers are column 2 of the table, its number that of a `stop` line."""
    number = int(table.splitlines()[-1].split()[1]) if table.splitlines()[-1].startswith("stop") else 0
    answers = column_2(table)
    return bytes([log[0]]) + block(log[1:], len(answers)), answer_lines(0, len(answers), number, answers, len(answers))


def in_parts(log, table):
    """Four events singly, then seven as a block, and so on; what can't be read is of the last block."""
    (events, number), answers = readable(log[1:]), column_2(table)
    steps, text, at = [], "", 0
    while at < len(events):
        steps.append(singly(b"".join(events[at:at + 4])))
        at += 4
        part = events[at:at + 7]
        at += 7
        last = at >= len(events)
        rest = log[1 + sum(map(len, events)):] if last else b""
        steps.append(block(b"".join(part) + rest, len(part)))
        text += answer_lines(0, len(part), number if last else 0, answers[at - 7:at], len(part))
    return bytes([log[0]]) + b"".join(steps), text


def made(folder):
    """Each case's name, its bytes and its text."""
    for name, battery, prior, data, room, said, shown in vectors.blocks(folder):
        case = Case(battery).singly(*readable(prior)[0]).block(data, room)
        assert (case.text, case.view()) == (said, counted(shown)), name
        yield name, case.file(), said + counted(shown)
    for name, log, table, shown in vectors.logs(folder):
        for case, (data, said) in (name, as_one_block(log, table)), (f"{name}_in_parts", in_parts(log, table)):
            yield case, data, said + counted(shown)
    for name, case in {**CASES, **alike_cases()}.items():
        yield name, case.file(), case.text + case.view()


def files(folder):
    cases = list(made(folder))
    yield from ((f"{CRATE}/data/{name}.blocks", data) for name, data, _ in cases)
    yield f"{CRATE}/args", "".join(f"{name}.blocks\n" for name, _, _ in cases).encode()
    yield f"{CRATE}/stdout", "".join(f"{name}.blocks\n{text}" for name, _, text in cases).encode()
