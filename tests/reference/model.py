"""A second model of session files. It follows docs/RULES.md and shares no text with the proved program.

It favours plainness over speed: owing bytes are a list of intervals, memory a list of painted segments.

    python3 model.py < FILE        prints the listing of a session file
    python3 model.py FILE ..       prints the listings of these files, one after the other
"""

import struct
import sys

BUFFERS = 16
LISTS = 4
STEPS = 64
BOOK_PLACES = 64
MOST_BYTES = 1 << 28
EXTENT = 1 << 40


class Declined(Exception):
    """A call that is declined, with the number of its cause."""

    def __init__(self, number):
        super().__init__(number)
        self.number = number


def up4(n):
    return -(-n // 4) * 4


class Owing:
    """The bytes of a buffer that still owe a clear, as ascending intervals that do not touch."""

    def __init__(self, intervals):
        self.intervals = intervals

    def within(self, lo, hi):
        return [(max(a, lo), min(b, hi)) for a, b in self.intervals if max(a, lo) < min(b, hi)]

    def without(self, lo, hi):
        rest = []
        for a, b in self.intervals:
            if a < min(b, lo):
                rest.append((a, min(b, lo)))
            if max(a, hi) < b:
                rest.append((max(a, hi), b))
        return Owing(rest)


class Memory:
    """The bytes of one slot: a starting byte, painted over by segments."""

    def __init__(self, start):
        self.start = start
        self.segments = []

    def paint(self, first, count, byte):
        lo, hi = first, first + count
        rest = []
        for a, b, old in self.segments:
            if a < min(b, lo):
                rest.append((a, min(b, lo), old))
            if max(a, hi) < b:
                rest.append((max(a, hi), b, old))
        rest.append((lo, hi, byte))
        self.segments = sorted(rest)

    def total(self, first, end):
        total = (end - first) * self.start
        for a, b, byte in self.segments:
            shared = min(b, end) - max(a, first)
            if shared > 0:
                total += shared * (byte - self.start)
        return total


class Buffer:
    def __init__(self, size, copy):
        self.size = size
        self.copy = copy
        self.stands = True
        self.owing = Owing([(0, up4(size))] if size else [])


class List:
    def __init__(self):
        self.state = "idle"
        self.steps = []


class Step:
    """A use of one buffer: its kind, its own range and the byte that it leaves."""

    def __init__(self, kind, buffer, start, end, byte=0):
        self.kind = kind
        self.buffer = buffer
        self.start = start
        self.end = end
        self.byte = byte

    def cover(self):
        return self.start, up4(self.end) if self.kind == "read" else self.end


class Session:
    """A planner over a journal, and the lines that it has listed."""

    def __init__(self, allowance, start):
        self.allowance = allowance
        self.memories = [Memory(start) for _ in range(BUFFERS)]
        self.buffers = []
        self.lists = [List() for _ in range(LISTS)]
        self.lines = []

    # Numbers.

    def list_of(self, number):
        if number >= LISTS:
            raise Declined(1)
        return self.lists[number]

    def buffer_of(self, number):
        if number >= len(self.buffers):
            raise Declined(1)
        return self.buffers[number]

    # Making and destroying.

    def make_buffer(self, size, copy):
        if len(self.buffers) == BUFFERS:
            raise Declined(19)
        if size > MOST_BYTES or copy > 1 or up4(size) > EXTENT:
            raise Declined(20)
        self.buffers.append(Buffer(size, copy == 1))
        return len(self.buffers) - 1

    def destroy(self, resource):
        buffer = self.buffer_of(resource)
        if not buffer.stands:
            raise Declined(4)
        buffer.stands = False
        return 0

    # The states of a list.

    def open(self, number):
        held = self.list_of(number)
        if held.state != "idle":
            raise Declined(2)
        held.state, held.steps = "recording", []
        return 0

    def close(self, number):
        held = self.list_of(number)
        if held.state != "recording":
            raise Declined(2)
        held.state = "closed"
        return 0

    def abandon(self, number):
        held = self.list_of(number)
        held.state, held.steps = "idle", []
        return 0

    # Steps: a declined one breaks a list that was recording.

    def record(self, number, resource, checked):
        held = self.list_of(number)
        try:
            buffer = self.buffer_of(resource)
            if held.state != "recording":
                raise Declined(2)
            step = checked(buffer)
            if step.start < step.end:
                if len(held.steps) == STEPS:
                    raise Declined(16)
                held.steps.append(step)
        except Declined:
            if held.state == "recording":
                held.state = "broken"
            raise
        return 0

    def buffer_read(self, number, resource, start, end):
        def checked(buffer):
            self.refuse((not buffer.stands, 4), (start % 4, 6), (end > buffer.size, 9), (start > end, 10))
            return Step("read", resource, start, end)

        return self.record(number, resource, checked)

    def buffer_write(self, number, resource, byte, start, end):
        def checked(buffer):
            self.refuse((not buffer.stands, 4), (start % 4, 6), (end % 4, 7), (end > buffer.size, 9), (start > end, 10))
            return Step("write", resource, start, end, byte)

        return self.record(number, resource, checked)

    def clear_buffer(self, number, resource, offset, size):
        def checked(buffer):
            taken = max(buffer.size - offset, 0) if size is None else size
            end = offset + taken
            self.refuse((not buffer.copy, 5), (offset % 4, 6), (taken % 4, 7), (end >= 1 << 64, 8), (end > buffer.size, 9))
            return Step("clear", resource, offset, end)

        return self.record(number, resource, checked)

    @staticmethod
    def refuse(*causes):
        for holds, number in causes:
            if holds:
                raise Declined(number)

    # Submission: all is planned on copies before the first command.

    def submit(self, number):
        held = self.list_of(number)
        if held.state != "closed":
            raise Declined(2)
        for step in held.steps:
            if not self.buffers[step.buffer].stands:
                raise Declined(4)
        owing = [buffer.owing for buffer in self.buffers]
        taken = set()
        for step in held.steps:
            lo, hi = step.cover()
            if step.kind == "read":
                taken.update((step.buffer, a, b) for a, b in owing[step.buffer].within(lo, hi))
            owing[step.buffer] = owing[step.buffer].without(lo, hi)
            if len(owing[step.buffer].intervals) > BOOK_PLACES:
                raise Declined(17)
        clears = joined(sorted(taken))
        commands = len(clears) + sum(step.kind != "read" for step in held.steps)
        if commands > self.allowance:
            raise Declined(18)
        for buffer, first, end in clears:
            self.command("clear", buffer, first, end, 0)
        for step in held.steps:
            if step.kind == "read":
                self.lines.append("sum %d" % self.memories[step.buffer].total(step.start, step.end))
            elif step.kind == "write":
                self.command("fill", step.buffer, step.start, step.end, step.byte)
            else:
                self.command("clear", step.buffer, step.start, step.end, 0)
        for buffer, after in zip(self.buffers, owing):
            buffer.owing = after
        held.state, held.steps = "idle", []
        return sum(end - first for _, first, end in clears)

    def command(self, word, slot, first, end, byte):
        self.allowance -= 1
        self.memories[slot].paint(first, end - first, byte)
        line = "%s %d %d %d" % (word, slot, first, end - first)
        self.lines.append(line + " %d" % byte if word == "fill" else line)

    # One call of a file.

    def perform(self, raw):
        op, number, resource, small = raw[0], raw[1], raw[2], raw[3]
        x, y = struct.unpack_from("<QQ", raw, 8)
        if op == 1:
            return self.make_buffer(x, small)
        if op == 3:
            return self.destroy(resource)
        if op == 4:
            return self.open(number)
        if op == 5:
            return self.close(number)
        if op == 6:
            return self.abandon(number)
        if op == 7:
            return self.submit(number)
        if op == 8:
            return self.buffer_read(number, resource, x, y)
        if op == 9:
            return self.buffer_write(number, resource, small, x, y)
        if op == 10 and small < 2:
            return self.clear_buffer(number, resource, x, y if small else None)
        raise Declined(1)


def joined(pieces):
    """Ascending pieces (buffer, first, end), those that touch made one."""
    out = []
    for buffer, first, end in pieces:
        if out and out[-1][0] == buffer and out[-1][2] == first:
            out[-1] = (buffer, out[-1][1], end)
        else:
            out.append((buffer, first, end))
    return out


def listing(data):
    """The listing of a session file, as text."""
    bad = "no 20\n"
    if len(data) < 20:
        return bad
    calls, offset, allowance, start, pitch = struct.unpack_from("<5I", data)
    if offset < 20 or offset > len(data) or allowance > 1024 or start > 255 or not 1 <= pitch <= 256:
        return bad
    session = Session(allowance, start)
    for k in range(1, calls + 1):
        raw = data[offset : offset + 32]
        offset += 32
        if len(raw) < 32:
            session.lines.append("no 20")
            break
        try:
            session.lines.append("%d ok %d" % (k, session.perform(raw)))
        except Declined as declined:
            session.lines.append("%d no %d" % (k, declined.number))
    return "".join(line + "\n" for line in session.lines)


def main(names):
    if not names:
        sys.stdout.write(listing(sys.stdin.buffer.read()))
    for name in names:
        with open(name, "rb") as file:
            sys.stdout.write(listing(file.read()))


if __name__ == "__main__":
    main(sys.argv[1:])
