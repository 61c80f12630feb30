"""Writes session files, valid and damaged, each beside the listing that the model gives it.

    python3 generate.py recorded DIR           the named sessions and a few random ones, all small
    python3 generate.py random DIR COUNT SEED  COUNT random sessions, up to some hundred calls each

The same arguments write the same bytes. No session starts from the byte 0, since zeroed memory hides a clear that was
forgotten. Unused fields hold arbitrary bytes.
"""

import os
import random
import struct
import sys

import model

TOP = 1 << 64
MAKE, DESTROY, OPEN, CLOSE, ABANDON, SUBMIT, READ, WRITE, CLEAR = 1, 3, 4, 5, 6, 7, 8, 9, 10


class File:
    """A session file in the making, followed by a model so that calls can be chosen by what stands.

    Without a source of random bytes, unused fields hold 0.
    """

    def __init__(self, rng, allowance=1024, start=7, pitch=256, gap=b""):
        self.rng = rng
        self.allowance, self.start, self.pitch = allowance, start, pitch
        self.gap = gap
        self.calls = []
        self.session = model.Session(allowance, start)

    def call(self, op, number=None, resource=None, small=None, x=None, y=None):
        """Adds a call and says whether the model accepts it."""
        raw = bytearray(self.rng.randbytes(32) if self.rng else 32)
        raw[0] = op
        for place, value in ((1, number), (2, resource), (3, small)):
            if value is not None:
                raw[place] = value
        for place, value in ((8, x), (16, y)):
            if value is not None:
                struct.pack_into("<Q", raw, place, value)
        self.calls.append(bytes(raw))
        try:
            self.session.perform(raw)
            return True
        except model.Declined:
            return False

    def make(self, size, copy=1):
        self.call(MAKE, small=copy, x=size)

    def destroy(self, resource):
        self.call(DESTROY, resource=resource)

    def open(self, number=0):
        self.call(OPEN, number)

    def close(self, number=0):
        self.call(CLOSE, number)

    def abandon(self, number=0):
        self.call(ABANDON, number)

    def submit(self, number=0):
        return self.call(SUBMIT, number)

    def read(self, resource, start, end, number=0):
        self.call(READ, number, resource, x=start, y=end)

    def write(self, resource, byte, start, end, number=0):
        self.call(WRITE, number, resource, byte, start, end)

    def clear(self, resource, offset, size=None, number=0):
        self.call(CLEAR, number, resource, 0 if size is None else 1, offset, size)

    def run(self, *steps, number=0):
        """Opens a list, records the steps, closes it and submits it."""
        self.open(number)
        for step in steps:
            step[0](*step[1:], number=number)
        self.close(number)
        self.submit(number)

    def bytes(self, calls=None, offset=None):
        count = len(self.calls) if calls is None else calls
        first = 20 + len(self.gap) if offset is None else offset
        header = struct.pack("<5I", count, first, self.allowance, self.start, self.pitch)
        return header + self.gap + b"".join(self.calls)


# Named sessions.


def sample(rng):
    f = File(None)
    f.make(6, 0)
    f.run((f.write, 0, 9, 0, 4), (f.read, 0, 0, 6))
    f.submit()
    return f.bytes()


def steps_64(rng):
    f = File(rng, start=3)
    f.make(256)
    f.open()
    for k in range(64):
        f.read(0, 4 * k, 4 * k + 4)
    f.read(0, 8, 8)
    f.clear(0, 256)
    f.close()
    f.submit()
    return f.bytes()


def steps_65(rng):
    f = File(rng, start=3)
    f.make(512)
    f.open()
    for k in range(65):
        f.write(0, k, 4 * k, 4 * k + 4)
    f.close()
    f.submit()
    f.abandon()
    f.run((f.read, 0, 0, 512))
    return f.bytes()


def book_64(rng):
    f = File(rng, start=11)
    f.make(1024)
    f.open()
    for k in range(63):
        f.write(0, 1, 8 * k + 4, 8 * k + 8)
    f.close()
    f.submit()
    f.run((f.read, 0, 0, 1021))
    f.run((f.read, 0, 0, 1024))
    return f.bytes()


def book_65(rng):
    f = File(rng, start=11)
    f.make(1024)
    f.open()
    for k in range(64):
        f.write(0, 1, 8 * k + 4, 8 * k + 8)
    f.close()
    f.submit()
    f.submit()
    f.destroy(0)
    f.submit()
    f.abandon()
    return f.bytes()


def book_65_later(rng):
    f = File(rng, start=11)
    f.make(1024)
    f.open()
    for k in range(63):
        f.write(0, 1, 8 * k + 4, 8 * k + 8)
    f.close()
    f.submit()
    f.run((f.read, 0, 600, 603))
    f.open(1)
    f.write(0, 5, 0, 4, number=1)
    f.read(0, 600, 603, number=1)
    f.close(1)
    f.submit(1)
    f.submit(0)
    return f.bytes()


def allowance_none(rng):
    f = File(rng, allowance=0, start=9)
    f.make(16)
    f.run((f.read, 0, 0, 4))
    f.submit()
    f.run((f.read, 0, 8, 8), number=1)
    f.run(number=2)
    return f.bytes()


def allowance_enough(rng):
    f = File(rng, allowance=5, start=9)
    f.make(32)
    f.make(8)
    f.run((f.write, 0, 4, 8, 12), (f.read, 0, 0, 32), (f.clear, 0, 4, 8), (f.read, 0, 0, 16), (f.read, 1, 0, 3))
    f.run((f.read, 0, 0, 32))
    f.run((f.write, 0, 1, 0, 4))
    return f.bytes()


def allowance_short(rng):
    f = File(rng, allowance=4, start=9)
    f.make(32)
    f.make(8)
    f.run((f.write, 0, 4, 8, 12), (f.read, 0, 0, 32), (f.clear, 0, 4, 8), (f.read, 0, 0, 16), (f.read, 1, 0, 3))
    f.submit()
    f.abandon()
    f.run((f.read, 0, 0, 32))
    return f.bytes()


def buffers_17(rng):
    f = File(rng, start=2)
    for k in range(17):
        f.make(4 * k, k % 2)
    f.make(model.MOST_BYTES + 1)
    f.destroy(3)
    f.make(4)
    f.run((f.read, 15, 0, 60), (f.read, 0, 0, 0), (f.read, 16, 0, 0))
    return f.bytes()


def sizes(rng):
    f = File(rng, start=200)
    for size in (0, 1, 2, 3, 4, 5, model.MOST_BYTES, model.MOST_BYTES + 1, TOP - 1):
        f.make(size, 0)
    f.make(4, 2)
    f.make(4, 255)
    f.open()
    for buffer, size in enumerate((0, 1, 2, 3, 4, 5, model.MOST_BYTES)):
        f.read(buffer, 0, size)
    f.close()
    f.submit()
    f.run((f.write, 6, 255, 0, model.MOST_BYTES), (f.read, 6, 0, model.MOST_BYTES))
    return f.bytes()


def near_the_top(rng):
    f = File(rng, start=1)
    f.make(64)
    for start, end in ((TOP - 4, TOP - 1), (TOP - 4, 0), (0, TOP - 1), (0, TOP - 4), (TOP - 1, TOP - 1), (8, 4), (68, 68)):
        f.open()
        f.read(0, start, end)
        f.abandon()
        f.open()
        f.write(0, 3, start, end)
        f.abandon()
    for offset, size in ((TOP - 4, 4), (TOP - 4, None), (TOP - 4, 0), (4, TOP - 4), (0, TOP - 4), (TOP - 8, TOP - 8), (60, 4), (64, 0), (64, 4)):
        f.open()
        f.clear(0, offset, size)
        f.abandon()
    return f.bytes()


def unaligned(rng):
    f = File(rng, start=6)
    f.make(30)
    for start, end in ((1, 8), (2, 4), (4, 7), (4, 30), (28, 30), (8, 32), (9, 31), (6, 5), (12, 8), (30, 30)):
        f.open()
        f.read(0, start, end)
        f.abandon()
        f.open()
        f.write(0, 1, start, end)
        f.abandon()
    f.run((f.read, 0, 8, 30), (f.read, 0, 0, 1))
    return f.bytes()


def clear_sizes(rng):
    f = File(rng, start=77)
    f.make(8)
    f.make(6)
    f.make(8, 0)
    for buffer, offset, size in (
        (0, 8, None), (0, 12, None), (0, 2, None), (0, 4, None), (0, 0, 6), (0, 4, 8), (0, 8, 0), (0, 12, 0), (1, 0, None),
        (1, 4, None), (1, 8, None), (1, 0, 4), (2, 0, None), (2, 1, 3), (2, 8, 0), (0, 0, 0),
    ):
        f.open()
        f.clear(buffer, offset, size)
        f.close()
        f.submit()
        f.abandon()
    f.run((f.read, 0, 0, 8), (f.read, 1, 0, 6))
    return f.bytes()


def destroyed(rng):
    f = File(rng, start=5)
    f.make(16)
    f.make(16)
    f.open()
    f.write(0, 1, 0, 8)
    f.read(1, 0, 8)
    f.close()
    f.destroy(1)
    f.destroy(1)
    f.submit()
    f.submit()
    f.open(1)
    f.read(1, 0, 4, number=1)
    f.open(2)
    f.clear(1, 4, None, number=2)
    f.close(2)
    f.submit(2)
    f.open(3)
    f.clear(1, 16, None, number=3)
    f.clear(1, 3, None, number=3)
    f.abandon(3)
    f.open(3)
    f.clear(1, 16, None, number=3)
    f.close(3)
    f.submit(3)
    f.destroy(9)
    f.destroy(16)
    f.destroy(255)
    return f.bytes()


def states(rng):
    f = File(rng, start=4)
    f.make(8)
    reach = {
        "idle": (),
        "recording": (f.open,),
        "closed": (f.open, f.close),
        "broken": (f.open, lambda: f.read(0, 1, 8)),
    }
    acts = (
        f.open, f.close, f.abandon, f.submit, lambda: f.read(0, 0, 4), lambda: f.write(0, 2, 4, 8), lambda: f.clear(0, 0),
        lambda: f.read(5, 0, 4),
    )
    for path in reach.values():
        for act in acts:
            for go in path:
                go()
            act()
            f.submit()
            f.abandon()
    return f.bytes()


def unknown_calls(rng):
    f = File(rng, start=13)
    f.make(8)
    f.open()
    f.read(0, 0, 4)
    for op in (0, 2, 11, 12, 13, 14, 15, 16, 128, 255):
        f.call(op, 0)
    f.call(CLEAR, 0, 0, 2, 0, 4)
    f.call(CLEAR, 0, 0, 255, 0, 4)
    f.write(0, 1, 4, 8, number=4)
    f.open(4)
    f.close(255)
    f.submit(9)
    f.abandon(4)
    f.close()
    f.submit()
    f.open()
    f.read(1, 0, 4)
    f.close()
    return f.bytes()


def joined_pieces(rng):
    f = File(rng, start=33)
    f.make(64)
    f.make(32)
    f.run((f.read, 1, 8, 12), (f.read, 0, 16, 20), (f.read, 0, 4, 16), (f.read, 1, 0, 3), (f.read, 0, 20, 24), (f.read, 0, 32, 33))
    f.run((f.read, 0, 0, 64), (f.read, 1, 0, 32))
    return f.bytes()


def order_of_uses(rng):
    f = File(rng, start=21)
    f.make(16)
    f.make(16)
    f.make(16)
    f.run((f.read, 0, 0, 16), (f.clear, 0, 0, 8), (f.write, 0, 3, 4, 8), (f.read, 0, 0, 16))
    f.run((f.clear, 1, 0, 8), (f.read, 1, 0, 16), (f.write, 1, 9, 0, 16), (f.read, 1, 4, 9))
    f.run((f.write, 2, 8, 0, 4), (f.write, 2, 2, 0, 8), (f.read, 2, 0, 6))
    f.run((f.read, 2, 0, 16))
    return f.bytes()


def lists_in_turn(rng):
    f = File(rng, start=50)
    f.make(32)
    for number in range(4):
        f.open(number)
        f.read(0, 8 * number, 8 * number + 6, number=number)
    for number in range(4):
        f.write(0, number, 0, 32, number=number)
        f.close(number)
    for number in (2, 0, 3, 1):
        f.submit(number)
    return f.bytes()


def gap_before_calls(rng):
    f = File(rng, start=8, pitch=1, gap=b"\x07" * 13)
    f.make(4)
    f.run((f.read, 0, 0, 3))
    return f.bytes() + b"bytes that are not looked at"


def short_call(rng):
    f = File(rng, start=8)
    f.make(4)
    f.run((f.read, 0, 0, 4))
    return f.bytes()[:-1]


def too_many_calls(rng):
    f = File(rng, start=8)
    f.make(4)
    f.open()
    return f.bytes(calls=0xFFFFFFFF)


def bad_headers():
    good = (1, 20, 16, 7, 256)
    call = bytes([MAKE, 0, 0, 0]) + bytes(28)
    changes = {
        "offset-19": (1, 19), "offset-past": (1, 53), "offset-at-end": (1, 52), "offset-huge": (1, 0xFFFFFFFF),
        "allowance-1025": (2, 1025), "start-256": (3, 256), "pitch-0": (4, 0), "pitch-257": (4, 257), "calls-0": (0, 0),
    }
    for name, (field, value) in changes.items():
        header = list(good)
        header[field] = value
        yield "header-" + name, struct.pack("<5I", *header) + call
    yield "header-short", struct.pack("<5I", *good)[:19]
    yield "empty", b""


NAMED = (
    sample, steps_64, steps_65, book_64, book_65, book_65_later, allowance_none, allowance_enough, allowance_short,
    buffers_17, sizes, near_the_top, unaligned, clear_sizes, destroyed, states, unknown_calls, joined_pieces,
    order_of_uses, lists_in_turn, gap_before_calls, short_call, too_many_calls,
)


# Random sessions.


def wild(rng):
    """A number that tests limits."""
    base = rng.choice((0, 4, 64, 1 << 28, 1 << 32, 1 << 40, 1 << 63, TOP))
    number = (base + rng.randrange(-9, 10)) % TOP
    return number if rng.random() < 0.3 else number // 4 * 4


def wild_call(f):
    rng = f.rng
    op = rng.choice((MAKE, DESTROY, OPEN, CLOSE, ABANDON, SUBMIT, READ, WRITE, CLEAR, READ, WRITE, CLEAR, rng.randrange(256)))
    number = rng.choice((0, 1, 2, 3, rng.randrange(256)))
    resource = rng.choice((0, 1, 2, rng.randrange(24), rng.randrange(256)))
    small = rng.choice((0, 1, rng.randrange(256)))
    f.call(op, number, resource, small, wild(rng), wild(rng))


def range_within(rng, size):
    """A range of a buffer, mostly on multiples of 4, sometimes empty."""
    blocks = size // 4
    a, b = sorted((rng.randrange(blocks + 1), rng.randrange(blocks + 1)))
    if rng.random() < 0.7:
        b = min(b, a + rng.randrange(6))
    return 4 * a, 4 * b


def step(f, number):
    rng = f.rng
    buffers = f.session.buffers
    standing = [k for k, b in enumerate(buffers) if b.stands] or [0]
    resource = rng.choice(standing)
    size = buffers[resource].size if buffers else 0
    start, end = range_within(rng, size)
    kind = rng.randrange(3)
    if kind == 0:
        if rng.random() < 0.3:
            end = min(size, end + rng.randrange(4))
        f.read(resource, start, end, number=number)
    elif kind == 1:
        f.write(resource, rng.randrange(256), start, end, number=number)
    elif buffers and (buffers[resource].copy or rng.random() < 0.1):
        f.clear(resource, start, rng.choice((end - start, end - start, None)), number=number)
    else:
        f.read(resource, start, end, number=number)


def split(f, number):
    """A use of 4 bytes between two others that stay: it adds a range to the book of one buffer."""
    rng = f.rng
    start = 8 * rng.randrange(100) + 4
    if rng.random() < 0.2:
        f.read(0, start, start + rng.randrange(1, 5), number=number)
    else:
        f.write(0, rng.randrange(256), start, start + 4, number=number)


# How likely a list is closed before its next step.
CLOSING = {"short lists": 0.15, "long lists": 0.012, "splits": 0.03}


def likely_call(f, style):
    rng = f.rng
    if not f.session.buffers and style == "splits":
        f.make(rng.choice((808, 1 << 20)))
        return
    standing = any(buffer.stands for buffer in f.session.buffers)
    if len(f.session.buffers) < 16 and (not standing or rng.random() < 0.04):
        f.make(rng.choice((0, 5, 16, 64, 600, 1022, 4096, 1 << 28, rng.randrange(1 << 12))), rng.choice((0, 1, 1)))
        return
    if rng.random() < 0.01:
        f.destroy(rng.randrange(len(f.session.buffers)))
        return
    number = 0 if style == "splits" and rng.random() < 0.9 else rng.choice((0, 0, 0, 1, 2, 3))
    state = f.session.lists[number].state
    if state == "idle":
        f.open(number)
    elif state == "recording":
        if rng.random() < CLOSING[style]:
            f.close(number)
        elif style == "splits" and rng.random() < 0.9:
            split(f, number)
        else:
            step(f, number)
    elif state == "closed":
        if rng.random() < 0.1 or (not f.submit(number) and rng.random() < 0.8):
            f.abandon(number)
    else:
        f.abandon(number)


def damaged(rng, data):
    """The file with some bytes of its calls changed, or cut short."""
    data = bytearray(data)
    if rng.random() < 0.5 and len(data) > 20:
        for _ in range(rng.randrange(1, 6)):
            data[rng.randrange(20, len(data))] = rng.randrange(256)
    else:
        del data[rng.randrange(len(data)) :]
    return bytes(data)


def random_session(rng, most):
    allowance = rng.choice((1024, 1024, 1024, 0, 1, rng.randrange(40), rng.randrange(1025)))
    f = File(rng, allowance, rng.randrange(1, 256), rng.randrange(1, 257), rng.choice((b"", b"", rng.randbytes(rng.randrange(40)))))
    wildness = rng.choice((0, 0, 0.02, 0.2, 0.9))
    style = rng.choice(("short lists", "short lists", "long lists", "splits", "splits"))
    for _ in range(rng.randrange(1, most)):
        if rng.random() < wildness:
            wild_call(f)
        else:
            likely_call(f, style)
    used = f.allowance - f.session.allowance
    if used and rng.random() < 0.4:
        f.allowance = used - rng.randrange(2)
    data = f.bytes()
    return damaged(rng, data) if rng.random() < 0.2 else data


# Writing.


def write(folder, name, data):
    with open(os.path.join(folder, name + ".session"), "wb") as file:
        file.write(data)
    with open(os.path.join(folder, name + ".listing"), "w", newline="\n") as file:
        file.write(model.listing(data))


def write_recorded(folder):
    for make in NAMED:
        write(folder, make.__name__.replace("_", "-"), make(random.Random(make.__name__)))
    for name, data in bad_headers():
        write(folder, name, data)
    for k in range(10):
        write(folder, "random-%d" % k, random_session(random.Random("recorded %d" % k), 120))


def write_random(folder, count, seed):
    for k in range(count):
        write(folder, "random-%06d" % k, random_session(random.Random("%s %d" % (seed, k)), 400))


def main(arguments):
    if len(arguments) == 2 and arguments[0] == "recorded":
        os.makedirs(arguments[1], exist_ok=True)
        write_recorded(arguments[1])
    elif len(arguments) == 4 and arguments[0] == "random":
        os.makedirs(arguments[1], exist_ok=True)
        write_random(arguments[1], int(arguments[2]), arguments[3])
    else:
        sys.exit(__doc__)


if __name__ == "__main__":
    main(sys.argv[1:])
