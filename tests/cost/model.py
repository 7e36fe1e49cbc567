"""What a list of used pages costs, from the paper's words alone: the whole input as lines, each line as a number, and then each block
pinned and unpinned on a fresh pool. The parts are methods of their own, so that slips.py can have another in one's place."""
from collections import deque


class Pool:
    """A fresh pool over one file. Each page is unpinned at once, so that a sweep meets no pins; no page is written, so none is dirty."""
    cap = 5
    first_usage = 1

    def __init__(self, buffers):
        self.buffers = buffers
        self.free = deque(range(buffers))
        self.block = [None] * buffers
        self.usage = [0] * buffers
        self.held = {}  # the buffer of each block that is held
        self.hand = 0
        self.hits = self.loads = self.probes = 0

    def use(self, block):
        if block in self.held:
            self.hit(self.held[block])
        else:
            self.load(block, self.free.popleft() if self.free else self.sweep())

    def hit(self, buffer):
        self.hits += 1
        self.usage[buffer] = min(self.usage[buffer] + 1, self.cap)

    def load(self, block, buffer):
        self.loads += 1
        self.release(buffer)
        self.block[buffer] = block
        self.held[block] = buffer
        self.usage[buffer] = self.first_usage

    def release(self, buffer):
        self.held.pop(self.block[buffer], None)

    def sweep(self):
        while True:
            buffer = self.hand
            self.probes += 1
            self.hand = (self.hand + 1) % self.buffers
            if self.usage[buffer] == 0:
                return buffer
            self.usage[buffer] -= 1


class Model:
    pool = Pool
    buffers = range(1, 1025)
    blocks = range(65537)
    most_uses = 1_000_000

    def answer(self, text):
        """The bytes that the program writes for these of its input."""
        lines = self.lines(text)
        bad = self.bad(lines)
        if bad is not None:
            return self.say_bad(bad)
        buffers, _, *uses = map(self.value, lines[:2 + self.most_uses])
        return self.say(self.used(buffers, uses))

    def lines(self, text):
        """A newline ends a line; what stands behind the last one is a line if it has a byte."""
        *ended, rest = text.split(b'\n')
        return [*ended, rest] if rest else ended

    def is_number(self, line):
        return line.isdigit()  # of bytes: one or more of 48 to 57

    def value(self, line):
        return int(line)

    def fits(self, line, permitted):
        return self.is_number(line) and self.value(line) in permitted

    def bad(self, lines):
        """The first line that is missing, one too many, not a number or out of range, counted from 1; None if there is none."""
        for place, permitted in enumerate((self.buffers, self.blocks)):
            if place == len(lines) or not self.fits(lines[place], permitted):
                return place + 1
        uses, more = lines[2:2 + self.most_uses], lines[2 + self.most_uses:]
        bad = {line for line in set(uses) if not self.fits(line, self.uses(self.value(lines[1])))}
        return next((3 + k for k, line in enumerate(uses) if line in bad), None) if bad else self.one_too_many(more)

    def uses(self, blocks):
        return range(blocks)

    def one_too_many(self, more):
        return 3 + self.most_uses if more else None

    def used(self, buffers, uses):
        pool = self.pool(buffers)
        for block in uses:
            pool.use(block)
        return pool.hits, pool.loads, pool.probes

    def say(self, totals):
        return b'%d %d %d\n' % totals

    def say_bad(self, line):
        return b'bad line %d\n' % line
