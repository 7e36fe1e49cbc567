"""Lent memory as the written rules have it: its layout, for every file of this folder, and a few ways to look at it.

A control record has the top of the free list as 64 one bits for -1. A name is a tuple of its words, a file's key of those
that begin it. The private counts stand buffer by buffer, each buffer's holder by holder.
"""
NO_TOP = 2**64 - 1

# the control record; a file's words, with which a name and a row begin; what a name, and what a row, has behind them; the answer
P, HAND, TOP, INSERTED, FLUSHED, CAP, CONTROL_WORDS = range(7)
TABLESPACE, DATABASE, RELATION, FORK, FILE_WORDS = range(5)
BLOCK, NAME_WORDS = FILE_WORDS, FILE_WORDS + 1
BLOCKS, CAPACITY, ROW_WORDS = FILE_WORDS, FILE_WORDS + 1, FILE_WORDS + 2
ANSWER_WORDS = 4
HOLDERS = 64


class Memory:
    def __init__(self, control, states, names, pool, free, heads, chain, rows, store, counts):
        self.control, self.states, self.names, self.pool = control, states, names, pool
        self.free, self.heads, self.chain, self.rows, self.store, self.counts = free, heads, chain, rows, store, counts

    def copy(self):
        return Memory(self.control[:], self.states[:], self.names[:], self.pool[:], self.free[:], self.heads[:], self.chain[:],
                      self.rows[:], self.store[:], self.counts[:])

    @property
    def n(self):
        return len(self.states)

    def row(self, f):
        return self.rows[ROW_WORDS * f:ROW_WORDS * (f + 1)]

    def files(self):
        return range(len(self.rows) // ROW_WORDS)

    def file(self, key):
        """The row with these numbers, or None."""
        return next((f for f in self.files() if tuple(self.row(f)[:FILE_WORDS]) == tuple(key)), None)

    def blocks(self, f):
        return self.rows[ROW_WORDS * f + BLOCKS]

    def place(self, name):
        """The index of a name's block in the store."""
        return sum(self.row(f)[CAPACITY] for f in range(self.file(name[:FILE_WORDS]))) + name[BLOCK]

    def name(self, i):
        return tuple(self.names[NAME_WORDS * i:NAME_WORDS * (i + 1)])

    def set_name(self, i, name):
        self.names[NAME_WORDS * i:NAME_WORDS * (i + 1)] = name

    def page(self, i):
        """Where buffer i's page is in the pool."""
        return slice(i * self.control[P], (i + 1) * self.control[P])

    def block(self, name):
        place = self.place(name)
        return slice(place * self.control[P], (place + 1) * self.control[P])

    def private(self, i):
        """The holders that have buffer i, rising, each with its private count."""
        return {h: count for h, count in enumerate(self.counts[HOLDERS * i:HOLDERS * (i + 1)]) if count}

    def used(self):
        return [i for i in range(self.n) if self.states[i] != 0]

    def empty(self):
        return [i for i in range(self.n) if self.states[i] == 0]
