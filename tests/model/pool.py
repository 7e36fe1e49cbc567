"""The page pool of the written rules in Python: an independent model, written from the paper and not from the crates.

Pool makes a call on lent memory: Pool(memory).call(('pin', holder, name)) gives an Outcome, with the memory afterwards; the memory
before stays as it was. The lent memory stands in memory.py, the plain shelf and its ledger in shelf.py.

Calls: ('set_up', page size, position, cap) ('pin', holder, name) ('unpin', holder, buffer) ('read', holder, buffer, from, out)
('write', holder, buffer, from, bytes, position) ('flush', holder, buffer) ('give_back', holder) ('checkpoint',) ('peek', name)
('extend', key) ('drop', key) ('log_inserted', position) ('log_flushed', position)
"""
from checksum import checksum, pack_sum, unpack_sum, with_sum
from memory import ANSWER_WORDS, BLOCK, BLOCKS, CAP, CAPACITY, CONTROL_WORDS, FILE_WORDS, FLUSHED, FORK, HAND, HOLDERS, INSERTED
from memory import NAME_WORDS, NO_TOP, P, ROW_WORDS, TOP
from words import CLEAN_FLAGS, DIRTY, DIRTY_FLAGS, USAGE_ONE, fnv_1a, name_bytes, pack_position, pins, unpack_position, usage

PAGE_SIZES = (1024, 2048, 4096, 8192, 16384, 32768)
MOST_COUNT, LEAST_CAP, MOST_CAP = 65535, 1, 15
BY_HOLDER = ('pin', 'unpin', 'read', 'write', 'flush', 'give_back')


class Refused(Exception):
    """A call's refusal, with its number."""


def refuse(number, condition):
    if condition:
        raise Refused(number)


def rows_fit(rows):
    """Whether file rows keep their rules: whole rows, at most 64, forks, blocks, capacities, no two of one file."""
    files = [rows[at:at + ROW_WORDS] for at in range(0, len(rows), ROW_WORDS)]
    return (len(rows) % ROW_WORDS == 0 and len(files) <= 64 and all(row[FORK] <= 2 and row[BLOCKS] <= row[CAPACITY] for row in files)
            and sum(row[CAPACITY] for row in files) <= 65536 and len({tuple(row[:FILE_WORDS]) for row in files}) == len(files))


def own_bytes(call):
    """The caller's slice: of a read its out, of a write its bytes."""
    return call[4] if call[0] in ('read', 'write') else b''


class Outcome:
    def __init__(self, number, answer, own, memory):
        self.number, self.answer, self.own, self.memory = number, answer, own, memory


class Pool:
    def __init__(self, memory):
        self.m = memory.copy()

    def call(self, call, answer=(0,) * ANSWER_WORDS):
        """The outcome of a call. own is the caller's slice: a read's out afterwards, a write's bytes. A peek's part is peeked()."""
        before = self.m.copy()
        own = own_bytes(call)
        if len(answer) != ANSWER_WORDS:
            return Outcome(1, list(answer), own, before)
        try:
            page_size = call[1] if call[0] == 'set_up' else self.m.control[P] if self.m.control else 0
            refuse(1, not self.sizes_fit(page_size))
            if call[0] != 'set_up':
                refuse(2, not self.books_sound())
            parts = getattr(self, call[0])(*call[1:])
        except Refused as refusal:
            self.m = before
            return Outcome(refusal.args[0], [0] * ANSWER_WORDS, own, before)
        if call[0] == 'read':
            own, parts = parts, ()
        parts = list(parts or ())
        return Outcome(0, parts + [0] * (ANSWER_WORDS - len(parts)), own, self.m)

    # sizes and books

    def sizes_fit(self, page_size):
        m, n, b = self.m, self.m.n, len(self.m.heads)
        return (len(m.control) == CONTROL_WORDS and page_size in PAGE_SIZES and 1 <= n <= 1024 and n <= b <= 4096
                and len(m.names) == NAME_WORDS * n and len(m.pool) == n * page_size and len(m.free) == n and len(m.chain) == n
                and rows_fit(m.rows) and len(m.store) == page_size * sum(m.rows[CAPACITY::ROW_WORDS]) and len(m.counts) == n * HOLDERS)

    def books_sound(self):
        m, cap = self.m, self.cap()
        if not (self.cap_fits(cap) and m.control[HAND] < m.n and m.control[FLUSHED] <= m.control[INSERTED]):
            return False
        if not all(self.word_sound(word, cap) for word in m.states):
            return False
        top = -1 if m.control[TOP] == NO_TOP else m.control[TOP]
        if self.walk(top, m.free) != sorted(m.empty()) or any(m.free[i] != -2 for i in m.used()):
            return False
        if any(m.name(i) != (0,) * NAME_WORDS or m.chain[i] != -1 for i in m.empty()):
            return False
        names = [m.name(i) for i in m.used()]
        if len(set(names)) != len(names) or not all(self.names_block(name) for name in names):
            return False
        for bucket, head in enumerate(m.heads):
            if self.walk(head, m.chain) != [i for i in m.used() if self.bucket(m.name(i)) == bucket]:
                return False
        return (all(self.position(i) <= m.control[INSERTED] for i in m.used() if m.states[i] & DIRTY)
                and all(pins(m.states[i]) == self.holders(i) for i in range(m.n)))

    def holders(self, i):
        """How many holders have a private count of buffer i that is not 0."""
        return sum(self.count(i, holder) != 0 for holder in range(HOLDERS))

    def cap(self):
        """The greatest usage count, as it was given at set up."""
        return self.m.control[CAP]

    def cap_fits(self, cap):
        return LEAST_CAP <= cap <= MOST_CAP

    def word_sound(self, word, cap):
        flags = word >> 22 << 22
        return word == 0 or usage(word) <= cap and flags in (CLEAN_FLAGS, CLEAN_FLAGS | DIRTY_FLAGS)

    def names_block(self, name):
        f = self.m.file(name[:FILE_WORDS])
        return f is not None and name[BLOCK] < self.m.blocks(f)

    def walk(self, link, links):
        """The members of a list of links, rising; None if it leaves the buffers or does not end."""
        members = []
        while link != -1:
            if not 0 <= link < self.m.n or link in members:
                return None
            members.append(link)
            link = links[link]
        return sorted(members)

    # private counts

    def at(self, i, holder):
        """Where a holder's private count of buffer i stands."""
        return i * HOLDERS + holder

    def count(self, i, holder):
        return self.m.counts[self.at(i, holder)]

    def set_count(self, i, holder, count):
        self.m.counts[self.at(i, holder)] = count

    def arrive(self, i, holder):
        """A pin of a page that buffer i has: a holder's first one counts in the word too."""
        if self.count(i, holder) == 0:
            self.m.states[i] = self.raised(self.m.states[i], self.cap()) + 1
        self.set_count(i, holder, self.count(i, holder) + 1)

    def leave(self, i, holder):
        """The last of a holder's pins on buffer i goes."""
        self.set_count(i, holder, 0)
        self.m.states[i] -= 1

    # names, chains, pages

    def bucket(self, name):
        return fnv_1a(name_bytes(name)) % len(self.m.heads)

    def held(self, name):
        """The buffer that has the page, or None."""
        return next((i for i in self.m.used() if self.m.name(i) == tuple(name)), None)

    def position(self, i):
        return unpack_position(self.m.pool[self.m.page(i)])

    def set_position(self, i, position):
        start = self.m.page(i).start
        self.m.pool[start:start + 8] = pack_position(position)

    def enter_chain(self, i):
        bucket = self.bucket(self.m.name(i))
        self.m.chain[i] = self.m.heads[bucket]
        self.m.heads[bucket] = i

    def leave_chain(self, i):
        bucket = self.bucket(self.m.name(i))
        if self.m.heads[bucket] == i:
            self.m.heads[bucket] = self.m.chain[i]
        else:
            self.m.chain[self.m.chain.index(i)] = self.m.chain[i]
        self.m.chain[i] = -1

    def write_back(self, i):
        """Writes a dirty page back; gives how many pages it wrote, 0 or 1."""
        m = self.m
        if not m.states[i] & DIRTY:
            return 0
        m.control[FLUSHED] = max(m.control[FLUSHED], self.position(i))
        m.store[m.block(m.name(i))] = self.sealed(m.name(i), m.pool[m.page(i)])
        m.states[i] &= ~DIRTY_FLAGS
        return 1

    def raised(self, word, cap):
        """A word with one use more, up to the cap."""
        return word + USAGE_ONE if usage(word) < cap else word

    def sweep(self):
        """The published sweep: the victim and the probes made."""
        m, probes, pinned_in_a_row = self.m, 0, 0
        while pinned_in_a_row < m.n:
            i = m.control[HAND]
            m.control[HAND] = (i + 1) % m.n
            probes += 1
            if pins(m.states[i]) > 0:
                pinned_in_a_row += 1
                continue
            pinned_in_a_row = 0
            if usage(m.states[i]) == 0:
                return i, probes
            m.states[i] -= USAGE_ONE
        raise Refused(6)

    # checksums

    def checksum(self, name, page):
        return checksum(name[BLOCK], page)

    def sealed(self, name, page):
        """A page as it goes to the store: with its checksum, unless it is all zeros."""
        return with_sum(page, pack_sum(self.checksum(name, page))) if any(page) else page

    def passes(self, name):
        """Whether a name's block of the store is all zeros, or has its checksum."""
        page = self.m.store[self.m.block(name)]
        return not any(page) or unpack_sum(page) == self.checksum(name, page)

    # the calls

    def set_up(self, page_size, position, cap):
        m, n = self.m, self.m.n
        refuse(18, not self.cap_fits(cap))
        m.control[:] = [page_size, 0, 0, position, position, cap]
        m.states[:], m.names[:] = [0] * n, [0] * (NAME_WORDS * n)
        m.free[:] = list(range(1, n)) + [-1]
        m.heads[:], m.chain[:] = [-1] * len(m.heads), [-1] * n
        m.counts[:] = [0] * (n * HOLDERS)

    def pin(self, holder, name):
        m = self.m
        self.check_holder(holder)
        self.check_page(name)
        i = self.held(name)
        if i is not None:
            refuse(5, self.full(i, holder))
            self.arrive(i, holder)
            return i, 1, 0, 0
        wrote = probes = 0
        if m.control[TOP] != NO_TOP:
            i = m.control[TOP]
            m.control[TOP] = NO_TOP if m.free[i] == -1 else m.free[i]
            m.free[i] = -2
        else:
            i, probes = self.sweep()
            wrote = self.write_back(i)
            self.leave_chain(i)
        m.set_name(i, name)
        self.enter_chain(i)
        m.pool[m.page(i)] = m.store[m.block(name)]
        m.states[i] = CLEAN_FLAGS | USAGE_ONE | 1
        self.set_count(i, holder, 1)
        return i, 0, wrote, probes

    def full(self, i, holder):
        return self.count(i, holder) == MOST_COUNT

    def unpin(self, holder, i):
        self.check_buffer(holder, i)
        if self.count(i, holder) == 1:
            self.leave(i, holder)
        else:
            self.set_count(i, holder, self.count(i, holder) - 1)

    def read(self, holder, i, start, out):
        self.check_buffer(holder, i)
        refuse(9, start + len(out) > self.m.control[P])
        return bytes(self.m.pool[self.m.page(i)][start:start + len(out)])

    def write(self, holder, i, start, data, position):
        m = self.m
        self.check_buffer(holder, i)
        refuse(9, start + len(data) > m.control[P] or start < 8)
        refuse(10, len(data) == 0)
        refuse(11, position > m.control[INSERTED])
        refuse(12, position < self.position(i))
        at = i * m.control[P] + start
        m.pool[at:at + len(data)] = data
        self.set_position(i, position)
        m.states[i] |= DIRTY_FLAGS

    def flush(self, holder, i):
        self.check_buffer(holder, i)
        return self.write_back(i),

    def give_back(self, holder):
        self.check_holder(holder)
        for i in range(self.m.n):
            if self.count(i, holder):
                self.leave(i, holder)

    def checkpoint(self):
        return sum(self.write_back(i) for i in range(self.m.n)),

    def peek(self, name):
        self.check_page(name)
        i = self.held(name)
        return (1, self.m.page(i).start) if i is not None else (0, self.m.block(name).start)

    def extend(self, key):
        m, f = self.m, self.check_key(key)
        refuse(13, m.blocks(f) == m.row(f)[CAPACITY])
        number = m.blocks(f)
        m.store[m.block(tuple(key) + (number,))] = bytes(m.control[P])
        m.rows[ROW_WORDS * f + BLOCKS] += 1
        return number,

    def drop(self, key):
        m, f = self.m, self.check_key(key)
        pages = [i for i in m.used() if m.name(i)[:FILE_WORDS] == tuple(key)]
        refuse(14, any(pins(m.states[i]) > 0 for i in pages))
        for i in self.drop_order(pages):
            self.leave_chain(i)
            m.set_name(i, (0,) * NAME_WORDS)
            m.states[i] = 0
            m.free[i] = -1 if m.control[TOP] == NO_TOP else m.control[TOP]
            m.control[TOP] = i
        m.rows[ROW_WORDS * f + BLOCKS] = 0

    def drop_order(self, pages):
        return pages

    def log_inserted(self, position):
        refuse(15, position < self.m.control[INSERTED])
        self.m.control[INSERTED] = position

    def log_flushed(self, position):
        refuse(16, position > self.m.control[INSERTED])
        self.m.control[FLUSHED] = max(self.m.control[FLUSHED], position)

    # checks that several calls make

    def check_key(self, key):
        f = self.m.file(key)
        refuse(3, f is None)
        return f

    def check_name(self, name):
        f = self.check_key(name[:FILE_WORDS])
        refuse(4, name[BLOCK] >= self.m.blocks(f))

    def check_page(self, name):
        """A page that is to be loaded or handed back: a block that is not held is verified."""
        self.check_name(name)
        refuse(17, self.held(name) is None and not self.passes(name))

    def check_holder(self, holder):
        refuse(19, holder >= HOLDERS)

    def check_buffer(self, holder, i):
        self.check_holder(holder)
        refuse(7, i >= self.m.n)
        refuse(8, self.count(i, holder) == 0)


def peeked(outcome):
    """The bytes that an accepted peek hands back, by its answer; of a refused one none."""
    if outcome.number:
        return b''
    part = outcome.memory.pool if outcome.answer[0] else outcome.memory.store
    return bytes(part[outcome.answer[1]:outcome.answer[1] + outcome.memory.control[P]])
