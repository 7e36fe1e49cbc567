"""The plain shelf and its ledger in Python, written from the paper as pool.py is, and the claim that ties them to the pool.

A page is its name. A shelf takes a call together with what the program answered: only an accepted pin's buffer number is
the program's, and the ledger takes whether the pin wrote. Bytes of blocks are kept in one store, as the pool's store is.
Where the pool's bytes are compared with the shelf's, bytes 8 and 9 of a page are left out: only the store's have a checksum.
"""
from checksum import bare, checksum, unpack_sum
from memory import BLOCK, BLOCKS, CAP, CAPACITY, FILE_WORDS, FLUSHED, HOLDERS, INSERTED, P, ROW_WORDS, Memory
from pool import BY_HOLDER, MOST_COUNT, Refused, own_bytes, peeked, refuse
from words import pack_position, unpack_position


def came_bad(block, page):
    """Some byte isn't 0, and bytes 8 and 9 aren't the checksum of this block number: the shelf's own words for it."""
    return any(page) and unpack_sum(page) != checksum(block, page)


def every_page(files):
    """The pages below their files' block counts."""
    return [tuple(files.row(f)[:FILE_WORDS]) + (block,) for f in files.files() for block in range(files.blocks(f))]


class Shelf:
    """It starts from the memory after an accepted set-up. A count is a holder's of a page."""

    def __init__(self, memory):
        self.n, self.page_size, self.inserted = memory.n, memory.control[P], memory.control[INSERTED]
        # rows, and each block's bytes: a memory without buffers
        self.files = Memory(list(memory.control), [], [], b'', [], [], [], list(memory.rows), bytearray(memory.store), [])
        self.counts, self.holds = {}, {}
        self.bad = self.bad_pages()
        # the ledger
        self.dirty, self.last, self.flushed, self.cap = set(), {}, memory.control[FLUSHED], memory.control[CAP]

    def bad_pages(self):
        """Those that came in bad."""
        return {page for page in every_page(self.files) if self.is_bad(page)}

    def is_bad(self, page):
        return came_bad(page[BLOCK], self.bytes_of(page))

    def count(self, holder, page):
        return self.counts.get((holder, page), 0)

    def has_pins(self, page):
        return any(self.count(holder, page) for holder in range(HOLDERS))

    def pinned(self):
        return {page for (_, page), count in self.counts.items() if count}

    def bytes_of(self, page):
        return self.files.store[self.files.block(page)]

    def position(self, page):
        return unpack_position(self.bytes_of(page))

    # refusals

    def refuses(self, call):
        """The refusal number, 0 if accepted."""
        try:
            if call[0] in BY_HOLDER:
                self.check_holder(call[1])
            getattr(self, 'check_' + call[0])(*call[1:])
        except Refused as refusal:
            return refusal.args[0]
        return 0

    def check_holder(self, holder):
        refuse(19, holder >= HOLDERS)

    def check_pin(self, holder, name):
        self.check_peek(name)
        refuse(5, self.count(holder, name) == MOST_COUNT)
        refuse(6, not self.has_pins(name) and len(self.pinned()) == self.n)

    def check_unpin(self, holder, buffer):
        refuse(7, buffer >= self.n)
        refuse(8, buffer not in self.holds or self.count(holder, self.holds[buffer]) == 0)

    def check_flush(self, holder, buffer):
        self.check_unpin(holder, buffer)

    def check_read(self, holder, buffer, start, out):
        self.check_unpin(holder, buffer)
        refuse(9, start + len(out) > self.page_size)

    def check_write(self, holder, buffer, start, data, position):
        self.check_unpin(holder, buffer)
        refuse(9, start + len(data) > self.page_size or start < 8)
        refuse(10, len(data) == 0)
        refuse(11, position > self.inserted)
        refuse(12, position < self.position(self.holds[buffer]))

    def check_give_back(self, holder):
        pass

    def check_checkpoint(self):
        pass

    def check_peek(self, name):
        f = self.files.file(name[:FILE_WORDS])
        refuse(3, f is None)
        refuse(4, name[BLOCK] >= self.files.blocks(f))
        refuse(17, name in self.bad)

    def check_extend(self, key):
        f = self.files.file(key)
        refuse(3, f is None)
        refuse(13, self.files.blocks(f) == self.files.row(f)[CAPACITY])

    def check_drop(self, key):
        refuse(3, self.files.file(key) is None)
        refuse(14, any(page[:FILE_WORDS] == tuple(key) for page in self.pinned()))

    def check_log_inserted(self, position):
        refuse(15, position < self.inserted)

    def check_log_flushed(self, position):
        refuse(16, position > self.inserted)

    # what an accepted call does

    def written_back(self, call, answer):
        """The pages that this accepted call writes back."""
        if call[0] == 'flush':
            return [page for page in [self.holds[call[2]]] if page in self.dirty]
        if call[0] == 'checkpoint':
            return sorted(self.dirty)
        if call[0] == 'pin' and answer[2]:
            return [self.last[answer[0]]]
        return []

    def step(self, call, answer):
        """Makes a call: gives its number, the bytes handed out, the pages put into the store."""
        number = self.refuses(call)
        if number:
            return number, own_bytes(call) if call[0] == 'read' else b'', []
        put = self.written_back(call, answer)
        self.flushed = max([self.flushed] + [self.position(page) for page in put])
        self.dirty -= set(put)
        if call[0] == 'pin':
            self.pin(*call[1:], answer[0])
        elif call[0] == 'extend':
            put = [self.extend(call[1])]
        elif call[0] in ('read', 'peek'):
            return 0, self.handed(call), put
        elif call[0] not in ('flush', 'checkpoint'):
            getattr(self, call[0])(*call[1:])
        return 0, b'', put

    def handed(self, call):
        """What an accepted read or peek hands out."""
        if call[0] == 'peek':
            return bytes(self.bytes_of(tuple(call[1])))
        _, _, buffer, start, out = call
        return bytes(self.bytes_of(self.holds[buffer])[start:start + len(out)])

    def pin(self, holder, name, buffer):
        page = tuple(name)
        self.counts[holder, page] = self.count(holder, page) + 1
        self.holds[buffer] = self.last[buffer] = page

    def unpin(self, holder, buffer):
        self.counts[holder, self.holds[buffer]] -= 1
        self.let_go()

    def give_back(self, holder):
        self.counts = {(one, page): count for (one, page), count in self.counts.items() if one != holder}
        self.let_go()

    def let_go(self):
        """A number holds none as soon as its page has no pins."""
        self.holds = {buffer: page for buffer, page in self.holds.items() if self.has_pins(page)}

    def write(self, _, buffer, start, data, position):
        page = self.holds[buffer]
        at = self.files.block(page).start
        self.files.store[at + start:at + start + len(data)] = data
        self.files.store[at:at + 8] = pack_position(position)
        self.dirty.add(page)

    def extend(self, key):
        f = self.files.file(key)
        page = tuple(key) + (self.files.blocks(f),)
        self.files.store[self.files.block(page)] = bytes(self.page_size)
        self.files.rows[ROW_WORDS * f + BLOCKS] += 1
        return page

    def drop(self, key):
        self.files.rows[ROW_WORDS * self.files.file(key) + BLOCKS] = 0
        self.dirty, self.bad = ({page for page in some if page[:FILE_WORDS] != tuple(key)} for some in (self.dirty, self.bad))

    def log_inserted(self, position):
        self.inserted = position

    def log_flushed(self, position):
        self.flushed = max(self.flushed, position)


# the claims about one call of a list

def differs(shelf, call, before, outcome):
    """What of the outcome is not the shelf's, as words; the shelf makes the call."""
    earlier = dict(shelf.holds)
    expected, handed, put = shelf.step(call, outcome.answer)
    claims = [*of_every_call(shelf, call, before, outcome, expected, put)]
    if call[0] in ('read', 'peek'):
        start = call[3] if call[0] == 'read' else 0
        claims.append(('bytes', bare(handed, start) == bare(peeked(outcome) if call[0] == 'peek' else outcome.own, start)))
    if expected == 0:
        claims += of_an_accepted(shelf, call, outcome, earlier, put)
    return [what for what, holds in claims if not holds]


def of_every_call(shelf, call, before, outcome, expected, put):
    after, size = outcome.memory, shelf.page_size
    yield 'number', outcome.number == expected
    yield 'rows', after.rows == shelf.files.rows
    yield 'inserted', after.control[INSERTED] == shelf.inserted
    yield 'flushed', after.control[FLUSHED] == shelf.flushed
    yield 'cap', after.control[CAP] == shelf.cap
    yield 'counts', private_counts(after) == {key: count for key, count in shelf.counts.items() if count}
    yield 'isolation', isolated(call, before, after)
    for page in every_page(after):
        yield 'sums', came_bad(page[BLOCK], after.store[after.block(page)]) == (page in shelf.bad)
    changed = {k for k in range(len(after.store) // size)
               if after.store[k * size:(k + 1) * size] != before.store[k * size:(k + 1) * size]}
    yield 'put', changed <= {after.place(page) for page in put}


def of_an_accepted(shelf, call, outcome, earlier, put):
    """earlier is what the numbers held before."""
    after, (first, _, _, probes) = outcome.memory, outcome.answer
    if call[0] == 'pin':
        held = {page: number for number, page in earlier.items()}.get(tuple(call[2]))
        yield 'buffer', first == held if held is not None else first < shelf.n and first not in earlier
        yield 'probes', probes <= (shelf.cap + 1) * shelf.n
    if call[0] in ('flush', 'checkpoint'):
        yield 'count', first == len(put)
    if call[0] == 'extend':
        yield 'block', first == put[0][BLOCK]
    if call[0] == 'checkpoint':
        for page in every_page(after):
            yield 'store', bare(after.store[after.block(page)]) == bare(shelf.bytes_of(page))


def private_counts(m):
    """The counts of a memory that are not 0, by holder and page."""
    return {(holder, m.name(i)): count for i in range(m.n) for holder, count in m.private(i).items()}


def isolated(call, before, after):
    """Each page on which a holder has a pin that the call does not name stays in its buffer, with that holder's count."""
    named = call[1] if call[0] in BY_HOLDER else None
    return all(after.name(i) == before.name(i) and after.private(i).get(holder) == count
               for i in range(before.n) for holder, count in before.private(i).items() if holder != named)
