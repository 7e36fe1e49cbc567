"""Memories and calls as antt terms, and what is compared of an outcome, as observe.txt has it."""
import itertools
import random
import struct

from checksum import checksum, pack_sum, with_sum
from memory import HOLDERS, NAME_WORDS, NO_TOP, P, TOP, Memory
from pool import peeked

CALLS = {'pin': 'Pin', 'unpin': 'Unpin', 'read': 'Read', 'write': 'Write', 'flush': 'Flush', 'give_back': 'GiveBack',
         'checkpoint': 'Checkpoint', 'peek': 'Peek', 'extend': 'Extend', 'drop': 'Drop', 'log_inserted': 'LogInserted',
         'log_flushed': 'LogFlushed'}
LOOKED_AT = (0, 1, 2, 63, 64)  # the holders whose counts are compared after each call of a list


# terms

def listed(terms):
    return '(' + ' ∷ '.join([*terms, '[]']) + ')'


def numbers(values):
    """Numbers, or lists of them to any depth; bytes with their long runs as such."""
    if isinstance(values, (bytes, bytearray)):
        return runs(values)
    return listed(str(value) if isinstance(value, int) else numbers(value) for value in values)


def runs(data):
    """Bytes, or private counts, with their long runs as such."""
    term = []
    for value, run in itertools.groupby(data):
        count = len(list(run))
        term += [f'fill {count} {value} ('] if count > 15 else [f'{value} ∷ '] * count
    return '(' + ''.join(term) + '[]' + ')' * (1 + sum(part.endswith('(') for part in term))


def link(value):
    return f'pos {value}' if value >= 0 else f'negsuc {-value - 1}'


def links(values):
    """A long list of one number is written as such."""
    if len(values) > 64 and len(set(values)) == 1:
        return f'(replicate {len(values)} ({link(values[0])}))'
    return listed(map(link, values))


def words(values):
    if len(values) > 64 and len(set(values)) == 1:
        return f'(replicate {len(values)} {values[0]})'
    return numbers(values)


def name_term(name):
    return '(' + ' '.join(['name_of' if len(name) == NAME_WORDS else 'file_of', *map(str, name)]) + ')'


def call_term(call):
    def part(value):
        if isinstance(value, tuple):
            return name_term(value)
        return numbers(value) if isinstance(value, bytes) else str(value)
    return ' '.join([CALLS[call[0]], *map(part, call[1:])])


# bytes that are lent

def noise(length, seed):
    return random.Random(seed).randbytes(length)


class Page:
    """A page of lent bytes: eight bytes of log position, some noise, a long run, some noise; or zeros where there is no seed.

    With a block number it has its checksum as that block. A change is made last, from bytes to bytes.
    """

    def __init__(self, position, seed, size=1024, block=None, change=None):
        self.head, self.seed, self.size = struct.pack('<2I', position >> 32, position % 2**32), seed, size
        self.block, self.change = block, change

    def bytes(self):
        page = bytes(self.size)
        if self.seed:
            page = self.head + noise(24, self.seed) + bytes([self.seed % 256]) * (self.size - 48) + noise(16, self.seed + 1)
        if self.block is not None:
            page = with_sum(page, pack_sum(checksum(self.block, page)))
        return self.change(page) if self.change else page


def zeros(size):
    return Page(0, 0, size)


def bytes_term(part):
    """The bytes of some pages as a term; a single page of zeros may be large."""
    if len(part) == 1 and not part[0].seed and not part[0].change:
        return f'(fill {part[0].size} 0 ([]))'
    return runs(b''.join(page.bytes() for page in part))


class Start:
    """A memory to start from: as Memory, with pool and store as pages, so that a term for it stays short."""

    def __init__(self, control, states, names, pool, free, heads, chain, rows, store, counts):
        self.control, self.states, self.names, self.pool = control, states, names, pool
        self.free, self.heads, self.chain, self.rows, self.store, self.counts = free, heads, chain, rows, store, counts

    def memory(self):
        pool, store = (bytearray(b''.join(page.bytes() for page in part)) for part in (self.pool, self.store))
        return Memory(list(self.control), list(self.states), list(self.names), pool, list(self.free), list(self.heads),
                      list(self.chain), list(self.rows), store, list(self.counts))

    def lent_term(self, shared=str):
        """shared gives what stands for the bytes of a pool or store: its term, or a name for it."""
        return self.record(words(self.control), shared)

    def memory_term(self, shared=str):
        size, hand, top, inserted, flushed, cap = self.control
        top = link(-1 if top == NO_TOP else top)
        log = f'inserted = {inserted}; flushed = {flushed}'
        return self.record(f'record {{ size = {size}; hand = {hand}; top = {top}; {log}; cap = {cap} }}', shared)

    def record(self, control, shared):
        pool, store = map(shared, map(bytes_term, (self.pool, self.store)))
        return '\n      '.join([
            'record {', f'control = {control};', f'states = {words(self.states)};', f'names = {words(self.names)};',
            f'pool = {pool};', f'free = {links(self.free)};', f'heads = {links(self.heads)};', f'chain = {links(self.chain)};',
            f'rows = {words(self.rows)};', f'store = {store};', f'counts = {runs(self.counts)};']) + '\n    }'


# what is compared

def link_number(value):
    return 2 * value if value >= 0 else 2 * (-value - 1) + 1


def pages(data, size):
    return [data[at:at + size] for at in range(0, len(data), size)]


def counts_seen(counts):
    """The private counts that are not 0, each behind its index, and then how many counts there are."""
    return [number for at, count in enumerate(counts) if count for number in (at, count)] + [len(counts)]


def lent_books(m):
    return [list(m.control), m.states, m.names, *([link_number(value) for value in part] for part in (m.free, m.heads, m.chain)), m.rows,
            counts_seen(m.counts)]


def books(m):
    control = list(m.control)
    control[TOP] = link_number(-1 if control[TOP] == NO_TOP else control[TOP])
    return [control, *lent_books(m)[1:]]


def pool_seen(call, o):
    return [[o.number, *o.answer], list(o.own), peeked(o) if call[0] == 'peek' else [], *books(o.memory)]


def ledger_seen(shelf, number, put):
    """Of the shelf after a call, with the number that it gave and the pages that it put into the store."""
    def found(numbered):
        return [1 + shelf.files.place(numbered[b]) if b in numbered else 0 for b in range(shelf.n)]
    return [[number, len(shelf.pinned()), shelf.inserted, shelf.flushed, shelf.cap], among(shelf, shelf.dirty), among(shelf, put),
            [count for holder in LOOKED_AT for count in shelf_counts(shelf, holder)], found(shelf.holds), found(shelf.last),
            list(shelf.files.rows)]


def shelf_counts(shelf, holder):
    """A holder's counts by place."""
    counts = {shelf.files.place(page): count for (one, page), count in shelf.counts.items() if one == holder}
    return [counts.get(g, 0) for g in range(len(shelf.files.store) // shelf.page_size)]


def among(shelf, some):
    """For each place 1 if one of some pages has it, else 0."""
    at = {shelf.files.place(page) for page in some}
    return [int(g in at) for g in range(len(shelf.files.store) // shelf.page_size)]


def list_seen(shelf, calls, outcomes):
    """The shelf makes the calls too, with the program's answers."""
    seen, put_so_far = [], []
    for call, o in zip(calls, outcomes):
        number, _, put = shelf.step(call, o.answer)
        put_so_far += put
        seen.append(pool_seen(call, o) + ledger_seen(shelf, number, put))
    seen += both_pages(outcomes[-1].memory)
    every_count = [count for holder in range(HOLDERS) for count in shelf_counts(shelf, holder)]
    return seen + [pages(shelf.files.store, shelf.page_size), [among(shelf, put_so_far), among(shelf, shelf.bad), counts_seen(every_count)]]


def lent_seen(outcomes):
    seen = [[[o.number, *o.answer], list(o.own), *lent_books(o.memory)] for o in outcomes]
    return seen + both_pages(outcomes[-1].memory)


def both_pages(m):
    return [pages(m.pool, m.control[P]), pages(m.store, m.control[P])]
