"""Damaged memories: a sound one with one thing broken, and what stands just inside the same rule.

Each has the number that the rules give by hand; the model must give it too, and then the definitions.
"""
from memory import BLOCK, BLOCKS, CAP, CAPACITY, CONTROL_WORDS, FLUSHED, FORK, HAND, HOLDERS, INSERTED, NAME_WORDS, NO_TOP, P
from memory import RELATION, ROW_WORDS, TOP
from pool import Pool
from terms import Page, Start, zeros
from words import CLEAN_FLAGS, DIRTY, DIRTY_FLAGS, JUST_DIRTIED, USAGE_ONE, usage

BUCKETS = 6
KEY, MAP = (1663, 5, 16384, 0), (1663, 5, 16384, 1)


def base():
    """N = 5, B = 6: blocks 0, 2 and 1 in buffers 0, unpinned, 1, dirty and pinned, and 2, pinned; 0 and 1 are in one chain.

    Holders 0, twice, and 63 have buffer 1, holder 63 has buffer 2. Free list 3, 4; inserted 120, flushed 100; cap 5. Of the store's blocks
    the first two have their checksums; the map's does not pass.
    """
    rows = [*KEY, 3, 3, *MAP, 1, 2]
    blank = Start([0] * CONTROL_WORDS, [0] * 5, [0] * (5 * NAME_WORDS), [zeros(1024)] * 5, [0] * 5, [0] * BUCKETS, [0] * 5, rows,
                  [zeros(1024)] * 5, [0] * (5 * HOLDERS))
    m = blank.memory()
    for call in [('set_up', 1024, 100, 5), ('log_inserted', 120), ('pin', 0, KEY + (0,)), ('pin', 63, KEY + (2,)), ('pin', 63, KEY + (1,)),
                 ('write', 63, 1, 8, b'x', 110), ('unpin', 0, 0), *[('pin', 0, KEY + (2,))] * 2]:
        outcome = Pool(m).call(call)
        assert outcome.number == 0
        m = outcome.memory
    m.control[HAND] = 2
    pool = [Page(position, seed) for position, seed in [(0, 11), (110, 22), (90, 33), (2**63, 44), (0, 55)]]
    store = [Page(0, 66, block=0), Page(5, 77, block=1), Page(90, 88), Page(0, 99), Page(130, 111)]
    m.states[1] -= USAGE_ONE  # each has usage 1
    return Start(m.control, m.states, m.names, pool, m.free, m.heads, m.chain, m.rows, store, m.counts)


def chained(start):
    """The chains made anew for the names that are there, so that only the names are wrong."""
    model = Pool(start.memory())
    model.m.heads[:], model.m.chain[:] = [-1] * len(model.m.heads), [-1] * model.m.n
    for i in model.m.used():
        model.enter_chain(i)
    start.heads, start.chain = model.m.heads, model.m.chain


def bucket(name):
    return Pool(base().memory()).bucket(name)


SHARED, OTHER = bucket(KEY + (0,)), bucket(KEY + (1,))
assert bucket(KEY + (2,)) == SHARED != OTHER
IDLE = next(b for b in range(BUCKETS) if b not in (SHARED, OTHER))


def setting(part, at, value):
    """One element of a list of the memory becomes another."""
    def change(start):
        getattr(start, part)[at] = value
    return change


def second_row(word, value):
    return setting('rows', ROW_WORDS + word, value)


def longer(part, value):
    return lambda start: getattr(start, part).append(value)


def shorter(part, by=1):
    def change(start):
        del getattr(start, part)[-by:]
    return change


def naming(i, name):
    def change(start):
        start.names[NAME_WORDS * i:NAME_WORDS * (i + 1)] = name
        chained(start)
    return change


def paging(i, position):
    def change(start):
        start.pool[i] = Page(position, 22)
    return change


def both(*changes):
    def change(start):
        for one in changes:
            one(start)
    return change


def block_size(size, pages):
    """Another P in the control record, with pages of so many bytes."""
    def change(start):
        start.control[P] = size
        for page in start.pool + start.store:
            page.size = pages
    return change


def last_page(part, size):
    def change(start):
        getattr(start, part)[-1].size = size
    return change


def buckets(count):
    def change(start):
        start.heads = [-1] * count
        chained(start)
    return change


def emptied(start):
    """No buffers at all."""
    for part in ('states', 'names', 'pool', 'free', 'chain', 'counts'):
        getattr(start, part).clear()
    start.control[HAND], start.control[TOP] = 0, NO_TOP
    start.heads[:] = [-1] * len(start.heads)


def capped(cap, *usages):
    """Another cap, and these usage counts in the buffers in use."""
    def change(start):
        start.control[CAP] = cap
        for i, used in enumerate(usages):
            start.states[i] += (used - usage(start.states[i])) * USAGE_ONE
    return change


def many_rows(count):
    def change(start):
        start.rows += [word for k in range(count - 2) for word in (k, 5, 7, 2, 0, 0)]
    return change


def sizes():
    """Each rule of sizes and rows broken, number 1; and what stands at its edge, number 0."""
    yield 'the base', 0, lambda start: None
    for part, value in [('states', 0), ('names', 0), ('free', -2), ('chain', -1), ('rows', 0), ('control', 0), ('counts', 0)]:
        yield f'{part} one longer', 1, longer(part, value)
        yield f'{part} one shorter', 1, shorter(part)
    yield 'no control', 1, lambda start: start.control.clear()
    for name, by in [('no counts', 5 * HOLDERS), ('a buffer less in counts', HOLDERS), ('a holder less in counts', 5)]:
        yield name, 1, shorter('counts', by)
    for part in ('pool', 'store'):
        yield f'{part} one byte longer', 1, last_page(part, 1025)
        yield f'{part} one byte shorter', 1, last_page(part, 1023)
    yield 'fewer buckets than buffers', 1, buckets(4)
    yield 'as many buckets as buffers', 0, buckets(5)
    yield '64 buckets', 0, buckets(64)
    yield '4097 buckets', 1, buckets(4097)
    for size in (512, 1023, 1025, 1536, 3072):
        yield f'P {size}', 1, block_size(size, size)
    yield 'P 0', 1, block_size(0, 1024)
    yield 'P 2048', 0, block_size(2048, 2048)
    yield 'P 2048 over pages of 1024', 1, block_size(2048, 1024)
    yield 'P 2^32 + 1024', 1, block_size(2**32 + 1024, 1024)
    yield 'no buffers', 1, emptied
    yield 'no buffers, no buckets', 1, both(emptied, lambda start: start.heads.clear())
    yield 'fork 3', 1, second_row(FORK, 3)
    yield 'fork 2', 0, second_row(FORK, 2)
    yield 'fork 2^32 - 1', 1, second_row(FORK, 2**32 - 1)
    yield 'blocks above capacity', 1, second_row(BLOCKS, 3)
    yield 'blocks at capacity', 0, second_row(BLOCKS, 2)
    yield 'equal rows', 1, second_row(FORK, 0)
    yield '64 rows', 0, many_rows(64)
    yield '65 rows', 1, many_rows(65)
    yield 'a capacity above the store', 1, second_row(CAPACITY, 3)
    yield 'a capacity below the store', 1, second_row(CAPACITY, 1)
    yield 'a capacity of 2^32 - 1', 1, second_row(CAPACITY, 2**32 - 1)


def books():
    """Each rule of the books broken, number 2; and what stands at its edge, number 0."""
    clean, dirty = CLEAN_FLAGS, CLEAN_FLAGS | DIRTY_FLAGS
    for control in [(HAND, 5, 2), (HAND, 4, 0), (HAND, 2**64 - 1, 2), (FLUSHED, 121, 2), (FLUSHED, 120, 0), (INSERTED, 99, 2), (TOP, 5, 2),
                    (TOP, NO_TOP, 2), (TOP, NO_TOP - 1, 2), (TOP, 0, 2), (TOP, 4, 2), (TOP, 2**32 + 3, 2)]:
        yield 'control word %d is %d' % control[:2], control[2], setting('control', *control[:2])
    for word, number in [
            (clean | 5 * USAGE_ONE, 0), (clean | 6 * USAGE_ONE, 2), (clean | 15 * USAGE_ONE, 2), (clean | 262143, 2), (clean, 0),
            (dirty, 0), (clean | DIRTY, 2), (clean | JUST_DIRTIED, 2), (1, 2), (USAGE_ONE, 2), (DIRTY_FLAGS, 2),
            *((clean ^ 1 << bit, 2) for bit in (24, 25, 31)), *((clean | 1 << bit, 2) for bit in (22, 26, 27, 29, 30)),
            *((dirty ^ 1 << bit, 2) for bit in (24, 25, 31)), (0, 2), (2**32 - 1, 2)]:
        yield f'word {word:#x}', number, setting('states', 0, word)
    yield 'an empty buffer with a word', 2, setting('states', 4, clean | USAGE_ONE)
    for at, value in [(4, 3), (4, 4), (3, -1), (3, 3), (4, 0), (4, -2), (4, -3), (4, 5), (4, 2**31 - 1), (4, -2**31), (0, -1), (0, 0),
                      (0, 3), (0, -3), (2, 5)]:
        yield f'free link {at} is {value}', 2, setting('free', at, value)
    yield 'the free list the other way', 0, both(setting('free', 3, -1), setting('free', 4, 3), setting('control', TOP, 4))


def pages():
    """As books: names, log positions of pages, chains."""
    for word in range(NAME_WORDS):
        yield f'word {word} of an empty name', 2, setting('names', 4 * NAME_WORDS + word, 1)
    yield 'a name at the block count', 2, naming(2, MAP + (1,))
    yield 'a name below the block count', 0, naming(2, MAP + (0,))
    yield 'a name far above the block count', 2, naming(2, KEY + (2**32 - 1,))
    yield 'a name of no file', 2, naming(2, KEY[:RELATION] + (KEY[RELATION] + 1,) + KEY[RELATION + 1:] + (0,))
    yield 'a name of fork 3', 2, naming(2, KEY[:FORK] + (3, 0))
    yield 'a name of zeros with no such file', 2, naming(2, (0,) * NAME_WORDS)
    yield 'two equal names', 2, naming(2, KEY + (0,))
    yield 'two equal names, one of them dirty', 2, naming(0, KEY + (2,))
    yield 'two names changed', 2, both(setting('names', BLOCK, 1), setting('names', 2 * NAME_WORDS + BLOCK, 0))
    yield 'a dirty page above inserted', 2, paging(1, 121)
    yield 'a dirty page at inserted', 0, paging(1, 120)
    yield 'a dirty page above inserted by its high word', 2, paging(1, 2**32 + 5)
    yield 'a clean page above inserted', 0, paging(2, 2**64 - 1)
    yield 'the chain of two the other way', 0, both(setting('heads', SHARED, 0), setting('chain', 0, 1), setting('chain', 1, -1))
    yield 'heads of two buckets changed', 2, both(setting('heads', SHARED, 2), setting('heads', OTHER, 1))
    yield 'a chain in an idle bucket', 2, both(setting('heads', OTHER, -1), setting('heads', IDLE, 2))
    for at, value in [(SHARED, 0), (SHARED, -1), (SHARED, 2), (OTHER, 1), (IDLE, 2), (IDLE, 3), (IDLE, 5), (IDLE, -2), (IDLE, -3),
                      (IDLE, 2**31 - 1), (IDLE, -2**31)]:
        yield f'head {(SHARED, OTHER, IDLE).index(at)} is {value}', 2, setting('heads', at, value)
    for at, value in [(0, 1), (0, 0), (0, 2), (0, 3), (0, 5), (0, -2), (0, -3), (1, -1), (1, 1), (1, 2), (2, 1), (2, 2), (3, -2),
                      (3, 0), (3, 3), (4, 3), (4, 5), (4, -3)]:
        yield f'chain link {at} is {value}', 2, setting('chain', at, value)


def caps():
    """Each rule on the cap broken, number 2, or a size too, number 1; and what stands at its edge, number 0.

    Without uses a cap is judged alone; else a usage count is held to it.
    """
    for cap, number in [(0, 2), (1, 0), (15, 0), (16, 2), (21, 2), (2**32 + 5, 2), (2**63, 2), (2**63 + 5, 2), (2**64 - 1, 2)]:
        yield f'cap {cap}, no uses', number, capped(cap, 0, 0, 0)
    for cap, *usages, number in [(0, 1, 1, 1, 2), (1, 1, 1, 1, 0), (1, 2, 0, 1, 2), (2, 0, 2, 2, 0), (2, 0, 3, 0, 2), (4, 1, 1, 5, 2),
                                 (5, 5, 5, 5, 0), (5, 1, 1, 6, 2), (14, 6, 13, 14, 0), (14, 15, 1, 1, 2), (15, 1, 15, 0, 0),
                                 (16, 15, 1, 1, 2)]:
        yield f'cap {cap}, uses {usages}', number, capped(cap, *usages)
    for cap in (0, 16):
        yield f'cap {cap}, a chain link less', 1, both(capped(cap), shorter('chain'))


def counted(i, holder, value):
    """A private count becomes another."""
    return setting('counts', i * HOLDERS + holder, value)


def pinning(i, count, *others):
    """Buffer i's word has this pin count; its first holders, as many as others says, have a pin each, and no others."""
    def change(start):
        start.states[i] += count - start.states[i] % USAGE_ONE
        for some in others:
            start.counts[i * HOLDERS:(i + 1) * HOLDERS] = [1] * some + [0] * (HOLDERS - some)
    return change


def counts():
    """The rule on the private counts broken, number 2; and what stands at its edge, number 0."""
    for i, count, number in [(0, 1, 2), (0, 64, 2), (0, 256, 2), (0, 65536, 2), (1, 0, 2), (1, 1, 2), (1, 3, 2), (1, 258, 2), (1, 65538, 2),
                             (1, 131074, 2), (2, 0, 2), (2, 2, 2), (2, 262143, 2)]:
        yield f'word {i} has pin count {count}', number, pinning(i, count)
    for i, count, holders, number in [(0, 1, 1, 0), (0, 63, 63, 0), (0, 64, 64, 0), (0, 63, 64, 2), (0, 64, 63, 2), (0, 65, 64, 2),
                                      (2, 64, 64, 0), (2, 262143, 64, 2), (2, 0, 0, 0), (2, 1, 0, 2), (3, 0, 1, 2), (4, 0, 64, 2)]:
        yield f'word {i} has pin count {count}, {holders} holders', number, pinning(i, count, holders)
    for i, holder, value, number in [
            (0, 0, 1, 2), (0, 63, 1, 2), (0, 63, 65535, 2), (1, 0, 0, 2), (1, 0, 1, 0), (1, 0, 65535, 0), (1, 1, 1, 2), (1, 62, 1, 2),
            (1, 63, 0, 2), (1, 63, 256, 0), (2, 63, 0, 2), (2, 63, 65535, 0), (2, 0, 1, 2), (3, 0, 1, 2), (3, 63, 2, 2), (4, 0, 1, 2),
            (4, 63, 65535, 2)]:
        yield f'count of {holder} on {i} is {value}', number, counted(i, holder, value)
    yield 'a count with another holder', 0, both(counted(2, 63, 0), counted(2, 0, 1))
    yield 'a count with the next buffer', 2, both(counted(2, 63, 0), counted(3, 0, 1))
    yield 'a count with another buffer', 2, both(counted(1, 63, 0), counted(2, 0, 1))
    yield 'a count and a pin with another buffer', 0, both(counted(1, 63, 0), counted(2, 0, 1), pinning(1, 1), pinning(2, 2))
    yield 'a pin with another buffer', 2, both(pinning(1, 1), pinning(2, 2))


TRIES = [('pin', 63, KEY + (2,)), ('unpin', 0, 1), ('read', 63, 1, 4, b'abcdef'), ('write', 0, 1, 9, b'yz', 115), ('flush', 63, 1),
         ('give_back', 63), ('checkpoint',), ('peek', KEY + (0,)), ('extend', MAP), ('drop', MAP), ('log_inserted', 130),
         ('log_flushed', 110), ('pin', 1, KEY + (1,)), ('give_back', 5), ('unpin', 63, 1), ('pin', 0, (1, 2, 3, 0, 0)), ('unpin', 0, 9),
         ('read', 0, 0, 0, b'ab'), ('write', 63, 1, 7, b'', 121), ('flush', 1, 2**64 - 1), ('peek', KEY + (3,)), ('extend', KEY),
         ('drop', KEY), ('log_inserted', 1), ('log_flushed', 200), ('unpin', 0, 2), ('give_back', 64), ('pin', 64, KEY + (2,)),
         ('write', 2**32, 1, 9, b'yz', 115), ('pin', 2, MAP + (0,)), ('peek', MAP + (0,))]
FITTING = TRIES[:12] + TRIES[-2:]  # each call, and a pin and a peek that are refused with 17


assert [Pool(base().memory()).call(call).number for call in TRIES] == [0] * 15 + [3, 7, 8, 9, 7, 4, 13, 14, 15, 16, 8, 19, 19, 19, 17, 17]


def damaged():
    """Name, start, and the calls to try."""
    for k, (name, number, change) in enumerate([*sizes(), *books(), *pages(), *caps(), *counts()]):
        start = base()
        change(start)
        calls = [TRIES[(3 * k + j) % len(TRIES)] for j in range(3)]
        numbers = [Pool(start.memory()).call(call).number for call in FITTING]
        # at the edges a call may have a refusal of its own, but not 1 or 2
        assert all(x == number if number else x not in (1, 2) for x in numbers), (name, number, numbers)
        yield name, start, calls
