"""Random lists of calls: memories to start from, and calls that fit them. What has to happen in them somewhere stands in events.py."""
import random

from checksum import AT, with_sum
from memory import BLOCKS, CAP, CAPACITY, CONTROL_WORDS, FILE_WORDS, FLUSHED, HOLDERS, INSERTED, NAME_WORDS, NO_TOP, P, ROW_WORDS, TOP
from pool import MOST_COUNT, Pool
from terms import Page, Start, noise, zeros
from words import DIRTY, USAGE_ONE, pins, usage

KEYS = [(1663, 5, 16384, 0), (1663, 5, 16384, 1), (0, 0, 0, 0), (2**32 - 1, 2**32 - 1, 2**32 - 1, 2), (1663, 5, 16385, 0), (5, 1663, 0, 2)]
CAPS = (1, 2, 5, 14, 15)  # those of the lists, and the seeds that stand for case H with each
BY_HAND, MEETING = 0, 3  # the seeds that stand for lists made by hand
POSITIONS = [5, 100, 2**32 - 2, 2**33 + 7, 2**64 - 4]
WEIGHTS = {'pin': 40, 'unpin': 22, 'write': 20, 'read': 4, 'flush': 3, 'give_back': 5, 'checkpoint': 3, 'peek': 4, 'extend': 4, 'drop': 5,
           'log_inserted': 6, 'log_flushed': 2}
FEW, NO_HOLDERS = (0, 1, 2, 63), (64, 65, 128, 2**32 + 1, 2**64 - 1)  # few, so that they meet on pages


def clamped(position):
    return min(max(0, position), 2**64 - 1)


def turned(at, bit):
    """One bit of a page is another."""
    return lambda page: page[:at] + bytes([page[at] ^ 1 << bit]) + page[at + 1:]


def spoilt(r, position, seed, size, block):
    """A page that does not pass as this block: one bit turned, no checksum, its bytes exchanged, another block's, zeros but for it."""
    kind = r.randrange(5)
    if kind == 0:
        return Page(position, seed, size, block, turned(r.choice([0, 7, 8, 9, 10, 127, 128, size - 1, r.randrange(size)]), r.randrange(8)))
    if kind == 1:
        return Page(position, seed, size, None, lambda page: with_sum(page, bytes(2)))
    if kind == 2:
        return Page(position, seed, size, block, lambda page: with_sum(page, page[AT][::-1]))
    if kind == 3:
        return Page(position, seed, size, block ^ r.choice([1, 2, 2**31]))
    return Page(0, 0, size, None, turned(r.choice([8, 9]), r.randrange(8)))


def store_page(r, position, size, block, bad):
    """A block of the store: so often of zeros, with its checksum, or not passing."""
    position, seed = clamped(position + r.choice([0, -1, -3, -3, -5, -5, -5, 2])), r.randrange(1, 2**31)
    if r.random() < bad:
        return spoilt(r, position, seed, size, block)
    return zeros(size) if r.random() < 0.5 else Page(position, seed, size, block)


def store_pages(r, rows, position, size, bad):
    """The store of these rows. Blocks at or above their file's count have mostly no checksum."""
    for f in range(0, len(rows), ROW_WORDS):
        for block in range(rows[f + CAPACITY]):
            yield store_page(r, position, size, block, bad if block < rows[f + BLOCKS] else 0.7)


def start(r):
    """A memory before set up, with anything in its books, and what set up is given: block size, position, cap."""
    size = r.choice([1024] * 7 + [2048])
    n, room = (r.choice([1, 2, 2, 3, 3, 4]), 6) if size == 1024 else (r.randint(1, 2), 4)
    b = r.randint(n, 6)
    position, cap = r.choice(POSITIONS), r.choice(CAPS)
    rows = []
    for key in r.sample(KEYS, r.randint(1, 3)):
        capacity = r.randint(0, min(4, room)) if rows else r.randint(3, 4)
        blocks = r.choice([capacity, capacity, max(0, capacity - 1), r.randint(0, capacity)])
        rows += [*key, blocks, capacity]
        room -= capacity

    def any_links(count):
        return [r.choice([-2**31, -3, -2, -1, 0, n, 2**31 - 1]) for _ in range(count)]

    def any_words(count):
        return [r.randrange(2**32) for _ in range(count)]
    control = [r.choice([0, 1024, 7]), r.randrange(9), r.choice([NO_TOP, 0, 9]), r.randrange(9), r.randrange(9),
               r.choice([0, 9, 16, 2**64 - 1])]
    pool = [Page(r.randrange(2**64), r.randrange(1, 2**31), size) for _ in range(n)]
    store = [*store_pages(r, rows, position, size, 0.1)]
    counts = [r.choice([0, 7, 65535])] * (n * HOLDERS - 1) + [r.choice([0, 1])]
    made = Start(control, any_words(n), any_words(NAME_WORDS * n), pool, any_links(n), any_links(b), any_links(n), rows, store, counts)
    return made, (size, position, cap)


def some_key(r, m):
    key = tuple(m.row(r.choice(list(m.files())))[:FILE_WORDS])
    if r.random() < 0.1:
        at = r.randrange(FILE_WORDS)
        key = tuple((value + (k == at)) % 2**32 for k, value in enumerate(key))
    return key


def some_name(r, m):
    """Mostly a page's; where the free list is empty, rather one that is not held."""
    every = [tuple(m.row(f)[:FILE_WORDS]) + (block,) for f in m.files() for block in range(m.blocks(f))]
    fresh = [name for name in every if Pool(m).held(name) is None]
    if every and r.random() < 0.92:
        return r.choice(fresh if fresh and m.control[TOP] == NO_TOP and r.random() < 0.7 else every)
    key = some_key(r, m)
    blocks = m.blocks(m.file(key)) if m.file(key) is not None else 0
    return key + (r.choice([blocks, blocks + 1, 2**32 - 1]),)


def some_buffer(r, m):
    pinned = [i for i in range(m.n) if pins(m.states[i])]
    if pinned and r.random() < 0.9:
        return r.choice(pinned)
    return r.choice([*range(m.n), *range(m.n), m.n, m.n + 1, 2**32, 2**64 - 1])


def some_range(r, size, least):
    """from and length: mostly inside the page, else at its edges."""
    length = r.choice([0, 1, 1, 2, 2, 3, 3, 4, 4, 5])
    if r.random() < 0.8:
        return r.choice([least, least + 1, AT.start, least + r.randrange(32), size - length]), length
    return r.choice([(least - 1 if least else 0, 1), (size - 3, 4), (size, 0), (size + 1, 0), (2**64 - 1, 1), (0, 8)])


def some_holder(r, m, i=None):
    """One of a few; of buffer i mostly one that has it; now and then no holder at all."""
    having = [*m.private(i)] if i is not None and i < m.n else []
    if having and r.random() < 0.75:
        return r.choice(having)
    return r.choice(FEW if r.random() < 0.93 else NO_HOLDERS)


def some_kind(r, m):
    """Which call, by what there is to call it on."""
    kind = r.choices(list(WEIGHTS), list(WEIGHTS.values()))[0]
    pinned = [i for i in range(m.n) if pins(m.states[i])]
    if kind in ('unpin', 'flush', 'read', 'write', 'give_back') and not pinned and r.random() < 0.9:
        kind = 'pin'
    if kind == 'pin' and len(pinned) == m.n and r.random() < 0.5:
        kind = r.choice(['unpin', 'write', 'unpin', 'give_back'])
    if kind == 'pin' and not any(m.rows[BLOCKS::ROW_WORDS]) and r.random() < 0.8:
        kind = 'extend'
    return kind


def some_drop(r, m):
    """Rather of a file that has pages and no pins; if there is none, an unpin."""
    if r.random() < 0.4:
        return 'drop', some_key(r, m)
    pinned = [m.name(i)[:FILE_WORDS] for i in m.used() if pins(m.states[i])]
    unpinned = [m.name(i)[:FILE_WORDS] for i in m.used() if m.name(i)[:FILE_WORDS] not in pinned]
    return ('drop', r.choice(unpinned)) if unpinned else on_buffer(r, m, 'unpin')


def on_buffer(r, m, kind):
    """An unpin, flush, read or write."""
    i = some_buffer(r, m)
    call = kind, some_holder(r, m, i), i
    if kind in ('unpin', 'flush'):
        return call
    at, length = some_range(r, m.control[P], 8 if kind == 'write' else 0)
    data = noise(length, r.randrange(1, 2**31))
    if kind == 'read':
        return *call, at, data
    inserted, own = m.control[INSERTED], Pool(m).position(i) if i < m.n else 0
    position = r.choice([inserted, inserted, inserted, max(own, inserted - 1), own, own, inserted + 1, own - 1])
    return *call, at, data, clamped(position)


def choose(r, m):
    """A call on this memory."""
    kind, inserted, flushed = some_kind(r, m), m.control[INSERTED], m.control[FLUSHED]
    if kind == 'drop':
        return some_drop(r, m)
    if kind in ('unpin', 'flush', 'read', 'write'):
        return on_buffer(r, m, kind)
    if kind == 'pin':
        name = some_name(r, m)
        return kind, some_holder(r, m, Pool(m).held(name)), name
    if kind == 'give_back':
        return kind, some_holder(r, m, r.randrange(m.n))
    if kind == 'peek':
        return kind, some_name(r, m)
    if kind == 'extend':
        return kind, some_key(r, m)
    if kind == 'checkpoint':
        return kind,
    if kind == 'log_inserted':
        return kind, clamped(inserted + r.choice([-1, 0, 1, 2, 2**32]))
    return kind, clamped(r.choice([flushed - 1, flushed, flushed + 1, inserted, inserted + 1]))


def run(pool_class, m, calls):
    """The outcomes of a list of calls."""
    outcomes = []
    for call in calls:
        outcomes.append(pool_class(m).call(call))
        m = outcomes[-1].memory
    return outcomes


def random_calls(r, m, length):
    calls = []
    for _ in range(length):
        calls.append(choose(r, m))
        m = Pool(m).call(calls[-1]).memory
    return calls, m


def set_up(made, given):
    return Pool(made.memory()).call(('set_up', *given)).memory


def by_hand():
    """A page is written at 8 and 9, written back as a victim, loaded again and read: the shelf's has other bytes there. Another is written
    back as zeros but for byte 9, a third as zeros. One buffer; the pages' places are not their block numbers; the other file's block has no
    checksum."""
    other, key = KEYS[:2]
    page, victim, bad = key + (1,), key + (0,), other + (0,)
    made = Start([0] * CONTROL_WORDS, [7], [7] * NAME_WORDS, [Page(5, 6)], [7], [7], [7], [*other, 1, 1, *key, 2, 2],
                 [Page(90, 7), zeros(1024), zeros(1024)], [7] * HOLDERS)
    return made, (1024, 100, 5), [
        ('pin', 1, page), ('write', 1, 0, 8, b'abcd', 100), ('pin', 2, bad), ('unpin', 1, 0), ('pin', 2, bad), ('pin', 2, victim),
        ('write', 2, 0, 9, b'a', 0), ('flush', 2, 0), ('give_back', 2), ('pin', 63, page), ('read', 63, 0, 6, bytes(6)), ('unpin', 63, 0),
        ('peek', page), ('checkpoint',), ('drop', other), ('extend', other), ('pin', 0, bad), ('write', 0, 0, 10, bytes(2), 0),
        ('flush', 0, 0)]


def case_h(cap):
    """Buffers 0 and 1 are pinned, 2 is unpinned with usage cap, at which it was pinned once more; the hand is 0. Block 3 is pinned.

    As usage rises for a holder's first pin alone, as many holders as that come to buffer 2; each pins it, then each unpins it.
    """
    key, holders = KEYS[0], range(63, 62 - cap, -1)
    made = Start([9] * CONTROL_WORDS, [7] * 3, [7] * (3 * NAME_WORDS), [zeros(1024)] * 3, [7] * 3, [7] * 3, [7] * 3, [*key, 4, 4],
                 [zeros(1024)] * 4, [7] * (3 * HOLDERS))
    return made, (1024, 100, cap), [*(('pin', 0, key + (block,)) for block in (0, 1, 2)), *(('pin', h, key + (2,)) for h in holders),
                                    ('unpin', 0, 2), *(('unpin', h, 2) for h in holders), ('pin', 0, key + (3,))]


def meeting():
    """Holders meet on two pages, and leave by unpin and give back; a third page comes where all have left. A call by no holder names a
    buffer behind which stands the count of holder 0, which is not 0."""
    key = KEYS[0]
    a, b, c = (key + (block,) for block in range(3))
    made = Start([9] * CONTROL_WORDS, [7] * 2, [7] * (2 * NAME_WORDS), [zeros(1024)] * 2, [7] * 2, [7] * 2, [7] * 2, [*key, 3, 3],
                 [zeros(1024)] * 3, [65535] * (2 * HOLDERS))
    return made, (1024, 100, 5), [
        ('pin', 0, a), ('pin', 63, a), ('pin', 0, a), ('pin', 1, b), ('pin', 0, b), ('unpin', 64, 0), ('unpin', 2, 0), ('pin', 2, c),
        ('pin', 64, (1, *c[1:])), ('give_back', 2), ('give_back', 0), ('flush', 0, 0), ('unpin', 63, 0), ('pin', 63, c),
        ('read', 0, 1, 0, b'x'), ('give_back', 1), ('write', 63, 0, 8, b'y', 9), ('give_back', 63), ('drop', key)]


def after_set_up(seed):
    """A start, what its set up is given, and a list of calls after set up."""
    if seed in CAPS:
        return case_h(seed)
    if seed in (BY_HAND, MEETING):
        return by_hand() if seed == BY_HAND else meeting()
    r = random.Random(seed)
    made, given = start(r)
    return made, given, random_calls(r, set_up(made, given), r.randint(8, 14))[0]


def crowd(r, having):
    """Other private counts of a pinned buffer: at or near their ends, and now and then of every holder, or of all but one."""
    counts = [having.get(h, 0) for h in range(HOLDERS)]
    if r.random() < 0.25:
        counts = [count or 1 for count in counts]
        counts[r.choice(FEW)] = r.choice([0, 1])
    for h in having:
        if r.random() < 0.5:
            counts[h] = r.choice([2, 255, 256, MOST_COUNT - 1, MOST_COUNT, MOST_COUNT])
    return counts


def crowded():
    """Two buffers. All holders but 63 have the first, holder 0 with one pin less than the greatest count; holder 1 has the second, with the
    greatest. Holder 0's count becomes the greatest and is refused one more, while 63 comes; all 64 have the page then."""
    key = KEYS[0]
    a, b, c = (key + (block,) for block in range(3))
    blank = Start([9] * CONTROL_WORDS, [7] * 2, [7] * (2 * NAME_WORDS), [zeros(1024)] * 2, [7] * 2, [7] * 2, [7] * 2, [*key, 3, 3],
                  [zeros(1024)] * 3, [7] * (2 * HOLDERS))
    m = run(Pool, set_up(blank, (1024, 100, 5)), [*(('pin', h, a) for h in range(HOLDERS - 1)), ('pin', 1, b)])[-1].memory
    m.counts[0], m.counts[HOLDERS + 1] = MOST_COUNT - 1, MOST_COUNT
    sound = Start(m.control, m.states, m.names, blank.pool, m.free, m.heads, m.chain, m.rows, blank.store, m.counts)
    return sound, [
        ('pin', 0, a), ('pin', 0, a), ('pin', 63, a), ('pin', 63, a), ('pin', 0, a), ('pin', 1, b), ('pin', 0, b), ('pin', 64, a),
        ('pin', 2, c), ('give_back', 0), *[('unpin', 63, 0)] * 3, ('unpin', 1, 1), ('give_back', 1), ('pin', 2, c)]


def from_sound(seed):
    """A sound memory as some earlier calls left it, with other bytes in its pages and counts at or near their ends, and calls.

    Pages of zeros may be dirty there, and a page may be held whose block does not pass.
    """
    if seed == BY_HAND:
        return crowded()
    r = random.Random(10_000 + seed)
    made, given = start(r)
    m = random_calls(r, set_up(made, given), r.randint(10, 60))[1]
    states, size, inserted, cap = list(m.states), m.control[P], m.control[INSERTED], m.control[CAP]
    counts = [count for i in range(m.n) for count in (crowd(r, m.private(i)) if m.private(i) else [0] * HOLDERS)]
    for i in m.used():
        states[i] += (r.choice([0, 1, cap - 1, cap]) - usage(states[i])) * USAGE_ONE
        states[i] += sum(map(bool, counts[HOLDERS * i:HOLDERS * (i + 1)])) - pins(states[i])

    def page(word):
        if r.random() < 0.2:
            return Page(0, 0, size, None, r.choice([None, turned(r.choice(range(AT.start, AT.stop)), r.randrange(8))]))
        return Page(clamped(inserted + r.randrange(3) * (-1 if word & DIRTY else 1)), r.randrange(1, 2**31), size)
    sound = Start(list(m.control), states, m.names, list(map(page, states)), m.free, m.heads, m.chain, m.rows,
                  [*store_pages(r, m.rows, inserted, size, 0.25)], counts)
    return sound, random_calls(r, sound.memory(), r.randint(4, 7))[0]
