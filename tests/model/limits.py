"""The limits of set up, of the file rows, of answer slices, and a shelf's refusals at states that no short list reaches."""
from checksum import bare, checksum, pack_sum, with_sum
from damage import KEY, MAP, TRIES, base
from memory import ANSWER_WORDS, CAPACITY, CONTROL_WORDS, FORK, HOLDERS, NAME_WORDS, NO_TOP, ROW_WORDS
from pool import MOST_COUNT, Pool, rows_fit
from shelf import Shelf, came_bad
from terms import Page, Start, noise, zeros


def pages(count, size, seed):
    """So many pages, as one run of zeros where they are many."""
    return [Page(k, seed + k, size) for k in range(count)] if count < 9 else [zeros(count * size)]


def lent(n, b, rows, size, control=(7, 9, NO_TOP, 3, 4, 6), counts=None):
    """A memory of this shape, with anything in its books."""
    pool, store = pages(n, size, 1), pages(sum(rows[CAPACITY::ROW_WORDS]), size, 50)
    return Start(list(control), [7] * n, [7] * (NAME_WORDS * n), pool, [7] * n, [7] * b, [7] * n, list(rows), store,
                 [7] * (n * HOLDERS) if counts is None else counts)


def files(*capacities):
    """Rows that differ in their first word, without blocks."""
    return [word for k, capacity in enumerate(capacities) for word in (k, *[0] * (ROW_WORDS - 2), capacity)]


def set_ups():
    """Number by hand, start, what set up is given (block size, position, cap), answer slice."""
    row, slice_ = [*KEY, 1, 1], (9, 8, 7, 6)
    for size in (1024, 2048, 4096, 8192, 16384, 32768):
        yield 0, lent(1, 1, row, size), (size, size * 2**40, 5), slice_
    for size in (512, 1000, 1023, 1025, 3072, 65536):
        yield 1, lent(1, 1, row, size), (size, 5, 5), slice_
    for size in (0, 1, 2048, 2**32 + 1024, 2**63):
        yield 1, lent(1, 1, row, 1024), (size, 5, 5), slice_
    for n, b, number in [(0, 0, 1), (0, 1, 1), (1, 1, 0), (1, 4096, 0), (1, 4097, 1), (2, 1, 1), (2, 2, 0), (3, 2, 1), (1024, 1024, 0),
                         (1024, 4096, 0), (1024, 1023, 1), (1025, 1025, 1), (1025, 4096, 1)]:
        yield number, lent(n, b, [], 1024), (1024, 0, 5), slice_
    for rows, number in [([], 0), (row[:-1], 1), ([*row, 0], 1), ([*KEY, 0, 0], 0), ([*KEY, 1, 0], 1), ([*MAP, 2, 3], 0),
                         ([*KEY[:FORK], 2, 1, 2], 0), ([*KEY[:FORK], 3, 1, 2], 1), ([*row, *row], 1), ([*row, *MAP, 0, 1], 0),
                         ([*KEY, 9, 65536], 0), ([*KEY, 9, 65537], 1), ([*row, *MAP, 0, 65535], 0), ([*row, *MAP, 0, 65536], 1)]:
        yield number, lent(1, 2, rows, 1024), (1024, 2**64 - 1, 5), slice_
    for count, number in [(64, 0), (65, 1)]:
        yield number, lent(1, 1, files(*(int(k == 9) for k in range(count))), 1024), (1024, 1, 5), slice_
    for length in [0, 1, CONTROL_WORDS - 1, CONTROL_WORDS + 1]:
        control = (1024, *[0] * CONTROL_WORDS)[:length]
        yield 1, lent(1, 1, row, 1024, control), (1024, 5, 5), slice_
    for length in [0, ANSWER_WORDS - 1, ANSWER_WORDS + 1]:
        yield 1, lent(1, 1, row, 1024), (1024, 5, 5), tuple(range(1, 1 + length))


def caps():
    """As set_ups: caps at the limits, and wrong ones where 1 stands above 18."""
    row, slice_ = [*KEY, 1, 1], (9, 8, 7, 6)
    for cap, number in [(0, 18), (1, 0), (2, 0), (14, 0), (15, 0), (16, 18), (21, 18), (2**32 + 5, 18), (2**63, 18), (2**63 + 5, 18),
                        (2**64 - 1, 18)]:
        yield number, lent(2, 3, row, 1024), (1024, 5, cap), slice_
    for cap in (0, 16, 2**64 - 1):
        yield 1, lent(2, 1, row, 1024), (1024, 5, cap), slice_
        yield 1, lent(1, 1, row, 1024), (1000, 5, cap), slice_
        yield 1, lent(1, 1, row, 1024, [7] * (CONTROL_WORDS - 1)), (1024, 5, cap), slice_
        yield 1, lent(1, 1, row, 1024), (1024, 5, cap), slice_[1:]


def counts():
    """As set_ups: private counts of other lengths, 1, and with anything in them, 0, which set up writes as zeros."""
    row, slice_ = [*KEY, 1, 1], (9, 8, 7, 6)
    for length in (0, 2, HOLDERS, 2 * HOLDERS - 2, 2 * HOLDERS - 1, 2 * HOLDERS + 1, 3 * HOLDERS):
        yield 1, lent(2, 3, row, 1024, counts=[7] * length), (1024, 5, 5), slice_
    for some in ([65535] * 2 * HOLDERS, [0] * 2 * HOLDERS, [0] * HOLDERS + [1] + [0] * (HOLDERS - 2) + [65535]):
        yield 0, lent(2, 3, row, 1024, counts=some), (1024, 5, 5), slice_
    yield 1, lent(2, 3, row, 1024, counts=[0]), (1024, 5, 0), slice_


def checked(some):
    """Some set-ups with their outcomes, which have the number by hand."""
    for number, start, given, answer in some:
        outcome = Pool(start.memory()).call(('set_up', *given), answer)
        assert outcome.number == number, (number, outcome.number, given, start.rows)
        yield start, given, answer, outcome


def rows():
    """Rows that no store here is long enough for: the sum of capacities, 65,536 at most."""
    for number, some in [
            (0, files(65536)), (1, files(65537)), (0, files(1, 65535)), (1, files(2, 65535)), (1, files(65536, 0, 1)),
            (0, files(*[1024] * 64)), (1, files(*[1024] * 63, 1025)), (1, files(2**32 - 1)), (1, files(2**31, 2**31, 2**32 - 1)),
            (0, [*KEY, 65536, 65536]), (1, [*KEY, 65536, 65535])]:
        assert rows_fit(some) == (number == 0)
        yield some


def answers():
    """A call on the base memory with an answer slice of some length."""
    for k, call in enumerate(TRIES):
        yield call, tuple(range(5, 5 + (0, 1, ANSWER_WORDS - 1, ANSWER_WORDS, ANSWER_WORDS + 1, 8)[k % 6]))


REFUSALS = ('Sizes', 'Books', 'NoFile', 'NoBlock', 'PinCount', 'AllPinned', 'NoBuffer', 'NotPinned', 'Range', 'NoBytes', 'NotInserted',
            'Earlier', 'FileFull', 'FilePinned', 'LogShorter', 'FlushedBeyond', 'Checksum', 'Cap', 'NoHolder')


def enums():
    """The answers of the code: what gives a number or words, a case, and what the paper has for it."""
    buffer = '(record { 0 = 5 })'
    pin = '(record { buffer = %s; hit = %s; wrote = %s; probes = %d })'
    for answer, case, words in [
            ('pinned', pin % (buffer, 'true', 'false', 7), [5, 1, 0, 7]), ('pinned', pin % (buffer, 'false', 'true', 0), [5, 0, 1, 0]),
            ('written', '6', [6, 0, 0, 0]), ('peeked', '(InPool 1024)', [1, 1024, 0, 0]), ('peeked', '(InStore 2048)', [0, 2048, 0, 0]),
            ('extended', buffer, [5, 0, 0, 0]), ('accepted', '(tt {0})', [0, 0, 0, 0])]:
        yield f'{answer}_number', f'(Ok {case})', 0
        yield f'{answer}_words', f'(Ok {case})', words
    for answer in ('pinned', 'written', 'peeked', 'extended', 'accepted'):
        yield f'{answer}_number', '(Err FileFull)', 13
        yield f'{answer}_words', '(Err FileFull)', [0, 0, 0, 0]
    for number, why in enumerate(REFUSALS, 1):
        yield 'accepted_number', f'(Err {why})', number


def sums():
    """Block numbers and pages: of zeros, of ones, of noise, and others in bytes 8 and 9 alone, in their neighbours, at the end."""
    page = noise(1024, 3)
    yield from [(0, bytes(1024)), (65535, b'\xff' * 1024), (0, page), (2**32 - 1, page), (0, with_sum(page, b'\xff\xff'))]
    for at in (7, 10, 127, 128, 1023):
        yield 1, page[:at] + bytes([page[at] ^ 128]) + page[at + 1:]
    yield from [(65534, noise(2048, 4)), (2**31 + 7, bytes(2047) + b'\1')]


def blocks():
    """Block numbers and blocks of the store, and by hand whether they pass."""
    page = bare(noise(1024, 5))
    sealed, marked = with_sum(page, pack_sum(checksum(9, page))), with_sum(bytes(1024), b'\1\0')
    for passes, block, one in [
            (True, 9, sealed), (False, 8, sealed), (False, 9, page), (True, 9, bytes(1024)), (False, 0, marked),
            (False, 9, with_sum(sealed, sealed[8:10][::-1])), (False, 9, sealed[:1023] + b'?'),
            (True, 0, with_sum(bytes(1024), pack_sum(35928)))]:
        assert passes == (not came_bad(block, one)), (block, passes)
        yield block, one


def shelves(shelf_class=Shelf):
    """Shelves given by hand: N, counts of the pages in row order by holder, the places held at each number, the bad places; and calls.

    17 stands above 5 and 6: the second and third have a bad page with the greatest count, and with every buffer pinned. A full count is
    one holder's alone, and a page has pins where any has.
    """
    pages, full = [KEY + (0,), KEY + (1,), KEY + (2,), MAP + (0,), MAP + (1,)], MOST_COUNT
    calls = [*(('pin', holder, page) for holder in (0, 63) for page in pages), *TRIES,
             *(('unpin', holder, b) for holder in (0, 2, 63) for b in range(4))]
    for n, counts, holds, bad in [
            (2, {}, [None, None], [3]), (2, {0: [full, 0, 0, 0, 0], 63: [1, 0, 0, 0, 0]}, [0, None], [0]),
            (2, {63: [full - 1, 0, 0, 1, 0]}, [3, 0], [1]), (1, {0: [0, full, 0, 0, 0], 63: [0, 255, 0, 0, 0]}, [1], []),
            (3, {0: [0, 1, 0, 0, 0], 2: [0, 0, 0, 2, 0]}, [3, None, 1], [0, 4]),
            (3, {0: [1, 0, 1, 0, 0], 63: [0, full, 1, 0, 0]}, [2, 1, 0], []),
            (2, {holder: [1, 0, 0, 0, 0] for holder in range(HOLDERS)}, [None, 0], [])]:
        start = base()
        shelf = shelf_class(start.memory())
        shelf.n, shelf.counts = n, {(holder, page): count for holder, some in counts.items() for page, count in zip(pages, some)}
        shelf.holds = {b: pages[place] for b, place in enumerate(holds) if place is not None}
        shelf.bad = {pages[place] for place in bad}
        assert all(shelf.refuses(call) == 17 for place in bad[:1] for call in (('pin', 0, pages[place]), ('peek', pages[place])))
        yield start, shelf, counts, holds, bad, calls
