"""The inputs, in groups. Each is a name, its bytes and, where how it is made says it, the line that is to be written."""
import random
from collections import namedtuple

Case = namedtuple('Case', 'name text known', defaults=[None])

USES = 1_000_000
HEAD = [b'3', b'4']
# lines of a list of 60 numbers that are damaged: the first four, one deep in it, the last
PLACES = (1, 2, 3, 4, 50, 62)
ZEROS = b'0' * 400
OTHER_BYTES = [byte for byte in range(256) if byte != 10 and not 48 <= byte <= 57]
# lines that are no numbers, beside every other byte alone, before and behind a digit
NO_NUMBERS = (b'', b'+1', b'-1', b'-0', b'+', b' 1', b'1 ', b'1\r', b'\r', b'\t1', b'1\t', b'1\0', b'\0', b'\0001', b'1 1', b'0x1', b'1.0',
              b'1,0', b'1e0', b'1_1', b'0b1', b'one', b'#1', b'1#', b'"1"', '\u0661'.encode(), '\uff11'.encode(), '\u00b2'.encode(),
              b'1\xb2', b'\xb1', b'\xef\xbb\xbf1', b'1\x0b', b'1\x0c', b'1\x85', b'/', b':', b'1/', b'1:', ZEROS + b'x', ZEROS + b' 1',
              b'1' + ZEROS + b'-')


def joined(lines, end=b'\n'):
    return b'\n'.join(lines) + end


def listed(buffers, blocks, uses, end=b'\n'):
    return joined([b'%d' % number for number in (buffers, blocks, *uses)], end)


def bad(line):
    return b'bad line %d\n' % line


def paper():
    example, eleven = (0, 1, 2, 3, 0), (0, 0, 1, 2, 0, 3, 1, 3, 2, 4, 0)
    for words, end in ('', b'\n'), (' without its last newline', b''):
        yield Case('the example' + words, listed(3, 4, example, end), b'0 5 5\n')
        yield Case('eleven uses' + words, listed(3, 5, eleven, end), b'3 8 14\n')
        yield Case('one buffer' + words, listed(1, 2, (0, 0, 1, 1, 0), end), b'2 3 6\n')


def uses_of(source, kind, buffers, blocks, many):
    if kind == 'uniform':
        return [source.randrange(blocks) for _ in range(many)]
    if kind == 'skewed':
        return [int(blocks * source.random()**6) for _ in range(many)]
    # a loop over about as many blocks as there are buffers, with some elsewhere
    width = min(blocks, max(1, buffers + source.randrange(-1, 3)))
    return [source.randrange(blocks) if source.random() < 0.05 else k % width for k in range(many)]


def random_list(source, k, buffers, blocks, many):
    kind = ('uniform', 'skewed', 'loop')[k % 3]
    end = source.choice((b'\n', b''))
    return Case(f'{kind} list {k}', listed(buffers, blocks, uses_of(source, kind, buffers, blocks, many), end))


def small(seed):
    source = random.Random(seed)
    for k in range(2000):
        yield random_list(source, k, source.randrange(1, 8), source.randrange(1, 12), source.randrange(60))


def great(seed):
    source = random.Random(seed + 1)
    for k in range(120):
        buffers = source.choice((1, 2, source.randrange(1, 64), source.randrange(1, 1025), 1023, 1024))
        blocks = source.choice((1, source.randrange(1, 2000), source.randrange(1, 65537), 65535, 65536))
        yield random_list(source, k, buffers, blocks, source.randrange(4000))
    for k, buffers in enumerate((1, 16, 255, 256, 1000, 1024)):
        yield random_list(source, k, buffers, (65536, 3000, 300)[k % 3], 100_000)


def sixty(places, end=b'\n', head=HEAD):
    """N = 3, four blocks and 60 numbers, with other lines at some places, counted from 1."""
    lines = [*head, *(b'%d' % (k * k % 4) for k in range(60))]
    for place, line in places.items():
        lines[place - 1] = line
    return joined(lines, end)


def damaged():
    for line in NO_NUMBERS:
        for place in PLACES:
            yield Case(f'line {place} is {line[-20:]!r}', sixty({place: line}), bad(place))
            if line or place != 62:
                yield Case(f'line {place} is {line[-20:]!r}, no last newline', sixty({place: line}, b''), bad(place))


def other_bytes():
    """Each byte that is no digit and no newline, alone, before or behind a digit."""
    for byte in OTHER_BYTES:
        some = bytes([byte])
        for k, place in enumerate(PLACES):
            line = (some, some + b'1', b'1' + some)[(k + byte) % 3]
            yield Case(f'line {place} is {line!r}', sixty({place: line}), bad(place))


def wide_numbers(end, inside):
    """Numbers from `end` on: by one, by far, and such as are `inside` when cut to some bits."""
    yield from (end, end + 1, end + 9, 10 * end, 99999, 65537, 100_000)
    yield from (2**bits + inside for bits in (16, 17, 31, 32, 33, 63, 64, 65, 128) if 2**bits + inside >= end)
    yield from (10**19, 10**20 + inside, 10**400 + inside)


def written(number):
    """A number as it may stand in a line: as it is, and with zeros in front, so many that no word has them."""
    digits = b'%d' % number
    return digits, b'0' + digits, b'0' * 25 + digits, ZEROS + digits


def ranges():
    for line in (form for number in (0, *wide_numbers(1025, 3)) for form in written(number)):
        yield Case(f'N is {line[-25:]!r}', sixty({1: line}), bad(1))
    for line in (form for number in wide_numbers(65537, 4) for form in written(number)):
        yield Case(f'blocks are {line[-25:]!r}', sixty({2: line}), bad(2))
    for number in (1, 2, 9, 10, 99, 100, 999, 1000, 1023, 1024):
        for line in written(number):
            yield Case(f'N is {line[-25:]!r}', sixty({1: line}))
    for blocks in (1, 4, 10, 1000, 65535, 65536):
        head = [b'3', b'%d' % blocks]
        for line in (form for number in {0, blocks - 1} for form in written(number)):
            yield Case(f'{line[-25:]!r} of {blocks} blocks', joined([*head, line, b'0', line]))
            yield Case(f'{line[-25:]!r} of {blocks} blocks, no last newline', joined([*head, line, b'0', line], b''))
        for line in (form for number in wide_numbers(blocks, 0) for form in written(number)):
            for before in (0, 1, 40):
                yield Case(f'{line[-25:]!r} of {blocks} blocks', joined([*head, *[b'0'] * before, line, b'0']), bad(3 + before))
            yield Case(f'{line[-25:]!r} of {blocks} blocks, no last newline', joined([*head, b'0', line], b''), bad(4))
    for zeros in (b'0', b'00', ZEROS):
        yield Case('no blocks, a number', joined([b'3', zeros, b'0']), bad(3))
        yield Case('no blocks, no numbers', joined([b'3', zeros]), b'0 0 0\n')
    yield Case('the greatest of each, with zeros in front', joined([ZEROS + b'1024', ZEROS + b'65536', ZEROS + b'65535']), b'0 1 0\n')


def first_bad():
    """Two bad lines of which the first is reported, whatever is wrong with the second."""
    for k, line in enumerate(NO_NUMBERS + (b'4', b'99999', b'9' * 400)):
        for first in PLACES[:-1]:
            for second in (place for place in PLACES if place > first):
                other = (b'x', b'', b'99999', b'70000 ')[(k + second) % 4]
                if (first + second + k) % 3 == 0 and (first != 1 or line != b'4') and (first != 2 or line != b'4'):
                    yield Case(f'lines {first} and {second}', sixty({first: line, second: other}), bad(first))


def ends():
    for many in range(1, 6):
        yield Case(f'{many} newlines', b'\n' * many, bad(1))
    for text, known in ((b'', bad(1)), (b'3', bad(2)), (b'3\n', bad(2)), (b'3\n\n', bad(2)), (b'3\n\n4\n', bad(2)), (b'\n3\n4\n', bad(1)),
                        (b'3\n4', b'0 0 0\n'), (b'3\n4\n', b'0 0 0\n'), (b'3\n4\n\n', bad(3)), (b'3\n4\n\n\n', bad(3)),
                        (b'3\n4\n\n0\n', bad(3)), (b'3\n4\n0', b'0 1 0\n'), (b'3\n4\n0\n', b'0 1 0\n'), (b'3\n4\n0\n\n', bad(4)),
                        (b'3\n4\n0\n\n\n', bad(4)), (b'3\n4\n0\n4', bad(4)), (b'3\n4\n0\n0x', bad(4)), (b'0', bad(1)), (b'1025', bad(1)),
                        (b'x', bad(1)), (b'3\n65537', bad(2)), (b'3 4\n0\n', bad(1)), (b'3\r\n4\r\n0\r\n', bad(1)),
                        (b'3\n4\r\n', bad(2)), (b'3\n4\n0\r', bad(3))):
        yield Case(repr(text), text, known)
    for place in PLACES:
        yield Case(f'an empty line {place} more', sixty({place: b'\n' + sixty({}).split(b'\n')[place - 1]}), bad(place))
    yield Case('60 numbers and an empty line', sixty({}) + b'\n', bad(63))
    yield Case('60 numbers and some empty lines', sixty({}) + b'\n\n\n', bad(63))
    yield Case('much behind a bad line', sixty({50: b'x'}) + b'0\n' * 100_000, bad(50))


def limits():
    """As many numbers as there may be, and more. These take long."""
    text = b'7\n10\n' + b'0\n1\n0\n2\n9\n3\n8\n4\n0\n5\n' * (USES // 10)
    yield Case('1,000,000 numbers', text)
    for more in b'0\n', b'0', b'\n', b'x', b'99999\n', b'-1', b'\n\n', b'0\n' * 100_000:
        yield Case(f'1,000,000 numbers and {more[:9]!r}', text + more, bad(1_000_003))
    for line in b'', b'10', b'x', b'99999':
        yield Case(f'the last of 1,000,000 is {line!r}', text[:-2] + line + b'\n', bad(1_000_002))
        yield Case(f'the line behind it too, {line!r}', text[:-2] + line + b'\n' + line + b'\n', bad(1_000_002))
    for line, place in (b'', 100_001), (b'10', 500_003), (b'x', 700_004), (b'99999', 900_002):
        at = 5 + 2 * (place - 3)
        yield Case(f'line {place} of 1,000,002 is {line!r}', text[:at] + line + text[at + 1:], bad(place))
    yield Case('1,000,000 numbers, no last newline', text[:-1])


# of each group how many cases it has at least, so that none is empty unnoticed
GROUPS = {'paper': (paper, 6), 'small': (small, 2000), 'great': (great, 126), 'damaged': (damaged, 400), 'other_bytes': (other_bytes, 1000),
          'ranges': (ranges, 2000), 'first_bad': (first_bad, 150), 'ends': (ends, 39), 'limits': (limits, 22)}


def cases_of(group, seed=1):
    make, least = GROUPS[group]
    cases = list(make(seed) if group in ('small', 'great') else make())
    if len(cases) < least:
        raise ValueError(f'{group} has {len(cases)} cases')
    return cases
