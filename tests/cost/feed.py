"""feed.py PROGRAM [CHECK..]: how the program reads. Pieces of every size, pipes that stay open, writers without end, reads that fail, and
that it does not hold its input. All checks, or these; the last line has how many passed and how many failed."""
import fcntl
import os
import random
import sys

from lists import bad, joined, listed, sixty, uses_of
from model import Model
from program import PIECE, Program, pipe, right

MEBIBYTE = 1 << 20
MORE_MEMORY = MEBIBYTE   # what a long input may take more than a short one
ZEROS = 96 * MEBIBYTE
ENDLESS = 8 * MEBIBYTE   # 1,000,001 short lines have 2


def judged(ran, text, what):
    """What is wrong with a run over a text."""
    line = Model().answer(text)
    if not right(ran, line):
        yield f'{what}: {ran}, not {line}'


def some_list(many, end=b'\n'):
    source = random.Random(many)
    return listed(200, 65536, uses_of(source, 'skewed', 200, 65536, many), end)


def in_pieces(program, text, size):
    with program.fed() as (child, feed):
        all_taken = feed.pieces(text, size)
        feed.close()
        yield from judged(program.end(child), text, f'{text[-20:]!r} in pieces of {size}')
    if not all_taken and b'bad' not in Model().answer(text):
        yield f'{text[-20:]!r} in pieces of {size}: not all is read'


def few_bytes(program):
    """Pieces of 1 to 7 bytes."""
    texts = [joined([b'3', b'4', b'0', b'1', b'2', b'3', b'0']), some_list(120), some_list(120, b''), sixty({50: b''}), sixty({50: b'0x'}),
             sixty({62: b'4'}, b''), sixty({1: b'000000001024'}), b'1025\n', b'3\n65537\n', b'3', b'3\n', b'\n', sixty({}) + b'\n']
    for size in range(1, 8):
        for text in texts:
            yield from in_pieces(program, text, size)


def many_pieces(program):
    """As many pieces as a list may have lines: in such a pipe each write is a read of its own."""
    uses = [b'%d\n' % (use % 4) for use in range(1_000_000)]
    with program.fed(os.O_DIRECT) as (child, feed):
        if not all(map(feed.write, [b'3\n', b'4\n', *uses])):
            yield 'not all is read'
        feed.close()
        yield from judged(program.end(child), b'3\n4\n' + b''.join(uses), f'{len(uses)} pieces')


def great_pieces(program):
    """About as many bytes as are read at a time."""
    text = some_list(40_000)
    assert len(text) > 2 * PIECE
    for size in PIECE - 1, PIECE, PIECE + 1, 2 * PIECE, 4096:
        yield from in_pieces(program, text, size)


def piece_ends(program):
    """Zeros in front of N move each byte of a list over the end of a piece."""
    numbers = joined([b'65536', *[b'12345', b'7', b'60000', b'12', b'0'] * 30_000])[:PIECE + 200]
    for text in numbers, numbers[:PIECE - 20] + b'\n\n0\n', numbers[:PIECE - 20] + b'x\n0\n', numbers[:PIECE - 20] + b'\n65536\n0\n':
        for zeros in range(40):
            shifted = b'0' * zeros + b'5\n' + text
            yield from judged(program.over_file(shifted)[0], shifted, f'{zeros} zeros before {text[-12:]!r}')


def waits(program):
    """While the pipe is open nothing is written: more numbers may come."""
    for text in b'3\n4\n', b'3\n4\n0', b'3\n4\n0\n1\n2\n3\n0\n', some_list(40_000):
        with program.fed() as (child, feed):
            if not (feed.write(text) and feed.taken() and program.sleeps(child)) or os.fstat(program.out).st_size:
                yield f'{text[:20]!r}: it ends before its input'
            feed.close()
            yield from judged(program.end(child), text, f'{text[:20]!r}')


def stops(program):
    """At a bad line it ends, although the pipe stays open; within the line if that cannot become good any more."""
    long = b'3\n4\n' + b'0\n' * 1_000_000
    for text in (b'0\n', b'1025\n', b'x', b'3\n\n', b'3\n-', b'3\n65537', b'3\n4\n4\n', b'3\n4\n0 ', b'3\n4\n99999', b'3\n4\n0\n0\n65537',
                 b'3\n4\n\n', sixty({50: b'4'}), sixty({50: b'\0'}), long + b'0', long + b'\n', long[:-2] + b'4\n'):
        with program.fed() as (child, feed):
            feed.write(text)
            yield from judged(program.end_open(child, feed), text, f'{text[-12:]!r}, and the pipe stays open')


def endless(program):
    """A writer that never ends is stopped by the program's end."""
    for text, more, line in ((b'3\n4\n9\n', b'0\n', 3), (b'3\n4\n9\n', b'0', 3), (b'3\n4\n', b'9', 3), (b'3\n', b'7', 2), (b'x', b'0\n', 1),
                             (b'', b'\n', 1), (b'3\n4\n', b'0\n', 1_000_003)):
        with program.fed() as (child, feed):
            part, most = more * (PIECE // len(more)), ENDLESS // PIECE
            heard = feed.write(text)
            while heard and most:
                heard, most = feed.write(part), most - 1
            feed.close()
            ran = program.end(child)
            if heard or not right(ran, bad(line)):
                yield f'{text!r} and {more!r} without end: {ran}{", and it reads on" if heard else ""}'


def memory_of(child):
    """The most memory that the program itself has had so far, in bytes."""
    with open(f'/proc/{child}/status', encoding='ascii') as status:
        return next(1024 * int(line.split()[1]) for line in status if line.startswith('VmHWM:'))


def most_memory(program, parts, line):
    """Its memory when it has read all parts, and what is wrong with its line."""
    with program.fed() as (child, feed):
        whole = all(map(feed.write, parts)) and feed.taken()
        most = memory_of(child) if whole else None
        feed.close()
        ran = program.end(child)
        return most, [] if right(ran, line) else [f'{ran}, not {line}']


def memory(program):
    """A long input takes no more memory than a short one: zeros in front of a number, and as many numbers as there may be."""
    few, wrong = most_memory(program, [b'3\n4\n0\n'], b'0 1 0\n')
    zeros = [b'0' * MEBIBYTE] * (ZEROS // MEBIBYTE)
    longest = b'65535\n' * 1_000_000
    for what, parts, line in (('zeros', [b'3\n4\n', *zeros, b'1\n2\n'], b'0 2 0\n'),
                              ('numbers', [b'3\n65536\n', longest], b'999999 1 0\n')):
        most, other = most_memory(program, parts, line)
        wrong += other
        if few is None or most is None or most > few + MORE_MEMORY:
            wrong.append(f'{what}: {most} bytes of memory, and {few} for a short input')
    return wrong


def failing(program):
    """A read that fails: the line that was not read is reported."""
    if not right(program.over(None), bad(1)):
        yield 'a closed standard input'
    for path, flags in ('/', os.O_RDONLY), ('/dev/null', os.O_WRONLY), ('/dev/null', os.O_RDONLY):
        stdin = os.open(path, flags)
        if not right(program.over(stdin), bad(1)):
            yield f'{path}, opened with {flags}'
        os.close(stdin)
    # the pipe has no more just now, and the reader asked not to wait
    for text, line in ((b'', 1), (b'3', 1), (b'3\n', 2), (b'3\n4', 2), (b'3\n4\n', 3), (b'3\n4\n0', 3), (b'3\n4\n0\n', 4),
                       (b'3\n4\n0\n1', 4), (b'3\nx', 2), (sixty({}), 63), (sixty({}, b''), 62), (sixty({50: b''}), 50)):
        with pipe() as (source, sink):
            sink.write(text)
            fcntl.fcntl(source, fcntl.F_SETFL, os.O_NONBLOCK)
            ran = program.over(source.fileno())
            if not right(ran, bad(line)):
                yield f'{text[-12:]!r}, and then a read that fails: {ran}'


CHECKS = {check.__name__: check for check in (few_bytes, many_pieces, great_pieces, piece_ends, waits, stops, endless, memory, failing)}


def main():
    program, names, failed = Program(sys.argv[1]), sys.argv[2:] or CHECKS, 0
    for name in names:
        wrong = next(iter(CHECKS[name](program)), None)
        failed += wrong is not None
        print(f'{"passed" if wrong is None else "FAILED"}: {name}. {CHECKS[name].__doc__}')
        if wrong is not None:
            print('   ', wrong[:300])
    print(len(names) - failed, failed)
    sys.exit(failed > 0)


main()
