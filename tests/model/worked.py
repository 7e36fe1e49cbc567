"""The model against what is printed: the worked pages of the paper, FNV-1a's published values, and checksums as PostgreSQL's
checksum_impl.h gives them, compiled for blocks of each size. Status 1 if one differs."""
import sys

from checksum import checksum
from lists import run
from memory import ANSWER_WORDS, CONTROL_WORDS, HAND, HOLDERS, NAME_WORDS, NO_TOP, TOP, Memory
from pool import Pool
from words import fnv_1a, name_bytes, pack_position, unpack_position

KEY = (1663, 5, 16384, 0)
THREE = [('pin', 0, KEY + (block,)) for block in range(3)]
UNPINNED = THREE + [('unpin', 0, buffer) for buffer in range(3)]


def worked_pool(cap):
    """N = 3, B = 3, P = 1024, log 100; one file with 4 blocks of zeros, capacity 5. On the bench the cap is 5."""
    lent = Memory([0] * CONTROL_WORDS, [7] * 3, [7] * (3 * NAME_WORDS), bytearray(3072), [7] * 3, [7] * 3, [7] * 3, [*KEY, 4, 5],
                  bytearray(5120), [7] * (3 * HOLDERS))
    return Pool(lent).call(('set_up', 1024, 100, cap)).memory


def seen(calls, last=1, cap=5):
    """The numbers and answers of the last calls of a list, and the memory afterwards."""
    outcomes = run(Pool, worked_pool(cap), calls)
    return [(o.number, o.answer) for o in outcomes[-last:]], outcomes[-1].memory


def numbers(calls, last):
    return [number for number, _ in seen(calls, last)[0]]


def pin(block, holder=0):
    return 'pin', holder, KEY + (block,)


def write(start, data, position=100):
    return 'write', 0, 0, start, data, position


def free_list(m):
    at, members = m.control[TOP], []
    while at not in (NO_TOP, -1):
        members.append(at)
        at = m.free[at]
    return members


def ramp(step, first, size):
    return bytes((step * k + first) % 251 for k in range(size))


def sums():
    """What it is of, the model's checksum, the header's."""
    yield 'zeros, block 0', checksum(0, bytes(1024)), 35928
    yield 'ones, block 65535', checksum(65535, b'\xff' * 1024), 16265
    yield 'a ramp, blocks 0 and 1', [checksum(block, ramp(7, 3, 1024)) for block in (0, 1)], [6928, 6927]
    yield 'the last block', checksum(4294967295, ramp(13, 1, 1024)), 24463
    larger = [2048, 4096, 8192, 16384, 32768]
    yield 'a ramp, larger', [checksum(0, ramp(7, 3, size)) for size in larger], [27551, 3770, 19518, 10796, 7654]
    yield 'another ramp, larger', [checksum(0, ramp(13, 1, size)) for size in larger], [43741, 39545, 28217, 20046, 50611]


def cases():
    """Letter, what the model gives, what the paper has."""
    yield 'FNV-1a of nothing', fnv_1a(b''), 0x811c9dc5
    yield 'FNV-1a of a', fnv_1a(b'a'), 0xe40c292c
    yield 'FNV-1a of foobar', fnv_1a(b'foobar'), 0xbf9cf968
    yield 'A', name_bytes((16821, 16384, 37721, 0, 7)).hex(), 'b541000000400000599300000000000007000000'
    yield 'B', pack_position(0x116B374D0).hex(), '01000000d074b316'
    yield 'B back', unpack_position(bytes.fromhex('01000000d074b316')), 0x116B374D0
    answers, m = seen(THREE, 3)
    yield 'C', (answers, m.states), ([(0, [i, 0, 0, 0]) for i in range(3)], [0x83040001] * 3)
    answers, m = seen([*THREE, pin(3)])
    yield 'D', (answers, m.control[HAND]), ([(6, [0, 0, 0, 0])], 0)
    answers, m = seen([*UNPINNED, pin(3)])
    yield 'E', (answers, m.control[HAND]), ([(0, [0, 0, 0, 4])], 1)
    answers, m = seen([*UNPINNED, pin(3), pin(0)])
    yield 'E, then', (answers, m.control[HAND]), ([(0, [1, 0, 0, 1])], 2)
    for cap, word in [(5, 0x83140006), (1, 0x83040006), (2, 0x83080006), (14, 0x83180006), (15, 0x83180006)]:
        yield f'F, six holders, cap {cap}', seen([pin(0, holder) for holder in range(6)], cap=cap)[1].states[0], word
    m = seen([pin(0)] * 6)[1]
    yield 'F, one holder six times', (m.states[0], m.counts), (0x83040001, [6, *[0] * (3 * HOLDERS - 1)])
    yield 'G', seen([*THREE, write(8, b'x')])[1].states[0], 0x93840001
    for cap, probes in [(5, 18), (1, 6), (2, 9), (14, 45), (15, 48)]:
        # as many holders as the cap: five on the bench
        answers, _ = seen([*THREE, *(pin(2, holder) for holder in range(1, cap)), *(('unpin', holder, 2) for holder in range(cap)), pin(3)],
                          cap=cap)
        yield f'H, cap {cap}', answers, [(0, [2, 0, 0, probes])]
    write_90 = [*THREE, write(10, bytes([77, 78]), 90), ('flush', 0, 0)]
    yield 'a page written back', seen(write_90)[1].store[4:12].hex(), '5a0000008d8e4d4e'
    yield 'its pool page', seen(write_90)[1].pool[4:12].hex(), '5a00000000004d4e'
    yield 'I', numbers([*THREE, write(8, b'x', 101), write(8, b'x', 100), write(8, b'x', 99)], 3), [11, 0, 12]
    yield 'J', free_list(seen([*UNPINNED, ('drop', KEY)])[1]), [2, 1, 0]
    edges = [write(7, b'x'), write(8, b'x'), write(1020, b'four'), write(1020, b'fives'), write(1024, b'')]
    yield 'writes at the edges', numbers([*THREE, *edges], 5), [9, 0, 0, 9, 10]
    yield 'reads at the edges', numbers([*THREE, ('read', 0, 0, 1024, b''), ('read', 0, 0, 1025, b'')], 2), [0, 9]
    none = [0] * ANSWER_WORDS
    yield 'block 4', seen([pin(4), ('extend', KEY), ('extend', KEY)], 3)[0], [(4, none), (0, [4, 0, 0, 0]), (13, none)]


if __name__ == '__main__':
    wrong = [f'{letter}: {gives}, not {has}' for letter, gives, has in [*cases(), *sums()] if gives != has]
    sys.exit('\n'.join(wrong) or 0)
