"""Page names with their bytes and hash, from document 01's words alone: what the library is compared with.

vectors.py            writes a line for each name: its numbers, its bytes in hexadecimal digits, the hash
vectors.py --known    checks this file against published values of FNV-1a and document 01's case A
"""
import random
import sys

RANDOM_NAMES = 120_000
SEED = 20260101
WORD, WORD_BYTES = 2**32, 4
NAME_WORDS = 5  # tablespace, database, relation, fork, block
NAME_BYTES = NAME_WORDS * WORD_BYTES
CASE_A = (16821, 16384, 37721, 0, 7)
CASE_A_BYTES = bytes.fromhex('B5410000 00400000 59930000 00000000 07000000')
# about each byte's end, and about a sign bit
EDGES = (0, 1, 0x7F, 0x80, 0xFF, 0x100, 0xFFFF, 0x10000, 0xFFFFFF, 0x1000000, 0x7FFFFFFF, 0x80000000, 0xFFFFFFFF)
# from the published test vectors of 32-bit FNV-1a
PUBLISHED = {b'': 0x811C9DC5, b'a': 0xE40C292C, b'b': 0xE70C2DE5, b'foobar': 0xBF9CF968}


def name_bytes(name):
    """Little-endian words in order are one little-endian number."""
    return sum(number * WORD**place for place, number in enumerate(name)).to_bytes(NAME_BYTES, 'little')


def fnv_1a(some):
    h = 2166136261
    for byte in some:
        h = (h ^ byte) * 16777619 % WORD
    return h


def edge_names():
    yield CASE_A
    for number in EDGES:
        yield (number,) * NAME_WORDS
        for place in range(NAME_WORDS):
            yield tuple(number if k == place else 0 for k in range(NAME_WORDS))
    for fork in EDGES:  # the hash goes by how many bytes fork and block have
        for block in EDGES:
            yield (1663, 5, 37721, fork, block)
    for bit in range(8 * NAME_BYTES):
        yield tuple((1 << bit) // WORD**place % WORD for place in range(NAME_WORDS))


def random_names(source):
    """One half any words, the other half names as a shop has them."""
    for k in range(RANDOM_NAMES):
        if k % 2 == 0:
            yield tuple(source.getrandbits(32) for _ in range(NAME_WORDS))
        else:
            yield (1663, source.randrange(1, 20), source.randrange(16384, 65536), source.randrange(3), source.randrange(65536))


def main():
    if sys.argv[1:] == ['--known']:
        wrong = [text for text, h in PUBLISHED.items() if fnv_1a(text) != h]
        if name_bytes(CASE_A) != CASE_A_BYTES:
            wrong.append('case A')
        sys.exit(f'known values differ: {wrong}' if wrong else 0)
    for name in (*edge_names(), *random_names(random.Random(SEED))):
        some = name_bytes(name)
        print(*name, some.hex(), fnv_1a(some))


main()
