"""State words, log positions and the hash of names, as the paper has them."""
import struct

from memory import NAME_WORDS

PIN_BITS, USAGE_ONE = 262143, 1 << 18
DIRTY, VALID, TAG_VALID, JUST_DIRTIED, PERMANENT = 1 << 23, 1 << 24, 1 << 25, 1 << 28, 1 << 31
CLEAN_FLAGS = VALID | TAG_VALID | PERMANENT
DIRTY_FLAGS = DIRTY | JUST_DIRTIED


def name_bytes(name):
    return struct.pack(f'<{NAME_WORDS}I', *name)


def fnv_1a(data):
    value = 2166136261
    for byte in data:
        value = (value ^ byte) * 16777619 % 2**32
    return value


def pins(word):
    return word & PIN_BITS


def usage(word):
    return word >> 18 & 15


def pack_position(position):
    """A log position as the first 8 bytes of a page: the high word, then the low word."""
    return struct.pack('<2I', position >> 32, position % 2**32)


def unpack_position(page):
    high, low = struct.unpack('<2I', bytes(page[:8]))
    return high << 32 | low
