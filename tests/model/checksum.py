"""The checksum of a page as PostgreSQL's checksum_impl.h has it, over as many bytes as the page has."""
import functools
import struct

AT = slice(8, 10)  # where it stands in a page of the store, the low byte first
STARTS = (
    0x5B1F36E9, 0xB8525960, 0x02AB50AA, 0x1DE66D2A, 0x79FF467A, 0x9BB9F8A3, 0x217E7CD2, 0x83E13D2C,
    0xF8D4474F, 0xE39EB970, 0x42C6AE16, 0x993216FA, 0x7B093B5D, 0x98DAFF3C, 0xF718902A, 0x0B1C9CDB,
    0xE58F764B, 0x187636BC, 0x5D7B3BB1, 0xE73DE7DE, 0x92BEC979, 0xCCA6C0B2, 0x304A0979, 0x85AA43D4,
    0x783125BB, 0x6CA8EAA2, 0xE407EAC6, 0x4B5CFC3E, 0x9FBF8C76, 0x15CA20BE, 0xF2CA9FD3, 0x959BD756)


def pack_sum(number):
    return struct.pack('<H', number)


def unpack_sum(page):
    return struct.unpack('<H', bytes(page[AT]))[0]


def with_sum(page, two):
    """A page with other bytes 8 and 9."""
    return bytes(page[:AT.start]) + two + bytes(page[AT.stop:])


def bare(data, start=0):
    """Bytes from a page's byte start on, those of its bytes 8 and 9 as zeros."""
    return bytes(0 if AT.start <= start + k < AT.stop else byte for k, byte in enumerate(data))


@functools.lru_cache(None)
def summed(page, starts=STARTS, last=2):
    """The 32 sums of a page as one word: row by row, then some rounds of zeros."""
    row = struct.Struct(f'<{len(starts)}I')
    rows = [row.unpack_from(page, at) for at in range(0, len(page) - row.size + 1, row.size)] + [(0,) * len(starts)] * last
    result = 0
    for j, value in enumerate(starts):
        for row in rows:
            value ^= row[j]
            value = value * 16777619 % 2**32 ^ value >> 17
        result ^= value
    return result


def checksum(block, page):
    """The checksum of a block by its number; its own two bytes count as zeros."""
    return (summed(with_sum(page, bytes(2))) ^ block) % 65535 + 1
