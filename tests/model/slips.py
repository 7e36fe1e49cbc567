"""Planted errors: models that are wrong in one thing each. Each must give a theorem that the checker refuses."""
import struct

import cap_slips
import count_slips
import holder_slips
from checksum import AT, checksum, pack_sum, summed, unpack_sum, with_sum
from memory import BLOCK, BLOCKS, CAPACITY, FILE_WORDS, HAND, NO_TOP, ROW_WORDS, TOP
from pool import Pool, Refused, refuse
from shelf import Shelf, came_bad
from words import DIRTY, USAGE_ONE, name_bytes, pins, usage


class SweepLowersPinned(Pool):
    def sweep(self):
        m, probes, pinned_in_a_row = self.m, 0, 0
        while pinned_in_a_row < m.n:
            i = m.control[HAND]
            m.control[HAND] = (i + 1) % m.n
            probes += 1
            was = m.states[i]
            if usage(was) > 0:
                m.states[i] -= USAGE_ONE
            pinned_in_a_row = pinned_in_a_row + 1 if pins(was) else 0
            if not pins(was) and usage(was) == 0:
                return i, probes
        raise Refused(6)


class SweepLowersThenTests(Pool):
    """Document 004's: lowers first, tests after, gives up after N tries."""

    def sweep(self):
        m = self.m
        for probes in range(1, m.n + 1):
            i = m.control[HAND]
            m.control[HAND] = (i + 1) % m.n
            if usage(m.states[i]) > 0:
                m.states[i] -= USAGE_ONE
            if not pins(m.states[i]) and usage(m.states[i]) == 0:
                return i, probes
        raise Refused(6)


class PositionAsOneNumber(Pool):
    def position(self, i):
        return struct.unpack('<Q', bytes(self.m.pool[self.m.page(i)][:8]))[0]

    def set_position(self, i, position):
        start = self.m.page(i).start
        self.m.pool[start:start + 8] = struct.pack('<Q', position)


class DropPushesFalling(Pool):
    def drop_order(self, pages):
        return reversed(pages)


class WriteBackForgetsFlushed(Pool):
    def write_back(self, i):
        before = list(self.m.control)
        written = super().write_back(i)
        self.m.control[:] = before
        return written


class WriteBackLeavesJustDirtied(Pool):
    def write_back(self, i):
        before = self.m.states[i]
        written = super().write_back(i)
        self.m.states[i] = before & ~DIRTY
        return written


class VictimIsReloadedFirst(Pool):
    """A dirty victim's block gets the page that is loaded over it."""

    def pin(self, holder, name):
        names = [self.m.name(i) for i in range(self.m.n)]
        answer = super().pin(holder, name)
        if answer[2]:
            self.m.store[self.m.block(names[answer[0]])] = self.m.pool[self.m.page(answer[0])]
        return answer


class ChainEntersAtTail(Pool):
    def enter_chain(self, i):
        link = self.m.heads[self.bucket(self.m.name(i))]
        if link == -1:
            super().enter_chain(i)
            return
        while self.m.chain[link] != -1:
            link = self.m.chain[link]
        self.m.chain[link] = i


class HashMultipliesFirst(Pool):
    """FNV-1, not FNV-1a."""

    def bucket(self, name):
        value = 2166136261
        for byte in name_bytes(name):
            value = value * 16777619 % 2**32 ^ byte
        return value % len(self.m.heads)


class ExtendKeepsBytes(Pool):
    def extend(self, key):
        store = bytes(self.m.store)
        answer = super().extend(key)
        self.m.store[:] = store
        return answer


# checksums

class SealsNothing(Pool):
    def sealed(self, name, page):
        return page


class SealsByPlace(Pool):
    """By the place in the store, where PostgreSQL has the block number in its file."""

    def sealed(self, name, page):
        return super().sealed((self.m.place(name),) * (BLOCK + 1), page)


class VerifiesByPlace(Pool):
    def passes(self, name):
        page = self.m.store[self.m.block(name)]
        return not any(page) or unpack_sum(page) == checksum(self.m.place(name), page)


class SealsHighByteFirst(Pool):
    def sealed(self, name, page):
        sealed = super().sealed(name, page)
        return with_sum(sealed, bytes(sealed[AT])[::-1])


class SealsThePoolToo(Pool):
    def write_back(self, i):
        written = super().write_back(i)
        if written:
            self.m.pool[self.m.page(i)] = self.m.store[self.m.block(self.m.name(i))]
        return written


class SealsWithOneRoundOfZeros(Pool):
    def sealed(self, name, page):
        return with_sum(page, pack_sum((summed(with_sum(page, bytes(2)), last=1) ^ name[BLOCK]) % 65535 + 1)) if any(page) else page


class SumsItsOwnBytes(Pool):
    """Bytes 8 and 9 are as they stand in the pool, not zeros."""

    def sealed(self, name, page):
        return with_sum(page, pack_sum((summed(bytes(page)) ^ name[BLOCK]) % 65535 + 1)) if any(page) else page


class PassesWithoutChecksum(Pool):
    """As a cluster without checksums has its pages."""

    def passes(self, name):
        return unpack_sum(self.m.store[self.m.block(name)]) == 0 or super().passes(name)


class RefusesZeros(Pool):
    def passes(self, name):
        return any(self.m.store[self.m.block(name)]) and super().passes(name)


class PinVerifiesNothing(Pool):
    def pin(self, holder, name):
        self.check_page = self.check_name
        return super().pin(holder, name)


class PeekVerifiesNothing(Pool):
    def peek(self, name):
        self.check_page = self.check_name
        return super().peek(name)


class SeventeenBelowSix(Pool):
    def pin(self, holder, name):
        self.check_name(name)
        refuse(6, self.held(name) is None and all(map(pins, self.m.states)))
        return super().pin(holder, name)


class SeventeenAboveFour(Pool):
    def check_page(self, name):
        f = self.check_key(name[:FILE_WORDS])
        refuse(17, name[BLOCK] < self.m.row(f)[CAPACITY] and self.held(name) is None and not self.passes(name))
        super().check_page(name)


class SweepsBeforeItVerifies(Pool):
    """The hand has moved where the pin is refused."""

    def call(self, call, *answer):
        outcome = super().call(call, *answer)
        if call[0] == 'pin' and outcome.number == 17 and self.m.control[TOP] == NO_TOP and not all(map(pins, self.m.states)):
            self.sweep()
        return outcome


class SealsZeros(Pool):
    def sealed(self, name, page):
        return with_sum(page, pack_sum(self.checksum(name, page)))


class TakesMarkedZerosForZeros(Pool):
    """Zeros but for bytes 8 and 9 go out without a checksum."""

    def sealed(self, name, page):
        return super().sealed(name, page) if any(with_sum(page, bytes(2))) else page


# seen from a sound memory

class VerifiesHeldPages(Pool):
    def check_page(self, name):
        self.check_name(name)
        refuse(17, not self.passes(name))


# books and sizes, seen in damaged memories

class BooksTakeAnyFlag(Pool):
    def word_sound(self, word, cap):
        return super().word_sound(word, cap) or super().word_sound(word & ~(1 << 27), cap)


class BooksTakeLongLinks(Pool):
    """A walk that stops at a link which leaves the buffers, as at -1."""

    def walk(self, link, links):
        return super().walk(link, [value if 0 <= value < self.m.n else -1 for value in links])


class SizesTakeLongerStore(Pool):
    def sizes_fit(self, page_size):
        store = self.m.store
        self.m.store = store[:page_size * sum(self.m.rows[CAPACITY::ROW_WORDS])]
        fits = super().sizes_fit(page_size)
        self.m.store = store
        return fits


# the shelf and its ledger


class ShelfSixForPinned(Shelf):
    def check_pin(self, holder, name):
        self.check_peek(name)
        refuse(6, len(self.pinned()) == self.n)


class ShelfBadForEver(Shelf):
    """After a drop too."""

    def step(self, call, answer):
        bad = set(self.bad)
        result = super().step(call, answer)
        self.bad = bad
        return result


class ShelfBadAboveTheCount(Shelf):
    def __init__(self, memory):
        super().__init__(memory)
        blocks = self.files.rows[BLOCKS::ROW_WORDS]
        self.files.rows[BLOCKS::ROW_WORDS] = self.files.rows[CAPACITY::ROW_WORDS]
        self.bad = self.bad_pages()
        self.files.rows[BLOCKS::ROW_WORDS] = blocks


class ShelfBadByPlace(Shelf):
    def is_bad(self, page):
        return came_bad(self.files.place(page), self.bytes_of(page))


class ShelfGoodWithoutChecksum(Shelf):
    def is_bad(self, page):
        return super().is_bad(page) and unpack_sum(self.bytes_of(page)) != 0


class ShelfSixAboveSeventeen(Shelf):
    def check_pin(self, holder, name):
        bad, self.bad = self.bad, set()
        try:
            super().check_pin(holder, name)
        finally:
            self.bad = bad
        super().check_pin(holder, name)


class ShelfPeeksAtBad(Shelf):
    def step(self, call, answer):
        if call[0] != 'peek':
            return super().step(call, answer)
        bad, self.bad = self.bad, set()
        result = super().step(call, answer)
        self.bad = bad
        return result


class LedgerKeepsDroppedDirty(Shelf):
    def step(self, call, answer):
        dirty = set(self.dirty)
        result = super().step(call, answer)
        if call[0] == 'drop':
            self.dirty = dirty
        return result


class LedgerCountsVictimLate(Shelf):
    """The position counted is the new page's."""

    def written_back(self, call, answer):
        back = super().written_back(call, answer)
        return [tuple(call[2])] if call[0] == 'pin' and back else back


POOLS = [*cap_slips.POOLS, *holder_slips.POOLS, SweepLowersPinned, SweepLowersThenTests, PositionAsOneNumber, DropPushesFalling,
         WriteBackForgetsFlushed, WriteBackLeavesJustDirtied, VictimIsReloadedFirst, ChainEntersAtTail, HashMultipliesFirst,
         ExtendKeepsBytes, SealsNothing, SealsByPlace, VerifiesByPlace, SealsHighByteFirst, SealsThePoolToo, SealsWithOneRoundOfZeros,
         SumsItsOwnBytes, PassesWithoutChecksum, RefusesZeros, PinVerifiesNothing, PeekVerifiesNothing, SeventeenBelowSix,
         SeventeenAboveFour, SweepsBeforeItVerifies, SealsZeros, TakesMarkedZerosForZeros]
LENT = [*cap_slips.LENT, *holder_slips.LENT, VerifiesHeldPages]
BOOKS = [*cap_slips.BOOKS, *count_slips.BOOKS, BooksTakeAnyFlag, BooksTakeLongLinks, SizesTakeLongerStore]
SET_UPS = [*cap_slips.SET_UPS, *count_slips.SET_UPS]
SHELVES = [*cap_slips.SHELVES, *count_slips.SHELVES, ShelfSixForPinned, ShelfBadForEver, ShelfBadAboveTheCount, ShelfBadByPlace,
           ShelfGoodWithoutChecksum, ShelfSixAboveSeventeen, ShelfPeeksAtBad, LedgerKeepsDroppedDirty, LedgerCountsVictimLate]
LIMITS = count_slips.LIMITS
# what the claim about pool and shelf has to say of a wrong pool in Python
CLAIMED = {**cap_slips.CLAIMED, **holder_slips.CLAIMED,
           'sums': [SealsNothing, SealsByPlace, SealsHighByteFirst, SealsWithOneRoundOfZeros, SumsItsOwnBytes,
                    TakesMarkedZerosForZeros],
           'number': [VerifiesByPlace, PassesWithoutChecksum, RefusesZeros, PinVerifiesNothing, PeekVerifiesNothing, SeventeenBelowSix,
                      SeventeenAboveFour, *holder_slips.WRONG_NUMBERS],
           'bytes': [VictimIsReloadedFirst], 'store': [VictimIsReloadedFirst], 'flushed': [WriteBackForgetsFlushed]}
