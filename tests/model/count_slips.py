"""Planted errors about private counts in books, at set up and on the shelf, as slips.py has them. Its lists take these in."""
from memory import HOLDERS
from pool import MOST_COUNT, Pool, Refused, refuse
from shelf import Shelf
from words import PIN_BITS, pins


# books and sizes, seen in damaged memories

class BooksLookAt63(Pool):
    def holders(self, i):
        return super().holders(i) - (self.count(i, HOLDERS - 1) != 0)


class BooksSumTheCounts(Pool):
    def holders(self, i):
        return sum(self.m.private(i).values())


class BooksTakeMorePins(Pool):
    def holders(self, i):
        return max(pins(self.m.states[i]), super().holders(i))


class BooksTakeFewerPins(Pool):
    def holders(self, i):
        return min(pins(self.m.states[i]), super().holders(i))


class BooksSkipEmpty(Pool):
    def holders(self, i):
        return super().holders(i) if self.m.states[i] else 0


class BooksCutPins(Pool):
    """To 16 bits."""

    def holders(self, i):
        return super().holders(i) + pins(self.m.states[i]) // 2**16 * 2**16


class BooksCutPinsToAByte(Pool):
    def holders(self, i):
        return super().holders(i) + pins(self.m.states[i]) // 2**8 * 2**8


class BooksCountInAll(Pool):
    """The sum of the words' pin counts is that of the holders."""

    def holders(self, i):
        every = range(self.m.n)
        return pins(self.m.states[i]) + sum(super(BooksCountInAll, self).holders(j) - pins(self.m.states[j]) for j in every)


class SizesTakeAnyCounts(Pool):
    """A count that isn't there is 0, and those behind are not looked at. At set up too."""

    def sizes_fit(self, page_size):
        length = self.m.n * HOLDERS
        self.m.counts = (self.m.counts + [0] * length)[:length]
        return super().sizes_fit(page_size)


# at set up

class LeavesCounts(Pool):
    def set_up(self, page_size, position, cap):
        counts = list(self.m.counts)
        super().set_up(page_size, position, cap)
        self.m.counts[:] = counts


class ClearsOneHolder(Pool):
    def set_up(self, page_size, position, cap):
        counts = list(self.m.counts)
        super().set_up(page_size, position, cap)
        self.m.counts[self.m.n:] = counts[self.m.n:]


# the shelf

class ShelfEightByAny(Shelf):
    def check_unpin(self, holder, buffer):
        refuse(7, buffer >= self.n)
        refuse(8, buffer not in self.holds)

    def unpin(self, holder, buffer):
        if self.count(holder, self.holds[buffer]):
            super().unpin(holder, buffer)


class ShelfLetsGoEarly(Shelf):
    """A number holds none as soon as one holder has left."""

    def unpin(self, holder, buffer):
        page = self.holds[buffer]
        super().unpin(holder, buffer)
        if not self.count(holder, page):
            self.holds.pop(buffer, None)


class ShelfSixByHolder(Shelf):
    """Of each holder the pages are counted apart."""

    def check_pin(self, holder, name):
        self.check_peek(name)
        refuse(5, self.count(holder, name) == MOST_COUNT)
        own = {page for (one, page), count in self.counts.items() if count and one == holder}
        refuse(6, not self.count(holder, name) and len(own) == self.n)


class ShelfFourteenByHolder(Shelf):
    """Of holder 0 alone."""

    def check_drop(self, key):
        kept, self.counts = self.counts, {at: count for at, count in self.counts.items() if at[0] == 0}
        try:
            super().check_drop(key)
        finally:
            self.counts = kept


class ShelfNineteenLast(Shelf):
    def check_holder(self, holder):
        pass

    def refuses(self, call):
        number = super().refuses(call)
        if number or call[0] not in ('pin', 'give_back'):
            return number
        try:
            super().check_holder(call[1])
        except Refused as refusal:
            return refusal.args[0]
        return 0


class ShelfGiveBackHolds(Shelf):
    """The numbers hold their pages still."""

    def give_back(self, holder):
        holds = dict(self.holds)
        super().give_back(holder)
        self.holds = holds


class ShelfGiveBackOfAll(Shelf):
    def give_back(self, holder):
        for one in range(HOLDERS):
            super().give_back(one)


class ShelfGiveBackCountsStay(Shelf):
    """Where another holder has the page."""

    def give_back(self, holder):
        kept = {at: count for at, count in self.counts.items() if at[0] == holder}
        super().give_back(holder)
        self.counts.update({at: count for at, count in kept.items() if self.has_pins(at[1])})


# the shelf's refusals at its limits

class ShelfFiveAtTheWordsBits(Shelf):
    def check_pin(self, holder, name):
        self.check_peek(name)
        refuse(5, self.count(holder, name) == PIN_BITS)
        refuse(6, not self.has_pins(name) and len(self.pinned()) == self.n)


class ShelfFiveByAnyHolder(Shelf):
    def check_pin(self, holder, name):
        self.check_peek(name)
        refuse(5, any(self.count(one, name) == MOST_COUNT for one in range(HOLDERS)))
        super().check_pin(holder, name)


BOOKS = [BooksLookAt63, BooksSumTheCounts, BooksTakeMorePins, BooksTakeFewerPins, BooksSkipEmpty, BooksCutPins, BooksCutPinsToAByte,
         BooksCountInAll, SizesTakeAnyCounts]
SET_UPS = [SizesTakeAnyCounts, LeavesCounts, ClearsOneHolder]
SHELVES = [ShelfEightByAny, ShelfLetsGoEarly, ShelfSixByHolder, ShelfFourteenByHolder, ShelfNineteenLast, ShelfGiveBackHolds,
           ShelfGiveBackOfAll, ShelfGiveBackCountsStay]
LIMITS = [ShelfFiveAtTheWordsBits, ShelfFiveByAnyHolder]
