"""Planted errors about the cap, as slips.py has them. Its lists take these in."""
from memory import ANSWER_WORDS, CAP, FLUSHED
from pool import Pool, refuse
from shelf import Shelf
from words import USAGE_ONE, usage


class RaisesWithoutCap(Pool):
    def raised(self, word, cap):
        return word + USAGE_ONE


class RaisesPastCap(Pool):
    """To cap + 1, and the books refuse it."""

    def raised(self, word, cap):
        return super().raised(word, cap + 1)


class UsagePastCap(RaisesPastCap):
    """And the books take it."""

    def word_sound(self, word, cap):
        return super().word_sound(word, cap + 1)


class RaisesToFive(Pool):
    def raised(self, word, cap):
        return super().raised(word, 5)


class BooksTakeFive(Pool):
    def word_sound(self, word, cap):
        return super().word_sound(word, 5)


class CapInWordFour(Pool):
    def cap(self):
        return self.m.control[FLUSHED]


class PinRaisesCap(Pool):
    """A page at the cap is pinned once more."""

    def raised(self, word, cap):
        if usage(word) == cap < 15:
            self.m.control[CAP] += 1
        return super().raised(word, self.m.control[CAP])


class CheckpointSetsFive(Pool):
    def checkpoint(self):
        self.m.control[CAP] = 5
        return super().checkpoint()


# seen from a sound memory

class SweepsSixEach(Pool):
    """It gives up after six probes for each buffer, which are enough for cap 5."""

    def sweep(self):
        victim, probes = super().sweep()
        refuse(6, probes > 6 * self.m.n)
        return victim, probes


# seen in damaged memories, the first three at set up too

class TakesCapZero(Pool):
    def cap_fits(self, cap):
        return cap == 0 or super().cap_fits(cap)


class TakesCapSixteen(Pool):
    def cap_fits(self, cap):
        return cap == 16 or super().cap_fits(cap)


class CutsCap(Pool):
    """To 32 bits."""

    def cap_fits(self, cap):
        return super().cap_fits(cap % 2**32)


class BooksTakeAnyCap(Pool):
    def books_sound(self):
        self.cap_fits = lambda cap: True
        return super().books_sound()


class SizesTakeFiveWords(Pool):
    """A control record without the cap, which is 5 then."""

    def sizes_fit(self, page_size):
        if len(self.m.control) == CAP:
            self.m.control.append(5)
        return super().sizes_fit(page_size)


# at set up

class EighteenAboveOne(Pool):
    def call(self, call, answer):
        outcome = super().call(call, answer)
        if outcome.number == 1 and len(answer) == ANSWER_WORDS and not self.cap_fits(call[3]):
            outcome.number = 18
        return outcome


class LeavesCap(Pool):
    """As it stood in the control record before."""

    def set_up(self, page_size, position, cap):
        before = self.m.control[CAP]
        super().set_up(page_size, position, cap)
        self.m.control[CAP] = before


class StoresBadCap(Pool):
    """Where it refuses it."""

    def call(self, call, answer):
        outcome = super().call(call, answer)
        if outcome.number == 18:
            outcome.memory.control[CAP] = call[3]
        return outcome


# the ledger

class LedgerTakesFive(Shelf):
    def __init__(self, memory):
        super().__init__(memory)
        self.cap = 5


POOLS = [RaisesWithoutCap, RaisesPastCap, UsagePastCap, RaisesToFive, BooksTakeFive, CapInWordFour, PinRaisesCap, CheckpointSetsFive]
LENT = [SweepsSixEach]
BOOKS = [TakesCapZero, TakesCapSixteen, CutsCap, BooksTakeAnyCap, SizesTakeFiveWords]
SET_UPS = [TakesCapZero, TakesCapSixteen, CutsCap, EighteenAboveOne, LeavesCap, StoresBadCap]
SHELVES = [LedgerTakesFive]
CLAIMED = {'cap': [PinRaisesCap, CheckpointSetsFive], 'probes': [UsagePastCap]}
