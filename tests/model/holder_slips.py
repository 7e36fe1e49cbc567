"""Planted errors about the calls by holders, as slips.py has them. Its lists take these in."""
from memory import FILE_WORDS, HOLDERS
from pool import MOST_COUNT, Pool, refuse
from words import PIN_BITS, USAGE_ONE, pins, usage


class UnpinLowersTheWord(Pool):
    """At every unpin."""

    def unpin(self, holder, i):
        super().unpin(holder, i)
        if self.count(i, holder):
            self.m.states[i] -= 1


class EveryPinRaisesUsage(Pool):
    def arrive(self, i, holder):
        again = self.count(i, holder) != 0
        super().arrive(i, holder)
        if again:
            self.m.states[i] = self.raised(self.m.states[i], self.cap())


class EveryPinInTheWord(Pool):
    def arrive(self, i, holder):
        again = self.count(i, holder) != 0
        super().arrive(i, holder)
        self.m.states[i] += again


class UsageOfTheFirstHolder(Pool):
    """It rises where no other holder has the page."""

    def arrive(self, i, holder):
        alone, before = pins(self.m.states[i]) == 0, usage(self.m.states[i])
        super().arrive(i, holder)
        if not alone:
            self.m.states[i] -= (usage(self.m.states[i]) - before) * USAGE_ONE


class EightByTheWord(Pool):
    """Whoever has the page."""

    def check_buffer(self, holder, i):
        self.check_holder(holder)
        refuse(7, i >= self.m.n)
        refuse(8, pins(self.m.states[i]) == 0)

    def unpin(self, holder, i):
        self.check_buffer(holder, i)
        if self.count(i, holder):
            super().unpin(holder, i)


class UnpinOfTheFirst(Pool):
    """An unpin takes the pin of the lowest holder that has one."""

    def unpin(self, holder, i):
        self.check_buffer(holder, i)
        super().unpin(min(self.m.private(i)), i)


class ByHolderFirst(Pool):
    """The counts stand holder by holder."""

    def at(self, i, holder):
        return holder * self.m.n + i


class LoadCountsNone(Pool):
    def pin(self, holder, name):
        answer = super().pin(holder, name)
        if not answer[1]:
            self.set_count(answer[0], holder, 0)
        return answer


class LoadCountsTheFirst(Pool):
    """The pin is holder 0's."""

    def pin(self, holder, name):
        answer = super().pin(holder, name)
        if not answer[1]:
            self.set_count(answer[0], holder, 0)
            self.set_count(answer[0], 0, 1)
        return answer


class SweepByHolder(Pool):
    """A page that only others have is a victim; 6 goes by the holder too."""

    def pin(self, holder, name):
        self.by = holder
        return super().pin(holder, name)

    def sweep(self):
        states = list(self.m.states)
        for i in range(self.m.n):
            if not self.count(i, self.by):
                self.m.states[i] -= pins(states[i])
        victim = super().sweep()
        for i in range(self.m.n):
            if i != victim[0]:
                self.m.states[i] += pins(states[i]) - pins(self.m.states[i])
        return victim


class DropByHolder(Pool):
    """14 is for pins of holder 0 alone."""

    def drop(self, key):
        states = list(self.m.states)
        for i in self.m.used():
            if not self.count(i, 0):
                self.m.states[i] -= pins(states[i])
        super().drop(key)
        for i in self.m.used():
            self.m.states[i] += pins(states[i]) - pins(self.m.states[i])


# 19

class NineteenBelowThree(Pool):
    def pin(self, holder, name):
        self.check_key(name[:FILE_WORDS])
        return super().pin(holder, name)


class NineteenBelowSeven(Pool):
    def check_buffer(self, holder, i):
        refuse(7, i >= self.m.n)
        super().check_buffer(holder, i)


class SixtyFiveHolders(Pool):
    """Holder 64's count is the next buffer's first."""

    def check_holder(self, holder):
        refuse(19, holder > HOLDERS)


class SixtyThreeHolders(Pool):
    def check_holder(self, holder):
        refuse(19, holder >= HOLDERS - 1)


class CutsHolder(Pool):
    """To 32 bits."""

    def call(self, call, *answer):
        return super().call((call[0], call[1] % 2**32, *call[2:]) if call[0] in ('pin', 'unpin', 'give_back') else call, *answer)


# give back

class GiveBackOfTheNext(Pool):
    """Of another holder, and not of the one named."""

    def give_back(self, holder):
        self.check_holder(holder)
        super().give_back((holder + 1) % HOLDERS)


class GiveBackLeavesTheWord(Pool):
    def give_back(self, holder):
        states = list(self.m.states)
        super().give_back(holder)
        self.m.states[:] = states


class GiveBackEmptiesAll(Pool):
    def give_back(self, holder):
        for one in [holder, *range(HOLDERS)]:
            super().give_back(one)


class GiveBackOnePin(Pool):
    """Of each page."""

    def give_back(self, holder):
        self.check_holder(holder)
        for i in range(self.m.n):
            if self.count(i, holder):
                self.unpin(holder, i)


class GiveBackOnePage(Pool):
    def give_back(self, holder):
        self.check_holder(holder)
        own = [i for i in range(self.m.n) if self.count(i, holder)]
        if own:
            self.leave(own[0], holder)


class GiveBackLowersByTheCount(Pool):
    """The word falls by as many as the holder's pins, down to 0."""

    def leave(self, i, holder):
        lower = min(self.count(i, holder), pins(self.m.states[i]))
        super().leave(i, holder)
        self.m.states[i] -= lower - 1


class GiveBackLowersUsage(Pool):
    def give_back(self, holder):
        self.check_holder(holder)
        for i in range(self.m.n):
            if self.count(i, holder) and usage(self.m.states[i]):
                self.m.states[i] -= USAGE_ONE
        super().give_back(holder)


class GiveBackOfNothingIsEight(Pool):
    def give_back(self, holder):
        self.check_holder(holder)
        refuse(8, not any(self.count(i, holder) for i in range(self.m.n)))
        super().give_back(holder)


class GiveBackAnswersPages(Pool):
    def give_back(self, holder):
        self.check_holder(holder)
        pages = sum(self.count(i, holder) != 0 for i in range(self.m.n))
        super().give_back(holder)
        return pages,


class GiveBackWritesBack(Pool):
    def give_back(self, holder):
        super().give_back(holder)
        self.checkpoint()


# seen from a sound memory

class FiveAtTheWordsBits(Pool):
    """As the published word has it."""

    def full(self, i, holder):
        return self.count(i, holder) == PIN_BITS


class FiveAtAByte(Pool):
    def full(self, i, holder):
        return self.count(i, holder) == 255


class FiveByAnyHolder(Pool):
    def full(self, i, holder):
        return MOST_COUNT in self.m.private(i).values()


class FiveAtEveryHolder(Pool):
    """A page that every holder has gets no pin more."""

    def full(self, i, holder):
        return super().full(i, holder) or pins(self.m.states[i]) == HOLDERS


POOLS = [UnpinLowersTheWord, EveryPinRaisesUsage, EveryPinInTheWord, UsageOfTheFirstHolder, EightByTheWord, UnpinOfTheFirst, ByHolderFirst,
         LoadCountsNone, LoadCountsTheFirst, SweepByHolder, DropByHolder, NineteenBelowThree, NineteenBelowSeven, SixtyFiveHolders,
         SixtyThreeHolders, CutsHolder, GiveBackOfTheNext, GiveBackLeavesTheWord, GiveBackEmptiesAll, GiveBackOnePin, GiveBackOnePage,
         GiveBackLowersByTheCount, GiveBackLowersUsage, GiveBackOfNothingIsEight, GiveBackAnswersPages, GiveBackWritesBack]
LENT = [FiveAtTheWordsBits, FiveAtAByte, FiveByAnyHolder, FiveAtEveryHolder]
CLAIMED = {'isolation': [UnpinOfTheFirst, SweepByHolder, DropByHolder, GiveBackOfTheNext, GiveBackEmptiesAll],
           'counts': [LoadCountsTheFirst, GiveBackOnePin, GiveBackOnePage]}
WRONG_NUMBERS = [EightByTheWord, NineteenBelowThree, NineteenBelowSeven, CutsHolder]
