"""Slips of the pool: free list, sweep, usage counts, and what is counted."""
from model import Model, Pool
from planted import slip


@slip('paper')
class HitLoads(Pool):
    """a hit also counts a load"""

    def hit(self, buffer):
        super().hit(buffer)
        self.loads += 1


@slip('paper')
class HitProbes(Pool):
    """a hit counts a probe"""

    def hit(self, buffer):
        super().hit(buffer)
        self.probes += 1


@slip('paper')
class FreeProbes(Pool):
    """a load from the free list counts a probe"""

    def load(self, block, buffer):
        self.probes += self.block[buffer] is None
        super().load(block, buffer)


@slip('paper')
class TakingProbeForgotten(Pool):
    """the probe that takes is not counted"""

    def sweep(self):
        buffer = super().sweep()
        self.probes -= 1
        return buffer


@slip('paper')
class ProbeTooMany(Pool):
    """a sweep counts one probe too many"""

    def sweep(self):
        self.probes += 1
        return super().sweep()


@slip('paper')
class HandStays(Pool):
    """the hand stays at the buffer that is taken"""

    def sweep(self):
        self.hand = super().sweep()
        return self.hand


@slip('paper')
class HandFromZero(Pool):
    """each sweep begins at buffer 0"""

    def sweep(self):
        self.hand = 0
        return super().sweep()


@slip('small')
class HandFromOne(Pool):
    """the first sweep begins at buffer 1"""

    def __init__(self, buffers):
        super().__init__(buffers)
        self.hand = 1 % buffers


@slip('paper')
class LowersFirst(Pool):
    """the sweep lowers first and tests after"""

    def sweep(self):
        while True:
            buffer = self.hand
            self.probes += 1
            self.hand = (self.hand + 1) % self.buffers
            self.usage[buffer] = max(0, self.usage[buffer] - 1)
            if self.usage[buffer] == 0:
                return buffer


@slip('small')
class TakesUsed(Pool):
    """the sweep gives up lowering after one round and takes what is there"""

    def sweep(self):
        for _ in range(self.buffers):
            buffer = self.hand
            self.probes += 1
            self.hand = (self.hand + 1) % self.buffers
            if self.usage[buffer] == 0:
                return buffer
            self.usage[buffer] -= 1
        return self.hand


@slip('small')
class CapOfFour(Pool):
    """the cap is 4"""
    cap = 4


@slip('small')
class CapOfSix(Pool):
    """the cap is 6"""
    cap = 6


@slip('great')
class NoCap(Pool):
    """usage has no cap below 15"""
    cap = 15


@slip('paper')
class HitsLeaveUsage(Pool):
    """a hit leaves the usage count"""

    def hit(self, buffer):
        self.hits += 1


@slip('paper')
class LoadedWithZero(Pool):
    """a loaded page has usage 0"""
    first_usage = 0


@slip('paper')
class LoadedWithTwo(Pool):
    """a loaded page has usage 2"""
    first_usage = 2


@slip('small')
class FreeFromTheTop(Pool):
    """the free list falls"""

    def __init__(self, buffers):
        super().__init__(buffers)
        self.free.reverse()


@slip('paper')
class VictimStays(Pool):
    """the victim's page is still found"""

    def release(self, buffer):
        pass


@slip('paper')
class BufferMore(Pool):
    """N + 1 buffers"""

    def __init__(self, buffers):
        super().__init__(buffers + 1)


@slip('paper')
class BufferLess(Pool):
    """N - 1 buffers"""

    def __init__(self, buffers):
        super().__init__(max(1, buffers - 1))


@slip('great')
class ByteOfBuffers(Pool):
    """N without its bits above 255"""

    def __init__(self, buffers):
        super().__init__(buffers % 256 or buffers)


@slip('great')
class BlocksOf15Bits(Model):
    """blocks without their bit 15"""

    def used(self, buffers, uses):
        return super().used(buffers, [block % 32768 for block in uses])


@slip('paper')
class LastUseForgotten(Model):
    """the last number is not used"""

    def used(self, buffers, uses):
        return super().used(buffers, uses[:-1])
