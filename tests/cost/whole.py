"""The model against the model of the whole pool (tests/model): set up, pin and unpin over lent memory, with names, links, pages and books.
Status 1 if the three numbers differ on a list, or if a slip of the model would not be noticed."""
import pathlib
import random
import sys

from lists import uses_of
from model import Model
from pool_slips import CapOfFour, CapOfSix, FreeFromTheTop, HandStays, TakingProbeForgotten

sys.path.append(str(pathlib.Path(__file__).resolve().parent.parent / 'model'))
from memory import CONTROL_WORDS, HOLDERS, NAME_WORDS, Memory  # noqa: E402
from pool import Pool  # noqa: E402

FILE = (1663, 5, 16384, 0)
PAGE, CAP = 1024, 5


def whole(buffers, blocks, uses):
    lent = Memory([0] * CONTROL_WORDS, [0] * buffers, [0] * (NAME_WORDS * buffers), bytearray(PAGE * buffers), [0] * buffers, [0] * buffers,
                  [0] * buffers, [*FILE, blocks, blocks], bytearray(PAGE * blocks), [0] * (HOLDERS * buffers))
    memory = Pool(lent).call(('set_up', PAGE, 0, CAP)).memory
    hits = loads = probes = 0
    for block in uses:
        pinned = Pool(memory).call(('pin', 0, (*FILE, block)))
        buffer, hit, wrote, more = pinned.answer
        unpinned = Pool(pinned.memory).call(('unpin', 0, buffer))
        if pinned.number or unpinned.number or wrote:
            raise ValueError(f'the pool refuses block {block}, or writes a page back')
        hits, loads, probes, memory = hits + hit, loads + 1 - hit, probes + more, unpinned.memory
    return hits, loads, probes


def lists():
    source = random.Random(6)
    for k in range(60):
        buffers, blocks = source.randrange(1, 6), source.randrange(1, 8)
        yield buffers, blocks, uses_of(source, ('uniform', 'skewed', 'loop')[k % 3], buffers, blocks, source.randrange(40))


def main():
    answers = [(buffers, uses, whole(buffers, blocks, uses)) for buffers, blocks, uses in lists()]
    wrong = [totals for buffers, uses, totals in answers if Model().used(buffers, uses) != totals]
    unnoticed = []
    for slipped in CapOfFour, CapOfSix, FreeFromTheTop, HandStays, TakingProbeForgotten:
        model = Model()
        model.pool = slipped
        if all(model.used(buffers, uses) == totals for buffers, uses, totals in answers):
            unnoticed.append(slipped.__doc__)
    print(f'{len(answers)} lists; {len(wrong)} differ; not noticed: {unnoticed}')
    sys.exit(bool(wrong or unnoticed))


main()
