"""What has to happen in the lists of calls by holders. events.py takes it in."""
from memory import CAP, FILE_WORDS, HAND, HOLDERS
from pool import MOST_COUNT, Pool
from words import DIRTY, pins, usage

# a memory made by hand has such counts, and so many holders
MANY = {'a count becomes the greatest', 'the greatest count is lowered', 'the greatest count is given back',
        'a pin where another has the greatest count', 'a first pin where another has the greatest count', 'a count passes a byte',
        'a page gets its last holder', 'a pin of a page that every holder has', 'one of all holders leaves'}
WANTED = MANY | {
    'a first pin of a page that another has', 'a first pin of a held page that none has', 'a pin again, usage below the cap',
    'a pin again of a page that another has', 'a sweep passes a page that another has', '6 where others have every page',
    'an unpin that leaves the word', 'a last unpin, another stays', 'the last holder unpins',
    *(f'{kind} 8 of a page that another has' for kind in ('unpin', 'read', 'write', 'flush')),
    *(f'19 above {number} at pin' for number in (3, 4, 17, 6)), *(f'19 above 7 at {kind}' for kind in ('unpin', 'write')),
    'a holder of 64', 'a holder above 32 bits', '19 on the last buffer', "19 where the next buffer's first count is not 0",
    'holder 63 on the last buffer', 'give back of nothing, another stays', 'give back of two pages', 'give back, another stays',
    'give back, a page has no pins then', 'give back of a count above 1', 'give back of a dirty page', 'give back by 63'}


def happening(found):
    return [what for what, so in found.items() if so]


def buffer_of(call, o):
    """The buffer that an accepted pin answers, or that a call names."""
    return o.answer[0] if call[0] == 'pin' else call[2]


def at_pin(holder, i, before, o):
    others, cap = before.private(i), before.control[CAP]
    count = others.pop(holder, 0)
    if not o.answer[1]:
        passed = [before.private((before.control[HAND] + k) % before.n) for k in range(o.answer[3])]
        return happening({'a sweep passes a page that another has': any(private and holder not in private for private in passed)})
    return happening({
        'a first pin of a page that another has': not count and others,
        'a first pin of a held page that none has': not count and not others,
        'a pin again, usage below the cap': count and usage(before.states[i]) < cap,
        'a pin again of a page that another has': count and others, 'a count becomes the greatest': count == MOST_COUNT - 1,
        'a pin where another has the greatest count': count and MOST_COUNT in others.values(),
        'a first pin where another has the greatest count': not count and MOST_COUNT in others.values(),
        'a count passes a byte': count == 255, 'a page gets its last holder': not count and len(others) == HOLDERS - 1,
        'a pin of a page that every holder has': count and len(others) == HOLDERS - 1})


def at_unpin(holder, i, before, _):
    others = before.private(i)
    count = others.pop(holder)
    return happening({
        'an unpin that leaves the word': count > 1, 'a last unpin, another stays': count == 1 and others,
        'the last holder unpins': count == 1 and not others, 'the greatest count is lowered': count == MOST_COUNT,
        'one of all holders leaves': count == 1 and len(others) == HOLDERS - 1})


def at_give_back(holder, before):
    every = [before.private(i) for i in range(before.n)]
    own = [i for i in range(before.n) if holder in every[i]]
    counts = [every[i][holder] for i in own]
    return happening({
        'give back of nothing, another stays': not own and any(every), 'give back of two pages': len(own) > 1,
        'give back, another stays': any(len(every[i]) > 1 for i in own),
        'give back, a page has no pins then': any(len(every[i]) == 1 for i in own),
        'give back of a count above 1': any(count > 1 for count in counts), 'the greatest count is given back': MOST_COUNT in counts,
        'give back of a dirty page': any(before.states[i] & DIRTY for i in own), 'give back by 63': holder == 63 and own})


def refused_holder(call, before):
    """At a call by no holder: the refusals that stand below it, and where its count would stand."""
    pool = Pool(before)
    if call[0] == 'pin':
        f = before.file(call[2][:FILE_WORDS])
        here = f is not None and call[2][FILE_WORDS] < before.blocks(f)
        lost = here and pool.held(call[2]) is None
        yield from happening({
            '19 above 3 at pin': f is None, '19 above 4 at pin': f is not None and not here,
            '19 above 17 at pin': lost and not pool.passes(call[2]),
            '19 above 6 at pin': lost and pool.passes(call[2]) and all(map(pins, before.states))})
    elif call[0] != 'give_back':
        i, at = call[2], call[2] * HOLDERS + call[1]
        yield from happening({
            f'19 above 7 at {call[0]}': i >= before.n, '19 on the last buffer': i == before.n - 1,
            "19 where the next buffer's first count is not 0": call[1] == HOLDERS and at < len(before.counts) and before.counts[at]})
    yield from happening({'a holder of 64': call[1] == HOLDERS, 'a holder above 32 bits': call[1] > 2**32})


def by_holder(call, before, o):
    """What of WANTED happens at a call that names a holder."""
    if o.number == 19:
        yield from refused_holder(call, before)
    if o.number == 6 and all(private and call[1] not in private for private in map(before.private, range(before.n))):
        yield '6 where others have every page'
    if o.number == 8 and before.private(call[2]):
        yield f'{call[0]} 8 of a page that another has'
    if o.number:
        return
    if call[0] == 'give_back':
        yield from at_give_back(call[1], before)
        return
    i = buffer_of(call, o)
    if call[0] in ('pin', 'unpin'):
        yield from (at_pin if call[0] == 'pin' else at_unpin)(call[1], i, before, o)
    if call[1] == HOLDERS - 1 and i == before.n - 1:
        yield 'holder 63 on the last buffer'
