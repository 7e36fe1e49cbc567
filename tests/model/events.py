"""What has to happen somewhere in the lists of calls."""
import holder_events
from checksum import AT, with_sum
from holder_events import happening
from memory import BLOCK, CAP, FILE_WORDS, FLUSHED, HAND, INSERTED, NAME_WORDS, NO_TOP, P, TOP
from pool import BY_HOLDER, Pool, peeked
from shelf import every_page
from words import DIRTY, pins, usage

REFUSALS = {'pin': (19, 3, 4, 17, 5, 6), 'peek': (3, 4, 17), 'extend': (3, 13), 'drop': (3, 14), 'unpin': (19, 7, 8), 'flush': (19, 7, 8),
            'read': (19, 7, 8, 9), 'write': (19, 7, 8, 9, 10, 11, 12), 'log_inserted': (15,), 'log_flushed': (16,), 'checkpoint': (),
            'give_back': (19,)}
# only a memory made by hand has such counts and so many holders, or a page over a block that does not pass
ONLY_SOUND = holder_events.MANY | {'pin 5', 'hit over a bad block', 'peek over a bad block'}
AT_CAPS = {f'{what}, cap {cap}' for cap in (1, 2, 5, 14, 15)
           for what in ('usage raised', 'usage at the cap', 'swept from the cap', 'swept, wrote')}
WANTED = {f'{kind} {number}' for kind, refusals in REFUSALS.items() for number in (0, *refusals)} | ONLY_SOUND | AT_CAPS | {
    'hit', 'hit with every buffer pinned', 'free', 'swept', 'swept, more than N probes',
    'swept past a pinned buffer', 'the hand wraps', 'a victim behind another in its chain', 'entered before another', 'a name of zeros',
    'a write-back raises flushed', 'a write-back leaves flushed', 'a checkpoint writes 2', 'drop discards', 'drop empties 2',
    'drop puts on a free list', 'drop of none', 'extend clears bytes', 'peek pool', 'peek store', 'peek of a dirty page',
    'peek store at P 2048', 'swept, wrote at P 2048', 'a position above 32 bits', 'a clean page above inserted',
    'a position of 64 bits', 'log flushed below flushed', 'log flushed above flushed', 'log inserted to inserted',
    'a dropped page before another in its chain', 'a bad block with every buffer pinned', 'a bad block with no free buffer',
    'a loaded block has a checksum', 'a peeked block has a checksum', 'a loaded block is zeros', 'a block is verified at another place',
    'a block is written at another place', 'a page written at 8 or 9 is written back', 'a bad block is dropped', 'extend over a bad block',
    'a read of other bytes 8 and 9 than the shelf has', 'a peek of other bytes 8 and 9 than the shelf has',
    'a store with other bytes 8 and 9 than the shelf has', 'zeros are written back', 'zeros but for 8 and 9 are written back',
    *holder_events.WANTED}


def at_pin(call, before, o):
    i, hit, wrote, probes = o.answer
    cap, used = before.control[CAP], usage(before.states[i])
    swept, first = not hit and before.control[TOP] == NO_TOP, hit and call[1] not in before.private(i)
    return happening({
        'hit': hit, f'usage raised, cap {cap}': first and used < cap, f'usage at the cap, cap {cap}': first and used == cap,
        f'swept from the cap, cap {cap}': probes > cap * before.n, f'swept, wrote, cap {cap}': wrote,
        'hit with every buffer pinned': hit and all(map(pins, before.states)),
        'free': not hit and not swept, 'swept': swept, 'swept, more than N probes': probes > before.n,
        'swept, wrote at P 2048': wrote and before.control[P] == 2048,
        'swept past a pinned buffer': swept and any(map(pins, before.states)), 'a name of zeros': call[2] == (0,) * NAME_WORDS,
        'the hand wraps': o.memory.control[HAND] < before.control[HAND],
        'a victim behind another in its chain': swept and i in before.chain,
        'entered before another': not hit and o.memory.chain[i] >= 0})


def at_peek(call, before, _):
    i = Pool(before).held(call[1])
    return happening({'peek pool': i is not None, 'peek store': i is None, 'peek store at P 2048': i is None and before.control[P] == 2048,
                      'peek of a dirty page': i is not None and before.states[i] & DIRTY})


def at_checkpoint(_, __, o):
    return happening({'a checkpoint writes 2': o.answer[0] > 1})


def at_drop(call, before, o):
    gone = [i for i in before.used() if o.memory.states[i] == 0]
    return happening({
        'drop discards': any(before.states[i] & DIRTY for i in gone), 'drop empties 2': len(gone) > 1, 'drop of none': not gone,
        'drop puts on a free list': gone and before.control[TOP] != NO_TOP,
        'a dropped page before another in its chain': any(before.chain[i] >= 0 and before.chain[i] not in gone for i in gone),
        'a bad block is dropped': any(not Pool(before).passes(page) for page in every_page(before) if page[:FILE_WORDS] == call[1])})


def at_extend(call, before, o):
    page = call[1] + (o.answer[0],)
    return happening({'extend clears bytes': any(before.store[before.block(page)]),
                      'extend over a bad block': not Pool(before).passes(page)})


def at_log_inserted(call, before, _):
    return happening({'log inserted to inserted': call[1] == before.control[INSERTED]})


def at_log_flushed(call, before, _):
    return happening({'log flushed below flushed': call[1] < before.control[FLUSHED],
                      'log flushed above flushed': call[1] > before.control[FLUSHED]})


def at_write(call, _, __):
    return happening({'a position above 32 bits': call[5] > 2**32, 'a position of 64 bits': call[5] > 2**63})


def verified(call, before, o):
    """At a pin or peek of a page that is there: its block."""
    name, every_pinned = call[-1], all(map(pins, before.states))
    held = Pool(before).held(name)
    full, passes = any(before.store[before.block(name)]), Pool(before).passes(name)
    if held is not None:
        return [f'{"hit" if call[0] == "pin" else "peek"} over a bad block'] * (not passes and not o.number)
    return happening({
        'a bad block with every buffer pinned': call[0] == 'pin' and not passes and every_pinned,
        'a bad block with no free buffer': call[0] == 'pin' and not passes and not every_pinned and before.control[TOP] == NO_TOP,
        f'a {"loaded" if call[0] == "pin" else "peeked"} block has a checksum': full and not o.number,
        'a loaded block is zeros': call[0] == 'pin' and not full and not o.number,
        'a block is verified at another place': full and before.place(name) != name[BLOCK]})


def written_back(before, after):
    """The pages that a call writes back: dirty before it, now clean or no longer there. A drop's are not among them."""
    for i in before.used():
        if before.states[i] & DIRTY and after.states[i] and not (after.states[i] & DIRTY and after.name(i) == before.name(i)):
            page, name = before.pool[before.page(i)], before.name(i)
            yield from happening({
                'a block is written at another place': any(page) and before.place(name) != name[BLOCK],
                'a page written at 8 or 9 is written back': page[AT] != before.store[before.block(name)][AT],
                'zeros are written back': not any(page),
                'zeros but for 8 and 9 are written back': any(page) and not any(with_sum(page, bytes(2)))})
            yield 'a write-back raises flushed' if after.control[FLUSHED] > before.control[FLUSHED] else 'a write-back leaves flushed'


def events(call, before, o):
    """What of WANTED happens at a call."""
    yield f'{call[0]} {o.number}'
    if call[0] in BY_HOLDER:
        yield from holder_events.by_holder(call, before, o)
    if call[0] == 'write' and o.number == 12 and not before.states[call[2]] & DIRTY:
        yield from ['a clean page above inserted'] * (Pool(before).position(call[2]) > before.control[INSERTED])
    if call[0] in ('pin', 'peek') and o.number not in (19, 3, 4):
        yield from verified(call, before, o)
    if not o.number:
        yield from globals().get(f'at_{call[0]}', lambda *_: [])(call, before, o)
        yield from written_back(before, o.memory)


def left_out(shelf, call, o):
    """Where bytes 8 and 9 are left out: they are not the shelf's."""
    if o.number or call[0] not in ('read', 'peek', 'checkpoint'):
        return []
    if call[0] == 'checkpoint':
        return ['a store with other bytes 8 and 9 than the shelf has'] * any(
            o.memory.store[o.memory.block(page)] != shelf.bytes_of(page) for page in every_page(o.memory))
    if call[0] == 'peek':
        return ['a peek of other bytes 8 and 9 than the shelf has'] * (peeked(o) != shelf.handed(call))
    return ['a read of other bytes 8 and 9 than the shelf has'] * (o.own != shelf.handed(call))
