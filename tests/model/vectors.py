"""Writes crates of theorems, each proved by refl: what the definitions give is what the model in Python gives.

vectors.py ROOM          writes model_seen, model_lists, model_damage and model_slips into ROOM/crates, beside a copy of the
                         repository's crates, and appends their lines to ROOM/crates.txt. On stdout a line for each file of
                         theorems: crate, file, and what it holds; for a planted error the theorem that must be refused.
vectors.py ROOM SEED     writes model_apart instead: the list of this seed with a theorem for each call, to see which differs.
Status 1: the lists miss something that has to happen in them, or pool and shelf differ in Python, or a planted error does not show.
"""
import pathlib
import re
import sys

import cap_slips
import count_slips
import damage
import holder_slips
import limits
import slips
from checksum import checksum
from events import AT_CAPS, ONLY_SOUND, WANTED, events, left_out
from lists import BY_HAND, CAPS, MEETING, after_set_up, from_sound, run, set_up
from memory import HOLDERS, P
from pool import Pool
from shelf import Shelf, came_bad, differs
from terms import call_term, lent_books, lent_seen, list_seen, listed, numbers, runs, words
from theorems import BELOW, Crate, Module, seen_crate

# seeds of lists in which much happens, with few checksums: the checker takes a third of a second for each
AFTER_SET_UP = [
    BY_HAND, *CAPS, MEETING, 137, 246, 269, 940, 1053, 1056, 1261, 1320, 1330, 1790, 1964, 2320, 2327, 2486, 2488, 2567, 2699, 3141, 3181,
    3414, 3473, 3512, 3570, 3969, 4025, 4350, 4469, 4526, 4652, 4726, 5040, 5084, 5182, 5191, 5251, 5352, 5421, 5883, 5893, 6267, 6612,
    6753, 6849, 6915, 7164, 7484, 7536, 7579, 7599, 7607, 7747]
FROM_SOUND = [
    BY_HAND, 138, 402, 512, 587, 802, 1140, 1179, 1184, 1838, 1990, 2216, 2589, 2631, 2641, 2802, 2988]


# lists of calls

def observed(seed, pool_class=Pool, shelf_class=Shelf, count=None):
    """What the model gives for the list of this seed, or for its first calls."""
    made, given, calls = after_set_up(seed)
    memory = set_up(made, given)
    return list_seen(shelf_class(memory), calls[:count], run(pool_class, memory, calls[:count]))


def calls_term(calls):
    return listed(map(call_term, calls))


def define_list(module, seed, count=None):
    """The definitions of a list, or of its first calls; gives the term of what is seen of it."""
    made, given, calls = after_set_up(seed)
    start = ' '.join([f'start-{seed}', *map(str, given)])
    module.define(f'start-{seed}', 'Memory', made.memory_term())
    module.define(f'calls-{seed}', 'List Call', calls_term(calls[:count]))
    return f'list_seen (set_up {start}).after (first_ledger {start}) calls-{seed}'


def shelf_observed(seed, shelf_class=Shelf, count=None):
    return observed(seed, Pool, shelf_class, count)


def lent_observed(seed, pool_class=Pool):
    """What the model gives for the list of this seed from a sound memory."""
    made, calls = from_sound(seed)
    return lent_seen(run(pool_class, made.memory(), calls))


def define_lent(module, seed):
    made, calls = from_sound(seed)
    module.define(f'start-{seed}', 'Lent', made.lent_term(module.shared))
    return f'lent_seen start-{seed} {calls_term(calls)}'


def happenings(memory, calls):
    """What happens in a list, call by call."""
    for call, o in zip(calls, run(Pool, memory, calls)):
        yield from events(call, memory, o)
        memory = o.memory


def agree_in_python(seed):
    """Pool and shelf on the list of this seed, and what happens where bytes are left out between them."""
    made, given, calls = after_set_up(seed)
    memory = set_up(made, given)
    shelf = Shelf(memory)
    for call, o in zip(calls, run(Pool, memory, calls)):
        wrong = differs(shelf, call, memory, o)
        if wrong:
            sys.exit(f'list {seed}: pool and shelf differ in Python in {wrong} at {call}')
        yield from left_out(shelf, call, o)
        memory = o.memory


def eights(values):
    return [values[at:at + 8] for at in range(0, len(values), 8)]


def write_lists(room, unfolding):
    crate, happened = Crate(room, 'model_lists', [*BELOW, 'model_seen']), set()
    for k, seeds in enumerate(eights(AFTER_SET_UP)):
        module, count = Module(f'Lists{k + 1}', unfolding), 0
        for seed in seeds:
            made, given, calls = after_set_up(seed)
            happened |= {*agree_in_python(seed), *happenings(set_up(made, given), calls)}
            module.state(f'list-{seed}', define_list(module, seed), numbers(observed(seed)))
            count += len(calls)
        crate.add(module, f'{len(seeds)} lists, {count} calls after set up, on the pool, the shelf and the ledger')
    if WANTED - ONLY_SOUND - happened:
        sys.exit(f'the lists after set up miss: {sorted(WANTED - ONLY_SOUND - happened)}')
    from_these = set()
    for k, seeds in enumerate(eights(FROM_SOUND)):
        module, count = Module(f'Sound{k + 1}', unfolding), 0
        for seed in seeds:
            made, calls = from_sound(seed)
            from_these |= set(happenings(made.memory(), calls))
            module.state(f'lent-{seed}', define_lent(module, seed), numbers(lent_observed(seed)))
            count += len(calls)
        crate.add(module, f'{len(seeds)} lists, {count} calls from a sound memory, as C makes them')
    if (ONLY_SOUND | AT_CAPS) - from_these:
        sys.exit(f'the lists from sound memories miss: {sorted((ONLY_SOUND | AT_CAPS) - from_these)}')


def write_apart(room, seed):
    """A theorem for each call of a list; part-k is call k."""
    unfolding = seen_crate(room)
    crate, module = Crate(room, 'model_apart', [*BELOW, 'model_seen']), Module('Apart', unfolding)
    module.define('seen', 'List (List (List ℕ))', define_list(module, seed))
    for k, one in enumerate(observed(seed)):
        module.state(f'part-{k}', f'get_or seen {k} []', numbers(one))
    crate.add(module, '; '.join(f'part-{k} {call_term(call)}' for k, call in enumerate(after_set_up(seed)[2])))


# damaged memories and limits

def judged(start, calls, pool_class=Pool):
    """The term of what is seen of some calls on one memory, but for the memory, and what the model gives."""
    def call(one):
        return pool_class(start.memory()).call(one, (9, 8, 7, 6))
    size = start.control[P] if start.control else 1024
    set_up, outcomes = call(('set_up', size, 7, 3)), [call(one) for one in calls]
    seen = [[set_up.number, *set_up.answer], *([o.number, *o.answer, *o.own] for o in outcomes), *lent_books(outcomes[0].memory)]
    return f'{size} ({call_term(calls[0])}) {calls_term(calls[1:])}', seen


def set_up_seen(o):
    return [[o.number, *o.answer], *lent_books(o.memory)]


def state_set_up(module, name, start, given, answer, o):
    """A set-up. A pool or store that is too large to compute with is any list of that length."""
    large = []

    def shared(term):
        zeros = re.fullmatch(r'\(fill (\d{6,}) 0 \(\[\]\)\)', term)
        large.extend(zeros.groups() if zeros else [])
        return 'bytes' if zeros else module.shared(term)
    module.define(f'{name}-lent', 'List ℕ → Lent', f'λ bytes. {start.lent_term(shared)}')
    every = f'(bytes : List ℕ) → length bytes ≡ {large[0]} → ' if large else '(bytes : List ℕ) → '
    made = ' '.join([f'({name}-lent bytes)', *map(str, given), numbers(answer)])
    module.state(name, f'{every}set_up_seen {made}', listed(map(words, set_up_seen(o))),
                 'λ bytes e. rw e refl' if large and not o.number else 'λ bytes e. refl' if large else 'λ bytes. refl')


def write_damage(room, unfolding):
    crate = Crate(room, 'model_damage', [*BELOW, 'model_seen'])
    every = [*damage.damaged()]
    for k, some in enumerate([every[at:at + 25] for at in range(0, len(every), 25)]):
        module, broken = Module(f'Damage{k + 1}', unfolding), 0
        for j, (name, start, calls) in enumerate(some):
            module.text.append(f'-- {name}')
            module.define(f'lent-{j}', 'Lent', start.lent_term(module.shared))
            term, seen = judged(start, calls)
            module.state(f'judged-{j}', f'judged lent-{j} {term}', numbers(seen))
            broken += seen[1][0] in (1, 2)
        crate.add(module, f'{broken} damaged memories and {len(some) - broken} at the edge of a rule, with 3 calls and set up each')
    module = Module('SetUps', unfolding)
    for j, one in enumerate(limits.checked([*limits.set_ups(), *limits.caps(), *limits.counts()])):
        state_set_up(module, f'set-up-{j}', *one)
    crate.add(module, f'{j + 1} set-ups at the limits')
    write_limits(crate, Module('Limits', unfolding))
    write_sums(crate, Module('Sums', unfolding))


def refusals(one):
    """What a shelf given by hand refuses."""
    _, shelf, *_, calls = one
    return [shelf.refuses(call) for call in calls]


def state_refusals(module, name, shelf_name, one):
    start, shelf, counts, holds, bad, calls = one
    held = listed('missing' if place is None else f'found {place}' for place in holds)
    places = range(len(start.store))
    spoilt = listed(str(place in bad).lower() for place in places)
    by_holder = runs([count for holder in range(HOLDERS) for count in counts.get(holder, [0] * len(places))])
    module.define(shelf_name, 'Shelf', f'''record {{
      buffers = {shelf.n}; size = {shelf.page_size}; inserted = {shelf.inserted}; rows = {numbers(start.rows)};
      bytes = λ g. get_or {numbers([page.bytes() for page in start.store])} g [];
      counts = λ h g. get_or {by_holder} (h * {len(places)} + g) 0; holds = λ b. get_or {held} b missing; bad = λ g. get_or {spoilt} g false
    }}''')
    module.state(name, f'refusals {shelf_name} {calls_term(calls)}', numbers(refusals(one)))


def write_limits(crate, module):
    for j, rows in enumerate(limits.rows()):
        module.state(f'rows-{j}', f'sound_rows {numbers(rows)}', str(limits.rows_fit(rows)).lower())
    module.define('base', 'Lent', damage.base().lent_term(module.shared))
    for j, (call, answer) in enumerate(limits.answers()):
        o = Pool(damage.base().memory()).call(call, answer)
        module.state(f'answer-{j}', f'call_seen base ({call_term(call)}) {numbers(answer)}', numbers([o.number, *o.answer, *o.own]))
    for j, one in enumerate(limits.shelves()):
        state_refusals(module, f'refusals-{j}', f'shelf-{j}', one)
    for j, (function, case, has) in enumerate(limits.enums()):
        module.state(f'enum-{j}', f'{function} {case}', numbers(has) if isinstance(has, list) else str(has))
    crate.add(module, 'sums of capacities, answer slices of other lengths, a shelf at its limits, the enums of the answers')


def write_sums(crate, module):
    pages, blocks = [*limits.sums()], [*limits.blocks()]
    for j, (block, page) in enumerate(pages):
        module.define(f'page-{j}', 'List ℕ', numbers(page))
        module.state(f'sum-{j}', f'checksum {block} page-{j}', str(checksum(block, page)))
    for j, (block, page) in enumerate(blocks):
        module.define(f'block-{j}', 'List ℕ', numbers(page))
        module.state(f'passes-{j}', f'passes {block} block-{j}', str(not came_bad(block, page)).lower())
    crate.add(module, f'the checksums of {len(pages)} pages, and {len(blocks)} blocks that pass or not')


# planted errors

def first_wrong(slip, seeds, seen):
    """The first list on which a wrong model gives something else, and what it gives. It may stop in one."""
    for seed in seeds:
        try:
            wrong = seen(seed, slip)
        except (KeyError, IndexError, ValueError):
            continue
        if wrong != seen(seed):
            return seed, wrong
    sys.exit(f'{slip.__name__} shows in no list')


def cost(seed):
    """What the checker has to do for a list: blocks with checksums first, then calls."""
    made, _, calls = after_set_up(seed)
    return sum(any(page.bytes()) for page in made.store), len(calls)


def claimed(slip):
    """What the claim about pool and shelf has to say of a wrong pool."""
    for seed in AFTER_SET_UP:
        made, given, calls = after_set_up(seed)
        memory = set_up(made, given)
        shelf = Shelf(memory)
        for call, o in zip(calls, run(slip, memory, calls)):
            wrong = differs(shelf, call, memory, o)
            yield from wrong
            if wrong:
                break
            memory = o.memory


def planted():
    """The wrong models of the four files; each has to be in one of the lists."""
    every = [one for file in (slips, cap_slips, count_slips, holder_slips) for one in vars(file).values()]
    return {one for one in every if isinstance(one, type) and issubclass(one, (Pool, Shelf))} - {Pool, Shelf}


def write_slips(room, unfolding):
    if planted() != {*slips.POOLS, *slips.LENT, *slips.BOOKS, *slips.SET_UPS, *slips.SHELVES, *slips.LIMITS}:
        sys.exit('there is a planted error that is in none of the lists')
    crate = Crate(room, 'model_slips', [*BELOW, 'model_seen'])
    cheapest = sorted(AFTER_SET_UP, key=cost)
    for slip in [*slips.POOLS, *slips.SHELVES]:
        seen = observed if slip in slips.POOLS else shelf_observed
        seed, wrong = first_wrong(slip, cheapest, seen)
        count = 1 + next(k for k, (one, other) in enumerate(zip(seen(seed), wrong)) if one != other)
        module = Module(slip.__name__, unfolding)
        module.state('wrong', define_list(module, seed, count), numbers(seen(seed, slip, count=count)))
        crate.add(module, f'shows in list-{seed}, its first {min(count, len(after_set_up(seed)[2]))} calls')
    for slip in slips.LENT:
        seed, wrong = first_wrong(slip, FROM_SOUND, lent_observed)
        module = Module(slip.__name__, unfolding)
        module.state('wrong', define_lent(module, seed), numbers(wrong))
        crate.add(module, f'shows in lent-{seed}')
    for word, pools in slips.CLAIMED.items():
        for slip in pools:
            if word not in claimed(slip):
                sys.exit(f'{slip.__name__}: pool and shelf do not differ in {word} in Python')
    write_memory_slips(crate, unfolding)
    write_set_up_slips(crate, unfolding)
    write_limit_slips(crate, unfolding)


def write_memory_slips(crate, unfolding):
    every = [*damage.damaged()]
    for slip in slips.BOOKS:
        apart = [one for one in every if judged(*one[1:]) != judged(*one[1:], slip)]
        if not apart:
            sys.exit(f'{slip.__name__} shows in no damaged memory')
        name, start, calls = apart[0]
        module = Module(slip.__name__, unfolding)
        module.define('lent', 'Lent', start.lent_term(module.shared))
        term, seen = judged(start, calls, slip)
        module.state('wrong', f'judged lent {term}', numbers(seen))
        crate.add(module, f'shows in {len(apart)} memories, the first: {name}')


def write_set_up_slips(crate, unfolding):
    for slip in slips.SET_UPS:
        made = [(start, given, answer, o, slip(start.memory()).call(('set_up', *given), answer))
                for start, given, answer, o in limits.checked([*limits.caps(), *limits.counts()])]
        apart = [(*one, wrong) for *one, o, wrong in made if set_up_seen(o) != set_up_seen(wrong)]
        if not apart:
            sys.exit(f'{slip.__name__} shows in no set-up')
        module = Module(f'SetUp{slip.__name__}', unfolding)
        state_set_up(module, 'wrong', *apart[0])
        crate.add(module, f'shows in {len(apart)} set-ups, the first with {apart[0][1]}')


def write_limit_slips(crate, unfolding):
    for slip in slips.LIMITS:
        apart = [wrong for one, wrong in zip(limits.shelves(), limits.shelves(slip)) if refusals(one) != refusals(wrong)]
        if not apart:
            sys.exit(f'{slip.__name__} shows on no shelf')
        module = Module(slip.__name__, unfolding)
        state_refusals(module, 'wrong', 'shelf', apart[0])
        crate.add(module, f'shows on {len(apart)} shelves')


def main():
    room = pathlib.Path(sys.argv[1])
    if len(sys.argv) > 2:
        write_apart(room, int(sys.argv[2]))
        return
    unfolding = seen_crate(room)
    write_lists(room, unfolding)
    write_damage(room, unfolding)
    write_slips(room, unfolding)


if __name__ == '__main__':
    main()
