"""spread.py FOLDER: no name is spread into bytes on the way from its words to its hash and bucket. FOLDER/CRATE is a crate's code, in a
form that functions.py reads: no comment, no contract, each call by its function's full name, each variable with a type.

The functions of the hash are those that take and give numbers and reach one of FNV-1a's steps, and what they call: they have numbers alone.
What asks them for a hash, with what it calls, makes no array and is lent no bytes. Numbers are cut to bytes in CUTS alone, and a word's
bytes are stored for those alone who are named in STORES. Prints what is otherwise; status 1 if anything is."""
import os
import sys

from functions import functions_of, parts

STEPS = {'bufhash::fnv::mix_' + over for over in ('byte', 'word', 'short', 'small')}
HASH, WORD = 'buftag::name::hash', ['int', '32']
# what has to be there: functions of the hash, and who asks for one
OURS = STEPS | {'bufhash::fnv::wrapping_mul', 'buftag::export::buftag_hash', 'buftag_c::export::buftag_hash', HASH} | {
    'buftag::name::' + name for name in ('hash_database', 'hash_within', 'hash_short', 'mix_fork', 'mix_block', 'bucket')}
ASKS = {'buftag::chain::insert', 'buftag::chain::remove', 'buftag::lookup::look_up', 'bufbooks::hashes::hash_rows',
        'bufbooks::buffers::held_ok'}
# a word's bytes, a checksum's two, and the number of a row, which the guesses are
CUTS = {'bufhash::bytes::put_word', 'bufmem::seal::seal', 'bufbooks::guesses::guess_rows'}
BYTE = ['int', '8']
GUESSES = ['array', BYTE, '256']
STORES = {
    'bufhash::bytes::put_word': {'buftag::name::put_bytes', 'bufmem::position::put_position'},
    'buftag::name::put_bytes': {'buftag::export::buftag_bytes'},
    'buftag::export::buftag_bytes': {'buftag_c::export::buftag_bytes'},
}


def is_number(function, kind):
    """Of 32 or 64 bits, a test, or a struct of such."""
    if kind[0] == 'named':
        return all(is_number(function, one) for one in function.named[kind[1]])
    return kind in (['bool'], WORD, ['int', '64'])


def all_parts(function, kind):
    """A type and all in it, with the fields of each named type once; of a reference to the guesses nothing."""
    seen, left = set(), [kind]
    while left:
        node = left.pop()
        if not isinstance(node, list) or not node or node == ['ref', GUESSES]:
            continue
        yield node
        left.extend(node)
        if node[0] == 'named' and node[1] not in seen:
            seen.add(node[1])
            left.append(function.named[node[1]])


def is_lent_bytes(function):
    """Behind a reference, which may be a field of a type that is named, or of one in such a field."""
    lent = [node[1] for kind in function.types for node in all_parts(function, kind) if node[0] == 'ref']
    return any(BYTE in all_parts(function, kind) for kind in lent)


def read(folder):
    """Every function, from its own crate's code."""
    found = {}
    for crate in sorted(os.listdir(folder)):
        try:
            found.update((one.name, one) for one in functions_of(crate, os.path.join(folder, crate)))
        except (KeyError, ValueError) as error:
            sys.exit('%s: no code is read: %s' % (crate, error))
    return found


def reached(functions, names):
    """The functions with these names, and what they call."""
    found, left = set(), list(names)
    while left:
        name = left.pop()
        if name in functions and name not in found:
            found.add(name)
            left.extend(functions[name].calls)
    return found


def wrong(functions):
    hashing = {name for name, f in functions.items() if all(is_number(f, kind) for kind in f.ends) and reached(functions, [name]) & STEPS}
    ours = reached(functions, hashing)
    asking = {name for name, f in functions.items() if f.calls & hashing} - ours
    for name in sorted(OURS - ours) + sorted(ASKS - asking):
        yield '%s is not there, or has no hash' % name
    if HASH in functions and functions[HASH].ends != 6 * [WORD]:
        yield '%s does not make a word of five' % HASH
    for name in sorted(ours):
        if not all(is_number(functions[name], kind) for kind in functions[name].types):
            yield '%s has something else than numbers' % name
    for name in sorted(reached(functions, asking) - ours):
        if any(kind[0] == 'array' for kind in functions[name].types):
            yield '%s makes an array' % name
        if is_lent_bytes(functions[name]):
            yield '%s is lent bytes' % name
    for name in sorted(CUTS ^ {name for name, f in functions.items() if f.cuts}):
        yield '%s cuts numbers to bytes, or no longer does' % name
    for stores, callers in STORES.items():
        for name in sorted(callers ^ {name for name, f in functions.items() if stores in f.calls}):
            yield '%s calls %s, or no longer does' % (name, stores)


said = list(wrong(read(sys.argv[1])))
print('\n'.join(said))
sys.exit(bool(said))
