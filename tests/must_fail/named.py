"""named.py: whether the edits crates/CRATE/must-fail/FUNCTION-SLIP.edit are as many as they should be, and whose.

Prints a line for each crate: that each public function, a type's too, and each that a type has by a trait, has two edits at least, and
that each edit is named after a function of the crate.
The functions of a static library CRATE_c only call those of CRATE by the same names, which have edits there. An edit whose function another
does the work of now counts for that one: moved.txt has a line for it. Then 'N passed, M failed'."""
import collections
import glob
import os
import re
import sys

MOVED = {}
with open(os.path.join(os.path.dirname(__file__), 'moved.txt'), encoding='utf8') as lines:
    MOVED.update(line.split() for line in lines if not line.startswith('#'))
HEAD = re.compile(r'^(pub )?(?:pub\(crate\) )?(?:extern "C" )?fn (\w+)', re.M)
IMPL = re.compile(r'^impl\b([^{]*) \{\n(.*?)^\}', re.M | re.S)


def crates():
    """The crates, each with the folder whose edits are of its functions."""
    for line in open('crates.txt', encoding='utf8'):
        head, colon, _ = line.split('#')[0].partition(':')
        if colon:
            name, *kind = head.split()
            yield name, name.removesuffix('_c') if kind == ['staticlib'] else name


def functions(crate):
    """The functions of a crate, and whether each is public. A name says which function an edit is of, so no two may have one."""
    found = {}
    for path in sorted(glob.glob('crates/%s/src/**/*.rt' % crate, recursive=True)):
        for public, name in HEAD.findall(open(path, encoding='utf8').read()):
            if name in found:
                sys.exit('crates/%s has two functions %s' % (crate, name))
            found[name] = bool(public)
    return found


def of_impls(crate):
    """The functions that a crate's types have by traits, and their public ones, as TYPE.FUNCTION. A program's are its own."""
    for path in sorted(glob.glob('crates/%s/src/**/*.rt' % crate, recursive=True)):
        if os.path.exists('crates/%s/src/main.rt' % crate):
            return
        for head, body in IMPL.findall(open(path, encoding='utf8').read()):
            for name in re.findall(r'^    (?:pub fn|fn) (\w+)', body, re.M):
                yield head.split()[-1].partition('<')[0] + '.' + name


def main():
    passed = failed = 0
    for crate, of in crates():
        found = functions(crate)
        edits = [os.path.relpath(path, 'crates/%s/must-fail' % of) for path in glob.glob('crates/%s/must-fail/**' % of, recursive=True)]
        names = {edit: re.fullmatch(r'(\w+)-\w+\.edit', edit) for edit in edits if edit != '.'}
        stands = {edit: MOVED.get('%s/%s' % (of, edit.removesuffix('.edit')), name and name[1]) for edit, name in names.items()}
        count = collections.Counter(stands.values())
        wrong = ['; not ' + name for name, public in found.items() if public and count[name] < 2]
        wrong += ['; not ' + name for name in of_impls(crate) if count[name] < 2]
        # of a function of an impl alone.py says whether it is there
        wrong += ['; no function: ' + edit for edit, name in stands.items()
                  if crate == of and not (names[edit] and (name in found or '.' in name))]
        if crate == of:
            wrong += ['; moved, but not here: ' + edit for edit in MOVED
                      if edit.startswith(crate + '/') and edit.partition('/')[2] + '.edit' not in edits]
        print('%s: %s: each public function has two edits%s' % ('FAILED' if wrong else 'passed', crate, ''.join(wrong)))
        passed, failed = passed + (not wrong), failed + bool(wrong)
    print('%d passed, %d failed' % (passed, failed))
    sys.exit(failed > 0)


main()
