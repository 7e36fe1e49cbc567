"""An edit of a crate, in the form of rt's must-fail edits: a line 'file:' holds for the pairs of lines 'old:' and 'new:' after it.

edits.py EDIT CRATE: makes the edit in a copy of the crate."""
import re
import sys


def read(path):
    """The replacements of an edit: file, old text, new text."""
    found, name, old = [], None, None
    for line in open(path, encoding='utf8').read().split('\n'):
        word, _, rest = line.partition(':')
        rest = rest.removeprefix(' ')
        if word == 'file':
            name = rest
        elif word == 'old':
            old = rest
        elif word == 'new':
            found.append((name, old, rest))
    if not found:
        raise ValueError('%s: no old and new text' % path)
    return found


def place(text, old, within=None):
    """Where the old text stands in a text, or in a range of it: exactly once."""
    found = [at.start() for at in re.finditer(re.escape(old), text) if within is None or at.start() in within]
    if not old or len(found) != 1:
        raise ValueError('this stands there %d times: %s' % (len(found), old))
    return found[0]


def change(text, places):
    """A text with old texts at their places replaced by new ones."""
    end = len(text)
    for at, old, new in sorted(set(places), reverse=True):
        if at + len(old) > end:
            raise ValueError('two replacements overlap: %s' % old)
        text, end = text[:at] + new + text[at + len(old):], at
    return text


def main(edit, crate):
    for name, old, new in read(edit):
        path = '%s/%s' % (crate, name)
        text = open(path, encoding='utf8').read()
        open(path, 'w', encoding='utf8').write(change(text, [(place(text, old), old, new)]))


if __name__ == '__main__':
    try:
        main(*sys.argv[1:])
    except (OSError, ValueError) as wrong:
        sys.exit('%s: %s' % (sys.argv[1], wrong))
