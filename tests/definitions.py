"""definitions.py FOLDER CRATE..: copies crates of this repository as types, constants and definitions alone, without functions and proofs, into
a new folder, which is then a repository of its own. What they stand on has to be among them."""
import glob
import os
import re
import shutil
import sys

FUNCTION = re.compile(r'^(?:#\[(?:[^\[\]]|\[[^\[\]]*\])*\]\n)*(?:pub )?(?:(?:extern "C" )?fn|impl) .*?^\}\n', re.M | re.S)
GHOST_USE = re.compile(r'^ghost use .*?;\n', re.M | re.S)
USE = re.compile(r'^((?:pub )?use [\w:]+::)(\{[^}]*\}|\w+);\n', re.M)


def types_of(found):
    """An import without the names of functions, which begin with a small letter."""
    names = [name for name in re.findall(r'\w+', found[2]) if name[0].isupper()]
    return '%s{%s};\n' % (found[1], ', '.join(names)) if names else ''


def bare(text):
    """A source file without its functions."""
    return USE.sub(types_of, GHOST_USE.sub('', FUNCTION.sub('', text)))


def main(folder, *crates):
    os.makedirs(folder + '/crates')
    with open('crates.txt', encoding='utf8') as file, open(folder + '/crates.txt', 'w', encoding='utf8') as to:
        to.writelines(line for line in file if re.split(r'[: ]', line)[0] in crates)
    for crate in crates:
        to = '%s/crates/%s' % (folder, crate)
        shutil.copytree('crates/' + crate, to, ignore=shutil.ignore_patterns('out', 'proofs', 'must-fail'))
        for path in glob.glob(to + '/src/**/*.rt', recursive=True):
            with open(path, encoding='utf8') as file:
                text = bare(file.read())
            with open(path, 'w', encoding='utf8') as file:
                file.write(text)


if __name__ == '__main__':
    main(*sys.argv[1:])
