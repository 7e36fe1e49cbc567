"""alone.py FOLDER [CRATE..]: whether each edit FOLDER/CRATE/must-fail/FUNCTION-SLIP.edit changes this function alone: its body, or its clauses
where no other function of the crate calls it. The sources are crates/CRATE/src. A function of an impl is TYPE.FUNCTION. An edit whose function
another does the work of now has a line in moved.txt.

Prints a line for each crate, and then 'N passed, M failed'."""
import glob
import os
import re
import sys

FUNCTION = re.compile(r'(?:^(?:    )?(?:pub(?:\(crate\))? )?(?:extern "C" )?|(?<=\} ))fn (\w+)', re.M)
HEADER = re.compile(r'^(?:pub )?(impl|trait)\b([^{]*)\{', re.M)
# An edit is of one line: what it leaves of the older body may stand behind the function under this name, which nothing calls.
LEFT = 'what_was_here'
CLAUSE = re.compile(r'\b(?:requires|ensures)(?:\s+\w+)?\s*$')
COMMENT = re.compile(r'/\*.*?\*/|//[^\n]*', re.S)
USE = re.compile(r'^(?:pub )?(?:ghost )?use .*?;\n', re.M | re.S)


def pairs(path):
    """The edit's files, and what is to stand there in place of what, in order."""
    file = old = None
    with open(path, encoding='utf8') as text:
        for line in text.read().split('\n'):
            if line.startswith('file: '):
                file = line[6:].strip()
            elif line.startswith('old: '):
                old = line[5:]
            elif line.startswith('new:'):
                yield file, old, line[4:].removeprefix(' ')


def closed(text, at):
    """Where the braces that open there close."""
    depth = 0
    while True:
        depth += {'{': 1, '}': -1}.get(text[at], 0)
        at += 1
        if depth == 0:
            return at


def parts(text):
    """A source's functions, each as its head with the clauses and its body, and what stands between them but for imports, which a body and a
    clause may want another of."""
    found, between, at = {}, '', 0
    text = COMMENT.sub('', text)
    while match := FUNCTION.search(text, at):
        between += text[at:match.start()]
        body = at = match.start()
        while True:
            body = text.index('{', at)
            clause = CLAUSE.search(text, at, body)
            at = closed(text, body)
            if not clause or text[at:].lstrip().startswith(';'):
                break
        name = match[1]
        if match[0].startswith('    '):
            header = [head for head in HEADER.finditer(text, 0, match.start())][-1]
            name = header[2].split()[-1].partition('<')[0] + '.' + name
        found[name] = (' '.join(text[match.start():body].split()), ' '.join(text[body:at].split()))
    return found, ' '.join(USE.sub('', between + text[at:]).split())


def moved():
    """The edits that stand on another function than their name says: CRATE/EDIT, and that function."""
    with open(os.path.join(os.path.dirname(__file__), 'moved.txt'), encoding='utf8') as lines:
        return dict(line.split() for line in lines if not line.startswith('#'))


MOVED = moved()


def whats_wrong(crate, path):
    edit = os.path.basename(path)
    name = MOVED.get(crate + '/' + edit.removesuffix('.edit'), edit.partition('-')[0])
    was, now = {}, {}
    for file, old, new in pairs(path):
        if file not in was:
            with open('crates/%s/%s' % (crate, file), encoding='utf8') as text:
                was[file] = now[file] = text.read()
        if now[file].count(old) != 1:
            return 'does not fit'
        now[file] = now[file].replace(old, new)
    changed, clauses = set(), False
    for file in was:
        (before, between), (after, beside) = parts(was[file]), parts(now[file])
        after.pop(LEFT, None)
        if between != beside or before.keys() != after.keys():
            return 'changes what is no function'
        changed |= {each for each in before if before[each] != after[each]}
        clauses |= name in before and before[name][0] != after[name][0]
    if changed != {name}:
        return 'changes ' + (' '.join(sorted(changed)) or 'nothing')
    sources = glob.glob('crates/%s/src/**/*.rt' % crate, recursive=True)
    calls = sum(len(re.findall(r'\b%s\(' % name.rpartition('.')[2], open(path, encoding='utf8').read())) for path in sources)
    return 'changes a contract that others call' if clauses and calls != 1 else ''


def main(folder, *crates):
    passed = failed = 0
    for crate in crates or sorted(os.listdir(folder)):
        edits = sorted(glob.glob('%s/%s/must-fail/*.edit' % (folder, crate)))
        if not edits:
            continue
        wrong = ['; %s %s' % (os.path.basename(edit), what) for edit in edits if (what := whats_wrong(crate, edit))]
        print('%s: %s: each edit changes its function alone%s' % ('FAILED' if wrong else 'passed', crate, ''.join(wrong)))
        passed, failed = passed + (not wrong), failed + bool(wrong)
    print('%d passed, %d failed' % (passed, failed))
    sys.exit(failed > 0)


main(*sys.argv[1:])
