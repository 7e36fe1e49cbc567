"""refusals.py HEADER CALLS PAGE TEXT..: that the table of the page CALLS gives each call the numbers that the comment before its prototype
in HEADER does ("Refuses with 1, 2, 19, 7, 8."), in the same order; that the runs of numbers behind "with" in PAGE are those of its helpers'
calls; and that every such run in PAGE or a text stands in the order in which HEADER has its constants, number by number. Prints what is
wrong; status 1 if anything is."""
import re
import sys

RUN = re.compile(r'\bwith\s+(\d+(?:,\s+\d+)+)')
RANGE = re.compile(r'\bwith\s+(?:\d+,\s+)*\d+ to \d+')
# the calls that refuse with several numbers, in the order in which PAGE has its helpers
HELPED = ['set_up', 'extend', 'drop', 'pin', 'unpin', 'give_back', 'read', 'write', 'flush', 'checkpoint', 'peek', 'log_inserted',
          'log_flushed']


def read(path):
    return open(path, encoding='utf8').read()


def places(header):
    """The numbers of the refusals, in the order of the constants."""
    constants = re.search(r'^#define BUFPOOL_DONE 0\n((?:#define .*\n)+)', header, re.M).group(1)
    return [int(number) for number in re.findall(r'^#define BUFPOOL_[A-Z_]+ (\d+) ', constants, re.M)]


def commented(header):
    """What the comment before each prototype says; the call that takes no pool is not among the table's."""
    found = re.findall(r'^/\*((?:(?!\*/).)*)\*/\nBUFPOOL_RESULT[^;]*? uint32_t (bufpool_\w+)\(', header, re.M | re.S)
    return {name: re.search(r'Refuses with ([\d, ]*\d)', words).group(1) for words, name in found if name != 'bufpool_checksum'}


def tabled(page):
    return dict(re.findall(r'^\| `(bufpool_\w+)` \|.*\| ([\d, ]+) \|$', page, re.M))


def main(header, calls, page, texts):
    order = places(read(header))
    said, shown = commented(read(header)), tabled(read(calls))
    wrong = ['%s: %s in the header, %s in the page' % (name, said.get(name), shown.get(name))
             for name in sorted(said.keys() | shown.keys()) if said.get(name) != shown.get(name)]
    helped = [' '.join(run.split()) for run in RUN.findall(read(page))]
    for call, run in zip(HELPED, helped):
        if run != said.get('bufpool_' + call):
            wrong.append('%s: the helper of %s refuses with %s' % (page, call, run))
    if len(helped) != len(HELPED):
        wrong.append('%s: %d runs of numbers' % (page, len(helped)))
    runs = 0
    for text in [page, *texts]:
        for run in RUN.findall(read(text)):
            numbers = [int(number) for number in run.split(',')]
            runs += 1
            if any(n not in order for n in numbers) or numbers != sorted(set(numbers), key=order.index):
                wrong.append('%s: not in the order of the places: %s' % (text, ' '.join(run.split())))
        wrong += ['%s: not number by number: %s' % (text, ' '.join(one.split())) for one in RANGE.findall(read(text))]
    print('\n'.join(wrong))
    return bool(wrong) or len(said) != 13 or len(order) < 19 or runs < 20


sys.exit(main(*sys.argv[1:4], sys.argv[4:]))
