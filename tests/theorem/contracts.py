"""contracts.py CRATES: the contracts of the exports of CRATES/bufpool_c and of what they call in CRATES/bufpool, of the hash of CRATES/buftag and
CRATES/buftag_c and of the functions of CRATES/buftrace and CRATES/bufcost that make a line of costs, as theorems and documents speak of them,
and of the other crates' exports that they ask nothing. The names of clauses say nothing. Prints what differs; status 1 if anything does."""
import glob
import re
import sys

EXPORT = re.compile(r'#\[unsafe\(no_mangle\)\]\npub extern "C" fn (\w+)\((.*?)\) -> u32\n(.*?)\n\{\n', re.S)
CALLED = re.compile(r'^pub fn (bufpool_\w+)\((.*?)\) -> u32\n(.*?)\n\{\n', re.S | re.M)
SLICES = ['control', 'states', 'names', 'pool', 'free', 'heads', 'chain', 'rows', 'store', 'counts']
# each call with its arguments, as the equations of Made.antt.in have it, and the caller's own bytes
CALLS = {
    'bufpool_set_up': ('set_up m page_size position cap', None),
    'bufpool_pin': ('pin m holder (name_of tablespace database relation fork block)', None),
    'bufpool_unpin': ('unpin m holder buffer', None),
    'bufpool_read': ('read m holder buffer from out.old', 'out'),
    'bufpool_write': ('write m holder buffer from bytes.now position', 'bytes'),
    'bufpool_flush': ('flush m holder buffer', None),
    'bufpool_give_back': ('give_back m holder', None),
    'bufpool_checkpoint': ('checkpoint m', None),
    'bufpool_peek': ('peek m (name_of tablespace database relation fork block)', None),
    'bufpool_extend': ('extend m (file_of tablespace database relation fork)', None),
    'bufpool_drop': ('drop_file m (file_of tablespace database relation fork)', None),
    'bufpool_log_inserted': ('log_inserted m position', None),
    'bufpool_log_flushed': ('log_flushed m position', None),
}
# the exports that touch no pool: parameters and contract
OTHERS = {
    'bufpool_interface_4': ('', 'ensures { result ≡ interface }'),
    'bufpool_checksum': (
        'page: &[u8], block: u32, answer: &mut [u64]',
        'ensures { result ≡ sum_result page.now answer.old } ensures { answer.new ≡ sum_answer page.now block answer.old }'),
}
# the hash of a name, by its five words, within the library and for C
FIVE = 'tablespace: u32, database: u32, relation: u32, fork: u32, block: u32) -> u32 '
OF_BYTES = 'ensures { result ≡ hash_of (name_of tablespace database relation fork block) }'
OF_WORDS = 'ensures { result ≡ hash_words tablespace database relation fork block }'
# a line of costs: what a use, a piece of the input and its end make of words, blocks and table that are lent, and what is put of that
LENT = 'states: &mut [u32], held: &mut [u16], place: &mut [u16]'
BEFORE, AFTER = ('states.%s held.%s' % (moment, moment) for moment in ('old', 'new'))


def leaves(asked, left, made, of, more=''):
    """`asked` of what is lent, and `more`; afterwards `left` of it, and `made` of it is `of`."""
    return ('requires { %s states.old held.old place.old } %sensures { %s %s ≡ %s } ensures { %s %s place.new }'
            % (asked, more, made, AFTER, of, left, AFTER))


def reads(of):
    return leaves('Ready s', 'Ready result', 'scan_of result', of % ('(scan_of s %s)' % BEFORE))


# functions by crate, with parameters and contract
FUNCTIONS = {
    'buftag': {'pub fn hash': FIVE + OF_WORDS + ' ' + OF_BYTES, 'pub fn buftag_hash': FIVE + OF_BYTES},
    'buftag_c': {'pub extern "C" fn buftag_hash': FIVE + OF_BYTES},
    'buftrace': {
        'pub fn use_block': 'n: usize, c: Tally, %s, block: usize) -> Tally ' % LENT
        + leaves('Fit n c', 'Fit n result', 'trace_of result', 'use1 n (trace_of c %s) block' % BEFORE,
                 'requires { (0 < n) × (block < max_blocks) × (many c.totals < max_uses) } ')
        + ' ensures { many result.totals ≡ suc (many c.totals) }',
        'pub fn feed': 's: Reader, %s, bytes: &[u8]) -> Reader ' % LENT + reads('feds %s bytes.now'),
        'pub fn finish': 's: Reader, %s) -> Reader ' % LENT + reads('finished %s'),
        'pub fn break_off': 's: Reader) -> Reader requires { s.line ≤ max_lines } ensures { result ≡ broken_reader s } '
        'ensures { Becomes broken s result }',
        'pub fn put_line': 's: Reader, out: &mut [u8; 64]) -> usize ensures { IsPrefixLen result out.new } '
        'ensures { take result out.new ≡ printed_of s }',
    },
    'bufcost': {
        'fn take_piece': 's: Reader, %s, bytes: &[u8]) -> Piece requires { Ready s states.old held.old place.old } ' % LENT
        + 'ensures { Ready result.reader %s place.new } ' % AFTER
        + 'ensures { scan_of result.reader %s ≡ feds (scan_of s %s) bytes.now } ' % (AFTER, BEFORE)
        + 'ensures { result.more ≡ (not (eqb (length bytes.now) 0) && eqb result.reader.bad 0) }',
        'fn sum_up': 't: Reader, %s, out: &mut [u8; 64]) -> usize requires { Ready t states.old held.old place.old } ' % LENT
        + 'ensures { IsPrefixLen result out.new } '
        + 'ensures { take result out.new ≡ printed (finished (scan_of t %s)) }' % BEFORE,
        'fn cost_line': 'input: &mut Stdin, out: &mut [u8; 64]) -> usize ensures { IsPrefixLen result out.new } '
        'ensures { Wrote (take result out.new) }',
    },
}
# and where the words of these contracts are from, none by another name
PRELUDE = 'Rattle.std.specs.Prelude'
SCAN, TRACE, REPORT = ('Rattle.buftrace.specs.' + name for name in ('Scan', 'Trace', 'Report'))
NAME = dict.fromkeys(('hash_of', 'hash_words', 'name_of'), 'Rattle.buftag.specs.Name')
FROM = {
    'buftag': NAME,
    'buftag_c': NAME,
    'buftrace': {
        **dict.fromkeys(('Ready', 'scan_of', 'feds', 'finished', 'broken', 'broken_reader', 'Becomes', 'max_lines'), SCAN),
        **dict.fromkeys(('Fit', 'many', 'trace_of', 'use1'), TRACE),
        'printed_of': REPORT, 'max_uses': 'Rattle.buftrace.specs.Input', 'max_blocks': 'Rattle.bufmodel.specs.Sizes',
        'take': PRELUDE,
    },
    'bufcost': {
        **dict.fromkeys(('Ready', 'scan_of', 'feds', 'finished'), SCAN),
        **dict.fromkeys(('Wrote', 'printed'), REPORT),
        **dict.fromkeys(('take', 'length', 'eqb', 'not'), PRELUDE),
    },
}
GHOST = re.compile(r'^ghost use (\S+)\.\{(.*?)\};', re.M | re.S)
# the lent memory of the contracts and what a call leaves, and what the two of OTHERS say, as bufpool's own specs define it
DEFINITIONS = {
    'Lent.antt': [
        'lent %s =' % ' '.join(SLICES),
        *('      %s = %s;' % (name, name) for name in SLICES),
        'ends r answer bytes l = record { result = r; answer = answer; bytes = bytes; lent = l }',
    ],
    'Interface.antt': ['interface = 4'],
    'Checksum.antt': [
        'sum_result page answer = cond (eqb (length answer) answer_words && permitted (length page)) 0 1',
        'sum_words page block = cond (permitted (length page)) (one (checksum block page)) zeros',
        'sum_answer page block answer = cond (eqb (length answer) answer_words) (sum_words page block) answer',
    ],
}


def clauses(text):
    """What stands before a function's body on one line, its clauses without their names."""
    return re.sub(r'\b(requires|ensures) \w+ \{', r'\1 {', ' '.join(text.split()))


def wanted(name, parameters):
    """The contract of an export: a slice that it takes by `&mut` is afterwards what the call's definition makes of it."""
    if name in OTHERS:
        return OTHERS[name][1] if parameters == OTHERS[name][0] else 'with these parameters: ' + OTHERS[name][0]
    call, own = CALLS[name]
    changed = {slice for slice in SLICES + [own] if re.search(r'\b%s: &mut ' % slice, parameters)}
    old, new = ({slice: '%s.%s' % (slice, moment if slice in changed else 'now') for slice in SLICES + [own]} for moment in ('old', 'new'))
    return 'ensures { ends result answer.new %s (lent %s) ≡ called (λ m. %s) (lent %s) %s answer.old }' % (
        new[own] if own else '[]', ' '.join(new[slice] for slice in SLICES), call, ' '.join(old[slice] for slice in SLICES),
        old[own] if own else '[]')


def exports(crates, crate, form=EXPORT):
    for path in sorted(glob.glob('%s/%s/src/*.rt' % (crates, crate))):
        yield from form.findall(open(path, encoding='utf8').read())


def functions(crates, crate):
    """What is wrong with the contracts of a crate's functions."""
    code = ''.join(open(path, encoding='utf8').read() for path in sorted(glob.glob('%s/%s/src/*.rt' % (crates, crate))))
    for head, contract in FUNCTIONS[crate].items():
        said = [clauses(text) for text in re.findall(r'^%s\((.*?\n)\{\n' % re.escape(head), code, re.S | re.M)]
        said = [re.sub(r',? ?\) -> ', ') -> ', text, count=1) for text in said]
        if said != [contract]:
            yield '%s says: %s' % (head.split()[-1], said)
    for module, names in GHOST.findall(code):
        for name in re.split(r',\s*', names.strip().rstrip(',')):
            if ' as ' in name and '◌' in name:
                yield '%s has an operator by another name: %s' % (crate, name)
            if any(FROM[crate][word] != module or ' as ' in name for word in FROM[crate].keys() & set(name.split())):
                yield '%s has %s from %s' % (crate, name, module)


def main(crates):
    found, wrong = {}, [text for crate in FUNCTIONS for text in functions(crates, crate)]
    for crate in ('buftag_c', 'bufbooks_c', 'bufpool_c'):
        for name, parameters, contract in exports(crates, crate):
            found[name] = crate
            said = clauses(contract)
            if 'requires' in said:
                wrong.append('%s asks something of its caller' % name)
            if crate == 'bufpool_c' and said != wanted(name, parameters):
                wrong.append('%s says: %s' % (name, said))
    called = {name: (parameters, clauses(contract)) for name, parameters, contract in exports(crates, 'bufpool', CALLED)}
    wrong += ['%s says: %s' % (name, said) for name, (parameters, said) in called.items() if said != wanted(name, parameters)]
    wrong += ['%s asks something of its caller' % name for name, (_, said) in called.items() if 'requires' in said]
    wrong += ['%s is not in bufpool' % name for name in (*CALLS, *OTHERS) if name not in called]
    for name, lines in DEFINITIONS.items():
        text = open('%s/bufpool/specs/%s' % (crates, name), encoding='utf8').read().split('\n')
        wrong += ['%s does not have: %s' % (name, line) for line in lines if line not in text]
    wrong += ['%s is not exported by bufpool_c' % name for name in (*CALLS, *OTHERS) if found.get(name) != 'bufpool_c']
    if len(found) != len(CALLS) + len(OTHERS) + 4:
        wrong.append('%d exports were read' % len(found))
    print('\n'.join(wrong))
    return bool(wrong)


sys.exit(main(sys.argv[1]))
