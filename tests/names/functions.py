"""The functions of crates, as they are proved and compiled: no comment, no contract, each call by its function's full name, each variable
with a type. A crate's code is read from what rt keeps of a library that it built, CRATE.rlib/toolchain/mir.json, or from what
`rt check --generated FOLDER` writes of any crate, proved or not, of a function a file FUNCTION/Code/Mir.antt.

A type is a list: ['int', '32'], ['bool'], ['array', type, '256'], ['ref', type], ['named', 'buftag::name::PageName'], and others with what
stands in them."""
import json
import os
import re


class Function:
    def __init__(self, name, count, types, named, calls, cuts):
        self.name = name
        self.types = types  # of each variable
        self.ends = types[:count + 1]  # the result, then what it takes
        self.named = named  # the types of a struct's fields, or of an enum's
        self.calls = calls
        # by itself, or by the library
        self.cuts = cuts or any(re.search('::to_[bln]e_bytes$', call) for call in calls)


def parts(node):
    """A node and all below it, as far as they are nodes."""
    left = [node]
    while left:
        node = left.pop()
        if isinstance(node, list) and node:
            yield node
            left.extend(node)


# ---- a library as it was built

def json_type(node):
    """A type is written as a word, or as one with what stands in it."""
    (word, inside), = node.items() if isinstance(node, dict) else [(node, [])]
    if word == 'Int':
        return ['int', str(inside)]
    if word == 'Named':
        return ['named', inside[0]['name']]
    if word == 'Array':
        return ['array', json_type(inside[0]), str(inside[1].get('Lit'))]
    if word == 'Ref':
        return ['ref', json_type(inside[-1])]
    if word == 'Struct':
        return ['struct'] + [json_type(one) for one in inside[1]]
    if inside and word not in ('Enum', 'Param', 'Float'):
        raise ValueError('no type that is known: %s' % word)
    return [word.lower()]


def json_shape(shape):
    (word, inside), = shape.items()
    return [json_type(one) for row in (inside if word == 'Variants' else [inside]) for one in row]


def json_nodes(node):
    left = [node]
    while left:
        node = left.pop()
        if isinstance(node, dict):
            yield from node.items()
            left.extend(node.values())
        elif isinstance(node, list):
            left.extend(node)


def of_library(text):
    for name, code in json.loads(text):
        nodes = list(json_nodes(code['body']))
        yield Function(name, code['params'], [json_type(one['ty']) for one in code['locals']],
                       {one['name']: json_shape(one['shape']) for one in code['types']},
                       {inside[0] for word, inside in nodes if word == 'Fn'},
                       any(word == 'Cast' and inside[-1] == 8 for word, inside in nodes))


# ---- a crate as it is written out for a person

TOKEN = re.compile(r'"[^"]*"|[(),;{}]|[^\s(),;{}]+')


def parsed(text):
    """What stands between parentheses is a list; a comma makes the parts of a tuple lists."""
    within = [[]]
    for token in TOKEN.findall(text):
        if token in '({':
            within.append([])
        elif token in ')}':
            node = within.pop()
            if ',' in node:
                rows = [[]]
                for one in node:
                    rows.append([]) if one == ',' else rows[-1].append(one)
                node = [row[0] if len(row) == 1 else row for row in rows if row]
            # nothing is meant by parentheses around one word
            within[-1].append(node[0] if len(node) == 1 else node)
        else:
            within[-1].append(token.rpartition('.')[2] if not token.endswith('.[]') else '[]')
    top = within[0]
    return [top[0] if len(top) == 1 else top]


def elements(node, first):
    """Of a list that is written as pairs of a first and a rest."""
    while isinstance(node, list) and node[0] == first:
        yield node[1]
        node = node[2]


def symbol(node):
    return ''.join(chr(int(one)) for one in elements(node, '◌∷◌'))


def written_type(node):
    word, inside = (node, []) if isinstance(node, str) else (node[0], node[1:])
    if not word.startswith('ty_'):
        raise ValueError('no type that is known: %s' % word)
    if word == 'ty_int':
        return ['int', inside[0][1:]]
    if word == 'ty_named':
        return ['named', symbol(inside[0][0])]
    if word == 'ty_array':
        return ['array', written_type(inside[0]), inside[1]]
    if word == 'ty_ref':
        return ['ref', written_type(inside[2])]
    if word == 'ty_struct':
        return ['struct'] + [written_type(one) for one in elements(inside[1], 'tcons')]
    return [word[3:]]


def written_shape(node):
    word, inside = node
    rows = elements(inside, 'ttcons') if word == 'variants' else [inside]
    return [written_type(one) for row in rows for one in elements(row, 'tcons')]


def of_file(name, text):
    """Where declared types stand in a function by their names, it is `by_name`, and `table` says what they are."""
    found = {}
    for block in re.findall(r'(?m)^abbrev pub \S+ :.*\n((?:.+\n)+)', text):
        what, _, body = block.partition(' =')
        found[what] = body
    is_named = 'by_name' in found
    record = dict(re.findall(r'(\w+) = ([^;]*);', found['by_name' if is_named else 'function']))
    rows = parsed(found['table'])[0] if is_named else '[]'
    own = [parsed(body)[0] for what, body in found.items() if what.startswith('by_name-' if is_named else ('locals', 's-', 't-'))]
    return Function(name, int(record['params']),
                    [written_type(one[1]) for one in elements(parsed(found[record['locals']])[0], '◌∷◌')],
                    {symbol(one[0]): written_shape(one[2]) for one in elements(rows, '◌∷◌')},
                    {'::'.join([crate] + path.split('.')) for crate, path in
                     re.findall(r'(?m)^use Rattle\.(?:std\.below\.)?(\w+)\.proofs\.(\S+)\.Symbol\b', text)},
                    any(node[0] == 'cast' and node[-1] == 'w8' for body in own for node in parts(body)))


def of_folder(crate, folder):
    top = os.path.join(folder, 'Rattle-%s-proofs' % crate)
    if not os.path.isdir(top):
        raise ValueError('no %s' % top)
    for at, _, names in sorted(os.walk(top)):
        if 'Mir.antt' in names and os.path.basename(at) == 'Code':
            with open(os.path.join(at, 'Mir.antt'), encoding='utf8') as text:
                yield of_file('::'.join([crate] + os.path.relpath(os.path.dirname(at), top).split('/')), text.read())


def functions_of(crate, path):
    """The functions of a crate's own, from a file or a folder."""
    if os.path.isdir(path):
        found = of_folder(crate, path)
    else:
        with open(path, encoding='utf8') as text:
            found = of_library(text.read())
    return [one for one in found if one.name.startswith(crate + '::')]
