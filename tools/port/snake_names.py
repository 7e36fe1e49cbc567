#!/usr/bin/env python3
"""Brings the repository's own definitions and lemmas to snake case, once, after the kit's port.py: withCounts becomes with_counts.

usage: python3 tools/port/snake_names.py      at the top of the repository

Lemmas whose name would fall together with a definition's are renamed first (APART). Rust names, strings, types and modules keep their spelling.
"""

import glob
import os
import re

# lemmas that would get the name of a definition beside them
APART = (
    'as_many bytes_fit ended_by few_words full_at held_in kept_in left_out load_word no_pin no_room no_words one_more sum_row taken_at '
    'top_read written_at'
).split()
# the same, in one file alone, since elsewhere the name is Rust's
APART_IN = {'crates/shelf/proofs/Numbers.antt': ['blocks_at']}
OWN = re.compile(r'Rattle\.(laws|buf\w+|shelf|twopools|poolrun)\b')
TOKEN = re.compile(r"(?<![A-Za-z0-9_'])[A-Za-z_][A-Za-z0-9_']*")
CAMEL = re.compile(r"[a-z].*[a-z0-9'][A-Z]")


def snake(name):
    return re.sub(r"(?<=[a-z0-9'])[A-Z]", lambda m: '_' + m.group(0).lower(), name)


def sources():
    found = glob.glob('crates/*/specs/**/*.antt', recursive=True) + glob.glob('crates/*/proofs/**/*.antt', recursive=True)
    return sorted(found + glob.glob('crates/*/src/**/*.rt', recursive=True))


def code(path, text):
    return re.sub(r'--.*' if path.endswith('.antt') else r'//.*', '', text)


def names_to_turn(texts):
    foreign, camel = set(), set()
    for path, text in texts.items():
        for module, names in re.findall(r'use ([\w.]+)\.\{([^}]*)\}', text):
            if not OWN.match(module):
                foreign |= set(TOKEN.findall(names))
        camel |= {t for t in TOKEN.findall(code(path, text)) if CAMEL.match(t)}
    turned = {t: snake(t) for t in camel - foreign}
    assert len(set(turned.values())) == len(turned), 'two names would be one'
    return turned


def renamed(text, names):
    return TOKEN.sub(lambda m: names.get(m.group(0), m.group(0)), text)


def outside_strings(line, names):
    parts = re.split(r'("(?:[^"\\]|\\.)*")', line)
    return ''.join(p if p.startswith('"') else renamed(p, names) for p in parts)


def write(path, text):
    with open(path, 'w', encoding='utf-8') as f:
        f.write(text)


def main():
    texts = {}
    for path in sources():
        with open(path, encoding='utf-8') as f:
            texts[path] = f.read()
    for path, text in texts.items():
        if path.endswith('.antt'):
            texts[path] = renamed(text, {n: n + '_is' for n in APART + APART_IN.get(path, [])})
    names = names_to_turn(texts)
    for path, text in texts.items():
        if path.endswith('.rt'):
            text = '\n'.join(outside_strings(line, names) for line in text.split('\n'))
        else:
            text = renamed(text, names)
        write(path, text)
    # what names definitions elsewhere: edits, tests that state them, pages
    others = glob.glob('crates/*/must-fail/**/*.edit', recursive=True) + glob.glob('tests/wrong_definitions/*.edit')
    others += glob.glob('tests/must_fail/idle/**/*.edit', recursive=True)
    others += [p for p in glob.glob('tests/theorem/**', recursive=True) if os.path.isfile(p)]
    others += glob.glob('tests/model/*.py') + glob.glob('docs/*.md') + ['README.md']
    # there port.py turned nothing: its names too
    known = {t for text in texts.values() for t in TOKEN.findall(renamed(text, names))}
    for path in others:
        with open(path, encoding='utf-8') as f:
            text = f.read()
        here = {t: snake(t) for t in TOKEN.findall(text) if CAMEL.match(t) and snake(t) in known}
        write(path, renamed(text, {**here, **names}))


main()
