"""slips.py: the models with a slip in the program's place, over the same lists. Each slip names a group of lists, one of which has to
notice it, and each group is named by one. Each slip is a check; the last line has how many passed and how many failed."""
import sys

import input_slips  # noqa: F401; these two plant their slips
import pool_slips  # noqa: F401
from lists import GROUPS, cases_of
from model import Model
from planted import SLIPS


def main():
    right, failed, named = Model(), 0, {group for group, _, _ in SLIPS}
    for group in GROUPS:
        cases = [(case, right.answer(case.text)) for case in cases_of(group)]
        for words, model in ((words, model) for place, words, model in SLIPS if place == group):
            seen = next((case.name for case, line in cases if model.answer(case.text) != line), None)
            failed += seen is None
            print(f'FAILED: {group} does not notice: {words}' if seen is None else f'passed: {group} notices: {words} ({seen})')
    if named != set(GROUPS):
        failed += 1
        print(f'FAILED: these groups have no slip, or are none: {named ^ set(GROUPS)}')
    print(len(SLIPS) - failed, failed)
    sys.exit(failed > 0)


main()
