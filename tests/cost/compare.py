"""compare.py PROGRAM SEED [GROUP..]: the program over the lists of each group, or of these, against what lists.py says and the model.
Each group is a check; the last line has how many passed and how many failed."""
import sys

from lists import GROUPS, cases_of
from model import Model
from program import PIECE, Program, right


def answers(group, seed):
    """The cases and their lines. Where a case says its line the model has to say it too."""
    for case in cases_of(group, seed):
        line = Model().answer(case.text)
        if case.known not in (None, line):
            raise ValueError(f'{group}, {case.name}: the model has {line!r}, the list says {case.known!r}')
        yield case, line


def reads_on(text, line, read):
    """Whether more was read than all of the text or, with a bad line, the pieces up to its end."""
    words = line.split()
    if words[0] != b'bad':
        return read != len(text)
    line_number = int(words[2])
    parts = text.split(b'\n', line_number)
    end = len(text) - len(parts[line_number]) if len(parts) > line_number else len(text)
    return read > -(-end // PIECE) * PIECE


def differing(program, group, seed):
    """What is wrong, and how many runs there were."""
    runs, wrong = 0, []
    for case, line in answers(group, seed):
        ran, read = program.over_file(case.text)
        runs += 1
        if not right(ran, line):
            wrong.append(f'{case.name}: {ran}, not {line}')
        elif reads_on(case.text, line, read):
            wrong.append(f'{case.name}: {read} bytes are read')
        # every third short one also through a pipe
        if len(case.text) <= PIECE and runs % 3 == 0:
            ran = program.over_pipe(case.text)
            if not right(ran, line):
                wrong.append(f'{case.name}, through a pipe: {ran}, not {line}')
        if len(wrong) > 5:
            break
    return wrong, runs


def main():
    program, seed, groups = Program(sys.argv[1]), int(sys.argv[2]), sys.argv[3:] or GROUPS
    failed = 0
    for group in groups:
        wrong, runs = differing(program, group, seed)
        failed += bool(wrong)
        print(f'{"FAILED" if wrong else "passed"}: {group}, {runs} lists')
        for words in wrong:
            print('   ', words[:300])
    print(len(groups) - failed, failed)
    sys.exit(failed > 0)


main()
