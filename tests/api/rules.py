"""rules.py RULES STATEMENT TEXT..: that each rule of RULES is cited by the statement's page, and that each rule which the statement or a
text cites is there. A citation is the first cell of a row of the statement, or 'rule 4.11' in a text. Prints what is wrong; status 1 if
anything is."""
import re
import sys

NUMBER = r'\d+(?:\.\d+)?'


def read(path):
    return open(path, encoding='utf8').read()


def given(text):
    """The rules: items of lists and rows of tables that begin with a number, and sections."""
    rules = re.findall(r'^(?:- \*\*|\| )(\d+\.\d+)', text, re.M)
    return rules, re.findall(r'^## (\d+)\. ', text, re.M)


def cited(cell, rules):
    """The rules that a cell like '4.6–4.8, 4.11' names."""
    for part in cell.split(', '):
        ends = part.split('–')
        if len(ends) == 2 and ends[0] in rules and ends[1] in rules:
            yield from rules[rules.index(ends[0]):rules.index(ends[1]) + 1]
        else:
            yield part


def main(rules_page, statement, texts):
    rules, sections = given(read(rules_page))
    cells = re.findall(r'^\| (%s(?:[–, ]+%s)*) \| ' % (NUMBER, NUMBER), read(statement), re.M)
    named = {rule for cell in cells for rule in cited(cell, rules)}
    wrong = ['not in the statement: %s' % rule for rule in rules if rule not in named]
    wrong += ['no such rule, in the statement: %s' % rule for rule in sorted(named) if rule not in rules + sections]
    for text in texts:
        # 'rule 4.1', 'rules 3.1 to 3.3', 'rules 5.15, 5.16 and 6.1'
        cites = [rule for run in re.findall(r'\b[Rr]ules? (\d+\.\d+(?:(?:,| and| to| or) \d+\.\d+)*)', read(text))
                 for rule in re.findall(r'\d+\.\d+', run)]
        wrong += ['no such rule, in %s: %s' % (text, rule) for rule in cites if rule not in rules]
    wrong += ['twice: %s' % rule for rule in set(rules) if rules.count(rule) > 1]
    print('\n'.join(wrong))
    return bool(wrong) or len(rules) < 60 or len(cells) < 60


sys.exit(main(sys.argv[1], sys.argv[2], sys.argv[3:]))
