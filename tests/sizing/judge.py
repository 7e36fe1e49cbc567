"""What bufpool-sizing has to print and draw, by a model of the pool of its own or by bufcost run for every N.

judge.py judge PRINTED PICTURE BLOCKS LIST FIRST LAST [step] [PROGRAM]   says what is wrong with either; status 1 if anything is
judge.py model LIST N..                                                  hits, loads and probes with each N"""
import difflib
import fractions
import math
import os
import subprocess
import sys
import xml.etree.ElementTree

LEVELS = 90, 95, 99
STEPS = [1, 2, 3, 4, 5, 6, 7, 8, 10, 12, 14, 16, 20, 24, 28, 32, 40, 48, 56, 64, 80, 96, 112, 128, 160, 192, 224, 256, 320, 384, 448, 512,
         640, 768, 896, 1024]
SVG = '{http://www.w3.org/2000/svg}'


def model(n, uses):
    """A clock over n buffers, each a pair of block and usage count."""
    buffers, hand, hits, probes = [], 0, 0, 0
    for block in uses:
        found = next((b for b in buffers if b[0] == block), None)
        if found:
            hits, found[1] = hits + 1, min(found[1] + 1, 5)
        elif len(buffers) < n:
            buffers.append([block, 1])
        else:
            probes += 1
            while buffers[hand][1]:
                buffers[hand][1] -= 1
                hand, probes = (hand + 1) % n, probes + 1
            buffers[hand], hand = [block, 1], (hand + 1) % n
    return hits, len(uses) - hits, probes


def run(program, n, blocks, path):
    with open(path) as file:
        said = subprocess.run([program], input='%d\n%s\n' % (n, blocks) + file.read(), stdout=subprocess.PIPE, text=True).stdout
    return tuple(map(int, said.split()))


class Expected:
    def __init__(self, blocks, path, first, last, how):
        self.first, self.last, self.step = int(first), int(last), 'step' in how
        uses = list(map(int, open(path).read().split()))
        rows = [n for n in STEPS if self.first <= n <= self.last]
        rows = sorted({self.first, self.last, *rows})
        if self.last - self.first < 32:
            rows = list(range(self.first, self.last + 1))
        program = [word for word in how if word != 'step']
        looked = rows if self.step else range(self.first, self.last + 1)
        self.costs = {n: run(program[0], n, blocks, path) if program else model(n, uses) for n in looked}
        self.parts = {n: fractions.Fraction(hits, len(uses)) for n, (hits, _, _) in self.costs.items()}
        self.marks = {}
        for level in LEVELS:
            enough = [n for n in looked if self.parts[n] >= fractions.Fraction(level, 100)]
            self.marks[level] = min(enough, default=None)
        self.rows = sorted({*rows, *(n for n in self.marks.values() if n is not None)})
        self.title = '%s: %d uses of a file of %s blocks' % (os.path.basename(path), len(uses), blocks)

    def per_cent(self, n):
        text = '%05d' % math.floor(self.parts[n] * 10000)
        return (text[:-2].lstrip('0') or '0') + '.' + text[-2:]

    def text(self):
        yield self.title
        yield '    N     hits    loads   probes  per cent  card, s'
        for n in self.rows:
            seconds = '%.1f' % (self.costs[n][1] * 0.004)
            yield '%5d %8d %8d %8d' % (n, *self.costs[n]) + self.per_cent(n).rjust(10) + seconds.rjust(9)
        for level, mark in self.marks.items():
            yield '%d per cent: %s' % (level, 'not reached' if mark is None else 'N = %d' % mark)
            again = [n for n in self.costs if mark and n > mark and self.parts[n] < fractions.Fraction(level, 100)]
            if again:
                yield '  below it again: N = ' + ', '.join(map(str, again[:8])) + (' and %d more' % len(again[8:]) if again[8:] else '')
        if (self.first, self.last) != (1, 1024):
            yield 'only N from %d to %d were looked at: a smaller or a greater one may do' % (self.first, self.last)
        if self.step:
            yield 'only the N of this table were looked at: a smaller one between them may do'

    def wrong(self, path):
        """What is wrong with a picture. Places are judged by the numbers at its axes."""
        try:
            svg = xml.etree.ElementTree.parse(path).getroot()
        except xml.etree.ElementTree.ParseError as error:
            return ['not well-formed: %s' % error]
        if svg.tag != SVG + 'svg':
            return ['no svg']
        return [*self.wrong_axes(svg), *self.wrong_points(svg), *self.wrong_marks(svg)]

    def wrong_axes(self, svg):
        texts = [text for text in svg.findall(SVG + 'text') if text.text.isdigit()]
        across = {int(t.text): float(t.get('x')) for t in texts if t.get('text-anchor') == 'middle'}
        down = {int(t.text): float(t.get('y')) - 4 for t in texts if t.get('text-anchor') == 'end'}
        powers = [2**k for k in range(11) if 2**k < 2 * self.last and 2**(k + 1) > self.first]
        powers += [2 * powers[0]] * (len(powers) == 1)
        if sorted(across) != powers or sorted(down) != [0, 25, 50, 75, 100]:
            yield 'other numbers at the axes: %s, %s' % (sorted(across), sorted(down))
        step = (across[powers[-1]] - across[powers[0]]) / (len(powers) - 1)
        self.x = lambda n: across[powers[0]] + step * math.log2(n / powers[0])
        self.y = lambda part: down[0] + (down[100] - down[0]) * float(part)
        self.bottom = down[0]
        yield from ('%d does not stand at its place' % n for n in across if abs(across[n] - self.x(n)) > 0.15)
        yield from ('%d does not stand at its height' % n for n in down if abs(down[n] - self.y(n / 100)) > 0.15)
        if step < 20 or down[0] - down[100] < 200:
            yield 'the axes are too short, or the wrong way'
        words = [text.text for text in svg.findall(SVG + 'text')]
        yield from ('not there: ' + word for word in (self.title, 'buffers (N)', 'hits, per cent') if word not in words)

    def near(self, x, y, n):
        return abs(float(x) - self.x(n)) < 0.15 and abs(float(y) - self.y(self.parts[n])) < 0.15

    def wrong_points(self, svg):
        dots = svg.findall(SVG + 'circle')
        titles = [dot.find(SVG + 'title').text for dot in dots]
        if titles != ['N = %d: %s per cent' % (n, self.per_cent(n)) for n in self.rows]:
            yield 'other dots: ' + ', '.join(titles)
            return
        yield from ('the dot of %d is elsewhere' % n for n, dot in zip(self.rows, dots) if not self.near(dot.get('cx'), dot.get('cy'), n))
        curve = [point.split(',') for point in svg.find(SVG + 'polyline').get('points').split()]
        if len(curve) != len(self.costs):
            yield 'the curve has %d points' % len(curve)
        yield from ('the curve at %d is elsewhere' % n for n, (x, y) in zip(self.costs, curve) if not self.near(x, y, n))

    def wrong_marks(self, svg):
        marks = [mark for mark in svg.findall(SVG + 'g') if mark.get('class') == 'mark']
        wanted = {level: n for level, n in self.marks.items() if n is not None}
        words = ['%d per cent: N = %d' % pair for pair in wanted.items()]
        if [mark.find(SVG + 'title').text for mark in marks] != words or [mark.find(SVG + 'text').text for mark in marks] != words:
            yield 'other marks'
            return
        for (level, n), mark in zip(wanted.items(), marks):
            start, rest = mark.find(SVG + 'path').get('d').split('H')
            height, (across, end) = start.split()[1], rest.split('V')
            if abs(float(across) - self.x(n)) > 0.15 or abs(float(height) - self.y(level / 100)) > 0.15 or float(end) != self.bottom:
                yield 'the mark of %d per cent is elsewhere' % level


def main(what, *words):
    if what == 'model':
        uses = list(map(int, open(words[0]).read().split()))
        print(*(' '.join(map(str, model(int(n), uses))) for n in words[1:]), sep='\n')
        return 0
    printed, picture, *of = words
    expected = Expected(*of[:4], of[4:])
    lines = open(printed).read().split('\n')[:-1]
    wrong = [*difflib.unified_diff(list(expected.text()), lines, 'expected', 'printed', n=0, lineterm=''), *expected.wrong(picture)]
    print(*wrong, sep='\n', end='\n' if wrong else '')
    return bool(wrong)


sys.exit(main(*sys.argv[1:]))
