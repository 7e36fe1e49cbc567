"""Slips of the input and of the line that is written: numbers, ranges, lines, how many there may be."""
from lists import USES
from model import Model, Pool
from planted import slip

# ---- numbers


class Numbers(Model):
    """What a number is, by another rule."""

    def stripped(self, line):
        return line

    def is_number(self, line):
        return super().is_number(self.stripped(line))

    def value(self, line):
        return super().value(self.stripped(line))


def stripping(words, group, strip):
    made = type('Stripping', (Numbers,), {'stripped': lambda self, line: strip(line), '__doc__': words})
    slip(group)(made)


stripping('a sign + is passed', 'damaged', lambda line: line.removeprefix(b'+'))
stripping('a sign - is passed', 'damaged', lambda line: line.removeprefix(b'-'))
stripping('spaces are passed', 'damaged', lambda line: line.strip(b' '))
stripping('tabs are passed', 'damaged', lambda line: line.strip(b'\t'))
stripping('a carriage return is passed', 'ends', lambda line: line.removesuffix(b'\r'))
stripping('a 0 byte ends a line', 'damaged', lambda line: line.split(b'\0')[0])
stripping('only the first 19 bytes of a line are read', 'ranges', lambda line: line[:19])
stripping('only the last five digits of a number count', 'ranges', lambda line: line[-5:] if line.isdigit() else line)
stripping('a byte order mark is passed', 'damaged', lambda line: line.removeprefix(b'\xef\xbb\xbf'))
stripping('an underline is passed', 'damaged', lambda line: line.replace(b'_', b''))
stripping('an empty line is 0', 'damaged', lambda line: line or b'0')
stripping('what stands behind a number is passed', 'other_bytes', lambda line: line[:1] if line[:1].isdigit() else line)
stripping('the highest bit of a byte is passed', 'other_bytes', lambda line: bytes(byte & 127 for byte in line))
stripping('byte 47 is a digit', 'other_bytes', lambda line: line.replace(b'/', b'0'))
stripping('byte 58 is a digit', 'other_bytes', lambda line: line.replace(b':', b'0'))


@slip('ranges')
class NoZeros(Model):
    """zeros in front are refused"""

    def is_number(self, line):
        return super().is_number(line) and (line == b'0' or line[:1] != b'0')


@slip('ranges')
class ShortLines(Model):
    """a line of more than 255 bytes is refused"""

    def is_number(self, line):
        return super().is_number(line) and len(line) < 256


@slip('ranges')
class Octal(Model):
    """a number that begins with 0 is octal"""

    def value(self, line):
        return int(line, 8) if line[:1] == b'0' and not line.strip(b'01234567') else int(line)


def cut_to(bits):
    made = type('Cut', (Model,), {'value': lambda self, line: int(line) % 2**bits, '__doc__': f'numbers are cut to {bits} bits'})
    slip('ranges')(made)


for bits in 16, 31, 32, 63, 64:
    cut_to(bits)


# ---- ranges


def ranging(words, **ranges):
    slip('ranges')(type('Ranging', (Model,), {**ranges, '__doc__': words}))


class Forgiving(Pool):
    """Also of no buffers."""

    def __init__(self, buffers):
        super().__init__(max(1, buffers))


ranging('N may be 0', buffers=range(1025), pool=Forgiving)
ranging('N may be 1,025', buffers=range(1, 1026))
ranging('N may not be 1,024', buffers=range(1, 1024))
ranging('N may not be 1', buffers=range(2, 1025))
ranging('65,537 blocks are permitted', blocks=range(65538))
ranging('65,536 blocks are not', blocks=range(65536))
ranging('0 blocks are not', blocks=range(1, 65537))
ranging('the number of blocks is permitted as a block', uses=lambda self, blocks: range(blocks + 1))
ranging('the last block is not', uses=lambda self, blocks: range(blocks - 1))
ranging('block 0 is not', uses=lambda self, blocks: range(1, blocks))
ranging('any block below 65,536 is', uses=lambda self, blocks: range(65536))
ranging('with no blocks, block 0 is permitted', uses=lambda self, blocks: range(blocks or 1))


# ---- lines


@slip('paper')
class NewlineDemanded(Model):
    """the last line is lost without its newline"""

    def lines(self, text):
        return text.split(b'\n')[:-1]


@slip('ends')
class EmptyLast(Model):
    """an empty last line is passed"""

    def lines(self, text):
        lines = super().lines(text)
        return lines[:-1] if lines and not lines[-1] else lines


@slip('ends')
class EmptyAtTheEnd(Model):
    """empty lines at the end are passed"""

    def lines(self, text):
        return super().lines(text.rstrip(b'\n'))


@slip('paper')
class LineBehindTheEnd(Model):
    """an empty line is seen behind the last newline"""

    def lines(self, text):
        return text.split(b'\n')


@slip('damaged')
class EmptyLines(Model):
    """empty lines are left out"""

    def lines(self, text):
        return [line for line in super().lines(text) if line]


@slip('ends')
class CarriageReturns(Model):
    """a carriage return ends a line too"""

    def lines(self, text):
        return super().lines(text.replace(b'\r\n', b'\n'))


@slip('ends')
class NothingIsFine(Model):
    """an empty input is a pool without uses"""

    def answer(self, text):
        return super().answer(text or b'1\n0\n')


@slip('ends')
class SecondMissing(Model):
    """a missing second line is 0 blocks"""

    def lines(self, text):
        lines = super().lines(text)
        return [*lines, b'0'] if len(lines) == 1 else lines


@slip('damaged')
class OneTooHigh(Model):
    """the bad line's number is one too high"""

    def say_bad(self, line):
        return super().say_bad(line + 1)


@slip('damaged')
class FromZero(Model):
    """lines are counted from 0"""

    def say_bad(self, line):
        return super().say_bad(line - 1)


@slip('ends')
class MissingFromZero(Model):
    """a missing line is reported as the last that is there"""

    def bad(self, lines):
        bad = super().bad(lines)
        return bad - 1 if bad is not None and bad == len(lines) + 1 else bad


@slip('first_bad')
class SecondBad(Model):
    """of two bad numbers the last is reported"""

    def bad(self, lines):
        bad = super().bad(lines)
        if bad is None or bad < 3:
            return bad
        return max(k for k, line in enumerate(lines, 1) if k == bad or k > bad and not self.fits(line, range(self.value(lines[1]))))


@slip('first_bad')
class NoNumberFirst(Model):
    """a line that is no number is reported before one that is out of range"""

    def bad(self, lines):
        return next((k for k, line in enumerate(lines, 1) if not self.is_number(line)), None) or super().bad(lines)


@slip('limits')
class OneMore(Model):
    """1,000,001 numbers are permitted"""
    most_uses = USES + 1


@slip('limits')
class OneLess(Model):
    """999,999 numbers are permitted"""
    most_uses = USES - 1


@slip('limits')
class TooManyLeftOut(Model):
    """numbers above 1,000,000 are left out"""

    def one_too_many(self, more):
        return None


@slip('limits')
class TooManyIfNumber(Model):
    """one too many is so only if it is a number"""

    def one_too_many(self, more):
        return 3 + self.most_uses if more and more[0].isdigit() else None


@slip('limits')
class TooManyFirst(Model):
    """one too many is reported before a bad line"""

    def bad(self, lines):
        return super().bad(lines) if len(lines) <= 2 + USES else 3 + USES


@slip('limits')
class LinesOf16Bits(Model):
    """the bad line's number is cut to 16 bits"""

    def say_bad(self, line):
        return super().say_bad(line % 65536)


# ---- the line that is written


def saying(words, text):
    slip('paper')(type('Saying', (Model,), {'say': lambda self, totals: text % totals, '__doc__': words}))


saying('no newline is written', b'%d %d %d')
saying('two newlines are written', b'%d %d %d\n\n')
saying('two spaces are written', b'%d  %d %d\n')
saying('a space is written at the end', b'%d %d %d \n')
saying('a zero is written in front', b'%02d %d %d\n')


@slip('small')
class ProbesBeforeLoads(Model):
    """probes are written before loads"""

    def say(self, totals):
        hits, loads, probes = totals
        return super().say((hits, probes, loads))
