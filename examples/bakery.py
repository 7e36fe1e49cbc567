#!/usr/bin/env python3
"""The pages that a bakery's tills use on one day, one block number a line, for bufpool-sizing: bakery.py >bakery.list

The file has 2,000 blocks: the day's totals, the price list, the stock, and receipts, of which the last ones are today's.
"""
BLOCKS = 2000
TOTALS = 0
PRICES, STOCK = range(1, 81), range(81, 281)
FIRST_RECEIPT = 1930  # of today
SALES, SALES_A_PAGE = 3800, 90


def numbers(seed):
    """Numbers from 0 to 2^31 - 1, the same on every machine."""
    while True:
        seed = (seed * 6364136223846793005 + 1442695040888963407) % 2**64
        yield seed >> 33


def below(source, end):
    return next(source) % end


def seldom(source, end):
    """A number below end, the smaller the more often: a few products make most of the sales."""
    return below(source, 1 + below(source, 1 + below(source, end)))


def sale(source, receipt):
    """For each product its price, a line of the receipt and its stock; at the end the day's totals."""
    for _ in range(1 + below(source, 5)):
        product = seldom(source, len(PRICES))
        yield PRICES[product]
        yield receipt
        yield STOCK[(product * 5 + seldom(source, 5)) // 2]
    yield receipt
    yield TOTALS


def day(source):
    for number in range(SALES):
        receipt = FIRST_RECEIPT + number // SALES_A_PAGE
        yield from sale(source, receipt)
        if below(source, 50) == 0:  # goods brought back: a receipt of the last days
            yield receipt - 1 - seldom(source, 30)
    yield from STOCK  # closing time: the stock is counted, and the day's receipts are added up
    yield from range(FIRST_RECEIPT, receipt + 1)


if __name__ == '__main__':
    for block in day(numbers(2026)):
        print(block)
