"""A till's card, of blocks of 8,192 bytes, beside the file of a PostgreSQL table.
card.py table CARD FILE   writes the receipts' blocks to FILE, and prints for each what pageinspect's page_header has to say of it
card.py plain CARD FILE   writes them with bytes 8 to 23 zero: pages of the same lines without a page header
card.py before CARD FILE  writes them with bytes 8 and 9 zero: as a till wrote them that gave no checksums
card.py same CARD FILE    FILE has the receipts' blocks, to the last byte
Status 0, or 1 and a line about what is not as expected."""
import struct
import sys

PAGE, LINES = 8192, 64
NOTES = struct.Struct("<8sIIQ6I")  # mark, page size, the day's first block, log position, the receipts' file row


def receipts(card):
    """The receipts' blocks, and the log position in the notes."""
    with open(card, "rb") as file:
        data = file.read()
    _, size, _, position, *row = NOTES.unpack_from(data)
    if size != PAGE:
        sys.exit(f"the card has blocks of {size} bytes")
    return [data[at:at + PAGE] for at in range(PAGE, PAGE * (row[4] + 1), PAGE)], position


def save(path, pages):
    with open(path, "r+b") as file:  # the server's own file: its owner and mode stay
        file.truncate()
        file.write(b"".join(pages))


def table(pages, position, path):
    """A page without lines is all zeros. The page that was written last has the log's end for its position."""
    last = 0
    for block, page in enumerate(pages):
        high, low = struct.unpack_from("<II", page)
        if any(page) and not any(page[LINES:]):
            sys.exit(f"page {block} has no lines and is not zeros")
        if any(page) and not any(page[8:10]):
            sys.exit(f"page {block} has lines and no checksum")
        print(f"{block}|{high:X}/{low:X}|" + ("24|64|8192|8192|4" if any(page) else "0|0|0|0|0"))
        last = max(last, high << 32 | low)
    if last != position:
        sys.exit(f"no page has the log's end {position}, the last is {last}")
    save(path, pages)


def same(pages, path):
    with open(path, "rb") as file:
        given = file.read()
    if len(given) != PAGE * len(pages):
        sys.exit(f"the file has {len(given)} bytes")
    for block, page in enumerate(pages):
        if given[PAGE * block:PAGE * (block + 1)] != page:
            sys.exit(f"page {block} has other bytes")


def main(what, card, path):
    pages, position = receipts(card)
    if what == "table":
        table(pages, position, path)
    elif what in ("plain", "before"):
        end = 24 if what == "plain" else 10
        save(path, [page[:8] + bytes(end - 8) + page[end:] for page in pages])
    elif what == "same":
        same(pages, path)
    else:
        sys.exit(__doc__)


main(*sys.argv[1:])
