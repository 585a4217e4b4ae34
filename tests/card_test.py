"""Cuts the power of the tour at every block store, reads what is then on its card, and has the tour begin again.

python3 tests/card_test.py PATH_TO_PEDIGREE

The card's file is read here, by the reader and by what the document says of block 0. Found are exactly the entries of
the images whose last store was made, less those released; the program prints the same. Ends with status 1 at the
first difference.
"""
import os
import struct
import subprocess
import sys
import tempfile

sys.dont_write_bytecode = True      # nothing is left in the folder

import reader

BLOCKS = 4              # of the tour's region
CUT = 9                 # the status of a program whose power went
SECONDS = 60            # for one run
EXPECTED = os.path.join(os.path.dirname(os.path.abspath(__file__)), '..', 'c', 'pedigree.expected')


# What the tour stores

def fish(*numbers):
    return [('I', b'fish/%d' % number, b'dam 4, sire 9') for number in numbers]


def markers(first):
    return [('I', b'marker/%d' % (first + k), b'ACGT'[k:k + 1] * 1000) for k in range(4)]


FIRST = fish(17, 18, 19), 1         # entries and blocks
SECOND = markers(1) + [('C', b'fish/', b'trial/')], 2
THIRD = fish(20) + markers(5), 2


def lives():
    """The live images after each number of stores; None before the formatting."""
    yield None
    live = []
    yield live
    for image in (FIRST, SECOND, None, THIRD):
        if image:
            yield from [live] * image[1]
            live = live + [image]
        else:                           # the first is released
            live = live[1:]
        yield live


# What is on a card

def found(card):
    """The live blocks as an image, or None where block 0 is not of its form."""
    if len(card) != 4096 * (2 + BLOCKS):
        return None
    try:
        payload = reader.strip(card[:4096])
    except reader.Refused:
        return None
    # "a 32-bit length (10), a two-byte kind (1), and 32-bit start and length of the live interval; the rest is zero"
    length, kind, start, live = struct.unpack('<IHII', payload[:14])
    if (length, kind) != (10, 1) or any(payload[14:]) or start >= BLOCKS or live > BLOCKS:
        return None
    at = [8192 + 4096 * ((start + k) % BLOCKS) for k in range(live)]
    return b''.join(card[place:place + 4096] for place in at)


def text(image):
    """What the tour prints of an image that it finds."""
    lines = ['found: %d block(s)' % (len(image) // 4096)]
    for kind, first, second in reader.entries_of(image):
        value = second.decode() if len(second) <= 40 else '%d bytes' % len(second)
        lines.append('%s %s %s' % ({'I': 'insert', 'C': 'clone '}[kind], first.decode(), value))
    return '\n'.join(lines + ['then 8: nothing is left', '']).encode()


# Runs

def fail(message):
    sys.exit('card_test: FAILED: ' + message)


def run(*words):
    return subprocess.run(words, stdout=subprocess.PIPE, timeout=SECONDS)


def contents(path):
    with open(path, 'rb') as file:
        return file.read()


def different_blocks(one, other):
    return [at // 4096 for at in range(0, len(one), 4096) if one[at:at + 4096] != other[at:at + 4096]]


def cut(program, path, stores, is_cut):
    """The card that a run leaves whose power goes behind so many stores."""
    ended = run(program, path, str(stores))
    if ended.returncode != (CUT if is_cut else 0):
        fail('status %d with %d stores' % (ended.returncode, stores))
    if is_cut and ended.stdout:
        fail('something is printed before the cut behind %d stores' % stores)
    return contents(path)


def compare(card, live, stores):
    """The text that a run on this card prints, if these images are live on it."""
    image = found(card)
    if live is None or image is None:
        if image is not live:
            fail('block 0 with %d stores' % stores)
        return contents(EXPECTED)
    try:
        entries = reader.entries_of(image)
    except reader.Refused as refused:
        fail('refused with %d after %d stores' % (refused.number, stores))
    if entries != [entry for entries, _ in live for entry in entries]:
        fail('other entries after %d stores' % stores)
    if len(image) != 4096 * sum(blocks for _, blocks in live):
        fail('%d bytes are live after %d stores' % (len(image), stores))
    return text(image)


def main():
    if len(sys.argv) != 2:
        sys.exit(__doc__)
    program = os.path.abspath(sys.argv[1])
    if not os.access(program, os.X_OK):
        fail('no program ' + sys.argv[1])
    plan = list(lives())
    before = bytes(4096 * (2 + BLOCKS))
    for stores, live in enumerate(plan):
        with tempfile.TemporaryDirectory() as folder:
            path = os.path.join(folder, 'card')
            card = cut(program, path, stores, stores < len(plan) - 1)
            printed = compare(card, live, stores)
            again = run(program, path)
            if (again.returncode, again.stdout) != (0, printed):
                fail('begun again after %d stores, it prints %r, not %r' % (stores, again.stdout, printed))
            if live is not None and contents(path) != card:
                fail('begun again after %d stores, it changes the card' % stores)
        different = different_blocks(before, card)
        if len(card) != len(before) or len(different) != (stores > 0):
            fail('store %d writes the blocks %s' % (stores, different))
        before = card
    print('card_test: cut at each of %d block stores, no difference' % (len(plan) - 1))


if __name__ == '__main__':
    main()
