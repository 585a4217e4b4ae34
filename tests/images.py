"""Images for the lister, the same in every run: python3 tests/images.py [--many N] prints how many of each kind.

`gate()` gives those of the gate, `many(n, seed)` n random ones. An image has a kind, its bytes, and the text that
the lister prints as far as the maker knows it without reading the image: None leaves it to the reader.
"""
import argparse
import collections
import os
import random
import sys

sys.dont_write_bytecode = True      # nothing is left in the folder

from batches import (AB, ALL_BYTES, CLONED, EMPTY, FIRST, LONGEST, SEVERAL, TO, VALUE, WORDS, batches_at_random,
                     ending, entry_weighing, filling, fitting, joined, known)
from damage import checksum_damage, damaged, head_damage, payload_damage, second_head_damage, torn, two_damaged
from writer import batch, flip, form, image, put, refused, seal, text, weight, word

Image = collections.namedtuple('Image', 'kind data known')
STORED = os.path.join(os.path.dirname(os.path.abspath(__file__)), 'stored')

# The kinds of the gate. Each gives (data, known).

def empty(rng):
    yield b'', text()


def cases(rng):
    """The document's own."""
    yield image(batch([AB])), b'entries 1\nI 6162 63\n'
    yield image(batch([CLONED])), b'entries 1\nC 6162 63\n'
    yield image(batch([], 1)), b'entries 0\n'
    yield image(batch([AB], 1, blocks_word=2)), refused(14)
    payload = bytes.fromhex('0100000001000000 00100000 03000000 616263')
    yield seal(payload.ljust(4064, b'\0')), b'entries 1\nC - 616263\n'
    key = b'k' * 513
    yield image(batch([('C', key[:512], b'v')])), b'entries 1\nC %s 76\n' % (b'6b' * 512)
    yield image(batch([('C', key, b'v')])), refused(14)
    yield image(batch([('I', key[:512], b'v')])), b'entries 1\nI %s 76\n' % (b'6b' * 512)
    yield image(batch([('I', key, b'v')])), refused(14)


def one_batch(rng):
    """Any entries, in as many blocks as needed or more."""
    for _ in range(100):
        blocks = rng.choice([1, 1, 1, 2, 3, 4, 6])
        entries = fitting(rng, 4064 * blocks - 8)
        yield image(batch(entries, blocks)), text(entries)
    for entries in ([('I', ALL_BYTES, ALL_BYTES[::-1])], [('C', ALL_BYTES[::-1], ALL_BYTES)],
                    [('I', b'', b''), ('I', b'', b'x'), ('I', b'x', b''), ('C', b'', b''), ('C', b'', b'x'),
                     ('C', b'x', b''), ('I', b'x', b'x')]):
        yield image(batch(entries)), text(entries)


def numbers_of_entries(rng):
    """Counts of every length in decimal, in one batch."""
    for count in [*range(0, 13), 19, 20, 21, 90, 99, 100, 101, 109, 110, 200, 255, 256, 257, 500, 506, 507, 508, 999,
                  1000, 1001, 1010, 1100, 4096, 7000, 7618, 7619]:
        entries = [EMPTY] * count
        yield image(batch(entries)), text(entries)


def many_batches(rng):
    for blocks in range(2, 16):
        batches = [([(rng.choice('IC'), b'batch', bytes([at]))], 1) for at in range(blocks)]
        yield seal(joined(batches)), known(batches)
    for _ in range(100):
        batches = batches_at_random(rng, rng.choice([2, 2, 3, 4, 5, 6]))
        yield seal(joined(batches)), known(batches)
    for _ in range(8):
        batches = batches_at_random(rng, 15)
        yield seal(joined(batches)), known(batches)
    # one batch of each number of blocks, then one more batch
    for blocks in range(1, 15):
        batches = [([AB] * 3, blocks), ([CLONED], 15 - blocks)]
        yield seal(joined(batches)), known(batches)


def full(rng):
    """Not a byte left over."""
    for blocks in (1, 2, 3, 14, 15):
        for most in (LONGEST, SEVERAL, 40):
            batches = [(filling(rng, 4064 * blocks - 8, most), blocks)]
            yield seal(joined(batches)), known(batches)
            batches = [(filling(rng, 4056, most), 1) for _ in range(blocks)]
            yield seal(joined(batches)), known(batches)
        batches = [([EMPTY] * ((4064 * blocks - 8) // 8), blocks)]
        yield seal(joined(batches)), known(batches)
        batches = [([EMPTY] * 507, 1)] * blocks
        yield seal(joined(batches)), known(batches)
    # the longest values, with the longest keys and with none, in one batch and in three
    for first in (FIRST, 0):
        longest = [('I', rng.randbytes(first), rng.randbytes(VALUE)) for _ in range(3)]
        batches = [(longest + filling(rng, 60952 - weight(longest)), 15)]
        yield seal(joined(batches)), known(batches)
        batches = [(filling(rng, 20312 - weight([one])) + [one], 5) for one in longest]
        yield seal(joined(batches)), known(batches)


def sizes(rng):
    """About 15 and 16 blocks, good or bad inside: 13 comes before any other number."""
    good = [([AB, CLONED], 1)] * 16
    sixteen = seal(joined(good))
    yield sixteen[:61440], known(good[:15])
    one = seal(joined([(filling(rng, 65016, LONGEST), 16)]))
    yield one[:61440], refused(14)
    bad = flip(sixteen, 5000, 1)
    yield bad[:61440], refused(12)
    for length in (57344, 57343, 57345, 59000, 61408, 61438, 61439):
        for data in (sixteen, one, bad):
            yield data[:length], refused(11) if length % 4096 else None
    long = sixteen * 40
    for length in (61441, 61442, 61472, 61504, 65024, 65504, 65535, 65536, 65537, 65568, 69632, 69633, 122880, 131072,
                   262144, 1048576):
        for data in (long, bad + long, bytes(length), one + long):
            yield data[:length], refused(13)
    for _ in range(10):
        yield rng.randbytes(rng.randint(61441, 140000)), refused(13)


def blocks_word(rng):
    """0, one too large, one too small, 2^32 - 1 and others, in each batch of some."""
    layouts = [[([AB], 1)], [([AB], 2)], [([AB], 1), ([CLONED], 1)], [([AB] * 2, 1), ([CLONED], 2), ([AB], 1)],
               [([AB] * 400, 2), ([CLONED], 1)]]
    for batches in layouts:
        payload = joined(batches)
        start = 0
        for _, blocks in batches:
            left = (len(payload) - start) // 4064
            numbers = {*WORDS, blocks - 1, blocks + 1, left - 1, left, left + 1, left + 2}
            numbers |= {more + blocks for more in (256, 2**16, 2**20, 2**24, 2**27, 2**28, 2**31)}
            for number in sorted(numbers):
                told = refused(14) if not 1 <= number <= left else known(batches) if number == blocks else None
                yield seal(put(payload, start + 4, word(number))), told
            start += 4064 * blocks
    # 15 blocks, as one batch and as the last of some
    for number in (13, 14, 15, 16, 2**32 - 1):
        yield image(batch([AB], 15, blocks_word=number)), None
        yield image(batch([AB], 5), batch([AB], 10, blocks_word=number - 5)), None
    # a batch that claims the next one's blocks: what they hold is ignored
    yield image(batch([AB], 1, blocks_word=2), batch([CLONED], 1)), text([AB])
    yield image(batch([AB], 1, blocks_word=2), batch([CLONED], 1, blocks_word=0), batch([AB])), text([AB], [AB])


def count_word(rng):
    """One too many, one too few, 2^32 - 1 and others. Zero bytes read as empty inserts, as far as they reach."""
    for batches in ([([AB, CLONED], 1)], [([AB, CLONED], 1), ([CLONED], 1)], [([AB, CLONED], 2), ([CLONED], 1)]):
        payload = joined(batches)
        for number in sorted({*WORDS, 504, 505, *range(1008, 1016)}):
            yield seal(put(payload, 0, word(number))), None
    # a full batch, and ones with 1 to 17 bytes left over, alone and before another
    for left in range(18):
        entries = filling(rng, 4056 - left)
        for more in (-1, 1, 2, 3):
            payload = batch(entries, count=len(entries) + more)
            read = entries[:-1] if more < 0 else entries + [EMPTY] * more
            for following in ([], [AB]):
                yield image(payload, batch(following)), text(read, following) if more <= left // 8 else refused(14)
            yield image(payload), text(read) if more <= left // 8 else refused(14)
    for number in (506, 507, 508, 2**16 + 1, 2**24 + 1, 2**32 - 1):
        yield image(batch([], 1, count=number)), text([EMPTY] * number) if number < 508 else refused(14)
    for number in (7619, 7620, 7621):
        yield image(batch([], 15, count=number)), text([EMPTY] * number) if number < 7620 else refused(14)


def lengths(rng):
    """Each limit and one past it, with the bytes all there, and numbers far off."""
    firsts = (0, 1, 511, 512, 513, 514)
    seconds = (0, 1, 1023, 1024, 1025, 1026, 4063, 4064, 4065, 8128, 16383, 16384, 16385, 16386)
    tried = [('I', first, second) for first in firsts for second in seconds]
    tried += [('C', first, second) for first in firsts for second in (0, 1, 511, 512, 513, 514, 1024, 16384)]
    for kind, first, second in tried:
        entries = [(kind, rng.randbytes(first), rng.randbytes(second)), AB]
        good = first <= FIRST and second <= (VALUE if kind == 'I' else TO)
        yield image(batch(entries)), text(entries) if good else refused(14)
        entries = [AB] + filling(rng, 3000) + entries[:1]
        yield image(batch(entries)), text(entries) if good else refused(14)
    # a first length word of any number, over a random batch of 3 blocks
    for number in sorted({*WORDS, 4100, 4500, 6000, 2**12 + 2**31, 2**32 - 4097, 2**32 - 4095}):
        forms = word(number) + rng.randbytes(9000)
        yield image(batch([AB], 3, forms=forms)), None if number <= 4608 else refused(14)
        forms = word(number) + bytes(9000)
        yield image(batch([AB], 3, forms=forms)), refused(14) if 512 < number < 4096 or number > 4608 else None
        forms = form(AB) + word(number) + bytes(9000)
        yield image(batch([AB, AB], 3, forms=forms)), refused(14) if 512 < number < 4096 or number > 4608 else None
    # a second length word of any number
    second = rng.randbytes(17000)
    for number in WORDS:
        for kind, most in (('I', VALUE), ('C', TO)):
            forms = form((kind, b'first', second), second_length=number)
            read = [(kind, b'first', second[:number])]
            good = number <= most
            yield image(batch(read, 5, forms=forms)), text(read) if good else refused(14)
            yield image(batch([AB] + read, 5, forms=form(AB) + forms)), text([AB] + read) if good else refused(14)


def values(rng):
    """Values about the length of a block's payload and of two, and about the limits of 1,024 and 16,384 bytes: they
    start at many places of a block."""
    for length in (1023, 1024, 1025, 4063, 4064, 4065, 8127, 8128, 8129, 12192, 16383, 16384, 16385, 16386):
        for place in (0, 1, 7, 8, 12, 13, 2032, *range(4055, 4064)):
            key = rng.randbytes(rng.choice([0, 7, FIRST]))
            entries = ending(rng, place - 8 - len(key)) + [('I', key, rng.randbytes(length)), AB]
            yield image(batch(entries)), text(entries) if length <= VALUE else refused(14)


def crossing(rng):
    """Entries, length words and byte runs across a block's end at every offset, in one batch; the same across the
    batch's end, which is refused, whether a block follows or not."""
    for kind in 'IC':
        odd = (kind, rng.randbytes(5), rng.randbytes(7))
        middling = (kind, rng.randbytes(40), rng.randbytes(60))
        longest = (kind, rng.randbytes(FIRST), rng.randbytes(VALUE if kind == 'I' else TO))
        end = weight([longest])
        some = [*range(0, 6), *range(6, end, end // 16), *range(514, 522), *range(end - 4, end + 1)]
        for over, befores in ((odd, range(0, 21)), (middling, range(0, 109)), (longest, some)):
            for before in befores:                      # so many of its bytes lie before a block's end
                entries = ending(rng, -before) + [over, AB]
                yield image(batch(entries)), text(entries)
                if over is odd:
                    fits = before == weight([over])
                    forms = b''.join(form(one) for one in entries[:-1])[:4056]
                    payload = batch(entries[:-1], 1, forms=forms)
                    yield image(payload), text(entries[:-1]) if fits else refused(14)
                    for following in ([], [AB]):
                        yield image(payload, batch(following)), text(entries[:-1], following) if fits else refused(14)
        # further on: at the end of each block of 15
        for block in range(2, 15):
            before = rng.randint(1, 19)
            entries = filling(rng, 4064 * block - 8 - before) + [odd] + [AB] * 2
            yield image(batch(entries, 15)), text(entries)
    # entries across every end at once: the header's 8 bytes do not recur
    for total in (100, 1000, 1544, 4000, 6000, 9, 11, 13):
        entries = [entry_weighing(rng, total) for _ in range(12192 // total - 1)]
        yield image(batch(entries)), text(entries)


def ends(rng):
    """A last entry that ends at the batch's end, or whose lengths reach up to 5 bytes past it."""
    for kind in 'IC':
        for past in range(-2, 6):
            entries = filling(rng, 3956) + [(kind, b'f' * 42, bytes(50))]
            for first, second in ((42, 50 + past), (92 + past, 0)):
                forms = b''.join(form(one) for one in entries[:-1])
                forms += form(entries[-1], first_length=first + (4096 if kind == 'C' else 0), second_length=second)
                read = entries[:-1] + [(kind, (b'f' * 42 + bytes(60))[:first], bytes(second))]
                payload = batch(entries, 1, forms=forms)
                yield image(payload), text(read) if past <= 0 else refused(14)
                for following in ([], [AB]):
                    yield image(payload, batch(following)), text(read, following) if past <= 0 else refused(14)


def no_entries(rng):
    """Entries 0, with any blocks and any bytes after the header."""
    for blocks in range(1, 16):
        yield image(batch([], blocks)), text()
    for blocks in (1, 2, 3):
        for tail in (rng.randbytes(4056), b'\xff' * 4056, form(AB)):
            yield image(batch([], blocks, tail=tail)), text()
            yield image(batch([], blocks, tail=tail), batch([AB])), text([AB])
    for batches in range(2, 16):
        yield image(*[batch([], 1)] * batches), text()


def bytes_after(rng):
    """Bytes after a batch's last entry are ignored."""
    for _ in range(40):
        entries = fitting(rng, 3000)
        blocks = rng.choice([1, 1, 2])
        tail = rng.randbytes(rng.randint(1, 4056 - weight(entries)))
        yield image(batch(entries, blocks, tail=tail)), text(entries)
        yield image(batch(entries, blocks, tail=tail), batch([AB])), text(entries, [AB])
    for tail in (b'\0\0\0\1', b'\xff', b'\xff' * 4000, form(CLONED), form(AB) * 100, word(4609), batch([AB])[:4000]):
        yield image(batch([AB], 1, tail=tail)), text([AB])
        yield image(batch([AB], 2, tail=bytes(4064) + tail), batch([CLONED])), text([AB], [CLONED])
    for place in (27, 28, 4062, 4063):                  # a single byte
        yield seal(put(batch([AB], 1), place, b'\1')), text([AB])


def garbage(rng):
    """Random blocks, sealed or not, and random bytes behind a good header."""
    for _ in range(30):
        yield seal(rng.randbytes(4064 * rng.randint(1, 3))), None
        yield rng.randbytes(4096 * rng.randint(1, 3)), refused(12)
        yield rng.randbytes(4096 * rng.randint(0, 3) + rng.randint(1, 4095)), refused(11)
    for byte in (0, 1, 0x10, 0x7F, 0x80, 0xFF):
        for blocks in (1, 2):
            yield seal(bytes([byte]) * (4064 * blocks)), refused(14)
            yield bytes([byte]) * (4096 * blocks), refused(12)
    for _ in range(60):
        blocks = rng.randint(1, 3)
        yield seal(word(rng.randint(0, 3)) + word(blocks) + rng.randbytes(4064 * blocks - 8)), None
        # length words that are often good, with any bytes between
        forms = b''
        blocks = rng.choice([2, 2, 6])
        while len(forms) < 3000:
            number = rng.choice([0, 1, 5, 50, 511, 512, 512, 513, 4095]) + rng.choice([0, 4096])
            forms += word(number) + rng.randbytes(min(number % 4096, 513))
            second = rng.choice([0, 1, 50, 512, 512, 513, 1024, 1025, 5000, 16384, 16385])
            forms += word(second) + rng.randbytes(second)
        yield image(batch([], blocks, count=rng.randint(1, 4), forms=forms[:4000 * blocks])), None
    good = batch([AB])
    for _ in range(10):                                 # a garbage block among good ones
        blocks = [good] * 4
        blocks[rng.randint(0, 3)] = rng.randbytes(4064)
        yield image(*blocks), None


def stored(rng):
    """Images that version 0.4.0 of the library packaged, and keyless.image of version 0.7.0, the last that appended
    inserts without a key; and what each version's lister printed of them, folded: a line that starts with a blank goes
    on the one before. Units have such images in store, and each reads as it did then. They are never made anew: those
    of a later version would show only that it reads what it writes."""
    for name in sorted(os.listdir(STORED)):
        path, _, kind = os.path.join(STORED, name).rpartition('.')
        if kind == 'image':
            with open(path + '.image', 'rb') as data, open(path + '.listing', 'rb') as listing:
                yield data.read(), listing.read().replace(b'\n ', b'')


def random_damage(rng):
    """Random batches with random damage."""
    for _ in range(120):
        yield damaged(rng)


KINDS = [empty, cases, one_batch, numbers_of_entries, many_batches, full, sizes, head_damage, second_head_damage,
         checksum_damage, payload_damage, two_damaged, torn, blocks_word, count_word, lengths, values, crossing, ends,
         no_entries, bytes_after, garbage, stored, random_damage]


def gate(seed=1):
    """The gate's images. Each kind has its own random numbers, so that one more image changes no other kind."""
    for kind in KINDS:
        rng = random.Random('%s %d' % (kind.__name__, seed))
        for data, told in kind(rng):
            yield Image(kind.__name__.replace('_', ' '), data, told)


def many(number, seed=1):
    """So many random images more."""
    rng = random.Random('many %d' % seed)
    for _ in range(number):
        data, told = damaged(rng)
        yield Image('many', data, told)


def arguments(parser):
    parser.add_argument('--many', type=int, default=0, metavar='N', help='N random images more')
    parser.add_argument('--seed', type=int, default=1, metavar='S', help='other random numbers (default: 1)')


def main():
    parser = argparse.ArgumentParser(description='How many images there are of each kind.')
    arguments(parser)
    given = parser.parse_args()
    kinds = collections.Counter()
    for made in (gate(given.seed), many(given.many, given.seed)):
        kinds.update(one.kind for one in made)
    for kind, number in kinds.items():
        print('%6d  %s' % (number, kind))
    print('%6d  in all' % sum(kinds.values()))


if __name__ == '__main__':
    main()
