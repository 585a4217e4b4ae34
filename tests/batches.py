"""Entries and batches made at random, and numbers for their words."""
from writer import batch, text, weight, word

FIRST, VALUE, TO = 512, 16384, 512
LONGEST = 8 + FIRST + VALUE     # the largest weight
SEVERAL = 1500                  # a weight: a block has several such entries
ALL_BYTES = bytes(range(256))
AB = ('I', b'ab', b'c')         # case 1
CLONED = ('C', b'ab', b'c')     # case 2
EMPTY = ('I', b'', b'')

# Numbers for a word: small ones, the limits and their neighbours, those that are small again in 8, 16 or 31 bits,
# and those whose product with 4,064 or 4,096 is small again in 32 bits.
WORDS = [0, 1, 2, 3, 7, 8, 14, 15, 16, 17, 255, 256, 257, 506, 507, 508, 511, 512, 513, 1023, 1024, 1025, 1536, 2048,
         4063, 4064, 4065, 4095, 4096, 4097, 4607, 4608, 4609, 5119, 5120, 5121, 7619, 7620, 8191, 8192, 8193, 16383,
         16384, 16385, 16386, 60960, 61440, 65535, 65536, 65537, 65538, 69632, 81920, 2**20, 2**20 + 1, 2**24,
         2**24 + 1, 2**27, 2**27 + 1, 2**27 + 2, 2**31 - 1, 2**31, 2**31 + 1, 2**31 + 4096, 2**31 + 16384,
         2**32 - 4096, 2**32 - 512, 2**32 - 8, 2**32 - 4, 2**32 - 2, 2**32 - 1]


# Entries made at random

def entry_weighing(rng, total):
    """An entry of this weight, 8 to LONGEST."""
    rest = total - 8
    kind, most = rng.choice([('I', VALUE), ('C', TO)]) if rest <= FIRST + TO else ('I', VALUE)
    first = rng.randint(max(0, rest - most), min(FIRST, rest))
    return kind, rng.randbytes(first), rng.randbytes(rest - first)


def entry(rng):
    """An entry: often small, often at a limit, now and then longer than a block."""
    kind, most = rng.choice([('I', VALUE), ('I', 1024), ('C', TO), ('C', TO)])
    first = rng.choice([0, 1, rng.randint(0, 20), rng.randint(0, FIRST), FIRST])
    second = rng.choice([0, 1, rng.randint(0, 20), rng.randint(0, most), most])
    return kind, rng.randbytes(first), rng.randbytes(second)


def filling(rng, room, most=None):
    """Entries that weigh exactly this, 0 or at least 8."""
    entries = []
    most = most or rng.choice([SEVERAL, LONGEST])
    while room > 0:
        total = room if room <= most and rng.random() < 0.5 else rng.randint(8, min(most, room))
        if 0 < room - total < 8:
            total = room if room <= most else total - 8
        if total < 8:
            continue
        entries.append(entry_weighing(rng, total))
        room -= total
    return entries


def ending(rng, place):
    """Entries of a batch that end at this place of a block's payload, in the first block or the second. The place is
    counted from any block's start."""
    room = (place - 8) % 4064
    return filling(rng, room + 4064 if 0 < room < 8 else room)


def fitting(rng, room):
    """Entries that weigh at most this."""
    entries = []
    while True:
        new = entry(rng)
        if weight(entries) + weight([new]) > room or rng.random() < 0.05:
            return entries
        entries.append(new)


def batches_at_random(rng, blocks):
    """Batches (entries, blocks) of so many blocks in all."""
    batches = []
    while blocks > 0:
        own = min(blocks, rng.choice([1, 1, 1, 2, 2, 3, 5, 15]))
        room = 4064 * own - 8
        some = rng.random()
        entries = filling(rng, room) if some < 0.2 else fitting(rng, room if some < 0.6 else 60)
        batches.append((entries, own))
        blocks -= own
    return batches


def joined(batches):
    return b''.join(batch(entries, blocks) for entries, blocks in batches)


def known(batches):
    return text(*(entries for entries, _ in batches))
