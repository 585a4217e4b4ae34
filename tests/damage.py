"""Images that are damaged: checksums, payloads, lengths, blocks exchanged; and batches damaged at random."""
import zlib

from batches import AB, CLONED, WORDS, filling, batches_at_random, joined, known
from writer import batch, crc32c, flip, head, image, in_image, put, refused, seal, weight, word, words_of

FLIPS = (1, 2, 4, 8, 16, 32, 64, 128, 255)


def head_damage(rng):
    """Each byte of the header and of the first entries, sealed anew and unsealed."""
    for entries in ([AB, CLONED], [('C', b'', b'to'), ('I', b'k', b'')]):
        payload = batch(entries)
        sealed = seal(payload)
        for place in range(8 + weight(entries) + 3):
            for mask in FLIPS:
                yield seal(flip(payload, place, mask)), None
                yield flip(sealed, in_image(place), mask), refused(12)


def second_head_damage(rng):
    """The same of a second batch, between two others."""
    payload = joined([([AB], 1), ([CLONED], 1), ([AB, AB], 1)])
    for place in range(4064, 4064 + 22):
        for mask in FLIPS:
            yield seal(flip(payload, place, mask)), None


def checksum_damage(rng):
    """Each of the 32 bytes of a checksum; checksums made another way."""
    sealed = image(batch([AB]))
    for place in range(32):
        for mask in FLIPS:
            yield flip(sealed, place, mask), refused(12)
    for blocks in (2, 3):
        sealed = image(batch([AB], blocks))
        for place in range(32):
            yield flip(sealed, 4096 * (blocks - 1) + place, rng.choice(FLIPS)), refused(12)
    payload = batch([AB])
    for number in (crc32c(payload, end=0), crc32c(payload, start=0), zlib.crc32(payload), crc32c(payload[:8]),
                   crc32c(payload + bytes(32)), crc32c(bytes(32) + payload), 0, 2**32 - 1, len(payload)):
        yield word(number) + bytes(28) + payload, refused(12)
    crc = word(crc32c(payload))
    for checksum in (crc[::-1] + bytes(28), bytes(28) + crc, crc * 8, crc + b'\xff' * 28, crc + b' ' * 28):
        yield checksum + payload, refused(12)
    yield payload + head(payload), refused(12)


def payload_damage(rng):
    """One bit of each block, wherever the block is; the bytes at a block's ends."""
    for blocks in (1, 2, 3, 7, 15):
        data = image(batch([AB] * 20, blocks))
        for at in range(blocks):
            for place in (32, 4095, rng.randint(33, 4094), rng.randint(33, 4094)):
                yield flip(data, 4096 * at + place, 1 << rng.randint(0, 7)), refused(12)
    data = image(batch(filling(rng, 4056)))
    for _ in range(60):
        yield flip(data, rng.randint(0, 4095), 1 << rng.randint(0, 7)), refused(12)


def two_damaged(rng):
    """Two damaged blocks; a damaged block and something that would be refused later or earlier."""
    for blocks in (2, 3, 5):
        data = image(batch([AB] * 5, blocks))
        for one in range(blocks):
            for other in range(one):
                yield flip(flip(data, 4096 * one + 7, 1), 4096 * other + 99, 1), refused(12)
        unread = image(batch([AB] * 5, blocks, blocks_word=0))
        for at in range(blocks):
            yield flip(unread, 4096 * at + 3000, 4), refused(12)
            yield flip(data, 4096 * at + 3000, 4) + b'\0', refused(11)
            yield flip(data, 4096 * at + 3000, 4)[:-1], refused(11)


def torn(rng):
    """Images cut or lengthened, and blocks half old, half new."""
    cuts = (1, 2, 3, 4, 5, 8, 31, 32, 33, 36, 39, 40, 41, 44, 512, 2048, 4063, 4064, 4065, 4094, 4095)
    batches = [([AB], 1), (filling(rng, 2 * 4064 - 8), 2), ([CLONED] * 3, 1)]
    data = seal(joined(batches))
    for at in range(0, len(data), 4096):
        for cut in cuts:
            yield data[:at + cut], refused(11)
    for cut in cuts:
        yield data[cut:], refused(11)
        yield data + rng.randbytes(cut), refused(11)
        yield data + bytes(cut), refused(11)
    for blocks, still in ((1, known(batches[:1])), (2, refused(14)), (3, known(batches[:2])), (4, known(batches))):
        yield data[:4096 * blocks], still
    for at in range(4):
        yield data[:4096 * at] + data[4096 * at + 4096:], None         # a block lost
        yield data[:4096 * at + 4096] + data[4096 * at:], None         # a block twice
        yield data[:4096 * at] + bytes(4096) + data[4096 * at + 4096:], refused(12)
        for other in range(at):                                         # two blocks exchanged
            swapped = put(data, 4096 * at, data[4096 * other:4096 * other + 4096])
            yield put(swapped, 4096 * other, data[4096 * at:4096 * at + 4096]), None
    old, new = (image(batch(filling(rng, 8120), 2)) for _ in range(2))
    for at in (0, 4096):
        for cut in (4, 31, 32, 33, 40, 512, 1024, 2048, 3584, 4092, 4095):
            yield put(old, at, new[at:at + cut]), refused(12)
            yield put(new, at, old[at:at + cut]), refused(12)
    for some in range(4):                                               # whole blocks of either
        yield (old if some & 1 else new)[:4096] + (old if some & 2 else new)[4096:], None


def damaged(rng):
    """(data, known): random batches, damaged up to three times before the sealing, and now and then after it."""
    batches = batches_at_random(rng, rng.choice([1, 1, 1, 2, 2, 2, 3, 3, 4, 6, 15]))
    payload = joined(batches)
    places = words_of(batches)
    told = known(batches)
    for _ in range(rng.choice([0, 1, 1, 1, 2, 3])):
        told = None
        what = rng.randint(0, 7)
        _, place = rng.choice(places)
        if what <= 2:                                   # a word gets another number
            payload = put(payload, place, word(rng.choice(WORDS)))
        elif what == 3:                                 # a word gets a near number
            near = int.from_bytes(payload[place:place + 4], 'little') + rng.choice([-8, -4, -2, -1, 1, 2, 4, 8, 4096])
            payload = put(payload, place, word(near % 2**32))
        elif what == 4:                                 # a bit
            payload = flip(payload, place + rng.randint(0, 3), 1 << rng.randint(0, 7))
        elif what == 5:                                 # random bytes somewhere
            place = rng.randrange(len(payload) - 16)
            payload = put(payload, place, rng.randbytes(rng.randint(1, 16)))
        elif what == 6:                                 # a block of another place
            blocks = len(payload) // 4064
            one, other = rng.randrange(blocks), rng.randrange(blocks)
            payload = put(payload, 4064 * one, payload[4064 * other:4064 * other + 4064])
        else:                                           # blocks lost at the end
            payload = payload[:4064 * rng.randint(1, len(payload) // 4064)]
            places = [(name, place) for name, place in places if place + 4 <= len(payload)]
    data = seal(payload)
    after = rng.randint(0, 15)
    if after == 0:
        return flip(data, rng.randrange(len(data)), 1 << rng.randint(0, 7)), refused(12)
    if after == 1:
        cut = rng.randrange(len(data))
        return data[:cut], refused(11) if cut % 4096 else None
    if after == 2:
        data += rng.randbytes(rng.randint(1, 4200))
        return data, refused(13) if len(data) > 61440 else refused(11) if len(data) % 4096 else None
    if after == 3 and rng.random() < 0.2:
        return data + rng.randbytes(max(0, 61441 - len(data))), refused(13)
    return data, told
