"""A writer of batches and images, from lists of entries, with knobs for damage. It shares nothing with the reader.

An entry is (kind, first bytes, second bytes), the kind 'I' or 'C'. A batch is made as its joined payload, without
checksums: damage done there is sealed in by `seal` and gets past the checksums. Damage done to an image is not.
"""
import functools
import struct


def word(number):
    """A 32-bit word, lowest byte first."""
    return struct.pack('<I', number)


def form(entry, first_length=None, second_length=None):
    """The entry's wire form. The knobs put other numbers into the length words, 4096 included."""
    kind, first, second = entry
    if first_length is None:
        first_length = len(first) + {'I': 0, 'C': 4096}[kind]
    if second_length is None:
        second_length = len(second)
    return word(first_length) + first + word(second_length) + second


def weight(entries):
    """What the entries' wire forms take, without the header's 8 bytes."""
    return sum(8 + len(first) + len(second) for _, first, second in entries)


def batch(entries, blocks=None, count=None, blocks_word=None, tail=b'', forms=None):
    """A batch's joined payload. Blocks: as many as needed, if not given. The knobs: a count word and a blocks word
    that differ from what is there, bytes after the last entry, and wire forms of one's own."""
    if forms is None:
        forms = b''.join(form(entry) for entry in entries)
    if blocks is None:
        blocks = -(-(8 + len(forms) + len(tail)) // 4064)
    header = word(len(entries) if count is None else count) + word(blocks if blocks_word is None else blocks_word)
    payload = header + forms + tail
    assert len(payload) <= 4064 * blocks, 'the batch does not fit'
    return payload.ljust(4064 * blocks, b'\0')


def words_of(batches):
    """The places of the words in the joined payload of batches that are given as (entries, blocks): for each batch
    the count's and the blocks', and for each entry the two lengths'. A list of (name, place)."""
    places = []
    start = 0
    for entries, blocks in batches:
        places += [('count', start), ('blocks', start + 4)]
        place = start + 8
        for _, first, second in entries:
            places += [('first', place), ('second', place + 4 + len(first))]
            place += 8 + len(first) + len(second)
        start += 4064 * blocks
    return places


# CRC-32C as division, highest power first, with the bits of each byte and of the remainder turned round:
# the other way than the reader's.
def turned(number, bits):
    return int(format(number, '0%db' % bits)[::-1], 2)


def remainder(number):
    for _ in range(8):
        number <<= 1
        if number >> 32:
            number ^= 0x11EDC6F41
    return number


TURNED = bytes(turned(byte, 8) for byte in range(256))
REMAINDERS = [remainder(byte << 24) for byte in range(256)]


def crc32c(data, start=0xFFFFFFFF, end=0xFFFFFFFF):
    rest = start
    for byte in data.translate(TURNED):
        rest = (rest & 0xFFFFFF) << 8 ^ REMAINDERS[rest >> 24 ^ byte]
    return turned(rest, 32) ^ end


@functools.lru_cache(1024)      # for speed only
def head(payload):
    """A block's 32 bytes of checksum."""
    return word(crc32c(payload)) + bytes(28)


def seal(payload):
    """The image of a payload: each 4,064 bytes behind their checksum."""
    image = b''
    for at in range(0, len(payload), 4064):
        image += head(payload[at:at + 4064]) + payload[at:at + 4064]
    return image


def image(*batches):
    """The image of batches that are given as joined payloads."""
    return seal(b''.join(batches))


def put(data, place, piece):
    """The data with other bytes at a place."""
    assert place + len(piece) <= len(data)
    return data[:place] + piece + data[place + len(piece):]


def flip(data, place, mask):
    """The data with the bits of one byte flipped."""
    return put(data, place, bytes([data[place] ^ mask]))


def in_image(place):
    """Where a place of the payload lies in the image."""
    return place // 4064 * 4096 + 32 + place % 4064


def hexadecimal(data):
    return ''.join('0123456789abcdef'[byte // 16] + '0123456789abcdef'[byte % 16] for byte in data) if data else '-'


def text(*lists):
    """What the lister prints for lists of entries, one for each batch, that were written undamaged."""
    entries = [entry for entries in lists for entry in entries]
    lines = ['entries %d\n' % len(entries)]
    lines += [' '.join((kind, hexadecimal(first), hexadecimal(second))) + '\n' for kind, first, second in entries]
    return ''.join(lines).encode('ascii')


def refused(number):
    return b'refused %d\n' % number
