"""A reader of images, written from the documents alone: an image's bytes in, the text that the lister must print out.

It shares nothing with the lister, nor with the writer beside it. By hand: python3 tests/reader.py <IMAGE
"""
import functools
import sys

BLOCK = 4096            # "whole blocks of 4,096 bytes: 32 of checksum, 4,064 of payload"
CHECKSUM = 32
PAYLOAD = 4064
MOST_INPUT = 61440      # "Over 61,440 bytes: `refused 13`"
MOST_FIRST = 512        # "First bytes: at most 512."
MOST_VALUE = 16384      # "Raise the value limit of inserts to 16,384" (document 02, paper 4)
MOST_TO = 512           # "Second bytes: [..] 512 in a clone."
CLONE = 4096            # "a 32-bit first length (plus 4096 in a clone)"


class Refused(Exception):
    """A refusal "returns only its number"."""

    def __init__(self, number):
        super().__init__(number)
        self.number = number


def steps_of_a_byte(register):
    """Eight steps of CRC-32C's register, lowest bit first."""
    for _ in range(8):
        register = register >> 1 ^ (0x82F63B78 if register & 1 else 0)
    return register


TABLE = [steps_of_a_byte(byte) for byte in range(256)]


@functools.lru_cache(1024)      # for speed only: a test's images have many blocks in common
def crc32c(data):
    """CRC-32C as in RFC 3720."""
    register = 0xFFFFFFFF
    for byte in data:
        register = register >> 8 ^ TABLE[register & 255 ^ byte]
    return register ^ 0xFFFFFFFF


def strip(image):
    """Strip "turns an image into payload if every checksum agrees". It tests 11, then 12."""
    if len(image) % BLOCK != 0:
        raise Refused(11)
    payload = b''
    for at in range(0, len(image), BLOCK):
        checksum = image[at:at + CHECKSUM]
        block = image[at + CHECKSUM:at + BLOCK]
        # "CRC-32C of the payload, lowest byte first, then 28 zero bytes"
        if checksum != crc32c(block).to_bytes(4, 'little') + bytes(28):
            raise Refused(12)
        payload += block
    return payload


class Pieces:
    """The joined payload of one batch, taken piece by piece. A piece past its end: "range doesn't read"."""

    def __init__(self, batch):
        self.batch = batch
        self.place = 0

    def take(self, length):
        end = self.place + length
        if end > len(self.batch):
            raise Refused(14)
        piece = self.batch[self.place:end]
        self.place = end
        return piece

    def word(self):
        """A 32-bit word, "lowest byte first"."""
        return int.from_bytes(self.take(4), 'little')


def read_entry(pieces, most_value):
    """A wire form: "a 32-bit first length (plus 4096 in a clone), first bytes, 32-bit second length,
    second bytes"."""
    length = pieces.word()
    clone = length >= CLONE
    if clone:
        length -= CLONE
    if length > MOST_FIRST:
        raise Refused(14)
    first = pieces.take(length)
    length = pieces.word()
    if length > (MOST_TO if clone else most_value):
        raise Refused(14)
    second = pieces.take(length)
    return 'C' if clone else 'I', first, second


def read_range(payload, most_value=MOST_VALUE):
    """A range: "each batch is read, and the reader goes on with the part that starts after it"."""
    entries = []
    while payload:
        header = Pieces(payload)
        count, blocks = header.word(), header.word()    # "two 32-bit words, lowest byte first: entries, blocks"
        if blocks == 0 or blocks > len(payload) // PAYLOAD:
            raise Refused(14)                           # "blocks word 0"; "Blocks 2 with one block: 14"
        batch = Pieces(payload[:PAYLOAD * blocks])
        batch.take(8)
        for _ in range(count):
            entries.append(read_entry(batch, most_value))
        # "Bytes after a batch's last entry are ignored."
        payload = payload[PAYLOAD * blocks:]
    return entries


def entries_of(image, most_value=MOST_VALUE):
    """The image's entries, or Refused."""
    if len(image) > MOST_INPUT:
        raise Refused(13)
    return read_range(strip(image), most_value)


def listing(image, most_value=MOST_VALUE):
    """The lister's text: the entries, or "`refused` and its number alone". Of a value longer than `most_value`: "A
    reader still at 1,024 gives 14 on a longer value, never a short one"."""
    try:
        entries = entries_of(image, most_value)
    except Refused as refused:
        return b'refused %d\n' % refused.number
    lines = ['entries %d' % len(entries)]
    for kind, first, second in entries:
        lines.append('%s %s %s' % (kind, first.hex() or '-', second.hex() or '-'))
    return ('\n'.join(lines) + '\n').encode('ascii')


if __name__ == '__main__':
    sys.stdout.buffer.write(listing(sys.stdin.buffer.read()))
