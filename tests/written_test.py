"""Compares images that the packagings made with the writer's, byte for byte, and has the reader read them.

python3 tests/written_test.py PATH_TO_WRITTEN

The program's output is taken as rust/journal_tests/src/bin/written.rs says. Ends with status 1 at the first
difference, or if a kind of image was never seen.
"""
import collections
import os
import subprocess
import sys

sys.dont_write_bytecode = True      # nothing is left in the folder

import reader
import writer

LEAST = 300             # images


def fail(message):
    sys.exit('written_test: FAILED: ' + message)


class Stream:
    """The program's output, taken piece by piece."""

    def __init__(self, data):
        self.data = data
        self.place = 0

    def take(self, length):
        piece = self.data[self.place:self.place + length]
        if len(piece) < length:
            fail('the output ends at byte %d, in the middle of an image' % len(self.data))
        self.place += length
        return piece

    def word(self):
        return int.from_bytes(self.take(4), 'little')

    def entry(self):
        kind = self.take(1).decode('latin-1')
        if kind not in 'IC':
            fail('an entry of kind %r before byte %d' % (kind, self.place))
        first, second = self.word(), self.word()
        return kind, self.take(first), self.take(second)

    def image(self):
        """Which packaging made an image, the parts that its list was frozen in, and the image."""
        packaging = self.take(1).decode('latin-1')
        if packaging not in 'FM':
            fail('a packaging %r before byte %d' % (packaging, self.place))
        parts = [[self.entry() for _ in range(self.word())] for _ in range(self.word())]
        return packaging, parts, self.take(self.word())

    def ended(self):
        return self.place == len(self.data)


def needed(part):
    """The blocks that a freeze, or a packaging from memory, adds for so many entries."""
    return -(-(8 + writer.weight(part)) // 4064) if part else 0


def ends_crossed(entries):
    """The most block ends that the second bytes of one cross."""
    most, place = 0, 8
    for _, first, second in entries:
        start = place + 8 + len(first)
        place = start + len(second)
        most = max(most, (place - 1) // 4064 - start // 4064)
    return most


def compare(number, entries, blocks, image):
    what = 'image %d, of %d entries and %d blocks: ' % (number, len(entries), blocks)
    wanted = writer.image(writer.batch(entries, blocks))
    if len(image) != len(wanted):
        fail(what + '%d bytes, the writer makes %d' % (len(image), len(wanted)))
    if image != wanted:
        fail(what + 'byte %d differs' % next(at for at in range(len(image)) if image[at] != wanted[at]))
    # without the lister's limit on an image's bytes
    try:
        read = reader.read_range(reader.strip(image))
    except reader.Refused as refused:
        fail(what + 'the reader refuses it with %d' % refused.number)
    if read != entries:
        fail(what + 'the reader reads other entries')


def main():
    if len(sys.argv) != 2:
        sys.exit(__doc__)
    path = os.path.abspath(sys.argv[1])
    if not os.access(path, os.X_OK):
        fail('no program ' + sys.argv[1])
    ended = subprocess.run([path], stdout=subprocess.PIPE)
    if ended.returncode != 0:
        fail('the program ended with status %d' % ended.returncode)

    stream = Stream(ended.stdout)
    seen = collections.Counter()
    while not stream.ended():
        packaging, parts, image = stream.image()
        entries = [entry for part in parts for entry in part]
        blocks = sum(needed(part) for part in parts)
        compare(seen['images'], entries, blocks, image)
        left = 4064 * blocks - 8 - writer.weight(entries)
        seen['images'] += 1
        seen['blocks'] += blocks
        seen['inserts'] += sum(kind == 'I' for kind, _, _ in entries)
        seen['clones'] += sum(kind == 'C' for kind, _, _ in entries)
        seen['from memory'] += packaging == 'M'
        seen['frozen'] += packaging == 'F' and len(parts) == 1
        seen['frozen in parts'] += packaging == 'F' and len(parts) > 1
        seen['with a value across several ends'] += ends_crossed(entries) > 1
        seen['full to the last byte'] += left == 0
        seen['with a block of zeros'] += left >= 4064
        seen['over 61,440 bytes'] += len(image) > reader.MOST_INPUT
    print('written_test: ' + ', '.join('%s %d' % item for item in seen.items()))
    if seen['images'] < LEAST:
        fail('fewer than %d images' % LEAST)
    unseen = [name for name, count in seen.items() if not count]
    if unseen:
        fail('never seen: ' + ', '.join(unseen))
    print('written_test: no difference')


if __name__ == '__main__':
    main()
