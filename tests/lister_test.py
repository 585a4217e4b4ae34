"""Feeds images to the lister and compares what it prints, byte for byte, with what the reader says; and has its
input and its output fail. A reader whose values have at most 1,024 bytes refuses longer ones with 14, and says the
same of every other image.

python3 tests/lister_test.py PATH_TO_LISTER [--many N] [--seed S]

Ends with status 1 at the first difference, with the image in target/ of the current directory, or if one of the
outcomes, a longer value, one that both read, or a stored image was never seen.
"""
import argparse
import collections
import os
import random
import signal
import subprocess
import sys
import tempfile
import time
import tty

sys.dont_write_bytecode = True      # nothing is left in the folder

import images
import reader
import writer

SECONDS = 60            # for one image
OUTCOMES = ('entries', 'refused 11', 'refused 12', 'refused 13', 'refused 14')
SHORTER = 1024          # the most bytes of a value for "a reader still at 1,024"

# RFC 3720, B.4
VECTORS = [(bytes(32), 'aa36918a'), (b'\xff' * 32, '43aba862'), (bytes(range(32)), '4e79dd46'),
           (bytes(range(31, -1, -1)), '5cdb3f11'),
           (bytes.fromhex('01c00000000000000000000000000000140000000000040000000014000000182800000000000000'
                          '0200000000000000'), '563a96d9')]


def by_pipe(path, data, rng):
    return subprocess.run([path], input=data, stdout=subprocess.PIPE)


def by_file(path, data, rng):
    with tempfile.TemporaryFile() as file:
        file.write(data)
        file.seek(0)
        return subprocess.run([path], stdin=file, stdout=subprocess.PIPE)


def by_pieces(path, data, rng):
    """A pipe that gives few bytes at a time, the first one alone."""
    cuts = sorted({0, 1, len(data)} | {rng.randint(0, len(data)) for _ in range(6)})
    with subprocess.Popen([path], stdin=subprocess.PIPE, stdout=subprocess.PIPE, bufsize=0) as process:
        try:
            try:
                for start, end in zip(cuts, cuts[1:]):
                    process.stdin.write(data[start:end])
                    time.sleep(0.002)
            except BrokenPipeError:                     # it need not read what is over 61,440 bytes
                pass
            printed, _ = process.communicate()
        except BaseException:
            process.kill()
            raise
        return subprocess.CompletedProcess(path, process.returncode, printed)


def feeding(number):
    """How the image of this number is fed."""
    return by_pieces if number % 41 == 5 else by_file if number % 4 == 3 else by_pipe


def too_long(*_):
    raise TimeoutError


def shown(printed):
    return repr(printed if len(printed) <= 300 else printed[:150] + b' .. ' + printed[-150:])


def first_difference(one, other):
    return next((at for at in range(min(len(one), len(other))) if one[at] != other[at]), min(len(one), len(other)))


def fail(number, image, message):
    os.makedirs('target', exist_ok=True)
    path = os.path.join('target', 'lister-difference.image')
    with open(path, 'wb') as file:
        file.write(image.data)
    print('lister_test: image %d, %s, %d bytes, kept as %s' % (number, image.kind, len(image.data), path))
    sys.exit('lister_test: FAILED: ' + message)


def by_shorter(number, image, wanted):
    """What the reader at the shorter limit says is right; returns whether it and the other read the image."""
    inserts = (line.split() for line in wanted.splitlines() if line.startswith(b'I'))
    longer = any(len(value) > 2 * SHORTER for _, _, value in inserts)
    said = reader.listing(image.data, SHORTER)
    if said != (writer.refused(14) if longer else wanted):
        fail(number, image, 'the reader at %d says %s' % (SHORTER, shown(said)))
    return 'longer value' if longer else 'read by both' if wanted.startswith(b'entries') else 'refused by both'


def compare(path, number, image, rng):
    """Feeds one image; returns the outcome, and that by the shorter limit."""
    wanted = reader.listing(image.data)
    if image.known is not None and image.known != wanted:
        fail(number, image, 'the reader says %s, the image was made for %s' % (shown(wanted), shown(image.known)))
    shorter = by_shorter(number, image, wanted)
    feed = feeding(number)
    signal.alarm(SECONDS)
    try:
        ended = feed(path, image.data, rng)
    except TimeoutError:
        fail(number, image, 'no end after %d s (%s)' % (SECONDS, feed.__name__))
    finally:
        signal.alarm(0)
    if ended.stdout != wanted:
        fail(number, image, 'printed (%s) %s\nthe reader says %s\nthey differ from byte %d on' % (
            feed.__name__, shown(ended.stdout), shown(wanted), first_difference(ended.stdout, wanted)))
    if ended.returncode != 0:
        fail(number, image, 'ended with status %d (%s)' % (ended.returncode, feed.__name__))
    words = wanted.split(None, 2)
    outcome = 'entries' if words[0] == b'entries' else b' '.join(words[:2]).decode()
    return outcome, shorter


def broken_off(path, data):
    """A terminal's side that gives the data and then fails: its other side is closed."""
    side, other = os.openpty()
    tty.setraw(other)
    with subprocess.Popen([path], stdin=side, stdout=subprocess.PIPE, stderr=subprocess.PIPE) as process:
        os.close(side)
        while data:
            data = data[os.write(other, data):]
        os.close(other)
        return (process.communicate(), process.returncode)


def at_the_shell(path, redirected, image):
    ended = subprocess.run(['sh', '-c', '"$0" ' + redirected, path], input=image,
                           stdout=subprocess.PIPE, stderr=subprocess.PIPE)
    return ((ended.stdout, ended.stderr), ended.returncode)


def failing(path):
    """An input that cannot be read is no empty image, and an output that takes nothing is said on standard error.
    The status is 0 all the same."""
    image = writer.image(writer.batch([('I', b'ab', b'c')]))
    listed, unread, untaken = reader.listing(image), b'unread\n', b'lister: the output was not taken\n'
    for name, ended, wanted in (
            ('nothing fails', at_the_shell(path, '', image), (listed, b'')),
            ('an empty input', at_the_shell(path, '</dev/null', image), (b'entries 0\n', b'')),
            ('a closed input', at_the_shell(path, '<&-', image), (unread, b'')),
            ('a folder as input', at_the_shell(path, '</', image), (unread, b'')),
            ('an input that fails behind an image', broken_off(path, image), (unread, b'')),
            ('a full output', at_the_shell(path, '>/dev/full', image), (b'', untaken)),
            ('a closed output', at_the_shell(path, '>&-', image), (b'', untaken)),
            ('both closed', at_the_shell(path, '<&- >&-', image), (b'', untaken))):
        if ended != (wanted, 0):
            sys.exit('lister_test: FAILED: %s: %s, not %s' % (name, ended, (wanted, 0)))


def main():
    parser = argparse.ArgumentParser(description='Compares the lister with the reader.')
    parser.add_argument('lister', metavar='PATH_TO_LISTER')
    images.arguments(parser)
    given = parser.parse_args()
    path = os.path.abspath(given.lister)
    if not os.access(path, os.X_OK):
        sys.exit('lister_test: FAILED: no program ' + given.lister)
    for data, crc in VECTORS:
        for crc32c in (reader.crc32c, writer.crc32c):
            if crc32c(data).to_bytes(4, 'little').hex() != crc:
                sys.exit('lister_test: FAILED: %s.crc32c of %s' % (crc32c.__module__, data.hex()))

    signal.signal(signal.SIGALRM, too_long)
    signal.alarm(SECONDS)
    failing(path)
    signal.alarm(0)
    rng = random.Random(given.seed)
    kinds, outcomes, shorter, fed = (collections.Counter() for _ in range(4))
    began = time.monotonic()
    for made in (images.gate(given.seed), images.many(given.many, given.seed)):
        for image in made:
            number = sum(kinds.values())
            for counter, outcome in zip((outcomes, shorter), compare(path, number, image, rng)):
                counter[outcome] += 1
            kinds[image.kind] += 1
            fed[feeding(number).__name__.replace('_', ' ')] += 1

    for title, counter in (('kinds', kinds), ('outcomes', outcomes), ('at 1,024', shorter), ('fed', fed)):
        print('lister_test: %s: %s' % (title, ', '.join('%s %d' % item for item in sorted(counter.items()))))
    wanted = [(outcomes, OUTCOMES), (shorter, ('longer value', 'read by both')), (kinds, ('stored',))]
    unseen = [name for counter, names in wanted for name in names if not counter[name]]
    if unseen:
        sys.exit('lister_test: FAILED: never seen: ' + ', '.join(unseen))
    print('lister_test: %d images, no difference, %d s' % (sum(kinds.values()), time.monotonic() - began))


if __name__ == '__main__':
    main()
