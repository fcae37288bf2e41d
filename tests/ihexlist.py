#!/usr/bin/env python3
"""Runs the built program ihexlist, and the script ./list that starts it, and compares what they print to the byte. `rt ci`
builds the program, and so does `tools/prove ihexlist`; the script runs with a stand-in for the checker.

The expected listings are written out by hand, or made by the model of the reader in model.py, which knows no code of the program.
The last line is 'N passed, M failed'; the exit status is 1 if any failed.
"""
import os
import subprocess

import model
from programs import DEV_FULL, ROOT, command, end, helps, in_shell, proves, ran, refuses, says, started, told

LIMIT = 65536
SECONDS = 60

COMMAND = command('ihexlist')


def listed(name, text, expected):
    """The program on `text`, whole on its standard input, prints `expected` and ends well."""
    try:
        run = subprocess.run(COMMAND, input=text, stdout=subprocess.PIPE, stderr=subprocess.PIPE, timeout=SECONDS)
    except subprocess.TimeoutExpired:
        return told(name, False, 'no end within %d s' % SECONDS)
    got = run.stdout
    if got == expected and run.returncode == 0 and run.stderr == b'':
        return told(name, True)
    at = next((i for i in range(min(len(got), len(expected))) if got[i] != expected[i]), min(len(got), len(expected)))
    told(name, False, 'status %d, %d bytes for %d, they differ from byte %d on: %r for %r'
         % (run.returncode, len(got), len(expected), at, got[at:at + 60], expected[at:at + 60]))


def record(kind, address, payload):
    return model.record(kind, address, payload).encode()


def listing(text):
    return b'input too long\n' if len(text) > LIMIT else model.listing(text)


def of(*entries):
    """A listing of these entries."""
    return b''.join(line + b'\n' for line in (b'records',) + entries + (b'%d answers' % len(entries),))


END = b':00000001FF'

# ---- document 01's example

with open(os.path.join(ROOT, 'crates', 'ihexlist', 'stdin'), 'rb') as f:
    EXAMPLE = f.read()
told('the example is document 01\'s', EXAMPLE == b':04012000102030403B\n\n:00000001FE\n:00000001FF\n')
listed('document 01\'s example', EXAMPLE, b'records\nD 0120 10203040\n! 6 FF FE\nE\n3 answers\n')

# ---- line ends and sizes

listed('empty input', b'', b'records\n0 answers\n')
listed('one LF', b'\n', b'records\n0 answers\n')
listed('empty lines only', b'\n\r\n\n\r\n', b'records\n0 answers\n')
listed('one answer', END + b'\n', b'records\nE\n1 answers\n')
listed('no LF at the end', b':0100000041BE\n' + END, of(b'D 0000 41', b'E'))
listed('CR LF', b':0100000041BE\r\n\r\n' + END + b'\r\n', of(b'D 0000 41', b'E'))
listed('CR CR LF', b'\r\r\n' + END + b'\r\r\n' + END + b'\n', of(b'! 1', b'! 2 000B', b'E'))
listed('CR at the end of the text', END + b'\r', of(b'! 2 000B'))
listed('CR inside a line', b':00000\r001FF\n', of(b'! 2 0006'))
listed('space before a colon, and behind a line', b' ' + END + b'\n' + END + b' \n', of(b'! 1', b'! 2 000B'))

full = record(0, 0x1234, bytes(range(256))[:255])
many = (full + b'\n') * (LIMIT // (len(full) + 1))
exact = many + b'\n' * (LIMIT - len(many))
listed('exactly 65,536 bytes', exact, listing(exact))
listed('65,537 bytes', exact + b'\n', b'input too long\n')
listed('65,537 bytes with an end record in front', (END + b'\n' + exact)[:LIMIT + 1], b'input too long\n')
listed('200,000 bytes', b'\n' * 200000, b'input too long\n')
listed('65,536 bytes in one line without LF', b':' + b'0' * (LIMIT - 1), of(b'! 4'))
listed('65,536 LF', b'\n' * LIMIT, b'records\n0 answers\n')

# the most answers: one byte and an LF, four characters
listed('the most answers', b'x\n' * (LIMIT // 2), b'records\n' + b'! 1\n' * (LIMIT // 2) + b'32768 answers\n')
listed('the most answers without the last LF', b'x\n' * (LIMIT // 2 - 1) + b'x', b'records\n' + b'! 1\n' * (LIMIT // 2) + b'32768 answers\n')

# the lines that expand most: a colon, a byte that is no digit and an LF, nine characters
THIRD = LIMIT // 3
LONGEST = b'records\n' + b'! 2 0001\n' * THIRD
listed('the longest listing', b':G\n' * THIRD + b'x', LONGEST + b'! 1\n21846 answers\n')
listed('the longest listing, with an empty line', b'\n' + b':G\n' * THIRD, LONGEST + b'21845 answers\n')
listed('the longest listing without the last LF', b'\n\n' + b':G\n' * (THIRD - 1) + b':G', LONGEST + b'21845 answers\n')

# ---- bytes

listed('NUL', b':0000000\x001FF\n\x00\n' + END + b'\n', of(b'! 2 0008', b'! 1', b'E'))
listed('FF and bytes that are no UTF-8', b'\xff\n:\xff\xfe\n:\xc3\x28000001FF\n:\xf0\x9f\x98\x80\n', of(b'! 1', b'! 2 0001', b'! 2 0001', b'! 2 0001'))
each = b''.join(b':' + bytes([c]) * 10 + b'\n' for c in range(256) if c != 10)
listed('each byte as a digit', each, listing(each))
listed('lower-case digits', b':04012000aabbccddcd\n:020000041aBc24\n:00000001fe\n', of(b'D 0120 AABBCCDD', b'X4 1ABC', b'! 6 FF FE'))
listed('lower-case is printed in capitals', record(0, 0xabcd, b'\xef').lower() + b'\n', of(b'D ABCD EF'))

# ---- types

listed('all types',
       b'\n'.join([record(0, 0x0120, b'\x10\x20\x30\x40'), record(0, 0xffff, b''), record(2, 0, b'\x12\x00'),
                   record(3, 0, b'\x00\x00\x38\x00'), record(4, 0, b'\xff\xff'), record(5, 0, b'\x00\x00\x00\xcd'), END]) + b'\n',
       of(b'D 0120 10203040', b'D FFFF', b'X2 1200', b'X3 00003800', b'X4 FFFF', b'X5 000000CD', b'E'))
listed('an address where it is ignored', record(4, 0x1234, b'\x08\x00') + b'\n:00123401B9\n', of(b'X4 0800', b'E'))
listed('a payload of 255 bytes', full + b'\n', of(b'D 1234 ' + bytes(range(255)).hex().upper().encode()))

# ---- refusals 1 to 9, each alone

for number, line, values in [
        (1, b'00000001FF', b''), (2, b':0000000GFF', b' 0008'), (3, b':00000001F', b''), (3, b':', b''), (3, b':0100000', b''),
        (4, b':' + b'0' * 521, b''), (4, b':' + b'0' * 522, b''), (5, b':00000001FF0', b''), (6, b':00000001FE', b' FF FE'),
        (7, b':01000000FF', b''), (7, b':01000006F9', b''), (8, b':00000006FA', b' 06'), (9, b':0100000100FE', b'')]:
    listed('refusal %d of %r' % (number, line[:14]), line + b'\n', of(b'! %d' % number + values))
    listed('refusal %d of %r, no LF' % (number, line[:14]), line, of(b'! %d' % number + values))
listed('a refused line does not stop', b'x\n:\n' + END + b'\n', of(b'! 1', b'! 3', b'E'))

# ---- places: of the first byte behind the colon that is no digit


def spoilt(place, behind=b''):
    """A line with its first byte that is no digit at a place."""
    return b':' + b'0' * (place - 1) + b'G' + behind


for place, spelt in [(1, b'0001'), (2, b'0002'), (9, b'0009'), (10, b'000A'), (11, b'000B'), (256, b'0100'), (519, b'0207'), (520, b'0208'),
                     (521, b'0209'), (522, b'020A'), (523, b'020B'), (4096, b'1000'), (43981, b'ABCD'), (65534, b'FFFE')]:
    listed('place %d' % place, spoilt(place) + b'\n', of(b'! 2 ' + spelt))
    listed('place %d, no LF' % place, spoilt(place), of(b'! 2 ' + spelt))
listed('place 65,535, the last of an input', spoilt(65535), of(b'! 2 FFFF'))
listed('place 65,534 and one more', spoilt(65534, b'G'), of(b'! 2 FFFE'))
listed('place 65,535 in an input that is too long', spoilt(65535) + b'\n', b'input too long\n')
for length in (1, 2, 5, 6, 7, 519, 520, 521, 522, 60000):
    listed('place 4 ahead of %d digits' % length, spoilt(4, b'0' * length) + b'\n' + END + b'\n', of(b'! 2 0004', b'E'))
listed('the first of several', b':0G0G\n:GGGGGGGGGG\n::\n:00000001F \t\n', of(b'! 2 0002', b'! 2 0001', b'! 2 0001', b'! 2 000A'))
listed('each line\'s own place', b''.join(spoilt(place, b'000') + b'\n' for place in range(1, 340)), of(*(b'! 2 %04X' % place for place in range(1, 340))))
listed('the first byte of a character', ':é\n:00€0\n:0000𝟘G\n:00000001FFé'.encode(), of(b'! 2 0001', b'! 2 0003', b'! 2 0005', b'! 2 000B'))
listed('CR and the end of the text', b':\r', of(b'! 2 0001'))
listed('CR LF is no part of a line', b':\r\n:G\r\n', of(b'! 3', b'! 2 0001'))
listed('CR CR LF, the first of them', b':\r\r\n:0\r\r\r\n', of(b'! 2 0001', b'! 2 0002'))
listed('no place where the colon is missing', b'G\n0G\n \n\r:G\n\xc3\xa9:\n', of(b'! 1', b'! 1', b'! 1', b'! 1', b'! 1'))

# ---- the incident: a new dump, and behind its end record the tail of an old one

new = b''.join(record(0, 16 * i, bytes([i] * 16)) + b'\n' for i in range(40)) + END + b'\n'
old = b''.join(record(0, 16 * i, b'\xdd' * 16) + b'\n' for i in range(30, 90)) + END + b'\n'
listed('the tail of an old dump', new + old, listing(new))
listed('a tail that begins in the middle of a line', new + old[17:], listing(new))
listed('a second end record', END + b'\n' + END + b'\n', of(b'E'))
listed('rubbish behind the end record', END + b'\nx\n\xff\n:00000001FE\n', of(b'E'))

# ---- the sample

with open(os.path.join(ROOT, 'samples', 'tank.hex'), 'rb') as f:
    TANK = f.read()
listed('samples/tank.hex', TANK, listing(TANK))
told('the sample has no refusal', b'!' not in listing(TANK) and listing(TANK).count(b'\nE\n') == 1)

# ---- standard input and output that are slow, closed or broken: the program ends


def ends(name, ok, **files):
    try:
        run = subprocess.run(COMMAND, timeout=SECONDS, stderr=subprocess.DEVNULL, **files)
    except subprocess.TimeoutExpired:
        return told(name, False, 'no end within %d s' % SECONDS)
    told(name, ok(run), 'status %d, wrote %r' % (run.returncode, (run.stdout or b'')[:60]))


def in_pieces(name, text, size):
    child = subprocess.Popen(COMMAND, stdin=subprocess.PIPE, stdout=subprocess.PIPE)
    for i in range(0, len(text), size):
        child.stdin.write(text[i:i + size])
        child.stdin.flush()
    try:
        out, _ = child.communicate(timeout=SECONDS)
    except subprocess.TimeoutExpired:
        child.kill()
        return told(name, False, 'no end within %d s' % SECONDS)
    told(name, out == listing(text) and child.returncode == 0)


in_pieces('input in pieces of 7 bytes', new + old, 7)
in_pieces('input in pieces of 4,097 bytes', exact, 4097)
ran('a closed standard input', in_shell('<&-', COMMAND), 0, b'', b'cannot read\n')
ran('a folder as standard input', COMMAND, 0, b'', b'cannot read\n', stdin=os.open(ROOT, os.O_RDONLY))
ran('a closed standard output', in_shell('>&-', COMMAND), 0, b'', b'cannot write\n', input=EXAMPLE)
if DEV_FULL:
    ran('a full device', in_shell('>' + DEV_FULL, COMMAND), 0, b'', b'cannot write\n', input=EXAMPLE)

# nobody reads the other end: the write fails or the signal SIGPIPE ends the program, and neither hangs
reads, writes = os.pipe()
os.close(reads)
ends('a broken pipe', lambda run: run.returncode in (0, -13, 141), input=b'x\n' * (LIMIT // 2), stdout=writes)
os.close(writes)

# a reader that takes a little and then goes: more is written than a pipe holds
reads, writes = os.pipe()
child = subprocess.Popen(COMMAND, stdin=subprocess.PIPE, stdout=writes, stderr=subprocess.DEVNULL)
os.close(writes)
child.stdin.write(b'x\n' * (LIMIT // 2))
child.stdin.close()
first = os.read(reads, 8)
os.close(reads)
try:
    told('a pipe that breaks midway', first == b'records\n' and child.wait(timeout=SECONDS) in (0, -13, 141), 'status %s, %r' % (child.returncode, first))
except subprocess.TimeoutExpired:
    child.kill()
    told('a pipe that breaks midway', False, 'no end within %d s' % SECONDS)

# a reader that is slow: the program writes all, also in short writes
reads, writes = os.pipe()
child = subprocess.Popen(COMMAND, stdin=subprocess.PIPE, stdout=writes)
os.close(writes)
child.stdin.write(b'x\n' * (LIMIT // 2))
child.stdin.close()
got = b''
while True:
    piece = os.read(reads, 1000)
    if not piece:
        break
    got += piece
os.close(reads)
told('a slow reader', got == listing(b'x\n' * (LIMIT // 2)) and child.wait(timeout=SECONDS) == 0)

# ---- the exit status, and the script ./list that ends with it

TOO_LONG = b'\n' * (LIMIT + 1)
for name, text, status in [
        ('an end record alone', END + b'\n', 0), ('records and an end record', TANK, 0), ('an end record without LF', END, 0), ('empty lines', b'\n\r\n' + END + b'\n\n', 0),
        ('a refused line after the end record', END + b'\nx\n', 0), ('a refused line', b'x\n' + END + b'\n', 1), ('a refused line and no end record', b'x', 1),
        ('no end record', b':0100000041BE\n', 1), ('an end record that is refused', b':00000001FE\n', 1), ('an empty input', b'', 1), ('65,537 bytes', TOO_LONG, 2)]:
    says(name, COMMAND, text, b'%d' % status)
    started(name, ['./list'], status, listing(text), input=text)
says('a folder', in_shell('<samples', COMMAND), None, b'2')
if DEV_FULL:
    says('a full device', in_shell('>' + DEV_FULL, COMMAND), EXAMPLE, b'2')
started('a file', ['./list', 'samples/tank.hex'], 0, listing(TANK), stdin=subprocess.DEVNULL)
started('a folder by its name', ['./list', 'samples'], 2, b'', b'cannot read\n')
started('a file that is not there', ['./list', 'no/such file'], 2, b'', b'cannot read no/such file\n')
started('two files', ['./list', 'samples/tank.hex', 'samples/tank.hex'], 2, b'', b'usage: ./list [FILE]\n')
refuses('./list', b'')
helps('./list', [b'usage: ./list [FILE]', b'more than 65,536 bytes is not listed', b'0 every line is a record, and there is an end record',
                 b'1 a line was refused, or there is no end record', b'2 the input cannot be read or is too long, the output cannot be written, or the usage is wrong'])
proves('ihexlist', ['checksum', 'digits', 'record', 'copying', 'reader', 'listing', 'ihexlist'])

end()
