#!/usr/bin/env python3
"""Runs the built program ihexfollow, and the script ./follow that starts it, on texts that come in pieces, and compares what they print to
the byte. `rt ci` builds the program, and so does `tools/prove ihexfollow`; the script runs with a stand-in for the checker.

The expected listings are written out by hand, or made by the model of the reader in model.py. A piece is sent when the program has
taken the one before it. The last line is 'N passed, M failed'; the exit status is 1 if any failed.
"""
import fcntl
import os
import pty
import random
import signal
import struct
import subprocess
import termios
import time
import tty

import model
from programs import DEV_FULL, ROOT, Printing, children, command, end, helps, in_shell, proves, ran, refuses, says, started, stops, told, with_stub

SECONDS = 30
MOMENT = 0.02

COMMAND = command('ihexfollow')


class Run(Printing):
    """The program, with what it has printed so far."""

    def __init__(self, words=COMMAND, **files):
        self.watch(subprocess.Popen(words, stdin=subprocess.PIPE, stdout=subprocess.PIPE, stderr=subprocess.PIPE, bufsize=0, **files), SECONDS)
        os.set_blocking(self.child.stdin.fileno(), False)

    def untaken(self):
        """How many bytes of what was sent the program has not read yet."""
        return struct.unpack('i', fcntl.ioctl(self.child.stdin, termios.FIONREAD, b'\0' * 4))[0]

    def send(self, piece):
        """Sends a piece, and returns when the program has taken it or has ended."""
        while piece and not self.closed:
            if self.wait([self.child.stdin], SECONDS):
                try:
                    piece = piece[os.write(self.child.stdin.fileno(), piece):]
                except BrokenPipeError:
                    break
        while not self.closed and self.untaken():
            self.wait([], 0.0002)

    def shows(self, expected):
        """Whether the program prints so much, and then no more for a moment, with its input open."""
        while len(self.printed) < len(expected) and not self.closed:
            self.wait([], SECONDS)
        self.wait([], MOMENT)
        return self.printed == expected and not self.closed

    def finish(self):
        """What was printed in all, with the input's end where the program waits for it."""
        self.child.stdin.close()
        return self.ended()

    def ended(self):
        """The same, with the input still open."""
        while not self.closed:
            self.wait([], SECONDS)
        return self.printed

    def over(self):
        if self.child.poll() is None and not self.closed:
            self.child.kill()
        errors = self.child.stderr.read()
        for pipe in (self.child.stdin, self.child.stdout, self.child.stderr):
            pipe.close()
        return self.child.wait(), errors


def tried(name, body, statuses=(0,), **files):
    """`body`, on a run of the program, answers '' or what is wrong; the program ends well."""
    run = Run(**files)
    try:
        why = body(run)
    except TimeoutError:
        run.child.kill()
        why = 'no end within %d s, printed %r' % (SECONDS, run.printed[-60:])
    status, errors = run.over()
    if not why and (status not in statuses or errors):
        why = 'status %d, %r' % (status, errors[:60])
    told(name, not why, why)


def differ(got, expected):
    if got == expected:
        return ''
    at = next((i for i in range(min(len(got), len(expected))) if got[i] != expected[i]), min(len(got), len(expected)))
    return '%d bytes for %d, they differ from byte %d on: %r for %r' % (len(got), len(expected), at, got[at:at + 60], expected[at:at + 60])


def followed(name, pieces, expected=None):
    """The program on a text in these pieces prints `expected`, or what the model has for it."""

    def body(run):
        for piece in pieces:
            run.send(piece)
        return differ(run.finish(), model.listing(b''.join(pieces)) if expected is None else expected)

    tried(name, body)


def cut(text, size):
    return [text[i:i + size] for i in range(0, len(text), size)]


def record(kind, address, payload):
    return model.record(kind, address, payload).encode()


def held(name):
    with open(os.path.join(ROOT, *name.split('/')), 'rb') as f:
        return f.read()


END = b':00000001FF'
DATA = b':0100000041BE'
FULL = record(0, 0x1234, bytes(range(255)))
TANK = held('samples/tank.hex')

# ---- whole, and as ihexlist lists it

EXAMPLE, LISTED = held('crates/ihexlist/stdin'), held('crates/ihexlist/stdout')
followed('document 01\'s example', [EXAMPLE], LISTED)
followed('document 01\'s example, a byte at a time', cut(EXAMPLE, 1), LISTED)
followed('empty input', [], b'records\n0 answers\n')
followed('one LF', [b'\n'], b'records\n0 answers\n')
followed('one CR', [b'\r'], b'records\n! 1\n1 answers\n')
followed('empty lines only', [b'\n\r\n\n\r\n'], b'records\n0 answers\n')
followed('samples/tank.hex', [TANK])
followed('each byte as a digit', [b''.join(b':' + bytes([c]) * 10 + b'\n' for c in range(256) if c != 10)])

# ---- cut at every place, also between CR and LF

for name, text in [('CR LF', b'\r\n' + DATA + b'\r\n\r\nx\r\n' + END + b'\r\n' + DATA),
                   ('no LF at the end', DATA + b'\n\n\xff\r\r\n:00000001FE\n' + DATA + b'\r'),
                   ('CR and LF alone', b'\r\n\n\r\r\n\r')]:
    for i in range(len(text) + 1):
        followed('%s, cut at %d' % (name, i), [text[:i], text[i:]])
    followed('%s, a byte at a time' % name, cut(text, 1))

# ---- pieces of many sizes

new = b''.join(record(0, 16 * i, bytes([i] * 16)) + b'\n' for i in range(40)) + END + b'\n'
old = b''.join(record(0, 16 * i, b'\xdd' * 16) + b'\n' for i in range(30, 90)) + END + b'\n'
full = (FULL + b'\r\n') * 40
followed('samples/tank.hex, a byte at a time', cut(TANK, 1))
followed('the tail of an old dump, in pieces of 7 bytes', cut(new + old, 7), model.listing(new))
for size in (511, 521, 4095, 4096, 4097, 8192):
    followed('records of 255 bytes, in pieces of %d bytes' % size, cut(full, size))
for ahead in range(4093, 4099):
    followed('CR LF behind %d bytes' % ahead, [b'x\n' * (ahead % 2) + b'\n' * (ahead - 2 * (ahead % 2) - len(DATA)) + DATA + b'\r\n' + END])
chance = random.Random(19)
lines = [DATA, END[:-1], b':00000001FE', FULL, FULL + b'0', FULL + b'00', b'', b'\r', b'x', b'\0\xff', record(4, 0, b'\x08\x00'), record(5, 0, b'\0\0\0\xcd'),
         b':0G', FULL + b'G', FULL * 3]
for n in range(40):
    text = b''.join(chance.choice(lines) + chance.choice([b'\n', b'\r\n', b'\n\n', b'']) for _ in range(30))
    cuts = sorted(chance.sample(range(len(text)), 12))
    followed('a text by chance, %d' % n, [text[i:j] for i, j in zip([0] + cuts, cuts + [len(text)])])

# ---- lines that are too long to be a record

for size in (519, 520, 521, 522, 523, 524, 1000, 4095, 4096, 4097, 70000):
    line = b':' + b'0' * (size - 1)
    for what, text in [('digits', line), ('a character at the end', line[:-1] + b'g'), ('no colon', b'0' + line[1:]), ('CR inside', line[:-2] + b'\r0')]:
        text += b'\r\n' + END
        followed('a line of %d bytes, %s' % (size, what), [text])
        followed('a line of %d bytes, %s, in pieces of 1,000' % (size, what), cut(text, 1000))
    followed('a line of %d bytes, no LF' % size, [line], b'records\n! %d\n1 answers\n' % (4 if size > 521 else 5 if size % 2 == 0 else 7))

# ---- places: of the first byte behind the colon that is no digit, however the line is cut

PLACES = [(1, b'0001'), (2, b'0002'), (520, b'0208'), (521, b'0209'), (522, b'020A'), (523, b'020B'), (4096, b'1000'), (65534, b'FFFE'), (65535, b'FFFF'),
          (65536, b'FFFF'), (70000, b'FFFF')]


def spoilt(place, behind=b''):
    """A line with its first byte that is no digit at a place."""
    return b':' + b'0' * (place - 1) + b'G' + behind


for place, spelt in PLACES:
    answer = b'! 2 ' + spelt + b'\n'
    expected = b'records\n' + answer + b'E\n2 answers\n'
    followed('place %d, a digit behind it' % place, [spoilt(place, b'0\n') + END], expected)
    followed('place %d, more such bytes behind it' % place, [spoilt(place, b'G:\n') + END], expected)
    for behind in (b'', b'0' * 600):
        text = spoilt(place, behind) + b'\r\n' + END
        name = 'place %d, %d digits behind it' % (place, len(behind))
        followed(name, [text], expected)
        for i in sorted({1, place, place + 1, 521, 522, 523}):
            if i < len(text):
                followed('%s, cut at %d' % (name, i), [text[:i], text[i:]], expected)
        near = max(place - 2, 0)
        followed('%s, byte by byte there' % name, [text[:near]] + cut(text[near:place + 3], 1) + [text[place + 3:]], expected)
        if place < 4096:
            followed('%s, a byte at a time' % name, cut(text, 1), expected)
    followed('place %d, in pieces of 4,095 bytes' % place, cut(spoilt(place), 4095), b'records\n' + answer + b'1 answers\n')
    followed('place %d, an empty line and a long one ahead' % place, [b'\n', b':' + b'0' * 600, b'00\n' + spoilt(place)], b'records\n! 4\n' + answer + b'2 answers\n')
    bare = spoilt(place)[:-1]
    other = model.entry(bare) + b'\n'
    followed('place %d, a CR at the end of the text' % place, [bare, b'\r'], b'records\n' + answer + b'1 answers\n')
    followed('place %d, CR LF' % place, [bare, b'\r', b'\n'], b'records\n' + other + b'1 answers\n')
    followed('place %d, CR CR LF' % place, [bare, b'\r', b'\r', b'\n'], b'records\n' + answer + b'1 answers\n')
    followed('place %d, a CR that a digit follows' % place, [bare + b'\r', b'0', b'\r\n'], b'records\n' + answer + b'1 answers\n')
followed('the first of several', [b':0G0G\n:GG', b'GG\n::\n'], b'records\n! 2 0002\n! 2 0001\n! 2 0001\n3 answers\n')
followed('the first byte of a character', cut(':é\n:00€0\n:0000𝟘G\n:00000001FFé'.encode(), 1), b'records\n! 2 0001\n! 2 0003\n! 2 0005\n! 2 000B\n4 answers\n')
followed('no place where the colon is missing', [b'0' * 522, b'G\nG\n \n\r', b':G\n'], b'records\n! 1\n! 1\n! 1\n! 1\n4 answers\n')

# ---- inputs of any length

followed('65,536 bytes', [b'\n' * 65535 + b'x'], b'records\n! 1\n1 answers\n')
followed('65,537 bytes', [b'\n' * 65536 + b'x'], b'records\n! 1\n1 answers\n')
followed('3 MB of records', [(FULL + b'\n') * (3000000 // len(FULL))])
followed('3 MB of LF', [b'\n' * 3000000], b'records\n0 answers\n')
followed('3 MB in one line', [b':' + b'0' * 3000000], b'records\n! 4\n1 answers\n')
followed('3 MB in one line, and a byte that is no digit', [spoilt(3000000, b'0'), b'\n' + END], b'records\n! 2 FFFF\nE\n2 answers\n')
followed('100,000 answers', [b'x\n' * 100000], b'records\n' + b'! 1\n' * 100000 + b'100000 answers\n')

# ---- each answer before the next piece


def at_once(run):
    """Each line's answer is printed when its LF has come, and not before."""
    so_far = b'records\n'
    if not run.shows(so_far):
        return 'before the input: %r' % run.printed
    for line in [b':04012000102030403B', b'', b'\r', b':00000001FE', b'x\r', b':' + b'0' * 70000, FULL, b':0G\r', spoilt(70000)]:
        run.send(line)
        if not run.shows(so_far):
            return 'ahead of the LF of %r: %r' % (line[:20], run.printed[-60:])
        run.send(b'\n')
        bare = line[:-1] if line.endswith(b'\r') else line
        so_far += model.entry(bare) + b'\n' if bare else b''
        if not run.shows(so_far):
            return 'behind %r: %r' % (line[:20], run.printed[-60:])
    return differ(run.finish(), so_far + b'7 answers\n')


def two_lines_and_a_half(run):
    """What a piece has of the next line waits."""
    run.send(DATA + b'\nx\n' + DATA[:5])
    if not run.shows(b'records\nD 0000 41\n! 1\n'):
        return repr(run.printed)
    run.send(DATA[5:] + b'\n')
    return '' if run.shows(b'records\nD 0000 41\n! 1\nD 0000 41\n') else repr(run.printed)


def end_record(behind):
    def body(run):
        run.send(DATA + b'\n' + END)
        if not run.shows(b'records\nD 0000 41\n'):
            return 'ahead of the LF: %r' % run.printed
        run.send(b'\n' + behind)
        return differ(run.ended(), b'records\nD 0000 41\nE\n2 answers\n')

    return body


def stopped(run):
    """A program that was stopped goes on where it was."""
    run.send(DATA[:5])
    run.child.send_signal(signal.SIGSTOP)
    time.sleep(MOMENT)
    run.child.send_signal(signal.SIGCONT)
    run.send(DATA[5:] + b'\n' + END)
    return differ(run.finish(), b'records\nD 0000 41\nE\n2 answers\n')


def from_terminal(name, pieces, words=COMMAND, already=b'', tenths=None):
    """A terminal in raw mode, as a serial line is, where one can be had, with `already` sent before the program starts. The end record
    comes last, or a pause where the line is set to return after one of so many tenths of a second."""
    try:
        line, mine = pty.openpty()
    except OSError:
        return print('-- passed over: %s: there is no terminal' % name)
    tty.setraw(mine)
    if tenths is not None:
        modes = termios.tcgetattr(mine)
        modes[6][termios.VMIN], modes[6][termios.VTIME] = 0, tenths
        termios.tcsetattr(mine, termios.TCSANOW, modes)
    os.write(line, already)
    child = subprocess.Popen(words, stdin=mine, stdout=subprocess.PIPE, env=with_stub(), cwd=ROOT)
    os.close(mine)
    for piece in pieces:
        os.write(line, piece)
        time.sleep(MOMENT)
    try:
        printed = child.communicate(timeout=SECONDS)[0]
    except subprocess.TimeoutExpired:
        child.kill()
        printed = child.communicate()[0]
    os.close(line)
    why = differ(printed, model.listing(already + b''.join(pieces)))
    told(name, not why, why)


from_terminal('a terminal line', cut(DATA + b'\r\n\r\n:00\r\n' + FULL + b'\r\n' + END + b'\r\n', 61))
from_terminal('a pause inside a line, where the line returns after one, is the end of the input', [], already=DATA + b'\r\n' + DATA[:5], tenths=1)
tried('an answer is printed before the next piece', at_once)
tried('two lines and a half', two_lines_and_a_half, (0, -9))
tried('the end record ends the program while its input is open', end_record(b''))
tried('what stands behind the end record is not shown', end_record(old))
tried('a program that was stopped goes on', stopped)

# ---- standard input and output that are slow, closed or broken: the program ends


def broken(run):
    """Nobody reads the other end any more: the next answer ends the program, with its input open."""
    if not run.shows(b'records\n'):
        return repr(run.printed)
    run.child.stdout.close()
    run.closed = True
    os.write(run.child.stdin.fileno(), DATA + b'\n')
    try:
        run.child.wait(timeout=SECONDS)
    except subprocess.TimeoutExpired:
        run.child.kill()
        return 'no end within %d s' % SECONDS
    return ''


def slow(run):
    """More is printed than a pipe holds, and is read late."""
    text = b'x\n' * 40000
    while text:
        try:
            text = text[os.write(run.child.stdin.fileno(), text):]
        except BlockingIOError:
            time.sleep(MOMENT)
            run.wait([], 0)
    return differ(run.finish(), b'records\n' + b'! 1\n' * 40000 + b'40000 answers\n')


tried('a broken pipe', broken, (0, -13, 141))
tried('a slow reader', slow)
ran('a closed standard input', in_shell('<&-', COMMAND), 0, b'records\n', b'cannot read\n')
ran('a folder as standard input', COMMAND, 0, b'records\n', b'cannot read\n', stdin=os.open(ROOT, os.O_RDONLY))
ran('a closed standard output', in_shell('>&-', COMMAND), 0, b'', b'cannot write\n', input=EXAMPLE)
if DEV_FULL:
    ran('a full device', in_shell('>' + DEV_FULL, COMMAND), 0, b'', b'cannot write\n', input=EXAMPLE)


def breaks_off(name, text, expected, then):
    """An input that does not wait fails where nothing is there: what was printed so far stays, and no count follows."""
    reads, writes = os.pipe()
    os.set_blocking(reads, False)
    os.write(writes, text)
    ran(name, COMMAND, 0, expected, then, stdin=reads)
    os.close(reads)
    os.close(writes)


breaks_off('a read that fails inside a line', DATA + b'\nx\n' + DATA[:5], b'records\nD 0000 41\n! 1\n', b'cannot read\n')
breaks_off('a read that would fail after the end record', DATA + b'\n' + END + b'\n', b'records\nD 0000 41\nE\n2 answers\n', b'')

# ---- the exit status, and the script ./follow that ends with it

for name, text, status in [
        ('an end record alone', END + b'\n', 0), ('records and an end record', TANK, 0), ('an end record without LF', END, 0), ('empty lines', b'\n\r\n' + END + b'\n\n', 0),
        ('a refused line after the end record', END + b'\nx\n', 0), ('a refused line', b'x\n' + END + b'\n', 1), ('a refused line and no end record', b'x', 1),
        ('no end record', DATA + b'\n', 1), ('an end record that is refused', b':00000001FE\n', 1), ('an empty input', b'', 1), ('65,537 bytes', b'\n' * 65537 + END, 0)]:
    says(name, COMMAND, text, b'%d' % status)
    started(name, ['./follow'], status, model.listing(text), input=text)
says('a folder', in_shell('<samples', COMMAND), None, b'2')
if DEV_FULL:
    says('a full device', in_shell('>' + DEV_FULL, COMMAND), EXAMPLE, b'2')
started('a file by its name', ['./follow', 'samples/tank.hex'], 2, b'', b'usage: ./follow < DEVICE\n')
refuses('./follow', b'records\n')
helps('./follow', [b'usage: SENDER | ./follow, or ./follow < DEVICE', b'A read of nothing is the end of the input.', b'`stty min 0 time N`', b'`stty min 1 time 0 -icanon`',
                   b'0 every line is a record, and there is an end record', b'1 a line was refused, or there is no end record',
                   b'2 the input cannot be read, the output cannot be written, or the usage is wrong'])
proves('ihexfollow', ['checksum', 'digits', 'record', 'copying', 'reader', 'chunks', 'listing', 'ihexfollow'])


def reading(child, notes):
    """The program, once it has printed its first line."""
    return children(child.pid) if child.stdout.read(8) == b'records\n' else None


for number in (signal.SIGINT, signal.SIGTERM, signal.SIGHUP):
    stops('./follow, stopped by signal %d while it reads' % number, ['./follow'], number, reading, stdin=subprocess.PIPE)

# through the script too, each answer is printed before the next piece, and its standard input is the program's
tried('./follow prints an answer before the next piece', at_once, (1,), words=['./follow'], env=with_stub(), cwd=ROOT)
tried('./follow ends at the end record while its input is open', end_record(b''), words=['./follow'], env=with_stub(), cwd=ROOT)
from_terminal('./follow on a terminal line', cut(DATA + b'\r\n\r\n:00\r\n' + FULL + b'\r\n' + END + b'\r\n', 61), ['./follow'])

end()
