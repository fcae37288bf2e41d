#!/usr/bin/env python3
"""Runs the script ./gateway, and the program that it starts, on a terminal line and on a pipe, with what comes cut into small pieces. Each line
that is printed, the midnight file, what is said on standard error and the exit status are compared with the model in listening.py, or with what is
written out by hand. IHEX_LIB_DIR names the folder of libihex.a; else target/staticlib has it.

The last line is 'N passed, M failed'; the exit status is 1 if any failed.
"""
import fcntl
import os
import random
import re
import resource
import shutil
import signal
import struct
import subprocess
import tempfile
import termios
import time
import tty

import listening
import model
from programs import DEV_FULL, ROOT, SECONDS, Printing, end, helps, in_shell, over_rust, ran, terminal, told

SCRIPT = './gateway'
USAGE = b'usage: ./gateway [--known] [--pauses N] KIND FIRST LENGTH HIGH LOW FILE EVERY\n'
FIRST, LENGTH, HIGH, LOW = 0x20000100, 36, 30, 31
MOMENT = 0.02
# So many pauses in a row end a run that is to go on through single ones.
MANY = 1000
END = b':00000001FF\n'
OLD = b':0100000042BD\n' + END

PLACE = tempfile.TemporaryDirectory()
FILE = os.path.join(PLACE.name, 'midnight.hex')
NEW = FILE + '.new'


def held(path):
    with open(os.path.join(ROOT, os.fsdecode(path)), 'rb') as f:
        return f.read()


def put(path, text):
    with open(path, 'wb') as f:
        f.write(text)


def words_for(kind='hex', file=FILE, every=1, known=True, pauses=None, first=FIRST, length=LENGTH, high=HIGH, low=LOW):
    options = ['--known'] * known + (['--pauses', str(pauses)] if pauses else [])
    return options + [kind, '%X' % first, str(length), str(high), str(low), file, str(every)]


def built():
    """The words that start the program itself, once the script has built it."""
    subprocess.run([SCRIPT] + words_for(), stdin=subprocess.DEVNULL, cwd=ROOT, check=True)
    show = '. ./machine && printf "%s\\n" "${under[@]}" "$(realpath "${CARGO_TARGET_DIR:-target}/${built}release/gateway")"'
    said = subprocess.run(['bash', '-c', show], stdout=subprocess.PIPE, cwd=os.path.join(ROOT, 'rust'), check=True).stdout
    return said.decode().split('\n')[:-1]


PROGRAM = [word for word in built() if word]


def expected(kind, parts, known=True, first=FIRST, length=LENGTH, high=HIGH, low=LOW):
    return listening.Gateway(kind, parts, known, first, length, high, low)


# ---- a line to the program


class Line(Printing):
    """The program, with the line open: a terminal in raw mode, or a pipe. On a terminal a read waits for a byte, or returns after a pause of so
    many tenths of a second."""

    def __init__(self, words, pair=None, tenths=None, **files):
        self.near, self.far = pair[::-1] if pair else os.pipe()
        self.is_terminal = pair is not None
        if self.is_terminal:
            tty.setraw(self.near)
            self.set(1 if tenths is None else 0, tenths or 0)
        self.watch(subprocess.Popen(words, stdin=self.near, stdout=subprocess.PIPE, stderr=subprocess.PIPE, bufsize=0, **files), SECONDS)
        os.set_blocking(self.far, False)
        self.tenths, self.sent, self.widest = tenths, None, 0

    def set(self, least, tenths):
        """How many bytes a read of the terminal waits for, and for how long."""
        modes = termios.tcgetattr(self.near)
        modes[6][termios.VMIN], modes[6][termios.VTIME] = least, tenths
        termios.tcsetattr(self.near, termios.TCSANOW, modes)

    def send(self, piece):
        """Sends a piece, and notes the widest gap between two pieces. There is none if the line was full."""
        before, full = time.monotonic(), False
        while piece and not self.closed:
            try:
                piece = piece[os.write(self.far, piece):]
            except BlockingIOError:
                full = True
                self.wait([self.far], SECONDS)
        if self.sent is not None and not full:
            self.widest = max(self.widest, time.monotonic() - self.sent)
        self.sent = before
        self.wait([], 0)

    def untaken(self):
        """How many bytes of what was sent the program has not read yet."""
        return struct.unpack('i', fcntl.ioctl(self.near, termios.FIONREAD, b'\0' * 4))[0]

    def reads(self):
        """How many reads of the program have returned, and how many bytes they took; 0 if it has ended."""
        try:
            with open('/proc/%d/io' % self.child.pid) as f:
                rows = dict(row.split(': ') for row in f.read().splitlines())
        except OSError:
            return 0, 0
        return int(rows['syscr']), int(rows['rchar'])

    def pause(self):
        """Waits until the program has taken all, and has read nothing at least once since."""
        ends = time.monotonic() + MOMENT
        while (time.monotonic() < ends or self.untaken()) and not self.closed:
            self.wait([], 0.002)
        # The first of two reads after which nothing more was taken may be the one that took the last bytes.
        reads, taken = 0, None
        while not self.closed:
            now, took = self.reads()
            if took != taken:
                reads, taken = now, took
            if now >= reads + 2:
                break
            self.wait([], 0.005)
        self.sent = None

    def shows(self, out):
        """Whether the program prints so much, and then no more for a moment, with the line open."""
        while len(self.printed) < len(out) and not self.closed:
            self.wait([], SECONDS)
        self.wait([], MOMENT)
        return self.printed == out and not self.closed

    def finish(self):
        """Ends the input. On a terminal a read returns at once from now on; an empty line ends the one that waits."""
        if self.is_terminal:
            self.set(0, 0)
            if self.tenths is None:
                self.send(b'\n')
        else:
            self.far = os.close(self.far)
        self.ended()

    def ended(self):
        """Waits until the program has ended."""
        while not self.closed:
            self.wait([], SECONDS)

    def over(self):
        """The exit status, and what was said on standard error."""
        if not self.closed:
            self.child.kill()
        errors = self.child.stderr.read()
        for pipe in (self.child.stdout, self.child.stderr):
            pipe.close()
        for end in (self.near, self.far):
            if end is not None:
                os.close(end)
        return self.child.wait(), errors


def on_line(name, body, words, status, err=b'', tenths=None, on_terminal=False, **files):
    """`body`, on a line to the program, returns '' or what is wrong. The program ends with this status, and says this on standard error. If there may
    have been a pause between two pieces, nothing is judged, and the time between them is returned."""
    pair = terminal() if on_terminal else None
    if on_terminal and pair is None:
        return print('-- passed over: %s: there is no terminal' % name)
    line = Line(words, pair, tenths, **files)
    if not on_terminal:
        line.near = os.close(line.near)
    try:
        why = body(line)
    except TimeoutError:
        line.child.kill()
        why = 'no end within %d s, printed %r' % (SECONDS, line.printed[-60:])
    if tenths and line.widest > tenths / 20:
        line.over()
        return line.widest
    got = line.over()
    told(name, not why and got == (status, err), why or 'status %d, %r' % got)
    return None


def differ(got, wanted):
    for number, (one, other) in enumerate(zip(got.split(b'\n') + [None], wanted.split(b'\n') + [None]), 1):
        if one != other:
            return 'line %d is %r for %r' % (number, one, other)
    return ''


def at_pace(name, body, words, status, **files):
    """The same on a terminal with pauses. Where nothing could be judged it is tried again, with longer pauses."""
    for tenths in (1, 2, 5, 10):
        put(FILE, OLD)
        slow = on_line(name, body, words, status, tenths=tenths, on_terminal=True, **files)
        if slow is None:
            return None
    return told(name, False, 'the pieces came too slowly: %.2f s between two' % slow)


# ---- streams, in pieces of 1 to 64 bytes

dice = random.Random(33)


def pieces(part, cuts):
    at = 0
    while at < len(part):
        size = cuts.randrange(1, 65)
        yield part[at:at + size]
        at += size


def heard(name, kind, parts, known=True, every=60, on_terminal=True):
    """The program, fed with what came between pauses, prints the lines of the model, and leaves its file."""
    wanted = expected(kind, parts, known)
    pauses = MANY if len(parts) > 1 else None
    in_turn = [OLD] + wanted.files[every - 1::every] + [wanted.file]

    def body(line):
        cuts = random.Random(name)
        sent = there = 0
        for number, part in enumerate(parts):
            if number:
                line.pause()
            for piece in pieces(part, cuts):
                line.send(piece)
                sent += 1
                if sent % 50 == 0:
                    file = held(FILE)
                    if file not in in_turn[there:]:
                        return 'after %d pieces the file is %r' % (sent, file[:60])
                    there = in_turn.index(file, there)
        line.finish()
        file = held(FILE)
        return differ(line.printed, wanted.out) or differ(file, wanted.file) or ('FILE.new is left' if os.path.exists(NEW) else '')

    words = PROGRAM + words_for(kind, every=every, known=known, pauses=pauses)
    if pauses:
        return at_pace(name, body, words, wanted.status)
    put(FILE, OLD)
    return on_line(name, body, words, wanted.status, on_terminal=on_terminal)


# ---- the incident's evening

EVENING = [held(os.path.join('samples', 'evening', name)) for name in sorted(os.listdir(os.path.join(ROOT, 'samples', 'evening')))]
EVENING.append(held(os.path.join('samples', 'incident.hex')))
TAIL = 'dump %d: broken, line 1: address 00000110 lies outside the window'
BY_HAND = ''.join(line + '\n' for line in [
    'dump 1: first, count 600, 6 data records', 'dump 2: green, count 660, 6 data records',
    'dump 3: green, count 3300, 3 data records', TAIL % 4, 'dump 5: green, count 3360, 3 data records', TAIL % 6,
    "dump 7: broken, line 3: invalid checksum 'B2', expecting 'F2'", TAIL % 8, 'dump 9: green, count 3480, 3 data records', TAIL % 10,
    'dump 11: stale, count 3480, 3 data records', TAIL % 12, 'dump 13: no count, 3 data records', TAIL % 14,
    'dump 15: restarted, count 18, 3 data records', TAIL % 16, 'dump 17: no count, 3 data records', TAIL % 18]).encode()
AT_MIDNIGHT = b':020000042000DA\n:02010000214696\n:08011000214518004870091593\n:04012000008000005B\n:00000001FF\n'

evening = expected('hex', [b''.join(EVENING)])
told('the model: the evening', differ(evening.out, BY_HAND) == '' and evening.file == AT_MIDNIGHT, differ(evening.out, BY_HAND))
heard('the evening', 'hex', [b''.join(EVENING)])
heard('the evening, from an unknown place on', 'hex', [b''.join(EVENING)[50:]], known=False)
heard('the evening, with a pause after each buffer', 'hex', EVENING)
heard('the evening over a pipe', 'hex', [b''.join(EVENING)], on_terminal=False)

# ---- a day with noise


def dump(kind, minute, count):
    """The lines of a dump of one minute; without a count if that is None."""
    time_of = bytes([minute // 60 // 10 * 16 + minute // 60 % 10, minute % 60 // 10 * 16 + minute % 10])
    levels = dice.randbytes(dice.choice([8, 10]))
    rows = [(0, time_of), (16, levels)]
    rows += [(HIGH, count.to_bytes(2, 'big') + dice.randbytes(4))] if count is not None else [(32, dice.randbytes(4))]
    if kind == 'srecords':
        lines = [listening.srecord(0, 0, b'panel')] + [listening.srecord(3, FIRST + at, data) for at, data in rows]
        if dice.randrange(2):
            lines.append(listening.srecord(5, len(rows)))
        return [line.encode() for line in lines + [listening.srecord(dice.choice([7, 8, 9]), 0)]]
    lines = [model.record(4, 0, b'\x20\0')] + [model.record(0, (FIRST + at) % 65536, data) for at, data in rows]
    if dice.randrange(4) == 0:
        lines.insert(dice.randrange(len(lines)), model.record(5, 0, b'\x08\0\0\xcd'))
    return [line.encode() for line in lines + [model.record(1, 0, b'')]]


def spoilt(line):
    """A line with a byte changed, lost or added."""
    at = dice.randrange(len(line))
    return line[:at] + dice.choice([b'', bytes([dice.randrange(256)]), b'G', b'%d' % dice.randrange(10), line[at:at + 1] * 2]) + line[at + 1:]


def odd(kind):
    """Lines that make a dump refused, although each is a good record."""
    if kind == 'srecords':
        return [listening.srecord(5, 200), listening.srecord(2, 0x123456, b'x'), listening.srecord(3, FIRST + LENGTH - 1, b'xy')]
    return [model.record(0, 0x123, b'xy'), model.record(3, 0, b'\x12\0\0\0') + '\n' + model.record(5, 0, b'\0\1\2\0'), model.record(2, 0, b'\x12\0') + '\n' + model.record(0, 0, b'x')]


def damaged(kind, lines, old):
    """The lines of a dump, damaged in one of many ways, with those of an older dump at hand."""
    at = dice.randrange(len(lines))
    before, line, after = lines[:at], lines[at], lines[at + 1:]
    zeros = line[:1] + b'0' * dice.choice([519, 520, 521, 522, 1000, 5000]) + dice.choice([b'', b'G'])
    return dice.choice([
        before + after,
        before + [spoilt(line)] + after,
        before + [line + b''.join(after[:1])] + after[1:],
        before + [dice.choice([b'\r', b'\r\r', b' ', b'\0', line])] + lines[at:],
        before + [b''] * dice.randrange(4) + lines[at:],
        before + [dice.choice(odd(kind)).encode()] + lines[at:],
        before + [zeros] + lines[at:],
        [line[:1] + line[1:].lower() for line in lines],
        [b''] * dice.randrange(4) + lines,
        [dice.randbytes(dice.randrange(1, 90))] + lines,
        lines[:-1],
        lines[:-1] + [spoilt(lines[-1])],
        lines + old[dice.randrange(len(old)):]])


def disturbed(kind, lines, old):
    """What comes of a dump on the line. Every second one comes as it is, but for its line ends."""
    way = dice.randrange(30)
    rows = damaged(kind, lines, old) if way < 12 else lines
    text = dice.choice([b'\n', b'\n', b'\r\n']).join(rows + [b''])
    noise = dice.randbytes(dice.randrange(1, 90))
    if way == 12:
        return text + noise
    if way == 13:
        return noise + text
    return text[:dice.randrange(len(text))] if way == 14 else text


def day(kind, minutes):
    """What comes of a day: the bytes of each dump as they come. The controller is restarted now and then, and stands still now and then."""
    texts, old, count = [], dump(kind, 0, 0), dice.randrange(65536)
    for minute in range(minutes):
        fate = dice.randrange(40)
        count = dice.randrange(65536) if fate == 0 else count if fate == 1 else (count + dice.randrange(1, 100)) % 65536
        lines = dump(kind, minute, None if fate == 2 else count)
        texts.append(disturbed(kind, lines, old))
        old = lines if dice.randrange(5) == 0 else old
    # Whatever the last dump came to, the day ends with a line that has its LF.
    return texts + [b'\n']


def with_pauses(texts, each):
    """What came between the pauses, of which there are three times so many: before a dump, within one, and between CR and LF."""
    text = b''.join(texts)
    begins = [sum(map(len, texts[:n])) for n in dice.sample(range(1, len(texts)), each)]
    ends = [found.start() + 1 for found in re.finditer(b'\r\n', text)]
    cuts = sorted({*begins, *dice.sample(range(1, len(text)), each), *dice.sample(ends, each)})
    return [text[i:j] for i, j in zip([0] + cuts, cuts + [len(text)])]


def covers(name, gateway, words):
    """The day comes to every color, and to these refusals."""
    missing = [word for word in ['broken', 'no count', 'first', 'green', 'stale', 'restarted'] + words if word.encode() not in gateway.out]
    told('%s covers every color and the refusals' % name, not missing, repr(missing))


LINES = ['missing start code', 'column', 'too short', 'too long', 'whole number of bytes', 'invalid checksum', 'outside the window']
HEX, SRECORDS = day('hex', 1440), day('srecords', 360)
covers('the day', expected('hex', [b''.join(HEX)]), LINES + ['record header', 'another start'])
covers('the day of S-records', expected('srecords', [b''.join(SRECORDS)]), LINES + ['count record states'])
heard('a day', 'hex', [b''.join(HEX)])
heard('a day over a pipe', 'hex', [b''.join(HEX)], on_terminal=False)
heard('a day, from an unknown place on', 'hex', [b''.join(HEX)[100:]], known=False, every=7)
heard('a day with pauses', 'hex', with_pauses(HEX, 5))
heard('a day of S-records', 'srecords', [b''.join(SRECORDS)])
heard('a day of S-records, from an unknown place on', 'srecords', [b''.join(SRECORDS)[30:]], known=False, every=1)
heard('a day of S-records with pauses', 'srecords', with_pauses(SRECORDS, 3))

# ---- small texts, over a pipe and at once

GOOD = b':020000042000DA\n:02011E000005DA\n' + END
SECOND = GOOD.replace(b'0005DA', b'0006D9')
BASE, DATA = GOOD.split(b'\n')[:2]
STREAMS = {
    'nothing': b'', 'a dump': GOOD, 'two dumps': GOOD + SECOND, 'the same dump twice': GOOD * 2, 'CR LF': GOOD.replace(b'\n', b'\r\n') + SECOND.replace(b'\n', b'\r\n'),
    'no last LF': GOOD + SECOND[:-1], 'no last LF, and a CR': GOOD + SECOND[:-1] + b'\r', 'a CR at the end': GOOD + b'\r', 'two CR at the end': GOOD + b'\r\r',
    'empty lines': b'\n\r\n' + GOOD + b'\n\n\r\n\r' + b'\n' + SECOND, 'an end record alone': END, 'a line alone': b'x\n', 'a line and its dump': b'x\n' + GOOD,
    'a line, its dump, and a dump': b'x\n' + GOOD + SECOND, 'garbage and an end record': b'x\n' + END, 'a damaged end record': GOOD[:-2] + b'E\n' + SECOND + GOOD,
    'data with no base': DATA + b'\n' + END + GOOD, 'no end record': GOOD[:-len(END)], 'a dump of no count': BASE + b'\n:01010000AA54\n' + END,
    'the count in two records': BASE + b'\n:01011E0005DB\n:01011F0006D9\n' + END, 'one byte of the count': BASE + b'\n:01011E0005DB\n' + END,
    '70,000 bytes of noise': b'\xff' * 70000 + b'\n' + END + GOOD}
for name, text in STREAMS.items():
    for known in (True, False):
        wanted = expected('hex', [text], known)
        put(FILE, OLD)
        ran('%s, %s' % (name, 'known' if known else 'unknown'), PROGRAM + words_for(known=known), wanted.status, wanted.out, input=text)
        told('the file of %s, %s' % (name, 'known' if known else 'unknown'), held(FILE) == wanted.file)

HAND = [('two dumps', b'dump 1: first, count 5, 1 data record\ndump 2: green, count 6, 1 data record\n'), ('nothing', b''),
        ('no end record', b'dump 1: broken, text has no end of file record\n'), ('a line, its dump, and a dump', b"dump 1: broken, line 1: missing start code ':'\ndump 2: first, count 6, 1 data record\n"),
        ('no last LF, and a CR', b'dump 1: first, count 5, 1 data record\ndump 2: broken, line 3, column 12: invalid characters encountered in record\n')]
for name, out in HAND:
    told('the model: %s' % name, expected('hex', [STREAMS[name]]).out == out, repr(expected('hex', [STREAMS[name]]).out))

STATES_5, LAST = b'S3072000011E0005B4\n', b'S70500000000FA\n'
for name, text, out in [
        ('a dump', STATES_5 + LAST, b'dump 1: first, count 5, 1 data record\n'), ('an end of two address bytes', STATES_5 + b'S9030000FC\n', b'dump 1: first, count 5, 1 data record\n'),
        ('a count record', STATES_5 + b'S5030001FB\n' + LAST, b'dump 1: first, count 5, 1 data record\n'),
        ('a wrong count record', b'S00600004844521B\n' + STATES_5 + b'S5030002FA\n' + LAST, b'dump 1: broken, line 3: count record states 2 data records, found 1 before it\n'),
        ('a type that is none', b'S4030000FC\n' + LAST + STATES_5 + LAST, b"dump 1: broken, line 1: unsupported S-record type '4'\ndump 2: first, count 5, 1 data record\n"),
        ('Intel HEX', GOOD + LAST, b"dump 1: broken, line 1: missing start code 'S'\n"), ('a wrong character', STATES_5 + b'S70500000 00FA\n', b'dump 1: broken, line 2, column 10: invalid characters encountered in record\n'),
        ('a wrong checksum', STATES_5[:-2] + b'5\n', b"dump 1: broken, line 1: invalid checksum 'B4', expecting 'B5'\n"), ('no end', STATES_5, b'dump 1: broken, text has no end of file record\n')]:
    ran('S-records: %s' % name, PROGRAM + words_for('srecords'), int(b'broken' in out), out, input=text)
    told('the model: S-records: %s' % name, expected('srecords', [text]).out == out, repr(expected('srecords', [text]).out))

# ---- pauses in and between dumps

for name, parts in [('a pause in a line', [GOOD + SECOND[:20], SECOND]), ('a pause between two lines', [GOOD + SECOND[:16], SECOND]),
                    ('a pause between CR and LF of the end record', [GOOD[:-1] + b'\r', b'\n' + SECOND]), ('a pause between CR and LF of another line', [BASE + b'\r', b'\n' + GOOD]),
                    ('a pause in place of the last LF', [GOOD[:-1], SECOND]), ('a pause after a refused line', [b'x\n', GOOD]), ('a pause in what is skipped', [b'x\n' + GOOD[:20], SECOND]),
                    ('a pause after an empty line', [GOOD + b'\n\r', b'\n' + SECOND])]:
    heard(name, 'hex', parts, every=1)
heard('a pause is a known beginning', 'hex', [GOOD[20:30], SECOND], known=False)

# ---- each line before the next byte comes


def at_once(line):
    """The line of a dump is printed when the LF of the line that decides it has come, and not before."""
    so_far = b''
    for text, said in [(GOOD, b'dump 1: first, count 5, 1 data record\n'), (b'\n\n' + SECOND, b'dump 2: green, count 6, 1 data record\n'),
                       (BASE + b'\nx\n', b"dump 3: broken, line 2: missing start code ':'\n")]:
        for piece in (text[:7], text[7:-1]):
            line.send(piece)
        if not line.shows(so_far):
            return 'before the LF: %r' % line.printed
        line.send(text[-1:])
        so_far += said
        if not line.shows(so_far):
            return 'after the LF: %r' % line.printed
    line.finish()
    return differ(line.printed, so_far)


on_line('a line is printed before the next byte, on a pipe', at_once, PROGRAM + words_for(), 1)
on_line('a line is printed before the next byte, on a terminal', at_once, PROGRAM + words_for(), 1, on_terminal=True)
on_line('the script prints a line before the next byte', at_once, [SCRIPT] + words_for(), 1, on_terminal=True, cwd=ROOT)


def at_the_pause(line):
    line.send(GOOD[:-1])
    line.pause()
    return '' if line.shows(b'dump 1: first, count 5, 1 data record\n') else repr(line.printed)


at_pace('a dump that a pause ends is printed at the pause', at_the_pause, PROGRAM + words_for(pauses=MANY), -signal.SIGKILL)

# ---- pauses that end the run, and those that do not


def falls_silent(line):
    line.send(GOOD)
    line.ended()
    return differ(line.printed, b'dump 1: first, count 5, 1 data record\n')


def goes_on(line):
    for _ in range(3):
        line.send(b'\n')
        line.pause()
    line.send(GOOD)
    return '' if line.shows(b'dump 1: first, count 5, 1 data record\n') else repr(line.printed)


for pauses in (None, 1, 3):
    at_pace('a run ends after %s' % ('%d pauses' % pauses if pauses else 'a read of nothing'), falls_silent, PROGRAM + words_for(pauses=pauses), 0)
at_pace('pauses that are not in a row do not end a run', goes_on, PROGRAM + words_for(pauses=5), -signal.SIGKILL)
ran('the end of a pipe is pauses too', PROGRAM + words_for(pauses=3), 1, b'dump 1: first, count 5, 1 data record\ndump 2: broken, text has no end of file record\n', input=GOOD + BASE)

# ---- when the midnight file is written


def settled(line, so_far):
    """Lets a dump be refused: when its line is printed, all before it is done. Then the next dump is found."""
    line.send(b'x\n')
    wanted = so_far + b"dump %d: broken, line 1: missing start code ':'\n" % (so_far.count(b'\n') + 1)
    shown = line.shows(wanted)
    line.send(END)
    return wanted if shown else None


def counts(n):
    """A dump with a count. The file of its page is the same text."""
    return BASE + b'\n' + model.record(0, 0x11E, n.to_bytes(2, 'big')).encode() + b'\n' + END


def written_every(every):
    def body(line):
        so_far, file = b'', OLD
        for n in range(1, 8):
            line.send(counts(n))
            so_far += b'dump %d: %s, count %d, 1 data record\n' % (2 * n - 1, b'green' if n > 1 else b'first', n)
            so_far = settled(line, so_far)
            file = counts(n) if n % every == 0 else file
            if so_far is None or held(FILE) != file or os.path.exists(NEW):
                return 'after %d dumps: %r, %r' % (n, line.printed[-60:], held(FILE))
        line.finish()
        return '' if held(FILE) == counts(7) else 'at the end: %r' % held(FILE)

    return body


for every in (1, 2, 3, 7, 8, 999999999):
    put(FILE, OLD)
    on_line('written after every %d dumps' % every, written_every(every), PROGRAM + words_for(every=every), 1)

put(FILE, OLD)
was = open(FILE, 'rb')
ran('a file is replaced', PROGRAM + words_for(), 0, b'dump 1: first, count 5, 1 data record\n', input=GOOD)
told('the old file was not written to', was.read() == OLD and held(FILE) == counts(5))
was.close()
put(NEW, b'what an earlier run left, which is longer than the file is\n' * 9)
ran('FILE.new of an earlier run', PROGRAM + words_for(), 0, b'dump 1: first, count 6, 1 data record\n', input=SECOND)
told('FILE.new of an earlier run is gone', held(FILE) == counts(6) and not os.path.exists(NEW))
os.symlink(FILE, NEW)
ran('FILE.new is a link to FILE', PROGRAM + words_for(), 0, b'dump 1: first, count 5, 1 data record\n', input=GOOD)
told('a link is not followed', held(FILE) == counts(5) and not os.path.lexists(NEW))
os.remove(FILE)
ran('no file yet', PROGRAM + words_for(), 0, b'', input=b'')
told('a file that states nothing', held(FILE) == END)

# ---- a midnight file that cannot be written


def refused_file(name, file, why, **files):
    """The program says so, goes on, and ends with status 2."""
    out = b'dump 1: first, count 5, 1 data record\ndump 2: green, count 6, 1 data record\n'
    said = b'cannot write %s: %s\n' % (os.fsencode(file), why)
    ran(name, PROGRAM + words_for(file=file, every=2), 2, out, said * 2, input=GOOD + SECOND, **files)


def system(number):
    return ('%s (os error %d)' % (os.strerror(number), number)).encode()


put(FILE, OLD)
os.mkdir(NEW)
refused_file('FILE.new is a folder', FILE, system(21))
told('FILE.new is a folder: the old file stays', held(FILE) == OLD)
os.rmdir(NEW)
refused_file('no such folder', os.path.join(PLACE.name, 'none', 'file'), system(2))
refused_file('a folder that is a file', os.path.join(FILE, 'file'), system(20))
refused_file('a folder', PLACE.name, b'not a regular file')
PIPE = os.path.join(PLACE.name, 'pipe')
os.mkfifo(PIPE)
refused_file('a pipe', PIPE, b'not a regular file')
told('a pipe stays', not os.path.isfile(PIPE) and not os.path.exists(PIPE + '.new'))
LINK = os.path.join(PLACE.name, 'link')
os.symlink(FILE, LINK)
refused_file('a link', LINK, b'not a regular file')
told('what a link names stays', held(FILE) == OLD and os.path.islink(LINK))
refused_file('a name that is too long', os.path.join(PLACE.name, 'a' * 252), system(36))


def little_room():
    """A file can have 16 bytes, and a longer one fails."""
    signal.signal(signal.SIGXFSZ, signal.SIG_IGN)
    resource.setrlimit(resource.RLIMIT_FSIZE, (16, 16))


refused_file('no room for a whole file', FILE, system(27), preexec_fn=little_room)
told('no room for a whole file: the old one stays', held(FILE) == OLD and not os.path.exists(NEW))


def full_disk():
    """A disk of 32 KB, which is filled up to 4 bytes, in a namespace of its own."""
    work = os.path.join(PLACE.name, 'disk')
    os.mkdir(work)
    words = ' '.join("'%s'" % word for word in PROGRAM + words_for(file=os.path.join(work, 'file'), every=2))
    script = 'cd %s && mount -t tmpfs -o size=32k none . && cd . && cp %s file && { cat /dev/zero >filler 2>/dev/null || :; } && { %s; status=$?; cmp file %s && ls >&2; exit $status; }' % (work, FILE, words, FILE)
    if subprocess.run(['unshare', '-rm', 'sh', '-c', 'mount -t tmpfs -o size=32k none ' + work], stderr=subprocess.DEVNULL).returncode:
        return print('-- passed over: the midnight file on a full disk: no disk can be mounted; a limit on the size of files was tried')
    said = b'cannot write %s: %s\n' % (os.fsencode(os.path.join(work, 'file')), system(28))
    out = b'dump 1: first, count 5, 1 data record\ndump 2: green, count 6, 1 data record\n'
    return ran('a full disk: the old file stays', ['unshare', '-rm', 'sh', '-c', script], 2, out, said * 2 + b'file\nfiller\n', input=GOOD + SECOND)


full_disk()

# fsync fails always, or at one call.
SHIM = b"""#include <errno.h>
#include <stdlib.h>
static int calls;
int fsync(int fd)
{
    int at = atoi(getenv("FSYNC_FAILS"));
    (void)fd;
    if (at != 0 && ++calls != at)
        return 0;
    errno = EIO;
    return -1;
}
"""


def unsynced():
    """A file that is not synced is not renamed. If the folder cannot be synced after the rename, that is said too."""
    cc = next((word for word in (os.environ.get('CC'), 'x86_64-linux-gnu-gcc', 'cc') if word and shutil.which(word)), None)
    if len(PROGRAM) > 1 or cc is None:
        return print('-- passed over: a midnight file that cannot be synced: the program runs under an emulator, or there is no C compiler')
    shim = os.path.join(PLACE.name, 'fsync.so')
    subprocess.run([cc, '-shared', '-fPIC', '-x', 'c', '-', '-o', shim], input=SHIM, check=True)
    put(FILE, OLD)
    refused_file('a file that cannot be synced', FILE, system(5), env={**os.environ, 'LD_PRELOAD': shim, 'FSYNC_FAILS': '0'})
    told('a file that cannot be synced: the old one stays', held(FILE) == OLD and not os.path.exists(NEW))
    said = b'cannot write %s: %s\n' % (os.fsencode(FILE), system(5))
    ran('a folder that cannot be synced', PROGRAM + words_for(every=2), 2, b'dump 1: first, count 5, 1 data record\n', said, input=GOOD,
        env={**os.environ, 'LD_PRELOAD': shim, 'FSYNC_FAILS': '2'})
    return told('a folder that cannot be synced: the new file is whole', held(FILE) == counts(5) and not os.path.exists(NEW))


unsynced()


def tried_again(line):
    """A write that failed is tried after the next accepted dump."""
    so_far = b''
    for n in (1, 2, 3):
        line.send(counts(n))
        so_far = settled(line, so_far + b'dump %d: %s, count %d, 1 data record\n' % (2 * n - 1, b'green' if n > 1 else b'first', n))
        if so_far is None or held(FILE) != (OLD if n < 3 else counts(3)):
            return 'after %d dumps: %r, %r' % (n, line.printed[-60:], held(FILE))
        if n == 2:
            os.rmdir(NEW)
    line.finish()
    return ''


put(FILE, OLD)
os.mkdir(NEW)
on_line('a write that failed is tried again', tried_again, PROGRAM + words_for(every=2), 2, b'cannot write %s: %s\n' % (os.fsencode(FILE), system(21)))

# ---- killed at any moment: one file is whole

LARGE = 65536


# Dumps of a whole page. The file of each is the same text.
WHOLE = [listening.page_file(0, dict.fromkeys(range(LARGE), n)) for n in range(4)]


def killed():
    """Whether the file is one of those that may be there after the program was killed while it took dumps."""
    put(FILE, OLD)
    line = Line(PROGRAM + words_for(length=LARGE, first=0, high=0, low=1))
    line.near = os.close(line.near)
    line.send(WHOLE[0])
    while not line.printed and not line.closed:
        line.wait([], SECONDS)
    # The first file is being written now.
    time.sleep(dice.random() * 0.001)
    for text in WHOLE[1:dice.choice([1, 1, 2, 3, 4])]:
        line.send(text)
    line.child.kill()
    line.over()
    return held(FILE) in [OLD] + WHOLE


told('the file is whole after a kill', all([killed() for _ in range(50)]))
ran('and is written after a kill', PROGRAM + words_for(), 0, b'dump 1: first, count 5, 1 data record\n', input=GOOD)
told('it is the new one', held(FILE) == counts(5) and not os.path.exists(NEW))

# ---- inputs and outputs that fail


def breaks_off(name, text, out, file):
    """An input that does not wait fails where nothing is there. What was accepted is kept."""
    put(FILE, OLD)
    reads, writes = os.pipe()
    os.set_blocking(reads, False)
    os.write(writes, text)
    ran(name, PROGRAM + words_for(every=9), 2, out, b'cannot read\n', stdin=reads)
    told('%s: the file' % name, held(FILE) == file, repr(held(FILE)))
    os.close(reads)
    os.close(writes)


breaks_off('a read that fails', b'x\n', b"dump 1: broken, line 1: missing start code ':'\n", OLD)
breaks_off('a read that fails after a dump', GOOD + SECOND[:20], b'dump 1: first, count 5, 1 data record\n', counts(5))
if DEV_FULL:
    put(FILE, OLD)
    ran('a full device after a dump', in_shell('>' + DEV_FULL, PROGRAM + words_for(every=9)), 2, b'', b'cannot write\n', input=GOOD)
    told('a full device after a dump: the file', held(FILE) == counts(5))
    ran('a full device for what fails', in_shell('2>' + DEV_FULL, PROGRAM + words_for(file=PLACE.name)), 2, b'dump 1: first, count 5, 1 data record\n', b'', input=GOOD)
put(FILE, OLD)
over_rust([SCRIPT] + words_for(), GOOD)

# ---- what is refused before anything is read

for name, others, why in [('a page that is too long', dict(length=65537), b'page and marks do not fit the window'), ('a page beyond the last address', dict(first=0xFFFFFFFF, length=2, high=0, low=1), b'page and marks do not fit the window'),
                          ('a very long page', dict(length=999999999), b'page and marks do not fit the window'),
                          ('a place of the high byte', dict(high=36), b'place 36 of the high byte lies outside the page of length 36'), ('a place of the low byte', dict(low=99), b'place 99 of the low byte lies outside the page of length 36'),
                          ('a page of no place', dict(length=0, high=0, low=0), b'place 0 of the high byte lies outside the page of length 0')]:
    put(FILE, OLD)
    ran(name, PROGRAM + words_for(**others), 2, b'', why + b'\n', input=GOOD)
    told('%s: the file' % name, held(FILE) == OLD)
ran('the last place of all', PROGRAM + words_for(first=0xFFFFFFFE, length=2, high=0, low=1), 0, b'dump 1: first, count 5, 1 data record\n', input=b':02000004FFFFFC\n:02FFFE000005FC\n' + END)
ran('a whole page', PROGRAM + words_for(first=0, length=65536, high=65535, low=0), 0, b'dump 1: first, count 773, 1 data record\n', input=b':02FFFF000305F8\n' + END)

# ---- usage, and names of files

GIVEN = words_for()[1:]
ASKED = [GIVEN[:n] + GIVEN[n + 1:] for n in range(7)] + [[], GIVEN + ['1'], ['--none'] + GIVEN, GIVEN + ['--known'], ['--pauses'] + GIVEN, ['--pauses', '0'] + GIVEN, ['--pauses', ''] + GIVEN, ['--pauses'], ['--pauses', '3'],
                                                         ['--pauses', '+3'] + GIVEN, ['--pauses', '1000000000'] + GIVEN, ['--', *GIVEN], ['--known=1'] + GIVEN]
for at, wrong in [(0, ['Hex', 'ihex', 'srecord', '']), (1, ['', '0x', 'G', '-1', '+1', '000000000', '0x0x1', '1h', '100000000']), (2, ['', 'x', '-1', '+1', '1.5', '0x10', '1000000000', ' 36', '36\n']), (3, ['', '-1', 'A']), (4, ['', '-1', '1 ']),
                  (5, ['']), (6, ['', '0', '000', '-1', '1k', '+1', '1000000000'])]:
    ASKED += [GIVEN[:at] + [word] + GIVEN[at + 1:] for word in wrong]
put(FILE, OLD)
with tempfile.TemporaryDirectory() as folder:
    nothing_is_built = dict(os.environ, IHEX_LIB_DIR=folder, CARGO_TARGET_DIR=folder)
    for words in ASKED:
        ran('the usage %r' % words, [SCRIPT] + words, 2, b'', USAGE, input=GOOD, env=nothing_is_built)
        ran('the usage %r, of the program' % words, PROGRAM + words, 2, b'', USAGE.replace(b'./', b''), input=GOOD)
told('a wrong usage writes no file', held(FILE) == OLD)
for words in (['--pauses', '2', '--known'] + GIVEN, ['--known', '--known'] + GIVEN, ['--known', GIVEN[0], '0x20000100', '0036', '030', '0031', FILE, '01']):
    ran('the usage %r' % words, [SCRIPT] + words, 0, b'dump 1: first, count 5, 1 data record\n', input=GOOD)

with tempfile.TemporaryDirectory() as folder:
    for name in [b'midnight.hex', b'a b', b'--known', b'-', b"it's", b'\xff.hex', b'%s\\n']:
        run = subprocess.run([os.path.join(ROOT, 'gateway')] + words_for(file=name), input=GOOD, stdout=subprocess.PIPE, stderr=subprocess.PIPE, cwd=folder)
        told('a file called %r, in the folder of the caller' % name, run.returncode == 0 and os.listdir(os.fsencode(folder)) == [name] and held(os.path.join(os.fsencode(folder), name)) == counts(5), repr(run))
        os.remove(os.path.join(os.fsencode(folder), name))

helps(SCRIPT, [b'usage: SENDER | ./gateway [--known] [--pauses N] KIND FIRST LENGTH HIGH LOW FILE EVERY', b'everything through the next end record is skipped', b'N pauses in a row end the run', b'`stty raw min 0 time T < DEVICE`',
               b'LENGTH how many places the page has, decimal', b'0 every dump that was decided was accepted', b'1 a dump was refused',
               b'2 the input cannot be read, the output or FILE cannot be written, the page or a place is refused, or the usage is wrong'])

end()
