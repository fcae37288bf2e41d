"""A model of a line on which dump after dump comes: how it is cut into dumps, what each comes to, what a gateway prints of it, and the file of
its page. Intel HEX is read by model.py, and S-records here. Nothing is shared with the port."""
import re

import model
from programs import in_words

NO_END = 'text has no end of file record'


def outside(number, address):
    return 'line %d: address %08X lies outside the window' % (number, address)


class Dump:
    """A dump that is taken line by line into a window: the byte that it states at each place, and its data records."""

    def __init__(self, first, length):
        self.window = range(first, first + length)
        self.lines = self.records = 0
        self.stated = {}

    def take(self, line):
        """What a line does: None if more is wanted, '' if it ends the dump, and otherwise why the dump is refused."""
        self.lines += 1
        return self.means(line) if line else None

    def put(self, addresses, data):
        """Stores a data record, if the window has all its addresses."""
        self.records += 1
        for address, byte in zip(addresses, data):
            if address not in self.window:
                return outside(self.lines, address)
            self.stated[address - self.window.start] = byte
        return None


class Hex(Dump):
    def __init__(self, first, length):
        super().__init__(first, length)
        self.linear, self.base, self.start = False, 0, None

    @staticmethod
    def ends(line):
        refusal, given = model.read(line)
        return refusal is None and given[0] == 1

    def lies(self, offset):
        """Where a byte lies, by the latest record of type 02 or 04."""
        return (self.base + offset) % 2**32 if self.linear else self.base + offset % 65536

    def means(self, line):
        refusal, given = model.read(line)
        if refusal is not None:
            return in_words(self.lines, refusal)
        kind, offset, payload = given
        if kind == 0:
            return self.put([self.lies(offset + i) for i in range(len(payload))], payload)
        if kind in (2, 4):
            self.linear, self.base = kind == 4, int.from_bytes(payload, 'big') * {2: 16, 4: 65536}[kind]
        if kind in (3, 5):
            if self.start not in (None, (kind, payload)):
                return 'line %d: start record states another start than the first one' % self.lines
            self.start = kind, payload
        return '' if kind == 1 else None


# How many bytes the address of each type of S-record has.
WIDTHS = {0: 2, 1: 2, 2: 3, 3: 4, 5: 2, 7: 4, 8: 3, 9: 2}


def read_srecord(line):
    """The refusal of a line, as model.read tells it, and None; or None, and the record's type, address and data."""
    if line[:1] != b'S':
        return '! 1', None
    place = 1 + len(re.match(rb'[0-9A-Fa-f]*', line[1:]).group())
    if place < len(line):
        return '! 2 %04X' % min(place, 65535), None
    if len(line) < 2:
        return '! 3', None
    kind, digits = int(line[1:2], 16), line[2:]
    if kind not in WIDTHS:
        return '! 8 %X' % kind, None
    width = WIDTHS[kind]
    if len(digits) < 2 * (width + 2):
        return '! 3', None
    if len(digits) > 512:
        return '! 4', None
    if len(digits) % 2 == 1:
        return '! 5', None
    count, *body, stated = bytes.fromhex(digits.decode('ascii'))
    computed = 255 - (count + sum(body)) % 256
    if computed != stated:
        return '! 6 %02X %02X' % (computed, stated), None
    if count != len(body) + 1:
        return '! 7', None
    if kind > 3 and len(body) > width:
        return '! 9', None
    return None, (kind, int.from_bytes(body[:width], 'big'), bytes(body[width:]))


def srecord(kind, address, data=b''):
    body = address.to_bytes(WIDTHS[kind], 'big') + bytes(data)
    body = bytes([len(body) + 1]) + body
    return 'S%d%s%02X' % (kind, body.hex().upper(), 255 - sum(body) % 256)


class SRecords(Dump):
    @staticmethod
    def ends(line):
        refusal, given = read_srecord(line)
        return refusal is None and given[0] in (7, 8, 9)

    def means(self, line):
        refusal, given = read_srecord(line)
        if refusal is not None:
            words = in_words(self.lines, refusal)
            return words.replace("start code ':'", "start code 'S'").replace('IHEX record type', 'S-record type')
        kind, address, data = given
        if kind in (1, 2, 3):
            return self.put([(address + i) % 2**32 for i in range(len(data))], data)
        if kind == 5 and address != self.records:
            return 'line %d: count record states %d data records, found %d before it' % (self.lines, address, self.records)
        return '' if kind > 5 else None


KINDS = {'hex': Hex, 'srecords': SRecords}


def cut(part):
    """The lines of what came between two pauses, and whether an LF ended each. The last one counts if it has a byte."""
    *ended, last = part.split(b'\n')
    rows = [(line[:-1] if line.endswith(b'\r') else line, True) for line in ended]
    return rows + [(last, False)] if last else rows


def decided(kind, parts, known, first, length):
    """Why each dump is refused, or '', with the dump, for all that come. The parts are what came between pauses, and the input ends after the last.

    After a refusal, and where the beginning is not known, everything through the next end record is skipped. After a pause the beginning is
    known. Empty lines before a dump belong to no dump, and neither does a CR that is all there is of a line."""
    for part in parts:
        dump, skips, known = None, not known, True
        for line, whole in cut(part):
            if skips:
                skips = not (whole and KINDS[kind].ends(line))
            elif dump is not None or (line and (whole or line != b'\r')):
                dump = dump or KINDS[kind](first, length)
                why = dump.take(line)
                if why is not None:
                    yield why, dump
                    dump, skips = None, why != ''
        if dump is not None:
            yield NO_END, dump


def counted(records):
    return '%d data record%s' % (records, '' if records == 1 else 's')


def shown(dumps, high, low):
    """The line that is printed for each dump."""
    history, lines = [], []
    for number, (why, dump) in enumerate(dumps, 1):
        history.append(None if why else dump.stated)
        color, known = model.lit(history, high, low)
        if why:
            said = 'broken, ' + why
        elif color == 'no-count':
            said = 'no count, ' + counted(dump.records)
        else:
            said = '%s, count %d, %s' % (color, known, counted(dump.records))
        lines.append('dump %d: %s\n' % (number, said))
    return lines


def page_file(first, stated):
    """The file of a page: the bytes at stated places. A record has 16 bytes, from the beginning of each run and of each 65,536 addresses on."""
    lines, upper, begun, data = [], None, 0, b''

    def write():
        nonlocal upper
        if data:
            if begun >> 16 != upper:
                upper = begun >> 16
                lines.append(model.record(4, 0, upper.to_bytes(2, 'big')))
            lines.append(model.record(0, begun & 0xFFFF, data))

    for place in sorted(stated):
        address = first + place
        if len(data) == 16 or address != begun + len(data) or address & 0xFFFF == 0:
            write()
            begun, data = address, b''
        data += bytes([stated[place]])
    write()
    return ''.join(line + '\n' for line in lines + [model.record(1, 0, b'')]).encode()


class Gateway:
    """What ./gateway does with all that comes: the lines that it prints, the midnight file at the end, and the exit status."""

    def __init__(self, kind, parts, known, first, length, high, low):
        self.dumps = list(decided(kind, parts, known, first, length))
        self.lines = shown(self.dumps, high, low)
        self.out = ''.join(self.lines).encode()
        accepted = [dump.stated for why, dump in self.dumps if not why]
        self.files = [page_file(first, stated) for stated in accepted]
        self.file = self.files[-1] if accepted else page_file(first, {})
        self.status = int(any(why for why, _ in self.dumps))
