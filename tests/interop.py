"""Pages written by ihex_write_page and loaded by other readers, and pages written by those and loaded by ihex_load; dumps that other
tools merge into one, where ihex_load loads one upon the other; and S-records: files that other tools write, loaded by ihex_load_srecords
to the same bytes as the tool's own binary, and lines of ihex_to_srecord_string that they read.

    interop.py FOLDER WORDS..    the folder of the built programs pagefile and joined; the words that run a program

Each page is one test for each reader and one for each writer. Each must have exactly the marked places, with their bytes. Each pair of
dumps is two tests for each tool that merges, and one for ihex_load; two more for each tool see that it is given pairs enough. Each page of
S-records is a test for each form that a tool writes, two for each type that it can read, and for each type one of a plain reader. Each start
is one test for each tool that has a form for it: intelhex says what it is, the others turn it into the end of S-records and back. Files that
a tool does not take, and tools that are not there, are passed over and count nothing; a line that begins with '-- passed over:' names
each. The last line is 'N passed, M failed'.
"""
import collections
import os
import random
import sys

import model
from model import packed, unpacked
from peers import Refused, of_srecords, run, srecord, there
from programs import end, told

PAGE = 65536
TOP = 1 << 32

# The marks of a case have a byte for each place, 1 or 0; the program pagefile takes and gives them packed.
Case = collections.namedtuple('Case', 'name first page marks')


# ---- pages

def filled(n):
    return bytes((i * 7 + i // 256) % 256 for i in range(n))


def runs(n, *pairs):
    """Marks with runs from a place on, of a length."""
    marks = bytearray(n)
    for at, length in pairs:
        marks[at:at + length] = b'\1' * length
    return bytes(marks)


# Marks that tell, by name; at an address from which they end beyond 2^32 they are left out.
SHAPES = [
    ('one place', b'\1'),
    ('nothing', bytes(1)),
    ('nothing in 300', bytes(300)),
    ('run of 15', runs(20, (2, 15))),
    ('run of 16', runs(16, (0, 16))),
    ('run of 17', runs(40, (1, 17))),
    ('run from 3', runs(40, (3, 32))),
    ('two runs', runs(20, (0, 18), (19, 1))),
    ('ends', runs(300, (0, 1), (299, 1))),
    ('every second', b'\1\0' * 100),
    ('every third not', b'\1\1\0' * 100),
    ('gap of 270', runs(300, (0, 15), (285, 15))),
]

# A segment's and a linear base's end, the ends of 2, 3 and 4 address bytes, and where a signed address turns negative.
FIRSTS = [0, 1, 0xFFEF, 0xFFF8, 0xFFFF, 0x10000, 0x10001, 0x12345, 0xFFFF8, 0x100000, 0x10FFEF, 0xFFFFF8, 0x1000000,
          0x7FFFFFF0, 0x80000000, 0xFFFEFFF7, 0xFFFF0000, 0xFFFFFED4, 0xFFFFFFF0, 0xFFFFFFFF]


def whole(before):
    """Every second place of a whole window, but two side by side after `before` places: the longest file."""
    return bytes((p % 2 == 0) == (p < before) for p in range(PAGE))


def large():
    yield 'whole page', 0, b'\1' * PAGE
    yield 'whole page', 0x18001, b'\1' * PAGE
    yield 'whole page', 0x7FFF8003, b'\1' * PAGE
    yield 'whole page', 0xFFFF0000, b'\1' * PAGE
    yield 'nothing in a whole page', 0x8000, bytes(PAGE)
    yield 'ends of a whole page', 0xFFFF0000, runs(PAGE, (0, 1), (PAGE - 1, 1))
    yield 'longest file', 0x20000 - 32769, whole(32769)
    yield 'longest file', 0xFFFF0000 - 1, whole(1)


def drawn():
    """Pages by a fixed sequence, with runs and gaps of several lengths."""
    chance = random.Random(4)
    for number in range(60):
        n, most = chance.randrange(1, 700), chance.choice([2, 5, 20, 70])
        marks = b''
        while len(marks) < n:
            marks += bytes([chance.randrange(2)]) * chance.randrange(1, most)
        first = min(TOP - n, max(0, chance.randrange(0x10001) * PAGE - chance.randrange(n)))
        yield Case('drawn %d' % number, first, bytes(chance.randrange(256) for _ in range(n)), marks[:n])


def cases():
    for first in FIRSTS:
        for name, marks in SHAPES:
            if first + len(marks) <= TOP:
                yield Case(name, first, filled(len(marks)), marks)
    for name, first, marks in large():
        yield Case(name, first, filled(PAGE), marks)
    yield from drawn()


def stated(case):
    """The address of each marked place, with its byte."""
    return {case.first + p: case.page[p] for p, mark in enumerate(case.marks) if mark}


# ---- the comparison

def page_file(case):
    return run(PAGEFILE + ['write', '%X' % case.first, str(len(case.page))], case.page + packed(case.marks)).decode()


def loaded(first, n, text, by='load'):
    """The places that ihex_load, or ihex_load_srecords, marks in a window of n places, with their bytes."""
    both = run(PAGEFILE + [by, '%X' % first, str(n)], text.encode('latin-1'))
    marks = unpacked(both[n:], n)
    if packed(marks) != both[n:]:
        raise ValueError('an unused bit is set')
    return stated(Case('', first, both[:n], marks))


def compare(name, wanted, gives, other='other places or bytes'):
    """One test: what is given is what is wanted, these places and nothing else. Whatever a tool raises is a failure."""
    try:
        same, why = gives() == wanted, other
    except Exception as error:
        same, why = False, str(error)
    told(name, same, why)


def compare_pages(tool):
    over = 0
    for case in cases():
        if not tool.takes_nothing and not any(case.marks):
            over += 1
            continue
        of, places = '%s at %X' % (case.name, case.first), stated(case)
        compare('%s reads, %s' % (tool.name, of), places, lambda: tool.read(page_file(case)))
        compare('%s writes, %s' % (tool.name, of), places, lambda: loaded(case.first, len(case.marks), tool.write(places)))
    if over:
        print('-- passed over: %s, %d pages without a mark: it refuses a file without data' % (tool.name, over))


# ---- one dump upon another

# A dump or a joined text: its text, and the places that ihex_load marks, with their bytes.
Loaded = collections.namedtuple('Loaded', 'text places')

# A pair of dumps with their joined text, and the window that they are loaded into: its first address and how many places it has.
Pair = collections.namedtuple('Pair', 'number first length a b joined')
NUMBERS = [number for number in range(0, 400, 2) if number % 8 != 6]

# What a tool refuses, or takes otherwise than Intel's rule, of a dump that ihex_load accepts. For srec_cat the latest start record decides
# where a record across offset FFFF goes on: after a type 03 in its segment, after a type 05 beyond it. GNU objcopy merges no files.
NO_DATA = 'a dump without a byte'
ADDRESS = 'an extension record or a start record with an address'
ACROSS_FIRST = 'a record across offset FFFF before any extension record'
ACROSS_SEGMENT = 'a record across the end of a segment'
ACROSS_AFTER_START = 'a record across offset FFFF after a start record'
TWO_STARTS = 'two start records'
STATED_TWICE = 'a place stated twice'
CANNOT = {
    'srec_cat': {NO_DATA, ADDRESS, ACROSS_FIRST, ACROSS_AFTER_START},
    'intelhex': {ADDRESS, ACROSS_FIRST, ACROSS_SEGMENT, TWO_STARTS, STATED_TWICE},
}

# How many of the pairs, and of their joined texts, a tool is at least given.
LEAST = {
    'srec_cat': {'merges': 45, 'reads joined': 60},
    'intelhex': {'merges': 34, 'reads joined': 25},
}


def pair(number):
    """The pair of dumps that the program joined makes for an even number, with their joined text."""
    head, rest = run(JOINED + [str(number)]).decode('latin-1').split('\n', 1)
    first, length, a, b, joined = (int(word, base) for word, base in zip(head.split(), [16, 10, 10, 10, 10]))
    if len(rest) != a + b + joined:
        raise ValueError('joined: texts of other lengths')
    texts = rest[:a], rest[a:a + b], rest[a + b:]
    return Pair(number, first, length, *(Loaded(text, loaded(first, length, text)) for text in texts))


def records(text):
    """The records of an accepted dump before its end record: type, address and payload."""
    for line in filter(None, model.lines_of(text.encode('latin-1'))):
        _, record = model.read(line)
        if record[0] == 1:
            return
        yield record


def across(latest, is_after_start):
    """What is odd about a record across offset FFFF, by the latest extension record, if any, and by a start record after it."""
    if latest is None:
        return {ACROSS_FIRST}
    odd = (ACROSS_SEGMENT, latest == 2), (ACROSS_AFTER_START, is_after_start)
    return {name for name, holds in odd if holds}


def addresses(text):
    """The address of each byte that the data records of an accepted dump state, by Intel's rule and not by a load."""
    latest, base = None, 0
    for kind, offset, payload in records(text):
        if kind in (2, 4):
            latest, base = kind, int.from_bytes(payload, 'big') * (16 if kind == 2 else PAGE)
        elif kind == 0 and latest == 4:
            yield from ((base + offset + i) % TOP for i in range(len(payload)))
        elif kind == 0:
            yield from (base + (offset + i) % PAGE for i in range(len(payload)))


def oddities(text):
    """What of a dump not every tool takes, by its text."""
    found, latest, is_after_start, starts, bytes_at = set(), None, False, 0, list(addresses(text))
    for kind, address, payload in records(text):
        if kind == 0:
            found |= across(latest, is_after_start) if address + len(payload) > PAGE else set()
        else:
            found |= {ADDRESS} if address else set()
        if kind in (2, 4):
            latest, is_after_start = kind, False
        elif kind in (3, 5):
            starts, is_after_start = starts + 1, True
    odd = (NO_DATA, not bytes_at), (TWO_STARTS, starts > 1), (STATED_TWICE, len(set(bytes_at)) < len(bytes_at))
    return found | {name for name, holds in odd if holds}


def compare_merges(tool, pairs):
    """Two tests for each pair that the tool takes: what it makes of both dumps, and of their joined text, states what A and then B state."""
    over = collections.Counter()
    for each in pairs:
        for what, given in ('merges', (each.a, each.b)), ('reads joined', (each.joined,)):
            odd = set().union(*(oddities(dump.text) for dump in given)) & CANNOT[tool.name]
            over.update(odd)
            over[what] += bool(odd)
            if not odd:
                compare('%s %s, pair %d' % (tool.name, what, each.number), {**each.a.places, **each.b.places},
                        lambda: loaded(each.first, each.length, tool.merge(*(dump.text for dump in given))))
    for what, least in LEAST[tool.name].items():
        taken = len(pairs) - over[what]
        told('%s %s, pairs enough' % (tool.name, what), taken >= least, '%d, and not %d' % (taken, least))
    why = ', '.join('%s (%d)' % (odd, over[odd]) for odd in sorted(CANNOT[tool.name]))
    print('-- passed over: %s, %d of %d pairs of dumps and %d of their joined texts: it refuses, or takes otherwise, %s'
          % (tool.name, over['merges'], len(pairs), over['reads joined'], why))


def compare_joined(pairs):
    """One test for each pair: ihex_load of the joined text marks and holds what A and then B do."""
    for each in pairs:
        compare('joined, pair %d' % each.number, {**each.a.places, **each.b.places}, lambda: each.joined.places)


# ---- S-records

# Where pages of S-records lie: from 0 on, and across or at the ends of 2, 3 and 4 address bytes.
SREC_FIRSTS = [0, 0xFFEF, 0xFFFFF8, 0xFFFFFED4]


def srecord_cases():
    for first in SREC_FIRSTS:
        for name, marks in SHAPES:
            if first + len(marks) <= TOP and any(marks):
                yield Case(name, first, filled(len(marks)), marks)
    yield Case('whole page', 0x18001, filled(PAGE), b'\1' * PAGE)
    yield Case('ends of a whole page', 0xFFFF0000, filled(PAGE), runs(PAGE, (0, 1), (PAGE - 1, 1)))


def types_for(case):
    """The types of data record that have an address for each place of a page."""
    last = case.first + len(case.marks) - 1
    return [kind for kind in (1, 2, 3) if last < 256 ** (kind + 1)]


def srecords(case, kind, size):
    """A page as S-records of one type, written line by line by ihex_to_srecord_string; what it refuses to write is a text that no tool reads."""
    words = ['write-srecords', '%X' % case.first, str(len(case.page)), str(kind), str(size)]
    try:
        return run(PAGEFILE + words, case.page + packed(case.marks)).decode()
    except Refused as why:
        return str(why)


def written_whole(tool, case, file, options):
    """The places that ihex_load_srecords marks for the S-records that a tool makes of a page's file, if its own binary has the same bytes."""
    text = tool.write_srecords(file, options)
    places = loaded(case.first, len(case.marks), text, 'load-srecords')
    lowest, highest = min(places), max(places)
    if tool.binary(text, lowest) != bytes(places.get(at, 0) for at in range(lowest, highest + 1)):
        raise ValueError('its binary has other bytes')
    return places


def compare_srecords(tools):
    for case in srecord_cases():
        of, places, file = 'S-records, %s at %X' % (case.name, case.first), stated(case), page_file(case)
        ours = {kind: srecords(case, kind, 16 if kind == 2 else 252 - kind) for kind in types_for(case)}
        for kind, text in ours.items():
            compare('a plain reader, S%d, %s' % (kind, of), places, lambda: of_srecords(text))
            compare('loaded, S%d, %s' % (kind, of), places, lambda: loaded(case.first, len(case.marks), text, 'load-srecords'))
        for tool in tools:
            for form, options in tool.forms.items():
                compare('%s writes %s, %s' % (tool.name, form, of), places, lambda: written_whole(tool, case, file, options))
            for kind, text in ours.items():
                compare('%s reads S%d, %s' % (tool.name, kind, of), places, lambda: tool.read_srecords(text))


def refused_with(name, first, n, text, number):
    """One test: ihex_load_srecords refuses a text with this number."""
    try:
        loaded(first, n, text, 'load-srecords')
        told(name, False, 'it is accepted')
    except Refused as why:
        told(name, str(why).endswith('answer %d' % (256 + number)), str(why))


def compare_ends(tool):
    """srec_cat writes no end record unless it is told a start address, and a count, which notices a line that is lost."""
    case = Case('two runs', 0, filled(20), runs(20, (0, 18), (19, 1)))
    text = tool.write_srecords(page_file(case), '')
    told('%s writes no end record' % tool.name, not any(line[:2] in ('S7', 'S8', 'S9') for line in text.split()))
    refused_with('%s, a file without an end record' % tool.name, 0, 20, text, 13)
    lines = tool.write_srecords(page_file(case), tool.START).splitlines(keepends=True)
    lost = next(line for line in lines if line.startswith('S1'))
    lines.remove(lost)
    refused_with('%s, a file that lost a line' % tool.name, 0, 20, ''.join(lines), 20)


# ---- starts

# Starts as ihex_load returns them: the kind and two values.
STARTS = [(3, 0x1000, 0), (3, 0xFFF, 0x10), (3, 0, 0x1234), (3, 0xFFFF, 1), (3, 0xF000, 0xFFFF), (5, 1, 0), (5, 0x1234, 0), (5, 0xABCDE, 0),
          (5, 0xFFFFF, 0), (5, 0x100000, 0), (5, 0x1234567, 0), (5, 0x80000000, 0), (5, 0xFFFFFFFF, 0)]
ZEROS = [(3, 0, 0), (5, 0, 0)]
OTHER = 'another start'


def started(start):
    """A text of one byte and a start, if it is one."""
    kind, x, y = start
    payload = x.to_bytes(2, 'big') + y.to_bytes(2, 'big') if kind == 3 else x.to_bytes(4, 'big')
    lines = [model.record(0, 0, b'\x11')] + [model.record(kind, 0, payload)] * (kind > 0) + [model.record(1, 0, b''), '']
    return '\n'.join(lines)


def start_of(text, by='start'):
    return tuple(int(word, 16) for word in run(PAGEFILE + [by, '0', '1'], text.encode('latin-1')).split())


def linear(start):
    """The linear address of a start, as these tools take CS with IP."""
    kind, x, y = start
    return 16 * x + y if kind == 3 else x


def compare_starts(tools):
    for start in STARTS + ZEROS + [(0, 0, 0)]:
        compare('start %d %X %X' % start, start, lambda: start_of(started(start)), OTHER)
    for tool in tools:
        if hasattr(tool, 'start'):
            for start in STARTS + ZEROS + [(0, 0, 0)]:
                compare('%s reads, start %d %X %X' % (tool.name, *start), start, lambda: tool.start(started(start)), OTHER)
        if hasattr(tool, 'to_srecords'):
            for start in STARTS + ZEROS * tool.states_zero:
                text, address = started(start), linear(start)
                compare('%s writes S-records, start %d %X %X' % (tool.name, *start), (5, address, 0),
                        lambda: start_of(tool.to_srecords(text), 'start-srecords'), OTHER)
                compare('%s writes from S-records, start %X' % (tool.name, address), address,
                        lambda: linear(start_of(tool.of_srecords(srecord(0, 0) + srecord(3, 0, b'\x11') + srecord(7, address)))), OTHER)


def main():
    tools, pairs = there(), [pair(number) for number in NUMBERS]
    for tool in tools:
        compare_pages(tool)
    compare_joined(pairs)
    for tool in tools:
        if tool.name in CANNOT:
            compare_merges(tool, pairs)
    of_srecords_too = [tool for tool in tools if hasattr(tool, 'forms')]
    compare_srecords(of_srecords_too)
    for tool in of_srecords_too:
        if hasattr(tool, 'START'):
            compare_ends(tool)
    compare_starts(tools)
    told('a tool could be had', bool(tools), 'none of the three')
    end()


FOLDER, *UNDER = sys.argv[1:]
PAGEFILE, JOINED = UNDER + [os.path.join(FOLDER, 'pagefile')], UNDER + [os.path.join(FOLDER, 'joined')]
main()
