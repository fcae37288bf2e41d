#!/usr/bin/env python3
"""Makes the cases of the program `replay`: crates/replay/stdin, and crates/replay/stdout with the answers.

    tests/make_cases.py            writes the two files
    tests/make_cases.py --check    says whether the stored files are what it would write

The answers come from a model of documents 01 and 02 that shares nothing with the port: its record reader, its asks and
its light are in model.py, the rest stands here. The examples of documents 01 and 02 and the limits stand here with their
answers as well, and the model is held to them. src/main.rt of `replay` says what a case looks like.
"""
import pathlib
import sys

from model import asked, checksum, lines_of, lit, packed, read, record, told_other

FOLDER = pathlib.Path(__file__).resolve().parent.parent / "crates" / "replay"
TOP = 2**64 - 1
# What each place of a lent buffer holds before a call.
POOL, OUT, PAGE, MARKS = 0xEE, 0xDD, 0xCC, 0xAA


# The model, after the record reader.

def judge(line, pool, position):
    """What the record reader answers, and the pool after the call."""
    refusal, given = read(line)
    if refusal is not None:
        return refusal, pool
    kind, address, payload = given
    if kind != 0:
        return told_other(kind, payload), pool
    if position + len(payload) > len(pool):
        return "! 10", pool
    pool = pool[:position] + payload + pool[position + len(payload):]
    return f"D {address:04X} {position:X} {len(payload):X}", pool


class TextReader:
    """A text, how many of its lines the reader has passed, and whether a stop was met."""

    def __init__(self, text, stop_after_first_error, stop_after_eof):
        self.rows = lines_of(text)
        self.behind = 0
        self.stopped = False
        self.after_error, self.after_eof = stop_after_first_error, stop_after_eof

    def next(self, pool):
        """What a call answers, with the payload at the pool's start, and the pool after the call."""
        row = next((i for i in range(self.behind, len(self.rows)) if self.rows[i]), None)
        if self.stopped or row is None:
            return "done", pool
        told, pool = judge(self.rows[row], pool, 0)
        if told != "! 10":
            self.behind = row + 1
            self.stopped = self.after_eof if told == "E" else self.after_error and told.startswith("!")
        return told, pool


def line_of(kind, number, second, at, length, pool):
    """The line of a record, or the refusal."""
    if kind == 0:
        if at + length > len(pool):
            return None, "! 11"
        if length > 255:
            return None, f"! 12 {length:X}"
        return record(0, number, pool[at:at + length]), None
    if kind == 3:
        return record(3, 0, number.to_bytes(2, "big") + second.to_bytes(2, "big")), None
    return record(kind, 0, number.to_bytes({1: 0, 2: 2, 4: 2, 5: 4}[kind], "big")), None


def put_out(text, size):
    """The answer to a text that is to be written, and the output."""
    out = bytes([OUT]) * size
    if len(text) > size:
        return "! 15", out
    return f"W {len(text):X}", text.encode("ascii") + out[len(text):]


def write_line(given, pool, size):
    line, refusal = line_of(*given, pool)
    return put_out(line, size) if refusal is None else (refusal, bytes([OUT]) * size)


def write_object(records, pool, size):
    ends = sum(r[0] == 1 for r in records)
    lines = [line_of(*r, pool) for r in records]
    refusals = [refusal for _, refusal in lines if refusal is not None]
    if not records or records[-1][0] != 1:
        refusals[:0] = ["! 13"]
    elif ends > 1:
        refusals[:0] = [f"! 14 {ends:X}"]
    if refusals:
        return refusals[0], bytes([OUT]) * size
    return put_out("".join(line + "\n" for line, _ in lines), size)


def address_of(latest, offset, i):
    """Where byte i of a data record lies, by the latest extension record; before any that is a type 02 with number 0."""
    kind, number = latest
    if kind == "X2":
        return 16 * number + (offset + i) % 65536
    return (65536 * number + offset + i) % 2**32


def stated(text, place_of):
    """What a text comes to, and the byte that it states at each place; none where it is refused. An address without a place lies outside."""
    latest, data, start, places = ("X2", 0), 0, "", {}
    for number, row in enumerate(lines_of(text), 1):
        if not row:
            continue
        told, payload = judge(row, bytes(255), 0)
        if told == "E":
            return f"A {data:X} {start}".rstrip(), places
        if told.startswith("!"):
            return f"{told} @{number:X}", None
        kind, value, *rest = told.split()
        if kind in ("X2", "X4"):
            latest = kind, int(value, 16)
        if kind in ("X3", "X5"):
            if start not in ("", told):
                return f"! 21 @{number:X}", None
            start = told
        if kind == "D":
            data += 1
            for i in range(int(rest[1], 16)):
                address = address_of(latest, int(value, 16), i)
                place = place_of(address)
                if place is None:
                    return f"! 17 {address:08X} @{number:X}", None
                places[place] = payload[i]
    return "! 13 @0", None


def placed(text, first, page_size, marks_size):
    """What the loader answers, and the byte that the text states at each place of the page; None where it is refused."""
    if marks_size != (page_size + 7) // 8 or page_size > 65536 or first + page_size > 2**32:
        return "! 16 @0", None
    return stated(text, lambda address: address - first if first <= address < first + page_size else None)


def laid(places, page, marks):
    """Page and packed marks after a load: as they were where it is refused."""
    if places is None:
        return page, marks
    return bytes(places.get(p, old) for p, old in enumerate(page)), packed([p in places for p in range(len(page))])


def load(text, first, page_size, marks_size):
    """What the loader answers, page, and packed marks."""
    told, places = placed(text, first, page_size, marks_size)
    return told, *laid(places, bytes([PAGE]) * page_size, bytes([MARKS]) * marks_size)


# A light: the first address and the length of its window, and the places of the count's high and low byte.

def same_count(text, places, first, *bytes_of_count):
    """Whether the model of asks states the count's bytes as the loads do."""
    return all(asked(text, first + p) == (f"B {places[p]:02X}" if p in places else "none") for p in bytes_of_count)


def dump_row(dumps, light, page, marks):
    """What each dump of a light comes to, and page and packed marks after the last; or that it is not set up."""
    first, length, high, low = light
    if high >= length or low >= length:
        return ["! 24"], None
    history, row = [], []
    for text in dumps:
        told, places = placed(text, first, len(page), len(marks)) if len(page) == length else ("! 16 @0", None)
        if places is not None and not same_count(text, places, first, high, low):
            sys.exit(f"the models of asks and of loads do not state the same count in {text!r}")
        page, marks = laid(places, page, marks)
        history.append(places)
        color, known = lit(history, high, low)
        row.append(f"{color} {'-' if known is None else f'{known:04X}'} {told}")
    return row, (page, marks)


# A window of a table: its owner, its first address, its length, and its place in the pool.

def numbers_of(start, length):
    return set(range(start, start + length))


def is_bad_table(owner, rows, pool_size, marks_size):
    """Whether a table, or a call with it, breaks a limit; sums are of natural numbers."""
    if len(rows) > 16 or owner not in (1, 2) or pool_size > 65536 or marks_size != (pool_size + 7) // 8:
        return True
    if any(whose not in (1, 2) or first + length > 2**32 or place + length > pool_size for whose, first, length, place in rows):
        return True
    for i, (whose, first, length, place) in enumerate(rows):
        for other, others_first, others_length, others_place in rows[:i]:
            if numbers_of(place, length) & numbers_of(others_place, others_length):
                return True
            if whose == other and numbers_of(first, length) & numbers_of(others_first, others_length):
                return True
    return False


def load_table(text, owner, rows, pool_size, marks_size):
    """What the loader answers through a table, pool, and packed marks, in which only those of the owner's places change."""
    pool, marks = bytearray([PAGE] * pool_size), bytearray([MARKS] * marks_size)
    if is_bad_table(owner, rows, pool_size, marks_size):
        return "! 23 @0", pool, marks
    own = {first + i: place + i for whose, first, length, place in rows if whose == owner for i in range(length)}
    told, places = stated(text, own.get)
    if places is not None:
        for place in own.values():
            marks[place // 8] &= 255 - 2 ** (place % 8)
        for place, byte in places.items():
            pool[place] = byte
            marks[place // 8] |= 2 ** (place % 8)
    return told, pool, marks


# The cases, in order, each with its answer.

cases = []
answers = []


def heading(text):
    cases.append(f"# {text}")
    answers.append(f"# {text}")


def sum_case(data, answer=None):
    """The checksum of the bytes."""
    told = f"{checksum(data):02X}"
    if answer is not None and told != answer:
        sys.exit(f"the model answers {told}, not {answer}, to the checksum of {data.hex()}")
    cases.append(f"C {data.hex().upper()}".rstrip())
    answers.append(told)


def line_case(line, answer=None, pool=4, position=0):
    """A line read; where an answer is given, the model must give the same."""
    if isinstance(line, str):
        line = line.encode("latin-1")
    told, after = judge(line, bytes([POOL]) * pool, position)
    if answer is not None and told != answer:
        sys.exit(f"the model answers {told}, not {answer}, to {line!r}")
    cases.append(f"L {pool:X} {position:X} {line.hex().upper()}".rstrip())
    answers.append(f"{told} | {after.hex().upper()}")


def text_case(text, answer=None, flags=3, pool=4):
    """A text read until "done" or refusal 10, and one call more; an answer is the row with its line numbers."""
    if isinstance(text, str):
        text = text.encode("latin-1")
    reader = TextReader(text, flags % 2 == 1, flags // 2 % 2 == 1)
    row, shown, after = [], [], bytes([POOL]) * pool
    while len(row) < 40:
        told, after = reader.next(after)
        row.append(f"{told} @{reader.behind:X}")
        shown.append(f"{row[-1]} | {after.hex().upper()}")
        if told in ("done", "! 10"):
            break
    told, _ = reader.next(bytes(4096))
    row.append(f"{told} @{reader.behind:X}")
    if answer is not None and row != answer:
        sys.exit(f"the model answers {row}, not {answer}, to the text {text!r}")
    cases.append(f"T {flags:X} {pool:X} {text.hex().upper()}".rstrip())
    answers.append("; ".join([*shown, row[-1]]))


def first_case(text, answer=None, pool=4):
    """The first answer of a text alone, with both stops on."""
    if isinstance(text, str):
        text = text.encode("latin-1")
    told, after = TextReader(text, True, True).next(bytes([POOL]) * pool)
    if answer is not None and told != answer:
        sys.exit(f"the model answers {told}, not {answer}, first to the text {text!r}")
    cases.append(f"T 4 {pool:X} {text.hex().upper()}".rstrip())
    answers.append(f"{told} | {after.hex().upper()}")


def spelt(given):
    return " ".join(f"{x:X}" for x in given)


def write_case(given, answer=None, pool=b"", out=None):
    """A record written. A record is its type, two numbers, and the place and length of its payload."""
    if out is None:
        out = 11 + 2 * given[4] + 4
    told, after = write_line(given, pool, out)
    if isinstance(answer, str) and answer.startswith(":"):
        text = answer.encode("ascii")
        ok = told == f"W {len(text):X}" and after == text + bytes([OUT]) * (out - len(text))
    else:
        ok = answer in (None, told)
    if not ok:
        sys.exit(f"the model answers {told} and {after}, not {answer}, to the record {given}")
    cases.append(f"W {spelt(given)} {out:X} {pool.hex().upper()}".rstrip())
    answers.append(f"{told} | {after.hex().upper()}")


def object_case(records, answer=None, pool=b"", out=80):
    """A list of records written; an answer is the lines or the refusal."""
    told, after = write_object(records, pool, out)
    if isinstance(answer, list):
        text = "".join(line + "\n" for line in answer).encode("ascii")
        ok = told == f"W {len(text):X}" and after == text + bytes([OUT]) * (out - len(text))
    else:
        ok = answer in (None, told)
    if not ok:
        sys.exit(f"the model answers {told} and {after}, not {answer}, to the records {records}")
    cases.append(" ".join([f"O {out:X} {pool.hex().upper()}", *map(spelt, records)]))
    answers.append(f"{told} | {after.hex().upper()}")
    return after[:int(told[2:], 16)] if told.startswith("W") else None


def told_long(data):
    """All bytes, or the runs of equal ones where there are more than 64."""
    if len(data) <= 64:
        return " " + data.hex().upper()
    ends = [i for i in range(1, len(data) + 1) if i == len(data) or data[i] != data[i - 1]]
    return "".join(f" {data[i - 1]:02X}<{i:X}" for i in ends)


def row_of(places, size):
    """So many bytes of marks, with these places marked and no other."""
    row = bytearray(size)
    for place in places:
        row[place // 8] += 2 ** (place % 8)
    return bytes(row)


def load_case(text, answer=None, first=0, page=8, marks=None, places=None):
    """A text loaded; places are the marked ones, each with what it holds. The marks have the right number of bytes, or the one given."""
    if isinstance(text, str):
        text = text.encode("latin-1")
    if marks is None:
        marks = (page + 7) // 8
    told, after, marked = load(text, first, page, marks)
    if answer is not None and told != answer:
        sys.exit(f"the model answers {told}, not {answer}, to the load of {text!r} at {first:X}")
    if places is not None:
        wanted = bytes(places.get(i, PAGE) for i in range(page)), row_of(places, marks)
        if (after, marked) != wanted:
            sys.exit(f"the model stores {after.hex()} and marks {marked.hex()} for the load of {text!r} at {first:X}")
    cases.append(f"M {first:X} {page:X} {marks:X} {text.hex().upper()}".rstrip())
    answers.append(f"{told} |{told_long(after)} |{told_long(marked)}")


def table_case(text, rows, answer=None, owner=1, pool=8, marks=None, places=None):
    """A text loaded through a table; places are the marked ones of the owner, each with what it holds. The marks have the right number of bytes,
    or the one given."""
    if isinstance(text, str):
        text = text.encode("latin-1")
    if marks is None:
        marks = (pool + 7) // 8
    told, after, marked = load_table(text, owner, rows, pool, marks)
    if answer is not None and told != answer:
        sys.exit(f"the model answers {told}, not {answer}, to the load of {text!r} through {rows}")
    if places is not None:
        wanted = bytes(places.get(p, PAGE) for p in range(pool))
        own = {place + i for whose, _, length, place in rows if whose == owner for i in range(length)}
        if after != wanted or any(marked[p // 8] >> p % 8 & 1 != (p in places if p in own else MARKS >> p % 8 & 1) for p in range(8 * marks)):
            sys.exit(f"the model stores {after.hex()} and marks {marked.hex()} for the load of {text!r} through {rows}")
    cases.append(" ".join([f"N {owner:X} {pool:X} {marks:X} {text.hex().upper()}", *map(spelt, rows)]))
    answers.append(f"{told} |{told_long(after)} |{told_long(marked)}")


def ask_case(text, address, answer=None):
    """A text asked for the byte at an address. The model of the loads, with a place for each address, must give the same."""
    if isinstance(text, str):
        text = text.encode("latin-1")
    told = asked(text, address)
    if answer is not None and told != answer:
        sys.exit(f"the model answers {told}, not {answer}, to {text!r} asked at {address:X}")
    loaded, places = stated(text, lambda place: place)
    if places is not None:
        loaded = f"B {places[address]:02X}" if address in places else "none"
    if loaded != told:
        sys.exit(f"the model of asks answers {told}, and that of loads {loaded}, to {text!r} asked at {address:X}")
    cases.append(f"Q {address:X} {text.hex().upper()}".rstrip())
    answers.append(told)


def ask_cases(text, told):
    """A text asked at each of these addresses, modulo 2^32, with the byte there, or None where none is stated."""
    for address, byte in told.items():
        ask_case(text, address % 2**32, "none" if byte is None else f"B {byte:02X}")


def light_case(dumps, answer=None, places=(0, 1), first=0, length=4, page=None, marks=None, holds=None, marked=None):
    """Dumps in a row for a light with the count's high and low byte at these places. An answer is the row of what they come to. The page holds
    these bytes then and no other, and these of its places are marked. It has as many bytes as the light's, and the marks the right number, or
    those given."""
    dumps = [text.encode("latin-1") if isinstance(text, str) else text for text in dumps]
    page = length if page is None else page
    marks = (page + 7) // 8 if marks is None else marks
    light = first, length, *places
    row, buffers = dump_row(dumps, light, bytes([PAGE]) * page, bytes([MARKS]) * marks)
    if answer is not None and row != answer.split("; "):
        sys.exit(f"the model answers {row}, not {answer}, to the dumps {dumps} for the light {light}")
    if holds is not None and buffers != (bytes(holds.get(p, PAGE) for p in range(page)), row_of(marked, marks)):
        sys.exit(f"the model leaves {buffers} after the dumps {dumps} for the light {light}")
    cases.append(" ".join([f"K {spelt(light)} {page:X} {marks:X}", *(text.hex().upper() for text in dumps)]))
    answers.append("; ".join(row) + "".join(f" |{told_long(buffer)}" for buffer in buffers or ()))


def some_bytes(n, start=0):
    """n bytes, none of which is the pool's preset and no two neighbours of which are equal."""
    return bytes((start + 7 * i) % 223 for i in range(n))


# The longest line that is a record.
LONGEST = record(0, 0, some_bytes(255))


class Numbers:
    """A row of numbers that is the same on every machine."""

    def __init__(self, seed):
        self.state = seed

    def below(self, n):
        self.state = (self.state * 6364136223846793005 + 1442695040888963407) % 2**64
        return (self.state >> 33) % n


def of_document_01():
    heading("document 01: the lines marked P")
    line_case("", "! 1")
    line_case(":", "! 3")
    line_case(":G", "! 2 0001")
    line_case(":0100000", "! 3")
    line_case(":00000001FF0", "! 5")
    line_case(":00000001FE", "! 6 FF FE")
    line_case(":01000000FF", "! 7")
    line_case(":01000006F9", "! 7")
    line_case(":00000006FA", "! 8 06")
    line_case(":0100000100FE", "! 9")
    line_case(":00123401B9", "E")
    line_case(":020000021200EA", "X2 1200")
    line_case(":02000004FFFFFC", "X4 FFFF")
    line_case(":04000005000000CD2A", "X5 000000CD")
    heading("document 01: the other lines")
    assert len(LONGEST) == 521 and LONGEST.startswith(":FF")
    line_case(LONGEST, "D 0000 0 FF", pool=255)
    line_case(LONGEST + "0", "! 4", pool=255)
    line_case(":00000001FF\r", "! 2 000B")
    line_case("\r", "! 1")
    line_case(":02FFFF00AABB9B", "D FFFF 0 2")
    line_case(":010005007783", "D 0005 0 1")
    line_case(":00000001FF", "E")
    line_case(":04012000102030403B", "D 0120 0 4")
    heading("document 01: errors that look right")
    line_case(":000000010", "! 3")
    line_case(" :00000001FF", "! 1")
    line_case(":00000001FF ", "! 2 000B")
    line_case(": 00000001FF", "! 2 0001")
    line_case(":00000001FF\r\r", "! 2 000B")
    line_case(":00000001FF\n", "! 2 000B")
    line_case("\n", "! 1")
    heading("the crate's own examples")
    line_case(":00000001FF", "E")
    assert record(0, 0x10, b"Hello") == ":0500100048656C6C6FF7"
    line_case(":0500100048656C6C6FF7", "D 0010 0 5", pool=5)


def of_the_checksum():
    heading("checksum: of none, of each byte, of sums that wrap")
    sum_case(b"", "00")
    sum_case(bytes.fromhex("00000001"), "FF")
    sum_case(bytes.fromhex("02000004FFFF"), "FC")
    sum_case(bytes.fromhex("0401200010203040"), "3B")
    sum_case(bytes([0x80, 0x80]), "00")
    sum_case(bytes([0xFF, 0x01]), "00")
    sum_case(bytes([0xFF] * 2), "02")
    sum_case(bytes([0xFF] * 256), "00")
    sum_case(bytes([0xFF] * 257), "01")
    sum_case(bytes([0x01] * 255), "01")
    sum_case(bytes(range(256)), "80")
    for b in range(256):
        sum_case(bytes([b]))
    for n in (2, 3, 15, 16, 17, 259, 260, 1024):
        sum_case(some_bytes(n, n))


def of_the_digits():
    heading("how many digits: 0 to 24, 508 to 530, 1040 and 1041, good records where they can be")
    for n in [*range(25), *range(508, 531), 1040, 1041]:
        if n % 2 == 0 and 10 <= n <= 520:
            line_case(record(0, 0x1234, some_bytes((n - 10) // 2)), f"D 1234 0 {(n - 10) // 2:X}", pool=256)
        else:
            line_case(":" + "0" * n, "! 3" if n < 10 else "! 4" if n > 520 else "! 5")
    heading("the limits of the digits: 9, 10, 519, 520, 521, 522")
    line_case(":" + "00000001FF"[:9], "! 3")
    line_case(":" + "0" * 10, "D 0000 0 0")
    line_case(":" + "0" * 519, "! 5")
    line_case(":" + "0" * 520, "! 7")
    line_case(":" + "0" * 521, "! 4")
    line_case(":" + "0" * 522, "! 4")
    heading("every byte as the first character, alone and before a good line's digits")
    for b in range(256):
        line_case(bytes([b]), "! 3" if b == 0x3A else "! 1")
        line_case(bytes([b]) + b"00000001FF", "E" if b == 0x3A else "! 1")
    good = b":010005007783"
    for name, place in (("first", 1), ("middle", 9), ("last", 12)):
        heading(f"every byte as the {name} digit of {good.decode()}")
        for b in range(256):
            line = good[:place] + bytes([b]) + good[place + 1:]
            line_case(line, None if chr(b) in "0123456789ABCDEFabcdef" else f"! 2 {place:04X}")
    heading("the neighbours of the digits, and bytes with the top bit, at every place")
    for b in b"/:@G`g \x00\x7f\x80\xb0\xc1\xe1\xff":
        for place in range(1, len(good)):
            line_case(good[:place] + bytes([b]) + good[place + 1:], f"! 2 {place:04X}")
    heading("both letter cases")
    for kind, address, payload in ((0, 0xABCD, "ABCDEFFEDCBA0A"), (0, 0xFACE, ""), (3, 0, "ABCDEFAB"), (4, 0xBEEF, "CAFE"), (6, 0, "AB")):
        line = record(kind, address, bytes.fromhex(payload))
        line_case(line, pool=16)
        line_case(line.lower(), pool=16)
        line_case("".join(c.lower() if i % 2 else c for i, c in enumerate(line)), pool=16)
        line_case("".join(c if i % 2 else c.lower() for i, c in enumerate(line)), pool=16)
    line_case(":00000001ff", "E")
    line_case(":00000001fF", "E")
    line_case(":00000001Fe", "! 6 FF FE")
    line_case(":02abcd00cdefCA", "D ABCD 0 2")


def of_other_bytes():
    heading("bytes that are no ASCII: UTF-8 and not")
    for text in ("é", "€", "０", "：", "\u2028", "𝟘", "\ufeff"):
        raw = text.encode("utf-8")
        line_case(raw, "! 1")
        line_case(raw + b":00000001FF", "! 1")
        line_case(b":" + raw, "! 2 0001")
        line_case(b":" + raw + b"00000001FF", "! 2 0001")
        line_case(b":0000" + raw + b"0001FF", "! 2 0005")
        line_case(b":00000001FF" + raw, "! 2 000B")
        line_case(b":" + raw * 200, "! 2 0001")
    for raw in (b"\x80", b"\xff", b"\xc3", b"\xc3\x28", b"\xe2\x82", b"\xc0\xaf", b"\xed\xa0\x80", b"\xf5\x80\x80\x80", b"\xff\xfe"):
        line_case(raw, "! 1")
        line_case(raw + b":00000001FF", "! 1")
        line_case(b":" + raw, "! 2 0001")
        line_case(b":" + raw + b"0000000001FF", "! 2 0001")
        line_case(b":00000001FF" + raw, "! 2 000B")
    line_case(b":" + bytes(range(128, 256)) * 5, "! 2 0001")


def of_the_order():
    heading("two faults in one line: the first in the order is told")
    line_case("00000001FG", "! 1")
    line_case("G", "! 1")
    line_case("x" * 521, "! 1")
    line_case(":0G", "! 2 0002")
    line_case(":0000000G", "! 2 0008")
    line_case(":" + "0" * 520 + "G", "! 2 0209")
    line_case(":" + "0" * 521 + "g", "! 2 020A")
    line_case(":00000001FG", "! 2 000A")
    line_case(":00000001F", "! 3")
    line_case(":" + "0" * 523, "! 4")
    line_case(":00000001FE0", "! 5")
    line_case(record(0, 0, b"", length=1, check=0), "! 6 FF 00")
    line_case(record(6, 0, b"", check=0), "! 6 FA 00")
    line_case(record(1, 0, b"\x00", check=0), "! 6 FE 00")
    line_case(record(0, 0, b"\x01", check=0), "! 6 FE 00", pool=0)
    line_case(record(6, 0, b"", length=1), "! 7")
    line_case(record(1, 0, b"", length=1), "! 7")
    line_case(record(0, 0, b"\x01", length=2), "! 7", pool=0)
    line_case(record(6, 0, b"\x01"), "! 8 06", pool=0)
    line_case(record(2, 0, b"\x01"), "! 9", pool=0)
    line_case(record(0, 0, b"\x01"), "! 10", pool=0)
    line_case(record(1, 0, b""), "E", pool=0, position=TOP)
    line_case(record(2, 0, b"\x12\x34"), "X2 1234", pool=0, position=TOP)


def spoilt(digits, *places):
    """A line of so many digits, but for a G at each of these places."""
    line = ":" + "0" * digits
    for place in places:
        line = line[:place] + "G" + line[place + 1:]
    return line


def of_places():
    heading("the place of a byte that is no digit: in short lines, of an odd and a good length, and in long ones")
    for n in (1, 2, 8, 9, 10, 11, 12):
        for place in sorted({1, min(2, n), (n + 1) // 2, n}):
            line_case(spoilt(n, place), f"! 2 {place:04X}")
    for n in (519, 520, 521, 522):
        for place in (p for p in (1, 2, 519, 520, 521, 522) if p <= n):
            line_case(spoilt(n, place), f"! 2 {place:04X}")
    for place in (1, 522, 523, 1024, 2000):
        line_case(spoilt(2000, place), f"! 2 {place:04X}")
    heading("the first place of several")
    for places in ((1, 2), (1, 10), (2, 3, 4), (5, 9), (9, 10)):
        line_case(spoilt(10, *places), f"! 2 {places[0]:04X}")
        line_case(spoilt(11, *places, 11), f"! 2 {places[0]:04X}")
    line_case(":GGGGGGGGGG", "! 2 0001")
    line_case("::", "! 2 0001")
    line_case(":0:0:", "! 2 0002")
    line_case(":00\x00\xff", "! 2 0003")
    line_case(":00000001FE\r\r", "! 2 000B")
    line_case(spoilt(520, 520, 519), "! 2 0207")
    line_case(spoilt(521, 520, 521), "! 2 0208")
    line_case(spoilt(522, 521, 522), "! 2 0209")
    line_case(spoilt(1000, 522, 600, 1000), "! 2 020A")
    heading("every line of a colon and up to three of 0, G and CR")
    for n in range(1, 4):
        for i in range(3**n):
            line_case(":" + "".join("0G\r"[i // 3**k % 3] for k in range(n)))
    heading("no place where the colon is missing")
    for line in ("G", "GG", "0G", "0:", "G:", "\r:G", " :G", "\xe9:G", "0" * 520 + "G", "G" * 600):
        line_case(line, "! 1")


def of_the_fields():
    heading("every stated checksum")
    for b in range(256):
        line_case(record(0, 0x0100, b"\x12\x34\x56", check=b), "D 0100 1 3" if b == 0x60 else f"! 6 60 {b:02X}", position=1)
    heading("every length byte, with the checksum made right")
    for b in range(256):
        line_case(record(0, 0x0100, b"\x12\x34\x56", length=b), "D 0100 1 3" if b == 3 else "! 7", position=1)
    heading("every type, with no payload and with four bytes")
    for kind in range(256):
        line_case(record(kind, 0, b""))
        line_case(record(kind, 0, b"\x12\x34\x56\x78"))
    heading("types 00 to 06, with every size from 0 to 8 and the longest, and an address that is not 0000")
    for kind in range(7):
        for n in [*range(9), 254, 255]:
            line_case(record(kind, 0, some_bytes(n, 0xC1)), pool=n)
        for address in (0x0001, 0x1234, 0xFF00, 0xFFFF):
            for n in (0, 2, 4):
                line_case(record(kind, address, some_bytes(n, 0xC1)))
    heading("the numbers of the types, high byte first")
    line_case(record(2, 0, b"\x00\x01"), "X2 0001")
    line_case(record(2, 0, b"\x01\x00"), "X2 0100")
    line_case(record(3, 0, b"\x12\x34\x56\x78"), "X3 12345678")
    line_case(record(3, 0, b"\x00\x01\x00\x02"), "X3 00010002")
    line_case(record(3, 0, b"\xFF\xFF\x00\x00"), "X3 FFFF0000")
    line_case(record(4, 0, b"\x80\x00"), "X4 8000")
    line_case(record(5, 0, b"\x12\x34\x56\x78"), "X5 12345678")
    line_case(record(5, 0, b"\xFF\xFF\xFF\xFF"), "X5 FFFFFFFF")
    line_case(record(5, 0, b"\x00\x00\x00\x00"), "X5 00000000")
    line_case(record(0, 0x00FF, b""), "D 00FF 0 0")
    line_case(record(0, 0xFF00, b""), "D FF00 0 0")


def of_the_pool():
    heading("every payload length, in a pool that it fills")
    for n in range(256):
        line_case(record(0, n, some_bytes(n, n)), f"D {n:04X} 0 {n:X}", pool=n)
    heading("a pool one byte short")
    for n in (1, 2, 15, 16, 17, 254, 255):
        line_case(record(0, n, some_bytes(n, n)), "! 10", pool=n - 1)
    heading("the limits of the position, with payloads of 0, 1, 2 and 16 bytes")
    for n in (0, 1, 2, 16):
        line = record(0, 0x0200, some_bytes(n, 1))
        for pool in (0, 1, 2, 15, 16, 17, 40):
            near = {0, 1, pool - n - 1, pool - n, pool - n + 1, pool - 1, pool, pool + 1}
            far = {255, 256, 2**16, 2**31, 2**32 - 1, 2**32, 2**63 - 1, 2**63, TOP - 16, TOP - 15, TOP - 1, TOP}
            for position in sorted(p for p in near | far if p >= 0):
                line_case(line, f"D 0200 {position:X} {n:X}" if position + n <= pool else "! 10", pool, position)
    heading("the longest payload in pools about its size")
    line = record(0, 0xFFFF, some_bytes(255, 3))
    for pool, position in ((254, 0), (255, 0), (255, 1), (256, 1), (256, 2), (300, 0), (300, 45), (300, 46), (300, TOP), (300, TOP - 254), (300, TOP - 255)):
        line_case(line, f"D FFFF {position:X} FF" if position + 255 <= pool else "! 10", pool, position)
    heading("an empty payload at the pool's end, and beyond it")
    line_case(":0000000000", "D 0000 0 0", 0, 0)
    line_case(":0000000000", "! 10", 0, 1)
    line_case(":0000000000", "D 0000 12C 0", 300, 300)
    line_case(":0000000000", "! 10", 300, 301)
    line_case(":0000000000", "! 10", 300, TOP)


def of_chance():
    heading("records by chance, in letters of both cases")
    numbers = Numbers(1988)
    lines = []
    for _ in range(300):
        kind = numbers.below(6)
        n = {0: numbers.below(33), 1: 0, 2: 2, 3: 4, 4: 2, 5: 4}[kind]
        line = record(kind, numbers.below(65536), bytes(numbers.below(256) for _ in range(n)))
        lines.append("".join(c.lower() if numbers.below(2) else c for c in line))
        line_case(lines[-1], pool=numbers.below(64), position=numbers.below(32))
    heading("the same with one character changed, dropped or doubled")
    for line in lines:
        at, what = numbers.below(len(line)), numbers.below(4)
        new = "0123456789abcdefABCDEF:gG \r"[numbers.below(27)]
        line_case(line[:at] + ("", line[at] * 2, new, new)[what] + line[at + 1:], pool=40, position=2)


END = ":00000001FF"
END_RECORD = (1, 0, 0, 0, 0)
# A line for each record type, and what is told of it.
GOOD = [":010005007783", ":020000021200EA", ":0400000312345678E5", ":02000004FFFFFC", ":04000005000000CD2A", END]
GOOD_SAID = ["D 0005 0 1", "X2 1200", "X3 12345678", "X4 FFFF", "X5 000000CD", "E"]
# A line for each refusal from 1 to 9, and what is told of it.
BAD = ["00000001FF", ":0000000G", ":0100000", ":" + "0" * 521, ":00000001FF0", ":00000001FE", ":01000000FF", ":00000006FA", ":0100000100FE"]
BAD_SAID = ["! 1", "! 2 0008", "! 3", "! 4", "! 5", "! 6 FF FE", "! 7", "! 8 06", "! 9"]


def data(offset, at, length):
    return (0, offset, 0, at, length)


def ended(*lines, end="\n"):
    return "".join(line + end for line in lines)


def numbered(said):
    """What is told of lines that stand one below the other."""
    return [f"{one} @{i:X}" for i, one in enumerate(said, 1)]


def of_the_stops():
    listed = ":04012000102030403B\n\n:00000001FE\n:00000001FF\n"
    heading("texts: all four settings of the stops")
    text_case(listed, ["D 0120 0 4 @1", "! 6 FF FE @3", "E @4", "done @4", "done @4"], flags=2)
    text_case(listed, ["D 0120 0 4 @1", "! 6 FF FE @3", "done @3", "done @3"], flags=3)
    twice = ended(BAD[0], END, BAD[1], ":010005007783", END)
    text_case(twice, ["! 1 @1", "E @2", "! 2 0008 @3", "D 0005 0 1 @4", "E @5", "done @5", "done @5"], flags=0)
    text_case(twice, ["! 1 @1", "done @1", "done @1"], flags=1)
    text_case(twice, ["! 1 @1", "E @2", "done @2", "done @2"], flags=2)
    text_case(twice, ["! 1 @1", "done @1", "done @1"], flags=3)
    tail = ended(":010005007783", END, ":0100060055A4", END, BAD[3])
    text_case(tail, ["D 0005 0 1 @1", "E @2", "D 0006 0 1 @3", "E @4", "! 4 @5", "done @5", "done @5"], flags=0)
    text_case(tail, ["D 0005 0 1 @1", "E @2", "D 0006 0 1 @3", "E @4", "! 4 @5", "done @5", "done @5"], flags=1)
    text_case(tail, ["D 0005 0 1 @1", "E @2", "done @2", "done @2"], flags=2)
    text_case(tail, ["D 0005 0 1 @1", "E @2", "done @2", "done @2"], flags=3)
    text_case(tail[:-1], ["D 0005 0 1 @1", "E @2", "D 0006 0 1 @3", "E @4", "! 4 @5", "done @5", "done @5"], flags=0)


def of_line_ends():
    heading("texts: line ends, empty lines and their numbers")
    for flags in range(4):
        text_case("", ["done @0", "done @0"], flags)
        text_case("\n", ["done @0", "done @0"], flags)
        text_case("\r\n", ["done @0", "done @0"], flags)
        text_case("\n\r\n\n", ["done @0", "done @0"], flags)
    text_case(END, ["E @1", "done @1", "done @1"])
    text_case(END + "\n", ["E @1", "done @1", "done @1"])
    text_case(END + "\r\n", ["E @1", "done @1", "done @1"])
    text_case(END + "\r", ["! 2 000B @1", "done @1", "done @1"])
    text_case(END + "\r\r\n", ["! 2 000B @1", "done @1", "done @1"])
    text_case("\r", ["! 1 @1", "done @1", "done @1"])
    text_case("\r\r\n", ["! 1 @1", "done @1", "done @1"])
    text_case("\r\r\n" + END, ["! 1 @1", "E @2", "done @2", "done @2"], flags=2)
    text_case("\r\r\r\n\r\n" + END + "\r\n", ["! 1 @1", "E @3", "done @3", "done @3"], flags=0)
    text_case("\n\r", ["! 1 @2", "done @2", "done @2"])
    text_case("\n\n\r\n" + END, ["E @4", "done @4", "done @4"])
    text_case("\r" + END + "\n", ["! 1 @1", "done @1", "done @1"])
    text_case(":0000\r0001FF\n", ["! 2 0005 @1", "done @1", "done @1"])
    text_case(END + "\r" + END + "\n", ["! 2 000B @1", "done @1", "done @1"])
    text_case("\n" * 300 + END, ["E @12D", "done @12D", "done @12D"])
    text_case("\r\n" * 300 + BAD[0] + "\r\n" * 300 + END, ["! 1 @12D", "E @259", "done @259", "done @259"], flags=0)
    text_case(END + "\n\n\r\n\n", ["E @1", "done @1", "done @1"], flags=0)
    text_case(" \n\t\n" + END, ["! 1 @1", "! 1 @2", "E @3", "done @3", "done @3"], flags=2)
    text_case("\x00\n\xff\xfe\n\xe9\n:\x80\n\x0b\n\x0c\n\x85\n" + END,
              ["! 1 @1", "! 1 @2", "! 1 @3", "! 2 0001 @4", "! 1 @5", "! 1 @6", "! 1 @7", "E @8", "done @8", "done @8"], flags=2)
    heading("texts: lines of 13 to 19 and 29 to 35 bytes, with each line end")
    for n in [*range(13, 20), *range(29, 36)]:
        for end in ("\n", "\r\n", "\r\r\n", ""):
            text_case(":" + "0" * (n - 1) + end, flags=0)
            text_case(":" + "0" * (n - 1) + end + END, flags=0)


def of_places_in_texts():
    heading("texts: the place is counted from its line's first byte, whatever stands ahead of the line")
    rows = [(":G", 1), (":0G", 2), (":00000001FG", 10), (":00000001FFG", 11), (":0\xc3\xa90", 2), (spoilt(30, 17), 17)]
    lines, said = [line for line, _ in rows], [f"! 2 {place:04X}" for _, place in rows]
    text_case(ended(*lines), [*numbered(said), "done @6", "done @6"], flags=0)
    text_case(ended(*lines, end="\r\n"), [*numbered(said), "done @6", "done @6"], flags=0)
    text_case(ended(*lines), [f"{said[0]} @1", "done @1", "done @1"])
    for line, one in zip(lines, said):
        text_case(line, [f"{one} @1", "done @1", "done @1"])
        text_case("\n\r\n" + line, [f"{one} @3", "done @3", "done @3"])
        text_case(ended(":010005007783") + line, ["D 0005 0 1 @1", f"{one} @2", "done @2", "done @2"])
        text_case(ended(line, END), [f"{one} @1", "E @2", "done @2", "done @2"], flags=2)
        first_case(ended("", line, END), one)
    for place in (1, 2, 520, 521):
        text_case(ended(END, spoilt(max(place, 520), place), END), ["E @1", f"! 2 {place:04X} @2", "E @3", "done @3", "done @3"], flags=0)
    text_case(ended(spoilt(1500, 1500)), ["! 2 05DC @1", "done @1", "done @1"])
    heading("texts: a CR that belongs to its line, and its place")
    for line, place in ((":", 1), (":0", 2), (END, 11), (":" + "0" * 520, 521), (":" + "0" * 521, 522)):
        one = f"! 2 {place:04X}"
        said = read(line.encode())[0] or "E"
        text_case(line + "\r", [f"{one} @1", "done @1", "done @1"], flags=0)
        text_case(line + "\r\n", [f"{said} @1", "done @1", "done @1"], flags=0)
        text_case(line + "\r\r\n", [f"{one} @1", "done @1", "done @1"], flags=0)
        text_case(line + "\r\r", [f"{one} @1", "done @1", "done @1"], flags=0)
        text_case(line + "\r0\r\n" + END, [f"{one} @1", "E @2", "done @2", "done @2"], flags=2)
    text_case(":0G\r", ["! 2 0002 @1", "done @1", "done @1"])
    text_case(":0G\r\n", ["! 2 0002 @1", "done @1", "done @1"])
    text_case(":0\rG\r\n", ["! 2 0002 @1", "done @1", "done @1"])


def of_rows_of_answers():
    heading("texts: every record type, and each refusal from 1 to 9")
    for flags in range(4):
        text_case(ended(*GOOD), [*numbered(GOOD_SAID), "done @6", "done @6"], flags)
    text_case(ended(*BAD, END), [*numbered([*BAD_SAID, "E"]), "done @A", "done @A"], flags=2)
    for line, said in zip(BAD, BAD_SAID):
        text_case(ended("", line, END), [f"{said} @2", "done @2", "done @2"])
        text_case(ended("", line, END), [f"{said} @2", "E @3", "done @3", "done @3"], flags=2)
        text_case(line, [f"{said} @1", "done @1", "done @1"], flags=0)
    heading("texts: refusal 10 uses up no line and sets no stop")
    for flags in range(4):
        text_case(ended("", ":010005007783", "", ":02FFFF00AABB9B", END), ["D 0005 0 1 @2", "! 10 @2", "D FFFF 0 2 @4"], flags, pool=1)
        text_case(":02FFFF00AABB9B", ["! 10 @0", "D FFFF 0 2 @1"], flags, pool=1)
        text_case(":010005007783\n", ["! 10 @0", "D 0005 0 1 @1"], flags, pool=0)
        text_case(":0000050" + "0FB", ["D 0005 0 0 @1", "done @1", "done @1"], flags, pool=0)
    text_case(ended(LONGEST, END), ["! 10 @0", "D 0000 0 FF @1"], pool=254)
    text_case(ended(LONGEST, END), ["D 0000 0 FF @1", "E @2", "done @2", "done @2"], pool=255)
    heading("texts: payloads over one another, each from the pool's start")
    text_case(ended(record(0, 1, b"\x11\x22\x33\x44"), record(0, 2, b"\x55\x66"), record(0, 3, b""), record(0, 4, b"\x77"), END), pool=6)
    heading("texts: more than 40 answers")
    text_case("x\n" * 45, numbered(["! 1"] * 41), flags=0)
    text_case(ended(END) * 45, numbered(["E"] * 41), flags=1)


def of_first_answers():
    heading("texts: the first answer alone, of a reader that was opened anew")
    first_case("", "done")
    first_case("\n\r\n\n", "done")
    for line, said in zip(BAD + GOOD, BAD_SAID + GOOD_SAID):
        first_case(ended("", line, END), said)
    first_case(ended(LONGEST, END), "! 10", pool=254)
    first_case(ended(LONGEST, END), "D 0000 0 FF", pool=255)


def of_short_texts():
    heading("texts: every text of up to four bytes of LF, CR, the colon and 0, with both stops off")
    for n in range(5):
        for i in range(4**n):
            text_case("".join("\n\r:0"[i // 4**k % 4] for k in range(n)), flags=0, pool=0)


def of_one_record():
    hello = b"Hello"
    heading("writing: every record type")
    write_case(data(0x10, 0, 5), ":0500100048656C6C6FF7", hello)
    write_case(END_RECORD, END)
    write_case((2, 0x1200, 0, 0, 0), ":020000021200EA", out=15)
    write_case((3, 0x1234, 0x5678, 0, 0), ":0400000312345678E5", out=19)
    write_case((4, 0xFFFF, 0, 0, 0), ":02000004FFFFFC", out=15)
    write_case((5, 0xCD, 0, 0, 0), ":04000005000000CD2A", out=19)
    write_case(data(0xFFFF, 0, 2), ":02FFFF00AABB9B", b"\xAA\xBB")
    write_case(data(0, 0, 0), ":0000000000")
    for kind, number, second in ((1, 0, 0), (2, 1, 0), (2, 0x100, 0), (2, 0xABCD, 0), (3, 1, 2), (3, 0xFFFF, 0), (3, 0, 0xFFFF), (4, 0x8000, 0), (4, 0xEF01, 0), (5, 1, 0), (5, 0xFFFFFFFF, 0), (5, 0x12345678, 0), (5, 0x00FF00FF, 0), (5, 0xFEDCBA98, 0)):
        for out in (0, 10, 11, 14, 15, 18, 19, 24):
            write_case((kind, number, second, 0, 0), out=out)
    heading("writing: every payload byte in capitals, and every offset byte")
    for b in range(0, 256, 4):
        write_case(data(257 * b, 0, 4), pool=bytes(range(b, b + 4)))
    heading("writing: payloads of 0, 1, 2, 254, 255, 256 and 300 bytes, the output full, one short and longer")
    for n in (0, 1, 2, 254, 255):
        for out in (11 + 2 * n, 12 + 2 * n):
            write_case(data(n, 0, n), f"W {11 + 2 * n:X}", some_bytes(n, 1), out)
        for out in (10 + 2 * n, 1, 0):
            write_case(data(n, 0, n), "! 15", some_bytes(n, 1), out)
    for n in (256, 257, 300):
        for out in (0, 11, 11 + 2 * n):
            write_case(data(n, 0, n), f"! 12 {n:X}", some_bytes(n, 1), out)
            write_case(data(n, 0, n), "! 11", some_bytes(n - 1, 1), out)
    heading("writing: positions at the pool's end and beyond it, up to 2^64 - 1")
    for pool in (0, 1, 5, 300):
        for n in sorted({0, 1, 2, pool, pool + 1, 255, 256, 2**32, 2**63, TOP}):
            for at in sorted({0, 1, max(pool - n, 0), max(pool - n, 0) + 1, pool, pool + 1, 2**32, 2**63, TOP - 1, TOP}):
                fits = at + n <= pool
                write_case(data(0x1234, at, n), None if fits and n <= 255 else f"! 12 {n:X}" if fits else "! 11", some_bytes(pool, 9), out=24)
    heading("writing: in the order 11, 12, 15")
    write_case(data(0, 1, 256), "! 11", some_bytes(256), out=0)
    write_case(data(0, 0, 256), "! 12 100", some_bytes(256), out=0)
    write_case(data(0, 0, 255), "! 15", some_bytes(256), out=0)
    write_case(data(0, TOP, 1), "! 11", b"\x01", out=0)
    write_case(data(0, TOP, TOP), "! 11", b"\x01", out=0)
    write_case(data(0, 0, TOP), "! 11", b"\x01", out=0)


def of_objects():
    hello = b"Hello"
    heading("objects: the crate's example")
    text = object_case([data(0x10, 0, 5), END_RECORD], [":0500100048656C6C6FF7", END], hello)
    assert text == b":0500100048656C6C6FF7\n:00000001FF\n" and len(text) == 34
    object_case([data(0x10, 0, 5), END_RECORD], [":0500100048656C6C6FF7", END], hello, out=34)
    object_case([data(0x10, 0, 5), END_RECORD], "! 15", hello, out=33)
    object_case([data(0x10, 0, 5), END_RECORD], "! 15", hello, out=0)
    heading("objects: end records that are missing, not last, or more than one")
    object_case([], "! 13")
    object_case([], "! 13", out=0)
    object_case([END_RECORD], [END])
    object_case([END_RECORD], [END], out=12)
    object_case([END_RECORD], "! 15", out=11)
    object_case([END_RECORD, END_RECORD, data(0, 0, 0)], "! 13")
    object_case([data(0, 0, 0)], "! 13")
    object_case([END_RECORD, (5, 1, 0, 0, 0)], "! 13")
    for n in (2, 3, 4, 10, 20, 40):
        object_case([END_RECORD] * n, f"! 14 {n:X}", out=600)
    object_case([END_RECORD, data(0, 0, 0), END_RECORD], "! 14 2")
    object_case([END_RECORD, (2, 1, 0, 0, 0), END_RECORD, data(0, 0, 1), END_RECORD], "! 14 3", b"\x01")
    heading("objects: every record type")
    every = [data(5, 0, 1), (2, 0x1200, 0, 0, 0), (3, 0x1234, 0x5678, 0, 0), (4, 0xFFFF, 0, 0, 0), (5, 0xCD, 0, 0, 0), END_RECORD]
    whole = len(ended(*GOOD))
    object_case(every, GOOD, b"\x77", out=whole)
    object_case(every, GOOD, b"\x77", out=whole + 9)
    object_case(every, "! 15", b"\x77", out=whole - 1)


def of_refused_payloads():
    heading("objects: the first record with 11 or 12, and nothing written ahead of it")
    many = some_bytes(300)
    object_case([data(0, 0, 4), data(0, 0, 256), data(0, 300, 1), END_RECORD], "! 12 100", many)
    object_case([data(0, 0, 4), data(0, 300, 1), data(0, 0, 256), END_RECORD], "! 11", many)
    object_case([data(0, 0, 4), data(0, 1, 299), data(0, 0, 300), END_RECORD], "! 12 12B", many)
    object_case([data(0, 0, 4), data(0, 0, 4), data(0, TOP, 1), END_RECORD], "! 11", many)
    object_case([data(0, 0, 4), data(0, TOP, TOP), END_RECORD], "! 11", many, out=0)
    object_case([data(0, 0, 256), END_RECORD], "! 12 100", many, out=0)
    object_case([data(0, 0, 256), END_RECORD, END_RECORD], "! 14 2", many)
    object_case([data(0, 0, 256), data(0, 301, 0)], "! 13", many)
    object_case([data(0, 0, 255), END_RECORD], "W 216", many, out=534)
    object_case([data(0, 0, 255), END_RECORD], "! 15", many, out=533)
    object_case([data(0, 300, 0), END_RECORD], [":0000000000", END], many)
    object_case([data(0, 301, 0), END_RECORD], "! 11", many)
    heading("objects: payloads that lie over one another in the pool")
    object_case([data(1, 0, 3), data(2, 1, 3), data(3, 0, 4), END_RECORD], pool=b"\x11\x22\x33\x44")


# Document 01's example of a load: a byte at 12005.
PLACED = ended(":020000021200EA", ":010005007783", END)
# A byte 77 at offset 2; lines that set the base to 12340 and to 10000; and others that set it to 12000 and to 20000.
ONE, SEGMENT, LINEAR = record(0, 2, b"\x77"), record(2, 0, b"\x12\x34"), record(4, 0, b"\x00\x01")
OTHER_SEGMENT, OTHER_LINEAR = record(2, 0, b"\x12\x00"), record(4, 0, b"\x00\x02")


def of_addresses():
    heading("loads: document 01's example")
    load_case(PLACED, "A 1", 0x12000, 8, places={5: 0x77})
    load_case(PLACED, "A 1", 0x12005, 1, places={0: 0x77})
    load_case(PLACED, "! 17 00012005 @2", 0x12000, 5)
    load_case(PLACED, "! 17 00012005 @2", 0x12006, 5)
    load_case(PLACED, "A 1", 0x12000, 6, places={5: 0x77})
    heading("loads: the wrap at 2^32")
    top = ended(":02000004FFFFFC", ":02FFFF00AABB9B", END)
    load_case(top, "! 17 00000000 @2", 0xFFFFFFFF, 1)
    load_case(top, "! 17 00000000 @2", 0xFFFFFFF0, 16)
    load_case(top, "! 17 FFFFFFFF @2", 0, 16)
    load_case(ended(":02000004FFFFFC", record(0, 0xFFFF, b"\x77"), END), "A 1", 0xFFFFFFFF, 1, places={0: 0x77})
    load_case(ended(":02000004FFFFFC", record(0, 0xFFFF, b"\x77"), END), "A 1", 0xFFFF0000, 65536, places={0xFFFF: 0x77})
    load_case(ended(":02000004FFFFFC", record(0, 0xFFFE, some_bytes(4, 1)), END), "! 17 00000000 @2", 0xFFFFFFC0, 64)


# A record of two bytes across offset FFFF, and start records of both types.
OVER = ":02FFFF00AABB9B"
STARTS = record(3, 0, b"\x12\x34\x56\x78"), record(5, 0, b"\x00\x01\x00\x00")
# What is told of each.
STARTS_SAID = "X3 12345678", "X5 00010000"


def of_segments():
    heading("loads: a record across FFFF, with no extension record and in segment 0")
    for ahead, said in (((), ""), ((record(2, 0, b"\x00\x00"),), ""), ((STARTS[0],) * 2, STARTS_SAID[0]), ((STARTS[1],) * 2, STARTS_SAID[1])):
        over, line = ended(*ahead, OVER, END), len(ahead) + 1
        load_case(over, f"A 1 {said}".rstrip(), 0, 65536, places={0xFFFF: 0xAA, 0: 0xBB})
        load_case(over, f"! 17 00000000 @{line}", 0xFFFF, 2)
        load_case(over, f"! 17 00000000 @{line}", 0xFFF8, 16)
        load_case(over, f"! 17 00000000 @{line}", 1, 65535)
        load_case(over, f"! 17 00000000 @{line}", 1, 65536)
        load_case(over, f"! 17 0000FFFF @{line}", 0, 65535)
        load_case(over, f"! 17 0000FFFF @{line}", 0, 1)
        load_case(over, f"! 17 0000FFFF @{line}", 0x10000, 8)
    heading("loads: a record across FFFF in segments 1200, F000 and FFFF")
    for number in (0x1200, 0xF000, 0xFFFF):
        base, ahead = 16 * number, record(2, 0, number.to_bytes(2, "big"))
        over = ended(ahead, OVER, END)
        load_case(over, "A 1", base, 65536, places={0xFFFF: 0xAA, 0: 0xBB})
        load_case(over, f"! 17 {base:08X} @2", base + 0xFFFF, 2)
        load_case(over, f"! 17 {base:08X} @2", base + 0xFFF8, 8)
        load_case(over, f"! 17 {base:08X} @2", base + 1, 65536)
        load_case(over, f"! 17 {base + 0xFFFF:08X} @2", base, 65535)
        load_case(over, f"! 17 {base + 0xFFFF:08X} @2", base, 8)
        load_case(over, f"! 17 {base + 0xFFFF:08X} @2", base + 0x10000, 8)
        load_case(ended(ahead, record(0, 0xFFFF, b"\x77"), record(0, 0, b"\x66"), END), "A 2", base, 65536, places={0xFFFF: 0x77, 0: 0x66})
        load_case(ended(ahead, record(0, 0xFFFE, b"\x11\x12"), END), "A 1", base + 0xFFFE, 2, places={0: 0x11, 1: 0x12})
    heading("loads: no wrap at 1 MiB")
    load_case(ended(record(2, 0, b"\xFF\xFF"), record(0, 0xF, b"\x11\x12"), END), "A 1", 0xFFFFC, places={3: 0x11, 4: 0x12})
    load_case(ended(record(2, 0, b"\xF0\x00"), OVER, END), "! 17 000F0000 @2", 0xFFFFC, 8)
    load_case(ended(record(2, 0, b"\xF0\x01"), record(0, 0xFFEF, b"\x11\x12"), END), "A 1", 0xFFFFC, places={3: 0x11, 4: 0x12})
    heading("loads: a record across FFFF behind two of type 02 and two of type 04, the second holds alone")
    over = ended(SEGMENT, OTHER_SEGMENT, OVER, END)
    load_case(over, "A 1", 0x12000, 65536, places={0xFFFF: 0xAA, 0: 0xBB})
    load_case(over, "! 17 00012000 @3", 0x12340, 65536)
    load_case(over, "! 17 00021FFF @3", 0x24340, 65536)
    over = ended(OTHER_SEGMENT, SEGMENT, OVER, END)
    load_case(over, "A 1", 0x12340, 65536, places={0xFFFF: 0xAA, 0: 0xBB})
    load_case(over, "! 17 0002233F @3", 0x12000, 65536)
    load_case(over, "! 17 0002233F @3", 0x24340, 65536)
    over = ended(LINEAR, OTHER_LINEAR, OVER, END)
    load_case(over, "A 1", 0x2FFFF, 2, places={0: 0xAA, 1: 0xBB})
    load_case(over, "! 17 0002FFFF @3", 0x1FFFF, 2)
    load_case(over, "! 17 0002FFFF @3", 0x3FFFF, 2)


def of_inside_again():
    heading("loads: a record inside the window, then outside, then inside again")
    three, six = ":03FFFE001122339A", ":06FFFD00010203040506E9"
    load_case(ended(three, END), "A 1", 0, 65536, places={0xFFFE: 0x11, 0xFFFF: 0x22, 0: 0x33})
    load_case(ended(three, END), "! 17 0000FFFF @1", 0, 65535)
    load_case(ended(six, END), "! 17 0000FFFD @1", 0, 8)
    load_case(ended(six, END), "! 17 0000FFFE @1", 0, 65534)
    load_case(ended(six, END), "! 17 00000000 @1", 1, 65535)
    load_case(ended(six, END), "! 17 00000000 @1", 2, 65536)
    heading("loads: the same in segment 1200")
    load_case(ended(OTHER_SEGMENT, three, END), "A 1", 0x12000, 65536, places={0xFFFE: 0x11, 0xFFFF: 0x22, 0: 0x33})
    load_case(ended(OTHER_SEGMENT, three, END), "! 17 00021FFF @2", 0x12000, 65535)
    load_case(ended(OTHER_SEGMENT, six, END), "! 17 00021FFD @2", 0x12000, 8)
    load_case(ended(OTHER_SEGMENT, six, END), "! 17 00021FFE @2", 0x12000, 65534)
    load_case(ended(OTHER_SEGMENT, six, END), "! 17 00012000 @2", 0x12001, 65535)
    load_case(ended(OTHER_SEGMENT, six, END), "! 17 00012000 @2", 0x12002, 65536)


def of_wraps():
    heading("loads: long records up to FFFF and across it, and what else lies there")
    for offset, n in ((0xFFF8, 16), (0xFF80, 255), (0xFF01, 255), (0xFFFF, 255)):
        places = {(offset + i) % 65536: byte for i, byte in enumerate(some_bytes(n, 5))}
        load_case(ended(record(0, offset, some_bytes(n, 5)), END), "A 1", 0, 65536, places=places)
        load_case(ended(SEGMENT, record(0, offset, some_bytes(n, 5)), END), "A 1", 0x12340, 65536, places=places)
        load_case(ended(record(0, offset, some_bytes(n, 5)), END), "! 17 00000000 @1" if len(places) + offset > 65536 else "A 1", 0xFF00, 256)
    load_case(ended(record(0, 0, b"\x11\x12"), OVER, END), "A 2", 0, 65536, places={0xFFFF: 0xAA, 0: 0xBB, 1: 0x12})
    load_case(ended(OVER, record(0, 0, b"\x11\x12"), END), "A 2", 0, 65536, places={0xFFFF: 0xAA, 0: 0x11, 1: 0x12})
    load_case(ended(OVER, BAD[0]), "! 1 @2", 0, 65536)
    heading("loads: across FFFF under a type 04")
    load_case(ended(LINEAR, OVER, END), "A 1", 0x1FFFF, 2, places={0: 0xAA, 1: 0xBB})
    load_case(ended(LINEAR, OVER, END), "! 17 00020000 @2", 0x10000, 65536)
    load_case(ended(record(4, 0, b"\x00\x00"), OVER, END), "A 1", 0xFFFF, 2, places={0: 0xAA, 1: 0xBB})
    load_case(ended(record(4, 0, b"\x00\x00"), OVER, END), "! 17 00010000 @2", 0, 65536)
    heading("loads: a type 02 after a type 04 and back, each with its own rule")
    low, line = record(2, 0, b"\x00\x01"), record(4, 0, b"\x00\x00")
    other = record(0, 0xFFFF, b"\xCC\xDD")
    load_case(ended(line, OVER, low, other, END), "A 2", 0x10, 65536, places={0xFFEF: 0xAA, 0xFFF0: 0xBB, 0xFFFF: 0xCC, 0: 0xDD})
    load_case(ended(low, other, line, OVER, END), "A 2", 0x10, 65536, places={0xFFEF: 0xAA, 0xFFF0: 0xBB, 0xFFFF: 0xCC, 0: 0xDD})
    load_case(ended(line, low, OVER, line, other, END), "A 2", 0x10, 65536, places={0xFFEF: 0xCC, 0xFFF0: 0xDD, 0xFFFF: 0xAA, 0: 0xBB})
    load_case(ended(line, OVER, low, other, line, record(0, 0xFFFF, b"\x11\x22"), END), "A 3", 0x10, 65536, places={0xFFEF: 0x11, 0xFFF0: 0x22, 0xFFFF: 0xCC, 0: 0xDD})
    load_case(ended(line, OVER, record(2, 0, b"\x00\x00"), other, END), "! 17 00000000 @4", 0x10, 65536)
    load_case(ended(LINEAR, low, record(0, 0xFFFF, b"\x77"), END), "A 1", 0x10, 65536, places={0xFFFF: 0x77})


def of_wraps_behind_starts():
    heading("loads: across FFFF behind a start record, by the rule of the extension record ahead of it")
    for start, said in zip(STARTS, STARTS_SAID):
        over = ended(SEGMENT, start, OVER, END)
        load_case(over, f"A 1 {said}", 0x12340, 65536, places={0xFFFF: 0xAA, 0: 0xBB})
        load_case(over, "! 17 00012340 @3", 0x2233F, 2)
        load_case(over, "! 17 0002233F @3", 0, 65536)
        load_case(over, "! 17 0002233F @3", 0xFFFF, 2)
        over = ended(LINEAR, start, OVER, END)
        load_case(over, f"A 1 {said}", 0x1FFFF, 2, places={0: 0xAA, 1: 0xBB})
        load_case(over, "! 17 00020000 @3", 0x10000, 65536)
        load_case(over, "! 17 0001FFFF @3", 0x10, 65536)
        load_case(over, "! 17 0001FFFF @3", 0, 65536)
        load_case(over, "! 17 0001FFFF @3", 0xFFFF, 2)
        over = ended(record(4, 0, b"\x00\x00"), start, OVER, END)
        load_case(over, f"A 1 {said}", 0xFFFF, 2, places={0: 0xAA, 1: 0xBB})
        load_case(over, "! 17 00010000 @3", 0, 65536)
        load_case(ended(LINEAR, SEGMENT, start, OVER, END), f"A 1 {said}", 0x12340, 65536, places={0xFFFF: 0xAA, 0: 0xBB})
        load_case(ended(SEGMENT, LINEAR, start, OVER, END), f"A 1 {said}", 0x1FFFF, 2, places={0: 0xAA, 1: 0xBB})


def of_windows():
    heading("loads: windows of length 0 and 1, to 2^32 and past it, of 65,536 and 65,537 places, marks of another length")
    empty = ended(END)
    for first in (0, 1, 0x12000, 2**31, 2**32 - 1):
        load_case(empty, "A 0", first, 0, places={})
        load_case(empty, "A 0", first, 1, places={})
        load_case(PLACED, "! 17 00012005 @2", first, 0)
        load_case(PLACED, "! 17 00012005 @2", first, 1)
        load_case(empty, "A 0" if first + 2 <= 2**32 else "! 16 @0", first, 2)
        for page, marks in ((0, 1), (1, 0), (8, 2), (9, 1), (65536, 8191), (65537, 8192), (0, 65537)):
            load_case(empty, "! 16 @0", first, page, marks)
    load_case(empty, "A 0", 2**32 - 8, 8, places={})
    load_case(empty, "! 16 @0", 2**32 - 8, 9)
    load_case(empty, "A 0", 2**32 - 65536, 65536, places={})
    load_case(empty, "! 16 @0", 2**32 - 65535, 65536)
    load_case(empty, "A 0", 0, 65536, places={})
    load_case(empty, "! 16 @0", 0, 65537)
    load_case(PLACED, "A 1", 0x12000, 65536, places={5: 0x77})
    load_case(PLACED, "! 16 @0", 0x12000, 65537)
    load_case("", "! 16 @0", 0, 8, 2)
    load_case(BAD[0], "! 16 @0", 0, 8, 8)


def of_packed_marks():
    heading("loads: marks of 0, 1, 7, 8, 9, 15, 16, 17, 65,528, 65,529, 65,535 and 65,536 places, a byte short and a byte long, the last place marked once and twice")
    for places in (0, 1, 7, 8, 9, 15, 16, 17, 65528, 65529, 65535, 65536):
        size, last = (places + 7) // 8, places - 1
        load_case(ended(END), "A 0", 0, places, places={})
        load_case(ended(END), "! 16 @0", 0, places, size + 1)
        load_case("", "! 13 @0", 0, places)
        if places > size:
            load_case(ended(END), "! 16 @0", 0, places, places)
        if places:
            load_case(ended(END), "! 16 @0", 0, places, size - 1)
            load_case(ended(record(0, last, b"\x77"), END), "A 1", 0, places, places={last: 0x77})
            load_case(ended(record(0, last, b"\x77"), record(0, last, b"\x66"), END), "A 2", 0, places, places={last: 0x66})
            load_case(ended(record(0, last, b"\x77"), BAD[0], END), f"{BAD_SAID[0]} @2", 0, places)
    heading("loads: runs across the bytes of the marks")
    for at in range(8):
        for n in (1, 2, 7, 8, 9, 10, 17):
            load_case(ended(record(0, at, some_bytes(n)), END), "A 1", 0, at + n, places=dict(enumerate(some_bytes(n), at)))
        stored = {at: 1, at + 1: 4, at + 2: 5, at + 9: 3, at + 10: 6}
        twice = record(0, at, b"\1\2"), record(0, at + 9, b"\3"), record(0, at + 1, b"\4\5"), record(0, at + 10, b"\6")
        load_case(ended(*twice, END), "A 4", 0, 27, places=stored)


def of_records_half_inside():
    heading("loads: a data record half inside")
    four = ended(record(0, 0x100, b"\x11\x22\x33\x44"), END)
    load_case(four, "A 1", 0x100, 4, places={0: 0x11, 1: 0x22, 2: 0x33, 3: 0x44})
    for n in range(4):
        load_case(four, f"! 17 {0x100 + n:08X} @1", 0x100, n)
        load_case(four, f"! 17 {0x100 + n:08X} @1", 0x100 + n - 4, 4)
        load_case(four, "! 17 00000100 @1", 0x101 + n, 4)
    load_case(ended("", record(0, 0, b"\x11"), "", record(0, 6, some_bytes(4)), END), "! 17 00000008 @4")
    load_case(ended("", record(0, 0, b"\x11"), "", record(0, 6, some_bytes(4)), BAD[0]), "! 17 00000008 @4")


def of_bases():
    heading("loads: bases, the latest of types 02 and 04 in force, start records place nothing")
    load_case(ended(ONE, END), "A 1", places={2: 0x77})
    load_case(ended(SEGMENT, ONE, END), "A 1", 0x12340, places={2: 0x77})
    load_case(ended(LINEAR, ONE, END), "A 1", 0x10000, places={2: 0x77})
    load_case(ended(SEGMENT, LINEAR, ONE, END), "A 1", 0x10000, places={2: 0x77})
    load_case(ended(LINEAR, SEGMENT, ONE, END), "A 1", 0x12340, places={2: 0x77})
    load_case(ended(LINEAR, SEGMENT, record(4, 0, b"\x00\x00"), ONE, END), "A 1", 0, places={2: 0x77})
    load_case(ended(LINEAR, record(2, 0, b"\x00\x00"), ONE, END), "A 1", 0, places={2: 0x77})
    load_case(ended(record(2, 0, b"\xFF\xFF"), record(0, 0xFFFF, b"\x77"), END), "A 1", 0x10FFE8, places={7: 0x77})
    load_case(ended(ONE, LINEAR, record(0, 0, b"\x55"), END), "! 17 00010000 @3", 0)
    load_case(ended(record(0, 0xFFFF, b"\x11"), LINEAR, record(0, 0, b"\x22"), END), "A 2", 0xFFFC, places={3: 0x11, 4: 0x22})
    for start, said in zip(STARTS, STARTS_SAID):
        load_case(ended(start, ONE, start, record(0, 3, b"\x66"), END), f"A 2 {said}", places={2: 0x77, 3: 0x66})
        load_case(ended(SEGMENT, start, ONE, END), f"A 1 {said}", 0x12340, places={2: 0x77})
        load_case(ended(SEGMENT, start, ONE, END), "! 17 00012342 @3", 0)
        load_case(ended(LINEAR, start, ONE, END), f"A 1 {said}", 0x10000, places={2: 0x77})
        load_case(ended(LINEAR, start, ONE, END), "! 17 00010002 @3", 0)
        load_case(ended(LINEAR, start, ONE, END), "! 17 00010002 @3", 0x10)
    load_case(ended(SEGMENT, ONE, OTHER_SEGMENT, ONE, END), "A 2", 0x12000, 1024, places={0x342: 0x77, 2: 0x77})
    load_case(ended(SEGMENT, OTHER_SEGMENT, ONE, END), "! 17 00012002 @3", 0x12340)
    load_case(ended(SEGMENT, OTHER_SEGMENT, ONE, END), "! 17 00012002 @3", 0x24340)
    load_case(ended(LINEAR, record(0, 0xFFFF, b"\x11"), OTHER_LINEAR, record(0, 0, b"\x22"), END), "A 2", 0x1FFFC, places={3: 0x11, 4: 0x22})
    load_case(ended(LINEAR, OTHER_LINEAR, ONE, END), "! 17 00020002 @3", 0x10000)
    load_case(ended(LINEAR, OTHER_LINEAR, ONE, END), "! 17 00020002 @3", 0x30000)
    load_case(ended(record(2, 0x1234, b"\x00\x00"), record(4, 5, b"\x00\x00"), ONE, ":00123401B9"), "A 1", places={2: 0x77})


# Starts that differ in one point each: CS and IP, another CS with the same address, and that address; the same digits as a linear address; 0 by
# both types; and two linear addresses that differ in one digit.
FAR, NEAR, FLAT = (record(kind, 0, bytes.fromhex(number)) for kind, number in ((3, "10000000"), (3, "0FFF0010"), (5, "00010000")))
DIGITS, ZERO, FLAT_ZERO = (record(kind, 0, bytes.fromhex(number)) for kind, number in ((5, "10000000"), (3, "00000000"), (5, "00000000")))
LETTERS, OTHER_LETTERS = (record(5, 0, bytes.fromhex(number)) for number in ("ABCDEF12", "ABCDEF02"))
ALL_STARTS = FAR, NEAR, FLAT, DIGITS, ZERO, FLAT_ZERO, LETTERS, OTHER_LETTERS


def said_of(start):
    return told_other(*read(start.encode())[1][::2])


def of_starts():
    heading("loads: none, one of each type, and the same twice, in either case and with any address field")
    load_case(ended(ONE, END), "A 1", places={2: 0x77})
    load_case(ended(":0400000310000000E9", END), "A 0 X3 10000000", places={})
    load_case(ended(":04000005000000CD2A", END), "A 0 X5 000000CD", places={})
    for start in ALL_STARTS:
        said = said_of(start)
        load_case(ended(start, ONE, END), f"A 1 {said}", places={2: 0x77})
        load_case(ended(ONE, start, END, end="\r\n"), f"A 1 {said}", places={2: 0x77})
        load_case(ended(start, start.lower(), "", start, END), f"A 0 {said}", places={})
        load_case(ended(start.lower(), ONE, start, END), f"A 1 {said}", places={2: 0x77})
        load_case(ended(start, record(int(said[1]), 0xFACE, bytes.fromhex(said[3:])), END), f"A 0 {said}", places={})
    heading("loads: each two of these starts, which differ")
    for first in ALL_STARTS:
        for second in ALL_STARTS:
            if first != second:
                load_case(ended(first, second, END), "! 21 @2")
    load_case(ended(FAR, FAR, NEAR, END), "! 21 @3")
    load_case(ended(FAR, "", ONE, FAR, "", NEAR, FAR), "! 21 @6")
    load_case(ended(ONE, LETTERS, OTHER_LETTERS.lower(), END), "! 21 @3")
    heading("loads: starts after the end record, and without one")
    load_case(ended(END, FAR), "A 0", places={})
    load_case(ended(FAR, END, NEAR), "A 0 X3 10000000", places={})
    load_case(ended(ONE, END, FLAT, FAR), "A 1", places={2: 0x77})
    load_case(ended(FAR, FAR), "! 13 @0")
    load_case(ended(FAR, NEAR), "! 21 @2")
    load_case(FAR + "\n" + NEAR, "! 21 @2")
    heading("loads: refusal 21 and others, in the order of the text")
    outside = record(0, 8, b"\x77")
    for first, second in ((FAR, NEAR), (FLAT, FAR), (ZERO, FLAT_ZERO)):
        for line, said in ((outside, "! 17 00000008"), *zip(BAD, BAD_SAID)):
            load_case(ended(first, second, line, END), "! 21 @2")
            load_case(ended(first, line, second, END), f"{said} @2")
            load_case(ended(line, first, second, END), f"{said} @1")
    load_case(ended(ONE, FAR, NEAR, END), "! 16 @0", 0, 8, 2)


def of_records_over_one_another():
    heading("loads: records over one another, the last one holds")
    load_case(ended(record(0, 0, b"\x11\x12\x13\x14"), record(0, 2, b"\x21\x22\x23"), END), "A 2", places={0: 0x11, 1: 0x12, 2: 0x21, 3: 0x22, 4: 0x23})
    load_case(ended(record(0, 2, b"\x21\x22\x23"), record(0, 0, b"\x11\x12\x13\x14"), END), "A 2", places={0: 0x11, 1: 0x12, 2: 0x13, 3: 0x14, 4: 0x23})
    load_case(ended(*(record(0, 3, bytes([b])) for b in (1, 2, 3, 0xCC)), END), "A 4", places={3: 0xCC})
    load_case(ended(record(0, 1, b"\x11"), SEGMENT, LINEAR, record(4, 0, b"\x00\x00"), record(0, 1, b"\x22"), END), "A 2", places={1: 0x22})
    heading("loads: empty data records are counted, also outside the window")
    load_case(ended(":0000000000", END), "A 1", places={})
    load_case(ended(record(0, 0xFFFF, b""), LINEAR, record(0, 0x8000, b""), ONE, END), "! 17 00010002 @4")
    load_case(ended(record(0, 0xFFFF, b""), ONE, LINEAR, record(0, 0x8000, b""), END), "A 3", places={2: 0x77})
    load_case(ended(*[":0000000000"] * 20, END), "A 14", page=0, places={})


def of_refused_loads():
    heading("loads: each refusal from 1 to 9 with its line, and 13")
    for line, said in zip(BAD, BAD_SAID):
        load_case(line, f"{said} @1")
        load_case(ended(line, END), f"{said} @1")
        load_case(ended("", ONE, "", "", line, END), f"{said} @5")
        load_case(ended("", ONE, "", line, END, end="\r\n"), f"{said} @4")
        load_case(ended(ONE, line, record(0, 8, b"\x77"), END), f"{said} @2")
        load_case(ended(ONE, record(0, 8, b"\x77"), line, END), "! 17 00000008 @2")
        load_case(ended(ONE, END, line), "A 1", places={2: 0x77})
    load_case("", "! 13 @0")
    load_case("\n\r\n", "! 13 @0")
    load_case(ended(ONE), "! 13 @0")
    load_case(ONE, "! 13 @0")
    load_case(ended(ONE, SEGMENT, LINEAR), "! 13 @0")
    load_case(ended(ONE) + ":00000001FE", "! 6 FF FE @2")
    load_case(ended(ONE) + END + "\r", "! 2 000B @2")
    load_case(ended(ONE) + "\r\r\n" + END, "! 1 @2")
    load_case(ended(ONE) + END, "A 1", places={2: 0x77})
    load_case(ended(ONE, END, end="\r\n"), "A 1", places={2: 0x77})
    load_case("\n\n" + ONE + "\n\r\n" + END + "\r\n", "A 1", places={2: 0x77})


def of_places_in_loads():
    heading("loads: the place of a byte that is no digit, with its line")
    for line, place in ((":G", 1), (":0G", 2), (":0000000G", 8), (":00000001FG", 10), (":00000001FFG", 11), (":0\xe2\x82\xac0", 2), (spoilt(30, 17, 29), 17)):
        load_case(line, f"! 2 {place:04X} @1")
        load_case(ended("", ONE, "", line, END, end="\r\n"), f"! 2 {place:04X} @4")
        load_case(ended(END, line), "A 0", places={})
    for place in (1, 2, 520, 521):
        load_case(ended(ONE, spoilt(max(place, 520), place), END), f"! 2 {place:04X} @2")
    load_case(ended(ONE, spoilt(1500, 1500), END), "! 2 05DC @2")
    load_case(ended(ONE, ":00000001F\rF\r\r", END), "! 2 000A @2")
    load_case(ended(ONE) + END + "\r\r\n", "! 2 000B @2")
    load_case(ended(ONE) + ":\r", "! 2 0001 @2")
    load_case(ended(ONE) + ":\r\n", "! 3 @2")
    load_case(ended(ONE, "0G", ":G", END), "! 1 @2")
    load_case(ended(ONE, ":G", "0G", END), "! 2 0001 @2")
    load_case(ended(record(0, 8, b"\x77"), ":G", END), "! 17 00000008 @1")
    load_case(ended(":G", record(0, 8, b"\x77"), END), "! 2 0001 @1")
    load_case(ended(":G"), "! 16 @0", 0, 8, 2)


def of_the_incident():
    heading("the incident: what stands behind the end record changes nothing")
    dump = ended(record(0, 0, some_bytes(16, 1)), record(0, 0x20, some_bytes(16, 2)), END)
    stored = dict(zip([*range(16), *range(32, 48)], some_bytes(16, 1) + some_bytes(16, 2)))
    old = ended(record(0, 8, some_bytes(16, 99)), record(0, 0x18, some_bytes(16, 77)), END)
    for tail in ("", old, old[5:], old[1:], old[14:], old.lower(), "\n\n" + old, "\x00" * 40, "\xff" * 40, "garbage", ":0000000", "\r", "\r\n", ":", END, ended(END) * 9, ended(*BAD), record(0, 0x40, b"\x01"), ended(LINEAR, ONE, SEGMENT)):
        load_case(dump + tail, "A 2", 0, 48, places=stored)
        text_case(dump + tail, ["D 0000 0 10 @1", "D 0020 0 10 @2", "E @3", "done @3", "done @3"], pool=16)
    load_case(dump.replace("\n", "\r\n") + old[3:], "A 2", 0, 48, places=stored)
    for tail in ("0", ":", "\r", " ", END, old[:-1]):
        load_case(dump[:-1] + tail, "! 5 @3" if tail == "0" else "! 2 000B @3", 0, 48)


def both_orders(rows, answer, **others):
    for order in (rows, rows[::-1]):
        table_case(ended(END), order, answer, **others)


def of_tables():
    heading("tables: no window, one, and windows of both owners")
    five = record(0, 5, b"\x77")
    table_case(ended(END), [], "A 0", places={})
    table_case(ended(five, END), [], "! 17 00000005 @1")
    table_case(ended(five, END), [(1, 0, 8, 0)], "A 1", places={5: 0x77})
    table_case(ended(five, END), [(1, 0, 8, 0)], "! 17 00000005 @1", owner=2)
    table_case(ended(five, END), [(2, 4, 2, 3), (1, 0, 3, 0)], "A 1", owner=2, pool=11, places={4: 0x77})
    for owner in (1, 2):
        table_case(ended(END), [(1, 0, 3, 6), (2, 0, 2, 1)], "A 0", owner=owner, pool=11, places={})
    table_case(ended(record(0, 3, b"\1\2\3"), END), [(1, 4, 0, 4), (1, 0, 8, 0), (1, 4, 0, 8)], "A 1", places={3: 1, 4: 2, 5: 3})
    heading("tables: owners, pools, marks and ends, at each limit and beyond it")
    for owner in (0, 1, 2, 3, 2**32 - 1):
        said = "A 0" if owner in (1, 2) else "! 23 @0"
        table_case(ended(END), [], said, owner=owner)
        table_case(ended(END), [(1, 0, 1, 0), (owner, 9, 1, 1)], said)
        table_case("x", [(owner, 0, 0, 0)], "! 1 @1" if owner in (1, 2) else "! 23 @0")
    for pool in (0, 1, 8, 9, 65535, 65536, 65537):
        table_case(ended(END), [], "A 0" if pool <= 65536 else "! 23 @0", pool=pool)
        for marks in ((pool + 7) // 8 + 1, pool // 8 - 1 if pool > 8 else pool):
            if marks != (pool + 7) // 8:
                table_case(ended(END), [], "! 23 @0", pool=pool, marks=marks)
    for row, good in (((1, 2**32 - 4, 4, 0), True), ((1, 2**32 - 3, 4, 0), False), ((1, 0, 0, 8), True), ((1, 0, 0, 9), False), ((2, 0, 4, 4), True),
                      ((2, 0, 4, 5), False), ((2, 0, 9, 0), False), ((1, 0, 2**63, 2**63), False), ((1, 0, TOP, 1), False), ((1, 0, 1, TOP), False)):
        table_case(ended(END), [row], "A 0" if good else "! 23 @0")
    heading("tables: windows that share a place or an address, in both orders, and windows that touch")
    for one, two, good in (((1, 0, 4, 0), (1, 4, 4, 4), True), ((1, 0, 4, 0), (2, 0, 4, 4), True), ((1, 0, 4, 0), (2, 9, 4, 3), False),
                           ((1, 0, 4, 0), (1, 3, 4, 4), False), ((1, 0, 8, 0), (1, 9, 1, 7), False), ((2, 0, 4, 0), (2, 1, 1, 4), False),
                           ((1, 0, 8, 0), (1, 4, 0, 4), True), ((2, 2**32 - 1, 1, 0), (2, 0, 1, 1), True)):
        both_orders([one, two], "A 0" if good else "! 23 @0")
        both_orders([one, (2, 99, 0, 0), two], "A 0" if good else "! 23 @0")


def of_walks_through_tables():
    heading("tables: 16 windows and 17, and a text that walks through all")
    rows = [(1, 0x1000 + 2 * i, 2, 2 * (7 * i % 16)) for i in range(16)]
    walk = ended(record(0, 0x1000, some_bytes(32, 1)), END)
    held = {place + i: some_bytes(32, 1)[first - 0x1000 + i] for _, first, _, place in rows for i in range(2)}
    table_case(walk, rows, "A 1", pool=32, places=held)
    table_case(walk, rows[:15], "! 17 0000101E @1", pool=32)
    table_case(walk, [*rows[:7], (2, *rows[7][1:]), *rows[8:]], "! 17 0000100E @1", pool=32)
    table_case(walk, [*rows, (1, 0, 0, 0)], "! 23 @0", pool=32)
    table_case(ended(END), [(1, 0, 0, 0)] * 17, "! 23 @0")
    apart = [(1 + i % 2, 0x20000 * i, 2, 2 * (7 * i % 16)) for i in range(16)]
    for owner in (1, 2):
        lines = [line for whose, first, _, _ in apart if whose == owner for line in (record(4, 0, (first >> 16).to_bytes(2, "big")), record(0, 0, bytes([first >> 16, 9])))]
        held = {place + i: (first >> 16, 9)[i] for whose, first, _, place in apart if whose == owner for i in range(2)}
        table_case(ended(*lines, END), apart, "A 8", owner, 35, places=held)
        table_case(ended(*lines, END), apart, f"! 17 {0x20000 * (owner - 1):08X} @2", 3 - owner, 35)
    heading("tables: a record in two windows, and from FFFFFFFF to 0")
    table_case(ended(record(0, 103, b"\1\2\3"), END), [(1, 100, 4, 4), (1, 104, 2, 0)], "A 1", places={7: 1, 0: 2, 1: 3})
    table_case(ended(record(0, 103, b"\1\2\3\4"), END), [(1, 100, 4, 4), (1, 104, 2, 0)], "! 17 0000006A @1")
    top = ended(record(4, 0, b"\xff\xff"), record(0, 0xFFFF, b"\1\2"), END)
    table_case(top, [(2, 2**32 - 2, 2, 3), (2, 0, 2, 0)], "A 1", 2, 5, places={4: 1, 0: 2})
    table_case(top, [(2, 2**32 - 2, 2, 3), (1, 0, 2, 0)], "! 17 00000000 @2", 2, 5)
    table_case(ended(record(0, 0xFFFF, b"\1\2"), END), [(2, 0xFFFF, 1, 3), (2, 0, 2, 0)], "A 1", 2, 5, places={3: 1, 0: 2})
    heading("tables: each refusal, and a start")
    rows = [(1, 0, 8, 2), (2, 8, 2, 0)]
    for line, told in zip(BAD, BAD_SAID):
        table_case(ended(record(0, 0, b"\1"), line, END), rows, f"{told} @2", pool=11)
    table_case(ended(record(0, 0, b"\1")), rows, "! 13 @0", pool=11)
    table_case(ended(*STARTS, END), rows, "! 21 @2", pool=11)
    table_case(ended(record(5, 0, b"\0\0\0\xcd"), END, "x"), rows, "A 0 X5 000000CD", pool=11, places={})


def of_tables_by_chance():
    heading("tables by chance")
    numbers = Numbers(12)
    for _ in range(150):
        rows = [(1 + numbers.below(2), numbers.below(16), numbers.below(5), numbers.below(12)) for _ in range(numbers.below(4))]
        if numbers.below(2):
            rows = [(whose, first, length, 5 * i) for i, (whose, first, length, _) in enumerate(rows)]
        lines = [record(0, numbers.below(16), bytes(numbers.below(256) for _ in range(numbers.below(4)))) for _ in range(numbers.below(4))]
        table_case(ended(*lines, END), rows, owner=1 + numbers.below(2), pool=15 + numbers.below(4))


def of_asks():
    heading("asks: document 01's example, before it and after it")
    ask_cases(PLACED, {0x12005: 0x77, 0x12004: None, 0x12006: None, 5: None, 0x2005: None, 0: None, 2**32 - 1: None})
    heading("asks: both ends of a segment, and the addresses beside them")
    for number in (None, 0, 0x1200, 0xF000, 0xFFFF):
        base = 16 * (number or 0)
        over = ended(*([] if number is None else [record(2, 0, number.to_bytes(2, "big"))]), OVER, END)
        ask_cases(over, {base + 0xFFFF: 0xAA, base: 0xBB, base + 0xFFFE: None, base + 1: None, base + 0x10000: None, base - 1: None})
    heading("asks: across FFFF after a type 04, and from FFFFFFFF to 0")
    for number in (0, 1, 0xF, 0xFFFF):
        base = 65536 * number
        over = ended(record(4, 0, number.to_bytes(2, "big")), OVER, END)
        ask_cases(over, {base + 0xFFFF: 0xAA, base + 0x10000: 0xBB, base + 0xFFFE: None, base + 0x10001: None, base: None})
    heading("asks: the latest of types 02 and 04 holds, and a start changes no base")
    ask_cases(ended(LINEAR, SEGMENT, ONE, END), {0x12342: 0x77, 0x10002: None, 2: None})
    ask_cases(ended(SEGMENT, LINEAR, ONE, END), {0x10002: 0x77, 0x12342: None, 2: None})
    ask_cases(ended(SEGMENT, OTHER_SEGMENT, OVER, END), {0x21FFF: 0xAA, 0x12000: 0xBB, 0x12340: None, 0x22000: None})
    ask_cases(ended(LINEAR, OTHER_LINEAR, STARTS[1], OVER, END), {0x2FFFF: 0xAA, 0x30000: 0xBB, 0x20000: None, 0x1FFFF: None})
    ask_cases(ended(LINEAR, record(2, 0, b"\0\0"), STARTS[0], OVER, END), {0xFFFF: 0xAA, 0: 0xBB, 0x10000: None, 0x1FFFF: None})
    ask_cases(ended(ONE, SEGMENT, LINEAR, END), {2: 0x77, 0x10002: None, 0x12342: None})
    heading("asks: records of 0, 1, 16 and 255 bytes, their first and last byte, and the addresses beside them")
    for n in (0, 1, 16, 255):
        held = {0x100 + i: byte for i, byte in enumerate(some_bytes(n, n))}
        near = (0xFF, 0x100, 0x100 + n - 1, 0x100 + n)
        ask_cases(ended(record(0, 0x100, some_bytes(n, n)), END), {address: held.get(address) for address in near})
    for offset in (0xFF01, 0xFF02, 0xFFFF):
        held = {(offset + i) % 65536: byte for i, byte in enumerate(some_bytes(255, 1))}
        near = (offset - 1, offset, 0xFFFF, 0, 1, 0xFD, 0xFE, 0x10000)
        ask_cases(ended(record(0, offset, some_bytes(255, 1)), END), {address: held.get(address) for address in near})


def of_asks_in_order():
    heading("asks: an address that is stated twice, the last record holds, from another base too")
    eleven, other = record(0, 0, b"\x11"), record(0, 0, b"\x22")
    low, high = record(2, 0, b"\x10\x00"), record(2, 0, b"\x10\x01")
    ask_case(ended(eleven, other, END), 0, "B 22")
    ask_case(ended(other, eleven, END), 0, "B 11")
    ask_case(ended(eleven, other, record(0, 0, b"\0"), END), 0, "B 00")
    ask_case(ended(eleven, record(0, 0, b""), END), 0, "B 11")
    ask_cases(ended(record(0, 0, b"\1\2\3\4"), record(0, 1, b"\5\6"), END), {0: 1, 1: 5, 2: 6, 3: 4, 4: None})
    ask_cases(ended(low, eleven, LINEAR, other, END), {0x10000: 0x22, 0: None})
    ask_cases(ended(LINEAR, other, low, eleven, END), {0x10000: 0x11, 0: None})
    ask_case(ended(low, record(0, 0x10, b"\x11"), high, other, END), 0x10010, "B 22")
    ask_case(ended(high, other, low, record(0, 0x10, b"\x11"), END), 0x10010, "B 11")
    ask_case(ended(OVER, eleven, END), 0, "B 11")
    ask_case(ended(eleven, OVER, END), 0, "B BB")
    ask_case(ended(eleven, record(4, 0, b"\xff\xff"), OVER, END), 0, "B BB")
    heading("asks: in the first record, in the last one, and between")
    rows = ended(*(record(0, 3 * i, bytes([i + 1])) for i in range(20)), END)
    ask_cases(rows, {0: 1, 3 * 10: 11, 3 * 19: 20, 1: None, 3 * 19 + 1: None, 3 * 20: None})
    heading("asks: the same start twice, and starts that differ")
    for start in ALL_STARTS:
        ask_case(ended(start, ONE, start.lower(), END), 2, "B 77")
    for first, second in ((FAR, NEAR), (NEAR, FAR), (FAR, FLAT), (FAR, DIGITS), (ZERO, FLAT_ZERO), (LETTERS, OTHER_LETTERS)):
        ask_case(ended(ONE, first, "", second, END), 2, "! 21 @4")
        ask_case(ended(first, ONE, second, END), 5, "! 21 @3")
    ask_case(ended(ONE, FAR, END, NEAR), 2, "B 77")
    ask_case(ended(FAR, NEAR), 2, "! 21 @2")
    ask_case(ended(FAR, FAR, FAR, NEAR, BAD[0], END), 2, "! 21 @4")
    ask_case(ended(FAR, BAD[0], NEAR, END), 2, "! 1 @2")


def of_refused_asks():
    heading("asks: without an end record, whatever was found")
    for text in ("", "\n\r\n", ONE, ended(ONE), ended(ONE, SEGMENT, LINEAR), ended(FAR, FAR)):
        for address in (2, 5):
            ask_case(text, address, "! 13 @0")
    heading("asks: each refusal from 1 to 9 with its line, at a stated address and at another")
    for line, said in zip(BAD, BAD_SAID):
        ask_case(ended(line, ONE, END), 2, f"{said} @1")
        for address in (2, 5):
            ask_case(ended("", ONE, "", line, END, end="\r\n"), address, f"{said} @4")
        ask_case(ended(ONE, LINEAR) + line, 2, f"{said} @3")
    heading("asks: a byte that was found, and then a refused line")
    for address in (0, 5):
        ask_case(":0100000011EE\n:00000001FE\n", address, "! 6 FF FE @2")
        ask_case(ended(":0100000011EE", ":G", ":00000001FE", END), address, "! 2 0001 @2")
    ask_case(ended(ONE) + END + "\r", 2, "! 2 000B @2")
    ask_case(ended(ONE, spoilt(600, 555), END), 2, "! 2 022B @2")
    ask_case(ended(ONE, spoilt(520, 520), END), 2, "! 2 0208 @2")


def of_asks_and_lines():
    heading("asks: line ends, empty lines, small letters, and a last line without LF")
    for text in (ended(ONE, END), ended(ONE, END, end="\r\n"), ended(ONE) + END, ended("", "", ONE, "", END), "\r\n" + ended(ONE) + "\r\n" + END, ended(ONE, END).lower(), ended(ONE, record(1, 0x1234, b""))):
        ask_cases(text, {2: 0x77, 5: None})
    ask_case(ended("", ONE, "", BAD[5], END), 2, "! 6 FF FE @4")
    ask_case("\n" * 300 + ended(ONE, BAD[0]), 2, "! 1 @12E")
    ask_case(ended(ONE) + "\r", 2, "! 1 @2")
    ask_case(ended(ONE) + "\r\r\n" + END, 2, "! 1 @2")
    heading("asks: what follows the end record changes nothing")
    old = ended(record(0, 2, b"\x99"), record(0, 5, b"\x98"), END)
    for tail in (old, old[1:], "\n\n" + old, "\x00" * 20, "\xff" * 20, "garbage", ":", "\r", END, *BAD, ended(FAR, NEAR), ended(LINEAR, ONE)):
        ask_case(ended(ONE, END) + tail, 2, "B 77")
    ask_cases(ended(FAR, END) + old, {2: None, 5: None})
    for tail in ("0", ":", "\r", " ", END):
        ask_case(ended(ONE) + END + tail, 2, "! 5 @2" if tail == "0" else "! 2 000B @2")


def of_asks_by_chance():
    heading("asks by chance")
    numbers = Numbers(14)
    for _ in range(38):
        lines, addresses = [], [numbers.below(2**32)]
        for _ in range(numbers.below(6)):
            kind, number = (2, 4)[numbers.below(2)], (0, 1, 0xF, 0x1000, 0xFFFF)[numbers.below(5)]
            offset, n = (numbers.below(8) - numbers.below(8)) % 65536, numbers.below(12)
            if numbers.below(2):
                lines.append(record(kind, 0, number.to_bytes(2, "big")))
            if numbers.below(12) == 0:
                lines.append((*STARTS, *BAD)[numbers.below(11)])
            lines.append(record(0, offset, bytes(numbers.below(256) for _ in range(n))))
            addresses.append(address_of((f"X{kind}", number), offset, numbers.below(12)))
        ask_case(ended(*lines, *([END] if numbers.below(16) else [])), addresses[numbers.below(len(addresses))])


def count_of(number, places=(0, 1), more=()):
    """A dump that states a count at these offsets, its high byte first, and then these records."""
    return ended(*(record(0, place, bytes([byte])) for place, byte in zip(places, divmod(number, 256))), *more, END)


def counts_of(*numbers, places=(0, 1)):
    return [count_of(number, places) for number in numbers]


def of_lights():
    heading("lights: set-up, places inside and outside")
    for length, *places in ((0, 0, 0), (1, 1, 0), (1, 0, 1), (8, 8, 0), (8, 0, 8), (8, 8, 8), (8, 9, 7), (65536, 65536, 0), (65536, 0, 65536)):
        light_case([ended(END)], "! 24", places, length=length)
    light_case(counts_of(5), "! 24", (0x12000, 0x12001), 0x12000, 8)
    for places in ((2**32, 1), (0, 2**32 + 1), (2**63, 2**63), (TOP, TOP)):
        light_case(counts_of(5), "! 24", places)
    light_case(counts_of(5), "! 24", (4, 4), page=5, marks=9)
    light_case(counts_of(5), "! 24", (2, 0), 2**32 - 1, 2)
    light_case(["", "x"], "! 24", (0, 4))
    heading("lights: set-up with the last place, and with any window")
    light_case([count_of(0x1234, (7, 6))], "first 1234 A 2", (7, 6), length=8, holds={7: 0x12, 6: 0x34}, marked={6, 7})
    light_case([count_of(0x0101, (0, 0))], "first 0101 A 2", (0, 0), length=1, holds={0: 1}, marked={0})
    light_case(counts_of(5, 6), "broken - ! 16 @0; broken - ! 16 @0", first=2**32 - 1, length=2)
    light_case(counts_of(5, 6), "broken - ! 16 @0; broken - ! 16 @0", length=2**32, page=4)
    light_case(counts_of(5), "broken - ! 16 @0", (TOP - 1, TOP - 1), 2**32 - 1, TOP, page=4)
    light_case([""], "broken - ! 16 @0", first=2**32 - 3)


# What a light can show.
COLORS = "broken", "no-count", "first", "green", "stale", "restarted"
# The color of a count by how far it moved.
MOVED = {0: "stale", 1: "green", 256: "green", 32767: "green", 32768: "restarted", 32769: "restarted", 65535: "restarted"}


def of_moved_counts():
    heading("lights: the count moved by 0, 1, 256, 32,767, 32,768, 32,769 and 65,535, from both ends and from the middle")
    for known in (0, 0x00FF, 0x7FFF, 0x8000, 0xFFFF):
        for step, color in MOVED.items():
            count = (known + step) % 65536
            holds = {0: count // 256, 1: count % 256}
            light_case(counts_of(known, count), f"first {known:04X} A 2; {color} {count:04X} A 2", holds=holds, marked={0, 1})
    heading("lights: the first count, whatever it is, and all colors in a row")
    for count in (0, 1, 256, 0x8000, 0xCCCC, 0xFFFF):
        light_case(counts_of(count), f"first {count:04X} A 2", holds={0: count // 256, 1: count % 256}, marked={0, 1})
    light_case([*counts_of(5), "", ended(END), *counts_of(6, 6, 5)],
               "first 0005 A 2; broken 0005 ! 13 @0; no-count 0005 A 0; green 0006 A 2; stale 0006 A 2; restarted 0005 A 2", holds={0: 0, 1: 5}, marked={0, 1})


def of_known_counts():
    five, none = count_of(5), ended(END)
    heading("lights: what forgets the count: neither a dump without it nor a broken one, and a restart remembers")
    light_case([five, none, five], "first 0005 A 2; no-count 0005 A 0; stale 0005 A 2", holds={0: 0, 1: 5}, marked={0, 1})
    light_case([five, "x", count_of(6)], "first 0005 A 2; broken 0005 ! 1 @1; green 0006 A 2", holds={0: 0, 1: 6}, marked={0, 1})
    light_case(counts_of(5, 4, 4), "first 0005 A 2; restarted 0004 A 2; stale 0004 A 2", holds={0: 0, 1: 4}, marked={0, 1})
    light_case(counts_of(5, 4, 5), "first 0005 A 2; restarted 0004 A 2; green 0005 A 2", holds={0: 0, 1: 5}, marked={0, 1})
    light_case([five, none], "first 0005 A 2; no-count 0005 A 0", holds={0: 0, 1: 5}, marked=())
    light_case([five, "x"], "first 0005 A 2; broken 0005 ! 1 @1", holds={0: 0, 1: 5}, marked={0, 1})
    light_case([five, none, "x", none, "x", five], "first 0005 A 2; no-count 0005 A 0; broken 0005 ! 1 @1; no-count 0005 A 0; broken 0005 ! 1 @1; stale 0005 A 2")
    light_case([five, none, "x", none, count_of(4)], "first 0005 A 2; no-count 0005 A 0; broken 0005 ! 1 @1; no-count 0005 A 0; restarted 0004 A 2")
    heading("lights: nothing is known before the first count")
    light_case([none], "no-count - A 0", holds={}, marked=())
    light_case(["x"], "broken - ! 1 @1")
    light_case([none, none, five], "no-count - A 0; no-count - A 0; first 0005 A 2", holds={0: 0, 1: 5}, marked={0, 1})
    light_case(["x", "x", count_of(0xFFFF)], "broken - ! 1 @1; broken - ! 1 @1; first FFFF A 2", holds={0: 0xFF, 1: 0xFF}, marked={0, 1})
    light_case(["x", none, "x", *counts_of(0, 0)], "broken - ! 1 @1; no-count - A 0; broken - ! 1 @1; first 0000 A 2; stale 0000 A 2", holds={0: 0, 1: 0}, marked={0, 1})
    heading("lights: the same dump twice is never green the second time")
    half, whole = ended(record(0, 0, b"\1"), END), ended(record(0, 0, b"\0\1\2\3"), STARTS[1], END)
    for dump, once, twice in ((five, "green 0005 A 2", "stale 0005 A 2"), (none, "no-count FFFE A 0", "no-count FFFE A 0"), ("x", "broken FFFE ! 1 @1", "broken FFFE ! 1 @1"),
                              (half, "no-count FFFE A 1", "no-count FFFE A 1"), (whole, f"green 0001 A 1 {STARTS_SAID[1]}", f"stale 0001 A 1 {STARTS_SAID[1]}"),
                              (count_of(0xFFFD), "restarted FFFD A 2", "stale FFFD A 2")):
        light_case([count_of(0xFFFE), dump, dump], f"first FFFE A 2; {once}; {twice}")
        light_case([dump, dump], f"{once}; {twice}".replace("green", "first").replace("restarted", "first").replace("FFFE", "-"))
    heading("lights: empty texts, before, between and after others")
    light_case([""], "broken - ! 13 @0")
    light_case(["", five, "", "", five, ""],
               "broken - ! 13 @0; first 0005 A 2; broken 0005 ! 13 @0; broken 0005 ! 13 @0; stale 0005 A 2; broken 0005 ! 13 @0", holds={0: 0, 1: 5}, marked={0, 1})


def of_broken_dumps():
    heading("lights: each refusal between two counts, and the page as the dump before left it")
    known = {0: 0, 1: 5}
    for line, said in zip(BAD, BAD_SAID):
        bad = ended(record(0, 0, b"\1\2"), line, END)
        told = f"broken - {said} @2; first 0005 A 2; broken 0005 {said} @2; green 0006 A 2; broken 0006 {said} @2"
        light_case([bad, count_of(5), bad, count_of(6), bad], told, holds={0: 0, 1: 6}, marked={0, 1})
        light_case([count_of(5) + line, count_of(6) + line], "first 0005 A 2; green 0006 A 2", holds={0: 0, 1: 6}, marked={0, 1})
    for text, said in ((ended(record(0, 0, b"\1\2")), "! 13 @0"), (ended(record(0, 0, b"\1\2\3\4\5"), END), "! 17 00000004 @1"),
                       (count_of(6, more=[*STARTS]), "! 21 @4"), (count_of(6, more=[LINEAR, ONE]), "! 17 00010002 @4")):
        light_case([count_of(5), text], f"first 0005 A 2; broken 0005 {said}", holds=known, marked={0, 1})
        light_case([text, count_of(5), text, count_of(5)], f"broken - {said}; first 0005 A 2; broken 0005 {said}; stale 0005 A 2", holds=known, marked={0, 1})
    heading("lights: a page of another length, and marks of another length")
    for length, pages in ((4, (0, 1, 3, 5, 8, 65536)), (8, (7, 9)), (65536, (0, 65535, 65537)), (65537, (65536, 65537))):
        for page in pages:
            light_case(counts_of(5), "broken - ! 16 @0", length=length, page=page)
    for length, sizes in ((4, (0, 2, 4)), (8, (0, 2, 8)), (9, (1, 3)), (65536, (8191, 8193, 65536))):
        for marks in sizes:
            light_case([count_of(5), "x"], "broken - ! 16 @0; broken - ! 16 @0", length=length, marks=marks)
    light_case(counts_of(5, 6), "first 0005 A 2; green 0006 A 2", length=65536, holds={0: 0, 1: 6}, marked={0, 1})
    light_case([count_of(5, (0xFFFF, 0)), "", count_of(6, (0xFFFF, 0))], "first 0005 A 2; broken 0005 ! 13 @0; green 0006 A 2", (0xFFFF, 0), length=65536,
               holds={0xFFFF: 0, 0: 6}, marked={0xFFFF, 0})


def of_stated_counts():
    high, low = record(0, 0, b"\0"), record(0, 1, b"\5")
    heading("lights: one place marked, whatever the page holds from before")
    for place, held in ((0, {0: 7, 1: 5}), (1, {0: 0, 1: 7})):
        half = ended(record(0, place, b"\7"), END)
        light_case([half], "no-count - A 1", holds={place: 7}, marked={place})
        light_case([count_of(5), half], "first 0005 A 2; no-count 0005 A 1", holds=held, marked={place})
        light_case([count_of(5), half, half, count_of(6)], "first 0005 A 2; no-count 0005 A 1; no-count 0005 A 1; green 0006 A 2", holds={0: 0, 1: 6}, marked={0, 1})
    light_case([ended(high, END), ended(low, END), ended(high, low, END)], "no-count - A 1; no-count - A 1; first 0005 A 2", holds={0: 0, 1: 5}, marked={0, 1})
    light_case([count_of(5), ended(record(0, 2, b"\7\7"), END)], "first 0005 A 2; no-count 0005 A 1", holds={0: 0, 1: 5, 2: 7, 3: 7}, marked={2, 3})
    light_case([ended(record(0, 0, b""), record(0, 1, b""), END)], "no-count - A 2", holds={}, marked=())
    heading("lights: a count after the end record, stated twice, and in any order of its bytes")
    light_case([ended(END, high, low)], "no-count - A 0", holds={}, marked=())
    light_case([ended(high, END, low), count_of(5) + count_of(9)], "no-count - A 1; first 0005 A 2", holds={0: 0, 1: 5}, marked={0, 1})
    light_case([ended(high, low, record(0, 0, b"\1\6"), END), count_of(0x0106)], "first 0106 A 3; stale 0106 A 2", holds={0: 1, 1: 6}, marked={0, 1})
    light_case([ended(record(0, 0, b"\1\6"), low, END), count_of(0x0105)], "first 0105 A 2; stale 0105 A 2", holds={0: 1, 1: 5}, marked={0, 1})
    light_case([ended(low, high, END), ended(record(0, 0, b"\0\5"), END)], "first 0005 A 2; stale 0005 A 1", holds={0: 0, 1: 5}, marked={0, 1})
    light_case([ended(high, SEGMENT, record(4, 0, b"\0\0"), low, END)], "first 0005 A 2", holds={0: 0, 1: 5}, marked={0, 1})
    light_case([ended(OTHER_SEGMENT, high, record(2, 0, b"\x11\xff"), record(0, 0x11, b"\5"), END)], "first 0005 A 2", first=0x12000, holds={0: 0, 1: 5}, marked={0, 1})
    heading("lights: line ends, empty lines, small letters, a last line without LF, and starts")
    whole = ended(record(0, 0, b"\xab\xcd"), END)
    for text in (whole, whole.lower(), whole[:-1], whole.replace("\n", "\r\n"), "\n\r\n" + whole.replace("\n", "\n\n"), whole + "garbage"):
        light_case([text, count_of(0xABCE)], "first ABCD A 1; green ABCE A 2", holds={0: 0xAB, 1: 0xCE}, marked={0, 1})
    for start, said in zip(STARTS, STARTS_SAID):
        light_case([count_of(5, more=[start, start]), ended(start, END)], f"first 0005 A 2 {said}; no-count 0005 A 0 {said}", holds={0: 0, 1: 5}, marked=())


def of_places_of_counts():
    heading("lights: equal places, and the low byte before the high one")
    ones = [ended(record(0, 1, bytes([b])), END) for b in (5, 5, 6, 5)]
    light_case(ones, "first 0505 A 1; stale 0505 A 1; green 0606 A 1; restarted 0505 A 1", (1, 1), holds={1: 5}, marked={1})
    light_case([ended(record(0, 0, b"\xff"), END), ended(record(0, 0, b"\0"), END)], "first FFFF A 1; green 0000 A 1", (0, 0), length=1, holds={0: 0}, marked={0})
    light_case([ended(record(0, 0, b"\5"), END)], "no-count - A 1", (1, 1), holds={0: 5}, marked={0})
    twos = [ended(record(0, 0, bytes([b, 5])), END) for b in (0, 1)]
    light_case(twos, "first 0500 A 1; green 0501 A 1", (1, 0), holds={0: 1, 1: 5}, marked={0, 1})
    light_case(twos, "first 0005 A 1; green 0105 A 1", (0, 1), holds={0: 1, 1: 5}, marked={0, 1})
    light_case([ended(record(0, 0, some_bytes(8, 1)), END)], "first 1D08 A 1", (4, 1), length=8, holds=dict(enumerate(some_bytes(8, 1))), marked=range(8))
    heading("lights: places beside the bytes of the marks, and at both ends of a page")
    for length, one, two in ((9, 7, 8), (9, 8, 7), (9, 0, 8), (17, 15, 16), (17, 16, 8), (24, 23, 0), (65529, 65528, 65527), (65536, 0, 65535), (65536, 65535, 65528)):
        places = one, two
        light_case(counts_of(0x12FF, 0x1300, places=places), "first 12FF A 2; green 1300 A 2", places, length=length, holds={one: 0x13, two: 0}, marked={one, two})
        halves = [ended(record(0, place, b"\7"), END) for place in places]
        light_case([count_of(5, places), *halves], "first 0005 A 2; no-count 0005 A 1; no-count 0005 A 1", places, length=length, holds={one: 7, two: 7}, marked={two})
    light_case([ended(record(0, 0, some_bytes(16, 1)), END)], "no-count - A 1", (15, 16), length=17, holds=dict(enumerate(some_bytes(16, 1))), marked=range(16))
    heading("lights: windows away from 0, and at the top of the addresses")
    light_case([PLACED.replace(END, record(0, 6, b"\1") + "\n" + END)], "first 7701 A 2", (5, 6), 0x12000, 8, holds={5: 0x77, 6: 1}, marked={5, 6})
    light_case(counts_of(5), "broken - ! 17 00000000 @1", first=1)
    top = record(4, 0, b"\xff\xff")
    for first, length in ((2**32 - 2, 2), (2**32 - 8, 8), (2**32 - 65536, 65536)):
        places = length - 2, length - 1
        dumps = [ended(top, record(0, 0xFFFE, bytes([b, 9])), END) for b in (0, 1)]
        told, held = "first 0009 A 1; green 0109 A 1", {places[0]: 1, places[1]: 9}
        light_case(dumps, told, places, first, length, holds=held, marked=places)
        light_case([*dumps, ended(top, OVER, END)], f"{told}; broken 0109 ! 17 00000000 @2", places, first, length, holds=held, marked=places)


def some_count(numbers, known):
    """A count beside one that is known, or any."""
    return (known + (0, 1, 2, 256, 32767, 32768, 65535, numbers.below(65536))[numbers.below(8)]) % 65536


def some_dump(numbers, count, places, length):
    """A dump with this count, in most cases, and other bytes."""
    lines = [record(0, place, bytes([byte])) for place, byte in zip(places, divmod(count, 256)) if numbers.below(8)]
    if numbers.below(4) == 0:
        lines.append(record(0, numbers.below(length), bytes([numbers.below(256)])))
    if numbers.below(12) == 0:
        lines.append((*STARTS, ONE, LINEAR, *BAD)[numbers.below(13)])
    return ended(*lines[::1 - 2 * numbers.below(2)], *([END] if numbers.below(12) else []))


def of_lights_by_chance():
    heading("lights by chance")
    numbers = Numbers(32)
    for _ in range(40):
        length, first = 2 + numbers.below(16), (0, 0, 0, 1)[numbers.below(4)]
        places = numbers.below(length), numbers.below(length + (numbers.below(8) == 0))
        dumps, count = [], numbers.below(65536)
        for _ in range(1 + numbers.below(8)):
            count = some_count(numbers, count)
            dumps.append(some_dump(numbers, count, places, length))
        light_case(dumps, None, places, first, length)
    heading("lights: long rows")
    rising = [ended(record(0, 0, bytes([0, i])), END)[:-1] for i in range(70)]
    light_case(rising, "; ".join(["first 0000 A 1", *(f"green {i:04X} A 1" for i in range(1, 70))]), holds={0: 0, 1: 69}, marked={0, 1})
    light_case([END] * 150, "; ".join(["no-count - A 0"] * 150), holds={}, marked=())
    light_case(["", *["0"] * 1300], "; ".join(["broken - ! 13 @0", *["broken - ! 1 @1"] * 1300]))
    for _ in range(7):
        dumps, count = [], numbers.below(65536)
        for _ in range(70):
            count = some_count(numbers, count)
            text = ended(record(0, 0, count.to_bytes(2, "big")), END)[:-1]
            dumps.append((END, "", text[1:], text[:16], text, text, text, text)[numbers.below(8)])
        light_case(dumps)


def of_chance_again():
    numbers = Numbers(2026)
    texts = []
    heading("objects by chance")
    for _ in range(60):
        pool = bytes(numbers.below(256) for _ in range(numbers.below(48)))
        records = []
        for _ in range(numbers.below(7)):
            kind = (0, 0, 0, 2, 3, 4, 5, 1 if numbers.below(4) == 0 else 0)[numbers.below(8)]
            n = numbers.below(min(len(pool), 16) + 1)
            at = numbers.below(len(pool) - n + (2 if numbers.below(4) == 0 else 1))
            number = numbers.below(3) if kind in (2, 4) else numbers.below(64) if kind == 0 else numbers.below(2**16) * (1 if kind == 3 else 2**16 + 1)
            records.append(END_RECORD if kind == 1 else data(number, at, n) if kind == 0 else (kind, number, numbers.below(2**16), 0, 0))
        if numbers.below(8):
            records.append(END_RECORD)
        text = object_case(records, None, pool, out=numbers.below(8) * 16 + 100)
        if text:
            texts.append(text)
    heading("the same objects read again and loaded")
    for text in texts:
        text_case(text, pool=16)
        load_case(text, first=numbers.below(8), page=numbers.below(100))
        load_case(text, first=0, page=128)
        load_case(text, first=0, page=65536)
        load_case(text, first=0xFFF0, page=64)
    heading("the same with line ends mixed, lines emptied, and one to three characters changed, dropped or doubled")
    for text in texts * 2:
        text = "".join(line + ("\n", "\r\n", "\n\n", "\r\r\n" if numbers.below(4) == 0 else "\n")[numbers.below(4)] for line in text.decode("ascii").split("\n")[:-1])
        for _ in range(numbers.below(4)):
            at = numbers.below(len(text))
            new = "0123456789abcdefABCDEF:gG \r\n\x00\xff"[numbers.below(30)]
            text = text[:at] + ("", text[at] * 2, new, new + text[at])[numbers.below(4)] + text[at + 1:]
        text_case(text, flags=numbers.below(4), pool=(16, 8)[numbers.below(2)])
        load_case(text, first=0, page=(128, 65536)[numbers.below(2)])


def make_all():
    of_document_01()
    of_the_checksum()
    of_the_digits()
    of_other_bytes()
    of_the_order()
    of_places()
    of_the_fields()
    of_the_pool()
    of_chance()
    of_the_stops()
    of_line_ends()
    of_places_in_texts()
    of_rows_of_answers()
    of_first_answers()
    of_short_texts()
    of_one_record()
    of_objects()
    of_refused_payloads()
    of_addresses()
    of_segments()
    of_inside_again()
    of_wraps()
    of_wraps_behind_starts()
    of_windows()
    of_packed_marks()
    of_records_half_inside()
    of_bases()
    of_starts()
    of_records_over_one_another()
    of_refused_loads()
    of_places_in_loads()
    of_the_incident()
    of_chance_again()
    of_tables()
    of_walks_through_tables()
    of_tables_by_chance()
    of_asks()
    of_asks_in_order()
    of_refused_asks()
    of_asks_and_lines()
    of_asks_by_chance()
    of_lights()
    of_moved_counts()
    of_known_counts()
    of_broken_dumps()
    of_stated_counts()
    of_places_of_counts()
    of_lights_by_chance()


def said_in(case, answer):
    """The answers in an answer, without the buffers; of a dump also what its load answers."""
    for part in answer.split("; "):
        said = part.split(" |")[0]
        yield said
        if case.startswith("K") and not said.startswith("!"):
            yield said.split(" ", 2)[2]


def hold_to_every_answer():
    """Each form has a case for each answer that it can be given, and no case is too long for `replay`."""
    told = {c[0]: set() for c in cases}
    for c, a in zip(cases, answers):
        assert len(c) <= 4096, f"a case is too long: {c}"
        told[c[0]].update(said_in(c, a))
    kinds = ["D", "E", "X2", "X3", "X4", "X5"]
    for form, wanted in (("L", [*kinds, *range(1, 11)]), ("T", [*kinds, "done", *range(1, 11)]), ("W", ["W", 11, 12, 15]),
                         ("O", ["W", *range(11, 16)]), ("M", ["A", *range(1, 10), 13, 16, 17, 21]),
                         ("N", ["A", *range(1, 10), 13, 17, 21, 23]), ("Q", ["B", "none", *range(1, 10), 13, 21]),
                         ("K", [*COLORS, "A", *range(1, 10), 13, 16, 17, 21, 24])):
        for w in (f"! {w}" if isinstance(w, int) else w for w in wanted):
            assert any(t == w or t.startswith(w + " ") for t in told[form]), f"no case {form} is answered {w}"


def store(name, text):
    """Writes the text to the file of that name; with --check, holds the file to it."""
    path = FOLDER / name
    if "--check" not in sys.argv[1:]:
        path.write_text(text, encoding="ascii")
    elif not path.exists() or path.read_bytes() != text.encode("ascii"):
        sys.exit(f"crates/replay/{name} is not what tests/make_cases.py makes")


def main():
    make_all()
    hold_to_every_answer()
    size = 0
    for name, rows in (("stdin", cases), ("stdout", answers)):
        text = "\n".join(rows) + "\n"
        size += len(text)
        store(name, text)
    number = sum(not c.startswith("#") for c in cases)
    forms = ", ".join(f"{sum(c.startswith(form) for c in cases)} {form}" for form in "CLTWOMNQK")
    print(f"{number} cases ({forms}), {size} bytes in the two files")


main()
