"""A model of the record reader of documents 01 and 02, of packed marks, of a salvage, of an ask and of a light, which shares nothing with the port."""
import re


def checksum(data):
    return -sum(data) % 256


def record(kind, address, payload, length=None, check=None):
    """The line of a record in capitals; length byte and checksum as given, else the right ones."""
    body = bytes([len(payload) if length is None else length, address >> 8, address & 255, kind]) + bytes(payload)
    return ":" + (body + bytes([checksum(body) if check is None else check])).hex().upper()


def read(line):
    """The refusal of a line, told with its numbers, and None; or None, and the record's type, address and payload."""
    if line[:1] != b":":
        return "! 1", None
    digits = line[1:]
    place = 1 + len(re.match(rb"[0-9A-Fa-f]*", digits).group())
    if place < len(line):
        return f"! 2 {min(place, 65535):04X}", None
    if len(digits) < 10:
        return "! 3", None
    if len(digits) > 520:
        return "! 4", None
    if len(digits) % 2 == 1:
        return "! 5", None
    *body, stated = bytes.fromhex(digits.decode("ascii"))
    computed = checksum(body)
    if computed != stated:
        return f"! 6 {computed:02X} {stated:02X}", None
    length, high, low, kind, *payload = body
    if length != len(payload):
        return "! 7", None
    if kind > 5:
        return f"! 8 {kind:02X}", None
    if kind != 0 and len(payload) != {1: 0, 2: 2, 3: 4, 4: 2, 5: 4}[kind]:
        return "! 9", None
    return None, (kind, high * 256 + low, bytes(payload))


def told_other(kind, payload):
    """What is told of a record that is no data record."""
    return "E" if kind == 1 else f"X{kind} {payload.hex().upper()}"


def lines_of(text):
    """The lines of a text, without their ends: cut at each LF, with one CR directly before it dropped. A last line without
    LF counts if it has a byte."""
    *ended, last = text.split(b"\n")
    rows = [line[:-1] if line.endswith(b"\r") else line for line in ended]
    return rows + [last] if last else rows


def packed(marked):
    """The marks of places, given whether each is marked: place p is bit p modulo 8 of byte p / 8, lowest bit first."""
    return bytes(sum(1 << i for i, on in enumerate(marked[at:at + 8]) if on) for at in range(0, len(marked), 8))


def unpacked(marks, places):
    """For each of so many places whether it is marked, 1 or 0."""
    return bytes(marks[p // 8] >> p % 8 & 1 for p in range(places))


def entry(line):
    """What document 01 has printed for a line."""
    refusal, given = read(line)
    if refusal is not None:
        return refusal.encode()
    kind, address, payload = given
    told = told_other(kind, payload) if kind else "D %04X %s" % (address, payload.hex().upper())
    return told.rstrip().encode()


def listing(text):
    """The listing of a text of any length."""
    out = []
    for line in lines_of(text):
        if line:
            out.append(entry(line))
            if out[-1] == b"E":
                break
    return b"".join(line + b"\n" for line in [b"records"] + out + [b"%d answers" % len(out)])


def salvaged(text):
    """What can be saved of a text: the clean file, and for each line that was dropped its number and its refusal, which is None where the
    base is unknown. An end record that was added has the number 0 and refusal 13."""
    kept, dropped, known = [], [], True
    for number, line in enumerate(lines_of(text), 1):
        if not line:
            continue
        refusal, given = read(line)
        if refusal is not None:
            dropped.append((number, refusal))
            known = False
            continue
        kind, address, payload = given
        if kind == 0 and not known:
            dropped.append((number, None))
            continue
        kept.append(record(kind, address if kind == 0 else 0, payload))
        known = known or kind in (2, 4)
        if kind == 1:
            break
    else:
        kept.append(record(1, 0, b""))
        dropped.append((0, "! 13"))
    return "".join(line + "\n" for line in kept).encode(), dropped


def asked(text, address):
    """What a text states at an address: `B` and the byte, which is that of the last record with the address, `none`, or a refusal with its line."""
    linear, base, start, found = False, 0, None, "none"
    for number, line in enumerate(lines_of(text), 1):
        if not line:
            continue
        refusal, given = read(line)
        if refusal is not None:
            return f"{refusal} @{number:X}"
        kind, offset, payload = given
        if kind == 1:
            return found
        if kind in (2, 4):
            linear, base = kind == 4, int.from_bytes(payload, "big") * {2: 16, 4: 65536}[kind]
        if kind in (3, 5):
            if start not in (None, (kind, payload)):
                return f"! 21 @{number:X}"
            start = kind, payload
        for i, byte in enumerate(payload if kind == 0 else b""):
            if address == ((base + offset + i) % 2**32 if linear else base + (offset + i) % 65536):
                found = f"B {byte:02X}"
    return "! 13 @0"


def lit(history, high, low):
    """What a light shows after a row of dumps, and the count that is known then, by the whole row. A dump is None if it was refused, and
    otherwise the byte that it states at each place."""
    last = history[-1]
    counts = [256 * dump[high] + dump[low] for dump in history if dump is not None and high in dump and low in dump]
    known = counts[-1] if counts else None
    if last is None:
        return "broken", known
    if high not in last or low not in last:
        return "no-count", known
    if len(counts) == 1:
        return "first", known
    moved = (counts[-1] - counts[-2]) % 65536
    return "stale" if moved == 0 else "green" if moved < 32768 else "restarted", known
