#!/usr/bin/env python3
"""The tables of the bench, from the driver run under a counter of instructions.

    tables.py PART MACHINE RUSTC CC DRIVER COUNTER..

PART is all, or one of growth, chunks, fed, tables and asks, for that table alone. With all of them the last lines say
for each bar whether it is met.
"""
import itertools
import re
import subprocess
import sys

PART, MACHINE, RUSTC, CC, DRIVER, *COUNTER = sys.argv[1:]
# Records of 16 bytes, which fill a page, and records of the other sizes.
FULL, SOME = 4096, 1024
# Records at 1, 2, 4 and 8 times the size.
SIZES = (512, 1024, 2048, 4096)
ALL = ("crate", "face", "port", "floor")
WORK = {
    "record": "read a record",
    "text": "read a text",
    "line": "write a record",
    "object": "write an object",
    "load": "load a full page",
}
# Each work with the sizes of payload that it is measured at.
CASES = [(what, size) for what in WORK if what != "load" for size in (16, 32, 255)] + [("load", 16)]
# How many bytes a chunk has where the text comes in chunks, and from which size on the bar holds.
CHUNKS = (1, 7, 64, 512, 4096)
LARGE = 512
# The same where a load is fed.
FEEDS = (64, 512, 4096)
# Loads by where the records lie.
LOADS = {
    "load": "no extension record",
    "segment": "after a type 02",
    "linear": "after a type 04",
    "across": "each across the end of segment 0",
}
# Loads of a full pool through a table, by how many windows it has. The last two say what the sixteenth costs.
WINDOWS = (1, 2, 15, 16)
# Tables by which of their windows fill the pool.
TABLES = {"table": "all together", "last": "the last alone"}
# Captures that are saved, by what is dropped of them.
CAPTURES = {"salvage": "nothing", "noisy": "all, after a first line that is refused"}
# Texts that are asked for a byte, by which of their records state it: the work of asking, that of reading the same text, and the address, from
# the size of a payload.
ASKS = {
    "the last": ("ask", "text", lambda size: size * FULL - 1),
    "none": ("ask", "text", lambda size: 2**32 - 1),
    "every one": ("every", "alike", lambda size: size),
}
ASK_SIZES = (16, 1)
# Pages by which of their places are marked: the multiples of a number.
PLACES = 16 * FULL
PAGES = {1: "all", 2: "every second", PLACES: "one"}
# Works on S-records, with the same work on Intel HEX.
SRECORDS = {"srecord": "record", "srecords": "load"}
# The types of data with the shortest address, and the longest.
KINDS = (1, 3)
# What a load of a full page took a record, with a byte for each mark.
BYTE_MARKS = 1597
REPETITIONS = 2


def records_of(size):
    return FULL if size == 16 else SOME


def output(command):
    done = subprocess.run(command, capture_output=True, text=True, check=True)
    return done.stdout, done.stderr


def words(who, what, size, records, repetitions, *more):
    return [who, what] + [str(n) for n in (size, records, repetitions, *more)]


def total(who, what, size, records, repetitions, *more):
    """Instructions of the whole program, and the number that comes from its results."""
    out, err = output(COUNTER + [DRIVER] + words(who, what, size, records, repetitions, *more))
    found = re.search(r"(?:Collected : |instructions )(\d+)", err)
    return int(found[1]), out.split()[0]


def instructions(who, what, size, records, *more):
    """Instructions a record, and the number that comes from the results."""
    none, _ = total(who, what, size, records, 0, *more)
    some, result = total(who, what, size, records, REPETITIONS, *more)
    return (some - none) / REPETITIONS / records, result


def nanoseconds(who, what, size, records):
    """The best of seven runs, a record."""
    runs = [output([DRIVER] + words(who, what, size, records, 10))[0] for _ in range(7)]
    return min(int(run.split()[1]) for run in runs) / 10 / records


def table(head, rows):
    print("| " + " | ".join(head) + " |")
    print("|" + "---|" * len(head))
    for row in rows:
        print("| " + " | ".join(row) + " |")
    print()


def whole(x):
    return f"{x:,.0f}"


def shown(x):
    """A multiple with two digits after the point, a percentage, which is over 4, with one."""
    return f"{x:.2f}" if x < 4 else f"{x:.1f}"


def measured():
    """Who is measured: the crate only where its source is at hand."""
    given, _ = output([DRIVER] + words("crate", "record", 16, 1, 1))
    if given.strip() != "not at hand":
        return list(ALL)
    print("The source of the crate ihex is not at hand: it was not measured.\n")
    return [one for one in ALL if one != "crate"]


def counted(who):
    """Instructions a record, by who, what and size; all must come to the same results."""
    count = {}
    for what, size in CASES:
        results = set()
        for one in who:
            count[one, what, size], result = instructions(one, what, size, records_of(size))
            results.add(result)
        if len(results) != 1:
            sys.exit(f"{what} {size}: the results differ, {results}")
    return count


def show_instructions(who, count):
    print(f"By `rust/bench/run`, on {MACHINE}, with {RUSTC} at opt-level 3 and {CC} at -O3.\n")
    print(f"Instructions a record, of {FULL:,} records of 16 bytes and {SOME:,} of the others:\n")
    with_crate = "crate" in who
    rows = []
    for what, size in CASES:
        row = [WORK[what], str(size)] + [whole(count[one, what, size]) for one in who]
        if with_crate:
            row.append(f"{100 * count['port', what, size] / count['crate', what, size]:.1f} %")
        rows.append(row)
    table(["Work", "Payload"] + who + (["port : crate"] if with_crate else []), rows)


def show_times(who):
    print("Nanoseconds a record, the best of seven runs of ten repetitions:\n")
    rows = []
    for what, size in CASES:
        times = [f"{nanoseconds(one, what, size, records_of(size)):.1f}" for one in who]
        rows.append([WORK[what], str(size)] + times)
    table(["Work", "Payload"] + who, rows)


def show_growth():
    print("Instructions a record of 16 bytes at 1, 2, 4 and 8 times the size, of the port:\n")
    rows = []
    for what in ("text", "object", "load"):
        grown = [instructions("port", what, 16, records)[0] for records in SIZES]
        rows.append([WORK[what]] + [f"{n:,.1f}" for n in grown])
    table(["Work"] + [f"{records:,} records" for records in SIZES], rows)


def show_loads(reading):
    print(f"Instructions a record of 16 bytes, of a load of {FULL:,}, of the port:\n")
    found = {what: instructions("port", what, 16, FULL) for what in LOADS}
    if len({result for _, result in found.values()}) != 1:
        sys.exit(f"loads: the results differ, {found}")
    rows = [[LOADS[what], whole(n), f"{n / reading:.2f}"] for what, (n, _) in found.items()]
    table(["Records", "Instructions", "times reading the text"], rows)
    return max(n for n, _ in found.values())


def show_captures(reading):
    """Shows what it costs to save a capture, and returns the dearest."""
    print(f"Instructions a record of 16 bytes, of a capture of {FULL:,} that is saved:\n")
    rows, dearest = [], 0
    for what, dropped in CAPTURES.items():
        found = {one: instructions(one, what, 16, FULL) for one in ("face", "port")}
        if len({result for _, result in found.values()}) != 1:
            sys.exit(f"captures, dropped {dropped}: the results differ, {found}")
        port = found["port"][0]
        dearest = max(dearest, port)
        rows.append([dropped] + [whole(n) for n, _ in found.values()] + [f"{port / reading:.2f}"])
    table(["Dropped", "face", "port", "port, times reading the text"], rows)
    return dearest


def show_asks():
    """Shows what it costs to ask for a byte, and returns the dearest as a multiple of reading the same text."""
    print(f"Instructions a record, of a text of {FULL:,} that is asked for a byte:\n")
    rows, dearest = [], 0
    for size, (stated, (what, read, address)) in itertools.product(ASK_SIZES, ASKS.items()):
        found = {one: instructions(one, what, size, FULL, address(size)) for one in ("face", "port")}
        if len({result for _, result in found.values()}) != 1:
            sys.exit(f"asks, stated by {stated}: the results differ, {found}")
        reading, _ = instructions("port", read, size, FULL)
        multiple = found["port"][0] / reading
        dearest = max(dearest, multiple)
        rows.append([stated, str(size)] + [whole(n) for n, _ in found.values()] + [whole(reading), f"{multiple:.2f}"])
    table(["Records that state the byte", "Payload", "face", "port", "port, reading the text", "asking : reading"], rows)
    return dearest


def show_tables():
    """Shows what a load through a table costs beside the loader of one window, and returns that of one window as a multiple."""
    loader, result = instructions("port", "load", 16, FULL)
    print(f"Instructions of a load of a full pool through a table, of {FULL:,} records of 16 bytes; the loader of one window takes {whole(loader)} a record:\n")
    rows, port = [], {}
    for what, filled in TABLES.items():
        for windows in WINDOWS:
            if what == "last" and windows == 1:
                continue
            found = {one: instructions(one, what, 16, FULL, windows) for one in ("face", "port")}
            if {other for _, other in found.values()} != {result}:
                sys.exit(f"tables, {windows} windows: the results differ, {found}, {result}")
            n = port[what, windows] = found["port"][0]
            rows.append([str(windows), filled] + [whole(n) for n, _ in found.values()] + [f"{n / 16:.1f}", f"{n / loader:.2f}"])
    table(["Windows", "What fills the pool", "face, a record", "port, a record", "port, a byte", "times the loader of one window"], rows)
    few, most = WINDOWS[-2:]
    for what, filled in TABLES.items():
        print(f"Window {most} costs {port[what, most] - port[what, few]:.1f} instructions a record. (What fills the pool: {filled}.)")
    print()
    return port["table", 1] / loader


def show_srecords(count):
    """Shows what S-records cost beside Intel HEX, and returns the dearest of each work as a multiple of Intel's."""
    print(f"Instructions a record of 16 bytes, of {FULL:,} S-records; Intel HEX beside them is the port's:\n")
    rows, multiples = [], {}
    for what, intel in SRECORDS.items():
        for kind in KINDS:
            found = {one: instructions(one, what, 16, FULL, kind) for one in ("face", "port", "floor")}
            found["Intel HEX"] = instructions("port", intel, 16, FULL)
            if len({result for _, result in found.values()}) != 1:
                sys.exit(f"{what}, S{kind}: the results differ, {found}")
            multiple = found["port"][0] / count["port", intel, 16]
            multiples[what] = max(multiple, multiples.get(what, 0))
            rows.append([f"{WORK[intel]}, S{kind}"] + [whole(n) for n, _ in found.values()] + [f"{multiple:.2f}"])
    table(["Work", "face", "port", "floor", "Intel HEX", "port : Intel HEX"], rows)
    return multiples


def show_pages(who):
    """Shows what a page costs that is written, and returns what the port takes for a place without a mark."""
    print(f"Instructions a place, of a page of {PLACES:,} that is written; the crate is given the records, made before:\n")
    rows, places = [], {}
    for every, marked in PAGES.items():
        found = {one: instructions(one, "page", 16, FULL, every) for one in who}
        results = {result for _, result in found.values()}
        if len(results) != 1:
            sys.exit(f"pages, {marked} marked: the results differ, {found}")
        places[every] = {one: n * FULL / PLACES for one, (n, _) in found.items()}
        rows.append([marked] + [f"{n:,.2f}" for n in places[every].values()] + [f"{int(results.pop()):,}"])
    table(["Marked places"] + who + ["bytes of the file"], rows)
    return places[PLACES]["port"]


def show_page_growth():
    print("The same at 1, 2, 4 and 8 times the size, of the port:\n")
    rows = []
    for every, marked in PAGES.items():
        grown = [instructions("port", "page", 16, records, every)[0] / 16 for records in SIZES]
        rows.append([marked] + [f"{n:,.2f}" for n in grown])
    table(["Marked places"] + [f"{16 * records:,} places" for records in SIZES], rows)


def in_chunks():
    """Instructions a record of 16 bytes by the size of a chunk, 0 for the whole text; all must come to the same results."""
    whole_text = instructions("port", "text", 16, FULL)
    found = {0: whole_text[0]}
    for chunk in CHUNKS:
        found[chunk], result = instructions("port", "chunks", 16, FULL, chunk)
        if result != whole_text[1]:
            sys.exit(f"chunks of {chunk}: the results differ, {result} and {whole_text[1]}")
    return found


def show_chunks(chunks):
    print(f"Instructions a record of 16 bytes, of a text of {FULL:,} that comes in chunks, of the port:\n")
    rows = [["the whole text", whole(chunks[0]), "1.00"]]
    rows += [[f"{n:,}", whole(chunks[n]), f"{chunks[n] / chunks[0]:.2f}"] for n in CHUNKS]
    table(["Bytes a chunk", "Instructions", "of the whole text's"], rows)


def fed_by(who, chunk, results):
    """Instructions a record of each of these works on chunks of a size; each must come to its result."""
    counts = []
    for what, result in results.items():
        n, other = instructions(who, what, 16, FULL, chunk)
        if other != result:
            sys.exit(f"{what}, {who}, chunks of {chunk}: the results differ, {other} and {result}")
        counts.append(n)
    return counts


def show_feeds():
    """Shows what a load costs that is fed, and returns the port's dearest as a multiple of reading the same chunks."""
    print(f"Instructions a record of 16 bytes, of a load of {FULL:,} that is fed in chunks:\n")
    rows, dearest = [], 0
    for who in ("port", "face"):
        loader, loaded = instructions(who, "load", 16, FULL)
        _, read = total(who, "text", 16, FULL, 1)
        for chunk in FEEDS:
            fed, committed, reading = counts = fed_by(who, chunk, {"fed": loaded, "committed": loaded, "chunks": read})
            if who == "port":
                dearest = max(dearest, fed / reading)
            multiples = (fed / reading, committed / reading, committed / loader)
            rows.append([who, f"{chunk:,}"] + [whole(n) for n in (*counts, loader)] + [f"{n:.2f}" for n in multiples])
    works = ["fed", "fed and committed", "reading the chunks", "loading the whole text"]
    table(["Who", "Bytes a chunk"] + works + ["fed : reading", "committed : reading", "committed : loading"], rows)
    return dearest


def at_most(bar):
    return f"at most {bar}", lambda is_: is_ <= bar


def under(bar):
    return f"under {bar}", lambda is_: is_ < bar


def show_bars(who, count, loading, unmarked, chunks, feeding, srecords, saving, tabled, asking):
    reading, writing = count["port", "text", 16], count["port", "object", 16]
    bars = [
        ("the dearest load, as a multiple of reading", loading / reading, at_most(2.5)),
        (f"loading a full page, as a multiple of {BYTE_MARKS:,}, with a byte for each mark", count["port", "load", 16] / BYTE_MARKS, at_most(1.1)),
        ("feeding a load, the dearest, as a multiple of reading the same chunks", feeding, at_most(1.2)),
        ("saving a capture, the dearest, as a multiple of reading", saving / reading, at_most(2.5)),
        ("loading through a table of one window, as a multiple of the loader of one window", tabled, at_most(1.3)),
        ("asking for a byte, the dearest, as a multiple of reading the same text", asking, at_most(1.1)),
        ("writing a page, instructions for a place without a mark", unmarked, under(15)),
        ("reading an S-record, the dearest type, as a multiple of Intel's", srecords["srecord"], at_most(1.15)),
        ("loading S-records, the dearest type, as a multiple of Intel's", srecords["srecords"], at_most(1.15)),
    ]
    if "crate" in who:
        bars += [
            ("reading a text, % of the crate's as built here", 100 * reading / count["crate", "text", 16], at_most(22)),
            ("writing an object, % of the crate's as built here", 100 * writing / count["crate", "object", 16], at_most(10)),
        ]
    for chunk in CHUNKS:
        if chunk >= LARGE:
            bars.append((f"reading in chunks of {chunk:,}, as a multiple of reading", chunks[chunk] / chunks[0], at_most(1.3)))
    bars += [
        ("reading a text, % of 4,292, the crate's by rustc 1.63", 100 * reading / 4292, at_most(22)),
        ("writing an object, % of 6,443, the crate's by rustc 1.63", 100 * writing / 6443, at_most(10)),
    ]
    rows = [[name, shown(is_), bar, "met" if meets(is_) else "MISSED"] for name, is_, (bar, meets) in bars]
    table(["Bar", "Is", "Has to be", ""], rows)


# The tables that can be shown alone.
ALONE = {
    "growth": show_growth,
    "chunks": lambda: show_chunks(in_chunks()),
    "fed": show_feeds,
    "tables": show_tables,
    "asks": show_asks,
}


def show_all():
    who = measured()
    count = counted(who)
    show_instructions(who, count)
    if MACHINE == "x86_64":
        show_times(who)
    show_growth()
    loading = show_loads(count["port", "text", 16])
    unmarked = show_pages(who)
    show_page_growth()
    chunks = in_chunks()
    show_chunks(chunks)
    feeding = show_feeds()
    srecords = show_srecords(count)
    saving = show_captures(count["port", "text", 16])
    tabled = show_tables()
    asking = show_asks()
    show_bars(who, count, loading, unmarked, chunks, feeding, srecords, saving, tabled, asking)


def main():
    if PART == "all":
        show_all()
    elif PART in ALONE:
        ALONE[PART]()
    else:
        sys.exit(f"no such table: {PART}; there are all, {', '.join(ALONE)}")


main()
