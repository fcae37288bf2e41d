#!/usr/bin/env python3
"""Draws the house: house.py writes docs/house.svg, house.py --check fails if that file is not current.

The crates and what each names come from crates.txt. What a crate is for comes from the first sentence of its source. A crate's floor is the
length of the longest way down from it. A line leads from a crate to each that it names, unless a longer way leads there too."""
import html
import itertools
import pathlib
import sys
from statistics import fmean as mean

repo = pathlib.Path(__file__).resolve().parent.parent
DRAWING = repo / 'docs' / 'house.svg'

WIDTH, PAD = 184, 11  # of a box, and from its border to its text
LANE = 4  # what a line takes on a floor that it passes
GAP = 14  # between two boxes
STOREY = 46  # between two floors
PULL = 0.02  # how strongly things are drawn to the middle of the house
MARGIN, LABELS = 14, 50  # around the drawing, and for the numbers of the floors
NAME, TEXT, LEAD = 15, 12, 16  # sizes of the letters, and from line to line

STYLE = """\
text { font-family: Helvetica, Arial, 'Liberation Sans', sans-serif; font-size: 12px; fill: #1f2933; }
.name { font-family: Menlo, Consolas, 'DejaVu Sans Mono', monospace; font-size: 15px; font-weight: bold; }
.faint { fill: #7b8794; }
.library { fill: #e9f1fb; stroke: #3d6fa8; }
.program { fill: #fdf1dc; stroke: #b07a1e; }
.line { fill: none; stroke: #7b8794; stroke-width: 1.4; }
.head { fill: #7b8794; }
.floor { stroke: #7b8794; stroke-opacity: 0.3; }
.ground { stroke: #7b8794; stroke-width: 3; }"""


def read(path=repo / 'crates.txt'):
    """The lines of crates.txt, in order: each crate with the names on its line."""
    return {head.split()[0]: named.split() for head, named in heads(path)}


def heads(path=repo / 'crates.txt'):
    """The lines of crates.txt in two parts: the crate's name, with what is said of it, as `staticlib`; and the names behind the colon."""
    parts = (line.split('#')[0].partition(':') for line in path.read_text(encoding='utf-8').splitlines())
    return [(head.strip(), named) for head, colon, named in parts if colon]


def below(crates):
    """For each crate, the crates of the repository that it names."""
    return {name: [other for other in named if other in crates] for name, named in crates.items()}


def floors(under):
    """The floor of each crate."""
    known = {}

    def floor(name):
        if name not in known:
            known[name] = None
            known[name] = max((floor(other) + 1 for other in under[name]), default=0)
        if known[name] is None:
            sys.exit(f'house: {name} stands on itself')
        return known[name]

    return {name: floor(name) for name in under}


def reached(under, name):
    """Each crate that a crate stands on, by whatever way."""
    found, todo = set(), list(under[name])
    while todo:
        other = todo.pop()
        if other not in found:
            found.add(other)
            todo += under[other]
    return found


def reduced(under):
    """What each crate names, without what those reach."""
    return {
        name: [other for other in named if not any(other in reached(under, third) for third in named)] for name, named in under.items()
    }


def source(name):
    """The file that a crate's source begins in."""
    folder = repo / 'crates' / name / 'src'
    return folder / 'main.rt' if (folder / 'main.rt').exists() else folder / 'lib.rt'


def purpose(name):
    """The first sentence of the comment that a crate's source begins with, after the lines `#![..]` that go for the whole crate."""
    words = []
    lines = source(name).read_text(encoding='utf-8').splitlines()
    for line in itertools.dropwhile(lambda line: line.startswith('#!['), lines):
        if not line.startswith('//') or not line.strip('/ '):
            break
        words.append(line.strip('/ ').rstrip())
    said = ' '.join(words).split('. ')[0].rstrip('.').replace('`', '')
    if not said:
        sys.exit(f'house: {source(name).relative_to(repo)} does not begin with a comment that says what the crate is for')
    return said


# ---- the text in a box

# How wide letters are, in thousandths of their size, in Arial; any other is taken for 556.
LETTERS = {222: "ijl'|", 278: ' ftI.,:;!/()[]-`', 333: 'r"', 500: 'ckvxyzsJ', 667: 'ABEKPSVXY&', 722: 'CDHNRUwM', 778: 'GOQ', 833: 'mW%'}
WIDE = {letter: width for width, letters in LETTERS.items() for letter in letters}


def measure(text):
    """About how wide a text is; somewhat more than Arial, since another face may stand in for it."""
    return 1.15 * TEXT * sum(WIDE.get(letter, 556) for letter in text) / 1000


def wrapped(text):
    """The text in lines that fit a box."""
    lines = []
    for word in text.split():
        if lines and measure(lines[-1] + ' ' + word) <= WIDTH - 2 * PAD:
            lines[-1] += ' ' + word
        else:
            lines.append(word)
    return lines


# ---- where things stand

def layers(floor, edges):
    """Each floor's row of crates, with a lane (a pair of crates and the floor) for a line that passes it; and the steps of all lines."""
    rows = [[] for _ in range(max(floor.values(), default=-1) + 1)]
    steps = []
    for name in floor:
        rows[floor[name]].append(name)
    for upper, named in edges.items():
        for lower in named:
            way = [upper] + [(upper, lower, level) for level in range(floor[upper] - 1, floor[lower], -1)] + [lower]
            for lane in way[1:-1]:
                rows[lane[2]].append(lane)
            steps += zip(way, way[1:])
    return rows, steps


def crossings(rows, steps):
    """How often lines cross."""
    place = {thing: i for row in rows for i, thing in enumerate(row)}
    level = {thing: i for i, row in enumerate(rows) for thing in row}
    count = 0
    for i, (a, b) in enumerate(steps):
        for c, d in steps[:i]:
            if level[a] == level[c] and (place[a] - place[c]) * (place[b] - place[d]) < 0:
                count += 1
    return count


def ordered(rows, steps):
    """The rows in an order in which few lines cross: each thing is moved to the middle of what it is joined to, row by row, then neighbours swap."""
    ups, downs = {}, {}
    for upper, lower in steps:
        downs.setdefault(upper, []).append(lower)
        ups.setdefault(lower, []).append(upper)
    best = [list(row) for row in rows]
    rows = [list(row) for row in rows]
    for turn in range(24):
        joined, order = (downs, range(1, len(rows))) if turn % 2 == 0 else (ups, range(len(rows) - 2, -1, -1))
        for i in order:
            side = rows[i - 1] if turn % 2 == 0 else rows[i + 1]
            place = {thing: k for k, thing in enumerate(side)}
            middle = {}
            for k, thing in enumerate(rows[i]):
                others = joined.get(thing, [])
                middle[thing] = sum(place[other] for other in others) / len(others) if others else k
            rows[i].sort(key=lambda thing: middle[thing])
        swapped(rows, steps)
        if crossings(rows, steps) < crossings(best, steps):
            best = [list(row) for row in rows]
    return best


def swapped(rows, steps):
    """Neighbours change places as long as fewer lines cross then."""
    for row in rows:
        for k in range(len(row) - 1):
            before = crossings(rows, steps)
            row[k], row[k + 1] = row[k + 1], row[k]
            if crossings(rows, steps) >= before:
                row[k], row[k + 1] = row[k + 1], row[k]


def wide(thing):
    return WIDTH if isinstance(thing, str) else LANE


def apart(row, wanted):
    """Middles for a row, in its order and without overlap, as near as can be to those that are wanted."""
    offsets, at = [], 0.0
    for k, thing in enumerate(row):
        at += (wide(row[k - 1]) + wide(thing)) / 2 + GAP if k else 0
        offsets.append(at)
    groups = []  # runs of things that touch: the sum of what each wants of the run's start, and how many
    for k, thing in enumerate(row):
        weight = 1 if isinstance(thing, str) else 3
        groups.append([weight * (wanted[thing] - offsets[k]), weight, 1])
        while len(groups) > 1 and groups[-2][0] / groups[-2][1] > groups[-1][0] / groups[-1][1]:
            total, number, things = groups.pop()
            groups[-1] = [groups[-1][0] + total, groups[-1][1] + number, groups[-1][2] + things]
    starts = [group[0] / group[1] for group in groups for _ in range(group[2])]
    return {thing: start + offset for thing, start, offset in zip(row, starts, offsets)}


def middles(rows, steps):
    """The middle of each thing, from left to right: near the middle of what it is joined to."""
    joined = {}
    for upper, lower in steps:
        joined.setdefault(upper, []).append(lower)
        joined.setdefault(lower, []).append(upper)
    at = {}
    for row in rows:
        at.update(apart(row, {thing: 0.0 for thing in row}))
    for turn in range(400):
        centre = mean(at.values())
        for row in rows if turn % 2 else rows[::-1]:
            wanted = {thing: PULL * centre + (1 - PULL) * mean(at[other] for other in joined.get(thing, [thing])) for thing in row}
            at.update(apart(row, wanted))
    left = min(at[thing] - wide(thing) / 2 for thing in at)
    return {thing: at[thing] - left for thing in at}


# ---- the drawing

def drawing():
    under = below(read())
    floor = floors(under)
    rows, steps = layers(floor, reduced(under))
    rows = ordered(rows, steps)
    across = middles(rows, steps)
    text = {name: wrapped(purpose(name)) for name in floor}
    high = [max(len(text[name]) for name in row if isinstance(name, str)) * LEAD + NAME + 2 * PAD + 4 for row in rows]
    left = MARGIN + LABELS
    width = round(left + max(across[thing] + wide(thing) / 2 for thing in across) + MARGIN)
    top, y = {}, MARGIN
    for level in range(len(rows) - 1, -1, -1):
        top[level] = y
        y += high[level] + STOREY
    ground = y - STOREY / 2
    height = round(ground + 40)
    out = [
        f'<svg xmlns="http://www.w3.org/2000/svg" viewBox="0 0 {width} {height}" width="{width}" height="{height}" role="img">',
        '<title>The house: the crates, floor by floor, and what each stands on</title>',
        f'<style>\n{STYLE}\n</style>',
    ]
    for level, row in enumerate(rows):
        out.append(f'<text class="faint" x="{MARGIN}" y="{top[level] + high[level] / 2 + 4:g}">floor {level}</text>')
        if level:
            line = top[level] + high[level] + STOREY / 2
            out.append(f'<line class="floor" x1="{MARGIN}" y1="{line:g}" x2="{width - MARGIN}" y2="{line:g}"/>')
    out.append(f'<line class="ground" x1="{MARGIN}" y1="{ground:g}" x2="{width - MARGIN}" y2="{ground:g}"/>')
    out += lines(rows, steps, across, top, high, left)
    for level, row in enumerate(rows):
        for name in row:
            if isinstance(name, str):
                out += box(name, text[name], left + across[name] - WIDTH / 2, top[level], high[level])
    out += legend(ground, width)
    return '\n'.join(out + ['</svg>', ''])


def box(name, lines, x, y, high):
    kind = 'program' if source(name).name == 'main.rt' else 'library'
    out = [f'<rect class="{kind}" x="{x:.1f}" y="{y:g}" width="{WIDTH}" height="{high:g}" rx="6"/>']
    out.append(f'<text class="name" x="{x + PAD:.1f}" y="{y + PAD + NAME - 2:g}">{html.escape(name)}</text>')
    for i, line in enumerate(lines):
        out.append(f'<text x="{x + PAD:.1f}" y="{y + PAD + NAME + 4 + (i + 1) * LEAD - 4:g}">{html.escape(line)}</text>')
    return out


def lines(rows, steps, across, top, high, left):
    """A line for each step: from the bottom of the upper thing to the top of the lower one; each box shares its edge out among its lines."""
    level = {thing: i for i, row in enumerate(rows) for thing in row}

    def ports(ends, mine, other):
        at = {}
        for thing in {end[mine] for end in ends}:
            own = sorted((end for end in ends if end[mine] == thing), key=lambda end: (across[end[other]], str(end[other])))
            for k, end in enumerate(own):
                spread = (WIDTH - 60) * min(1, (len(own) - 1) / 4) if isinstance(thing, str) else 0
                at[end] = across[thing] + (spread * (k / (len(own) - 1) - 0.5) if len(own) > 1 else 0)
        return at

    leaves, comes = ports(steps, 0, 1), ports(steps, 1, 0)
    out = []
    for end in steps:
        upper, lower = end
        x1, y1 = left + leaves[end], top[level[upper]] + high[level[upper]]
        x2, y2 = left + comes[end], top[level[lower]]
        bend = (y2 - y1) / 2
        tip = 7 if isinstance(lower, str) else 0
        way = f'M{x1:.1f} {y1:g}C{x1:.1f} {y1 + bend:g} {x2:.1f} {y2 - bend:g} {x2:.1f} {y2 - tip:g}'
        if not tip:
            way += f'V{y2 + high[level[lower]]:g}'
        out.append(f'<path class="line" d="{way}"/>')
        if tip:
            out.append(f'<path class="head" d="M{x2:.1f} {y2:g}l-4 -8h8z"/>')
    return out


def legend(ground, width):
    y, x = ground + 14, MARGIN
    out = []
    for kind, said in (('library', 'a library'), ('program', 'a program')):
        out.append(f'<rect class="{kind}" x="{x}" y="{y:g}" width="18" height="12" rx="3"/>')
        out.append(f'<text class="faint" x="{x + 24}" y="{y + 10:g}">{said}</text>')
        x += 104
    out.append(f'<text class="faint" x="{x}" y="{y + 10:g}">An arrow leads to what a crate stands on; what that stands on is left out.</text>')
    return out


def current():
    return DRAWING.exists() and DRAWING.read_text(encoding='utf-8') == drawing()


if __name__ == '__main__':
    if sys.argv[1:] == ['--check']:
        if not current():
            sys.exit('docs/house.svg is not current: python3 tests/house.py writes it')
        print('docs/house.svg is current')
    elif not sys.argv[1:]:
        DRAWING.write_text(drawing(), encoding='utf-8')
    else:
        sys.exit(__doc__)
