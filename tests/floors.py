#!/usr/bin/env python3
"""Holds crates.txt to the crates, and docs/house.svg to crates.txt. floors.py --write writes both.

A crate's line lists each crate that its files name, and no other: in src/ as `NAME::`, in contracts, specs/ and proofs/ as `Rattle.NAME.`. The
checker asks for these, and not for what they stand on. A name on a line that is no crate's is one of the kit's libraries; std is on no line. The
lines stand floor by floor, lowest first, under `# Floor N`; a crate's floor is the length of the longest way down from it. In README.md each crate has its floor in a row `| N | `crates/NAME` .. | .. |`."""
import re
import sys

import house

repo = house.repo
HEAD = '# A line for each crate: its name, then each crate that its files name. Floor by floor, lowest first; docs/house.svg is the drawing.\n'


def code(path):
    """A file's text without its comments."""
    mark = '//' if path.suffix == '.rt' else '--'
    return re.sub(rf'(?m)(^|\s){mark}(\s.*)?$', '', path.read_text(encoding='utf-8'))


def named(crate, known):
    """The crates and libraries that a crate's files name."""
    found = set()
    folder = repo / 'crates' / crate
    for path in sorted(folder.glob('src/**/*.rt')):
        found |= set(re.findall(r'(?<![\w:])([a-z_][a-z0-9_]*)::', code(path)))
    for path in [*folder.glob('src/**/*.rt'), *folder.glob('specs/**/*.antt'), *folder.glob('proofs/**/*.antt')]:
        found |= set(re.findall(r'(?<![\w.])Rattle\.([a-z_][a-z0-9_]*)\.', code(path)))
    return [name for name in known if name in found and name != crate]


def of_kit(crates):
    """The names on the lines that are no crates of the repository."""
    return sorted({name for listed in crates.values() for name in listed} - set(crates))


def headings(text):
    """The number of the heading that each crate stands under."""
    under, number = {}, None
    for line in text.splitlines():
        heading = re.match(r'# Floor (\d+)$', line)
        if heading:
            number = int(heading[1])
        elif re.match(r'[^#]*:', line):
            under[line.split(':')[0].split()[0]] = number
    return under


def shown(text):
    """The crates that rows of README.md name beside a floor, each with that floor."""
    rows = re.findall(r'(?m)^\| (\d+) \|([^|]*)\|', text)
    return {(crate, int(number)) for number, cell in rows for crate in re.findall(r'`crates/(\w+)`', cell)}


def faults():
    """What is wrong, a line each."""
    crates = house.read()
    floor = house.floors(house.below(crates))
    readme = shown((repo / 'README.md').read_text(encoding='utf-8'))
    under = headings((repo / 'crates.txt').read_text(encoding='utf-8'))
    known = list(crates) + of_kit(crates)
    last = 0
    for crate, listed in crates.items():
        uses = named(crate, known)
        for name in sorted(set(listed) - set(uses)):
            yield f'{crate} lists {name}, which its files do not name'
        for name in sorted(set(uses) - set(listed)):
            yield f'{crate} does not list {name}, which its files name'
        if len(set(listed)) < len(listed):
            yield f'{crate} lists a crate twice'
        if floor[crate] < last:
            yield f'{crate} is of floor {floor[crate]}, and stands after one of floor {last}'
        if under[crate] != floor[crate]:
            yield f'{crate} is of floor {floor[crate]}, and does not stand under "# Floor {floor[crate]}"'
        last = max(last, floor[crate])
    for crate, number in sorted(set(floor.items()) - readme):
        yield f'README.md does not show {crate} on floor {number}'
    for crate, number in sorted(readme - set(floor.items())):
        yield f'README.md shows {crate} on floor {number}'
    if not house.current():
        yield 'docs/house.svg is not current: python3 tests/house.py writes it'


def write():
    """crates.txt as the files want it; crates of one floor stay in the order that they have."""
    head = {head.split()[0]: head for head, _ in house.heads()}
    kit = of_kit(house.read())
    crates = list(house.read())
    crates += sorted(path.name for path in (repo / 'crates').iterdir() if path.is_dir() and path.name not in crates)
    lines = {crate: named(crate, crates + kit) for crate in crates}
    floor = house.floors(house.below(lines))
    order = sorted(crates, key=lambda crate: floor[crate])
    text = HEAD
    for number in range(max(floor.values()) + 1):
        text += f'\n# Floor {number}\n'
        for crate in order:
            if floor[crate] == number:
                listed = sorted(lines[crate], key=lambda name: order.index(name) if name in order else len(order) + kit.index(name))
                text += f'{head.get(crate, crate)}: {" ".join(listed)}'.rstrip() + '\n'
    (repo / 'crates.txt').write_text(text, encoding='utf-8')
    house.DRAWING.write_text(house.drawing(), encoding='utf-8')


if __name__ == '__main__':
    if sys.argv[1:] == ['--write']:
        write()
    found = list(faults())
    for fault in found:
        print(fault)
    floor = house.floors(house.below(house.read()))
    print(f'{len(floor)} crates on {max(floor.values()) + 1} floors, {len(found)} faults')
    sys.exit(1 if found else 0)
