#!/usr/bin/env python3
"""Spells the names that this repository's specs/ and proofs/ declare as the library spells its own.

usage: python3 tools/spell.py [--check]          at the top of the repository, once, after the library's own script

A type, a fact or a module is in upper camel case: `Row-holds-places` becomes `RowHoldsPlaces`.
Every other name is in snake case: `mark-at` becomes `mark_at`.
Names of Rust functions, exported names, strings, inputs and outputs stay as they are, and so does a name in a file
that imports it from the library. A page's name in backquotes is turned as the names in the crates are. With --check nothing is written. Names that would fall together are printed.
"""

import glob
import os
import re
import sys

NAME = r'[^\s(){}.;,@"«»`|]+'
MARKS = r"(?:(?:pattern|unfoldable|abbrev|pub|record|data|inductive|opaque) +)*"
TOP = re.compile(rf"(?m)^{MARKS}({NAME})(?: [({{][^\n]*?)? :(?= |$)")
FIELD = re.compile(rf"(?m)^ +{MARKS}({NAME})(?: [({{][^\n]*?)? :(?= |$)")
WORD = re.compile(NAME)
USE = re.compile(r"\buse (Rattle\.(\w+)\.[^\s;{]+|[a-z]\w*\.[^\s;{]+|Prim\.[^\s;{]+)\.?(?:\{([^}]*)\})?(?: as (\S+))?")
# What two names that would fall together are called instead.
OTHERWISE = {"First-unused": "IsFirstUnused", "Not-ready": "IsNotReady", "Used-up": "IsUsedUp", "bit-or": "bit_or_lem"}
# Lemmas and values that begin with a character's name.
SNAKE = {"CR-added", "CR-waiting", "LF-at", "LF-before-rest", "LF-cut-off", "LF-from", "LF-of-cut"}
# The module that Rattle makes has the name of this file.
MOVED = {"crates/window/specs/Contracts.antt": "crates/window/specs/Promises.antt"}
MODULES = {"window": ("Contracts", "Promises")}


def read(path):
    with open(path, encoding="utf-8") as f:
        return f.read()


def spelled(name):
    if name in OTHERWISE:
        return OTHERWISE[name]
    if re.fullmatch(r"[A-Z0-9]+(-[A-Z0-9]+)+", name) or name in SNAKE:
        return name.replace("-", "_")
    if name[0].isupper():
        words = [w for w in re.split(r"[-_]", name) if w]
        return "".join(w[0].upper() + w[1:] for w in words)
    return name.replace("-", "_")


def turnable(name):
    return re.fullmatch(r"[A-Za-z][\w'-]*", name) and not name.endswith("-")


def antt_files():
    return sorted(
        f
        for crate in sorted(glob.glob("crates/*"))
        for part in ("specs", "proofs")
        for f in glob.glob(f"{crate}/{part}/**/*.antt", recursive=True)
    )


def by_hand(path):
    """Whether a file proves one function: the names of its goals are Rattle's."""
    return re.search(r"/proofs/.+/(Proof|Answers|Invariants)\.antt$", path) is not None


def declared():
    names = set()
    for path in antt_files():
        text = read(path)
        for line in text.splitlines():
            m = TOP.match(line) or (not by_hand(path) and FIELD.match(line))
            if not m or re.match(r"\s*(let|use|where|unfolding|--)\b", line):
                continue
            if by_hand(path) and re.search(r": (tie|goal)\.", line):
                continue
            names.add(m.group(1))
    return names


def imported(text, crates):
    """The names that a file imports from the library."""
    found = set()
    for path, crate, items, alias in USE.findall(text):
        if crate in crates:
            continue
        found.update(WORD.findall(items or ""))
        found.add(path.rsplit(".", 1)[-1])
    return found


def goals(text):
    """The names of goals that a proof by hand gives itself."""
    return set(re.findall(rf"(?m)^(?:abbrev |pub )*({NAME}) : (?:tie|goal)\.", text))


def turn_words(text, table, keep):
    """Turns the words of antt, or of the clauses and comments of Rust, but nothing in a string or behind `tie.`."""

    def one(m):
        if m.group(0).startswith('"'):
            return m.group(0)
        word = m.group(0)
        if word in keep or text[: m.start()].endswith(("tie.", "goal.")):
            return word
        return table.get(word, word)

    return re.sub(rf'"(?:[^"\\\n]|\\.)*"|{NAME}', one, text)


def main(argv):
    check = "--check" in argv
    crates = {os.path.basename(c) for c in glob.glob("crates/*")}
    table = {n: spelled(n) for n in declared() if turnable(n) and spelled(n) != n}
    clashes = []
    changed = 0
    files = antt_files() + sorted(glob.glob("crates/*/src/*.rt")) + sorted(glob.glob("crates/*/must-fail/*.edit"))
    for path in files:
        text = read(path)
        keep = imported(text, crates)
        if by_hand(path):
            keep |= goals(text)
        words = set(WORD.findall(text))
        made = {}
        for w in words:
            new = table[w] if w in table and w not in keep else w
            made.setdefault(new, set()).add(w)
        if not path.endswith(".edit"):
            for new, olds in sorted(made.items()):
                if len(olds) > 1:
                    clashes.append(f"{path}: {' and '.join(sorted(olds))} would both be {new}")
        out = turn_words(text, table, keep)
        crate = path.split("/")[1]
        for owner, (old, new) in MODULES.items():
            out = re.sub(rf"\bRattle\.{owner}\.specs\.{old}\b", f"Rattle.{owner}.specs.{new}", out)
            if crate == owner and path.endswith("specs/Lib.antt"):
                out = re.sub(rf"\bmod {old}\b", f"mod {new}", out)
        if out != text:
            changed += 1
            if not check:
                with open(path, "w", encoding="utf-8") as f:
                    f.write(out)
    for path in ["README.md"] + sorted(glob.glob("docs/**/*.md", recursive=True)):
        text = read(path)
        spec = lambda name: re.sub(r"^([\w-]+)-spec$", lambda m: m.group(1).replace("-", "_") + "_spec", name)
        out = re.sub(r"`([^`\s]+)`", lambda m: f"`{table.get(m.group(1), spec(m.group(1)))}`", text)
        for owner, (old, new) in MODULES.items():
            out = out.replace(f"crates/{owner}/specs/{old}.antt", f"crates/{owner}/specs/{new}.antt")
        if out != text:
            changed += 1
            if not check:
                with open(path, "w", encoding="utf-8") as f:
                    f.write(out)
    if not check:
        for old, new in MOVED.items():
            if os.path.exists(old):
                os.rename(old, new)
    print("\n".join(clashes))
    print(f"{len(table)} names, {changed} files, {len(clashes)} clashes")
    return 1 if clashes else 0


if __name__ == "__main__":
    raise SystemExit(main(sys.argv[1:]))
