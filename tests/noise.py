"""Runs tests/c/noise.c, and loads a dump with single wrong characters by ihex_load and by other readers.

    noise.py N FOLDER WORDS..    N wrong characters; the folder of the built programs noise and pagefile; the words that run a program

No dump with a wrong character may be loaded as another one by ihex_load. How many the other readers take for good is counted and
printed, but is not a test. The last line is 'N passed, M failed'.
"""
import collections
import os
import random
import subprocess
import sys

import model
import programs
from peers import Refused, there
from programs import end, told

FIRST, PLACES = 0x08000000, 512


def every_single_way(words):
    """The tests that the program noise counts."""
    ended = subprocess.run(words, stdout=subprocess.PIPE, timeout=600)
    *lines, counts = ended.stdout.decode().splitlines()
    print('\n'.join(lines))
    passed, failed = (int(part.split()[0]) for part in counts.split(', '))
    programs.passed += passed
    programs.failed += failed
    told('the program noise', ended.returncode == (failed != 0), 'status %d' % ended.returncode)


def dump():
    """An extended address, a page of data in records of 16 bytes, a start address and the end record."""
    page = bytes((p * 37 + p // 16 * 11) % 256 for p in range(PLACES))
    data = [model.record(0, at, page[at:at + 16]) for at in range(0, PLACES, 16)]
    upper = (FIRST >> 16).to_bytes(2, 'big')
    return '\n'.join([model.record(4, 0, upper), *data, model.record(5, 0, FIRST.to_bytes(4, 'big')), model.record(1, 0, b''), ''])


class Ours:
    """ihex_load, by the program pagefile. A refusal is the one that it names; anything else that goes wrong is an error."""
    name, refuses = 'ihex_load', Refused

    def __init__(self, words):
        self.words = words + ['load', '%X' % FIRST, str(PLACES)]

    def read(self, text):
        ended = subprocess.run(self.words, input=text.encode('latin-1'), stdout=subprocess.PIPE, stderr=subprocess.PIPE, timeout=300)
        if ended.returncode == 1 and ended.stderr.startswith(b'pagefile: answer '):
            raise Refused(ended.stderr.decode())
        if ended.returncode != 0 or len(ended.stdout) != PLACES + PLACES // 8:
            sys.exit('pagefile: status %d, %r' % (ended.returncode, ended.stderr))
        marked = model.unpacked(ended.stdout[PLACES:], PLACES)
        return {FIRST + p: ended.stdout[p] for p in range(PLACES) if marked[p]}


def wrong_characters(text, number):
    """The text with one character changed to any other, by a fixed sequence."""
    chance = random.Random(6)
    for _ in range(number):
        at, turn = chance.randrange(len(text)), chance.randrange(1, 256)
        yield text[:at] + chr((ord(text[at]) + turn) % 256) + text[at + 1:]


def outcome(tool, text, was):
    """Whether a reader refuses a text, or loads it as it was, or takes it for good although it says something else."""
    try:
        return 'the same' if tool.read(text) == was else 'taken for good'
    except tool.refuses:
        return 'refused'
    except ValueError:
        return 'taken for good'  # what it made of the text cannot be read


def count(tool, text, number):
    was = tool.read(text)
    seen = collections.Counter(outcome(tool, wrong, was) for wrong in wrong_characters(text, number))
    print('-- %s, of %d single wrong characters: %d refused, %d the same, %d taken for good with other bytes'
          % (tool.name, number, seen['refused'], seen['the same'], seen['taken for good']))
    return seen


def main():
    number, folder, under = int(sys.argv[1]), sys.argv[2], sys.argv[3:]
    every_single_way(under + [os.path.join(folder, 'noise')])
    text = dump()
    seen = count(Ours(under + [os.path.join(folder, 'pagefile')]), text, number)
    told('a dump with a wrong character', seen['taken for good'] == 0 and seen['refused'] > 0, str(dict(seen)))
    for tool in there():
        count(tool, text, number)
    end()


main()
