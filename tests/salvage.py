#!/usr/bin/env python3
"""Runs the script ./salvage, and compares what it writes to standard output and to standard error to the byte, and its exit status.
IHEX_LIB_DIR names the folder of libihex.a; else target/staticlib has it.

The expected files and lists are written out by hand, or made by the model in model.py, which knows no code of the program.
The last line is 'N passed, M failed'; the exit status is 1 if any failed.
"""
import os
import random
import subprocess

import model
from programs import DEV_FULL, ROOT, end, helps, in_shell, in_words, over_rust, ran, samples, terminal, told

SCRIPT = ['./salvage']
END = b':00000001FF\n'
ADDED = b'end of file record added, the text has none\n'


def words(number, refusal):
    """The line of the list for an entry of the model's."""
    if refusal is None:
        return 'line %d: base unknown after a refused line\n' % number
    if refusal == '! 13':
        return ADDED.decode()
    return in_words(number, refusal) + '\n'


def saved(name, text, **files):
    """./salvage on a text gives what the model gives."""
    clean, dropped = model.salvaged(text)
    files.setdefault('input', text)
    ran(name, SCRIPT, 1 if dropped else 0, clean, ''.join(words(*one) for one in dropped).encode(), **files)


def record(kind, address, payload):
    return model.record(kind, address, payload).encode() + b'\n'


# The first run may build the program.
subprocess.run(SCRIPT, input=END, stdout=subprocess.DEVNULL, cwd=ROOT, check=True)

# ---- written out by hand

ran('nothing', SCRIPT, 1, END, ADDED, input=b'')
ran('an end record', SCRIPT, 0, END, b'', input=END)
ran('small letters, CR LF and no last LF', SCRIPT, 0, b':0100000011EE\n' + END, b'', input=b':0100000011ee\r\n\r\n:00123401b9')
ran('a banner, data before a base, and a base', SCRIPT, 1, b':020000040001F9\n:0100000011EE\n' + END,
    b"line 1: missing start code ':'\nline 2: base unknown after a refused line\n", input=b'ready\n:0100000011EE\n:020000040001F9\n:0100000011EE\n' + END + b'x\n')
ran('a wrong character, and no end', SCRIPT, 1, b':0100000011EE\n' + END,
    b'line 3, column 12: invalid characters encountered in record\nline 4: base unknown after a refused line\n' + ADDED,
    input=b':0100000011EE\n\n:0100000011OE\n:0100000022DD\n')
ran('a damaged end record', SCRIPT, 1, END, b"line 1: invalid checksum 'FF', expecting 'FE'\n" + ADDED, input=b':00000001FE\n')

# ---- the files of samples/, and what the model makes of others

for name in samples():
    with open(os.path.join(ROOT, 'samples', name), 'rb') as f:
        sample = f.read()
    clean, dropped = model.salvaged(sample)
    ran('samples/' + name, SCRIPT + ['samples/' + name], 1 if dropped else 0, clean, ''.join(words(*one) for one in dropped).encode(), stdin=subprocess.DEVNULL)
    told('%s is %s' % (name, 'noisy' if name == 'noisy.hex' else 'not noisy'), bool(dropped) == (name == 'noisy.hex'))

for line in [b'x', b':', b':G', b':0100000', b':00000001FF0', b':00000001FE', b':01000000FF', b':00000006FA', b':0100000100FE', b':' + b'0' * 521,
             b':' + b'0' * 65534 + b'G', b':' + b'0' * 65533 + b'G', b'\r\r', b'\xff', b':\0']:
    saved('a refused line of %d bytes' % len(line), record(0, 0, b'1') + line + b'\n' + record(0, 1, b'2') + record(2, 0, b'\x12\0') + record(0, 2, b'3') + END)
saved('a line end of CR at the end', record(0, 0, b'1') + b':00000001FF\r')
saved('70,000 empty lines', b'\n' * 70000 + b'x\n' + END)

dice = random.Random(11)
with open(os.path.join(ROOT, 'samples', 'tank.hex'), 'rb') as f:
    TANK = f.read()
for round in range(40):
    text = bytearray(TANK)
    for _ in range(dice.randrange(1, 6)):
        at = dice.randrange(len(text))
        way = dice.randrange(4)
        if way == 0:
            text[at] = dice.randrange(256)
        elif way == 1:
            del text[at]
        elif way == 2:
            text.insert(at, dice.choice(b'0F:\n\rG '))
        else:
            del text[at:at + dice.randrange(120)]
    saved('samples/tank.hex with noise, %d' % round, bytes(text))

# ---- long inputs: no limit but memory

block = record(4, 0, b'\x08\0') + b''.join(record(0, 16 * i, bytes([i] * 16)) for i in range(64))
saved('9 MB, a damaged line in each 3 KB', (block + b':0\n' + block) * 1600 + END)
saved('4 MB of noise', b'x\n' * 100000 + b'\0' * 4000000)

# ---- inputs and outputs that fail, and usage

over_rust(SCRIPT, TANK)
ran('a folder by its name', SCRIPT + ['samples'], 2, b'', b'cannot read\n')
ran('a file that is not there', SCRIPT + ['no/such file'], 2, b'', b'cannot read no/such file\n')
ran('two files', SCRIPT + ['samples/tank.hex'] * 2, 2, b'', b'usage: ./salvage [FILE]\n')
if DEV_FULL:
    ran('a full device for the list', in_shell('2>' + DEV_FULL, SCRIPT), 2, END, b'', input=b'')
    ran('a full device for an empty list', in_shell('2>' + DEV_FULL, SCRIPT), 0, END, b'', input=END)
    ran('a full device, and a file that is not there', in_shell('2>' + DEV_FULL, SCRIPT + ['no/such']), 2, b'', b'')
    ran('a full device, and two files', in_shell('2>' + DEV_FULL, SCRIPT + ['samples/tank.hex'] * 2), 2, b'', b'')
helps('./salvage', [b'usage: ./salvage [FILE]', b'any length that fits in memory', b'0 nothing was dropped', b'1 something was dropped, or an end record was added',
                    b'2 the input cannot be read, the output cannot be written, memory ran out, or the usage is wrong'])

pair = terminal()
if pair is None:
    print('-- passed over: ./salvage at a terminal: there is no terminal')
else:
    line, mine = pair
    run = subprocess.run(SCRIPT, stdin=mine, stdout=subprocess.PIPE, stderr=subprocess.PIPE, cwd=ROOT, timeout=60)
    os.close(mine)
    os.close(line)
    with open(os.path.join(ROOT, 'samples', 'noisy.hex'), 'rb') as f:
        told('without FILE at a terminal', run.returncode == 1 and run.stdout == model.salvaged(f.read())[0])

end()
