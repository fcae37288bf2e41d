#!/usr/bin/env python3
"""Runs the script ./ask, and compares what it writes to standard output and to standard error to the byte, and its exit status.
IHEX_LIB_DIR names the folder of libihex.a; else target/staticlib has it.

The expected answers are written out by hand, or made by the model in model.py, which knows no code of the program.
The last line is 'N passed, M failed'; the exit status is 1 if any failed.
"""
import os
import random
import subprocess
import tempfile

import model
from programs import DEV_FULL, ROOT, end, helps, in_shell, in_words, over_rust, ran, samples, told

SCRIPT = './ask'
END = b':00000001FF\n'
ELEVEN = b':0100000011EE\n'
USAGE = b'usage: ./ask FILE ADDRESS\n'
FROM_INPUT = 'standard input: '


def record(kind, address, payload):
    return model.record(kind, address, payload).encode() + b'\n'


def expected(text, address, name=FROM_INPUT):
    """The exit status of a run, and what it prints on standard output and on standard error, by the model."""
    answer, _, line = model.asked(text, address).partition(' @')
    if answer == 'none':
        return 1, b'not stated\n', b''
    if answer.startswith('B '):
        return 0, answer[2:].encode() + b'\n', b''
    number = int(line, 16)
    if answer == '! 13':
        why = 'text has no end of file record'
    elif answer == '! 21':
        why = 'line %d: start record states another start than the first one' % number
    else:
        why = in_words(number, answer)
    return 2, b'', (name + why + '\n').encode()


def asked(name, text, address):
    """./ask on a text, from standard input, gives what the model gives."""
    ran('%s, at %X' % (name, address), [SCRIPT, '-', '%X' % address], *expected(text, address), input=text)


# The first run may build the program.
subprocess.run([SCRIPT, '-', '0'], input=ELEVEN + END, stdout=subprocess.DEVNULL, cwd=ROOT, check=True)

# ---- written out by hand

HAND = [
    ('a byte', ELEVEN + END, '0', 0, b'11\n', b''),
    ('a byte of 0', b':0100000000FF\n' + END, '0', 0, b'00\n', b''),
    ('the next address', ELEVEN + END, '1', 1, b'not stated\n', b''),
    ('the last of two', ELEVEN + b':0100000022DD\n' + END, '0', 0, b'22\n', b''),
    ('small letters, CR LF and no last LF', b':02ffff00aabb9b\r\n\r\n:00000001ff', 'ffff', 0, b'AA\n', b''),
    ('across the end of a segment', b':02FFFF00AABB9B\n' + END, '0', 0, b'BB\n', b''),
    ('after the end of a segment', b':02FFFF00AABB9B\n' + END, '10000', 1, b'not stated\n', b''),
    ('across the end of the highest segment', b':02000002FFFFFE\n:02FFFF00AABB9B\n' + END, 'FFFF0', 0, b'BB\n', b''),
    ('at the last address', b':02000004FFFFFC\n:02FFFF00AABB9B\n' + END, 'FFFFFFFF', 0, b'AA\n', b''),
    ('across the last address', b':02000004FFFFFC\n:02FFFF00AABB9B\n' + END, '0', 0, b'BB\n', b''),
    ('after a type 04', b':020000040001F9\n' + ELEVEN + END, '0x10000', 0, b'11\n', b''),
    ('an end record alone', END, '0', 1, b'not stated\n', b''),
    ('data after the end record', END + ELEVEN, '0', 1, b'not stated\n', b''),
    ('noise after the end record', ELEVEN + END + b'\xff\0x\n', '0', 0, b'11\n', b''),
    ('nothing', b'', '0', 2, b'', b'standard input: text has no end of file record\n'),
    ('no end record', ELEVEN, '0', 2, b'', b'standard input: text has no end of file record\n'),
    ('a damaged end record', ELEVEN + b':00000001FE\n', '5', 2, b'', b"standard input: line 2: invalid checksum 'FF', expecting 'FE'\n"),
    ('a byte, and then a damaged line', ELEVEN + b'\n:0000000lFF\n', '0', 2, b'', b'standard input: line 3, column 9: invalid characters encountered in record\n'),
    ('two starts', b':04000005000000CD2A\n' + ELEVEN + b':04000005000000CE29\n' + END, '0', 2, b'',
     b'standard input: line 3: start record states another start than the first one\n'),
    ('the same start twice', b':04000005000000CD2A\n' + ELEVEN + b':04000005000000cd2a\n' + END, '0', 0, b'11\n', b''),
]
for name, text, address, *outcome in HAND:
    ran(name, [SCRIPT, '-', address], *outcome, input=text)
    told('the model: %s' % name, expected(text, int(address, 16)) == tuple(outcome))

# ---- addresses as they are written

TEXT = record(0, 10, b'\x4a') + record(4, 0, b'\xab\xcd') + record(0, 0xef01, b'\x99') + END
for word, byte in [('a', b'4A'), ('A', b'4A'), ('0a', b'4A'), ('0000000A', b'4A'), ('0xa', b'4A'), ('0XA', b'4A'), ('0x0000000a', b'4A'),
                   ('abcdef01', b'99'), ('ABCDEF01', b'99'), ('0xAbCdEf01', b'99')]:
    ran('the address %s' % word, [SCRIPT, '-', word], 0, byte + b'\n', input=TEXT)
for word in ['', '0x', 'x', '00000000A', '0x00000000A', '100000000', '+A', '-A', ' A', 'A ', 'A\n', '\nA', 'G', 'Ah', '0x0xA', '10.', '1_0', '*', '?', '[A]', '\u0661', '\uff21']:
    ran('not an address: %r' % word, [SCRIPT, '-', word], 2, b'', USAGE, input=TEXT)

# ---- the files of samples/, and what the model makes of others

for name in samples():
    path = os.path.join('samples', name)
    with open(os.path.join(ROOT, path), 'rb') as f:
        sample = f.read()
    for address in (0, 0x08000000, 0x08000001, 0x080001EF, 0x20000100, 0x20000123, 0xFFFFFFFF):
        ran('%s at %X' % (path, address), [SCRIPT, path, '%08X' % address], *expected(sample, address, path + ': '), stdin=subprocess.DEVNULL)

for line in [b'x', b':', b':G', b':0100000', b':00000001FF0', b':00000001FE', b':01000000FF', b':00000006FA', b':0100000100FE', b':' + b'0' * 521,
             b':' + b'0' * 65534 + b'G', b':' + b'0' * 65533 + b'G', b'\r\r', b'\xff', b':\0']:
    asked('a refused line of %d bytes' % len(line), ELEVEN + b'\n' + line + b'\n' + END, 0)
asked('a line end of CR at the end', ELEVEN + b':00000001FF\r', 0)

dice = random.Random(12)
with open(os.path.join(ROOT, 'samples', 'tank.hex'), 'rb') as f:
    TANK = f.read()
for round in range(20):
    text = bytearray(TANK)
    at = dice.randrange(len(text))
    text[at:at + dice.randrange(2)] = bytes([dice.randrange(256)] * dice.randrange(2))
    asked('samples/tank.hex with a byte wrong, %d' % round, bytes(text), 0x08000000 + dice.randrange(0x200))
for round in range(60):
    lines = []
    for _ in range(dice.randrange(1, 8)):
        kind = dice.choice([0, 0, 0, 2, 4])
        number = dice.choice([0, 1, 0xFFFF])
        lines.append(record(kind, 0, number.to_bytes(2, 'big')) if kind else record(0, dice.choice([0, 0x10, 0xFFFE, 0xFFFF]), dice.randbytes(dice.randrange(5))))
    address = dice.choice([0, 1, 2, 0x10, 0x11, 0xFFFF, 0x10000, 0x1000F, 0xFFFF0, 0x10FFEF, 0xFFFF0000, 0xFFFFFFFF])
    asked('a text by chance, %d' % round, b''.join(lines) + END, address)

# ---- long inputs: no limit but memory

block = b''.join(record(0, 16 * i, bytes([i % 256] * 16)) for i in range(1024))
long = b''.join(record(4, 0, n.to_bytes(2, 'big')) + block for n in range(200)) + END
asked('9 MB', long, 0xC7 * 65536 + 0x3FFF)
asked('9 MB, of which the last line is refused', long[:-2] + b'0\n', 0)
asked('70,000 empty lines', b'\n' * 70000 + b'x\n', 0)
asked('4 MB of noise', b'\0' * 4000000, 0)

# ---- names of files

with tempfile.TemporaryDirectory() as folder:
    for name in ['a b.hex', "it's.hex", '-', '--help', 'é.hex', '%s\\n.hex']:
        path = os.path.join(folder, name)
        with open(path, 'wb') as f:
            f.write(ELEVEN + b'x\n')
        ran('a file called %s' % name, [SCRIPT, path, '0'], 2, b'', (path + ": line 2: missing start code ':'\n").encode(), stdin=subprocess.DEVNULL)
    root = os.path.join(folder, 'root')
    os.symlink(ROOT, root)
    ran('through a link to the folder', [os.path.join(root, 'ask'), '-', '0'], 0, b'11\n', input=ELEVEN + END)

# ---- a script takes nothing but a byte

TAKES = 'byte=$(%s - "$1" 2>/dev/null) && echo "took $byte"' % SCRIPT
for name, text, address, out in [('a byte', ELEVEN + END, '0', b'took 11\n'), ('not stated', ELEVEN + END, '1', b''), ('refused', ELEVEN, '0', b''), ('a wrong usage', ELEVEN + END, 'x', b'')]:
    run = subprocess.run(['sh', '-c', TAKES, 'sh', address], input=text, stdout=subprocess.PIPE, cwd=ROOT)
    told('a script takes %s' % name, run.stdout == out and (run.returncode == 0) == bool(out), '%d, %r' % (run.returncode, run.stdout))

# ---- inputs and outputs that fail, and usage

WORDS = [SCRIPT, '-', '0']
GOOD = ELEVEN + END
over_rust(WORDS, GOOD)
ran('a folder by its name', [SCRIPT, 'samples', '0'], 2, b'', b'cannot read\n')
ran('a file that is not there', [SCRIPT, 'no/such file', '0'], 2, b'', b'cannot read no/such file\n')
ran('a file without a name', [SCRIPT, '', '0'], 2, b'', b'cannot read \n')
for words in ([], ['-'], ['0'], ['-', '0', '0'], ['samples/tank.hex']):
    ran('%d words' % len(words), [SCRIPT] + words, 2, b'', USAGE, input=GOOD)
ran('a wrong address, and a file that is not there', [SCRIPT, 'no/such', 'x'], 2, b'', USAGE)
if DEV_FULL:
    ran('a full device, and nothing stated', in_shell('>' + DEV_FULL, WORDS), 2, b'', b'cannot write\n', input=END)
    ran('a full device for a refusal', in_shell('2>' + DEV_FULL, WORDS), 2, b'', b'', input=b'')
    ran('a full device for nothing', in_shell('2>' + DEV_FULL, WORDS), 0, b'11\n', b'', input=GOOD)
    ran('a full device, and a file that is not there', in_shell('2>' + DEV_FULL, [SCRIPT, 'no/such', '0']), 2, b'', b'')
    ran('a full device, and no address', in_shell('2>' + DEV_FULL, [SCRIPT, '-']), 2, b'', b'')
helps(SCRIPT, [b'usage: ./ask FILE ADDRESS', b'If FILE is -, it reads standard input.', b'1 to 8 digits', b'with or without 0x', b'0 a byte was printed', b'1 the file states no byte at the address',
               b'2 the file is refused or cannot be read, the output cannot be written, memory ran out, or the usage is wrong'])

end()
