"""What the tests of a built program share: its command, the scripts that start it, and the count of what passed and failed."""
import os
import pty
import select
import signal
import subprocess
import sys
import tempfile
import time

ROOT = os.path.dirname(os.path.dirname(os.path.abspath(__file__)))
SECONDS = 30
DEV_FULL = '/dev/full' if os.path.exists('/dev/full') else None
if DEV_FULL is None:
    print('-- passed over: an output onto a full device: there is no /dev/full')

passed = failed = 0

# The scripts run with this in place of the checker: it finds every crate proved, or does what the variable CHECK says. As under `rt run`
# of the checker, what is said goes to standard error.
STUB = tempfile.TemporaryDirectory()
with open(os.path.join(STUB.name, 'rt'), 'w') as f:
    f.write('#!/bin/sh\ncase $1 in\nrun) eval "${CHECK:-}" >&2 ;;\n*) exit 2 ;;\nesac\n')
os.chmod(os.path.join(STUB.name, 'rt'), 0o755)


def command(name):
    """The words that start a program which the checker has built."""
    run = os.path.join(ROOT, 'tools', 'run')
    words = subprocess.run([run, '--command', name], stdout=subprocess.PIPE, check=True, cwd=ROOT).stdout
    return words.decode().splitlines()


class Printing:
    """A program that runs, with what it has printed so far."""

    def watch(self, child, seconds):
        """Takes what this child prints, for so many seconds at most."""
        self.child, self.ends = child, time.monotonic() + seconds
        self.printed, self.closed = b'', False

    def wait(self, ready, seconds):
        """Takes what the program prints within so many seconds, or less where a piece can be sent."""
        if time.monotonic() > self.ends:
            raise TimeoutError
        reads, writes, _ = select.select([] if self.closed else [self.child.stdout], ready, [], seconds)
        if reads:
            got = os.read(self.child.stdout.fileno(), 65536)
            self.printed += got
            self.closed = not got
        return writes


def samples():
    """The names of the files in samples/."""
    return sorted(entry.name for entry in os.scandir(os.path.join(ROOT, 'samples')) if entry.is_file())


def told(name, ok, why=''):
    global passed, failed
    if ok:
        passed += 1
    else:
        failed += 1
        print('FAILED %s%s' % (name, ': ' + why if why else ''))


def end():
    """Prints the count, and ends with status 1 if any failed."""
    print('%d passed, %d failed' % (passed, failed))
    sys.exit(failed != 0)


def ran(name, words, status, out, err=b'', **files):
    """A command ends with this status, and prints just this on standard output and on standard error."""
    files.setdefault('stdout', subprocess.PIPE)
    try:
        run = subprocess.run(words, stderr=subprocess.PIPE, timeout=SECONDS, cwd=ROOT, **files)
    except subprocess.TimeoutExpired:
        return told(name, False, 'no end within %d s' % SECONDS)
    got = (run.returncode, run.stdout or b'', run.stderr)
    told(name, got == (status, out, err), 'status %d, %r, %r' % (got[0], got[1][-200:], got[2][-200:]))


def in_shell(redirections, words):
    """The command in a shell, with these redirections."""
    return ['sh', '-c', 'exec "$@" ' + redirections, 'sh'] + words


# The words of each refusal of a line, from its number and its values.
WORDS = {1: "missing start code ':'", 2: 'invalid characters encountered in record', 3: 'too short', 4: 'too long', 5: 'record does not contain a whole number of bytes',
         6: "invalid checksum '%s', expecting '%s'", 7: 'payload length does not match record header', 8: "unsupported IHEX record type '%s'",
         9: 'payload length invalid for record type'}


def in_words(number, refusal):
    """What a program says of a refused line, from its number and from the refusal as the model tells it."""
    why, *values = refusal[2:].split()
    if why == '2':
        place = int(values[0], 16)
        return 'line %d, column %d%s: %s' % (number, place + 1, ' or beyond' if place == 65535 else '', WORDS[2])
    return 'line %d: %s' % (number, WORDS[int(why)] % tuple(values) if values else WORDS[int(why)])


def with_stub(check=''):
    return dict(os.environ, PATH=STUB.name + ':' + os.environ['PATH'], CHECK=check)


def undisturbed():
    """For a process that is to be stopped: signals as a shell at a terminal leaves them."""
    for number in (signal.SIGINT, signal.SIGTERM, signal.SIGHUP, signal.SIGQUIT):
        signal.signal(number, signal.SIG_DFL)


def gone(pid):
    """Whether a process has ended, within the time that is given it."""
    ends = time.monotonic() + SECONDS
    while time.monotonic() < ends:
        try:
            with open('/proc/%d/stat' % pid) as f:
                if f.read().rsplit(')', 1)[1].split()[0] == 'Z':
                    return True
        except FileNotFoundError:
            return True
        time.sleep(0.01)
    return False


def within(found):
    """What a function finds, once it finds something."""
    ends = time.monotonic() + SECONDS
    while time.monotonic() < ends:
        got = found()
        if got:
            return got
        time.sleep(0.01)
    return found()


def held(path):
    """What a file holds, or nothing where it is not there."""
    try:
        with open(path, 'rb') as f:
            return f.read()
    except FileNotFoundError:
        return b''


def terminal():
    """A terminal's two ends, or None where there is none to be had."""
    try:
        return pty.openpty()
    except OSError:
        return None


def shown(line):
    """What is written to a terminal, up to its end."""
    got = b''
    while True:
        try:
            piece = os.read(line, 65536)
        except OSError:
            return got
        if not piece:
            return got
        got += piece


# ---- a program that says its exit status, and the script that takes it


def says(name, words, text, digit):
    """The program, started with an argument, writes this digit to descriptor 3. Without one it writes nothing there."""
    ran('%s: descriptor 3' % name, in_shell('3>&1 >/dev/null 2>&1', words + ['status']), 0, digit, input=text)
    ran('%s: descriptor 3, not asked for' % name, in_shell('3>&1 >/dev/null 2>&1', words), 0, b'', input=text)


def started(name, script, status, out, err=b'', check='', **files):
    """A script, with its words, where the checker does what `check` says."""
    ran('%s: %s' % (' '.join(script), name), script, status, out, err, env=with_stub(check), **files)


def refuses(script, first):
    """What a script says of an input or an output that fails. `first` is printed before anything is read."""
    folder = os.open(os.path.join(ROOT, 'samples'), os.O_RDONLY)
    good = b':00000001FF\n'
    started('a folder', [script], 2, first, b'cannot read\n', stdin=folder)
    os.close(folder)
    started('a closed standard input', in_shell('<&-', [script]), 2, b'', b'cannot read\n', input=good)
    started('a closed standard output', in_shell('>&-', [script]), 2, b'', b'cannot write\n', input=good)
    if DEV_FULL:
        started('a full device', in_shell('>' + DEV_FULL, [script]), 2, b'', b'cannot write\n', input=good)
    reads, writes = os.pipe()
    os.close(reads)
    started('a pipe that nobody reads', [script], 2, b'', b'', input=good, stdout=writes)
    os.close(writes)
    started('not proved', [script], 2, b'', b'rt: FAILED: record\n', 'echo "rt: FAILED: record"; exit 1', input=good)


def over_rust(words, good):
    """What a script over tools/rust says where its input, an output, the archive or the place for temporary files fails, and nothing else
    does, with the input `good`."""
    folder = os.open(os.path.join(ROOT, 'samples'), os.O_RDONLY)
    ran('a folder', words, 2, b'', b'cannot read\n', stdin=folder)
    os.close(folder)
    ran('a closed standard input', in_shell('<&-', words), 2, b'', b'cannot read\n')
    ran('a closed standard output', in_shell('>&-', words), 2, b'', b'cannot write\n', input=good)
    ran('a closed standard error', in_shell('2>&-', words), 2, b'', b'', input=good)
    if DEV_FULL:
        ran('a full device', in_shell('>' + DEV_FULL, words), 2, b'', b'cannot write\n', input=good)
        ran('a full device, and a closed standard input', in_shell('<&- 2>' + DEV_FULL, words), 2, b'', b'')
    reads, writes = os.pipe()
    os.close(reads)
    ran('a pipe that nobody reads', words, 2, b'', b'cannot write\n', input=good, stdout=writes)
    os.close(writes)
    with tempfile.TemporaryDirectory() as folder:
        for name, variables, why in [('no archive', dict(IHEX_LIB_DIR=folder, CARGO_TARGET_DIR=folder), b'there is no'), ('no place for temporary files', dict(TMPDIR='/dev/null/none'), b'')]:
            run = subprocess.run(words, input=good, stdout=subprocess.PIPE, stderr=subprocess.PIPE, cwd=ROOT, env=dict(os.environ, **variables))
            told(name, run.returncode == 2 and run.stdout == b'' and why in run.stderr, '%d, %r' % (run.returncode, run.stderr))


def helps(script, sentences):
    for word in ('-h', '--help'):
        run = subprocess.run([script, word], stdin=subprocess.DEVNULL, stdout=subprocess.PIPE, stderr=subprocess.PIPE, cwd=ROOT)
        text = b' '.join(run.stdout.split())
        missing = [s for s in sentences if s not in text]
        told('%s %s' % (script, word), run.returncode == 0 and run.stderr == b'' and not missing, 'status %d, %r missing' % (run.returncode, missing))
    if DEV_FULL:
        started('help onto a full device', in_shell('2>/dev/null >' + DEV_FULL, [script, '--help']), 2, b'')


def children(pid):
    """The processes that a process has started."""
    found = []
    for other in os.listdir('/proc'):
        after_name = held('/proc/%s/stat' % other).rpartition(b')')[2].split() if other.isdigit() else []
        if after_name and int(after_name[1]) == pid:
            found.append(int(other))
    return found


def stops(name, words, number, ready, check='', **files):
    """A script that is stopped ends by the signal, leaves no temporary file, and what it started ends too. `ready`, called with the
    script's process and a folder for notes, answers the processes that it started, once they are there."""
    with tempfile.TemporaryDirectory() as folder, tempfile.TemporaryDirectory() as notes:
        env = dict(with_stub(check), TMPDIR=folder, NOTES=notes)
        child = subprocess.Popen(words, env=env, cwd=ROOT, preexec_fn=undisturbed, stdout=subprocess.PIPE, stderr=subprocess.PIPE, **files)
        running = within(lambda: ready(child, notes))
        child.send_signal(number)
        try:
            _, err = child.communicate(timeout=SECONDS)
        except subprocess.TimeoutExpired:
            child.kill()
            return told(name, False, 'no end within %d s' % SECONDS)
        alive = [pid for pid in running or [] if not gone(pid)]
        left = os.listdir(folder)
        told(name, bool(running) and child.returncode == -number and not left and not alive,
             'status %d, files %r, processes %r of %r, %r' % (child.returncode, left, alive, running, err))


def proves(name, crates):
    """`tools/proved` shows at a terminal which crate is being proved, and stops the checker where it is stopped."""
    words = [os.path.join('tools', 'proved'), name]
    pair = terminal()
    if pair is None:
        print('-- passed over: what tools/proved shows at a terminal: there is no terminal')
    else:
        line, mine = pair
        check = 'for crate in %s; do echo "rt: chose --jobs 2 for $crate"; echo "logic=proved"; done' % ' '.join(crates)
        child = subprocess.Popen(words, env=with_stub(check), cwd=ROOT, stdin=subprocess.DEVNULL, stdout=subprocess.PIPE, stderr=mine)
        os.close(mine)
        out, _ = child.communicate(timeout=SECONDS)
        seen = [part.strip() for part in shown(line).decode().split('\r') if part.strip()]
        os.close(line)
        wanted = ['proving %s (%d of %d)' % (crate, n + 1, len(crates)) for n, crate in enumerate(crates)]
        told('tools/proved %s at a terminal' % name, seen == wanted and out == b'records\n0 answers\n' and child.returncode == 1, 'status %d, %r, %r' % (child.returncode, out, seen))

    def ready(child, notes):
        pids = [held(os.path.join(notes, note)).decode() for note in ('checker', 'helper')]
        return [int(pid) for pid in pids] if all(pid.endswith('\n') for pid in pids) else None

    for number in (signal.SIGINT, signal.SIGTERM, signal.SIGHUP):
        stops('tools/proved %s, stopped by signal %d while it proves' % (name, number), words, number, ready,
              'sleep 60 & echo $! >"$NOTES/helper"; echo $$ >"$NOTES/checker"; wait', stdin=subprocess.DEVNULL)
