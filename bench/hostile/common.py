"""What the hostile tests have in common: small jobs, their runs, and what a file of theirs means.

`Job.meaning` is a checker that shares no code with the program: it is written from docs/JOURNAL.md.
"""
import argparse
import os
import subprocess
import sys
import tempfile

sys.dont_write_bytecode = True
HERE = os.path.dirname(os.path.realpath(__file__))
TOP = os.path.dirname(os.path.dirname(HERE))
sys.path.insert(0, os.path.dirname(HERE))
from journal import least  # noqa: E402

MARK = 0xA5
STATUS_OF = {'circuit': (4, b'read fault: circuit\n'), 'bits': (4, b'read fault: bitstrings\n')}


class Job:
    """A circuit that is cut, its strings, and how many ranges of how many paths it has."""

    def __init__(self, circuit, part, strings, prefix=0, root=0, value=None, paths=1, ranges=1):
        self.circuit, self.part, self.strings = circuit, part, strings
        self.prefix, self.root, self.value, self.paths, self.ranges = prefix, root, value, paths, ranges

    def first_path(self, index):
        return ((self.value or 0) * self.ranges + index) * self.paths

    def bits(self):
        return ''.join(s + '\n' for s in self.strings)

    def words(self, folder):
        words = ['-c', os.path.join(folder, 'circuit'), '-i', os.path.join(folder, 'bits')]
        words += ['-k', ','.join(map(str, self.part)), '-p', str(self.prefix), '-r', str(self.root)]
        return words + (['-w', str(self.value)] if self.value is not None else [])

    def write(self, folder):
        for name, text in (('circuit', self.circuit), ('bits', self.bits())):
            with open(os.path.join(folder, name), 'w') as file:
                file.write(text)

    def weight(self):
        return sum(line.split()[1] in ('h', 'x_1_2', 'y_1_2', 'hz_1_2') for line in self.circuit.splitlines()[1:])

    def text(self):
        """The job text, as in the worked file of docs/JOURNAL.md."""
        lines = ['job 1', 'part ' + ' '.join(map(str, sorted(self.part))), 'split %d %d' % (self.prefix, self.root)]
        lines += ['prefix ' + ('all' if self.value is None else str(self.value)), 'bits %d' % len(self.strings)]
        gates = self.circuit.splitlines()[1:]
        lines += self.strings + ['gates %d' % len(gates), self.circuit.splitlines()[0]] + gates
        return ''.join(line + '\n' for line in lines).encode()

    def stride(self):
        return 10 + 64 * len(self.strings)

    def head(self, old=False):
        """The bytes before the first slot, of format 2 or of the first one."""
        text = self.text()
        numbers = [len(text)] if old else [len(text), self.ranges, len(self.strings)]
        name = b'\xa5QSHJ001' if old else b'\xa5QSHJ002'
        return name + b''.join(n.to_bytes(8, 'big') for n in numbers) + text

    def length(self):
        return len(self.head()) + self.ranges * self.stride()

    def slot_at(self, index, old=False):
        return len(self.head(old)) + index * self.stride()

    def meaning(self, data, old=False):
        """The first refusal of these bytes, and else their open slots: a text, or bodies by range."""
        head = self.head(old)
        if not data:
            return 'Empty'
        if data[0] != MARK:
            return 'Unbegun'
        if not old and len(data) >= 16 and data[1:8] == b'QSHJ001':
            return 'OldJournal'
        if len(data) < (16 if old else 32) or data[1:8] != head[1:8]:
            return 'NotAJournal'
        if data[:len(head)] != head:
            differ = [i for i, (a, b) in enumerate(zip(data, head)) if a != b]
            return 'OtherJob at %d' % (differ[0] if differ else len(data))
        if len(data) != len(head) + self.ranges * self.stride():
            return 'BadLength %d' % len(data)
        slots = {}
        for i in range(self.ranges):
            slot = data[self.slot_at(i, old):self.slot_at(i, old) + self.stride()]
            if slot[0] == MARK:
                if not self.fits(slot[1:], i):
                    return 'BadSlot %d' % i
                slots[i] = slot[1:]
        return slots

    def fits(self, body, index):
        path, numbers = int.from_bytes(body[1:9], 'big'), coefficients(body)
        if body[0] == 0:
            return path == 0 and all(abs(n) < self.paths << 94 for n in numbers)
        return body[0] == 1 and not any(body[9:]) and self.first_path(index) <= path < self.first_path(index) + self.paths

    def answer(self, bodies):
        """Status, output and line that follow from the bodies of all slots."""
        over = [int.from_bytes(b[1:9], 'big') for b in bodies if b[0] == 1]
        if over:
            return 3, b'', b'overflow: path %d\n' % min(over)
        totals = [sum(column) for column in zip(*map(coefficients, bodies))]
        lines = [[s] + [str(n) for n in least(tuple(totals[4 * i:4 * i + 4]), self.weight())] for i, s in enumerate(self.strings)]
        return 0, ''.join(' '.join(line) + '\n' for line in lines).encode(), b''


def coefficients(body):
    return [int.from_bytes(body[i:i + 16], 'big', signed=True) for i in range(9, len(body), 16)]


BELL = Job('2\n0 h 0\n1 cnot 0 1\n', [0], ['00', '10', '01', '11'], paths=2)
# Two qubits with two gates across the cut, a range for each term of the first.
TWO = Job('2\n0 h 0\n0 h 1\n1 cz 0 1\n2 h 0\n3 cnot 1 0\n4 t 1\n5 h 1\n', [0], ['00', '10', '01', '11'], prefix=1, paths=2, ranges=2)
# Four qubits with five gates across the cut: sixteen ranges of two paths.
MANY = Job('4\n0 h 0\n0 h 1\n0 h 2\n0 h 3\n1 cz 0 2\n1 cz 1 3\n2 h 0\n2 x_1_2 2\n3 cnot 0 3\n4 t 3\n5 cz 1 2\n6 h 1\n7 cz 0 3\n8 h 0\n8 h 3\n',
           [0, 1], ['0000', '1010', '0111', '1111', '0001'], prefix=2, root=2, paths=2, ranges=16)
# The same circuit, one prefix value of four.
SHARE = Job(MANY.circuit, [0, 1], ['0000', '1010', '0111'], prefix=2, root=1, value=2, paths=4, ranges=2)
JOBS = {'bell': BELL, 'two': TWO, 'many': MANY, 'share': SHARE}


class Run:
    def __init__(self, status, out, err):
        self.status, self.out, self.err = status, out, err

    def __eq__(self, other):
        return (self.status, self.out, self.err) == other

    def __str__(self):
        return 'status %s, output %r, line %r' % (self.status, self.out[:120], self.err[:120])


class Test:
    """Counts what was tried, and what of it failed, and ends with the line `N tried, M failed`."""

    def __init__(self, name, options):
        self.name, self.options, self.tried, self.failed, self.said, self.whole = name, options, 0, set(), 0, True

    def fail(self, text):
        self.failed.add(self.tried)
        self.said += 1
        if self.said <= 30:
            print('%s: %s' % (self.name, text), flush=True)

    def check(self, holds, text, *values):
        if not holds:
            self.fail(text % tuple(str(v) for v in values) if values else text)
        return holds

    def run(self, words, **environment):
        """A run of the program; a status of None is one that hung."""
        try:
            done = subprocess.run([self.options.program] + words, stdin=subprocess.DEVNULL, stdout=subprocess.PIPE, stderr=subprocess.PIPE,
                                  env=dict(os.environ, **environment), timeout=60, check=False)
        except subprocess.TimeoutExpired:
            return Run(None, b'', b'hung')
        return Run(done.returncode, done.stdout, done.stderr)

    def reached(self, count):
        """Says so where the clock stopped the test before so many cases; it then ends with 1, though none failed."""
        self.whole = self.tried >= count
        if not self.whole:
            print('%s: stopped after %d of %d' % (self.name, self.tried, count))

    def end(self):
        print('%d tried, %d failed' % (self.tried, len(self.failed)))
        return 0 if self.tried and self.whole and not self.failed else 1


def built(test, folder):
    """The C file beside the script, as a shared object; ends the script with a line where there is no compiler."""
    for compiler in ('cc', 'gcc', 'clang'):
        made = os.path.join(folder, test + '.so')
        try:
            subprocess.run([compiler, '-O1', '-shared', '-fPIC', '-o', made, os.path.join(HERE, test + '.c'), '-lpthread', '-ldl'], check=True)
        except FileNotFoundError:
            continue
        return made
    print('%s: left out: there is no C compiler' % test)
    sys.exit(0)


def read(*path):
    """The bytes of a file, and none where there is no such file."""
    try:
        with open(os.path.join(*path), 'rb') as file:
            return file.read()
    except FileNotFoundError:
        return b''


def write(data, *path):
    with open(os.path.join(*path), 'wb') as file:
        file.write(data)


def remove(*path):
    if os.path.lexists(os.path.join(*path)):
        os.remove(os.path.join(*path))


def arguments(description, **numbers):
    """The options that all tests have, and these with their default numbers."""
    parser = argparse.ArgumentParser(description=description)
    parser.add_argument('--program', default=os.path.join(TOP, 'out', 'qsimh_amplitudes'))
    parser.add_argument('--seed', type=int, default=1)
    parser.add_argument('--folder', default='/dev/shm' if os.path.isdir('/dev/shm') else None, help='where the files lie')
    for name, number in numbers.items():
        parser.add_argument('--' + name, type=type(number), default=number)
    return parser


def main(name, parser, body):
    """Runs the body over a test and a temporary folder, and ends with its status."""
    options = parser.parse_args()
    with tempfile.TemporaryDirectory(dir=options.folder) as folder:
        test = Test(name, options)
        body(test, folder)
        sys.exit(test.end())
