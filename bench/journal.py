#!/usr/bin/env python3
"""Reads a journal as docs/JOURNAL.md states it, and shares nothing with the program.

    bench/journal.py FILE     what the file is, and each open slot

`Journal` takes the job from the file's own head, so a file can be looked at without its circuit; its refusal is none
where the file stands for that job, but for whether a plan accepts it. `refusal` says why a file is refused for a job
that is known, and `whole` makes the bytes of a journal.
"""
import math
import signal
import sys

MARK = 0xA5
OLD, NEW = b'QSHJ001', b'QSHJ002'
TERMS = {b'cz': 2, b'cnot': 2, b'is': 4, b'sw': 4, b'id2': 1}
DOUBLING = (b'h', b'x_1_2', b'y_1_2', b'hz_1_2')


class Job:
    """What the text of a job says, as far as a journal asks: strings, ranges, the paths of each, and the gates' weight."""

    def __init__(self, text):
        self.text, lines = text, text.split(b'\n')
        part = set(lines[1].split()[1:])
        prefix, root = (int(n) for n in lines[2].split()[1:])
        value, count = lines[3].split()[1], int(lines[4].split()[1])
        self.strings = lines[5:5 + count]
        gates = [line.split() for line in lines[7 + count:-1]]
        terms = [TERMS[g[1]] for g in gates if len(g) == 4 and (g[2] in part) != (g[3] in part)]
        self.paths = math.prod(terms[prefix + root:])
        self.ranges = math.prod(terms[0 if value == b'all' else prefix:prefix + root])
        self.first = 0 if value == b'all' else int(value) * self.ranges * self.paths
        self.weight = sum(g[1] in DOUBLING for g in gates)
        self.slot = 10 + 64 * count

    def head(self):
        """What stands before the first slot."""
        numbers = (len(self.text), self.ranges, len(self.strings))
        return bytes([MARK]) + NEW + b''.join(n.to_bytes(8, 'big') for n in numbers) + self.text

    def verdict(self, i, body):
        """The path that is over or the list of sums that a slot's bytes behind its gate spell, and none where they do not."""
        path, rest = int.from_bytes(body[1:9], 'big'), body[9:]
        if body[0] == 1:
            low = self.first + i * self.paths
            return path if low <= path < low + self.paths and not any(rest) else None
        numbers = [int.from_bytes(rest[k:k + 16], 'big', signed=True) for k in range(0, len(rest), 16)]
        if body[0] or path or any(abs(n) >= 2 ** 94 * self.paths for n in numbers):
            return None
        return [tuple(numbers[k:k + 4]) for k in range(0, len(numbers), 4)]

    def answer(self, verdicts):
        """The least path that is over, or the lines of the output."""
        paths = [v for v in verdicts if isinstance(v, int)]
        if paths:
            return min(paths)
        totals = [tuple(sum(c) for c in zip(*numbers)) for numbers in zip(*verdicts)]
        return [b' '.join([s] + [b'%d' % n for n in least(z, self.weight)]) for s, z in zip(self.strings, totals)]


def job_text(part, split, strings, qubits, gates):
    """The text of a job over all prefix values."""
    lines = ['job 1', 'part ' + ' '.join(map(str, sorted(part))), 'split %d %d' % split, 'prefix all']
    lines += ['bits %d' % len(strings)] + strings + ['gates %d' % len(gates), str(qubits)] + gates
    return ''.join(line + '\n' for line in lines).encode()


def spelled(verdict, strings):
    """The bytes of a slot behind its gate."""
    if isinstance(verdict, int):
        return b'\1' + verdict.to_bytes(8, 'big') + bytes(64 * strings)
    return bytes(9) + b''.join(c.to_bytes(16, 'big', signed=True) for z in verdict for c in z)


def whole(job, verdicts):
    """The bytes of a journal, with an open slot for each verdict and a closed one of zeros for each None."""
    closed = bytes(job.slot)
    slots = (closed if v is None else bytes([MARK]) + spelled(v, len(job.strings)) for v in verdicts)
    return job.head() + b''.join(slots)


def name_refusal(data):
    """The first refusal that rests on the name alone."""
    if not data:
        return 'Empty'
    if data[0] != MARK:
        return 'Unbegun'
    if len(data) >= 16 and data[1:8] == OLD:
        return 'OldJournal'
    return 'NotAJournal' if len(data) < 32 or data[1:8] != NEW else None


def slots_of(data, job):
    """The bytes behind the gate of each open slot, by ranges."""
    bodies, start = {}, len(job.head())
    for i in range(job.ranges):
        at = start + i * job.slot
        if data[at] == MARK:
            bodies[i] = data[at + 1:at + job.slot]
    return bodies


def refusal(data, job):
    """The first refusal of a file for a job, or none."""
    named, head = name_refusal(data), job.head()
    if named:
        return named
    for place in range(8, len(head)):
        if data[place:place + 1] != head[place:place + 1]:
            return 'OtherJob at %d' % place
    if len(data) != len(head) + job.ranges * job.slot:
        return 'BadLength %d' % len(data)
    bad = [i for i, body in slots_of(data, job).items() if job.verdict(i, body) is None]
    return 'BadSlot %d' % bad[0] if bad else None


class Journal:
    """The slots of a file, or why it is no journal of the job that it names."""

    def __init__(self, data):
        self.slots, self.ranges, self.refusal = {}, 0, name_refusal(data)
        if not self.refusal:
            self.job = Job(data[32:32 + int.from_bytes(data[8:16], 'big')])
            self.ranges, self.strings, self.refusal = self.job.ranges, self.job.strings, refusal(data, self.job)
            if not self.refusal:
                self.slots = slots_of(data, self.job)

    def sums(self, i):
        """The four coefficients of each bitstring, or the path that is over, of an open slot."""
        return self.job.verdict(i, self.slots[i])

    def lines(self):
        """The output that the slots give, where none is over."""
        return self.job.answer([self.sums(i) for i in self.slots])


def least(z, k):
    """The form of z / sqrt(2)^k with the least k: divided by w - w^3 while that goes."""
    if not any(z):
        return (0, 0, 0, 0, 0)
    a, b, c, d = z
    while k and (a - c) % 2 == 0 and (b - d) % 2 == 0:
        a, b, c, d, k = (b - d) // 2, (a + c) // 2, (b + d) // 2, (c - a) // 2, k - 1
    return (a, b, c, d, k)


def main(name):
    with open(name, 'rb') as file:
        journal = Journal(file.read())
    if journal.refusal:
        print(journal.refusal)
        return 1
    print('%d of %d ranges, %d bitstrings' % (len(journal.slots), journal.ranges, len(journal.strings)))
    for i in sorted(journal.slots):
        print(i, journal.sums(i))
    return 0


if __name__ == '__main__':
    # Its front is enough for a reader that closes the pipe.
    signal.signal(signal.SIGPIPE, signal.SIG_DFL)
    sys.exit(main(sys.argv[1]))
