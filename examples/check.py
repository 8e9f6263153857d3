#!/usr/bin/env python3
"""Computes the examples' outputs anew, by the gate table alone, and compares them with the files. It shares nothing
with the program: it has its own table, reader, arithmetic and two methods.

    examples/check.py          every example of this folder
    examples/check.py NAME..   these, as in `examples/check.py grid`

An amplitude is (a + b w + c w^2 + d w^3) / sqrt(2)^k with w^4 = -1. Such a number is kept as one integer, its value at
w = 2^m modulo 2^(4 m) + 1: there w^4 is -1 too, so sums and products come out right. With K gates that have a factor
1/sqrt(2), no coefficient is above 2^K, so m = K + 2 bits tell all of them apart.

Up to 16 qubits the whole state is carried over the gates. Wider circuits are summed over all ways that a basis state
can take backwards through the gates, each asked bitstring for itself. Neither method cuts the circuit. `-k`, `-p` and
`-w` ask only which gates cross the cut: under `-w` the first of them are replaced by the terms that it names.
"""
import os
import sys

# Rows of exponents of w, '.' for 0; the last column says whether the matrix is divided by sqrt(2).
# On two qubits, row and column 2 a + b stand for the bit a of the gate's first qubit and b of its second.
TABLE = {
    'h': ('00 04', 1), 't': ('0. .1', 0), 's': ('0. .2', 0), 'x': ('.0 0.', 0), 'y': ('.6 2.', 0), 'z': ('0. .4', 0),
    'x_1_2': ('17 71', 1), 'y_1_2': ('15 11', 1), 'hz_1_2': ('16 01', 1), 'id1': ('0. .0', 0),
    'cz': ('0... .0.. ..0. ...4', 0), 'cnot': ('0... .0.. ...0 ..0.', 0), 'is': ('0... ..2. .2.. ...0', 0),
    'sw': ('0... ..0. .0.. ...0', 0), 'id2': ('0... .0.. ..0. ...0', 0),
}
# The terms of a gate across the cut, each a factor for its first qubit and one for its second.
TERMS = {
    'cz': [('0. ..', '0. .0'), ('.. .0', '0. .4')],
    'cnot': [('0. ..', '0. .0'), ('.. .0', '.0 0.')],
    'is': [('0. ..', '0. ..'), ('.. .0', '.. .0'), ('.2 ..', '.. 0.'), ('.. 2.', '.0 ..')],
    'sw': [('0. ..', '0. ..'), ('.. .0', '.. .0'), ('.0 ..', '.. 0.'), ('.. 0.', '.0 ..')],
    'id2': [('0. .0', '0. .0')],
}
WHOLE = 16  # the most qubits whose whole state is carried


def matrix(text):
    """The rows of a matrix, exponents and None for 0."""
    return [[None if e == '.' else int(e) for e in row] for row in text.split()]


def together(one, two):
    """The matrix on two qubits that is made of one on each."""
    return [[None if x is None or y is None else (x + y) % 8 for x in r for y in s] for r in one for s in two]


def read_circuit(text, latest):
    """The number of qubits, and (name, qubits) for each gate up to the greatest time."""
    lines = [line.split() for line in text.splitlines() if line.strip() and not line.strip().startswith('#')]
    return int(lines[0][0]), [(line[1], [int(q) for q in line[2:]]) for line in lines[1:] if int(line[0]) <= latest]


def grid(start, rows, cols, depth):
    """The generated circuit of a grid."""
    state, n = start, rows * cols
    gates = [('h', [q]) for q in range(n)]
    for time in range(1, depth + 1):
        pattern, used = (time - 1) % 4, set()
        for q in range(n):
            row, col = divmod(q, cols)
            along, end, step = (col, cols, 1) if pattern % 2 == 0 else (row, rows, cols)
            if along % 2 == pattern // 2 and along + 1 < end:
                gates.append(('cz', [q, q + step]))
                used |= {q, q + step}
        for q in range(n):
            if q not in used:
                state = (state * 6364136223846793005 + 1442695040888963407) % 2 ** 64
                gates.append((['t', 'x_1_2', 'y_1_2'][(state >> 33) % 3], [q]))
    return n, gates + [('h', [q]) for q in range(n)]


def matrices(gates, part, prefix_gates, prefix):
    """The matrix and qubits of each gate; where `prefix` is given, the first gates across the cut by its digits."""
    crossing = [i for i, (_, qs) in enumerate(gates) if len({q in part for q in qs}) == 2]
    chosen = {}
    if prefix is not None:
        for i in reversed(crossing[:prefix_gates]):
            prefix, chosen[i] = divmod(prefix, len(TERMS[gates[i][0]]))
        assert prefix == 0, 'no such prefix value'
    found = []
    for i, (name, qubits) in enumerate(gates):
        if i in chosen:
            one, two = TERMS[name][chosen[i]]
            found.append((together(matrix(one), matrix(two)), qubits))
        else:
            found.append((matrix(TABLE[name][0]), qubits))
    return found, len(crossing)


class Ring:
    """Numbers of at most `weight` factors, each an integer modulo 2^(4 m) + 1."""

    def __init__(self, weight):
        self.weight, self.m = weight, weight + 2
        self.modulus = 2 ** (4 * self.m) + 1

    def turned(self, numbers, j):
        """The numbers times w^j; w^4 is -1."""
        if j % 4 == 0:
            return numbers if j == 0 else [-z for z in numbers]
        return [(z << self.m * j) % self.modulus for z in numbers]

    def coefficients(self, z):
        """a, b, c, d: digits of the base w, each nearest to 0."""
        z, found = z % self.modulus, []
        z = z - self.modulus if 2 * z > self.modulus else z
        for _ in range(4):
            digit = (z + 2 ** (self.m - 1)) % 2 ** self.m - 2 ** (self.m - 1)
            found.append(digit)
            z = (z - digit) >> self.m
        assert z == 0
        return found

    def line(self, bits, z):
        """The line of an amplitude, in the form of least k."""
        (a, b, c, d), k = self.coefficients(z), self.weight
        if not (a or b or c or d):
            return '%s 0 0 0 0 0' % bits
        # sqrt(2) is w - w^3, and z / sqrt(2) is z (w - w^3) / 2
        while k and (a + c) % 2 == 0 and (b + d) % 2 == 0:
            a, b, c, d, k = (b - d) // 2, (a + c) // 2, (b + d) // 2, (c - a) // 2, k - 1
        return '%s %d %d %d %d %d' % (bits, a, b, c, d, k)

    def prob_line(self, bits, z):
        """The line of the probability (P + Q sqrt(2)) / 2^k, in the form of least k."""
        (a, b, c, d), k = self.coefficients(z), self.weight
        p, q = a * a + b * b + c * c + d * d, a * b + b * c + c * d - d * a
        if p == 0:
            return '%s 0 0 0' % bits
        while k and p % 2 == 0 and q % 2 == 0:
            p, q, k = p // 2, q // 2, k - 1
        return '%s %d %d %d' % (bits, p, q, k)


def whole_state(ring, n, ops):
    """The state after all gates, a list over all basis indices; qubit q is bit q of an index."""
    state = [1] + [0] * (2 ** n - 1)
    for rows, qubits in ops:
        places = [1 << q for q in qubits]
        offsets = [sum(p for i, p in enumerate(places) if c >> len(places) - 1 - i & 1) for c in range(len(rows))]
        mask, old, state = sum(places), state, state[:]
        for offset, row in zip(offsets, rows):
            entries = [(offset ^ other, j) for other, j in zip(offsets, row) if j is not None]
            if entries == [(0, 0)]:
                continue
            places_of_row = [x for x in range(2 ** n) if x & mask == offset]
            products = [ring.turned([old[x ^ flip] for x in places_of_row], j) for flip, j in entries]
            for x, z in zip(places_of_row, map(sum, zip(*products)) if products else [0] * len(places_of_row)):
                state[x] = z
    return state


def backwards(ring, ops):
    """A function that gives the number at a basis index, summed over all ways back to the ground state."""
    first = {}
    for i, (_, qubits) in enumerate(ops):
        for q in qubits:
            first.setdefault(q, i)

    def number(count, x):
        """The number at index x after `count` gates."""
        if count == 0:
            return int(x == 0)
        rows, qubits = ops[count - 1]
        row = rows[sum((x >> q & 1) << len(qubits) - 1 - i for i, q in enumerate(qubits))]
        total = 0
        for column, j in enumerate(row):
            bits = [column >> len(qubits) - 1 - i & 1 for i in range(len(qubits))]
            # before its first gate a qubit is 0
            if j is None or any(b and first[q] == count - 1 for q, b in zip(qubits, bits)):
                continue
            y = x
            for q, b in zip(qubits, bits):
                y = y & ~(1 << q) | b << q
            total += ring.turned([number(count - 1, y)], j)[0]
        return total % ring.modulus

    return lambda x: number(len(ops), x)


def lines_of(n, gates, strings, part=(), p=0, prefix=None, both=False, prob=False):
    """The output's lines for these bitstrings; with `both` by both methods, which have to agree."""
    ops, _ = matrices(gates, part, p, prefix)
    ring = Ring(sum(TABLE[name][1] for name, _ in gates))
    indices = [sum(1 << q for q, bit in enumerate(s) if bit == '1') for s in strings]
    back = backwards(ring, ops)
    if n > WHOLE:
        numbers = [back(x) for x in indices]
    else:
        state = whole_state(ring, n, ops)
        numbers = [state[x] for x in indices]
        if both:
            assert [z % ring.modulus for z in numbers] == [back(x) for x in indices], 'the methods differ'
    line = ring.prob_line if prob else ring.line
    return [line(s, z) for s, z in zip(strings, numbers)]


def options(words):
    """The values of the options, by their letters; the flag --prob by its name."""
    flags = {word.strip('-'): True for word in words if word == '--prob'}
    words = [word for word in words if word != '--prob']
    return {**flags, **{words[i][1]: words[i + 1] for i in range(0, len(words), 2)}}


def output(folder, name):
    """The output of an example."""
    path = lambda end: os.path.join(folder, name + end)
    text = lambda end: open(path(end), encoding='ascii').read()
    asked = options(text('.words').split()) if os.path.exists(path('.words')) else {}
    part = {int(q) for q in asked['k'].split(',')} if 'k' in asked else set()
    p, r = int(asked.get('p', 0)), int(asked.get('r', 0))
    prefix = int(asked['w']) if 'w' in asked else None
    if 'g' in asked:
        n, gates = grid(*(int(x) for x in asked['g'].split(',')))
        strings = [''.join(str(x >> q & 1) for q in range(n)) for x in range(min(8, 2 ** n))]
        crossing = [name for name, qs in gates if len({q in part for q in qs}) == 2]
        ranges = 1
        for gate in crossing[p if prefix is not None else 0:p + r]:
            ranges *= len(TERMS[gate])
        weight = sum(TABLE[gate][1] for gate, _ in gates)
        head = ['gen %d %d %d %d %d' % (n, len(gates), weight, len(crossing), ranges if part else 0)]
    else:
        (n, gates), head = read_circuit(text('.circuit'), int(asked.get('d', 2 ** 32))), []
        strings = text('.bits').split()
    both = n > WHOLE or sum(TABLE[gate][1] for gate, _ in gates) - n < 12
    return '\n'.join(head + lines_of(n, gates, strings, part, p, prefix, both, 'prob' in asked)) + '\n'


def check_table():
    """The roots are roots, and the terms of each gate add up to its matrix."""
    ring = Ring(2)

    def number(e):
        return 0 if e is None else ring.turned([1], e)[0]

    def product(x, y):
        two = range(2)
        return [[sum(number(x[i][k]) * number(y[k][j]) for k in two) % ring.modulus for j in two] for i in two]

    w = [number(e) for e in range(8)]
    # twice X, Y and (X + Y) / sqrt(2), since each root is divided by sqrt(2)
    squares = {'x_1_2': [[0, 2], [2, 0]], 'y_1_2': [[0, 2 * w[6]], [2 * w[2], 0]],
               'hz_1_2': [[0, 2 * w[7]], [2 * w[1], 0]]}
    for name, square in squares.items():
        root = matrix(TABLE[name][0])
        assert product(root, root) == [[z % ring.modulus for z in row] for row in square], name
        # the sum of the eigenvalues is 1 + i, which is sqrt(2) w
        assert root[0][0] == root[1][1] == 1, name
    for name, terms in TERMS.items():
        whole = matrix(TABLE[name][0])
        made = [together(matrix(one), matrix(two)) for one, two in terms]
        for i in range(4):
            for j in range(4):
                assert (sum(number(m[i][j]) for m in made) - number(whole[i][j])) % ring.modulus == 0, name


def main():
    check_table()
    folder = os.path.dirname(os.path.abspath(__file__))
    names = sys.argv[1:] or sorted(name[:-4] for name in os.listdir(folder) if name.endswith('.out'))
    failed = False
    for name in names:
        with open(os.path.join(folder, name + '.out'), encoding='ascii') as wanted:
            if output(folder, name) != wanted.read():
                print('%s.out is not what its circuit gives' % name)
                failed = True
    sys.exit(failed)


main()
