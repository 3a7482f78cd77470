"""A second implementation of jobvault's pieces, written from the documents alone.

FORMAT.md says what a piece is and when cutting and reading refuse; FIELDS.md has the two fields; COLLECTIONS.md says
how a job is brought back. Nothing here was taken from the product's source. Wherever there was a choice the plainest
way was taken, and a job is brought back by Lagrange's interpolation, not by elimination.

A `field` argument is one of the objects in FIELDS. A code is a whole number from 0 to the field's order less 1.
"""

import functools
import operator
from collections import namedtuple

LONGEST_JOB = 4096      # bytes
WORK = 4623             # codes of work that a collection asks for, whatever the job
HEADER_BYTES = 10
HEADER_WIDTHS = (2, 2, 4, 5, 5, 14, 16, 32)     # bits of the header's fields, in their order
VANDERMONDE, CAUCHY = 0, 1
LARGEST_M, LARGEST_N = 16, 32

Header = namedtuple("Header", "rows m n number length job_number stamp")


class Refused(Exception):
    """A refusal: its number, the byte that the reader names, and the place in join's list; None where there is none."""

    def __init__(self, number, byte=None, place=None):
        super().__init__(f"refused with {number}, byte {byte}, place {place}")
        self.number = number
        self.byte = byte
        self.place = place


# The fields


class Field:
    """What both fields share: products looked up in tables that are filled from the definition, row by row."""

    def times(self, a, b):
        """The product of two codes."""
        return multiples(self, a)[b]

    def inverse(self, a):
        """The code that gives 1 when multiplied by a, found by searching; 0 has none."""
        if a == 0:
            raise ZeroDivisionError(f"0 has no inverse in {self.name}")
        return multiples(self, a).index(1)


class Gf256(Field):
    """GF(2^8): polynomials over two elements, bit i the coefficient of x^i, modulo x^8 + x^4 + x^3 + x + 1."""

    name, code, order, width = "gf256", 0, 256, 8
    plus = staticmethod(operator.xor)
    minus = staticmethod(operator.xor)      # each element is its own opposite

    def product(self, a, b):
        """The product by its definition: the carry-less product, and then its remainder by long division."""
        result = 0
        for power in range(8):
            if b >> power & 1:
                result ^= a << power
        for power in range(14, 7, -1):
            if result >> power & 1:
                result ^= 0x11B << (power - 8)
        return result


class Mod257(Field):
    """The integers modulo 257."""

    name, code, order, width = "mod257", 1, 257, 9

    def plus(self, a, b):
        """The sum of two codes."""
        return (a + b) % 257

    def minus(self, a, b):
        """The difference of two codes."""
        return (a - b) % 257

    def product(self, a, b):
        """The product by its definition."""
        return a * b % 257


FIELDS = {"gf256": Gf256(), "mod257": Mod257()}


@functools.cache
def multiples(field, factor):
    """The products of one code with all codes, in the order of the codes."""
    return tuple(field.product(factor, code) for code in range(field.order))


def combination(field, factors, rows):
    """The sum of some rows of codes, all of one length, each multiplied by its factor."""
    total = [0] * len(rows[0])
    for factor, row in zip(factors, rows):
        products = map(multiples(field, factor).__getitem__, row)
        total = list(map(field.plus, total, products))
    return total


# Cutting


def columns_of(m, job_length):
    """K: how many columns of m places a job fills."""
    return -(-job_length // m)


def piece_length(field, m, job_length):
    """How many bytes a piece has: the header, and a body of K values filled up to a whole byte."""
    return HEADER_BYTES + -(-columns_of(m, job_length) * field.width // 8)


def entry(field, rows, m, number, place):
    """Entry (number, place) of the rows, both counted from 1: by what the symbol at a place is multiplied."""
    if rows == CAUCHY:
        return field.inverse(field.minus(m + number - 1, place - 1))
    power = 1
    for _ in range(place - 1):
        power = field.times(power, number)
    return power


def digits(value, width):
    """A number as a string of so many binary digits, most significant first."""
    if not 0 <= value < 1 << width:
        raise ValueError(f"{value} does not fit {width} bits")
    return format(value, f"0{width}b")


def packed(bits):
    """A string of binary digits as bytes, with digits 0 behind it up to a whole byte."""
    bits += "0" * (-len(bits) % 8)
    return bytes(int(bits[start:start + 8], 2) for start in range(0, len(bits), 8))


def piece(field, rows, m, n, number, job_number, stamp, job):
    """The bytes of one piece, for lawful arguments."""
    header = (field.code, rows, m - 1, n - 1, number - 1, len(job), job_number, stamp)
    filled = bytes(job) + bytes(-len(job) % m)
    by_place = [filled[place - 1::m] for place in range(1, m + 1)]
    factors = [entry(field, rows, m, number, place) for place in range(1, m + 1)]
    values = combination(field, factors, by_place)
    bits = "".join(map(digits, header, HEADER_WIDTHS))
    bits += "".join(digits(value, field.width) for value in values)
    return packed(bits)


def cut(field, rows, m, n, number, job_number, stamp, job, buffer):
    """Cuts a piece into the front of a buffer: (its length or minus the refusal's number, the buffer afterwards)."""
    if rows not in (VANDERMONDE, CAUCHY) or not 1 <= m <= LARGEST_M or not m <= n <= LARGEST_N:
        return -1, bytes(buffer)
    if len(job) > LONGEST_JOB:
        return -2, bytes(buffer)
    if not 1 <= number <= n:
        return -3, bytes(buffer)
    length = piece_length(field, m, len(job))
    if len(buffer) < length:
        return -4, bytes(buffer)
    return length, piece(field, rows, m, n, number, job_number, stamp, job) + bytes(buffer[length:])


# Reading


def read(field, data):
    """Reads the bytes of one piece: (its Header, the list of the K codes of its body); refuses with 6 to 10."""
    if len(data) < HEADER_BYTES:
        raise Refused(6, byte=0)
    bits = "".join(format(byte, "08b") for byte in data)
    numbers, start = [], 0
    for width in HEADER_WIDTHS:
        numbers.append(int(bits[start:start + width], 2))
        start += width
    code, rows, m_less_1, n_less_1, number_less_1, length, job_number, stamp = numbers
    header = Header(rows, m_less_1 + 1, n_less_1 + 1, number_less_1 + 1, length, job_number, stamp)
    if code != field.code:
        raise Refused(7, byte=0)
    if rows > CAUCHY or header.m > header.n or header.number > header.n or length > LONGEST_JOB:
        raise Refused(8, byte=0)
    if len(data) != piece_length(field, header.m, length):
        raise Refused(9, byte=HEADER_BYTES)
    values = []
    for _ in range(columns_of(header.m, length)):
        value = int(bits[start:start + field.width], 2)
        if value >= field.order:
            raise Refused(10, byte=start // 8)
        values.append(value)
        start += field.width
    spare = bits.find("1", start)
    if spare != -1:
        raise Refused(10, byte=spare // 8)
    return header, values


# Bringing back


def product_of(field, factors):
    """The product of some codes."""
    return functools.reduce(field.times, factors, 1)


def value_at(field, coefficients, point):
    """The value of a polynomial, given by its coefficients from the constant one upwards, at a point."""
    value = 0
    for coefficient in reversed(coefficients):
        value = field.plus(field.times(value, point), coefficient)
    return value


def lagrange(field, points):
    """For each of some different points the polynomial of lower degree than their count that is 1 there, else 0."""
    answer = []
    for point in points:
        coefficients = [1]
        for root in points:
            if root != point:       # times (x - root)
                shifted = [0] + coefficients
                multiplied = [field.times(root, coefficient) for coefficient in coefficients] + [0]
                coefficients = list(map(field.minus, shifted, multiplied))
        scale = field.inverse(value_at(field, coefficients, point))
        answer.append([field.times(scale, coefficient) for coefficient in coefficients])
    return answer


def vandermonde_weights(field, m, numbers):
    """As `weights`. The symbols are the coefficients of the polynomial whose values at the numbers are the pieces'."""
    through = lagrange(field, numbers)
    return [[polynomial[place] for polynomial in through] for place in range(m)]


def cauchy_weights(field, m, numbers):
    """As `weights`, by partial fractions.

    With poles y (the codes 0 to m - 1) and points x (m + number - 1), a value is the sum of symbol / (x - y). Times
    the product of all (x - y) that is a polynomial in x of lower degree than m. It is interpolated from the points;
    at a pole only that pole's own symbol is left, times the product of the pole's differences to the others.
    """
    poles = range(m)
    points = [m + number - 1 for number in numbers]
    cleared = [product_of(field, (field.minus(point, pole) for pole in poles)) for point in points]
    through = lagrange(field, points)
    answer = []
    for pole in poles:
        apart = product_of(field, (field.minus(pole, other) for other in poles if other != pole))
        scale = field.inverse(apart)
        answer.append([product_of(field, (scale, factor, value_at(field, polynomial, pole)))
                       for factor, polynomial in zip(cleared, through)])
    return answer


def weights(field, rows, m, numbers):
    """For each place the factors by which the values of the m pieces with these numbers sum up to its symbol."""
    if rows == CAUCHY:
        return cauchy_weights(field, m, numbers)
    return vandermonde_weights(field, m, numbers)


def symbols_of(field, header, bodies):
    """The symbols of all columns, filling ones too, from the bodies of m pieces: a dict from piece number to values."""
    factors = weights(field, header.rows, header.m, list(bodies))
    by_place = [combination(field, row, list(bodies.values())) for row in factors]
    return [symbol for column in zip(*by_place) for symbol in column]


def join(field, pieces, work_length, buffer):
    """Brings a job back from a list of pieces' bytes: (its length, the buffer with the job in front); or refuses."""
    first, bodies = None, {}
    for place, data in enumerate(pieces):
        if work_length < WORK:
            raise Refused(5, place=place)
        try:
            header, values = read(field, data)
        except Refused as refusal:
            raise Refused(refusal.number, refusal.byte, place) from None
        if first is None:
            first = header
        if len(bodies) == first.m:
            raise Refused(11, place=place)
        if header._replace(number=first.number) != first:
            raise Refused(12, place=place)
        if header.number in bodies:
            raise Refused(13, place=place)
        bodies[header.number] = values
    end = len(pieces)
    if first is None or len(bodies) < first.m:
        raise Refused(14, place=end)
    if len(buffer) < first.length:
        raise Refused(20, place=end)
    symbols = symbols_of(field, first, bodies)
    job, filling = symbols[:first.length], symbols[first.length:]
    if any(symbol > 255 for symbol in job) or any(symbol != 0 for symbol in filling):
        raise Refused(21, place=end)
    return first.length, bytes(job) + bytes(buffer[first.length:])
