"""Pieces of jobs a second time, after docs/FORMAT.md and docs/FIELDS.md; it shares no code with the product.

It is there to be compared with, so it takes other ways than the product where it can: logarithms for GF(2^8), powers
for inverses modulo 257, whole numbers and text of digits for bits. It is meant to be read, not to be fast.
"""

LONGEST_JOB = 4096
HEADER = (("code", 2), ("rows", 2), ("m - 1", 4), ("n - 1", 5), ("number - 1", 5), ("length", 14), ("job number", 16), ("stamp", 32))


class Gf256:
    """Polynomials over two elements modulo x^8 + x^4 + x^3 + x + 1, by logarithms to the base 3."""

    name, code, order, width = "gf256", 0, 256, 8

    def __init__(self):
        self.exp = []
        x = 1
        for _ in range(255):
            self.exp.append(x)
            # times 3 is itself and its double together
            x = x ^ (x << 1)
            if x > 255:
                x ^= 0x11B
        self.log = {x: k for k, x in enumerate(self.exp)}
        assert len(self.log) == 255, "3 does not generate"
        # the products with c, as a table that turns bytes into bytes
        self.table = [bytes(self.times(c, x) for x in range(256)) for c in range(256)]

    def plus(self, a, b):
        return a ^ b

    def minus(self, a, b):
        return a ^ b

    def times(self, a, b):
        if a == 0 or b == 0:
            return 0
        return self.exp[(self.log[a] + self.log[b]) % 255]

    def inverse(self, a):
        return self.exp[-self.log[a] % 255]

    def combined(self, factors, rows):
        total = 0
        for c, row in zip(factors, rows):
            total ^= int.from_bytes(bytes(row).translate(self.table[c]), "big")
        return list(total.to_bytes(len(rows[0]), "big"))


class Mod257:
    """The integers modulo 257."""

    name, code, order, width = "mod257", 1, 257, 9

    def plus(self, a, b):
        return (a + b) % 257

    def minus(self, a, b):
        return (a - b) % 257

    def times(self, a, b):
        return a * b % 257

    def inverse(self, a):
        assert a % 257 != 0
        return pow(a, 255, 257)

    def combined(self, factors, rows):
        return [sum(c * x for c, x in zip(factors, column)) % 257 for column in zip(*rows)]


FIELDS = {field.name: field for field in (Gf256(), Mod257())}


def entry(field, rows, m, i, j):
    """The entry of piece i at place j, both counted from 1."""
    if rows == 0:
        power = 1
        for _ in range(j - 1):
            power = field.times(power, i)
        return power
    return field.inverse(field.minus(m + i - 1, j - 1))


def column_count(m, length):
    return -(-length // m)


def piece_length(field, m, length):
    return 10 + -(-column_count(m, length) * field.width // 8)


def places(m, job):
    """For each place the symbols of all columns."""
    filled = list(job) + [0] * (column_count(m, len(job)) * m - len(job))
    return [filled[j::m] for j in range(m)]


def refusal(field, rows, m, n, number, length, room):
    """The number of the first refusal that applies, or 0."""
    if rows not in (0, 1) or m not in range(1, 17) or n not in range(m, 33):
        return 1
    if length > LONGEST_JOB:
        return 2
    if number not in range(1, n + 1):
        return 3
    if room < piece_length(field, m, length):
        return 4
    return 0


def values(field, rows, m, number, job):
    if not job:
        return []
    return field.combined([entry(field, rows, m, number, j) for j in range(1, m + 1)], places(m, job))


def piece(field, rows, m, n, number, job_number, stamp, job):
    parts = (field.code, rows, m - 1, n - 1, number - 1, len(job), job_number, stamp)
    digits = "".join(format(part, "0%db" % bits) for part, (_, bits) in zip(parts, HEADER))
    digits += "".join(format(v, "0%db" % field.width) for v in values(field, rows, m, number, job))
    digits += "0" * (-len(digits) % 8)
    return int(digits, 2).to_bytes(len(digits) // 8, "big")


def cut(field, rows, m, n, number, job_number, stamp, job, buffer):
    """What is answered to C, and what the buffer holds after."""
    no = refusal(field, rows, m, n, number, len(job), len(buffer))
    if no:
        return -no, buffer
    made = piece(field, rows, m, n, number, job_number, stamp, job)
    return len(made), made + buffer[len(made):]


class Unreadable(Exception):
    pass


def parts_of(data):
    """The header's numbers and the body's values."""
    if len(data) < 10:
        raise Unreadable("a piece has at least ten bytes")
    digits = format(int.from_bytes(data, "big"), "0%db" % (8 * len(data)))
    head, at = {}, 0
    for name, bits in HEADER:
        head[name] = int(digits[at:at + bits], 2)
        at += bits
    field = next((f for f in FIELDS.values() if f.code == head["code"]), None)
    if field is None:
        raise Unreadable("no such field")
    m, n, number = head["m - 1"] + 1, head["n - 1"] + 1, head["number - 1"] + 1
    if refusal(field, head["rows"], m, n, number, head["length"], len(data)):
        raise Unreadable("the header is out of range")
    if len(data) != piece_length(field, m, head["length"]):
        raise Unreadable("the length does not fit the header")
    count = column_count(m, head["length"])
    body = [int(digits[at + k * field.width:at + (k + 1) * field.width], 2) for k in range(count)]
    if any(v >= field.order for v in body) or "1" in digits[at + count * field.width:]:
        raise Unreadable("the body holds no values")
    return field, head, number, body


def read(pieces):
    """The job that m different pieces were cut from."""
    read_parts = [parts_of(data) for data in pieces]
    field, first = read_parts[0][:2]
    rows, m, length = first["rows"], first["m - 1"] + 1, first["length"]
    for _, head, _, _ in read_parts:
        if any(head[name] != first[name] for name, _ in HEADER if name != "number - 1"):
            raise Unreadable("the pieces are of different jobs")
    if len(pieces) != m or len({number for _, _, number, _ in read_parts}) != m:
        raise Unreadable("not m different pieces")
    # each row: the entries of a piece and then its values; made into the identity and then the symbols
    system = [[entry(field, rows, m, number, j) for j in range(1, m + 1)] + body for _, _, number, body in read_parts]
    for j in range(m):
        at = next(i for i in range(j, m) if system[i][j] != 0)
        system[j], system[at] = system[at], system[j]
        scale = field.inverse(system[j][j])
        system[j] = [field.times(scale, v) for v in system[j]]
        for i in range(m):
            c = system[i][j]
            if i != j and c != 0:
                system[i] = [field.minus(v, field.times(c, p)) for v, p in zip(system[i], system[j])]
    symbols = [system[j][m + k] for k in range(column_count(m, length)) for j in range(m)]
    if any(s > 255 for s in symbols) or any(symbols[length:]):
        raise Unreadable("the symbols are not a job's")
    return bytes(symbols[:length])
