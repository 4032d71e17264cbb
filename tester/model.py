"""A model of hullcalls, from the bytes of its commands to the bytes of its replies.

It is written from the rules in docs/ alone and shares nothing with the program.
An opened surface is kept in one of two ways, which must always agree:

  Slow   follows the definitions.  The surface at a position is computed anew from the opening
         triangles and the done records; a collapse is tried out and its outcome held to the
         four rules of a closed surface; costs are summed over the opening triangles.
  Quick  keeps the triangles round each vertex, uses the local test, keeps one polynomial for
         each vertex, and remembers the best collapse of each vertex until something near it
         changes.  It is for surfaces of hundreds of vertices.

All numbers are Python integers, so nothing is ever rounded or cut off.
"""

from collections import Counter, namedtuple

MOST_INPUT = 65536
MOST_VERTICES = 1024
MOST_TRIANGLES = 2048
MOST_COORDINATE = 255
MOST_NAME = 40

PLANES = 0
SWEEP = 1
CAPACITY = {PLANES: 400, SWEEP: 1024}

# The number of operand bytes of each command; those of N depend on its count byte.
OPERAND_BYTES = {
    "V": 6, "T": 6, "O": 1, "N": None,
    "C": 4, "G": 2, "S": 0, "P": 0, "R": 0, "W": 0, "E": 0,
}
GATHERING_COMMANDS = "NVTO"
OPENED_COMMANDS = "CSPRGW"


class Refused(Exception):
    """A refusal: its number, and the triangle or vertex concerned where there is one."""

    def __init__(self, number, place=0):
        super().__init__(number, place)
        self.number = number
        self.place = place


# Geometry ---------------------------------------------------------------------------------------


def minus(p, q):
    """The vector from q to p."""
    return (p[0] - q[0], p[1] - q[1], p[2] - q[2])


def cross(p, q):
    """The cross product."""
    return (
        p[1] * q[2] - p[2] * q[1],
        p[2] * q[0] - p[0] * q[2],
        p[0] * q[1] - p[1] * q[0],
    )


def dot(p, q):
    """The scalar product."""
    return p[0] * q[0] + p[1] * q[1] + p[2] * q[2]


def normal(points, triangle):
    """The normal of (a, b, c): the cross product of b - a and c - a."""
    a, b, c = (points[corner] for corner in triangle)
    return cross(minus(b, a), minus(c, a))


def six_volume(points, triangle, point):
    """The six-volume of a triangle at a point: its normal times point - a."""
    return dot(normal(points, triangle), minus(point, points[triangle[0]]))


# Surfaces ---------------------------------------------------------------------------------------
#
# A surface is a dict from the numbers of the live triangles to their corners, and the live
# vertices.


def sides(triangle):
    """The three ordered pairs of a triangle."""
    a, b, c = triangle
    return ((a, b), (b, c), (c, a))


def holders(triangles):
    """For each side the list of the triangles that hold it."""
    found = {}
    for number, triangle in triangles.items():
        for side in sides(triangle):
            found.setdefault(side, []).append(number)
    return found


def triangles_at(triangles):
    """For each vertex the list of the triangles that have it as a corner."""
    found = {}
    for number, triangle in triangles.items():
        for corner in set(triangle):
            found.setdefault(corner, []).append(number)
    return found


def first_with_equal_corners(triangles):
    """The lowest triangle that breaks the first rule, or None."""
    return min((t for t in triangles if len(set(triangles[t])) < 3), default=None)


def first_with_side_held_twice(triangles, held):
    """The lowest triangle that breaks the second rule, or None."""
    return min((t for side in held if len(held[side]) > 1 for t in held[side]), default=None)


def first_with_side_not_answered(triangles, held):
    """The lowest triangle that breaks the third rule, or None."""
    return min((t for (a, b) in held if (b, a) not in held for t in held[a, b]), default=None)


def ring_length(triangles, held, vertex, start):
    """How many triangles are visited round a vertex from one of them until it comes again.

    The second and third rules hold, so each step is possible and leads to one triangle.
    """
    visited = 0
    at = start
    while True:
        visited += 1
        [b] = [a for (a, v) in sides(triangles[at]) if v == vertex]
        [at] = held[vertex, b]
        if at == start:
            return visited


def has_ring(triangles, held, vertex, around):
    """Whether there is one ring of three or more round a vertex."""
    if not around:
        return False
    length = ring_length(triangles, held, vertex, around[0])
    return length == len(around) and length >= 3


def first_without_ring(triangles, vertices, held):
    """The lowest vertex that breaks the fourth rule, or None."""
    at = triangles_at(triangles)
    broken = (v for v in vertices if not has_ring(triangles, held, v, at.get(v, [])))
    return min(broken, default=None)


def is_closed(triangles, vertices):
    """Whether one or more triangles form a closed surface, by the four rules."""
    if not triangles or first_with_equal_corners(triangles) is not None:
        return False
    held = holders(triangles)
    return (
        first_with_side_held_twice(triangles, held) is None
        and first_with_side_not_answered(triangles, held) is None
        and first_without_ring(triangles, vertices, held) is None
    )


def count_pieces(triangles, vertices):
    """The number of pieces: sets of vertices that are joined by chains of sides."""
    neighbours = {v: set() for v in vertices}
    for triangle in triangles.values():
        for a, b in sides(triangle):
            neighbours[a].add(b)
            neighbours[b].add(a)
    seen = set()
    pieces = 0
    for vertex in vertices:
        if vertex in seen:
            continue
        pieces += 1
        seen.add(vertex)
        waiting = [vertex]
        while waiting:
            for other in neighbours[waiting.pop()]:
                if other not in seen:
                    seen.add(other)
                    waiting.append(other)
    return pieces


def counts(triangles, vertices):
    """Live vertices, live triangles, Euler number and pieces."""
    pairs = {frozenset(side) for triangle in triangles.values() for side in sides(triangle)}
    euler = len(vertices) - len(pairs) + len(triangles)
    return (len(vertices), len(triangles), euler, count_pieces(triangles, vertices))


# Gathering --------------------------------------------------------------------------------------


class Gathering:
    """The vertices and triangles gathered so far."""

    def __init__(self):
        self.points = []
        self.triangles = []

    def vertex(self, coordinates):
        """Add a vertex, or refuse 2 or 1."""
        if len(self.points) >= MOST_VERTICES:
            raise Refused(2)
        if max(coordinates) > MOST_COORDINATE:
            raise Refused(1)
        self.points.append(tuple(coordinates))

    def triangle(self, corners):
        """Add a triangle, or refuse 3, 4 or 5."""
        if len(self.triangles) >= MOST_TRIANGLES:
            raise Refused(3)
        if max(corners) >= len(self.points):
            raise Refused(4)
        if len(set(corners)) < 3:
            raise Refused(5)
        self.triangles.append(tuple(corners))

    def judge(self, capacity):
        """Refuse what may not be opened, by the first refusal in order: 6, 7, 8, 9, 10, 12."""
        triangles = dict(enumerate(self.triangles))
        if not triangles:
            raise Refused(6)
        held = holders(triangles)
        flat = (t for t in triangles if normal(self.points, triangles[t]) == (0, 0, 0))
        refuse_at(7, first_with_side_held_twice(triangles, held))
        refuse_at(8, first_with_side_not_answered(triangles, held))
        refuse_at(9, first_without_ring(triangles, range(len(self.points)), held))
        refuse_at(10, min(flat, default=None))
        if len(self.points) > capacity:
            raise Refused(12)


def refuse_at(number, place):
    """Refuse with this number if there is a place concerned."""
    if place is not None:
        raise Refused(number, place)


# Costs ------------------------------------------------------------------------------------------

Candidate = namedtuple("Candidate", "amount divisor u w")


def goes_before(x, y):
    """Whether candidate x comes before y: by cost, then by u, then by w."""
    left = x.amount * y.divisor
    right = y.amount * x.divisor
    if left != right:
        return left < right
    return (x.u, x.w) < (y.u, y.w)


def first_candidate(candidates):
    """The first of some candidates, or None if there are none."""
    best = None
    for candidate in candidates:
        if best is None or goes_before(candidate, best):
            best = candidate
    return best


def sweep_cost(points, moved, w):
    """Amount and divisor of the sweep cost of moving these triangles' corner to w."""
    amount = sum(abs(six_volume(points, triangle, points[w])) for triangle in moved)
    return (amount, len(moved))


def replaced(triangle, u, w):
    """The triangle with w written for u."""
    return tuple(w if corner == u else corner for corner in triangle)


def folds(points, moved, u, w):
    """Whether some moved triangle's normals before and after have a product of zero or below."""
    return any(
        dot(normal(points, triangle), normal(points, replaced(triangle, u, w))) <= 0
        for triangle in moved
    )


# Opened surfaces --------------------------------------------------------------------------------


class Opened:
    """What both ways of keeping an opened surface have in common: the log and its rules.

    The log is a list of records (u, w).  Records before the position are done.
    """

    def __init__(self, points, triangles, gauge):
        self.points = list(points)
        self.opening = list(triangles)
        self.gauge = gauge
        self.log = []
        self.position = 0

    def collapse(self, u, w):
        """Collapse u to w and answer the cost, or refuse 13, 14 or 15."""
        self.test(u, w)
        cost = self.cost(u, w)
        self.record(u, w)
        return cost

    def step(self):
        """Do the first permitted collapse and answer it as a candidate, or refuse 16."""
        best = self.choose()
        if best is None:
            raise Refused(16)
        self.record(best.u, best.w)
        return best

    def record(self, u, w):
        """Do a permitted collapse: the records ahead go, and one is added."""
        del self.log[self.position:]
        self.log.append((u, w))
        self.forward()

    def split(self):
        """Take the last done collapse back and answer the position, or refuse 17."""
        if self.position == 0:
            raise Refused(17)
        self.back()
        return self.position

    def redo(self):
        """Do the next record ahead and answer the position, or refuse 18."""
        if self.position == len(self.log):
            raise Refused(18)
        self.forward()
        return self.position

    def go(self, k):
        """Split or redo until the position is k, and answer it, or refuse 19."""
        if k > len(self.log):
            raise Refused(19)
        while self.position > k:
            self.back()
        while self.position < k:
            self.forward()
        return self.position

    def counts(self):
        """The counts of the present surface."""
        return counts(self.triangles(), self.vertices())

    def live_sides(self):
        """All sides of the present surface by rising triangle."""
        triangles = self.triangles()
        return [side for t in sorted(triangles) for side in sides(triangles[t])]


class Slow(Opened):
    """An opened surface by the definitions."""

    def __init__(self, points, triangles, gauge):
        super().__init__(points, triangles, gauge)
        self.find_present()

    def triangles(self):
        return self.present

    def vertices(self):
        return self.living

    def forward(self):
        self.position += 1
        self.find_present()

    def back(self):
        self.position -= 1
        self.find_present()

    def find_present(self):
        """Compute the present surface from the opening one and the done records."""
        self.present = dict(enumerate(self.opening))
        self.living = set(range(len(self.points)))
        self.stands_in = list(range(len(self.points)))
        for u, w in self.log[:self.position]:
            self.present, self.living = collapsed(self.present, self.living, u, w)
            self.stands_in = [w if v == u else v for v in self.stands_in]

    def test(self, u, w):
        """Refuse 13, 14 or 15 if the collapse is not permitted."""
        if not any((u, w) in sides(triangle) for triangle in self.present.values()):
            raise Refused(13)
        if not is_closed(*collapsed(self.present, self.living, u, w)):
            raise Refused(14)
        if folds(self.points, self.moved(u, w), u, w):
            raise Refused(15)

    def moved(self, u, w):
        """The live triangles that hold u and not w."""
        return [tri for tri in self.present.values() if u in tri and w not in tri]

    def cost(self, u, w):
        """Amount and divisor of the cost of a collapse."""
        if self.gauge == SWEEP:
            return sweep_cost(self.points, self.moved(u, w), w)
        amount = 0
        for triangle in self.opening:
            for corner in triangle:
                if self.stands_in[corner] in (u, w):
                    amount += six_volume(self.points, triangle, self.points[w]) ** 2
        return (amount, 1)

    def permitted(self, u, w):
        """Whether a collapse is permitted."""
        try:
            self.test(u, w)
        except Refused:
            return False
        return True

    def choose(self):
        """The first permitted collapse of all sides, or None."""
        return first_candidate(
            Candidate(*self.cost(u, w), u, w)
            for u, w in self.live_sides()
            if self.permitted(u, w)
        )


def collapsed(triangles, vertices, u, w):
    """The surface after collapsing u to w, whatever comes of it."""
    outcome = {}
    for number, triangle in triangles.items():
        after = replaced(triangle, u, w)
        if after.count(w) < 2:
            outcome[number] = after
    return outcome, vertices - {u}


class Quick(Opened):
    """An opened surface by the triangles round each vertex and by the local test."""

    def __init__(self, points, triangles, gauge):
        super().__init__(points, triangles, gauge)
        self.live = {}
        self.around = [set() for _ in self.points]
        self.near = {}
        self.living = set(range(len(self.points)))
        for number, triangle in enumerate(self.opening):
            self.put_in(number, triangle)
        self.entries = opening_entries(self.points, self.opening) if gauge == PLANES else None
        self.undone = []
        self.best = {}

    def triangles(self):
        return self.live

    def vertices(self):
        return self.living

    def neighbours(self, v):
        """The vertices that share a side with v, remembered until a triangle there changes."""
        if v not in self.near:
            corners = {corner for t in self.around[v] for corner in self.live[t]}
            self.near[v] = corners - {v}
        return self.near[v]

    def forward(self):
        """Do the record at the position."""
        u, w = self.log[self.position]
        changed = self.neighbours(u)
        self.forget_near(changed | {u})
        before = {t: self.live[t] for t in self.around[u]}
        for number, triangle in before.items():
            self.take_out(number)
            if w not in triangle:
                self.put_in(number, replaced(triangle, u, w))
        self.living.remove(u)
        if self.gauge == PLANES:
            self.entries[w] = [x + y for x, y in zip(self.entries[w], self.entries[u])]
        self.undone.append(before)
        self.position += 1
        self.forget_near(changed)

    def back(self):
        """Take the record before the position back."""
        self.position -= 1
        u, w = self.log[self.position]
        before = self.undone.pop()
        changed = {corner for triangle in before.values() for corner in triangle}
        self.forget_near(changed)
        for number, triangle in before.items():
            if number in self.live:
                self.take_out(number)
            self.put_in(number, triangle)
        self.living.add(u)
        if self.gauge == PLANES:
            self.entries[w] = [x - y for x, y in zip(self.entries[w], self.entries[u])]
        self.forget_near(changed)

    def take_out(self, number):
        """Remove a live triangle."""
        for corner in self.live.pop(number):
            self.around[corner].remove(number)
            self.near.pop(corner, None)

    def put_in(self, number, triangle):
        """Add a live triangle."""
        self.live[number] = triangle
        for corner in triangle:
            self.around[corner].add(number)
            self.near.pop(corner, None)

    def forget_near(self, vertices):
        """Forget the best collapses of these vertices and of all their neighbours."""
        for v in vertices:
            self.best.pop(v, None)
            for other in self.neighbours(v):
                self.best.pop(other, None)

    def moved(self, u, w):
        """The live triangles that hold u and not w."""
        return [self.live[t] for t in self.around[u] if w not in self.live[t]]

    def is_side(self, u, w):
        """Whether (u, w) is a side of a live triangle."""
        if u >= len(self.points):
            return False
        return any((u, w) in sides(self.live[t]) for t in self.around[u])

    def passes_local_test(self, u, w):
        """The local test for a closed outcome of collapsing a side."""
        near_u = self.neighbours(u)
        near_w = self.neighbours(w)
        at_both = self.around[u] & self.around[w]
        thirds = {corner for t in at_both for corner in self.live[t]} - {u, w}
        if near_u & near_w != thirds:
            return False
        return not (len(near_u) == 3 and len(near_w) == 3)

    def test(self, u, w):
        """Refuse 13, 14 or 15 if the collapse is not permitted."""
        if not self.is_side(u, w):
            raise Refused(13)
        if not self.passes_local_test(u, w):
            raise Refused(14)
        if folds(self.points, self.moved(u, w), u, w):
            raise Refused(15)

    def cost(self, u, w):
        """Amount and divisor of the cost of a collapse."""
        if self.gauge == SWEEP:
            return sweep_cost(self.points, self.moved(u, w), w)
        point = self.points[w]
        return (value(self.entries[u], point) + value(self.entries[w], point), 1)

    def best_of(self, u):
        """The first permitted collapse of u, or None."""
        if u not in self.best:
            self.best[u] = first_candidate(
                Candidate(*self.cost(u, w), u, w)
                for w in self.neighbours(u)
                if self.passes_local_test(u, w)
                and not folds(self.points, self.moved(u, w), u, w)
            )
        return self.best[u]

    def choose(self):
        """The first permitted collapse of all vertices, or None."""
        bests = (self.best_of(u) for u in self.living)
        return first_candidate(best for best in bests if best is not None)


def opening_entries(points, triangles):
    """For each vertex the sum of the squared six-volumes of its triangles, as polynomials.

    A polynomial is the list of its coefficients at xx, yy, zz, xy, xz, yz, x, y, z and 1.
    """
    entries = [[0] * 10 for _ in points]
    for triangle in triangles:
        x, y, z = normal(points, triangle)
        d = -dot((x, y, z), points[triangle[0]])
        square = [
            x * x, y * y, z * z, 2 * x * y, 2 * x * z, 2 * y * z,
            2 * x * d, 2 * y * d, 2 * z * d, d * d,
        ]
        for corner in triangle:
            entries[corner] = [p + q for p, q in zip(entries[corner], square)]
    return entries


def value(polynomial, point):
    """The value of a polynomial at a point."""
    x, y, z = point
    powers = (x * x, y * y, z * z, x * y, x * z, y * z, x, y, z, 1)
    return sum(p * q for p, q in zip(polynomial, powers))


# Sessions ---------------------------------------------------------------------------------------


class Session:
    """The state between commands, and the reply to each command."""

    def __init__(self, keep):
        self.keep = keep
        self.named = False
        self.gathering = Gathering()
        self.opened = None

    def reply(self, letter, operands):
        """The reply to a command that is known and complete; refusals are raised."""
        if self.opened is None and letter in OPENED_COMMANDS:
            raise Refused(23)
        if self.opened is not None and letter in GATHERING_COMMANDS:
            raise Refused(23)
        if letter == "N":
            return self.name(operands[1:])
        if letter == "V":
            self.gathering.vertex(numbers(operands))
            return b""
        if letter == "T":
            self.gathering.triangle(numbers(operands))
            return b""
        if letter == "O":
            return self.open(operands[0])
        if letter == "E":
            return self.end()
        return self.opened_reply(letter, numbers(operands))

    def opened_reply(self, letter, arguments):
        """The reply to a command that belongs to an opened surface."""
        if letter == "C":
            return line("collapse", *arguments, *self.opened.collapse(*arguments))
        if letter == "S":
            step = self.opened.step()
            return line("step", step.u, step.w, step.amount, step.divisor)
        if letter == "P":
            return line("split", self.opened.split())
        if letter == "R":
            return line("redo", self.opened.redo())
        if letter == "G":
            return line("go", self.opened.go(*arguments))
        return self.write()

    def name(self, name):
        """Take the hold's name, or refuse 24."""
        if len(name) == 0 or len(name) > MOST_NAME or self.named:
            raise Refused(24)
        self.named = True
        return b"name " + name + b"\n"

    def open(self, gauge):
        """Judge and open, or refuse 26 or what judging refuses."""
        if gauge not in CAPACITY:
            raise Refused(26)
        self.gathering.judge(CAPACITY[gauge])
        self.opened = self.keep(self.gathering.points, self.gathering.triangles, gauge)
        return line("open", *self.opened.counts())

    def write(self):
        """One line for each live triangle by rising number."""
        triangles = self.opened.triangles()
        return b"".join(line("tri", t, *triangles[t]) for t in sorted(triangles))

    def end(self):
        """The counts of the opened surface, or zeros."""
        return line("end", *(self.opened.counts() if self.opened else (0, 0, 0, 0)))


def numbers(operands):
    """Operand bytes as numbers of 16 bits, low byte first."""
    return [low + 256 * high for low, high in zip(operands[0::2], operands[1::2])]


def line(word, *values):
    """One line of reply."""
    return (" ".join([word] + [str(v) for v in values]) + "\n").encode("ascii")


def operand_bytes(letter, data, at):
    """The operand bytes of the command at an offset, or None if the input ends too soon."""
    size = OPERAND_BYTES[letter]
    if letter == "N":
        if at + 1 >= len(data):
            return None
        size = 1 + data[at + 1]
    operands = data[at + 1:at + 1 + size]
    return operands if len(operands) == size else None


def run(data, keep=Quick, tally=None):
    """The reply bytes to the command bytes.

    A tally, if given, is a Counter of commands by letter, "accepted" collapses and steps, and
    ("refused", number).
    """
    tally = Counter() if tally is None else tally

    def refused(number, offset):
        tally["refused", number] += 1
        return line("refused", number, offset)

    if len(data) > MOST_INPUT:
        return refused(25, 0)
    session = Session(keep)
    replies = []
    at = 0
    while at < len(data):
        letter = chr(data[at])
        if letter not in OPERAND_BYTES:
            replies.append(refused(21, at))
            break
        tally[letter] += 1
        operands = operand_bytes(letter, data, at)
        if operands is None:
            replies.append(refused(22, at))
            break
        try:
            replies.append(session.reply(letter, operands))
            tally["accepted"] += letter in "CS"
        except Refused as refusal:
            replies.append(refused(refusal.number, at))
        if letter == "E":
            break
        at += 1 + len(operands)
    return b"".join(replies)


if __name__ == "__main__":
    import sys

    sys.stdout.buffer.write(run(sys.stdin.buffer.read()))
