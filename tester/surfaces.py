"""Makers of surfaces with whole coordinates from 0 to 255, sound ones and broken ones.

A surface is a pair: a list of points and a list of triangles (three corner numbers each).  Makers
that choose at random take a random.Random as their first argument.  Not every surface made from
random coordinates can be opened: now and then a normal is zero, and that is wanted.
"""

import math


def tetrahedron(size=60):
    """The smallest closed surface."""
    points = [(0, 0, 0), (size, 0, 0), (0, size, 0), (0, 0, size)]
    return points, [(0, 2, 1), (0, 1, 3), (1, 2, 3), (0, 3, 2)]


def octahedron(size=10):
    """An octahedron whose sides all cost the same."""
    points = [
        (2 * size, size, size), (size, 2 * size, size), (0, size, size),
        (size, 0, size), (size, size, 2 * size), (size, size, 0),
    ]
    triangles = [
        (0, 1, 4), (1, 2, 4), (2, 3, 4), (3, 0, 4),
        (1, 0, 5), (2, 1, 5), (3, 2, 5), (0, 3, 5),
    ]
    return points, triangles


# For each direction the corners of a cell's face, in turn seen from outside.
CELL_FACES = {
    (1, 0, 0): ((1, 0, 0), (1, 1, 0), (1, 1, 1), (1, 0, 1)),
    (-1, 0, 0): ((0, 0, 0), (0, 0, 1), (0, 1, 1), (0, 1, 0)),
    (0, 1, 0): ((0, 1, 0), (0, 1, 1), (1, 1, 1), (1, 1, 0)),
    (0, -1, 0): ((0, 0, 0), (1, 0, 0), (1, 0, 1), (0, 0, 1)),
    (0, 0, 1): ((0, 0, 1), (1, 0, 1), (1, 1, 1), (0, 1, 1)),
    (0, 0, -1): ((0, 0, 0), (0, 1, 0), (1, 1, 0), (1, 0, 0)),
}


def cells(filled, size):
    """The boundary of some cells of a grid, each face cut into two triangles.

    Cells that touch at an edge or a corner only give a surface that is not closed.
    """
    filled = set(filled)
    numbers = {}
    triangles = []

    def number(corner):
        return numbers.setdefault(corner, len(numbers))

    for cell in sorted(filled):
        for way, face in CELL_FACES.items():
            if added(cell, way) not in filled:
                a, b, c, d = (number(added(cell, corner)) for corner in face)
                triangles += [(a, b, c), (a, c, d)]
    points = [tuple(size * x for x in corner) for corner in numbers]
    return points, triangles


def added(p, q):
    """The sum of two triples."""
    return (p[0] + q[0], p[1] + q[1], p[2] + q[2])


def box(nx, ny, nz, size):
    """A box of nx by ny by nz cells: flat regions and many equal costs."""
    return cells(((x, y, z) for x in range(nx) for y in range(ny) for z in range(nz)), size)


def holed_block(holes, size):
    """A block one cell thick with a row of square holes: Euler number 2 - 2 * holes."""
    holed = {(2 * i + 1, 1, 0) for i in range(holes)}
    block = ((x, y, 0) for x in range(2 * holes + 1) for y in range(3))
    return cells((cell for cell in block if cell not in holed), size)


def random_cells(rng, width, share, size):
    """Cells of a cube chosen at random; sometimes closed, often with a bad edge or vertex."""
    cube = [(x, y, z) for x in range(width) for y in range(width) for z in range(width)]
    return cells([cell for cell in cube if rng.random() < share] or cube[:1], size)


def grown_cells(rng, count, size):
    """Cells grown one by one, each sharing a face with one before."""
    filled = [(8, 8, 8)]
    while len(filled) < count:
        cell = added(rng.choice(filled), rng.choice(list(CELL_FACES)))
        if cell not in filled and 0 <= min(cell) and max(cell) < 16:
            filled.append(cell)
    return cells(filled, size)


def around_circle(i, n, radius):
    """Point i of n on a circle, rounded."""
    angle = 2 * math.pi * i / n
    return round(radius * math.cos(angle)), round(radius * math.sin(angle))


def globe(rings, segments, radius=127, centre=(127, 127, 127)):
    """A sphere by latitude and longitude, with two poles."""
    points = [added(centre, (0, 0, radius))]
    for ring in range(1, rings + 1):
        angle = math.pi * ring / (rings + 1)
        height = round(radius * math.cos(angle))
        for i in range(segments):
            x, y = around_circle(i, segments, radius * math.sin(angle))
            points.append(added(centre, (x, y, height)))
    points.append(added(centre, (0, 0, -radius)))
    return points, capped_rings(rings, segments)


def capped_rings(rings, segments):
    """Triangles between rings of vertices, with vertex 0 above and the last one below."""

    def at(ring, i):
        return 1 + ring * segments + i % segments

    last = 1 + rings * segments
    triangles = []
    for i in range(segments):
        triangles.append((0, at(0, i), at(0, i + 1)))
        for ring in range(rings - 1):
            triangles.append((at(ring, i), at(ring + 1, i), at(ring + 1, i + 1)))
            triangles.append((at(ring, i), at(ring + 1, i + 1), at(ring, i + 1)))
        triangles.append((last, at(rings - 1, i + 1), at(rings - 1, i)))
    return triangles


def bipyramid(n, radius=120, height=100, zigzag=0):
    """Two tips over one ring of n vertices; the tips have n neighbours.

    Every other vertex of the ring may be lifted, so that many vertices fit on it.
    """
    points = [(127, 127, 127 + height)]
    for i in range(n):
        x, y = around_circle(i, n, radius)
        points.append((127 + x, 127 + y, 127 + i % 2 * zigzag))
    points.append((127, 127, 127 - height))
    return points, capped_rings(1, n)


def tube(length, segments, radius=3):
    """A long thin closed tube along one axis."""
    gap = max(1, 250 // (length + 1))
    points = [(0, 127, 127)]
    for ring in range(length):
        for i in range(segments):
            y, z = around_circle(i, segments, radius)
            points.append((gap * (ring + 1), 127 + z, 127 + y))
    points.append((min(255, gap * (length + 1)), 127, 127))
    return points, capped_rings(length, segments)


def torus(m, n, large=85, small=40):
    """A torus of m by n vertices; m and n are three or more."""
    points = []
    for i in range(m):
        for j in range(n):
            out, z = around_circle(j, n, small)
            x, y = around_circle(i, m, large + out)
            points.append((127 + x, 127 + y, 127 + z))

    def at(i, j):
        return (i % m) * n + j % n

    triangles = []
    for i in range(m):
        for j in range(n):
            triangles.append((at(i, j), at(i + 1, j), at(i + 1, j + 1)))
            triangles.append((at(i, j), at(i + 1, j + 1), at(i, j + 1)))
    return points, triangles


def small_torus(rng):
    """A torus of seven vertices, each the neighbour of all others, at random points."""
    points = [random_point(rng) for _ in range(7)]
    triangles = []
    for i in range(7):
        triangles.append((i, (i + 1) % 7, (i + 3) % 7))
        triangles.append((i, (i + 3) % 7, (i + 2) % 7))
    return points, triangles


def random_point(rng, most=255):
    """A point with random coordinates."""
    return (rng.randint(0, most), rng.randint(0, most), rng.randint(0, most))


def grown(rng, count, most=255):
    """A tetrahedron in which random triangles are divided at new random points."""
    points = [random_point(rng, most) for _ in range(4)]
    triangles = list(tetrahedron()[1])
    while len(points) < count:
        a, b, c = triangles.pop(rng.randrange(len(triangles)))
        new = len(points)
        points.append(random_point(rng, most))
        triangles += [(a, b, new), (b, c, new), (c, a, new)]
    return points, triangles


def grown_at_corners(rng, count, most=255):
    """As grown, but with all points at the corners of the whole cube: costs are very high.

    Three different corners of a cube never stand in one line, so no normal is zero.
    """
    corners = [(x, y, z) for x in (0, most) for y in (0, most) for z in (0, most)]
    points = rng.sample(corners, 4)
    triangles = list(tetrahedron()[1])
    while len(points) < count:
        a, b, c = triangles.pop(rng.randrange(len(triangles)))
        taken = (points[a], points[b], points[c])
        new = len(points)
        points.append(rng.choice([corner for corner in corners if corner not in taken]))
        triangles += [(a, b, new), (b, c, new), (c, a, new)]
    return points, triangles


def costly(n):
    """A bipyramid over a ring that runs to and fro; collapsing vertex 0 to 1 costs very much.

    The tips, vertex 1 and the two places of the other ring vertices are the corners of the largest
    regular tetrahedron in the cube.
    """
    tip, first, even, odd = (0, 0, 0), (255, 255, 0), (255, 0, 255), (0, 255, 255)
    ring = [first] + [odd if i % 2 else even for i in range(n - 1)]
    return [tip] + ring + [tip], capped_rings(1, n)


def random_sphere(rng, count, radius=127):
    """Random points on a sphere, with triangles that divide it as evenly as turned sides can.

    It begins as a globe with shaken points; then sides are turned at random.
    """
    segments = max(3, int(math.sqrt(2 * count)))
    rings = max(1, count // segments)
    return turned(rng, shaken(rng, globe(rings, segments, radius - 8), 8), count)


# Changes of surfaces ----------------------------------------------------------------------------


def shaken(rng, surface, most):
    """The surface with every coordinate moved by at most this much, within 0 to 255."""
    points, triangles = surface

    def shake(x):
        return min(255, max(0, x + rng.randint(-most, most)))

    return [tuple(shake(x) for x in point) for point in points], list(triangles)


def turned(rng, surface, times):
    """The surface with sides turned at random: two triangles abc, adb become dbc, adc.

    A turn that would join two vertices which are neighbours already is left out.
    """
    points, triangles = list(surface[0]), list(surface[1])
    holder = {}
    for number, (a, b, c) in enumerate(triangles):
        for side, third in (((a, b), c), ((b, c), a), ((c, a), b)):
            holder[side] = (number, third)
    for _ in range(times):
        a, b = random_side(rng, triangles)
        (first, c), (second, d) = holder[a, b], holder[b, a]
        if c == d or (c, d) in holder or (d, c) in holder:
            continue
        del holder[a, b], holder[b, a]
        triangles[first] = (a, d, c)
        triangles[second] = (d, b, c)
        for number in (first, second):
            x, y, z = triangles[number]
            holder[x, y] = (number, z)
            holder[y, z] = (number, x)
            holder[z, x] = (number, y)
    return points, triangles


def random_side(rng, triangles):
    """A random side of a random triangle."""
    a, b, c = rng.choice(triangles)
    return rng.choice([(a, b), (b, c), (c, a)])


def together(*surfaces):
    """Several surfaces in one gathering."""
    points, triangles = [], []
    for more_points, more_triangles in surfaces:
        start = len(points)
        points += more_points
        triangles += [tuple(start + corner for corner in tri) for tri in more_triangles]
    return points, triangles


def renumbered(rng, surface):
    """The same surface with vertices and triangles in a random order and corners turned round."""
    points, triangles = surface
    order = list(range(len(points)))
    rng.shuffle(order)
    place = {old: new for new, old in enumerate(order)}
    triangles = [tuple(place[corner] for corner in tri) for tri in triangles]
    rng.shuffle(triangles)
    starts = [rng.randrange(3) for _ in triangles]
    triangles = [tri[k:] + tri[:k] for tri, k in zip(triangles, starts)]
    return [points[old] for old in order], triangles


# Broken surfaces --------------------------------------------------------------------------------


def without_triangle(rng, surface):
    """One triangle is missing."""
    points, triangles = list(surface[0]), list(surface[1])
    del triangles[rng.randrange(len(triangles))]
    return points, triangles


def with_doubled_triangle(rng, surface):
    """One triangle is there twice."""
    points, triangles = list(surface[0]), list(surface[1])
    triangles.insert(rng.randint(0, len(triangles)), rng.choice(triangles))
    return points, triangles


def with_turned_triangle(rng, surface):
    """One triangle runs the other way."""
    points, triangles = list(surface[0]), list(surface[1])
    k = rng.randrange(len(triangles))
    a, b, c = triangles[k]
    triangles[k] = (b, a, c)
    return points, triangles


def with_unused_vertex(rng, surface):
    """One vertex is in no triangle."""
    points, triangles = list(surface[0]), list(surface[1])
    new = rng.randint(0, len(points))
    points.insert(new, random_point(rng))
    return points, [tuple(v + (v >= new) for v in tri) for tri in triangles]


def with_vertices_joined(rng, surface):
    """One vertex is replaced by another, which mostly breaks the ring or a side there."""
    points, triangles = list(surface[0]), list(surface[1])
    a, b = rng.sample(range(len(points)), 2)
    joined = [tuple(a if v == b else v for v in tri) for tri in triangles]
    joined = [tri for tri in joined if len(set(tri)) == 3]
    return points[:b] + points[b + 1:], [tuple(v - (v > b) for v in tri) for tri in joined]


def sharing_a_vertex(first, second):
    """Two surfaces that have one vertex in common: the last of the first, 0 of the second."""
    points, triangles = list(first[0]), list(first[1])
    shared = len(points) - 1
    triangles += [tuple(shared + v for v in tri) for tri in second[1]]
    return points + list(second[0][1:]), triangles


def with_zero_normal(rng, surface):
    """One vertex is moved to where a neighbour stands."""
    points, triangles = list(surface[0]), list(surface[1])
    a, b, _ = rng.choice(triangles)
    points[a] = points[b]
    return points, triangles


def two_faced():
    """Two triangles with the same corners, back to back: every ring is too short."""
    return [(0, 0, 0), (9, 0, 0), (0, 9, 0)], [(0, 1, 2), (0, 2, 1)]


def without_triangles(count):
    """Vertices only."""
    return [(i % 256, i // 256, 7) for i in range(count)], []


# Choices ----------------------------------------------------------------------------------------


def small(rng):
    """A random sound surface of few vertices."""
    makers = [
        lambda: octahedron(rng.choice([1, 10, 127])),
        lambda: tetrahedron(rng.choice([1, 255])),
        lambda: box(1, 1, rng.randint(1, 2), rng.choice([1, 20, 80])),
        lambda: shaken(rng, box(1, 1, 1, 100), 5),
        lambda: globe(rng.randint(1, 3), rng.randint(3, 5)),
        lambda: shaken(rng, globe(rng.randint(1, 3), rng.randint(3, 5), 100), 20),
        lambda: bipyramid(rng.randint(3, 10)),
        lambda: tube(rng.randint(2, 4), 3),
        lambda: torus(3, rng.randint(3, 4)),
        lambda: small_torus(rng),
        lambda: grown(rng, rng.randint(4, 14), rng.choice([3, 10, 255])),
        lambda: turned(rng, grown(rng, rng.randint(5, 14)), 20),
        lambda: grown_at_corners(rng, rng.randint(4, 14)),
        lambda: costly(rng.randint(3, 10)),
        lambda: turned(rng, globe(3, 4), 10),
        lambda: together(tetrahedron(20), octahedron(20)),
        lambda: together(small_torus(rng), tetrahedron(255)),
        lambda: holed_block(1, 20),
        lambda: grown_cells(rng, rng.randint(1, 3), 15),
    ]
    surface = rng.choice(makers)()
    return renumbered(rng, surface) if rng.random() < 0.5 else surface


def middling(rng):
    """A random sound surface of some tens to some hundreds of vertices."""
    makers = [
        lambda: box(rng.randint(2, 5), rng.randint(2, 5), rng.randint(2, 5), 50),
        lambda: shaken(rng, box(4, 4, 4, 60), 6),
        lambda: globe(rng.randint(4, 14), rng.randint(6, 24)),
        lambda: random_sphere(rng, rng.randint(30, 300)),
        lambda: bipyramid(rng.randint(30, 120), zigzag=rng.choice([0, 3])),
        lambda: tube(rng.randint(20, 60), rng.randint(3, 6)),
        lambda: torus(rng.randint(4, 24), rng.randint(4, 14)),
        lambda: turned(rng, torus(rng.randint(4, 16), rng.randint(4, 14)), 40),
        lambda: grown(rng, rng.randint(30, 200)),
        lambda: turned(rng, grown(rng, rng.randint(30, 200)), 500),
        lambda: grown_at_corners(rng, rng.randint(100, 400)),
        lambda: together(globe(6, 8), torus(6, 6), box(2, 3, 2, 40), octahedron(9)),
        lambda: together(*[tetrahedron(rng.randint(1, 255)) for _ in range(40)]),
        lambda: holed_block(rng.randint(2, 6), 15),
        lambda: grown_cells(rng, rng.randint(4, 60), 15),
    ]
    surface = rng.choice(makers)()
    return renumbered(rng, surface) if rng.random() < 0.5 else surface


def large(rng):
    """A random sound surface of about a thousand vertices."""
    makers = [
        lambda: globe(32, 31),
        lambda: random_sphere(rng, 1000),
        lambda: box(13, 13, 12, 19),
        lambda: shaken(rng, box(13, 13, 12, 19), 4),
        lambda: torus(40, 25),
        lambda: turned(rng, torus(40, 25), 200),
        lambda: together(globe(25, 26), bipyramid(300, zigzag=3)),
        lambda: tube(240, 4),
        lambda: grown(rng, 1000),
        lambda: turned(rng, grown(rng, 1000), 3000),
        lambda: together(globe(16, 16), torus(20, 15), box(8, 8, 6, 30)),
        lambda: together(*[tetrahedron(rng.randint(1, 255)) for _ in range(256)]),
    ]
    surface = rng.choice(makers)()
    return renumbered(rng, surface) if rng.random() < 0.5 else surface


def broken(rng):
    """A random surface that cannot be opened, or mostly cannot."""
    sound = middling(rng) if rng.random() < 0.1 else small(rng)
    makers = [
        lambda: without_triangle(rng, sound),
        lambda: with_doubled_triangle(rng, sound),
        lambda: with_turned_triangle(rng, sound),
        lambda: with_unused_vertex(rng, sound),
        lambda: with_vertices_joined(rng, sound),
        lambda: sharing_a_vertex(sound, small(rng)),
        lambda: sharing_a_vertex(tetrahedron(), tetrahedron()),
        lambda: with_zero_normal(rng, sound),
        lambda: with_zero_normal(rng, without_triangle(rng, sound)),
        lambda: with_turned_triangle(rng, with_unused_vertex(rng, sound)),
        lambda: random_cells(rng, rng.randint(2, 4), rng.choice([0.3, 0.7, 0.9]), 20),
        two_faced,
        lambda: without_triangles(rng.randint(0, 5)),
    ]
    return rng.choice(makers)()
