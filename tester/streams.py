"""Makers of command streams, as bytes.

Makers that choose at random take a random.Random as their first argument.
"""

import model
import surfaces

SOME_BYTES = b"\x00\x01ABZabz\n\xff"


# Single commands --------------------------------------------------------------------------------


def command(letter, *numbers):
    """A letter and numbers of 16 bits."""
    return letter.encode("ascii") + b"".join(n.to_bytes(2, "little") for n in numbers)


def name(text):
    """N with these bytes."""
    return b"N" + bytes([len(text)]) + text


def opening(gauge):
    """O with a gauge's number."""
    return b"O" + bytes([gauge])


def gathering(surface):
    """V and T for a whole surface."""
    points, triangles = surface
    vertices = b"".join(command("V", *point) for point in points)
    return vertices + b"".join(command("T", *triangle) for triangle in triangles)


# Sessions on a surface that opens ---------------------------------------------------------------


def thinned_and_back(surface, gauge):
    """Step to the end, split to the beginning, redo to the end, and write each time."""
    steps = len(surface[0])
    there = b"S" * steps + b"WR"
    back = b"P" * steps + b"W" + b"R" * steps + b"W"
    goes = b"".join(command("G", k) for k in (0, 1, steps // 2, 0, steps))
    start = name(b"there and back") + gathering(surface) + opening(gauge)
    return start + there + back + goes + b"WE"


def random_name(rng):
    """A name that is accepted."""
    return bytes(rng.randrange(256) for _ in range(rng.randint(1, 40)))


def random_number(rng, near):
    """A number of 16 bits, mostly about as large as another."""
    return rng.choice([rng.randint(0, near), near, near + 1, rng.randint(0, 65535), 65535])


class Mixer:
    """Chooses commands for an opened surface at random.

    It does each command on a model of its own, so that it knows which sides there are.
    """

    def __init__(self, rng, surface, gauge):
        self.rng = rng
        self.opened = model.Quick(*surface, gauge)
        self.few_writes = len(surface[0]) > 100

    def collapse(self):
        """C with a live side, or now and then with any numbers."""
        if self.rng.random() < 0.8:
            triangles = self.opened.triangles()
            triangle = triangles[self.rng.choice(list(triangles))]
            u, w = self.rng.choice(model.sides(triangle))
            if self.rng.random() < 0.3:
                u, w = w, u
        else:
            last = len(self.opened.points) - 1
            u, w = random_number(self.rng, last), random_number(self.rng, last)
        self.try_on(self.opened.collapse, u, w)
        return command("C", u, w)

    def go(self):
        """G to a place on the log, or now and then beyond."""
        k = self.rng.randint(0, len(self.opened.log))
        if self.rng.random() < 0.2:
            k = random_number(self.rng, len(self.opened.log))
        self.try_on(self.opened.go, k)
        return command("G", k)

    def several(self, letter, call, most):
        """One command without operands, several times."""
        times = self.rng.randint(1, most)
        for _ in range(times):
            self.try_on(call)
        return letter * times

    def gathering_command(self):
        """A command that belongs to gathering."""
        return self.rng.choice([command("V", 1, 2, 3), command("T", 0, 1, 2), opening(0),
                                opening(9), name(b"late"), name(b"")])

    def try_on(self, call, *arguments):
        """Do a call on the model, refused or not."""
        try:
            call(*arguments)
        except model.Refused:
            pass

    def some(self):
        """One random command, or a few alike."""
        choice = self.rng.random()
        if choice < 0.35:
            return self.collapse()
        if choice < 0.55:
            return self.several(b"S", self.opened.step, 4)
        if choice < 0.70:
            return self.several(b"P", self.opened.split, 4)
        if choice < 0.82:
            return self.several(b"R", self.opened.redo, 4)
        if choice < 0.92:
            return self.go()
        if choice < 0.96:
            return self.gathering_command()
        return b"" if self.few_writes and self.rng.random() < 0.9 else b"W"


def mixed(rng, surface, gauge, length, thinned=0.0):
    """A session of random commands after opening.

    The share `thinned` of the vertices is stepped away first.
    """
    parts = [name(random_name(rng)), gathering(surface), opening(gauge)]
    mixer = Mixer(rng, surface, gauge)
    for _ in range(int(thinned * len(surface[0]))):
        parts.append(mixer.several(b"S", mixer.opened.step, 1))
    size = sum(map(len, parts))
    for _ in range(length):
        part = mixer.some()
        if size + len(part) + 2 > model.MOST_INPUT:
            break
        parts.append(part)
        size += len(part)
    parts.append(rng.choice([b"WE", b"WE", b"E", b"W", b"EE", b"EWS?", b"?", b"C\x01", b"G", b"N"]))
    return b"".join(parts)


# Sessions about refusals ------------------------------------------------------------------------


def opened_after_refusals(rng, gauge):
    """A broken surface, refused; then it is mended by gathering more, where that can be."""
    points, triangles = surfaces.small(rng)
    held_back = rng.randint(1, min(3, len(triangles)))
    stream = gathering((points, triangles[:-held_back])) + opening(gauge) + opening(1 - gauge)
    stream += b"".join(command("T", *triangle) for triangle in triangles[-held_back:])
    if rng.random() < 0.3:
        stream += command("V", 5, 6, 7) + opening(gauge)
    return stream + opening(gauge) + b"SSPRWE"


def broken_opening(rng):
    """A surface that mostly cannot be opened, and commands that then do not belong."""
    stream = gathering(surfaces.broken(rng)) + opening(rng.randint(0, 1))
    return stream + rng.choice([b"E", b"SWE", b"", b"O\x02E", b"O\x01PE"])


def names(rng):
    """Names of all sorts of lengths, accepted and not."""
    lengths = [0, 1, 39, 40, 41, 255]
    texts = [bytes(rng.choice(SOME_BYTES) for _ in range(rng.choice(lengths))) for _ in range(5)]
    return b"".join(map(name, texts)) + b"E"


def cut_off(rng):
    """A session cut off somewhere, often inside a command's operands."""
    stream = mixed(rng, surfaces.small(rng), rng.randint(0, 1), 5)
    return stream[:rng.randint(0, len(stream))]


def cut_in_operands(rng):
    """One command, of a state that fits or not, with some of its operand bytes missing."""
    letter = rng.choice("VTONCG")
    full = {"V": 7, "T": 7, "O": 2, "N": 6, "C": 5, "G": 3}[letter]
    whole = letter.encode("ascii") + b"\x04" * (full - 1)
    start = rng.choice([b"", gathering(surfaces.octahedron()) + opening(1)])
    return start + whole[:rng.randint(1, full)]


def unknown_byte(rng):
    """A session with a byte that is no command."""
    stream = mixed(rng, surfaces.small(rng), rng.randint(0, 1), 5)
    known = [ord(letter) for letter in model.OPERAND_BYTES]
    unknown = bytes([rng.choice([b for b in range(256) if b not in known])])
    return rng.choice([unknown + stream, stream[:-2] + unknown + b"E", b"W" + unknown])


def wrong_state(rng):
    """Commands of both states, before and after opening."""

    def some(count):
        parts = [b"W", b"S", b"P", b"R", command("C", 0, 1), command("G", 0), name(b"NAME"),
                 opening(7), command("T", 0, 0, 0), command("V", 300, 0, 0)]
        return b"".join(rng.choice(parts) for _ in range(count))

    start = some(6) + gathering(surfaces.small(rng)) + some(6)
    return start + opening(rng.randint(0, 1)) + some(12) + b"E"


def noise(rng):
    """Random letters of commands and small bytes."""
    letters = b"NVTOCSPRGWE\x00\x00\x00\x00\x01\x02\x03"
    return bytes(rng.choice(letters) for _ in range(rng.randint(0, 60)))


def coordinate_limits(rng):
    """Coordinates about 255 and 256."""
    stream = b""
    for _ in range(20):
        stream += command("V", *(rng.choice([0, 255, 256, 257, 511, 65535]) for _ in range(3)))
        stream += command("T", *(rng.choice([0, 1, 2, 3, 65535]) for _ in range(3)))
    return stream + opening(rng.choice([0, 1, 2, 255])) + b"E"


# Streams at the limits --------------------------------------------------------------------------


def exact_length(length):
    """A session of exactly so many bytes: an octahedron, two steps, and many splits."""
    start = gathering(surfaces.octahedron()) + opening(0) + b"SS"
    return start + b"P" * (length - len(start) - 1) + b"E"


def too_many_vertices(extra):
    """More vertices than are taken, with a coordinate too large behind them."""
    points = [(i % 256, i // 256, 1) for i in range(model.MOST_VERTICES + extra)]
    stream = b"".join(command("V", *point) for point in points) + command("V", 256, 0, 0)
    corners = command("T", 0, 1023, 512) + command("T", 0, 1, 1024) + command("T", 0, 0, 1024)
    return stream + corners + opening(0) + opening(1) + b"E"


def too_many_triangles(extra):
    """More triangles than are taken, with faulty corners behind them."""
    points, triangles = surfaces.octahedron()
    many = [triangles[i % len(triangles)] for i in range(model.MOST_TRIANGLES + extra)]
    return gathering((points, many)) + command("T", 0, 0, 9) + opening(0) + b"E"


def most_of_both(gauge):
    """A torus of 1,024 vertices and 2,048 triangles: as many as there can be of both."""
    return gathering(surfaces.torus(32, 32)) + opening(gauge) + opening(1) + b"SSSPPRRGPPE"


def around_capacity(count):
    """Just so many vertices in one piece, opened on planes and then, if refused, on sweep."""
    surface = surfaces.bipyramid(count - 2, zigzag=1)
    return gathering(surface) + opening(0) + opening(1) + b"SSPPRE"


def very_costly():
    """A collapse on planes whose cost is far above what 53 bits hold."""
    surface = surfaces.costly(398)
    return gathering(surface) + opening(0) + command("C", 0, 1) + b"S" * 20 + b"P" * 21 + b"RWE"


def limits():
    """All streams at the limits; they are the same each time."""
    return [
        b"", b"E", b"W", b"\n", b"O", b"O\x00", b"O\x01E", b"O\x02E", b"N", b"N\x00", b"N\x01",
        b"N\x01\n", b"EEE", b"e", exact_length(65535), exact_length(65536), exact_length(65537),
        b"?" * 65536, b"?" * 65537, b"E" * 65537, name(b"x" * 40) + b"W" * 60000,
        too_many_vertices(0), too_many_vertices(2), too_many_triangles(0), too_many_triangles(2),
        most_of_both(0), most_of_both(1),
        around_capacity(399), around_capacity(400), around_capacity(401),
        very_costly(),
    ]


# Choices ----------------------------------------------------------------------------------------


def opens(surface):
    """Whether a surface can be opened on sweep."""
    gathered = model.Gathering()
    gathered.points, gathered.triangles = list(surface[0]), list(surface[1])
    try:
        gathered.judge(model.CAPACITY[model.SWEEP])
    except model.Refused:
        return False
    return True


def that_opens(rng, maker):
    """A surface by a maker of surfaces that can be opened."""
    while True:
        surface = maker(rng)
        if opens(surface):
            return surface


def fitting_gauge(rng, surface):
    """A gauge that takes so many vertices."""
    if len(surface[0]) > model.CAPACITY[model.PLANES]:
        return model.SWEEP
    return rng.choice([model.PLANES, model.SWEEP])


def small(rng):
    """A stream about a small surface."""
    surface = that_opens(rng, surfaces.small)
    gauge = fitting_gauge(rng, surface)
    makers = [
        lambda: thinned_and_back(surface, gauge),
        lambda: mixed(rng, surface, gauge, rng.randint(5, 60)),
        lambda: mixed(rng, surface, gauge, rng.randint(5, 60), rng.random()),
    ]
    return rng.choice(makers)()


def refusing(rng):
    """A stream about refusals."""
    makers = [
        lambda: opened_after_refusals(rng, rng.randint(0, 1)),
        lambda: broken_opening(rng),
        lambda: broken_opening(rng),
        lambda: broken_opening(rng),
        lambda: broken_opening(rng),
        lambda: names(rng),
        lambda: cut_off(rng),
        lambda: cut_in_operands(rng),
        lambda: unknown_byte(rng),
        lambda: wrong_state(rng),
        lambda: noise(rng),
        lambda: coordinate_limits(rng),
    ]
    return rng.choice(makers)()


def middling(rng):
    """A stream about a surface of some hundreds of vertices."""
    surface = that_opens(rng, surfaces.middling)
    gauge = fitting_gauge(rng, surface)
    if rng.random() < 0.3:
        return thinned_and_back(surface, gauge)
    return mixed(rng, surface, gauge, 300, rng.random())


def large(rng):
    """A stream about a surface of about a thousand vertices with a long list of commands."""
    surface = that_opens(rng, surfaces.large)
    gauge = fitting_gauge(rng, surface)
    if rng.random() < 0.3:
        return thinned_and_back(surface, gauge)
    return mixed(rng, surface, gauge, 3000, rng.random())
