"""Check the model itself: known answers, and that both ways of it agree.

    python3 tester/check_model.py [--sessions N] [--seed S]
"""

import argparse
import random
import sys
from collections import Counter

sys.dont_write_bytecode = True

import model
import streams
import surfaces
from streams import command, gathering, name, opening

OCTAHEDRON_REPLY = b"""name OCTA
open 6 8 2 1
step 0 1 8000000 1
refused 15 107
step 2 4 8000000 1
refused 16 113
split 1
tri 1 1 2 4
tri 2 2 3 4
tri 3 3 1 4
tri 5 2 1 5
tri 6 3 2 5
tri 7 1 3 5
end 5 6 2 1
"""

WAYS = (model.Slow, model.Quick)


def octahedron_stream():
    """The session whose reply is known in full."""
    start = name(b"OCTA") + gathering(surfaces.octahedron()) + opening(0)
    return start + b"S" + command("C", 4, 2) + b"SSPWE"


def refusal(call, *arguments):
    """The number of the refusal of a call, or None if it is accepted."""
    try:
        call(*arguments)
    except model.Refused as refused:
        return refused.number
    return None


def judged(surface):
    """Number and place of the refusal of opening a surface, or None."""
    gathered = model.Gathering()
    gathered.points, gathered.triangles = surface
    try:
        gathered.judge(model.CAPACITY[model.SWEEP])
    except model.Refused as refused:
        return refused.number, refused.place
    return None


def octahedron(way, gauge, steps):
    """The octahedron, opened, after some steps."""
    opened = way(*surfaces.octahedron(), gauge)
    for _ in range(steps):
        opened.step()
    return opened


def check_octahedron(way):
    """Known facts about the octahedron."""
    assert model.run(octahedron_stream(), way) == OCTAHEDRON_REPLY
    for gauge, cost in ((model.PLANES, (8000000, 1)), (model.SWEEP, (4000, 2))):
        for u, w in octahedron(way, gauge, 0).live_sides():
            assert octahedron(way, gauge, 0).collapse(u, w) == cost
    assert refusal(octahedron(way, model.PLANES, 1).collapse, 1, 2) == 14
    assert refusal(octahedron(way, model.PLANES, 1).collapse, 4, 2) == 15
    assert octahedron(way, model.PLANES, 1).cost(4, 1) == (16000000, 1)
    assert octahedron(way, model.PLANES, 1).cost(4, 3) == (8000000, 1)


def check_log(way):
    """Known facts about the log of the octahedron."""
    opened = octahedron(way, model.PLANES, 2)
    for u, w in opened.live_sides():
        assert refusal(opened.collapse, u, w) == 14
    assert refusal(opened.redo) == 18
    opened.split()
    opened.collapse(4, 3)
    assert refusal(opened.redo) == 18
    opened = octahedron(way, model.PLANES, 2)
    assert refusal(opened.go, 3) == 19
    assert opened.go(0) == 0
    assert opened.triangles() == dict(enumerate(surfaces.octahedron()[1]))
    assert refusal(opened.split) == 17


def check_judging():
    """Known facts about broken surfaces."""
    points = [(0, 0, 0), (9, 0, 0), (0, 9, 0)]
    assert judged(surfaces.two_faced()) == (9, 0)
    assert judged((points, [(0, 1, 2)])) == (8, 0)
    assert judged((points, [(0, 1, 2), (0, 1, 2)])) == (7, 0)
    assert judged((points, [])) == (6, 0)
    two = surfaces.sharing_a_vertex(surfaces.tetrahedron(), surfaces.tetrahedron())
    assert judged(two) == (9, 3)
    assert judged(surfaces.octahedron()) is None
    assert model.run(command("V", 255, 255, 255) + command("V", 256, 0, 0)) == b"refused 1 7\n"


def compare_ways(count, seed):
    """Run small sessions both ways; answer the tally of one of them."""
    tally = Counter()
    for number in range(count):
        rng = random.Random("ways %d/%d" % (seed, number))
        stream = streams.refusing(rng) if number % 4 == 0 else streams.small(rng)
        assert model.run(stream, model.Slow) == model.run(stream, model.Quick, tally), number
    return tally


def main():
    """Check everything."""
    parser = argparse.ArgumentParser(description=__doc__.splitlines()[0])
    parser.add_argument("--sessions", type=int, default=200)
    parser.add_argument("--seed", type=int, default=1)
    given = parser.parse_args()
    for way in WAYS:
        check_octahedron(way)
        check_log(way)
    check_judging()
    tally = compare_ways(given.sessions, given.seed)
    print("known answers right; both ways agree on %d sessions with %d accepted collapses"
          % (given.sessions, tally["accepted"]))


if __name__ == "__main__":
    main()
