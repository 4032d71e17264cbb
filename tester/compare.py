"""Run sessions through the program and through the model, and compare the replies byte for byte.

    python3 tester/compare.py PROGRAM [--sessions N] [--seed S] [--large] [--out FOLDER]

On a difference the input and both replies are written to files, and the exit status is 1.
"""

import argparse
import os
import random
import subprocess
import sys
import tempfile
from collections import Counter

sys.dont_write_bytecode = True

import model
import streams

# Streams of at most so many bytes are also run through the slow model.
MOST_FOR_SLOW = 700
SECONDS = 120


def arguments():
    """The arguments of the command line."""
    parser = argparse.ArgumentParser(description=__doc__.splitlines()[0])
    parser.add_argument("program", help="the path of hullcalls")
    parser.add_argument("--sessions", type=int, default=300, help="how many random sessions")
    parser.add_argument("--seed", type=int, default=1, help="where the random choices begin")
    parser.add_argument("--large", action="store_true", help="add surfaces of 1,000 vertices")
    parser.add_argument("--out", default=tempfile.gettempdir(), help="where differences go")
    return parser.parse_args()


def sessions(count, seed, large):
    """The streams: those at the limits, then random ones, each from a seed of its own."""
    for number, stream in enumerate(streams.limits()):
        yield "limit-%d" % number, stream
    for number in range(count):
        rng = random.Random("%d/%d" % (seed, number))
        yield "seed-%d-%d" % (seed, number), random_stream(rng, number, large)


def random_stream(rng, number, large):
    """A random stream; most are small."""
    if large and number % 20 == 10:
        return streams.large(rng)
    if number % 10 == 5:
        return streams.middling(rng)
    if number % 5 < 2:
        return streams.refusing(rng)
    return streams.small(rng)


def program_reply(program, stream):
    """What the program answers, and its exit status if it died."""
    done = subprocess.run([program], input=stream, stdout=subprocess.PIPE, timeout=SECONDS)
    return done.stdout, min(done.returncode, 0)


def model_reply(stream, tally):
    """What the model answers; on short streams both ways of the model must agree."""
    reply = model.run(stream, model.Quick, tally)
    if len(stream) <= MOST_FOR_SLOW and model.run(stream, model.Slow) != reply:
        raise AssertionError("the two ways of the model differ")
    return reply


def first_difference(left, right):
    """The offset at which two replies begin to differ."""
    for offset, (a, b) in enumerate(zip(left, right)):
        if a != b:
            return offset
    return min(len(left), len(right))


def report_difference(label, folder, stream, from_program, from_model):
    """Write the input and both replies to files and say where they are."""
    base = os.path.join(folder, "difference-" + label)
    for ending, data in ((".in", stream), (".program", from_program), (".model", from_model)):
        with open(base + ending, "wb") as file:
            file.write(data)
    offset = first_difference(from_program, from_model)
    print("different at byte %d of the reply: %s.in .program .model" % (offset, base))


def summary(count, tally):
    """One line of counts."""
    commands = sum(tally[letter] for letter in model.OPERAND_BYTES)
    refused = sorted((key[1], times) for key, times in tally.items() if isinstance(key, tuple))
    by_number = " ".join("%d:%d" % pair for pair in refused)
    return "same: sessions %d, commands %d, steps %d, collapses accepted %d, refusals %s" % (
        count, commands, tally["S"], tally["accepted"], by_number)


def main():
    """Compare all sessions; the exit status is 1 at the first difference."""
    given = arguments()
    tally = Counter()
    count = 0
    for label, stream in sessions(given.sessions, given.seed, given.large):
        from_model = model_reply(stream, tally)
        from_program, died = program_reply(given.program, stream)
        if died or from_program != from_model:
            report_difference(label, given.out, stream, from_program, from_model)
            return 1
        count += 1
    print(summary(count, tally))
    return 0


if __name__ == "__main__":
    sys.exit(main())
