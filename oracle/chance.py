#!/usr/bin/env python3
# Requests on chunks by chance: chance.py SEED COUNT, the same for the same two numbers. Some are from the grammar, some are real chunks with damage, some
# are chunks from the grammar with damage, and some are words by chance. Limits are small now and then. They are asked on both sides by hand (compare.sh).
import random
import sys

sys.dont_write_bytecode = True

from kept import damage, synthetic, validation
from kept.ask import CEILINGS, Requests
from kept.real import compiled

REAL = 600
# The largest number that there is: a size so large reaches beyond 2^64.
LARGEST = b"\x01" + b"\x7f" * 7 + b"\x7e\xff"


def largest(rng, data):
    place = rng.randrange(31, len(data))
    return data[:place] + LARGEST + data[place + 1:]


WAYS = (damage.changed, damage.put_in, damage.taken_out, damage.swapped, damage.twice, largest)


class Gathered(Requests):
    """Takes requests from the kept groups as chunks and limits."""

    def title(self, text):
        pass

    def chunk(self, data, **limits):
        self.last = data, limits


def made(rng):
    """A chunk from the grammar, and its limits."""
    gathered = Gathered()
    if rng.randrange(5) == 0:
        validation.random_words(gathered, rng, 1)
    else:
        synthetic.random_chunks(gathered, rng, 1)
    return gathered.last


def hurt(rng, data):
    for _ in range(rng.choice((1, 1, 1, 2, 3))):
        # `swapped` wants some bytes behind the header.
        data = rng.choice(WAYS)(rng, data) if len(data) > 48 else damage.put_in(rng, data) if len(data) > 31 else data
    return data


def around_ceilings(rng, data):
    """Now and then the input limit at the chunk's length or just below, or a limit above its ceiling."""
    if rng.randrange(20) == 0:
        return {"max_input_bytes": max(0, len(data) - rng.randrange(2))}
    if rng.randrange(60) == 0:
        name = rng.choice(list(CEILINGS))
        return {name: CEILINGS[name] + rng.randrange(2)}
    return {}


def main():
    seed, count = map(int, sys.argv[1:])
    rng = random.Random(seed)
    real = [data for data in compiled().values() if len(data) <= REAL]
    requests = Requests()
    while len(requests.lines) < count:
        turn = rng.randrange(3)
        data, limits = (rng.choice(real), synthetic.limits(rng)) if turn == 0 else made(rng)
        data = data if turn == 1 else hurt(rng, data)
        requests.chunk(data, **limits, **{name: limit for name, limit in around_ceilings(rng, data).items() if name not in limits})
    requests.show()


main()
