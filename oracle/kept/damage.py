# Real chunks with damage: bytes changed, put in, taken out, pieces swapped and written twice.
from .real import compiled

# One whose every byte behind the header is changed in several ways.
EVERY_BYTE = ("semicolons", "plain")
SMALL = 190
TELLING = (0x00, 0x01, 0x7f, 0x80, 0x81, 0xff)


def every_byte(requests):
    requests.title("damage: every byte")
    data = compiled()[EVERY_BYTE]
    for place in range(31, len(data)):
        for value in (0xff, data[place] ^ 1):
            if value != data[place]:
                requests.chunk(data[:place] + bytes([value]) + data[place + 1:])


def place_in(rng, data):
    """Mostly behind the header: damage there is refused at once."""
    return rng.randrange(len(data)) if rng.randrange(8) == 0 else rng.randrange(31, len(data))


def changed(rng, data):
    place = place_in(rng, data)
    value = rng.choice(TELLING) if rng.randrange(2) else data[place] ^ 1 << rng.randrange(8)
    return data[:place] + bytes([value]) + data[place + 1:]


def put_in(rng, data):
    place = place_in(rng, data)
    return data[:place] + bytes([rng.choice(TELLING)]) * rng.choice((1, 1, 2, 9)) + data[place:]


def taken_out(rng, data):
    place = place_in(rng, data)
    return data[:place] + data[place + rng.choice((1, 1, 2, 4)):]


def swapped(rng, data):
    first, length = rng.randrange(31, len(data) - 8), rng.randrange(1, 5)
    second = rng.randrange(first + length, len(data) - length + 1)
    return (data[:first] + data[second:second + length] + data[first + length:second] + data[first:first + length]
            + data[second + length:])


def twice(rng, data):
    place, length = rng.randrange(31, len(data)), rng.randrange(1, 13)
    return data[:place + length] + data[place:]


def random_damage(requests, rng, count):
    requests.title("damage: changed, put in, taken out, swapped, twice")
    small = [data for data in compiled().values() if len(data) <= SMALL]
    ways = (changed, put_in, taken_out, swapped, twice)
    for turn in range(count):
        data = rng.choice(small)
        for _ in range(rng.choice((1, 1, 2))):
            data = ways[turn % len(ways)](rng, data)
        requests.chunk(data)
