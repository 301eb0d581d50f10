# The description of a chunk that luac made, so that it can be spelt in other ways. Nothing is tested: what luac makes is in order.
from .build import TAGS, Function

KINDS = {tag: kind for kind, tag in TAGS.items()}


class Reader:
    def __init__(self, data, at):
        self.data, self.at = data, at

    def take(self, count):
        self.at += count
        return self.data[self.at - count:self.at]

    def byte(self):
        return self.take(1)[0]

    def number(self):
        value = 0
        while True:
            byte = self.byte()
            value = value * 128 + byte % 128
            if byte >= 128:
                return value

    def string(self):
        size = self.number()
        return self.take(size - 1) if size else None

    def many(self, item):
        return [item() for _ in range(self.number())]

    def word(self):
        return int.from_bytes(self.take(4), "little")

    def constant(self):
        kind = KINDS[self.byte()]
        if kind in ("int", "float"):
            return kind, int.from_bytes(self.take(8), "little")
        if kind in ("short", "long"):
            return kind, self.string()
        return (kind,)

    def function(self):
        # In the order of the file, and of the fields of `Function`.
        return Function(
            self.string(), self.number(), self.number(), self.byte(), self.byte(), self.byte(), self.many(self.word), self.many(self.constant),
            self.many(lambda: tuple(self.take(3))), self.many(self.function), self.many(self.byte), self.many(lambda: (self.number(), self.number())),
            self.many(lambda: (self.string(), self.number(), self.number())), self.many(self.string))


def main_of(data):
    """Main, with all within it, behind the header and byte 31."""
    return Reader(data, 32).function()
