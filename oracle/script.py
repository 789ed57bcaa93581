"""What the cases of a script are made of: names, random bytes, and frames that came to harm."""
from model import Dice, checked, stuffed

MAX = 4096
EDGES = (127, 128, 129, 255, 256, 257, 1499, 1500, 1501)
AWKWARD = bytes(range(0x22)) + b'\x5d\x5e\x7c\x7d\x7e\x7f\x83\xff'
MAPS = (0, 0xFFFFFFFF) + tuple(1 << bit for bit in range(32))


def hexed(data):
    return data.hex() or '-'


class Script:
    def __init__(self, seed, standard, every):
        self.dice = Dice(seed)
        self.standard, self.every = standard, every
        self.cases = 0

    def case(self, name):
        self.cases += 1
        print(f'# {self.cases} {name}')
        print('reset')
        # Other fill bytes show whether a byte was written that only looks like fill.
        if self.dice.chance(20):
            print(f'fill {self.dice.pick(("rx", "tx"))} {self.dice.below(256):02x}')

    def payload(self, n):
        kind = self.dice.below(3)
        if kind == 0:
            return self.dice.bytes(n)
        if kind == 1:
            return bytes(self.dice.pick(AWKWARD) for _ in range(n))
        return bytes(self.dice.pick(b'\x03\x7d\x7e\x20\x5d\x5e\xff') for _ in range(n))

    def length(self, most):
        kind = self.dice.below(10)
        if kind < 5:
            return self.dice.below(9)
        if kind < 8:
            return self.dice.below(140)
        n = self.dice.pick(EDGES) if kind == 8 else self.dice.below(most + 1)
        return min(n, most)

    def asyncmap(self):
        kind = self.dice.below(4)
        if kind == 0:
            return self.dice.below(1 << 32)
        return self.dice.pick(MAPS if kind == 1 else MAPS[:2])

    def damaged(self, data):
        at = self.dice.below(len(data))
        kind = self.dice.below(6)
        if kind == 0:
            return data[:at] + bytes((data[at] ^ 1 << self.dice.below(8),)) + data[at + 1:]
        if kind == 1:
            return data[:at] + data[at + 1:]
        if kind == 2:
            return data[:at] + bytes((self.dice.pick(b'\x7d\x7e\x03\xff\x00'),)) + data[at:]
        if kind == 3:
            return data[:at]
        if kind == 4:
            return data[:at] + b'\x7d\x7d' + data[at:]
        return data[:at] + b'\x7d\x7e' + data[at:]

    def odd(self):
        """A run of bytes that is near a frame and is none, or is one in an unusual way."""
        body = self.dice.pick((b'', b'\x03', b'\x03\x00', b'\x03\x1c\xc2', checked(b'\x02\x41'), checked(b'\x03')))
        return self.dice.pick((
            self.dice.bytes(self.dice.below(20)),
            b'\x7e' * self.dice.between(1, 4),
            b'\x7e\xff' + stuffed(self.asyncmap(), body) + b'\x7e',
            b'\x7e\xff' + stuffed(self.asyncmap(), body) + b'\x7d\x7e',
            b'\x7e\x7d\xdf' + stuffed(0, checked(b'\x03\x41')) + b'\x7e',
            b'\x7e\xff\x03\x7d\x7e\xff' + stuffed(0, checked(b'\x03\x42'))[1:] + b'\x7e',
            b'\x7e\xff' + b'\x7d' * self.dice.between(1, 3) + b'\x41\x7e',
            b'\x7e\xff' + bytes(self.dice.bytes(1)) * self.dice.between(1, 40),
        ))
