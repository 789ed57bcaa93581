"""Framing in Python, written from RFC 1662 and from the two readings that the library has, and the dice that make scripts.

Scripts need whole frames and need to know how far a reader comes; the standard reading, which the original crate does not have, is
compared with this reader.
"""


class Dice:
    """Random numbers that are the same for a seed on every machine and with every version of Python (splitmix64)."""

    MASK = (1 << 64) - 1

    def __init__(self, seed):
        self.state = seed & self.MASK

    def below(self, n):
        self.state = (self.state + 0x9E3779B97F4A7C15) & self.MASK
        z = self.state
        z = ((z ^ (z >> 30)) * 0xBF58476D1CE4E5B9) & self.MASK
        z = ((z ^ (z >> 27)) * 0x94D049BB133111EB) & self.MASK
        return (z ^ (z >> 31)) % n

    def between(self, low, high):
        return low + self.below(high - low + 1)

    def chance(self, percent):
        return self.below(100) < percent

    def pick(self, things):
        return things[self.below(len(things))]

    def bytes(self, n):
        return bytes(self.below(256) for _ in range(n))


def divided(value):
    """A byte through RFC 1662's FCS-16, bit by bit."""
    for _ in range(8):
        value = (value >> 1) ^ (0x8408 if value & 1 else 0)
    return value


BYTES = tuple(map(divided, range(256)))


def fcs(value, data):
    for byte in data:
        value = (value >> 8) ^ BYTES[(value ^ byte) & 0xFF]
    return value


def stuffed(asyncmap, data):
    out = bytearray()
    for b in data:
        if b in (0x7D, 0x7E) or (b < 0x20 and asyncmap >> b & 1):
            out += bytes((0x7D, b ^ 0x20))
        else:
            out.append(b)
    return bytes(out)


def checked(body):
    """Control byte and payload with their check bytes behind them."""
    value = fcs(0xFFFF, b'\xff' + body) ^ 0xFFFF
    return body + bytes((value & 0xFF, value >> 8))


def frame(asyncmap, payload):
    return b'\x7e\xff' + stuffed(asyncmap, checked(b'\x03' + payload)) + b'\x7e'


CAUSES = ('aborted', 'short', 'control', 'check', 'overrun')


class Reader:
    def __init__(self, room, fill, standard):
        self.buf, self.room = bytearray([fill]) * room, room
        self.begin(standard)

    def begin(self, standard):
        """As fresh, over the buffer as it is."""
        self.state, self.escape, self.kept, self.standard = 'start', False, 0, standard
        self.drops = dict.fromkeys(CAUSES, 0)

    def consume(self, data):
        self.drops = dict.fromkeys(CAUSES, 0)
        for i, b in enumerate(data):
            if self.state == 'complete':
                return i
            self.byte(b)
        return len(data)

    def byte(self, b):
        if self.state == 'start':
            self.state = 'address' if b == 0x7E else 'start'
        elif self.state == 'address':
            self.state = {0xFF: 'data', 0x7E: 'address'}.get(b, 'start')
        elif b == 0x7E:
            self.end()
        elif b == 0x7D and not (self.standard and self.escape):
            self.escape = True
        else:
            self.store(b ^ 0x20 if self.escape else b)

    def end(self):
        kept = self.buf[:self.kept]
        tests = {
            'aborted': lambda: self.standard and self.escape,
            'short': lambda: self.kept < 3,
            'control': lambda: kept[0] != 0x03,
            'check': lambda: fcs(0xFFFF, b'\xff' + kept) != 0xF0B8,
        }
        # The first that applies counts, in this order.
        cause = next((cause for cause in tests if tests[cause]()), None)
        good = cause is None
        if not good:
            self.drops[cause] += 1
        self.state = 'complete' if good else 'address'
        if self.standard:
            self.escape = False
            self.kept = self.kept if good else 0

    def store(self, b):
        self.escape = False
        if self.kept >= self.room:
            self.drops['overrun'] += 1
            self.state, self.kept = 'start', 0
        else:
            self.buf[self.kept] = b
            self.kept += 1

    def receive(self):
        if self.state != 'complete':
            return 'none'
        got = f'1..{self.kept - 2}'
        self.state, self.kept = 'address', 0
        return got

    def counts(self):
        return ' '.join(str(self.drops[cause]) for cause in CAUSES)

    def shown(self):
        return f'reader={self.state} escape={int(self.escape)} kept={self.kept}'
