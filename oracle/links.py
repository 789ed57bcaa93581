"""Cases of the link: awkward packets in every state that calls lead to, and random sessions."""
from itertools import permutations

from model import Reader, frame
from script import EDGES, MAX, Script, hexed

LCP, PAP, IPV4CP, IPV4 = 0xC021, 0xC023, 0x8021, 0x0021
REQ, ACK, NACK, REJ, TERM, ECHO, DISCARD = 1, 2, 3, 4, 5, 9, 11
CODES = (*range(13), 255)
# The options that each automaton knows, as its own or the peer's.
KNOWN = {LCP: (2, 3), IPV4CP: (3, 129, 131)}
TX, RX = 795, 1600

UP = ('open', 'poll', 'lcp request', 'lcp ack')
BY_PAP = ('open', 'poll', 'lcp request with pap', 'lcp ack')
ALL_UP = (*UP, 'ip request', 'ip ack')
# The ways to each state; `open` and `poll` are calls, the other steps packets that are received and polled.
ROUTES = {
    'dead': (),
    'opening': ('open',),
    'request sent': ('open', 'poll'),
    'ack received': ('open', 'poll', 'lcp ack'),
    'ack sent': ('open', 'poll', 'lcp request'),
    'network': UP,
    'network, our ack last': ('open', 'poll', 'lcp ack', 'lcp request'),
    'network, ip ack received': (*UP, 'ip ack'),
    'network, ip ack sent': (*UP, 'ip request'),
    'network, lcp ack sent': (*UP, 'lcp request'),
    'open': ALL_UP,
    'open, addresses given': (*UP, 'ip nack', 'ip request', 'ip ack'),
    'open, options rejected': ('open', 'poll', 'lcp reject', 'lcp request', 'lcp ack', 'ip reject', 'ip ack', 'ip request'),
    'open, options given, then rejected': (*UP, 'ip nack', 'ip reject', 'ip request', 'ip ack'),
    'open, lcp request sent': (*ALL_UP, 'lcp ack'),
    'open, lcp ack received': (*ALL_UP, 'lcp ack', 'lcp ack'),
    'open, lcp ack sent': (*ALL_UP, 'lcp request'),
    'open, ip closed': (*ALL_UP, 'ip terminate'),
    'open, ip request sent': (*ALL_UP, 'ip ack'),
    'open, ip ack received': (*ALL_UP, 'ip ack', 'ip ack'),
    'open, ip ack sent': (*ALL_UP, 'ip request'),
    'auth': BY_PAP,
    'auth, lcp ack sent': (*BY_PAP, 'lcp request'),
    'auth, pap no longer asked': (*BY_PAP, 'lcp request', 'lcp ack'),
    'network by pap': (*BY_PAP, 'pap ack'),
    'open by pap': (*BY_PAP, 'pap nack', 'pap ack', 'ip request', 'ip ack'),
    'dead again, ip opened': (*ALL_UP, 'lcp terminate'),
    'dead again, pap asked': (*BY_PAP, 'lcp terminate'),
    'opening again, ip opened': (*ALL_UP, 'lcp terminate', 'open'),
    'request sent again': (*ALL_UP, 'lcp terminate', 'open', 'poll'),
    'request sent again, by pap': (*BY_PAP, 'lcp terminate', 'open', 'poll'),
}


def packet(protocol, code, ident, data=b'', length=None):
    length = 4 + len(data) if length is None else length
    return protocol.to_bytes(2, 'big') + bytes((code, ident)) + length.to_bytes(2, 'big') + data


def option(code, data):
    return bytes((code, len(data) + 2)) + data


class Links(Script):
    # ---- packets

    def ident(self):
        return self.dice.pick((0, 1, 2, 3, 254, 255)) if self.dice.chance(60) else self.dice.below(256)

    def value(self):
        return self.dice.pick((bytes(4), b'\xff' * 4, b'\x0a\x00\x00\x01', b'\x7d\x7e\x11\x13', self.dice.bytes(4)))

    def step(self, name):
        """The packet of a route's step."""
        protocol = {'lcp': LCP, 'ip': IPV4CP, 'pap': PAP}[name.split()[0]]
        kind = name.split()[1]
        if kind == 'request':
            data = b''
            if protocol == IPV4CP or self.dice.chance(70):
                data = option(3 if protocol == IPV4CP else 2, self.value())
            if name.endswith('pap'):
                data += option(3, b'\xc0\x23')
            return packet(protocol, REQ, self.ident(), data)
        if kind == 'terminate':
            return packet(protocol, TERM, self.ident(), self.dice.bytes(self.dice.below(3)))
        codes = {'ack': ACK, 'nack': NACK, 'reject': REJ}
        data = b''
        if kind in ('nack', 'reject') and protocol != PAP:
            data = b''.join(option(code, self.value()) for code in KNOWN[protocol])
        return packet(protocol, codes[kind], self.ident(), data)

    def options(self):
        """An option list, most often with little wrong in it."""
        out = b''
        for _ in range(self.dice.pick((0, 1, 1, 1, 2, 2, 3, 3, 4, 5, 6, 6, 7, 8))):
            code = self.dice.pick((2, 2, 2, 3, 3, 3, 129, 131, 0, 1, 4, 5, 7, 8, 130, 255))
            n = 4 if self.dice.chance(70) else self.dice.below(7)
            data = b'\xc0\x23' if code == 3 and self.dice.chance(40) else self.value()[:n].ljust(n, b'\x05')
            out += option(code, data)
        if out and self.dice.chance(15):
            at = self.dice.below(len(out))
            out = self.dice.pick((out[:-1], out + out[:1], out[:at] + b'\x00' + out[at:], out[:at] + b'\x01' + out[at + 1:]))
        return out

    def any_packet(self):
        """Any packet: mostly of a known protocol and code, with option lists, wrong Lengths and padding."""
        protocol = self.dice.pick((LCP, LCP, LCP, IPV4CP, IPV4CP, PAP, IPV4, self.dice.below(0x10000)))
        if protocol not in (LCP, IPV4CP, PAP):
            return protocol.to_bytes(2, 'big') + self.payload(self.dice.pick((0, 1, 4, 20, 60, 118, 119, 120, 121, 122, 300)))
        code = self.dice.pick((REQ, REQ, REQ, REQ, ACK, ACK, NACK, REJ, TERM, ECHO, self.dice.below(14)))
        if code == ECHO:
            data = self.payload(self.dice.pick((0, 4, 8, 120, 121, 122, 123, 124)))
        elif code in (REQ, NACK, REJ) and protocol != PAP:
            data = self.options()
        else:
            data = self.payload(self.dice.below(12))
        length = 4 + len(data)
        if self.dice.chance(15):
            length = self.dice.pick((self.dice.below(9), max(length + self.dice.between(-3, 3), 0), self.dice.below(0x10000)))
        pad = self.dice.bytes(self.dice.below(4)) if self.dice.chance(15) else b''
        whole = packet(protocol, code, self.ident(), data, length) + pad
        return whole[:self.dice.below(len(whole) + 1)] if self.dice.chance(4) else whole

    # ---- calls

    def call(self, line):
        print(line)
        print('dump')

    def start(self, name, steps=()):
        """A case with a fresh link, and the calls and packets that lead to a state."""
        self.case(name)
        self.receiver = Reader(MAX, 0, False)
        n = self.dice.pick((0, 0, 1, 5, 60))
        print(f'new {hexed(self.dice.bytes(n))} {hexed(self.dice.bytes(self.dice.below(n + 1)))}' + ' standard' * self.standard)
        self.go(steps)

    def go(self, steps, show=False):
        for step in steps:
            if step in ('open', 'poll'):
                print(step if step == 'open' else f'poll {TX} {RX}')
            else:
                self.take(self.step(step), show)

    def take(self, payload, show=False):
        """A packet that is received and polled."""
        print(f'consume {RX} {hexed(frame(self.asyncmap(), payload))}')
        if show:
            print('dump')
        print(f'poll {TX} {RX}')
        if show:
            print('dump')
            print('status')

    def poll(self, tx, rx):
        self.call(f'poll {tx} {rx}')
        if rx >= self.receiver.kept:
            self.receiver.receive()
        print('status')

    def arrive(self, data, rx):
        """Bytes in one piece or several; what a complete frame leaves over is handed in again after the poll."""
        while data:
            n = len(data) if self.dice.chance(60) else self.dice.between(1, len(data))
            piece, data = data[:n], data[n:]
            taken = 1
            while piece and taken:
                self.call(f'consume {rx} {hexed(piece)}')
                self.receiver.room = rx
                taken = self.receiver.consume(piece)
                piece = piece[taken:]
                self.poll(TX if self.standard or self.dice.chance(90) else self.dice.below(300), rx)
                if self.dice.chance(20):
                    self.poll(TX, rx)

    # ---- the edges

    def lengths(self):
        """Each code with each short Length and those around the packet's end, for packets of three protocols."""
        for protocol in (LCP, IPV4CP, PAP):
            good = {LCP: option(2, self.value()), IPV4CP: option(3, self.value()), PAP: b'\x02hi'}[protocol]
            n = 4 + len(good)
            for code in CODES:
                for length in (*range(9), n - 1, n, n + 1, n + 2, n + 3, 0x100 + n, 0xFFFF):
                    yield packet(protocol, code, self.ident(), good, length)
                yield packet(protocol, code, self.ident(), good) + b'\x02\x06'
                yield packet(protocol, code, self.ident())
        for n in range(6):
            for protocol in (LCP, IPV4CP, PAP):
                yield packet(protocol, REQ, 1)[:n]

    def option_lists(self):
        """Requests, and refusals of our own options: each option in each length, five to eight of them, cut short, with others."""
        for protocol in (LCP, IPV4CP):
            for code in (REQ, NACK, REJ):
                for kind in (0, 1, 2, 3, 4, 129, 130, 131, 255):
                    for n in range(7):
                        yield packet(protocol, code, self.ident(), option(kind, self.value()[:n].ljust(n, b'\x09')))
                good = option(KNOWN[protocol][0], self.value())
                for tail in (b'\x02', b'\x02\x00', b'\x02\x01', b'\x02\x03', b'\x02\x07abcd', b'\x03\xff', b'\x00\x02'):
                    yield packet(protocol, code, self.ident(), tail)
                    yield packet(protocol, code, self.ident(), good + tail)
                    yield packet(protocol, code, self.ident(), good + option(9, b'') + tail + good)
                    yield packet(protocol, code, self.ident(), good * 3 + tail)
                for n in range(5, 9):
                    for kind in (*KNOWN[protocol], 7):
                        many = option(kind, b'\xc0\x24' if (protocol, kind) == (LCP, 3) else self.value()) * n
                        yield packet(protocol, code, self.ident(), many)
                        yield packet(protocol, code, self.ident(), many + option(9, b''))
                        yield packet(protocol, code, self.ident(), many + option(9, bytes(5)))
                        yield packet(protocol, code, self.ident(), option(9, b'') + many)
        for auth in (b'\xc0\x23', b'\xc0\x24', b'\xc2\x23\x05', b'', b'\xc0', bytes(4), bytes(5)):
            for other in (b'', option(2, self.value()), option(2, b'\x01'), option(5, self.value()), option(5, bytes(5))):
                yield packet(LCP, REQ, self.ident(), option(3, auth) + other)
                yield packet(LCP, REQ, self.ident(), other + option(3, auth))

    def others(self):
        """Echoes, discards and unknown protocols around the longest reply, and IPv4 packets."""
        for protocol in (LCP, IPV4CP):
            for n in (0, 1, 4, 121, 122, 123, 250):
                yield packet(protocol, ECHO, self.ident(), self.payload(n))
                yield packet(protocol, DISCARD, self.ident(), self.payload(n))
            for length in range(6):
                yield packet(protocol, ECHO, self.ident(), b'\x01\x02\x03\x04', length)
            yield packet(protocol, ECHO, self.ident(), self.payload(130), 126)
        for n in (0, 1, 2, 4, 118, 119, 120, 121, 122, 300):
            for protocol in (0x0000, 0x0001, 0x8057, 0xC025, 0xFFFF):
                yield protocol.to_bytes(2, 'big') + self.payload(n)
            yield IPV4.to_bytes(2, 'big') + self.payload(n)

    def packets_in(self, state):
        """Each edge packet in a state; two packets behind it show what it left."""
        behind = (('lcp request', 'lcp ack'), ('ip request', 'ip ack'), ('pap ack', 'ip request'))
        for kind, packets in (('lengths', self.lengths), ('options', self.option_lists), ('others', self.others)):
            for payload in packets():
                # A share, which differs from seed to seed.
                if not self.every and not self.dice.chance(15):
                    continue
                self.start(f'{kind}: {state}', ROUTES[state])
                self.take(payload, show=True)
                self.go(self.dice.pick(behind), show=True)

    def codes_in(self, state):
        for protocol in (LCP, IPV4CP, PAP):
            for code in CODES:
                data = option(KNOWN.get(protocol, (1,))[0], self.value()) if code in (REQ, NACK, REJ) else b''
                self.start(f'each code: {state}', ROUTES[state])
                self.take(packet(protocol, code, self.ident(), data), show=True)

    def rooms_in(self, state):
        """Every room to send in, from none to more than the replies take: a refused poll leaves the frame waiting."""
        payloads = [self.step(f'{p} {k}') for p in ('lcp', 'ip') for k in ('request', 'ack', 'nack', 'terminate')]
        for payload in (*payloads, self.step('lcp request with pap'), self.step('pap ack'), packet(LCP, ECHO, 1, b'\x01')):
            if not self.dice.chance(30):
                continue
            self.start(f'rooms: {state}', ROUTES[state])
            print(f'consume {RX} {hexed(frame(0, payload))}')
            for room in range(self.dice.below(8), 130, self.dice.between(1, 3)):
                print(f'poll {room} {RX}')
            self.call(f'poll {TX} {RX}')

    def receive_rooms_in(self, state):
        payload = self.step('lcp request')
        kept = len(payload) + 3
        for room in range(kept - 2, kept + 2):
            for then in range(kept - 2, kept + 2):
                self.start(f'receive rooms: {state}', ROUTES[state])
                self.call(f'consume {room} {hexed(frame(0, payload))}')
                self.call(f'consume {then} -')
                self.call(f'poll {TX} {then}')
                self.call(f'poll {TX} {RX}')

    def sends_in(self, state):
        """IP packets to send, in rooms around the exact length, and received ones with ranges of the buffer."""
        self.start(f'send: {state}', ROUTES[state])
        for n in (0, 1, 20, 60):
            ip = self.payload(n)
            most = len(frame(0xFFFFFFFF, IPV4.to_bytes(2, 'big') + ip))
            least = len(frame(0, IPV4.to_bytes(2, 'big') + ip))
            for room in (0, 1, 2, 3, least - 1, least, most - 2, most - 1, most, most + 1):
                print(f'send {room} {hexed(ip)}')
            self.take(IPV4.to_bytes(2, 'big') + ip, show=True)
            to = 3 + n
            for a, b, room in ((3, to, RX), (3, to, to), (3, to, to - 1), (0, 3, 3), (4, 3, RX), (n, n, n), (0, 0, 0), (1, 1, 0)):
                print(f'part {a} {b} {room}')

    def orders(self):
        """The steps of a whole negotiation in every order, then once more, so that most end with all up."""
        for request in ('lcp request', 'lcp request with pap'):
            for steps in permutations(('open', request, 'lcp ack', 'pap ack', 'ip request', 'ip ack')):
                self.start('the steps in every order')
                self.go(steps, show=True)
                self.go(steps)
                self.call('status')

    def wraps(self):
        """More requests than there are ids, of each automaton, and Protocol-Rejects."""
        ways = ((('open', 'poll'), packet(LCP, NACK, 1)), (UP, packet(IPV4CP, REJ, 1)), (BY_PAP, packet(PAP, NACK, 1)),
                ((), b'\x80\x57'))
        for steps, payload in ways:
            self.start('ids that go round', steps)
            for i in range(260):
                self.take(payload, show=i > 248)

    def credentials(self):
        within = ((0, 0), (0, 120), (120, 0), (60, 60), (1, 119))
        for n, m in (*within, (0, 121), (121, 0), (60, 61), (120, 1), (255, 255), (0, 256), (300, 300)):
            self.start('credentials')
            self.call(f'new {hexed(self.payload(n))} {hexed(self.payload(m))}')
            self.go((*BY_PAP, 'pap nack'), show=True)
            print(f'poll 400 {RX}')

    def link_edges(self):
        self.credentials()
        self.wraps()
        self.orders()
        for state in ROUTES:
            self.codes_in(state)
            self.packets_in(state)
            self.rooms_in(state)
            self.receive_rooms_in(state)
            self.sends_in(state)
        for n in EDGES:
            self.start('long IP packets', UP)
            ip = self.payload(n)
            self.call(f'send {MAX} {hexed(ip)}')
            self.take(IPV4.to_bytes(2, 'big') + ip)
            print(f'part 3 {3 + n} {RX}')

    # ---- random sessions

    def link_random(self):
        self.start('a session', ROUTES[self.dice.pick(tuple(ROUTES))] if self.dice.chance(60) else ())
        rx = RX if self.dice.chance(80) else self.dice.pick((0, 8, 16, 21, 40, 128, 130, MAX))
        for _ in range(self.dice.between(2, 14)):
            self.random_step(rx)

    def random_step(self, rx):
        # The two readings are one where no frame is damaged, so that the crate is the measure of sessions in standard reading too.
        kind = self.dice.below(70 if self.standard else 100)
        if kind < 40:
            names = ('lcp request', 'lcp request with pap', 'lcp ack', 'lcp nack', 'lcp reject', 'lcp terminate', 'ip request',
                     'ip ack', 'ip nack', 'ip reject', 'ip terminate', 'pap ack', 'pap nack')
            self.arrive(frame(self.asyncmap(), self.step(self.dice.pick(names))), rx)
        elif kind < 70:
            self.arrive(frame(self.asyncmap(), self.any_packet()), rx)
        elif kind < 76:
            whole = frame(self.asyncmap(), self.any_packet())
            self.arrive(self.damaged(whole) + self.dice.pick((b'', whole, b'\x7e' + whole)), rx)
        elif kind < 79:
            self.arrive(self.odd(), rx)
        elif kind < 83:
            self.call('open')
        elif kind < 88:
            self.poll(self.dice.pick((TX, 0, 30, 100)), rx)
        elif kind < 92:
            self.call(f'send {self.dice.pick((0, 3, 12, 40, 200, MAX))} {hexed(self.payload(self.length(300)))}')
        elif kind < 95:
            print(f'part {self.dice.below(30)} {self.dice.below(30)} {self.dice.pick((rx, 10, 20))}')
        elif kind < 97:
            self.odd_rooms(rx)
        elif kind < 98:
            # Somebody else writes into the buffer while a frame may lie in it.
            print(f'fill {self.dice.pick(("rx", "tx"))} {self.dice.below(256):02x}')
        elif kind < 99:
            self.call('new 6e 70')
            self.receiver = Reader(MAX, 0, False)
        else:
            self.poll(TX, rx)

    def odd_rooms(self, rx):
        """A frame that is taken with one room and polled with another."""
        payload = self.any_packet()
        whole = frame(self.asyncmap(), payload)
        at = self.dice.below(len(whole) + 1)
        near = max(len(payload) + 3 + self.dice.between(-3, 2), 0)
        for piece, room in ((whole[:at], rx), (whole[at:], self.dice.pick((rx, near)))):
            self.call(f'consume {room} {hexed(piece)}')
        self.poll(TX, near)
        self.poll(TX, rx)
