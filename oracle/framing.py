"""Cases of the check value, the writer and the reader."""
from model import Reader, frame
from script import AWKWARD, EDGES, MAPS, MAX, Script, hexed


class Framing(Script):
    # ---- the check value

    def crc_edges(self):
        self.case('crc of every short length, and around the boundaries')
        for n in (*range(70), *EDGES, 4095, 4096):
            print(f'crc {self.dice.pick(("ffff", "00ff", "0000", "3de3"))} {hexed(self.payload(n))}')
        self.case('crc of every byte')
        for b in range(256):
            print(f'crc {self.dice.below(1 << 16):04x} {b:02x}')

    def crc_random(self):
        self.case('crc')
        print(f'crc {self.dice.below(1 << 16):04x} {hexed(self.payload(self.length(MAX)))}')

    # ---- the writer

    def written(self, name, room, asyncmap, parts):
        self.case(name)
        print(f'wnew {room} {asyncmap:08x}')
        print('wstart')
        for part in parts:
            print(f'wappend {hexed(part)}')
        print('wfinish')

    def writer_edges(self):
        for asyncmap in MAPS:
            short = self.payload(self.dice.below(6))
            for room in range(len(frame(asyncmap, short)) + 2):
                self.written('every room of a short frame', room, asyncmap, (short,))
            whole = len(frame(asyncmap, AWKWARD))
            for room in range(whole - 6, whole + 2):
                self.written('every byte that may be escaped', room, asyncmap, (AWKWARD,))
        for n in EDGES:
            asyncmap, payload = self.asyncmap(), self.payload(n)
            whole = len(frame(asyncmap, payload))
            for room in range(whole - 2, whole + 2):
                self.written('around a boundary', room, asyncmap, (payload,))

    def split(self, data):
        at = self.dice.below(len(data) + 1)
        return (data[:at], data[at:])

    def writer_whole(self):
        asyncmap, payload = self.asyncmap(), self.payload(self.length(1600))
        room = min(max(len(frame(asyncmap, payload)) + self.dice.between(-4, 3), 0), MAX)
        self.written('a frame in two parts', room, asyncmap, self.split(payload))

    def writer_any(self):
        """Calls in any order, so also behind refused ones and with no start."""
        self.case('writer calls in any order')
        print(f'wnew {self.dice.pick((0, 1, 2, 3, 5, 8, 13, 21, 34, 60, 300))} {self.asyncmap():08x}')
        for _ in range(self.dice.between(2, 9)):
            call = self.dice.below(6)
            if call == 0:
                print('wstart')
            elif call == 1:
                print('wfinish')
            else:
                print(f'wappend {hexed(self.payload(self.dice.below(12)))}')

    # ---- the reader

    def reader(self, name, room):
        self.case(name)
        fill = self.dice.below(256)
        print(f'fill rx {fill:02x}')
        print(f'rnew {room}' + ' standard' * self.standard)
        return Reader(room, fill, self.standard)

    def feed(self, reader, data):
        """Hands bytes in; what a complete frame leaves is handed in again behind a fetch."""
        while True:
            print(f'rconsume {hexed(data)}')
            data = data[reader.consume(data):]
            if reader.state == 'complete' and self.dice.chance(80) or data:
                print('rreceive')
                reader.receive()
            if not data:
                return

    def cut(self, reader, data):
        """The same in pieces."""
        while data:
            n = self.dice.between(1, self.dice.pick((1, 2, 5, 40, 2000)))
            self.feed(reader, data[:n])
            data = data[n:]

    def stream(self):
        out = b''
        for _ in range(self.dice.between(1, 6)):
            whole = frame(self.asyncmap(), self.payload(self.length(300)))
            kind = self.dice.below(10)
            if kind < 5:
                out += whole if self.dice.chance(70) else whole[1:]
            elif kind < 8:
                out += self.damaged(whole)
            else:
                out += self.odd()
        return out

    def reader_edges(self):
        payload = b'\x41\x03\x7d\x7e\x11'
        for asyncmap in MAPS[:2]:
            whole = frame(asyncmap, payload)
            for at in range(len(whole) + 1):
                reader = self.reader('a frame cut at each place', 12)
                self.feed(reader, whole[:at])
                self.feed(reader, whole[at:])
            for room in range(len(payload) + 6):
                self.feed(self.reader('every room', room), whole + whole)
            for at in range(len(whole)):
                for bad in (whole[:at] + whole[at + 1:], whole[:at] + bytes((whole[at] ^ 0x20,)) + whole[at + 1:]):
                    self.feed(self.reader('a byte lost, a byte changed, and a good frame behind', 24), bad + whole)
            for at in range(1, len(whole)):
                for behind in (whole, whole[1:]):
                    self.feed(self.reader('an abort at each place, and a good frame behind', 24), whole[:at] + b'\x7d\x7e' + behind)
        for first in b'\x03\x41\x7d\x7e\xff':
            for second in b'\x03\x41\x7d\x7e\xff':
                reader = self.reader('two bytes inside a frame, and a good frame behind', 10)
                self.feed(reader, b'\x7e\xff' + bytes((first, second)) + frame(0, b'\x42'))
        for n in EDGES:
            whole = frame(self.asyncmap(), self.payload(n))
            for room in range(n + 2, n + 5):
                self.feed(self.reader('around a boundary', room), whole)

    def reader_random(self):
        room = self.dice.pick((0, 2, 3, 4, 8, 20, 60, 150, 400, 1600))
        reader = self.reader('frames, damaged frames and noise', room)
        data = self.stream()
        if self.dice.chance(40):
            self.feed(reader, data)
        else:
            self.cut(reader, data)
        print('rreceive')
