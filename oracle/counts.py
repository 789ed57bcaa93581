"""What a reader drops, by cause: the lines that ask for it, and the model's answers.

The original crate counts nothing. Its answers say how far each call came, and model.py's reader has to come as far.
"""
import sys

from model import Reader

ASKED = {'consume': 'drops', 'rconsume': 'rdrops'}


def asking(script):
    """The script, with the counts asked for behind each consume."""
    out = []
    for line in script.splitlines():
        out.append(line)
        asked = ASKED.get(line.split()[0] if line else '')
        out += [asked] if asked else []
    return '\n'.join(out) + '\n'


def data_of(word):
    return b'' if word == '-' else bytes.fromhex(word)


class Counter:
    """The link's reader over the receive buffer, and the one apart."""

    def __init__(self):
        self.link, self.apart, self.fill = Reader(4096, 0, False), None, 0

    def follow(self, words, answer):
        """Goes on by a line; the counts where they are asked for."""
        call = words[0]
        if call == 'reset':
            self.__init__()
        elif words[:2] == ['fill', 'rx']:
            self.fill = int(words[2], 16)
            self.link.buf[:] = bytes([self.fill]) * 4096
        elif call == 'new':
            self.link.begin('standard' in words)
        elif call == 'rnew':
            self.apart = Reader(int(words[1]), self.fill, 'standard' in words)
        elif call == 'rreceive':
            self.apart.receive()
        elif call == 'poll':
            self.polled(int(words[2]), answer)
        elif call == 'rconsume':
            self.took(answer, self.apart.consume(data_of(words[1])))
            return f'rdrops {self.apart.counts()}'
        elif call == 'consume':
            return self.consumed(int(words[1]), data_of(words[2]), answer)
        return None

    def consumed(self, room, data, answer):
        if room < self.link.kept:
            return 'drops 0 0 0 0 0'
        self.link.room = room
        self.took(answer, self.link.consume(data))
        return f'drops {self.link.counts()}'

    def polled(self, room, answer):
        """A complete frame is fetched, unless the poll was refused for a buffer. What it writes then stands behind what is kept."""
        if self.link.kept <= room and answer.split()[1:3] != ['refuse', '1']:
            self.link.receive()

    def took(self, answer, count):
        if answer.split()[2] != str(count):
            sys.exit(f'the model comes to {count} bytes, and the original answers: {answer[:200]}')


def answered(script, given):
    """The given answers to the script's calls, with those to `asking` between them."""
    counter, answers = Counter(), []
    calls = [line.split() for line in script.splitlines() if line and not line.startswith('#')]
    for words, answer in zip(calls, given, strict=True):
        answers.append(answer)
        counts = counter.follow(words, answer)
        answers += [counts] if counts else []
    return answers
