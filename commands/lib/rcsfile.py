"""What an RCS file (rcsfile(5)) has that doesn't come into an s-file, and its numbers. Whether the file is sound is the program's answer: what is
read here is of files that it has taken, or of which it is asked later."""

import re

BLANKS = b' \t\n\v\f\r\b'
WORD = re.compile(rb'[^\t\n\v\f\r\x08 ;:@]+|[;:]')
NUMBER = re.compile(rb'[0-9.]+')
KNOWN = (b'head', b'branch', b'access', b'symbols', b'locks', b'strict', b'comment', b'expand', b'date', b'author', b'state', b'branches', b'next', b'commitid')


def string_end(text, place):
    """The place behind the at sign that ends a string, from behind the one that begins it."""
    while True:
        place = text.find(b'@', place)
        if place < 0:
            return len(text)
        if text[place + 1:place + 2] != b'@':
            return place + 1
        place += 2


class RcsFile:
    """What is known of an RCS file: its head, its default branch, the symbols with their numbers, of each revision the next one and the state, and what
    else is told of it."""

    def __init__(self, text):
        self.head = self.branch = self.mode = b''
        self.logins = self.locks = 0
        self.symbols = []
        self.next_of, self.state_of, self.date_of, self.others = {}, {}, {}, {}
        self.open = False
        self.part = 'head'
        self.phrase = self.number = self.what = self.symbol = b''
        self.read(text)

    def read(self, text):
        """Reads all words and strings, in their order."""
        place = 0
        while place < len(text):
            begin = text.find(b'@', place)
            begin = len(text) if begin < 0 else begin
            for found in WORD.finditer(text, place, begin):
                self.word(found[0])
            place = string_end(text, begin + 1)
            if begin < len(text):
                self.string(text, begin + 1, place - 1)

    def word(self, word):
        """What a word outside of strings says."""
        if self.phrase:
            self.in_phrase(word)
        elif self.part == 'head' and NUMBER.fullmatch(word):
            self.part, self.number = 'entries', word
            self.next_of[word] = b''
        elif self.part == 'entries' and NUMBER.fullmatch(word):
            self.number = word
            self.next_of[word] = b''
        elif self.part != 'texts' and word == b'desc':
            self.part, self.trunk = 'texts', self.find_trunk()
        elif self.part == 'texts' and NUMBER.fullmatch(word):
            self.number = word
        elif self.part == 'texts' and word in (b'log', b'text'):
            self.what = word
        else:
            self.phrase = word

    def in_phrase(self, word):
        """What a word of a phrase says, up to its semicolon."""
        if word == b';':
            self.phrase = b''
        elif self.part == 'entries' and self.phrase == b'next':
            self.next_of[self.number] = word
        elif self.part == 'entries' and self.phrase == b'date':
            self.date_of[self.number] = word
        elif self.part == 'entries' and self.phrase == b'state':
            self.state_of[self.number] = word
        elif self.part == 'head' and self.phrase in (b'head', b'branch'):
            setattr(self, self.phrase.decode(), word)
        elif self.part == 'head' and self.phrase == b'access':
            self.logins += 1
        elif self.part == 'head' and self.phrase == b'locks':
            self.locks += word == b':'
        elif self.part == 'head' and self.phrase == b'symbols':
            self.read_symbol(word)
        elif self.phrase not in KNOWN:
            self.others[self.phrase] = None

    def read_symbol(self, word):
        """A name, a colon, a number."""
        if word == b':':
            self.symbols.append([self.symbol, b''])
        elif self.symbols and self.symbols[-1][1] == b'' and NUMBER.fullmatch(word):
            self.symbols[-1][1] = word
        else:
            self.symbol = word

    def string(self, text, begin, end):
        """What a string says, by where it stands."""
        if self.part == 'head' and self.phrase == b'expand':
            self.mode += text[begin:end]
        elif self.part == 'texts' and self.what == b'text' and self.number in self.trunk_set and begin < end and text[end - 1:end] != b'\n':
            self.open = True
        self.what = b''

    def find_trunk(self):
        """The revisions of the trunk, the newest first."""
        trunk, at, seen = [], self.head, set()
        while at and at not in seen:
            seen.add(at)
            trunk.append(at)
            at = self.next_of.get(at, b'')
        self.trunk_set = seen
        return trunk

    trunk = ()
    trunk_set = frozenset()

    def moment(self, number):
        """Day and second of a revision, as prs has them; nothing where there are none."""
        parts = self.date_of.get(number, b'').split(b'.')
        if len(parts) != 6:
            return None
        return b'/'.join([parts[0][-2:], *parts[1:3]]), b':'.join(parts[3:])

    def dead(self):
        """The revisions of the trunk that say that the file was removed."""
        return [number for number in self.trunk if self.state_of.get(number) == b'dead']

    def tags(self):
        """The symbols that name a revision of the trunk."""
        return [(name, number) for name, number in self.symbols if number in self.trunk_set]

    def passed_over(self):
        """What doesn't come into an s-file: pairs of what it is and how much of it there is."""
        branches = len(self.next_of) - len(self.trunk)
        states = [self.state_of.get(number, b'') for number in self.trunk]
        kinds = [state for state in dict.fromkeys(states) if state not in (b'', b'Exp')]
        told = [
            (b'branches', branches and b'%d revisions' % branches), (b'default branch', self.branch),
            (b'symbols', len(self.symbols) and b'%d' % len(self.symbols)), (b'locks', self.locks and b'%d' % self.locks),
            (b'access list', self.logins and b'%d' % self.logins),
            (b'states', b' '.join(b'%s %d' % (kind, states.count(kind)) for kind in kinds)),
            (b'the newest revision is dead', self.state_of.get(self.head) == b'dead'),
            (b'keyword mode', self.mode if self.mode != b'kv' else b''), (b'a last line without its end', self.open),
            (b'phrases', b' '.join(self.others))]
        return [(what, b'' if more is True else more) for what, more in told if more]


# a date, which stays, or a number
RENUMBERED = re.compile(rb'(\bdate[\t\n\v\f\r\x08 ]+[0-9.]+)|(?<![^\t\n\v\f\r\x08 ;:])([0-9]+)\.([0-9]+)((?:\.[0-9]+)*)(?![^\t\n\v\f\r\x08 ;:])')


def levels_of_zero(text):
    """The releases that have a revision N.0."""
    found = RcsFile(text)
    return sorted({int(number.split(b'.')[0]) for number in found.trunk if number.endswith(b'.0')})


def renumbered(text, releases):
    """The file with the levels of these releases one higher, outside of strings and dates."""
    def number(found):
        if found[1] or int(found[2]) not in releases:
            return found[0]
        return b'%s.%d%s' % (found[2], int(found[3]) + 1, found[4])
    parts, place = [], 0
    while place < len(text):
        begin = text.find(b'@', place)
        begin = len(text) if begin < 0 else begin
        parts.append(RENUMBERED.sub(number, text[place:begin]))
        place = string_end(text, begin + 1) if begin < len(text) else begin
        parts.append(text[begin:place])
    return b''.join(parts)
