"""What the checks of import share: RCS files and their trunks as crates/sccs_rcs_file/specs and crates/sccs_trunks/specs define them, the
s-file of a trunk, and a writer of RCS files with random scripts. All texts are bytes."""

import calendar
import difflib
import re
import time
from typing import NamedTuple

MOST_REVISIONS = 65535


class Fault(Exception):
    """A refusal: its text, as the program writes it behind the name."""


class BadRcs(Fault):
    """The byte, from 1, at which a file is none."""

    def __init__(self, byte):
        super().__init__(b'bad RCS file at byte %d (35)' % byte)


class BadRevision(Fault):
    """The revision, from 1, that is unfit; 0 is the description."""

    def __init__(self, number):
        super().__init__(b'revision %d is unfit (36)' % number)


class BadScript(Fault):
    """The revision and the line of its text."""

    def __init__(self, number, line):
        super().__init__(b'revision %d fails at line %d (37)' % (number, line))


# Tokens: a kind and bytes. The kinds are number, word, quoted, semicolon and colon; None where a byte begins none.

GAP = re.compile(rb'[\x08-\x0d ]*')
WORD = re.compile(rb'[^\x00-\x20:;@]+')
STRING = re.compile(rb'@((?:[^@]|@@)*)@(?!@)')
NUMBER = re.compile(rb'[0-9.]+')


def lexemes(text):
    """The tokens of a file, each with the place of its first byte, up to the first byte that begins none."""
    at = GAP.match(text).end()
    while at < len(text):
        kind, token, end = token_at(text, at)
        yield kind, token, at
        if kind is None:
            return
        at = GAP.match(text, end).end()


def token_at(text, at):
    """The kind, the bytes and the end of the token at a place."""
    first = text[at:at + 1]
    if first == b';':
        return 'semicolon', first, at + 1
    if first == b':':
        return 'colon', first, at + 1
    if first == b'@':
        end = string_end(text, at)
        return (None, b'', at) if end is None else ('quoted', text[at + 1:end - 1], end)
    found = WORD.match(text, at)
    if not found:
        return None, b'', at
    return 'number' if NUMBER.fullmatch(found[0]) else 'word', found[0], found.end()


def string_end(text, at):
    """The place behind the string that begins at a place, or None."""
    place = at + 1
    while (place := text.find(b'@', place)) >= 0:
        if text[place + 1:place + 2] != b'@':
            return place + 1
        place += 2
    return None


# The form of a file

class RcsFile:
    """Phrases are pairs of a name and a list of tokens; entries pairs of a number and phrases; texts are of a number, log and text."""

    def __init__(self):
        self.head = []
        self.entries = []
        self.description = b''
        self.texts = []


class Reader:
    """Follows the tokens of a file, one at a time, by the place where it stands."""

    def __init__(self):
        self.file = RcsFile()
        self.place = self.head
        self.phrases = self.file.head
        self.number = self.log = b''
        self.inside = []

    def phrase(self, name, behind):
        """A phrase begins; behind it the place is another one."""
        self.inside = []
        self.phrases.append((name, self.inside))
        self.behind = behind
        return self.in_phrase

    def in_phrase(self, kind, token):
        if kind == 'semicolon':
            return self.behind
        self.inside.append((kind, token))
        return self.in_phrase

    def head(self, kind, token):
        """Where a phrase of the head or of an entry, an entry or the description may come."""
        if kind == 'number':
            self.phrases = []
            self.file.entries.append((token, self.phrases))
            return self.head
        if kind != 'word':
            return None
        return self.description if token == b'desc' else self.phrase(token, self.head)

    def description(self, kind, token):
        self.file.description = token
        return self.texts if kind == 'quoted' else None

    def texts(self, kind, token):
        self.number = token
        return self.log_word if kind == 'number' else None

    def log_word(self, kind, token):
        return self.log_text if kind == 'word' and token == b'log' else None

    def log_text(self, kind, token):
        self.log, self.phrases = token, []
        return self.text_phrases if kind == 'quoted' else None

    def text_phrases(self, kind, token):
        if kind != 'word':
            return None
        return self.text if token == b'text' else self.phrase(token, self.text_phrases)

    def text(self, kind, token):
        if kind != 'quoted':
            return None
        self.file.texts.append((self.number, self.log, token))
        return self.texts


def read_file(text):
    """The file that bytes are. Raises BadRcs."""
    reader = Reader()
    for kind, token, at in lexemes(text):
        reader.place = kind and reader.place(kind, token)
        if reader.place is None:
            raise BadRcs(at + 1)
    if reader.place != reader.texts:
        raise BadRcs(len(text) + 1)
    return reader.file


# The trunk

class Revision(NamedTuple):
    """The SID has two numbers, the moment is in seconds since 1970; log and text are lines."""
    sid: tuple
    moment: int
    login: bytes
    log: list
    text: list


def lines_of(text):
    """The lines of bytes, without their LFs."""
    lines = text.split(b'\n')
    return lines[:-1] if lines[-1] == b'' else lines


def unquoted(raw):
    """The lines of a string."""
    return lines_of(raw.replace(b'@@', b'@'))


def only(items):
    """The one item, or None."""
    return items[0] if len(items) == 1 else None


def inside_of(name, phrases):
    """The tokens of the one phrase of a name. Raises ValueError where there is none, or several."""
    found = only([inside for phrase, inside in phrases if phrase == name])
    if found is None:
        raise ValueError
    return found


def one_token(inside, *kinds):
    """The one token of a phrase. Raises ValueError where it is none of these kinds."""
    (kind, token), = inside
    if kind not in kinds:
        raise ValueError
    return token


DATE = re.compile(rb'([0-9]{2}|[0-9]{4})' + rb'\.([0-9]{1,2})' * 5)


def moment_of(date):
    """The seconds since 1970 of a date. Raises ValueError where it is none of an s-file."""
    found = DATE.fullmatch(date)
    if not found:
        raise ValueError
    year, month, day, hour, minute, second = map(int, found.groups())
    if len(found[1]) == 2:
        year += 1900
    if not (1969 <= year <= 2068 and 1 <= month <= 12 and 1 <= day <= calendar.monthrange(year, month)[1]):
        raise ValueError
    if hour > 23 or minute > 59 or second > 59:
        raise ValueError
    return calendar.timegm((year, month, day, hour, minute, second))


SID = re.compile(rb'([0-9]{1,4})\.([0-9]{1,4})')


def sid_of(number):
    """The two numbers of a SID of the trunk. Raises ValueError where it is none."""
    found = SID.fullmatch(number)
    sid = tuple(map(int, found.groups())) if found else (0, 0)
    if 0 in sid:
        raise ValueError
    return sid


def revision_of(above, number, entries, texts):
    """The revision of a number, and the number of the next one. Raises ValueError where it is unfit."""
    (phrases,), ((log, text),) = entries.get(number, []), texts.get(number, [])
    sid = sid_of(number)
    login = one_token(inside_of(b'author', phrases), 'number', 'word')
    moment = moment_of(one_token(inside_of(b'date', phrases), 'number'))
    following = inside_of(b'next', phrases)
    if (above and sid >= above) or len(login) > 64:
        raise ValueError
    return Revision(sid, moment, login, unquoted(log) or [b''], unquoted(text)), one_token(following, 'number') if following else None


def trunk_of(file):
    """The revisions of the trunk. Raises BadRevision."""
    entries, texts = {}, {}
    for number, phrases in file.entries:
        entries.setdefault(number, []).append(phrases)
    for number, log, text in file.texts:
        texts.setdefault(number, []).append((log, text))
    revisions, above = [], None
    try:
        number = one_token(inside_of(b'head', file.head), 'number')
        while number is not None:
            if len(revisions) == MOST_REVISIONS:
                raise ValueError
            revision, number = revision_of(above, number, entries, texts)
            above = revision.sid
            revisions.append(revision)
    except ValueError:
        raise BadRevision(len(revisions) + 1) from None
    return revisions


# Scripts

COMMAND = re.compile(rb'([da])([0-9]{1,10}) ([0-9]{1,10})')


def is_bare(line):
    """Whether a line may stand in an s-file."""
    return not line.startswith(b'\x01')


def changes_of(script, count):
    """The changes of a script for a text of so many lines, as the set of lines that go and a mapping from lines to those that come behind
    them. Raises ValueError with the line at fault."""
    struck, added = set(), {}
    last = taken = 0
    for place, line in enumerate(script, 1):
        if not is_bare(line):
            raise ValueError(place)
        if taken:
            added.setdefault(last, []).append(line)
            taken -= 1
            continue
        found = COMMAND.fullmatch(line)
        if not found:
            raise ValueError(place)
        first, number = int(found[2]), int(found[3])
        if found[1] == b'd':
            if not (number > 0 and last < first and first + number <= count + 1):
                raise ValueError(place)
            struck.update(range(first, first + number))
            last = first + number - 1
        else:
            if not (number > 0 and last <= first <= count and number <= len(script) - place):
                raise ValueError(place)
            last, taken = first, number
    return struck, added


class Line:
    """A line of a history: its inserter is None until it is known, its deleter 0 where there is none."""

    def __init__(self, text, deleter):
        self.text = text
        self.inserter = None
        self.deleter = deleter


def turned(lines, serial, struck, added):
    """The lines, turned back by the script that leads from the revision of a serial to the one before it."""
    result = [Line(text, serial) for text in added.get(0, [])]
    place = 0
    for line in lines:
        result.append(line)
        if line.inserter is None:
            place += 1
            if place in struck:
                line.inserter = serial
            result += [Line(text, serial) for text in added.get(place, [])]
    return result


class Trunk:
    """The trunk of an RCS file: the revisions from the head on, the description, and the lines of the history."""

    def __init__(self, text):
        """Reads the bytes of a file. Raises Fault."""
        file = read_file(text)
        self.description = unquoted(file.description)
        if not all(map(is_bare, self.description)):
            raise BadRevision(0)
        self.revisions = trunk_of(file)
        self.lines = self.weave()

    def weave(self):
        """The lines of the history. Raises BadScript."""
        head = self.revisions[0].text
        for place, line in enumerate(head, 1):
            if not is_bare(line):
                raise BadScript(1, place)
        lines, count, serial = [Line(text, 0) for text in head], len(head), len(self.revisions)
        for number, revision in enumerate(self.revisions[1:], 2):
            try:
                struck, added = changes_of(revision.text, count)
            except ValueError as fault:
                raise BadScript(number, fault.args[0]) from None
            lines = turned(lines, serial, struck, added)
            count += sum(map(len, added.values())) - len(struck)
            serial -= 1
        for line in lines:
            line.inserter = line.inserter or 1
        return lines

    def text(self, serial):
        """The lines of a version."""
        return [line.text for line in self.lines if line.inserter <= serial and not 0 < line.deleter <= serial]

    def sfile(self):
        """The s-file of the trunk's history."""
        rest = b'\n'.join([*self.table(), b'\1u', b'\1U', b'\1t', *self.description, b'\1T', *self.body(), b''])
        return b'\1h%05d\n%s' % (sum(rest) % 65536, rest)

    def table(self):
        """The lines of the table of deltas."""
        inserted, deleted, live = (dict.fromkeys(range(len(self.revisions) + 2), 0) for _ in range(3))
        for line in self.lines:
            inserted[line.inserter] += 1
            deleted[line.deleter] += 1
        for serial in range(1, len(self.revisions) + 1):
            live[serial] = live[serial - 1] + inserted[serial] - deleted[serial]
        for place, revision in enumerate(self.revisions):
            serial = len(self.revisions) - place
            counts = (inserted[serial], deleted[serial], live[serial] - inserted[serial])
            yield b'\1s %05d/%05d/%05d' % tuple(min(count, 99999) for count in counts)
            yield b'\1d D %d.%d %s %s %d %d' % (*revision.sid, stamp_of(revision.moment), revision.login, serial, serial - 1)
            yield from (b'\1c ' + line for line in revision.log)
            yield b'\1e'

    def body(self):
        """The lines of the body: each longest run of lines with the same inserter and deleter stands in regions of its own."""
        before = None
        for line in self.lines:
            region = (line.inserter, line.deleter)
            if region != before:
                yield from ends_of(before)
                yield b'\1I %d' % line.inserter
                if line.deleter:
                    yield b'\1D %d' % line.deleter
            yield line.text
            before = region
        yield from ends_of(before)


def ends_of(region):
    """What stands behind the lines of a region."""
    if region and region[1]:
        yield b'\1E %d' % region[1]
    if region:
        yield b'\1E %d' % region[0]


def stamp_of(moment):
    """A moment as an s-file has it."""
    return time.strftime('%y/%m/%d %H:%M:%S', time.gmtime(moment)).encode()


# Writing

class Draft(NamedTuple):
    """A revision as it is written: its phrases are bytes behind those that each entry has."""
    number: bytes
    date: bytes
    author: bytes
    state: bytes
    phrases: bytes
    log: bytes
    text: bytes


def string(text):
    """Bytes as a string of an RCS file."""
    return b'@%s@' % text.replace(b'@', b'@@')


def script(old, new):
    """The script that makes of a text another one, lines being bytes with their ends."""
    parts = []
    # (a line without its end is another one than that with it)
    for kind, first, end, begin, stop in difflib.SequenceMatcher(None, old, new, False).get_opcodes():
        if kind in ('delete', 'replace'):
            parts.append(b'd%d %d\n' % (first + 1, end - first))
        if kind in ('insert', 'replace'):
            parts.append(b'a%d %d\n' % (end, stop - begin))
            parts += new[begin:stop]
    return b''.join(parts)


def write_file(head, drafts, description):
    """An RCS file of the phrases of its head and of revisions, the newest first, each with its text whole."""
    parts = [b'head\t%s;\n' % drafts[0].number, head, b'\n']
    for draft, following in zip(drafts, [*drafts[1:], None]):
        parts.append(b'\n%s\ndate\t%s;\tauthor %s;\tstate %s;\nbranches;\nnext\t%s;\n%s' % (
            draft.number, draft.date, draft.author, draft.state, following.number if following else b'', draft.phrases))
    parts.append(b'\n\ndesc\n%s\n' % string(description))
    before = None
    for draft in drafts:
        lines = re.findall(rb'[^\n]*\n|[^\n]+', draft.text)
        text = draft.text if before is None else script(before, lines)
        parts.append(b'\n\n%s\nlog\n%s\ntext\n%s\n' % (draft.number, string(draft.log), string(text)))
        before = lines
    return b''.join(parts)


# Random files

AUTHORS = ['ann', 'bob', 'eve.x', 'o\'neil']
LINES = [b'', b'one', b'@', b'a@@b@', b'$Id$ and %I%', b'nul \0 in it', b'\0', b'cr\r', b'\r', b'\xff\xfe\x80', b'.', b'd1 1', b'a0 1', b' \x01soh',
         b'long ' * 1000, b'\t', b'x\x0by\x0cz', b'gr\xc3\xbc\xc3\x9f']
LOGS = [b'one line\n', b'one line without its end', b'first\nsecond\n', b'an @ and @@\n', b'\n', b'first\n\nthird\n\n', b'nul \0 and \xe9\n',
        b'\x01soh\n', b'cr\r\n', b'long ' * 400 + b'\n']


def text_line(draw):
    """A line without its end, of any bytes that an s-file has a place for."""
    if draw.random() < 0.3:
        return draw.choice(LINES)
    line = bytes(draw.randrange(256) for _ in range(draw.choice([1, 5, 30]))).replace(b'\n', b'\0')
    return b'x' + line if line[:1] == b'\1' else line


def edited(draw, lines):
    """The lines with some others: none of them changed, some, or all gone."""
    chance = draw.random()
    if chance < 0.1:
        return list(lines)
    if chance < 0.13:
        return []
    result = []
    for line in [None, *lines]:
        if line is not None and draw.random() > 0.1:
            result.append(line)
        while draw.random() < 0.08 + 0.6 / (1 + len(lines)):
            result.append(text_line(draw))
    return result


def whole_text(draw, lines):
    """The bytes of lines; sometimes the last one lacks its end."""
    text = b''.join(line + b'\n' for line in lines)
    return text[:-1] if lines and lines[-1] and draw.random() < 0.2 else text


def texts(draw, count):
    """The texts of revisions, the oldest first."""
    lines = [text_line(draw) for _ in range(draw.choice([0, 1, 8, 40]))]
    result = []
    for _ in range(count):
        result.append(whole_text(draw, lines))
        lines = edited(draw, lines)
    return result


def moments(draw, count):
    """Moments of an s-file that rise."""
    first, last = -31_536_000, 3_124_223_999
    if draw.random() < 0.5:
        first = draw.randrange(first, last)
        last = min(last, first + 10_000_000)
    return sorted(draw.sample(range(first, last), count))


def date(draw, moment):
    """A moment as RCS has it: of the last century the year may have two digits."""
    text = time.strftime('%Y.%m.%d.%H.%M.%S', time.gmtime(moment))
    return text[2:] if text.startswith('19') and draw.random() < 0.5 else text


def numbers(draw, count):
    """The numbers of a trunk, the oldest first."""
    release, level = draw.choice([(1, 1), (1, 1), (1, 0), (3, 9000)])
    result = []
    for _ in range(count):
        level += 1 if draw.random() < 0.9 else draw.randrange(1, 4)
        if draw.random() < 0.03 or level > 9999:
            release, level = release + 1, 1
        result.append(f'{release}.{level}')
    return result


def written(draw, count, foreign):
    """A file of so many revisions, with random scripts; foreign phrases, which rcsfile(5) allows, RCS itself takes no longer."""
    drafts = []
    for number, text, moment in zip(numbers(draw, count), texts(draw, count), moments(draw, count)):
        log = draw.choice([b'', b'', *LOGS])
        phrases = draw.choice([b'', b'', b'commitid\t1006B0DD2DF78616430;\n', *[b'permissions\t644 @x;@@y@ a:b;\n'] * foreign])
        drafts.append(Draft(
            number.encode(), date(draw, moment).encode(), draw.choice([*AUTHORS, 'h\u00e9l\u00e8ne']).encode(), draw.choice([b'Exp', b'Exp', b'Rel', b'dead']),
            phrases, log, text))
    drafts.reverse()
    head = draw.choice([b'access;\n', b'access\n\tann\n\tbob;\n'])
    head += draw.choice([b'symbols;\n', b'symbols\n\tREL:%s\n\tOLD:%s;\n' % (drafts[0].number, drafts[-1].number)])
    head += draw.choice([b'locks; strict;\n', b'locks\n\tann:%s;\n' % drafts[0].number])
    head += draw.choice([b'', b'comment\t@# @;\n', b'expand\t@o@;\n', b'comment\t@@;\nexpand\t@b@;\n'])
    return write_file(head, drafts, draw.choice([b'', b'what it is\n', b'an @\nand more', b'\n\n']))
