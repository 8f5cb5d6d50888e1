"""Scripts and reports in words, and back to the lines that the program reads and writes, each line tested as the program tests it."""

import re

from .frames import Reader
from .grammar import EVENTS, KINDS, LIVE, REPLIES, SERVER, target
from .words import BadWords, moved, pieces_of, step_over

LONGEST, MOST_LINES = 8_400_000, 1_048_578
ROW = re.compile(r"row( [!-~]+){15}(( [!-~]+){2})?|end( (0|[1-9][0-9]*)){4}|fault [ -~]+")


class Links:
    """What the lines so far have carried on each link, each way."""

    def __init__(self):
        self.readers = {}

    def reader(self, link, is_sent):
        return self.readers.setdefault((link, is_sent), Reader(begins_with_preface=is_sent))


def is_line_of_events(line):
    return not line.startswith(("channel ", "row ", "end ", "fault "))


def split_reply(line):
    """The event of a line and its reply, at the first ' = ' outside quotes and brackets."""
    at = 0
    while at < len(line):
        if line.startswith(" = ", at):
            return line[:at], line[at + 3 :]
        at = step_over(line, at)
    return line, None


def statements(text):
    """The statements of a text in words: the number of the first line of each, and the statement, whose JSON may have lines of its own."""
    at, number = 0, 1
    while at < len(text):
        start = at
        is_comment = text.startswith(("#", "\n"), at)
        try:
            while at < len(text) and text[at] != "\n":
                at = at + 1 if is_comment else step_over(text, at)
        except BadWords as fault:
            raise At(number, text[start:], fault.at - start, fault.what) from None
        if not is_comment:
            yield number, text[start:at]
        number += text.count("\n", start, at) + 1
        at += 1


class At(Exception):
    """What is wrong at a place of a statement that begins in a line."""

    def __init__(self, line, statement, at, what):
        before = statement[:at].split("\n")
        self.line, self.column = line + len(before) - 1, len(before[-1])
        self.text, self.what = statement.split("\n")[self.line - line], what

    def __str__(self):
        skipped = max(0, self.column - 40) if len(self.text) > 80 else 0
        shown = "".join(char if char.isprintable() else "?" for char in self.text[skipped : skipped + 80])
        shown, lead = (".." if skipped else "") + shown + (".." if len(self.text) > skipped + 80 else ""), 2 if skipped else 0
        margin = " " * len(str(self.line))
        return (f"line {self.line}, column {self.column + 1}: {self.what}\n"
                f"{self.line} | {shown}\n{margin} | {' ' * (lead + self.column - skipped)}^")


class Writer:
    """Lines of one script or report, made of words."""

    def __init__(self):
        self.count = 0
        self.kind = None
        self.turns = {}
        self.has_rows = False

    def line(self, words):
        """The line that a statement says."""
        self.count += 1
        name = words.split(" ", 1)[0]
        if self.count == 1 and name != "answer":
            line = self.channel(words)
        elif name == "answer" or self.kind is SERVER:
            line = self.named(words, SERVER)
        elif name in LIVE or self.kind is LIVE:
            line = self.named(words, LIVE)
        else:
            line = self.event(words)
        if len(line) > LONGEST:
            raise BadWords(f"more than {LONGEST} bytes, the most that a line has")
        return line

    def channel(self, words):
        pieces = pieces_of(words)
        if pieces[0][0] != "channel":
            raise BadWords("a script begins with its channel: channel 2 <target>, as channel 2 ipv4:127.0.0.1:50051, or with an answer")
        if len(pieces) != 3 or pieces[1][0] not in ("1", "2"):
            raise BadWords("'channel' takes: channel 2 <target>")
        return f"channel {pieces[1][0]} {converted(target, *pieces[2])}"

    def is_of(self, kind):
        names = {id(SERVER): "server", id(LIVE): "live", id(EVENTS): "replay"}
        if self.kind not in (None, kind):
            raise BadWords(f"a line of a {names[id(kind)]} script in a {names[id(self.kind)]} script")
        self.kind = kind

    def named(self, words, table):
        name = words.split(" ", 1)[0]
        if name not in table:
            raise BadWords(f"no line '{name}'; lines: {' '.join(table)}")
        self.is_of(table)
        if name == "config" and self.count != 2:
            raise BadWords("a config stands in line 2 alone")
        line = fields(words, table)
        if name == "config" and line == "config -":
            raise BadWords("no bytes: a config has one byte at least; leave its line out where there is none", 7)
        if name == "answer":
            self.turn(*line.split(" ")[1:3])
        return line

    def turn(self, path, n):
        wanted = self.turns.get(path, 0) + 1
        if int(n) != wanted:
            raise BadWords(f"'{n}' is out of turn: the next answer of this path has the number {wanted}", len(path) + 8)
        self.turns[path] = wanted

    def event(self, words):
        if not is_line_of_events(words):
            if not ROW.fullmatch(words):
                raise BadWords("no line of a report has this form")
            self.has_rows = True
            return words
        if self.has_rows:
            raise BadWords("an event after the rows; in a report all events stand before them")
        event, reply = split_reply(words)
        stamps = event.split(" ", 2)
        if len(stamps) < 3:
            raise BadWords("a line is: <moment> <word> <event>, as 0 0 dial")
        moment, word, rest = stamps
        line = f"{converted(KINDS['moment'][0], moment, 0)} {converted(KINDS['word'][0], word, len(moment) + 1)}"
        at = len(event) - len(rest)
        self.is_of(EVENTS)
        line += f" {fields(rest, EVENTS, at, 'event')}"
        return line if reply is None else f"{line} = {fields(reply, REPLIES, len(event) + 3, 'reply')}"


def converted(convert, word, at):
    try:
        return convert(word)
    except BadWords as fault:
        raise moved(fault, at) from None


def fields(words, table, base=0, noun="line"):
    """A name and its fields, made of words."""
    name = words.split(" ", 1)[0]
    if name not in table:
        raise BadWords(f"no {noun} '{name}'; {noun}s: {' '.join(table)}", base)
    kinds = table[name]
    if kinds and kinds[-1].endswith(".."):
        pieces = front_and_rest(words, len(kinds), base)
    else:
        pieces = pieces_of(words, base)
    if len(pieces) - 1 != len(kinds) and not (kinds and kinds[-1].endswith("*") and len(pieces) >= len(kinds)):
        raise BadWords(f"'{name}' takes: {usage(name, kinds)}", base)
    if len(pieces) - len(kinds) > 64:
        raise BadWords(f"{len(pieces) - len(kinds)} messages; a call has 64 at most", base)
    out = [name]
    for place, (word, at) in enumerate(pieces[1:]):
        out.append(converted(KINDS[kinds[min(place, len(kinds) - 1)]][0], word, at))
    return " ".join(out)


def front_and_rest(words, count, base):
    """A name, its first fields, and the rest as one."""
    pieces, at = [], 0
    for _ in range(count):
        end = words.find(" ", at)
        if end < 0:
            break
        pieces.append((words[at:end], base + at))
        at = end + 1
    return pieces + [(words[at:], base + at)]


def usage(name, kinds):
    return " ".join([name] + [f"<{kind.rstrip('.*')}>" + (".." if kind.endswith("*") else "") for kind in kinds])


def write(text):
    """The lines that a text in words says."""
    writer = Writer()
    for number, words in statements(text):
        try:
            yield writer.line(words)
        except BadWords as fault:
            raise At(number, words, fault.at, fault.what) from None
        if writer.count > MOST_LINES:
            raise At(number, words, 0, f"more than {MOST_LINES} lines, the most that a script has")


def without_feed(line):
    """A line without the line feed that ends it."""
    if not line.endswith("\n"):
        raise BadWords("no line feed ends the last line", len(line))
    return line[:-1]


def read(lines):
    """Lines of a script or a report in words, which `write` turns into the same lines again."""
    writer, links = Writer(), Links()
    for number, line in enumerate(lines, 1):
        try:
            line = without_feed(line)
            bad = next((at for at, char in enumerate(line) if not " " <= char <= "~"), None)
            if bad is not None:
                raise BadWords("a byte that is not printable ASCII (20 to 7e)", bad)
            if not line:
                raise BadWords("an empty line; a script has none")
            if line.startswith("#"):
                raise BadWords("a comment; a script has none, only one in words has")
            words = words_of_line(line, links)
            if writer.line(words) != line:
                raise BadWords("no line of a script or a report has this form")
            yield words
        except BadWords as fault:
            raise At(number, line, min(fault.at, len(line)), fault.what) from None


def words_of_line(line, links):
    """A line of a script or a report in words; what cannot be a line is left as it is, for the writer to refuse."""
    name = line.split(" ", 1)[0]
    try:
        if name in LIVE or name in SERVER:
            return words_of_fields(line, LIVE if name in LIVE else SERVER, None)
        if not is_line_of_events(line):
            return line
        event, mark, reply = line.partition(" = ")
        moment, word, event = event.split(" ", 2)
        link = event.split(" ")[1] if " " in event else None
        words = f"{moment} {word} {words_of_fields(event, EVENTS, links.reader(link, False))}"
        return words + (f" = {words_of_fields(reply, REPLIES, links.reader(link, True))}" if mark else "")
    except (BadWords, ValueError, KeyError, IndexError):
        return line


def words_of_fields(line, table, reader):
    name, *given = line.split(" ")
    kinds = table[name]
    if len(given) != len(kinds) and not (kinds and kinds[-1].endswith("*")):
        raise BadWords("another count of fields")
    words = [name]
    for place, field in enumerate(given):
        kind = kinds[min(place, len(kinds) - 1)]
        if kind in ("bytes..", "octets.."):
            words.append("-" if field == "-" else reader.words(bytes.fromhex(field)))
        else:
            words.append(KINDS[kind][1](field))
    return " ".join(words)
