"""The lines of a report, tested one by one: what is no line of one is named by its place, and nothing is guessed."""

import re

NUMBER = r"(?:0|[1-9][0-9]*)"
HEX = "[0-9a-f]+"  # that the digits are even is tested where the bytes are read
PATH = r"/[!-.0-~]+/[!-.0-~]+"
META = r"(?:-|[!#-+.-9;-~-]+:(?:[0-9a-f]{2})*(?:,[!#-+.-9;-~-]+:(?:[0-9a-f]{2})*)*)"
TEXT = r"(?:[!-$&-~]|%[0-9A-F]{2})+"
ADDRESS = rf"(?:{NUMBER}\.){{3}}{NUMBER}:{NUMBER}"
REFUSED = r"refused [1-9]"

# The fields of each event, and its reply, as groups.
FORMS = {
    "begin": (rf"({PATH}) (-|yes|no) (-|{NUMBER}) ({META})", rf"call {NUMBER}"),
    "send": (rf"({NUMBER}) (-|{HEX})", rf"done|full {NUMBER}"),
    "finish": (rf"({NUMBER})", "done"),
    "take": (rf"({NUMBER})", rf"notyet|head {META}|message (?:-|{HEX})|end {NUMBER} {TEXT} {META} [a-z]+"),
    "cancel": (rf"({NUMBER})", "done"),
    "resolved": (rf"(-|{ADDRESS}(?:,{ADDRESS})*) (-|{HEX})", r"done|badconfig [1-5] \S+"),
    "unresolved": ("", "done"),
    "dial": ("", rf"notyet|dial {NUMBER} {ADDRESS} {NUMBER}"),
    "up": (rf"({NUMBER})", rf"link {NUMBER}"),
    "nodial": (rf"({NUMBER})", "done"),
    "arrived": (rf"({NUMBER}) ({HEX})", "done"),
    "lost": (rf"({NUMBER})", "done"),
    "drain": (rf"({NUMBER}) ({NUMBER})", rf"octets (?:-|{HEX})"),
    "ping": (rf"({NUMBER}) ([0-9a-f]{{16}})", "done"),
    "tick": ("", "done"),
    "shutdown": ("", "done"),
}
EVENTS = {name: re.compile(rf"{' ' + fields if fields else ''} = ({reply}|{REFUSED})") for name, (fields, reply) in FORMS.items()}
OPENING = re.compile(rf"({NUMBER}) ({NUMBER}) ([a-z]+)")
ROW = re.compile(
    rf"row(?: {NUMBER}){{2}} (?:first|retry|hedge|transparent) {NUMBER}(?: (?:-|{NUMBER})){{7}} (?:-|stop|{NUMBER})"
    rf" (?:-|{NUMBER}) (?:-|[a-z]+) (?:-|{NUMBER})(?: (?:-|{NUMBER}) (?:-|{NUMBER}))?"
)
END = re.compile(rf"end {NUMBER} {NUMBER} {NUMBER} {NUMBER}")
MOST_MOMENT, WORDS = 4 * 10**18, 1 << 64
FULL = "fault session full"


class Fault(Exception):
    """A file that is no whole report: the line, from 1, and what is wrong there."""

    def __init__(self, line, words):
        super().__init__(f"line {line}: {words}")
        self.line = line


class Report:
    """The lines of a report: line 1 is the channel's, entry n stands in line n + 1, then the rows, then `end`."""

    def __init__(self, lines):
        self.lines = lines
        self.version, self.target = channel_line(lines[0])
        last = len(lines) - 1
        self.is_full = lines[last] == FULL
        last -= 1 if self.is_full else 0
        if last < 1 or not lines[last].startswith("end "):
            raise foreign_or_cut(lines)
        if not END.fullmatch(lines[last]):
            raise Fault(last + 1, "the last line of a report is 'end <entries> <calls> <rows> <links>'")
        self.end_line = last + 1
        entries, self.calls, rows, self.links = map(int, lines[last].split()[1:])
        self.entries, self.rows = entries, rows
        if 1 + entries + rows != last:
            raise Fault(last + 1, counts_words(lines, last, entries, rows))

    def line_of_entry(self, entry):
        return entry + 1

    def line_of_row(self, place):
        return 1 + self.entries + place

    def row_lines(self):
        start = 1 + self.entries
        return self.lines[start : start + self.rows]


def channel_line(line):
    if line.startswith("fault "):
        raise Fault(1, f"the program refused its input ({line}), and wrote no report")
    found = re.fullmatch(r"channel ([12]) (\S+)", line)
    if not found:
        raise Fault(1, "no report begins so; its first line is 'channel 2 <target>'")
    return int(found.group(1)), found.group(2)


def foreign_or_cut(lines):
    """The fault of a file whose last line is not the last of a report."""
    body = lines[1:]
    if body and not any(" = " in line for line in body[:20]):
        if any(line.startswith(("call ", "config ")) for line in body[:20]):
            return Fault(2, "a live script stands here; './grpcc live' runs it and writes the report")
        return Fault(2, "an event without a reply: it is a script; './grpcc replay' runs it and writes the report")
    return Fault(len(lines), "the report is cut off here; its last line is 'end <entries> <calls> <rows> <links>'")


def counts_words(lines, last, entries, rows):
    events = sum(1 for line in lines[1:last] if not line.startswith("row "))
    return f"it counts {entries} entries and {rows} rows, and {events} and {last - 1 - events} stand above it"


def report_of(data):
    """The report of a file's bytes."""
    if not data:
        raise Fault(1, "the file is empty")
    bad = re.search(rb"[^\n -~]", data)
    if bad:
        line = data.count(b"\n", 0, bad.start()) + 1
        raise Fault(line, f"byte {data[bad.start()]:#04x} stands in it; a report is printable ASCII")
    if not data.endswith(b"\n"):
        raise Fault(data.count(b"\n") + 1, "the file ends in the middle of this line")
    lines = data.decode("ascii").split("\n")
    lines.pop()
    return Report(lines)


def entries_of(report):
    """Each entry: its number, moment, word, the event's name, and its fields with the reply as the last."""
    last = 0
    lines = report.lines
    opening, forms = OPENING.match, EVENTS
    for number in range(1, report.entries + 1):
        line = lines[number]
        found = opening(line)
        if not found:
            raise Fault(number + 1, entry_words(line))
        moment, word, name = found.groups()
        rest = forms[name].fullmatch(line, found.end()) if name in forms else None
        if not rest:
            raise Fault(number + 1, entry_words(line))
        moment, word = int(moment), int(word)
        if moment < last or moment > MOST_MOMENT or word >= WORDS:
            raise Fault(number + 1, "its moment is below the one before" if moment < last else "its moment or its word is out of range")
        last = moment
        yield number, moment, word, name, rest.groups()


def entry_words(line):
    """Why a line is no entry."""
    parts = line.split(" ")
    if line.startswith("row "):
        return "a row stands among the entries"
    if len(parts) < 3 or not (parts[0].isdigit() and parts[1].isdigit()):
        return "an entry begins with a moment, a word and an event"
    if parts[2] not in FORMS:
        return f"no event '{parts[2]}'"
    if " = " not in line:
        return f"'{parts[2]}' without a reply"
    return f"'{parts[2]}' has other fields, or another reply"
