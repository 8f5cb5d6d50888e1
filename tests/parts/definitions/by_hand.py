"""Sessions that were worked by hand from the public standards, tests/by-hand.txt, held against the definition.

A row begins with `== ` and what it shows; `from:` names the section that it was worked by. Then come the lines of a report in words, as
`tools/script write` reads them (docs/guide/FORMATS.md, "Scripts in words"). `opening:` and a config (or a dash) stand for the lines by
which a channel of the one address 1.2.3.4:5 comes to a READY subchannel with the link 1, at 0. After an event there may stand

    = REPLY      what is answered
    ~ STATE      the state that the channel has then
    ! REPLY      what is not answered: the report with this reply in its place is refused at this line

and `row ..` lines are those of the ledger, of which ` ! row ..` is refused. The word * stands for one that the row does not say, and at the
end of a line for all that follow; a reply with one has its bytes in hex. `actions:` are the actions of the last entry, by their names. A line that begins with # is a comment.
"""

import os
import sys
from typing import NamedTuple

from .scripts import STATES, script_of
from .sessions import first_difference

TOP = os.path.dirname(os.path.dirname(os.path.dirname(os.path.dirname(os.path.abspath(__file__)))))
sys.path.insert(0, os.path.join(TOP, "tools"))
from script_words.lines import write  # noqa: E402

PATH = "tests/by-hand.txt"
OPENING = (
    "channel 2 ipv4:1.2.3.4:5",
    "0 0 resolved 1.2.3.4:5 @",
    "0 0 dial",
    "0 0 up 1",
    "0 0 drain 1 65536",
    "0 0 arrived 1 SETTINGS{}",
)
ROW, ANY = "row ", "*"


class HandRow(NamedTuple):
    """One session: its events in words, what is wanted and what is refused of its lines by their places, states, and the last actions."""

    name: str
    events: list
    wanted: dict
    refused: dict
    states: dict
    actions: list


def parted(line, mark):
    """A line before the last place where a mark stands, and what stands after it, or none."""
    first, found, rest = line.rpartition(f" {mark} ")
    return (first, rest) if found else (line, None)


def row_of(name, lines):
    """The row that these lines say; the ledger's lines come after those of the events."""
    row = HandRow(name, [], {}, {}, {}, [])
    ledger = 0
    for line in lines:
        key, _, value = line.partition(": ")
        if key == "opening":
            row.events.extend(it.replace("@", value) for it in OPENING)
        elif key == "actions":
            row.actions.extend(value.split(" "))
        elif line.startswith(ROW):
            wanted, refused = parted(line, "!")
            row.wanted["row", ledger] = wanted
            if refused:
                row.refused["row", ledger] = refused
            ledger += 1
        elif key != "from":
            line, refused = parted(line, "!")
            line, state = parted(line, "~")
            event, reply = parted(line, "=")
            place = "line", len(row.events)
            row.events.append(event)
            for said, where in ((reply, row.wanted), (refused, row.refused), (state, row.states)):
                if said:
                    where[place] = said
    return row


def hand_rows():
    """The rows of the file, in order."""
    with open(os.path.join(TOP, PATH), encoding="utf-8") as file:
        groups = file.read().split("\n== ")[1:]
    for group in groups:
        name, *lines = group.split("\n")
        yield row_of(name, [line for line in lines if line and not line.startswith("#")])


def bytes_in(event, reply):
    """A reply to an event as a report has it; one that leaves a word open is written so in the row."""
    if ANY in reply.split(" "):
        return reply
    lines = write(f"{OPENING[0]}\n{event} = {reply}\n")
    return list(lines)[1].partition(" = ")[2]


def masked(line, pattern):
    """A line with the word * where a pattern has it."""
    words, wanted = line.split(" "), pattern.split(" ")
    if wanted[-1] == ANY:
        words = [*words[: len(wanted) - 1], *([ANY] if len(words) >= len(wanted) else [])]
    return " ".join(ANY if other == ANY else word for word, other in zip(words, [*wanted, *[""] * len(words)]))


def filled(pattern, line):
    """A pattern with the words of a line where it has *."""
    words, wanted = line.split(" "), pattern.split(" ")
    if wanted[-1] == ANY:
        wanted = [*wanted[:-1], *words[len(wanted) - 1 :]]
    return " ".join(word if other == ANY else other for word, other in zip([*words, *[""] * len(wanted)], wanted))


class HandWorked:
    """What a row wants, and what the definition makes of its events."""

    def __init__(self, definitions, row):
        self.definitions, self.row = definitions, row
        script = "".join(f"{line}\n" for line in row.events)
        self.session = definitions.session(script_of("".join(f"{line}\n" for line in write(script))))
        self.report = self.session.report

    def place(self, place):
        """Where a line stands in the report."""
        kind, number = place
        return number if kind == "line" else len(self.row.events) + number

    def wanted(self, place, said):
        """What is wanted at a place, as bytes."""
        return said if place[0] == "row" else bytes_in(self.row.events[place[1]], said)

    def came(self, place):
        line = self.report[self.place(place)]
        return line if place[0] == "row" else line.partition(" = ")[2]

    def tried(self):
        """What came, and what was wanted: the lines, the states, the actions, and where each changed line is refused."""
        came, want = [], []
        for place, said in self.row.wanted.items():
            said = self.wanted(place, said)
            came.append((place, masked(self.came(place), said)))
            want.append((place, said))
        for place, state in self.row.states.items():
            came.append((place, STATES[self.session.seen.entries[place[1] - 1].state.tag]))
            want.append((place, state))
        if self.row.actions:
            came.append([action.tag for action in self.session.entries[-1]])
            want.append(self.row.actions)
        for place, said in self.row.refused.items():
            came.append((place, f"refused at {self.refused_at(place, self.wanted(place, said))}"))
            want.append((place, f"refused at {self.place(place)}"))
        return came, want

    def refused_at(self, place, said):
        """Where the report with another line at this place is refused: it is held against what its own events give."""
        at, line = self.place(place), self.report[self.place(place)]
        other = filled(said, self.came(place))
        changed = other if place[0] == "row" else f"{line.partition(' = ')[0]} = {other}"
        report = [*self.report[:at], changed, *self.report[at + 1 :]]
        return first_difference(self.definitions.session(script_of("".join(f"{it}\n" for it in report))).report, report)
