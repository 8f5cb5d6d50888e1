"""Actions for people: each in a line, with its name and what it holds, as the sources of the definitions name that."""

from .scripts import STATES, address_text
from .words import CONSTANTS, Record, Value

ACTIONS = "session_actions.specs.declared.action.Action.TheVariants"
FRAMES = "DATA HEADERS PRIORITY RST_STREAM SETTINGS PUSH_PROMISE PING GOAWAY WINDOW_UPDATE CONTINUATION".split()
LONGEST_LINE = 160
NAMED_ALONE, LEFT_OUT = ("event", "reply", "item"), ("text", "meta")


def frame_text(frame):
    kind = FRAMES[frame.kind] if frame.kind < len(FRAMES) else f"a frame of type {frame.kind}"
    stream = f" on stream {frame.stream}" if frame.stream else ""
    return f"{kind}{stream}, flags {frame.flags}, {len(frame.payload)} bytes"


def value_text(value):
    """A value for people: what is not there is a hyphen."""
    if isinstance(value, bool):
        return "yes" if value else "no"
    if isinstance(value, Record):
        return address_text(value)
    if isinstance(value, Value):
        if value is CONSTANTS["None"]:
            return "-"
        inner = " ".join(map(value_text, value.held))
        return inner if value.tag == "Some" else f"{value.tag} {inner}".rstrip()
    return str(value)


def parts_of(name, value):
    """What an action holds by a name, in parts. Of what a report spells only the name stands there: of an event, a reply and a config."""
    if name in NAMED_ALONE:
        return [f"{name} {value.tag}"]
    if name == "config" and isinstance(value, Value):
        return [f"config {'valid' if value.tag == 'Ok' else value.held[0].tag}"]
    if name == "read":
        return [frame_text(value.frame), f"end {value.end}"]
    if name == "sent":
        return [frame_text(value.held[0]) if value.held else "the preface"]
    if name in ("at", "end"):
        return [f"{field} {value_text(held)}" for field, held in vars(value).items() if field not in LEFT_OUT]
    return [f"{name} {value_text(value)}"]


def merged(report, entries):
    """The report of a session, and below the line of each entry its actions."""
    yield report[0]
    for number, lines in enumerate(entries, 1):
        line = report[number]
        yield line if len(line) <= LONGEST_LINE else f"{line[:LONGEST_LINE]}.. ({len(line)} characters)"
        yield from lines
    yield from report[len(entries) + 1 :]


class Shown:
    """Says the actions of a session, as the program crates/session_actions_run does."""

    def __init__(self, library):
        self.fields = library.fields(ACTIONS)

    def action_line(self, action, entry):
        """An action: its name, and what it holds; of the one that closes an entry the state of that."""
        held = [part for name, value in zip(self.fields[action.tag], action.held) for part in parts_of(name, value)]
        if action.tag == "EntryCloses":
            held = [f"state {STATES[entry.state.tag]}"]
        return f"    {action.tag:<18} {', '.join(held)}".rstrip()

    def lines_of(self, actions, journal):
        """The lines of actions, one after another; each that closes an entry has the state of the next of the journal."""
        lines, closed = [], 0
        for action in actions:
            lines.append(self.action_line(action, journal[min(closed, len(journal) - 1)]))
            closed += action.tag == "EntryCloses"
        return lines

    def entries(self, session):
        """The lines of the actions of a session, entry by entry."""
        journal = session.seen.entries
        return [[self.action_line(action, journal[place]) for action in actions] for place, actions in enumerate(session.entries)]
