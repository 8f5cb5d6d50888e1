"""A session: the actions that follow from the posts of a script, and whether a list of actions, a journal or a report is one."""

from typing import NamedTuple

from .compiling import Compiler
from .scripts import Script, entry_line, row_line
from .words import CONSTANTS, Record, Value, forget, plain

# The program's channel: its load balancing policies, and the width of their tiers.
POLICIES = (("PickFirst", 1), ("RoundRobin", 1), ("Priority", 8))
CRATE = "session_actions.specs."
FULL = "fault session full"


class Session(NamedTuple):
    """What came of a script: the actions of each entry, all that was seen, and the report."""

    script: Script
    entries: list
    seen: Record
    report: list

    @property
    def actions(self):
        return [action for actions in self.entries for action in actions]


class Definitions:
    """The definition of a session, as functions."""

    def __init__(self, top, changed=()):
        self.compiler = Compiler(top, changed)
        self.new_session, self.ledger_of, self.following, self.after, self.may_open = self.compiler.functions(
            (CRATE + "Sessions", "new_session"),
            (CRATE + "Sessions", "ledger_of"),
            (CRATE + "Actions", "following"),
            (CRATE + "Actions", "after"),
            (CRATE + "Entries", "may_open"),
        )

    def begun(self, script):
        """Nothing has happened yet."""
        policies = tuple(Record(kind=CONSTANTS[kind], width=width) for kind, width in POLICIES)
        return self.new_session(Record(authority=script.authority, policies=policies))

    def entry(self, post, seen):
        """The actions of one entry, and what was seen then; None where the session is full."""
        if not self.may_open(post.event, seen):
            return None
        action, actions = Value("EntryOpens", (post.moment, post.word, post.event)), []
        while action:
            actions.append(action)
            seen = self.after(action, seen)
            following = self.following(seen)
            action = following.held[0] if following.tag == "Some" else None
        return actions, seen

    def session(self, script):
        """The session of a script, by its posts alone."""
        forget(most=0)
        seen, entries, report, full = self.begun(script), [], [f"channel 2 {script.target}"], []
        for post in script.posts:
            made = self.entry(post, seen)
            if not made:
                full = [FULL]
                break
            actions, seen = made
            entries.append(actions)
            report.append(entry_line(seen.entries[-1], post))
            forget()
        ledger = self.ledger_of(seen)
        counts = [len(seen.entries), len(ledger.calls), len(ledger.rows), len(ledger.links)]
        report += [*map(row_line, ledger.rows), " ".join(map(str, ["end", *counts])), *full]
        return Session(script, entries, seen, report)

    def first_refused(self, script, actions):
        """The place, from 0, of the first action that is not next (`IsNext`), or how many there are where the last entry is open; None of a
        session."""
        seen = self.begun(script)
        for place, action in enumerate(actions):
            if not self.is_next(action, seen):
                return place
            seen = self.after(action, seen)
            forget()
        return None if seen.current.tag == "None" else len(actions)

    def is_next(self, action, seen):
        if action.tag == "EntryOpens":
            return self.may_open(action.held[2], seen)
        following = self.following(seen)
        return following.tag == "Some" and plain(following.held[0]) == plain(action)


def first_difference(ours, theirs):
    """The place, from 0, at which two lists differ first, or None."""
    place = next((place for place, (one, other) in enumerate(zip(ours, theirs)) if one != other), min(len(ours), len(theirs)))
    return None if place == len(ours) == len(theirs) else place
