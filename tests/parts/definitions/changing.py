"""Changed reports, journals and lists of actions, by a seeded list: each has to be refused at the changed place.

Reports and journals are held against what the program makes of their posts, where it is built, and else against what the transcription does.
Lists of actions are followed by the transcription, up to the action that is not the next one; where the program is built its list has to differ
there from the changed one, too.
"""

import random
import re

from .scripts import STATES, script_of
from .sessions import first_difference
from .words import Value, plain

SEED, ROWS_OF_A_KIND = 20261129, 50
ROW, DUE, PLACED, ENDED, CODE, COMMITTED, TOKENS = "row", 4, 5, 10, 11, 15, 16
OTHER_REPLIES = ("done", "notyet", "refused 9", "call 99", "link 99", "full 7", "message -")
BYTES = re.compile(r" = (?:octets|message|head [a-z0-9_.-]+:|end [0-9]+ \S+ [a-z0-9_.-]+:)\s?([0-9a-f]+)")


def columns_changed(lines, columns, change):
    """Each line of a row with one of these columns changed, where it holds a number."""
    for place, line in enumerate(lines):
        words = line.split(" ")
        for column in columns if words[0] == ROW else ():
            if words[column] != "-":
                yield place, " ".join([*words[:column], str(change(int(words[column]))), *words[column + 1 :]])


def replies_changed(lines, rng):
    for place, line in enumerate(lines):
        event, is_entry, reply = line.partition(" = ")
        if is_entry:
            yield place, f"{event} = {rng.choice([other for other in OTHER_REPLIES if other != reply])}"


def stamps_changed(lines, rng):
    return columns_changed(lines, (DUE, PLACED, ENDED, COMMITTED), lambda stamp: stamp + 1)


def codes_changed(lines, rng):
    yield from columns_changed(lines, (CODE,), lambda code: (code + rng.randint(1, 16)) % 17)
    for place, line in enumerate(lines):
        found = re.search(r" = end (\d+) ", line)
        if found:
            yield place, f"{line[: found.start(1)]}{(int(found[1]) + rng.randint(1, 16)) % 17}{line[found.end(1) :]}"


def tokens_changed(lines, rng):
    return columns_changed(lines, (TOKENS,), lambda tokens: tokens + rng.choice((-1, 1)))


def bytes_changed(lines, rng):
    for place, line in enumerate(lines):
        found = BYTES.search(line)
        if found:
            at = rng.randrange(*found.span(1))
            yield place, line[:at] + f"{int(line[at], 16) ^ rng.randint(1, 15):x}" + line[at + 1 :]


IN_REPORTS = {
    "a reply": replies_changed,
    "a stamp": stamps_changed,
    "a code": codes_changed,
    "tokens": tokens_changed,
    "a byte": bytes_changed,
}


def left_out(actions, place, rng):
    return actions[:place] + actions[place + 1 :]


def doubled(actions, place, rng):
    return actions[: place + 1] + actions[place:]


def exchanged(actions, place, rng):
    """An action and the first after it that is another one change places."""
    other = next((at for at in range(place + 1, len(actions)) if plain(actions[at]) != plain(actions[place])), None)
    if other is None:
        return exchanged(actions, 0, rng)
    return [*actions[:place], actions[other], *actions[place + 1 : other], actions[place], *actions[other + 1 :]]


def number_changed(actions, place, rng):
    """One number that an action holds is another; of the actions from this place on the first that holds one and brings no event."""
    for at in [*range(place, len(actions)), *range(place)]:
        tag, held = actions[at].tag, actions[at].held
        numbers = [number for number, value in enumerate(held) if type(value) is int and tag != "EntryOpens"]
        if numbers:
            number = rng.choice(numbers)
            changed = Value(tag, (*held[:number], held[number] + 1, *held[number + 1 :]))
            return [*actions[:at], changed, *actions[at + 1 :]]
    raise ValueError("no action holds a number")


IN_ACTIONS = {
    "an action left out": left_out,
    "an action doubled": doubled,
    "two actions exchanged": exchanged,
    "a number of an action": number_changed,
}
A_STATE = "a state"


class ChangedRows:
    """The changed rows over some sessions, each with its name and what tries it."""

    def __init__(self, definitions, program, shown, reports):
        """`definitions` and `shown` give the definitions, and what shows their actions, when they are asked for; reports are by their names."""
        self.definitions, self.program, self.shown, self.reports = definitions, program, shown, reports
        self.known, self.printed = {}, {}

    def rows(self):
        """Of each row its name, whether the program alone tries it, and a function that gives where it was refused and where it was changed."""
        rng, number = random.Random(SEED), 0
        for kind in (*IN_REPORTS, A_STATE, *IN_ACTIONS):
            names = self.fit(kind)
            for _ in range(ROWS_OF_A_KIND):
                number += 1
                name, seed = rng.choice(names), rng.random()
                is_alone = kind in IN_REPORTS and self.program.is_built()
                yield f"changed {number}: {kind} in {name}", is_alone, lambda it=(kind, name, seed): self.tried(*it)

    def fit(self, kind):
        """The sessions in which there is something of this kind to change."""
        if kind not in IN_REPORTS:
            return sorted(self.reports)
        changes = {name: IN_REPORTS[kind](text.split("\n"), random.Random(0)) for name, text in self.reports.items()}
        return sorted(name for name, changed in changes.items() if any(True for _ in changed))

    def tried(self, kind, name, seed):
        rng = random.Random(seed)
        if kind in IN_REPORTS:
            return self.tried_report(IN_REPORTS[kind], name, rng)
        if kind == A_STATE:
            return self.tried_state(name, rng)
        return self.tried_actions(IN_ACTIONS[kind], name, rng)

    def session(self, name):
        if name not in self.known:
            self.known[name] = self.definitions().session(script_of(self.reports[name]))
        return self.known[name]

    def lines(self, name):
        """The lines of the actions of a session, as the program prints them."""
        if name not in self.printed:
            self.printed[name] = [line for lines in self.program.entries(self.reports[name]) for line in lines]
        return self.printed[name]

    def tried_report(self, change, name, rng):
        """A report with one line changed is held against the report that its own posts give."""
        lines = self.reports[name].split("\n")[:-1]
        place, line = rng.choice(list(change(lines, rng)))
        changed = [*lines[:place], line, *lines[place + 1 :]]
        text = "\n".join([*changed, ""])
        report = self.program.report(text) if self.program.is_built() else self.definitions().session(script_of(text)).report
        return f"line {first_difference(report, changed)}", f"line {place}"

    def states(self, name):
        """The states of the channel that are computed for the entries of a session."""
        if not self.program.is_built():
            return [STATES[entry.state.tag] for entry in self.session(name).seen.entries]
        return [line.split(" ")[-1] for line in self.lines(name) if line.lstrip().startswith("EntryCloses")]

    def tried_state(self, name, rng):
        """A journal in which one entry has another state."""
        journal = [STATES[entry.state.tag] for entry in self.session(name).seen.entries]
        place = rng.randrange(len(journal))
        changed = [*journal[:place], rng.choice([state for state in STATES.values() if state != journal[place]]), *journal[place + 1 :]]
        return f"entry {first_difference(self.states(name), changed)}", f"entry {place}"

    def tried_actions(self, change, name, rng):
        """A list of actions that is not that of the session: it is followed up to the action that is not next."""
        session = self.session(name)
        actions = session.actions
        changed = change(actions, rng.randrange(len(actions)), rng)
        place = first_difference([*map(plain, changed)], [*map(plain, actions)])
        refused, wanted = [f"action {self.definitions().first_refused(session.script, changed)}"], [f"action {place}"]
        if self.program.is_built():
            # (of two frames of one length on one stream the lines are the same)
            right, wrong = (self.shown().lines_of(those, session.seen.entries) for those in (actions, changed))
            refused.append(f"line {first_difference(self.lines(name), wrong)}")
            wanted.append(f"line {first_difference(right, wrong)}")
        return refused, wanted
