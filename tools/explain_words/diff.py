"""Where two sessions part, and what followed of it by calls."""

from .calls import call_end_name, call_time, summary
from .names import CODES, count, duration, wrapped
from .steps import came
from .why import attempt_name, why_of
from .wire import words_of_entries


def parted(one, other, count_of):
    """The first place at which two lists of parts differ, from 0, or None."""
    for place in range(min(count_of)):
        if one(place) != other(place):
            return place
    return None if count_of[0] == count_of[1] else min(count_of)


def lines_of(channel):
    return channel.report.lines


def event_at(channel, entry):
    """An entry without its moment and its word."""
    return lines_of(channel)[entry].split(" ", 2)[2]


def diff_lines(one, other, names, width):
    """The first entry that differs, in words, and the calls that ended otherwise."""
    counts = (one.report.entries, other.report.entries)
    lines = [f"A  {names[0]}: {summary(one)}", f"B  {names[1]}: {summary(other)}", ""]
    if one.report.target != other.report.target:
        lines.append(f"the targets differ: {one.report.target} and {other.report.target}")
    first = parted(lambda at: lines_of(one)[at + 1], lambda at: lines_of(other)[at + 1], counts)
    if first is None:
        return lines + ["the same entries"] + call_lines(one, other, width)
    apart = parted(lambda at: event_at(one, at + 1), lambda at: event_at(other, at + 1), counts)
    if apart != first:
        what = moments_words(one, other, first + 1)
        lines += wrapped(f"entry {first + 1} (line {first + 2}) is the first that differs: {what}", "", width)
    if apart is None:
        lines.append("every event and every reply is the same; they came at other moments, or with other words")
    else:
        lines += event_lines(one, other, apart + 1, width)
    return lines + call_lines(one, other, width)


def moments_words(one, other, entry):
    """How two entries differ in the moment or the word alone."""
    mine, theirs = lines_of(one)[entry].split(" ", 2), lines_of(other)[entry].split(" ", 2)
    words = []
    if mine[0] != theirs[0]:
        words.append(
            f"the moment, +{duration(int(mine[0]) - one.first_moment)} and +{duration(int(theirs[0]) - other.first_moment)}"
            + (
                " since the first entries"
                if int(mine[0]) - one.first_moment != int(theirs[0]) - other.first_moment
                else f" ({mine[0]} and {theirs[0]})"
            )
        )
    if mine[1] != theirs[1]:
        words.append(f"the random word, {mine[1]} and {theirs[1]}")
    return " and ".join(words)


def event_lines(one, other, entry, width):
    """The first entry whose event or reply differs."""
    lines = []
    for name, channel in (("A", one), ("B", other)):
        if entry > channel.report.entries:
            lines.append(f"  {name}  has no entry {entry}: its session ends before it")
            continue
        at = duration(channel.moments[entry - 1] - channel.first_moment)
        lines += wrapped(f"+{at}  {words_of_entries(channel.report, {entry})[entry]}", "     ", width, f"  {name}  ")
    what = "the event or its reply differs"
    if max(entry, 1) <= min(one.report.entries, other.report.entries):
        mine, theirs = (event_at(channel, entry).partition(" = ") for channel in (one, other))
        what = "the events differ" if mine[0] != theirs[0] else "the same event has another reply"
    return [f"entry {entry} (line {entry + 1}): {what}"] + lines


def shape(channel, call):
    """What of a call counts when two are compared: its end, and its attempts."""
    return (
        call.path,
        call_end_name(call),
        call.end.cause if call.end else None,
        tuple((row.kind, row.number, row.sub and row.sub.address, row.end and (row.end.code, row.end.cause)) for row in call.rows),
    )


def call_lines(one, other, width):
    """The calls that went otherwise, by their numbers."""
    most = max(len(one.calls), len(other.calls))
    lines, same = [], 0
    for number in range(1, most + 1):
        pair = [channel.calls[number - 1] if number <= len(channel.calls) else None for channel in (one, other)]
        if None not in pair and shape(one, pair[0]) == shape(other, pair[1]):
            same += 1
            continue
        lines.append(f"  call {number}  " + " | ".join(dict.fromkeys(call.path for call in pair if call)))
        for name, channel, call in (("A", one, pair[0]), ("B", other, pair[1])):
            words = call_words(channel, call) if call else "it does not have this call"
            lines += wrapped(words, "       ", width, f"    {name}  ")
    if not most:
        return ["", "neither has a call"]
    if not lines:
        return [
            "",
            f"all {count(most, 'call')} end alike, by the same attempts" if most > 1 else "its one call ends alike, by the same attempts",
        ]
    return ["", f"what followed: {count(len(lines_with_call(lines)), 'call')} went otherwise, {same:,} alike"] + lines


def lines_with_call(lines):
    return [line for line in lines if line.startswith("  call ")]


def call_words(channel, call):
    rows = "; ".join(f"{attempt_name(row)} {came(row)}" for row in call.rows) or "no attempt"
    name = call_end_name(call) if call.end is None else CODES[call.end_code()]
    return f"{name} after {duration(call_time(channel, call))}: {why_of(channel, call).clause} ({rows})"
