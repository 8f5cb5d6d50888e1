"""The calls of a session as a table, and one call whole."""

import textwrap

from .names import CODES, code_name, count, duration, in_unit, quoted, tokens, unit_for, wrapped
from .steps import came, policy_words, source_words, steps_of, throttle_words
from .why import why_of
from .wire import words_of_entries


def end_of_session(channel):
    return channel.moments[-1] if channel.moments else 0


def call_time(channel, call):
    """How long a call took, or has taken at the end of the session."""
    return (call.end.moment if call.end else end_of_session(channel)) - call.moment


def call_end_name(call):
    return "open" if call.end is None else CODES[call.end_code()]


def rank(channel, call):
    """Worst first: failed calls, open ones, those that took several attempts, the rest; the slowest first in each."""
    code = call.end_code()
    group = 1 if code is None else 0 if code else 2 if len(call.rows) > 1 else 3
    return group, -call_time(channel, call), call.number


def summary(channel):
    """6 calls: 3 OK, 1 UNIMPLEMENTED; 12 attempts (6 retries), 941 ms."""
    ends = {}
    for call in channel.calls:
        ends[call_end_name(call)] = ends.get(call_end_name(call), 0) + 1
    words = ", ".join(f"{number:,} {name}" for name, number in sorted(ends.items(), key=lambda item: (-item[1], item[0])))
    kinds = {}
    for row in channel.rows:
        kinds[row.kind] = kinds.get(row.kind, 0) + 1
    more = [
        count(kinds[kind], words, plural)
        for kind, words, plural in (
            ("retry", "retry", "retries"),
            ("hedge", "hedge", "hedges"),
            ("transparent", "transparent retry", "transparent retries"),
        )
        if kinds.get(kind)
    ]
    calls = count(len(channel.calls), "call") + (f": {words}" if words else "")
    attempts = count(len(channel.rows), "attempt") + (f" ({', '.join(more)})" if more else "")
    session = f"{count(channel.report.entries, 'entry', 'entries')}, {duration(end_of_session(channel) - (channel.first_moment or 0))}"
    full = "; the session was full then" if channel.report.is_full else ""
    return f"{calls}; {attempts} on {count(len(channel.links), 'link')}; {session}{full}"


def table(rows, heads, rights, width=None):
    """Columns with two spaces between; the last one goes on in further lines where it passes the width."""
    sizes = [max([len(head)] + [len(row[place]) for row in rows]) for place, head in enumerate(heads[:-1])]
    left = sum(sizes) + 2 * len(sizes)
    lines = []
    for row in [heads] + rows:
        cells = [cell.rjust(size) if place in rights else cell.ljust(size) for place, (cell, size) in enumerate(zip(row, sizes))]
        last = textwrap.wrap(row[-1], max(width - left, 24), break_long_words=False) or [""] if width else [row[-1]]
        lines.append("  ".join(cells + [last[0]]).rstrip())
        lines += [" " * left + more for more in last[1:]]
    return lines


def overview_lines(channel, width):
    """All calls, worst first."""
    lines = [summary(channel)]
    if not channel.calls:
        return lines
    calls = sorted(channel.calls, key=lambda call: rank(channel, call))
    longest = max(call_time(channel, call) for call in calls)
    unit = unit_for(longest)
    most = max(16, (width or 120) // 3)
    rows = [
        [
            str(call.number),
            call_end_name(call),
            str(len(call.rows)),
            in_unit(call_time(channel, call), unit),
            short_path(call.path, most),
            why_of(channel, call).clause,
        ]
        for call in calls
    ]
    return lines + [""] + table(rows, ["call", "end", "attempts", unit[0], "path", "why"], (0, 2, 3), width)


def short_path(path, most):
    return path if len(path) <= most else ".." + path[-(most - 2) :]


def end_line(channel, call):
    if call.end is None:
        return "open: the session ends before it does"
    words = code_name(call.end_code())
    text = call.committed.end.text if call.end.cause == "row" else ""
    if call.end.cause != "row":
        words += f", by the channel ({call.end.cause})" + ("" if any(row.sent for row in call.rows) else ": no server ever saw it")
    elif call.committed.end.cause != "status":
        words += ", by the channel" + ("" if any(row.sent for row in call.rows) else ": no server ever saw it")
    taken = "" if call.taken_end else " (the application has not taken it)"
    return words + (f": {quoted(text, 200)}" if text else "") + taken


def call_lines(channel, call, width):
    """One call: end, time, policy, throttling, its attempts, and why."""
    why = why_of(channel, call)
    limit = f" of {duration(call.deadline - call.moment)}" if call.deadline is not None else ", without a deadline"
    source = source_words(call)
    lines = [f"call {call.number}  {call.path}"]
    facts = [
        ("end", end_line(channel, call)),
        ("time", f"{duration(call_time(channel, call))}{limit}"),
        ("policy", policy_words(call) + (f" ({source})" if source else "")),
        ("throttle", throttle_words(call.run)),
    ]
    if call.waits:
        facts.append(("waits", "for ready" + ("" if call.wait == "yes" else ", by its config")))
    for name, words in facts:
        lines += wrapped(words, " " * 12, width, f"  {name:<10}")
    lines += [""] + attempt_table(channel, call, width) if call.rows else []
    lines += [""] + wrapped(why.words, " " * 12, width, "  why       ")
    return lines + step_lines(channel, call, why, width)


def attempt_table(channel, call, width):
    unit = unit_for(max(call_time(channel, call), 1))
    has_several = len({row.sub.address for row in channel.rows if row.sub}) > 1
    heads = [f"attempt, {unit[0]}", "due", "sent", "end", "link/stream", "tokens", "what came"]
    rows = []
    for row in call.rows:
        at = lambda stamp: in_unit(stamp.moment - call.moment, unit) if stamp else "-"  # noqa: E731
        where = f"{row.link.number}/{row.stream or '-'}" + (f" {row.sub.address}" if has_several else "") if row.link else "-"
        left = tokens(row.end.tokens) if row.end and row.end.tokens is not None else "-"
        rows.append([f"{row.number} {row.kind}", in_unit(row.due - call.moment, unit), at(row.sent), at(row.end), where, left, came(row)])
    return ["  " + line for line in table(rows, heads, (1, 2, 3), width - 2)]


def after_begin(time):
    """A time since a call's begin: +50 ms, -100 ms."""
    return f"{'-' if time < 0 else '+'}{duration(abs(time)) if time else '0'}"


def step_lines(channel, call, why, width):
    """The steps with their lines, and these lines in words."""
    steps = steps_of(channel, call)
    line_of = channel.report.line_of_entry
    lines, size = ["", "  how"], len(str(line_of(channel.report.entries)))
    for entry, words in steps:
        lines += wrapped(words, " " * (12 + size), width, f"    line {line_of(entry):>{size}}  ")
    wanted = sorted({entry for entry, _ in steps} | set(why.entries))
    streams = {(row.link.number, row.stream) for row in call.rows if row.stream}
    found = words_of_entries(channel.report, set(wanted), streams)
    lines += ["", "  lines of the report"]
    for entry in wanted:
        moment = after_begin(channel.moments[entry - 1] - call.moment)
        lines += wrapped(f"{moment}  {found[entry]}", " " * (12 + size), width, f"    line {line_of(entry):>{size}}  ")
    for row in call.rows:
        line = channel.report.line_of_row(row.place)
        lines.append(f"    line {line:>{size}}  {channel.report.lines[line - 1]}")
    return lines
