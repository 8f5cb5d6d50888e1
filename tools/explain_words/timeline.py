"""The timeline as text."""

from .calls import call_end_name, call_time, summary
from .lanes import BAR, LEVEL, LINE, MARK, lanes_of, scale_of
from .names import count, duration, in_unit, short, unit_for
from .steps import came

BARS = {
    "state-IDLE": ".",
    "state-CONNECTING": "~",
    "state-READY": "=",
    "state-TRANSIENT_FAILURE": "!",
    "state-SHUTDOWN": "#",
    "pending": "~",
    "current": "=",
    "link-up": "~",
    "link-ready": "=",
    "link-retiring": "-",
    "call": " ",
    "queue": ".",
    "placed": ":",
    "sent": "=",
    "answer": "+",
    "wait": "-",
    "delay": "-",
    "above": "=",
    "below": "!",
}
MARKS = {
    "result": "r",
    "failed": "!",
    "dial": "d",
    "goaway": "G",
    "lost": "X",
    "send": ">",
    "commit": "c",
    "ok": "*",
    "cut": "x",
    "open": "?",
    "deadline": "D",
    "withheld": "w",
}
CALL_LEGEND = (
    "- wait before it  . waits for a link  : on a link, not sent  > sent  = waits for the answer  + the response comes  c committed  "
    "* answered OK  ! failed  x cut by the client  ? open  w a hedge withheld  D deadline"
)
LEGEND = (
    (
        "channel, subchannels: . IDLE  ~ CONNECTING  = READY  ! TRANSIENT_FAILURE  # SHUTDOWN  r the resolver answers  d dial  ! the dial failed",
        {"channel", "sub"},
    ),
    ("links: ~ before SETTINGS  = in use  - retiring  G GOAWAY  X lost or broken", {"link"}),
    ("tokens: = more than half  ! not more than half: no retry or hedge", {"tokens"}),
    ("attempts: " + CALL_LEGEND, {"call", "attempt"}),
)


def drawn(lane, scale, width):
    """A lane as a line of that many characters: bars, then marks over them."""
    cells = [" "] * width
    place = lambda share: min(width - 1, max(0, round(share * (width - 1))))  # noqa: E731
    for shape in (BAR, LEVEL, LINE, MARK):
        for item in lane.items:
            if item.shape != shape or not scale.is_seen(item):
                continue
            one, other = scale.shares(item)
            first, last = place(one), place(other)
            letter = MARKS[item.kind] if shape == MARK else BARS[item.kind]
            for at in range(first, last + 1):
                if letter != " ":
                    cells[at] = letter
    return "".join(cells).rstrip()


def axis_lines(scale, label, width):
    """The ticks' words and their strokes."""
    ticks = scale.ticks(max(2, width // 12))
    words, strokes = [" "] * width, [" "] * width
    for share, text in ticks:
        at = min(width - 1, max(0, round(share * (width - 1))))
        strokes[at] = "|"
        at = max(0, min(at, width - len(text)))
        if all(cell == " " for cell in words[max(0, at - 1) : at + len(text) + 1]):
            words[at : at + len(text)] = text
    return [" " * label + "".join(words).rstrip(), " " * label + "".join(strokes).rstrip()]


def timeline_lines(channel, call, part, width, by_entry):
    """The lanes between two entries."""
    scale = scale_of(channel, call, part, by_entry)
    lanes = [lane for lane in lanes_of(channel, call) if any(scale.is_seen(item) for item in lane.items)]
    names = [lane_name(lane, call) for lane in lanes]
    label = min(max([len(name) for name in names] + [8]), max(18, width // 3)) + 2
    plot = max(20, width - label - 1)
    head = (
        f"call {call.number} {call.path}: {call_end_name(call)} after {duration(call_time(channel, call))}, {count(len(call.rows), 'attempt')}"
        if call
        else summary(channel)
    )
    lines = [short(head, width), ""] + axis_lines(scale, label, plot)
    for lane, name in zip(lanes, names):
        lines.append((short(name, label - 2).ljust(label) + drawn(lane, scale, plot)).rstrip())
    groups = {lane.group for lane in lanes}
    return lines + (attempt_lines(channel, call) if call else []) + [""] + legend_lines(width, groups)


def lane_name(lane, call):
    if lane.group == "attempt":
        return "  " + lane.name.split(" · ")[1]
    if call and lane.group == "call":
        return f"  {call.rows[0].number} {call.rows[0].kind}" if call.rows else "  no attempt"
    return f"{lane.name} {lane.note}".rstrip() if lane.group in ("sub", "link", "policy", "call") else lane.name


def attempt_lines(channel, call):
    """Each attempt's times in words."""
    unit = unit_for(max(call_time(channel, call), 1))
    lines = [""]
    for row in call.rows:
        sent = in_unit(row.sent.moment - call.moment, unit) if row.sent else "-"
        end = in_unit(row.end.moment - call.moment, unit) if row.end else "-"
        where = f"link {row.link.number} stream {row.stream or '-'}" if row.link else "no link"
        times = f"due {in_unit(row.due - call.moment, unit):>8}  sent {sent:>8}  end {end:>8} {unit[0]}"
        lines.append(f"  {row.number} {row.kind:<11}  {times}  {where}  {came(row)}")
    return lines


def legend_lines(width, groups):
    lines = []
    for text, wanted in LEGEND:
        if not groups & wanted:
            continue
        words = text.split("  ")
        line = "  " + words[0]
        for word in words[1:]:
            if len(line) + 2 + len(word) > width:
                lines.append(line)
                line = "    " + word
            else:
                line += "  " + word
        lines.append(line)
    return lines
