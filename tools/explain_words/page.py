"""The timeline as one page without network: a click on anything shows the report's lines, the frames in words, and the rule."""

import base64
import json
import os
import zlib

from .actions import action_words
from .calls import call_time, end_line
from .lanes import lanes_of, scale_of
from .names import duration, short
from .picture import COLOURS, MARK_COLOURS, lane_label, title_of
from .steps import policy_words, source_words, steps_of, throttle_words
from .why import why_of
from .wire import Wire, entry_text

CHUNK, MOST_LINE = 256, 4000
FOLDER = os.path.dirname(os.path.realpath(__file__))
GROUPS = ("channel", "policy", "sub", "link", "tokens", "call", "attempt")


def packed(items):
    """A list in compressed pieces: the page opens the ones that it shows."""
    pieces = []
    for at in range(0, len(items), CHUNK):
        data = zlib.compress(json.dumps(items[at : at + CHUNK], ensure_ascii=False, separators=(",", ":")).encode(), 6)
        pieces.append(base64.b64encode(data).decode())
    return pieces


def entry_items(channel):
    """Each entry: its line, what it says in words, and its actions."""
    wire, items = Wire(), []
    for entry in range(1, channel.report.entries + 1):
        line = channel.report.lines[entry]
        actions = [
            action_words(action) for action in channel.log.get(entry, ()) if action[0] not in ("FrameRead", "FrameWritten", "BytesArrive")
        ]
        items.append([short(line, MOST_LINE), short(entry_text(wire.entry(line)), MOST_LINE), actions])
    return items


def call_item(channel, call):
    """A call: facts and steps."""
    limit = f" of {duration(call.deadline - call.moment)}" if call.deadline is not None else ", without a deadline"
    source = source_words(call)
    facts = [
        ["end", end_line(channel, call)],
        ["time", duration(call_time(channel, call)) + limit],
        ["policy", policy_words(call) + (f" ({source})" if source else "")],
        ["throttle", throttle_words(call.run)],
        ["why", why_of(channel, call).words],
    ]
    return [call.number, call.path, facts, steps_of(channel, call), [row.place for row in call.rows]]


def row_item(channel, row):
    """An attempt: its line, its call, and the entries in which something happened to it."""
    line = channel.report.line_of_row(row.place)
    stamps = [
        ("due", row.made),
        ("placed", row.placed),
        ("sent", row.sent),
        ("head", row.head),
        ("committed", row.committed),
        ("ended", row.end),
        ("reset", row.reset[0] if row.reset else None),
    ]
    return [
        line,
        channel.report.lines[line - 1],
        row.call.number,
        f"{row.number} {row.kind}",
        [[name, stamp.entry] for name, stamp in stamps if stamp],
    ]


def lane_item(channel, lane, call):
    start = channel.first_moment or 0
    items = [
        [
            item.shape,
            item.kind,
            item.entry,
            item.moment - start,
            item.last_entry,
            item.last_moment - start,
            item.words,
            item.ref,
            item.share,
        ]
        for item in lane.items
    ]
    pieces = []
    if lane.group == "link":
        pieces = channel.links[int(lane.name.split()[1]) - 1].pieces
    return [lane_label(lane, call), lane.group, lane.after, lane.ref, items, pieces]


def deltas(moments):
    """Moments as the distances between them, which are short to write."""
    return [later - sooner for sooner, later in zip(moments[:1] + moments, moments)]


def read_part(name):
    with open(os.path.join(FOLDER, name), encoding="utf-8") as file:
        return file.read()


def page_text(channel, call, part, by_entry):
    """The whole page."""
    scale = scale_of(channel, call, part, by_entry)
    data = {
        "title": title_of(channel, call),
        "byEntry": by_entry,
        "view": [scale.first, scale.last],
        "isPart": part != (1, len(channel.moments)) or call is not None,
        "moments": deltas(channel.moments),
        "rowLine": 1 + channel.report.entries,
        "colours": COLOURS,
        "marks": MARK_COLOURS,
        "chunk": CHUNK,
        "lanes": [lane_item(channel, lane, call) for lane in lanes_of(channel, call)],
        "entries": packed(entry_items(channel)),
        "rows": packed([row_item(channel, row) for row in channel.rows]),
        "calls": packed([call_item(channel, one) for one in channel.calls]),
    }
    text = json.dumps(data, separators=(",", ":"))
    for letter in "<>&":  # so that the page is well formed both as HTML and as XML
        text = text.replace(letter, f"\\u{ord(letter):04x}")
    return (
        read_part("page.html")
        .replace("/*STYLE*/", read_part("page.css"))
        .replace("/*SCRIPT*/", read_part("page.js"))
        .replace("/*DATA*/", text)
    )
