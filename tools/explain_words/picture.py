"""The timeline as a picture (SVG), for one call or for all."""

from html import escape

from .calls import call_end_name, call_time, summary
from .lanes import BAR, LEVEL, LINE, MARK, lanes_of, scale_of
from .names import count, duration, short

LABEL, PLOT, AFTER, MARGIN = 232, 640, 300, 14
TOP, ROW, TOKENS = 58, 20, 44
TALL = 700  # from here on the axis stands below the lanes, too
COLOURS = {
    "state-IDLE": "#cfd4da",
    "state-CONNECTING": "#f0c649",
    "state-READY": "#86c08a",
    "state-TRANSIENT_FAILURE": "#dc7b70",
    "state-SHUTDOWN": "#5d646b",
    "pending": "#f0c649",
    "current": "#b9c7dc",
    "link-up": "#f0c649",
    "link-ready": "#86c08a",
    "link-retiring": "#c9b38c",
    "call": "#eef1f5",
    "queue": "#f0c649",
    "placed": "#b7d3ee",
    "sent": "#4d8ac0",
    "answer": "#2f9e8f",
    "wait": "#7d858d",
    "delay": "#7d858d",
    "above": "#a9cfac",
    "below": "#e6a39b",
}
INK, SOFT, GOOD, BAD, CUT = "#1f2429", "#6a727a", "#1d7a34", "#b3261e", "#70777e"
MARK_COLOURS = {
    "ok": GOOD,
    "failed": BAD,
    "lost": BAD,
    "goaway": "#8a5a00",
    "cut": CUT,
    "open": SOFT,
    "dial": INK,
    "result": INK,
    "send": INK,
    "commit": "#5b2a86",
    "deadline": BAD,
    "withheld": BAD,
}
LEGEND = (
    ("state-IDLE", "IDLE", ""),
    ("state-CONNECTING", "CONNECTING", ""),
    ("state-READY", "READY", ""),
    ("state-TRANSIENT_FAILURE", "TRANSIENT_FAILURE", ""),
    ("state-SHUTDOWN", "SHUTDOWN", ""),
    ("call", "call", ""),
    ("queue", "waits for a link", ""),
    ("placed", "on a link, not sent", ""),
    ("sent", "waits for the answer", ""),
    ("answer", "the response comes", ""),
    ("wait", "backoff or hedging delay", "line"),
    ("ok", "OK", "mark"),
    ("failed", "failed, lost", "mark"),
    ("cut", "cut by the client", "mark"),
    ("commit", "committed", "mark"),
    ("withheld", "hedge withheld", "mark"),
    ("goaway", "GOAWAY", "mark"),
)


def number(value):
    return f"{value:.1f}".rstrip("0").rstrip(".")


def mark_shape(kind, x, y):
    """A mark of 8 by 8 about a place."""
    colour, x0, y0 = MARK_COLOURS[kind], number(x), number(y)
    up = f"M{number(x - 4)} {number(y + 4)}L{number(x + 4)} {number(y - 4)}"
    down = f"M{number(x - 4)} {number(y - 4)}L{number(x + 4)} {number(y + 4)}"
    if kind in ("failed", "lost", "cut"):
        return f'<path d="{up if kind == "cut" else down + up}" stroke="{colour}" stroke-width="2.4"/>'
    if kind in ("send", "dial", "deadline", "result"):
        width = 1.6 if kind != "deadline" else 2.4
        return f'<path d="M{x0} {number(y - 6)}V{number(y + 6)}" stroke="{colour}" stroke-width="{width}"/>'
    if kind in ("commit", "goaway", "withheld"):
        fill = f'fill="{colour}"' if kind != "withheld" else f'fill="#fff" stroke="{colour}" stroke-width="1.6"'
        return f'<path d="M{x0} {number(y - 5)}L{number(x + 5)} {y0}L{x0} {number(y + 5)}L{number(x - 5)} {y0}Z" {fill}/>'
    fill = "#fff" if kind == "open" else colour
    return f'<circle cx="{x0}" cy="{y0}" r="4.2" fill="{fill}" stroke="{colour}"/>'


class Drawing:
    """The picture as it grows: its lines, and where the next lane stands."""

    def __init__(self, scale):
        self.scale, self.lines, self.top = scale, [], TOP

    def x(self, share):
        return LABEL + PLOT * min(1.0, max(0.0, share))

    def lane(self, lane, name):
        height = TOKENS if lane.group == "tokens" else ROW
        middle = self.top + height / 2
        self.lines.append(f'<text x="{MARGIN}" y="{number(middle + 4)}" class="n">{escape(name)}</text>')
        for shape in (BAR, LEVEL, LINE, MARK):
            for item in lane.items:
                if item.shape == shape and self.scale.is_seen(item):
                    self.item(item, self.top, height)
        if lane.group == "tokens":
            self.lines.append(f'<path d="M{LABEL} {number(middle)}H{LABEL + PLOT}" stroke="{BAD}" stroke-dasharray="5 3"/>')
        self.lines.append(f'<text x="{LABEL + PLOT + 12}" y="{number(middle + 4)}" class="a">{escape(short(lane.after, 46))}</text>')
        self.top += height

    def box(self, x, y, width, height, colour, words):
        place = f'x="{number(x)}" y="{number(y)}" width="{number(width)}" height="{number(height)}"'
        self.lines.append(f'<rect {place} fill="{colour}">{words}</rect>')

    def item(self, item, top, height):
        one, other = (self.x(share) for share in self.scale.shares(item))
        words = f"<title>{escape(item.words)}</title>"
        middle = top + height / 2
        if item.shape == BAR:
            inset = 2 if item.kind == "call" else 5
            self.box(one, top + inset, max(other - one, 1.5), height - 2 * inset, COLOURS[item.kind], words)
        elif item.shape == LEVEL:
            size = (height - 6) * item.share
            self.box(one, top + height - 3 - size, max(other - one, 1), max(size, 1), COLOURS[item.kind], words)
        elif item.shape == LINE:
            way = f"M{number(one)} {number(middle)}H{number(max(other, one + 1))}"
            self.lines.append(f'<path d="{way}" stroke="{COLOURS[item.kind]}" stroke-width="1.6" stroke-dasharray="3 3">{words}</path>')
        else:
            self.lines.append(f"<g>{mark_shape(item.kind, one, middle)}{words}</g>")

    def axis(self, bottom):
        for share, words in self.scale.ticks(8):
            x = self.x(share)
            self.lines.append(f'<path d="M{number(x)} {TOP - 6}V{number(bottom)}" stroke="#dde1e6"/>')
            for y in (TOP - 12, bottom + 12) if bottom > TALL else (TOP - 12,):
                self.lines.append(f'<text x="{number(x)}" y="{number(y)}" class="t">{escape(words)}</text>')
        return 16 if bottom > TALL else 0

    def legend(self):
        """Below the lanes: what the colours and marks are."""
        x, y = LABEL, self.top + 18
        for kind, words, shape in LEGEND:
            width = 32 + sum(7.8 if letter.isupper() or letter == "_" else 6.3 for letter in words)
            if x + width > LABEL + PLOT + AFTER:
                x, y = LABEL, y + 20
            if shape == "mark":
                self.lines.append(mark_shape(kind, x + 6, y))
            elif shape == "line":
                self.lines.append(
                    f'<path d="M{number(x)} {number(y)}h14" stroke="{COLOURS[kind]}" stroke-width="1.6" stroke-dasharray="3 3"/>'
                )
            else:
                stroke = ' stroke="#c3c9d0"' if kind == "call" else ""
                self.lines.append(f'<rect x="{number(x)}" y="{number(y - 5)}" width="12" height="10" fill="{COLOURS[kind]}"{stroke}/>')
            self.lines.append(f'<text x="{number(x + 18)}" y="{number(y + 4)}" class="a">{escape(words)}</text>')
            x += width
        self.top = y + 16


def title_of(channel, call):
    if call is None:
        return summary(channel)
    return f"call {call.number} {call.path}: {call_end_name(call)} after {duration(call_time(channel, call))}, {count(len(call.rows), 'attempt')}"


def lane_label(lane, call):
    """The words left of a lane."""
    if lane.group == "attempt":
        return "      " + lane.name.split(" · ")[1]
    if call and lane.group == "call":
        return f"      {call.rows[0].number} {call.rows[0].kind}" if call.rows else "      no attempt"
    name = f"{lane.name}  {lane.note}" if lane.note and lane.group != "tokens" else lane.name
    return short(name, 36) if lane.group != "call" or len(name) <= 36 else f"{lane.name}  ..{lane.note[-(32 - len(lane.name)):]}"


def svg_text(channel, call, part, by_entry):
    """The whole picture."""
    scale = scale_of(channel, call, part, by_entry)
    drawing = Drawing(scale)
    lanes = [lane for lane in lanes_of(channel, call) if any(scale.is_seen(item) for item in lane.items)]
    below = drawing.axis(TOP + sum(TOKENS if lane.group == "tokens" else ROW for lane in lanes))
    for lane in lanes:
        drawing.lane(lane, lane_label(lane, call))
    drawing.top += below
    drawing.legend()
    width, height = LABEL + PLOT + AFTER + MARGIN, drawing.top
    head = [
        f'<svg xmlns="http://www.w3.org/2000/svg" width="{width}" height="{number(height)}" viewBox="0 0 {width} {number(height)}" '
        'font-family="DejaVu Sans, Verdana, sans-serif" font-size="11">',
        f"<style>text{{fill:{INK};white-space:pre}}.t{{fill:{SOFT};text-anchor:middle}}.a{{fill:{SOFT}}}</style>",
        f'<rect width="{width}" height="{number(height)}" fill="#ffffff"/>',
        f'<text x="{MARGIN}" y="22" font-size="13">{escape(title_of(channel, call))}</text>',
    ]
    return "\n".join(head + drawing.lines + ["</svg>", ""])
