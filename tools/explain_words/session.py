"""What a session has: calls, attempts (rows), links, subchannels, generations of a policy, configs and buckets of tokens."""

IDLE, CONNECTING, READY, FAILURE, SHUTDOWN = "IDLE", "CONNECTING", "READY", "TRANSIENT_FAILURE", "SHUTDOWN"


class Call:
    """One call of the application."""

    __slots__ = (
        "number",
        "entry",
        "moment",
        "path",
        "wait",
        "timeout",
        "meta",
        "messages",
        "accepted",
        "finished",
        "config",
        "configured",
        "configured_at",
        "method",
        "name",
        "run",
        "waits",
        "request",
        "response",
        "deadline",
        "end",
        "rows",
        "committed",
        "withheld",
        "too_long",
        "taken",
        "taken_end",
        "sent",
        "newest",
        "placed",
        "forced",
        "is_stopped",
        "delayed",
        "is_refusal_followed",
        "last_counted",
        "full",
    )

    def __init__(self, number, entry, moment, path, wait, timeout, meta):
        self.number, self.entry, self.moment, self.path = number, entry, moment, path
        self.wait, self.timeout, self.meta = wait, timeout, meta
        self.messages = self.accepted = self.taken = self.sent = self.delayed = 0
        self.finished = self.config = self.configured = self.configured_at = self.method = self.name = self.run = None
        self.deadline = self.end = self.committed = self.withheld = self.too_long = self.taken_end = None
        self.newest = self.placed = self.forced = self.last_counted = self.full = None
        self.waits, self.request, self.response = wait == "yes", 4194304, 4194304
        self.is_stopped, self.is_refusal_followed = True, False
        self.rows = []

    @property
    def plan(self):
        return self.method.plan if self.method else None

    @property
    def codes(self):
        return self.plan.codes if self.plan else frozenset()

    def end_code(self):
        """The code of the call's end, or None while it is open."""
        if self.end is None:
            return None
        return (
            {"deadline": 4, "cancelled": 1, "request": 8, "response": 8, "noconfig": 14, "shut": 14}.get(self.end.cause)
            if self.end.cause != "row"
            else self.committed.end.code
        )

    def attempts(self):
        """How many attempts the policy counts: all but transparent retries."""
        return sum(row.kind != "transparent" for row in self.rows)


class Stamp:
    """An entry and its moment."""

    __slots__ = ("entry", "moment", "cause")

    def __init__(self, entry, moment, cause=None):
        self.entry, self.moment, self.cause = entry, moment, cause


class RowEnd:
    """How an attempt ended."""

    __slots__ = (
        "entry",
        "moment",
        "code",
        "cause",
        "text",
        "fields",
        "pushback",
        "seen",
        "tokens",
        "word",
        "is_unseen",
        "detail",
        "is_counted",
        "cap",
        "wait",
    )

    def __init__(self, entry, moment, code, cause):
        self.entry, self.moment, self.code, self.cause = entry, moment, code, cause
        self.text, self.fields, self.pushback, self.seen = "", None, None, 0
        self.tokens = self.word = self.detail = self.cap = self.wait = None
        self.is_unseen = self.is_counted = False


class Row:
    """One attempt: a row of the report."""

    __slots__ = (
        "place",
        "call",
        "number",
        "kind",
        "due",
        "made",
        "placed",
        "generation",
        "sub",
        "link",
        "stream",
        "sent",
        "head",
        "messages",
        "end",
        "committed",
        "reset",
        "written",
        "has_sent_end",
        "is_closed",
        "lift",
        "prefix",
        "missing",
        "received",
    )

    def __init__(self, place, call, number, kind, due, made):
        self.place, self.call, self.number, self.kind, self.due, self.made = place, call, number, kind, due, made
        self.placed = self.generation = self.sub = self.link = self.stream = self.sent = self.head = self.end = None
        self.committed = self.reset = None
        self.messages = self.written = self.lift = self.missing = self.received = 0
        self.has_sent_end = self.is_closed = False
        self.prefix = b""

    @property
    def is_outstanding(self):
        return self.placed is not None and self.end is None

    def columns(self):
        """The row as a report of version 2 has it."""
        end, placed = self.end, self.placed
        items = [
            "row",
            self.call.number,
            self.number,
            self.kind,
            self.due,
            placed and placed.entry,
            self.generation and self.generation.number,
            self.sub and self.sub.number,
            self.link and self.link.number,
            self.stream,
        ]
        items += [end.entry, end.code, end.pushback, end.seen, end.cause] if end else [None] * 5
        items += [self.committed and self.committed.entry, end and end.tokens, end and end.word]
        return ["-" if item is None else str(item) for item in items]


class Link:
    """One connection."""

    __slots__ = (
        "number",
        "sub",
        "up",
        "rest",
        "read",
        "settings",
        "goaway",
        "over",
        "gone",
        "rows",
        "waiting",
        "streams",
        "opened",
        "room",
        "initial",
        "most",
        "block",
        "blocks",
        "bytes_in",
        "bytes_out",
        "frames_in",
        "frames_out",
        "out_preface",
        "most_seen",
        "pieces",
    )

    def __init__(self, number, sub, up):
        self.number, self.sub, self.up = number, sub, up
        self.rest, self.read = b"", 0
        self.settings = self.goaway = self.over = self.gone = self.most = self.block = self.blocks = None
        self.rows, self.waiting, self.streams = {}, [], {}
        self.opened, self.room, self.initial = 0, 65535, 65535
        self.bytes_in = self.bytes_out = self.most_seen = 0
        self.frames_in, self.frames_out = [0] * 11, [0] * 11
        self.out_preface = False
        self.pieces = []  # the entries with bytes, read (above 0) and written (below 0), where a log is kept


class Sub:
    """A subchannel: one address, dialled and dialled again."""

    __slots__ = ("number", "address", "state", "states", "dials", "again", "until", "link", "tries")

    def __init__(self, number, address, stamp):
        self.number, self.address, self.state = number, address, IDLE
        self.states = [(stamp, IDLE, "a new address")]
        self.dials, self.again, self.until, self.link = 0, None, None, None
        self.tries = []


class Generation:
    """One use of a load balancing policy."""

    __slots__ = ("number", "kind", "addresses", "failed", "begun", "activated", "retired", "turns", "state")

    def __init__(self, number, kind, begun):
        self.number, self.kind, self.begun = number, kind, begun
        self.addresses, self.failed, self.turns = (), set(), 0
        self.activated = self.retired = self.state = None


class Run:
    """The tokens of consecutive configs with equal throttling, in thousandths, and each change of them."""

    __slots__ = ("number", "start", "ratio", "count", "changes")

    def __init__(self, number, start, ratio, stamp):
        self.number, self.start, self.ratio, self.count = number, start, ratio, start
        self.changes = [(stamp, start, None)]

    def is_above(self, count):
        """More than half of the tokens: the rule for a retry and a hedge."""
        return 2 * count > self.start
