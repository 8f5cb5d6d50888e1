"""What a timeline shows, as lanes with bars and marks: the text, the picture and the page draw the same ones."""

from .names import CODES, ERRORS, duration, name_in, tokens
from .steps import came
from .why import attempt_name, why_of

# Shapes: a bar or a dashed line from one entry to another, a mark at one, and a level of tokens (its share of the greatest count).
BAR, LINE, MARK, LEVEL = "bar", "line", "mark", "level"


class Item:
    """One thing in a lane: its shape and class, from where to where (entry and moment), what it says, and what it refers to:
    'e12' is entry 12, 'r3' the third row."""

    __slots__ = ("shape", "kind", "entry", "moment", "last_entry", "last_moment", "words", "ref", "share")

    def __init__(self, shape, kind, start, stop, words, ref, share=None):
        self.shape, self.kind, self.words, self.ref, self.share = shape, kind, words, ref, share
        self.entry, self.moment = start
        self.last_entry, self.last_moment = stop or start


class Lane:
    """A line of the timeline: its name, what group it is of, its items, and words at its end."""

    __slots__ = ("name", "group", "items", "after", "ref", "note")

    def __init__(self, name, group, after="", ref=None, note=""):
        self.name, self.group, self.after, self.ref, self.note, self.items = name, group, after, ref, note, []

    def bar(self, kind, start, stop, words, ref):
        if stop[0] > start[0] or stop[1] > start[1]:
            self.items.append(Item(BAR, kind, start, stop, words, ref))

    def line(self, kind, start, stop, words, ref):
        self.items.append(Item(LINE, kind, start, stop, words, ref))

    def mark(self, kind, at, words, ref):
        self.items.append(Item(MARK, kind, at, None, words, ref))


def at(stamp):
    return stamp.entry, stamp.moment


def end_of(channel):
    """The end of the session as a place."""
    return len(channel.moments), channel.moments[-1] if channel.moments else 0


def lanes_of(channel, call=None):
    """The lanes of a session; of one call, what it used: its attempts, their links and subchannels, and its tokens."""
    if call is None:
        return (
            channel_lanes(channel)
            + sub_lanes(channel, channel.subs)
            + link_lanes(channel, channel.links)
            + token_lanes(channel, channel.runs)
            + [lane for one in channel.calls for lane in call_lanes(channel, one)]
        )
    links = list(dict.fromkeys(row.link for row in call.rows if row.link))
    subs = [sub for sub in channel.subs if any(link.sub is sub for link in links)] or [
        sub for sub in channel.subs if sub.states[0][0].entry <= (call.end or call).entry
    ]
    return (
        channel_lanes(channel)[:1]
        + sub_lanes(channel, subs[:8])
        + link_lanes(channel, links)
        + token_lanes(channel, [call.run] if call.run else [])
        + call_lanes(channel, call)
    )


def channel_lanes(channel):
    end = end_of(channel)
    lane = Lane("channel", "channel", channel.states[-1][1] if channel.states else "")
    stops = [at(stamp) for stamp, _ in channel.states[1:]] + [end]
    for (stamp, state), stop in zip(channel.states, stops):
        lane.bar("state-" + state, at(stamp), stop, f"the channel is {state}", f"e{stamp.entry}")
    for stamp, reply in channel.results:
        words = {"done": "the resolver answers", "unresolved": "the resolver fails"}.get(
            reply, f"the resolver answers with a bad config ({reply})"
        )
        lane.mark("result" if reply == "done" else "failed", at(stamp), words, f"e{stamp.entry}")
    return [lane] + [generation_lane(generation, end) for generation in channel.generations]


def generation_lane(generation, end):
    after = "retired" if generation.retired else "current" if generation.activated else "pending"
    lane = Lane(f"policy {generation.number}", "policy", after, note=generation.kind)
    retired = at(generation.retired) if generation.retired else end
    start = at(generation.activated) if generation.activated else retired
    lane.bar("pending", at(generation.begun), start, f"{generation.kind} is pending", f"e{generation.begun.entry}")
    lane.bar("current", start, retired, f"{generation.kind} is the current policy", f"e{start[0]}")
    return lane


def sub_lanes(channel, subs):
    end = end_of(channel)
    lanes = []
    for sub in subs:
        lane = Lane(f"sub {sub.number}", "sub", sub.state, note=sub.address)
        stops = [at(item[0]) for item in sub.states[1:]] + [end]
        for (stamp, state, why), stop in zip(sub.states, stops):
            lane.bar("state-" + state, at(stamp), stop, f"{sub.address} is {state}: {why}", f"e{stamp.entry}")
        for begun, number, result in sub.tries:
            lane.mark("dial", at(begun), f"dial {number} of {sub.address} since it was READY", f"e{begun.entry}")
            if result and result.cause == "failed":
                lane.mark("failed", at(result), f"the dial of {sub.address} failed", f"e{result.entry}")
        lanes.append(lane)
    return lanes


def link_lanes(channel, links):
    end = end_of(channel)
    lanes = []
    for link in links:
        gone, ready = at(link.gone) if link.gone else end, link.settings
        lane = Lane(f"link {link.number}", "link", f"{link.gone.cause}" if link.gone else "stays", note=link.sub.address)
        lane.bar(
            "link-up",
            at(link.up),
            at(ready) if ready else gone,
            f"link {link.number} is up, before the server's SETTINGS",
            f"e{link.up.entry}",
        )
        if ready:
            leaves = at(link.goaway[0]) if link.goaway else gone
            lane.bar("link-ready", at(ready), min(leaves, gone), f"link {link.number} to {link.sub.address} is in use", f"e{ready.entry}")
            lane.bar(
                "link-retiring",
                min(leaves, gone),
                gone,
                f"link {link.number} is retiring: its streams go on, none is opened",
                f"e{leaves[0]}",
            )
        if link.goaway:
            stamp, last, code, _ = link.goaway
            lane.mark("goaway", at(stamp), f"GOAWAY: last stream {last}, {name_in(ERRORS, code)}", f"e{stamp.entry}")
        if link.over:
            lane.mark("lost", at(link.over), over_words(link), f"e{link.over.entry}")
        lanes.append(lane)
    return lanes


def over_words(link):
    cause = link.over.cause
    if cause.startswith("broken"):
        return f"link {link.number} broke a rule of HTTP/2: {name_in(ERRORS, int(cause.split()[1]))}"
    return f"link {link.number} " + {"lost": "was lost", "timeout": "was given up: no SETTINGS in time"}[cause]


def token_lanes(channel, runs):
    end = end_of(channel)
    lanes = []
    for run in runs:
        lane = Lane(
            f"tokens {run.number}", "tokens", f"{tokens(run.count)} of {tokens(run.start)}", note=f"half is {tokens(run.start // 2)}"
        )
        stops = [at(change[0]) for change in run.changes[1:]] + [end]
        for (stamp, left, row), stop in zip(run.changes, stops):
            by = f" after {attempt_name(row)} of call {row.call.number}" if row else " at first"
            kind = "above" if run.is_above(left) else "below"
            words = f"{tokens(left)} of {tokens(run.start)} tokens{by}; " + (
                "more than half" if kind == "above" else "not more than half: no retry or hedge"
            )
            lane.items.append(Item(LEVEL, kind, at(stamp), stop, words, f"r{row.place}" if row else f"e{stamp.entry}", left / run.start))
        lanes.append(lane)
    return lanes


# ---- calls


def call_lanes(channel, call):
    """A lane for each attempt; the first one also has the call's own span."""
    end = end_of(channel)
    name = f"call {call.number}"
    stop = at(call.end) if call.end else end
    head = Lane(name, "call", ref=f"c{call.number}", note=call.path)
    head.bar("call", at(call), stop, f"call {call.number} {call.path}: {why_of(channel, call).words}", f"c{call.number}")
    if call.deadline is not None and call.deadline <= stop[1]:
        head.mark("deadline", (stop[0], call.deadline), "the deadline", f"c{call.number}")
    if not call.rows:
        head.after = CODES[call.end_code()] if call.end else "open"
        head.mark("failed" if call.end else "open", stop, head.after, f"c{call.number}")
        return [head]
    lanes = []
    for row in call.rows:
        lane = head if row is call.rows[0] else Lane(f"{name} · {row.number} {row.kind}", "attempt", ref=f"c{call.number}")
        fill_attempt(channel, lane, call, row, end)
        lanes.append(lane)
    if call.withheld:
        stamp, _, left = call.withheld
        lanes[-1].mark(
            "withheld",
            at(stamp),
            f"the next hedge was due, and throttling withheld it: {tokens(left)} of {tokens(call.run.start)} tokens",
            f"e{stamp.entry}",
        )
    return lanes


def fill_attempt(channel, lane, call, row, end):
    ref = f"r{row.place}"
    lane.after, lane.ref = came(row), ref
    is_dropped = row.end is None and row.placed is None and call.end is not None
    stop = at(row.end) if row.end else at(call.end) if is_dropped else end
    placed = at(row.placed) if row.placed else stop
    sent = at(row.sent) if row.sent else stop
    headed = at(row.head) if row.head else stop
    name = attempt_name(row)
    if row.kind in ("retry", "hedge"):
        wait_line(lane, call, row, ref)
    lane.bar("queue", at(row.made), placed, f"{name} waits for a link", ref)
    lane.bar("placed", placed, sent, f"{name} is on link {row.link.number if row.link else '-'}, its request not sent", ref)
    lane.bar("sent", sent, headed, f"{name} is sent, and waits for the answer", ref)
    lane.bar("answer", headed, stop, f"{name} has its head, and waits for the end", ref)
    if row.sent:
        lane.mark("send", sent, f"{name} is sent on stream {row.stream}", ref)
    if row.committed and row.committed.cause != "final":
        lane.mark("commit", at(row.committed), f"the call is committed to {name}", ref)
    kind = "open" if row.end is None else "cut" if row.end.cause == "cut" else "ok" if row.end.code == 0 else "failed"
    lane.mark(kind if not is_dropped else "cut", stop, f"{name}: {came(row)}", ref)


def wait_line(lane, call, row, ref):
    """The backoff, pushback or hedging delay before an attempt."""
    before = [other for other in call.rows if other.number == row.number - 1]
    ended = next((other for other in before if other.end and other.end.is_counted), None)
    if row.kind == "retry" and ended:
        why = f"pushback of {ended.end.pushback} ms" if ended.end.pushback is not None else f"backoff of {duration(ended.end.wait)}"
        lane.line("wait", at(ended.end), at(row.made), f"{why} before {attempt_name(row)}", ref)
    elif row.kind == "hedge" and before and before[0].placed and before[0].placed.moment < row.made.moment:
        lane.line(
            "delay",
            at(before[0].placed),
            at(row.made),
            f"before {attempt_name(row)}: due {duration(row.due - before[0].placed.moment)} after {attempt_name(before[0])} was placed",
            ref,
        )


def scale_of(channel, call, part, by_entry):
    """The axis: of a call alone its own span, unless a part is asked for, and times from its begin."""
    if call and part == (1, len(channel.moments)):
        part = call.entry, call.end.entry if call.end else len(channel.moments)
    return Scale(channel, *part, by_entry, call.moment if call else None)


class Scale:
    """Places on an axis: by the moment, or by the entry."""

    def __init__(self, channel, first, last, by_entry, origin=None):
        self.moments, self.by_entry = channel.moments, by_entry
        self.origin = origin if origin is not None else self.moments[0] if self.moments else 0
        self.first, self.last = first, last
        self.start = self.moments[first - 1] if self.moments else 0
        self.stop = self.moments[last - 1] if self.moments else 0

    def share(self, entry, moment):
        """Where an entry or moment stands between the first (0) and the last (1)."""
        if self.by_entry:
            return (entry - self.first) / max(self.last - self.first, 1)
        return (moment - self.start) / max(self.stop - self.start, 1)

    def shares(self, item):
        return self.share(item.entry, item.moment), self.share(item.last_entry, item.last_moment)

    def is_seen(self, item):
        one, other = self.shares(item)
        return other >= 0 and one <= 1

    def ticks(self, most):
        """Round places on the axis: (share, words)."""
        if self.by_entry:
            step = round_step(max((self.last - self.first) / most, 1))
            from_one = -(-self.first // step) * step
            return [(self.share(entry, 0), f"{entry:,}") for entry in range(max(from_one, 1), self.last + 1, step)]
        span = self.stop - self.start
        if span <= 0:
            return [(0.0, "0 s")]
        step = round_step(max(span / most, 1))
        unit = next(((name, size) for name, size in (("s", 10**9), ("ms", 10**6), ("µs", 10**3)) if step * 10 >= size), ("ns", 1))
        begin = -(-(self.start - self.origin) // step) * step
        return [(self.share(0, self.origin + time), tick_words(time, unit)) for time in range(begin, self.stop - self.origin + 1, step)]


def tick_words(time, unit):
    if time == 0:
        return "0"
    number = time / unit[1]
    return f"{number:,.3f}".rstrip("0").rstrip(".") + f" {unit[0]}"


def round_step(least):
    """1, 2 or 5 times a power of ten, at least this."""
    power = 1
    while power * 10 <= least:
        power *= 10
    return next(power * by for by in (1, 2, 5, 10) if power * by >= least)
