"""Figures of a session: ends, attempts, tokens, latencies, links, and the slowest calls with what took their time."""

import json

from .calls import call_end_name, call_time, end_of_session, short_path, summary, table
from .names import CODES, FRAMES, count, duration, in_unit, tokens, unit_for, wrapped

PARTS = ("connection", "pick", "server", "retry")
QUANTILES = ((50, "median"), (90, "90th"), (99, "99th"), (100, "greatest"))


def counted(items):
    """How often each item stands there, the commonest first."""
    found = {}
    for item in items:
        found[item] = found.get(item, 0) + 1
    return dict(sorted(found.items(), key=lambda pair: (-pair[1], str(pair[0]))))


def quantiles(times):
    """The nearest rank of each quantile, in nanoseconds."""
    times = sorted(times)
    return {name: times[max(0, -(-len(times) * part // 100) - 1)] for part, name in QUANTILES} if times else {}


def spans_of(channel, call):
    """The spans of a call's attempts: (start, end, part), where a part is what the attempt waited for."""
    end = call.moment + call_time(channel, call)
    spans = []
    for row in call.rows:
        until = row.end.moment if row.end else end
        placed = row.placed.moment if row.placed else until
        sent = row.sent.moment if row.sent else until
        spans += [(row.made.moment, placed, "connection"), (placed, sent, "pick"), (sent, until, "server")]
    configured = call.configured_at if call.configured else end
    return [(start, stop, part) for start, stop, part in spans + [(call.moment, configured, "connection")] if stop > start], end


def parts_of(channel, call):
    """What took a call's time, to the nanosecond: where several attempts run, the one that is furthest counts."""
    spans, end = spans_of(channel, call)
    cuts = sorted({call.moment, end} | {moment for start, stop, _ in spans for moment in (start, stop) if call.moment <= moment <= end})
    parts = dict.fromkeys(PARTS, 0)
    for start, stop in zip(cuts, cuts[1:]):
        running = {part for first, last, part in spans if first <= start and stop <= last}
        parts[next((part for part in ("server", "pick", "connection") if part in running), "retry")] += stop - start
    return parts


def row_end(row):
    """How an attempt ended, by code and cause."""
    if row.end:
        return f"{CODES[row.end.code]} ({row.end.cause})"
    return "never placed" if row.placed is None and row.call.end else "open"


def retry_reasons(channel):
    """Why further attempts were made: the code of the end before, a pushback, or the hedging delay."""
    reasons = []
    for row in channel.rows:
        if row.kind == "retry":
            before = next(other for other in row.call.rows if other.number == row.number - 1 and other.end and other.end.is_counted)
            reasons.append(CODES[before.end.code] + (" with a pushback" if before.end.pushback is not None else ""))
    return counted(reasons)


def hedge_figures(channel):
    hedges = [row for row in channel.rows if row.kind == "hedge"]
    won = sum(row.call.committed is row and row.end is not None and row.end.code == 0 for row in hedges)
    return {"made": len(hedges), "won": won, "withheld": sum(bool(call.withheld) for call in channel.calls)}


def token_figures(channel):
    figures = []
    for run in channel.runs:
        least = min(run.changes, key=lambda change: change[1])
        figures.append(
            {
                "at_first": run.start,
                "ratio": run.ratio,
                "least": least[1],
                "line_of_least": channel.report.line_of_entry(least[0].entry),
                "at_last": run.count,
            }
        )
    return figures


def link_figures(channel):
    names = FRAMES + ["other"]
    figures = []
    for link in channel.links:
        gone = link.gone
        figures.append(
            {
                "link": link.number,
                "address": link.sub.address,
                "up": link.up.moment - channel.first_moment,
                "ready": link.settings.moment - channel.first_moment if link.settings else None,
                "gone": gone.moment - channel.first_moment if gone else None,
                "why_gone": gone.cause if gone else None,
                "bytes_read": link.bytes_in,
                "bytes_written": link.bytes_out,
                "streams": (link.opened + 1) // 2,
                "most_streams_at_once": link.most_seen,
                "frames_read": {name: number for name, number in zip(names, link.frames_in) if number},
                "frames_written": {name: number for name, number in zip(names, link.frames_out) if number},
            }
        )
    return figures


def call_figures(calls):
    return {
        "all": len(calls),
        "by_end": counted(map(call_end_name, calls)),
        "by_cause": counted(call.end.cause if call.end else "open" for call in calls),
        "by_end_and_cause": counted(f"{call_end_name(call)} ({call.end.cause})" if call.end else "open" for call in calls),
    }


def attempt_figures(calls, rows):
    return {
        "all": len(rows),
        "by_kind": counted(row.kind for row in rows),
        "by_cause": counted(row.end.cause if row.end else row_end(row) for row in rows),
        "by_code_and_cause": counted(map(row_end, rows)),
        "a_call": {str(key): value for key, value in sorted(counted(len(call.rows) for call in calls).items())},
    }


def figures_of(channel):
    """All figures, as --json writes them; times in nanoseconds, tokens in thousandths."""
    calls, rows = channel.calls, channel.rows
    slowest = sorted(calls, key=lambda call: (-call_time(channel, call), call.number))[:10]
    return {
        "entries": channel.report.entries,
        "span": end_of_session(channel) - (channel.first_moment or 0),
        "calls": call_figures(calls),
        "attempts": attempt_figures(calls, rows),
        "retries_by_reason": retry_reasons(channel),
        "hedges": hedge_figures(channel),
        "cuts": sum(row.end is not None and row.end.cause == "cut" for row in rows),
        "tokens": token_figures(channel),
        "latency_of_calls": quantiles([call_time(channel, call) for call in calls if call.end]),
        "latency_of_attempts": quantiles(
            [row.end.moment - row.sent.moment for row in rows if row.sent and row.end and row.end.cause != "cut"]
        ),
        "links": link_figures(channel),
        "slowest": [
            {
                "call": call.number,
                "path": call.path,
                "end": call_end_name(call),
                "time": call_time(channel, call),
                "parts": parts_of(channel, call),
            }
            for call in slowest
        ],
    }


def counts_words(found):
    return ", ".join(f"{number:,} {name}" for name, number in found.items()) or "none"


def latency_lines(figures):
    rows = []
    for key, name in (("latency_of_calls", "calls"), ("latency_of_attempts", "attempts, sent to end")):
        times = figures[key]
        if times:
            unit = unit_for(times["greatest"])
            rows.append([name] + [in_unit(times[part], unit) for _, part in QUANTILES] + [unit[0]])
    return (
        ["", "latency"] + ["  " + line for line in table(rows, ["of"] + [name for _, name in QUANTILES] + ["unit"], (1, 2, 3, 4))]
        if rows
        else []
    )


def link_lines(figures):
    rows = []
    for link in figures["links"]:
        gone = f"{link['why_gone']} at +{duration(link['gone'])}" if link["gone"] is not None else "stays"
        rows.append(
            [
                str(link["link"]),
                link["address"],
                f"+{duration(link['up'])}",
                f"{link['bytes_read']:,}",
                f"{link['bytes_written']:,}",
                str(sum(link["frames_read"].values())),
                str(sum(link["frames_written"].values())),
                str(link["streams"]),
                str(link["most_streams_at_once"]),
                gone,
            ]
        )
    heads = ["link", "address", "up", "bytes read", "written", "frames read", "written", "streams", "at once", "then"]
    return ["", "links"] + ["  " + line for line in table(rows, heads, (0, 2, 3, 4, 5, 6, 7, 8))] if rows else []


def slow_lines(figures):
    slowest = figures["slowest"]
    if not slowest:
        return []
    unit = unit_for(slowest[0]["time"])
    rows = []
    for call in slowest:
        parts = call["parts"]
        most = max(PARTS, key=lambda part: parts[part])
        took = f"{most}, {100 * parts[most] // call['time']} %" if call["time"] else "-"
        rows.append(
            [str(call["call"]), call["end"], in_unit(call["time"], unit)]
            + [in_unit(parts[part], unit) for part in PARTS]
            + [took, short_path(call["path"], 50)]
        )
    heads = ["call", "end", unit[0]] + list(PARTS) + ["took the time", "path"]
    return ["", "the slowest calls"] + ["  " + line for line in table(rows, heads, (0, 2, 3, 4, 5, 6))]


def stats_lines(channel, as_json, width):
    figures = figures_of(channel)
    if as_json:
        return [json.dumps(figures, indent=1)]
    lines = [summary(channel), ""]
    hedges, kinds = figures["hedges"], figures["attempts"]["by_kind"]
    facts = [
        ("calls", counts_words(figures["calls"]["by_end_and_cause"])),
        ("attempts", counts_words(kinds)),
        (
            "a call",
            "; ".join(f"{count(int(number), 'attempt')}: {count(many, 'call')}" for number, many in figures["attempts"]["a_call"].items())
            or "none",
        ),
        ("ends", counts_words(figures["attempts"]["by_code_and_cause"])),
    ]
    if figures["retries_by_reason"]:
        facts.append(("retries", ", ".join(f"{number:,} after {reason}" for reason, number in figures["retries_by_reason"].items())))
    if hedges["made"] or hedges["withheld"]:
        facts.append(("hedges", f"{hedges['made']:,} made, {hedges['won']:,} won, {hedges['withheld']:,} withheld by throttling"))
    facts.append(("cuts", f"{figures['cuts']:,}"))
    for run in figures["tokens"]:
        least = f"{tokens(run['least'])} at least (line {run['line_of_least']})"
        facts.append(("tokens", f"{tokens(run['at_first'])} at first, {least}, {tokens(run['at_last'])} at last"))
    for name, words in facts:
        lines += wrapped(words, " " * 12, width, f"  {name:<10}")
    return lines + latency_lines(figures) + link_lines(figures) + slow_lines(figures)
