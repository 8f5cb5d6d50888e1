"""Why each call of a report ended, from its rows alone, by the rules of gRFC A6: a computation apart from tools/explain, to hold against it."""
import json
import os
import re
import sys

TOP = os.path.dirname(os.path.dirname(os.path.dirname(os.path.abspath(__file__))))
sys.path.insert(0, os.path.join(TOP, "tools"))
from script_words.frames import Reader  # noqa: E402

NAMES = [
    "call",
    "number",
    "kind",
    "due",
    "placed",
    "generation",
    "sub",
    "link",
    "stream",
    "ended",
    "code",
    "pushback",
    "seen",
    "cause",
    "committed",
    "tokens",
    "word",
]
CODES = [
    "OK",
    "CANCELLED",
    "UNKNOWN",
    "INVALID_ARGUMENT",
    "DEADLINE_EXCEEDED",
    "NOT_FOUND",
    "ALREADY_EXISTS",
    "PERMISSION_DENIED",
    "RESOURCE_EXHAUSTED",
    "FAILED_PRECONDITION",
    "ABORTED",
    "OUT_OF_RANGE",
    "UNIMPLEMENTED",
    "INTERNAL",
    "UNAVAILABLE",
    "DATA_LOSS",
    "UNAUTHENTICATED",
]


def columns_of(text):
    """The rows of a report, by the names of their columns."""
    return [dict(zip(NAMES, line.split(" ")[1:])) for line in text.split("\n") if line.startswith("row ")]


def events_of(text):
    """Each entry's event and reply, from 1."""
    lines = [line for line in text.split("\n")[1:] if " = " in line]
    return [(0, "", "")] + [(entry, *line.split(" ", 2)[2].split(" = ", 1)) for entry, line in enumerate(lines, 1)]


def configs_of(events):
    """The valid configs, with their entries."""
    found = []
    for entry, event, reply in events:
        if event.startswith("resolved ") and reply == "done":
            field = event.split(" ")[2]
            found.append((entry, {} if field == "-" else json.loads(bytes.fromhex(field))))
    return found


def method_of(config, path):
    """The entry of methodConfig for a path."""
    service, method = path[1:].split("/")
    for wanted in ((service, method), (service, ""), ("", "")):
        for entry in config.get("methodConfig", []):
            if any((name.get("service", ""), name.get("method", "")) == wanted for name in entry.get("name", [])):
                return entry
    return {}


def code_of(item):
    return item if isinstance(item, int) else CODES.index(item.upper())


def heads_of(events):
    """The entry at which a head came on each stream of each link: a block without END_STREAM, of status 200 and gRPC's type, before an end."""
    readers, found, ended = {}, {}, set()
    for entry, event, reply in events:
        if not event.startswith("arrived ") or reply != "done":
            continue
        _, link, piece = event.split(" ")
        for _, frame, fields in readers.setdefault(link, Reader(False)).take(bytes.fromhex(piece)):
            if frame is None or (link, frame.stream) in ended:
                continue
            if (frame.name in ("HEADERS", "DATA") and frame.flags & 1) or frame.name == "RST_STREAM":
                ended.add((link, frame.stream))
            fields = fields[1] if isinstance(fields, tuple) else fields
            pairs = {field.name: field.value for field in fields or [] if field.form != "size"}
            if (
                fields
                and not frame.flags & 1
                and pairs.get(b":status") == b"200"
                and re.fullmatch(rb"application/grpc([+;].*)?", pairs.get(b"content-type", b""))
            ):
                found.setdefault((link, str(frame.stream)), entry)
    return found


def keys_by_rows(text):
    """The key of each call whose end was taken: by the end's cause, or by the last attempt to which it was committed."""
    events, rows = events_of(text), columns_of(text)
    configs, heads, keys = configs_of(events), heads_of(events), {}
    begins = [(entry, event.split(" ")[1]) for entry, event, reply in events if event.startswith("begin ") and reply.startswith("call ")]
    for _, event, reply in events:
        if event.startswith("take ") and reply.startswith("end "):
            call, cause = event.split(" ")[1], reply.rsplit(" ", 1)[1]
            begun, path = begins[int(call) - 1]
            held = [config for entry, config in configs if entry < begun][-1:] or [config for entry, config in configs if entry > begun][:1]
            keys[int(call)] = cause if cause != "row" else key_of([row for row in rows if row["call"] == call], held[0], path, heads)
    return keys


def key_of(rows, config, path, heads):
    last = [row for row in rows if row["committed"] != "-"][-1]
    method, code = method_of(config, path), int(last["code"])
    plan = method.get("retryPolicy") or method.get("hedgingPolicy")
    if code == 0:
        return "won" if any(row["cause"] == "cut" for row in rows) else "answered"
    if plan is None:
        return "no-server" if last["cause"] == "pick" else "no-policy"
    if is_committed_before(rows, last, heads):
        return "committed"
    codes = {code_of(item) for item in plan.get("retryableStatusCodes", plan.get("nonFatalStatusCodes", []))}
    if code not in codes:
        return "code"
    most, made = min(5, plan["maxAttempts"]), len([row for row in rows if row["kind"] != "transparent"])
    counted = [row for row in rows if row["cause"] != "cut" and row["ended"] != "-"]
    half = 500 * config["retryThrottling"]["maxTokens"] if "retryThrottling" in config else None
    if made == most:
        return "pushback" if "retryPolicy" in method and last["pushback"] == "stop" else "attempts"
    if last["pushback"] == "stop" or ("hedgingPolicy" in method and any(row["pushback"] == "stop" for row in counted)):
        return "pushback"
    return "throttled" if half is not None else "?"


def is_committed_before(rows, last, heads):
    """Its head had come, or the call was committed to it in an entry before its end, or to an attempt that it follows."""
    head = heads.get((last["link"], last["stream"]))
    if last["cause"] != "pick" and head is not None and head <= int(last["ended"]):
        return True
    return int(last["committed"]) < int(last["ended"]) or len([row for row in rows if row["committed"] != "-"]) > 1
