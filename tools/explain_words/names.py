"""The numbers of gRPC and HTTP/2 by their names, and times, sizes and texts for people."""

import re
import textwrap

CODES = [
    "OK",
    "CANCELLED",
    "UNKNOWN",
    "INVALID_ARGUMENT",
    "DEADLINE_EXCEEDED",
    "NOT_FOUND",
    "ALREADY_EXISTS",
    "PERMISSION_DENIED",
    "RESOURCE_EXHAUSTED",
    "FAILED_PRECONDITION",
    "ABORTED",
    "OUT_OF_RANGE",
    "UNIMPLEMENTED",
    "INTERNAL",
    "UNAVAILABLE",
    "DATA_LOSS",
    "UNAUTHENTICATED",
]
ERRORS = [
    "NO_ERROR",
    "PROTOCOL_ERROR",
    "INTERNAL_ERROR",
    "FLOW_CONTROL_ERROR",
    "SETTINGS_TIMEOUT",
    "STREAM_CLOSED",
    "FRAME_SIZE_ERROR",
    "REFUSED_STREAM",
    "CANCEL",
    "COMPRESSION_ERROR",
    "CONNECT_ERROR",
    "ENHANCE_YOUR_CALM",
    "INADEQUATE_SECURITY",
    "HTTP_1_1_REQUIRED",
]
FRAMES = ["DATA", "HEADERS", "PRIORITY", "RST_STREAM", "SETTINGS", "PUSH_PROMISE", "PING", "GOAWAY", "WINDOW_UPDATE", "CONTINUATION"]
SETTINGS = [
    "",
    "HEADER_TABLE_SIZE",
    "ENABLE_PUSH",
    "MAX_CONCURRENT_STREAMS",
    "INITIAL_WINDOW_SIZE",
    "MAX_FRAME_SIZE",
    "MAX_HEADER_LIST_SIZE",
]
REFUSALS = [
    "",
    "no call has that number",
    "the call has ended",
    "the call was finished",
    "no subchannel has that number",
    "the subchannel is not being dialled",
    "no link has that number",
    "the link is gone",
    "the room is below 16,393",
    "the channel was shut down",
]
UNITS = (("s", 10**9), ("ms", 10**6), ("µs", 10**3), ("ns", 1))


def name_in(names, number):
    return names[number] if number < len(names) and names[number] else str(number)


def code_name(code):
    return f"{CODES[code]} ({code})"


def duration(nanoseconds):
    """A duration as people write it: 5 s, 1.5 s, 50 ms, 7 ns."""
    for unit, size in UNITS:
        if nanoseconds >= size:
            whole, part = divmod(nanoseconds, size)
            digits = f"{part / size:.3f}"[2:].rstrip("0") if part else ""
            return f"{whole:,}{'.' + digits if digits else ''} {unit}"
    return "0 s"


def unit_for(span):
    """The unit in which times up to this span are read best."""
    return next(((unit, size) for unit, size in UNITS if span >= (100 * size if unit == "s" else size)), UNITS[-1])


def in_unit(nanoseconds, unit):
    """A time in that unit, with one decimal where the unit has parts."""
    name, size = unit
    return f"{nanoseconds:,}" if size == 1 else f"{nanoseconds / size:,.1f}"


def tokens(thousandths):
    """A count of tokens: 5, 5.1, 8.546."""
    whole, part = divmod(thousandths, 1000)
    return f"{whole}{'.' + f'{part:03d}'.rstrip('0') if part else ''}"


def count(number, thing, things=None):
    return f"{number:,} {thing if number == 1 else things or thing + 's'}"


def ordinal(number):
    return {1: "first", 2: "second", 3: "third", 4: "fourth", 5: "fifth"}.get(number, f"{number}th")


def listed(items):
    """a, b and c."""
    items = list(items)
    return items[0] if len(items) == 1 else ", ".join(items[:-1]) + " and " + items[-1] if items else ""


def text_of(field):
    """The text of a report's field, as \"failure 1 of 9\"; a byte that is not printable shows as \\xHH."""
    if field == "-":
        return ""
    data = re.sub(rb"%([0-9A-F]{2})", lambda found: bytes([int(found.group(1), 16)]), field.encode("ascii"))
    return printable(data)


def printable(data):
    """Bytes as text where they are UTF-8, with \\xHH for what does not print."""
    try:
        text = data.decode("utf-8")
    except UnicodeDecodeError:
        text = data.decode("latin-1")
    return "".join(c if c.isprintable() else f"\\x{ord(c):02x}" for c in text)


def quoted(text, most=60):
    return '"' + (text if len(text) <= most else text[: most - 2] + "..") + '"'


def short(text, most):
    """A text cut to a width, its cut shown."""
    return text if len(text) <= most else text[: max(0, most - 2)] + ".."


def wrapped(text, indent, width, first=None):
    """A paragraph in lines of that width; the first line begins with another text of the indent's width."""
    return textwrap.wrap(
        text,
        max(width, len(indent) + 20),
        initial_indent=indent if first is None else first,
        subsequent_indent=indent,
        break_long_words=False,
        break_on_hyphens=False,
    )
