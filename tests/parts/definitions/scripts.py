"""Scripts and reports become events, and what the definitions give becomes the lines of a report (docs/guide/FORMATS.md)."""

import re
from typing import NamedTuple

from .words import CONSTANTS, Record, Value, content, option

PLAIN_TARGET, NAMED_TARGET = "ipv4:", "dns:"
DEFAULT_PORT = 443
AFTER_ENTRIES = ("row ", "end ", "fault ")
MOST = {"moment": 4 * 10**18, "word": 2**64 - 1, "number": 2**32 - 1, "timeout": 10**18}
MOST_MESSAGE, MOST_CONFIG, MOST_ADDRESSES, MOST_METADATA = 4194304, 65536, 64, 14336
FORBIDDEN_NAMES = ("te", "content-type", "host", "connection", "keep-alive", "proxy-connection", "transfer-encoding", "upgrade")


class Fault(Exception):
    """A line that is no line of a script or report."""


class Post(NamedTuple):
    """An event with its moment and random word, and the line that brought it, up to its reply."""

    moment: int
    word: int
    event: Value
    words: str


class Script(NamedTuple):
    target: str
    authority: bytes
    posts: list


def number(text, kind="number"):
    if not re.fullmatch("0|[1-9][0-9]{0,19}", text) or int(text) > MOST[kind]:
        raise Fault(f"{text!r} is no {kind}")
    return int(text)


def data(text, least=0, most=2**32):
    """Bytes in hex; a hyphen stands for none where none are allowed."""
    text = "" if text == "-" and least == 0 else text or "?"
    if not re.fullmatch("(?:[0-9a-f]{2})*", text) or not least <= len(text) // 2 <= most:
        raise Fault(f"{text[:20]!r} is no hex of {least} to {most} bytes")
    return bytes.fromhex(text)


def is_metadata(name, value):
    """Whether an application may give this name with this value."""
    is_name = re.fullmatch("[a-z0-9_.-]{1,256}", name) and not name.startswith("grpc-") and name not in FORBIDDEN_NAMES
    is_text = all(0x20 <= byte <= 0x7E for byte in value) and value == value.strip(b" ")
    return is_name and (is_text or name.endswith("-bin"))


def sent_size(name, value):
    """The size of a field as it is sent (RFC 7541, section 4.1), where binary values are base64 without padding."""
    return len(name) + 32 + (-(-len(value) * 4 // 3) if name.endswith("-bin") else len(value))


def metadata(text):
    pairs = [] if text == "-" else [pair.partition(":") for pair in text.split(",")]
    found = [(name, data(value or "-")) for name, _, value in pairs]
    is_good = all(colon for _, colon, _ in pairs) and all(is_metadata(*pair) for pair in found)
    if not is_good or sum(sent_size(*pair) for pair in found) > MOST_METADATA:
        raise Fault(f"{text[:20]!r} is no metadata")
    return tuple(Record(name=name.encode(), value=value) for name, value in found)


def address(text, port=None):
    """An address, whose port may be left out where there is one for that."""
    part = "(0|[1-9][0-9]{0,2})"
    found = re.fullmatch(rf"{part}\.{part}\.{part}\.{part}(?::([1-9][0-9]{{0,4}}))?", text)
    parts = [int(part) for part in found.groups(str(port or 0))] if found else [256]
    if max(parts[:4]) > 255 or not 1 <= parts[4] <= 65535:
        raise Fault(f"{text!r} is no address")
    return Record(ip=int.from_bytes(bytes(parts[:4]), "big"), port=parts[4])


def addresses(text):
    """A list of addresses without repeats."""
    items = [] if text == "-" else text.split(",")
    if len(items) > MOST_ADDRESSES:
        raise Fault(f"more than {MOST_ADDRESSES} addresses")
    return tuple(address(item) for item in dict.fromkeys(items))


def begin(path, wait, timeout, meta):
    if not re.fullmatch("/[!-.0-~]+/[!-.0-~]+", path) or len(path) > 1024:
        raise Fault(f"{path[:20]!r} is no path")
    if wait not in ("-", "yes", "no"):
        raise Fault(f"{wait!r} is none of yes, no and -")
    after = None if timeout == "-" else number(timeout, "timeout")
    request = Record(
        path=path.encode(), wait=option({"-": None, "yes": True, "no": False}[wait]), timeout=option(after), meta=metadata(meta)
    )
    return (request,)


def numbered(*readers):
    """What reads a number and then other fields."""
    return lambda first, *others: (number(first), *(read(text) for read, text in zip(readers, others)))


def message(text):
    return data(text, 0, MOST_MESSAGE)


def piece(text):
    return data(text, 1)


def ping(text):
    return int.from_bytes(data(text, 8, 8), "big")


def resolved(found, config):
    return addresses(found), option(None if config == "-" else data(config, 1, MOST_CONFIG))


# Each event of a script: the event of the definitions, how many fields it has, and what reads them.
EVENTS = {
    "begin": ("Begin", 4, begin),
    "send": ("Send", 2, numbered(message)),
    "finish": ("Finish", 1, numbered()),
    "take": ("Take", 1, numbered()),
    "cancel": ("Cancel", 1, numbered()),
    "resolved": ("Resolved", 2, resolved),
    "unresolved": ("ResolveFailed", 0, tuple),
    "dial": ("TakeDial", 0, tuple),
    "up": ("LinkUp", 1, numbered()),
    "nodial": ("DialFailed", 1, numbered()),
    "arrived": ("Arrived", 2, numbered(piece)),
    "lost": ("LinkLost", 1, numbered()),
    "drain": ("Drain", 2, numbered(number)),
    "ping": ("Ping", 2, numbered(ping)),
    "tick": ("Tick", 0, tuple),
    "shutdown": ("Shutdown", 0, tuple),
}


def post_of(line):
    """The post of a line, of which a reply is left out."""
    words = line.partition(" = ")[0].split(" ")
    if len(words) < 3 or words[2] not in EVENTS:
        raise Fault(f"no event {' '.join(words[2:3])!r}")
    tag, count, read = EVENTS[words[2]]
    if len(words) != 3 + count:
        raise Fault(f"{words[2]} takes {count} fields")
    held = read(*words[3:])
    if words[2] == "resolved":
        words[3] = ",".join(map(address_text, held[0])) or "-"
    event = Value(tag, held) if held else CONSTANTS[tag]
    return Post(number(words[0], "moment"), number(words[1], "word"), event, " ".join(words[2:]))


def authority_of(target):
    """The authority of a target: its first address, or its host and port."""
    if target.startswith(PLAIN_TARGET):
        items = target.removeprefix(PLAIN_TARGET).split(",")
        found = [address(item, DEFAULT_PORT) for item in items]
        if len(items) > MOST_ADDRESSES:
            raise Fault(f"more than {MOST_ADDRESSES} addresses")
        return address_text(found[0]).encode()
    found = re.fullmatch(r"dns:(?:///)?([A-Za-z0-9.-]{1,253})(?::([1-9]\d{0,4}))?", target)
    port = int(found[2] or DEFAULT_PORT) if found else 0
    labels = found[1].split(".") if found else [""]
    if not 1 <= port <= 65535 or not all(re.fullmatch("(?!-)[A-Za-z0-9-]{1,63}(?<!-)", label) for label in labels):
        raise Fault(f"{target!r} is no target")
    return f"{found[1]}:{port}".encode()


def is_report(text):
    """Whether a text is a report, and no script: its second line has a reply, or is a row or what stands after the rows."""
    line = text.split("\n", 2)[1] if "\n" in text else ""
    return " = " in line or line.startswith(AFTER_ENTRIES)


def posts_of(text):
    """The lines of a script or report up to their replies: what is posted."""
    if not is_report(text):
        return text
    lines = text.split("\n")
    end = next((at for at, line in enumerate(lines) if line.startswith(AFTER_ENTRIES)), len(lines))
    return "\n".join(line.partition(" = ")[0] for line in lines[:end])


def script_of(text):
    """The script that a script or report holds; a fault names the line. After the entries of a report stand its rows."""
    lines, has_rows, place = text.split("\n"), is_report(text), 1
    try:
        words = lines[0].split(" ")
        if len(words) != 3 or words[0] != "channel" or words[1] not in ("1", "2"):
            raise Fault("no channel line of version 1 or 2")
        authority = authority_of(words[2])
        posts = []
        for place, line in enumerate(lines[1:], 2):
            if (has_rows and line.startswith(AFTER_ENTRIES)) or (not line and place == len(lines)):
                break
            if place == len(lines):
                raise Fault("no line feed ends it")
            posts.append(post_of(line))
    except Fault as fault:
        raise Fault(f"line {place}: {fault}") from None
    return Script(words[2], authority, posts)


# what the definitions give


CODES = (
    "Ok Cancelled Unknown InvalidArgument DeadlineExceeded NotFound AlreadyExists PermissionDenied ResourceExhausted FailedPrecondition "
    "Aborted OutOfRange Unimplemented Internal Unavailable DataLoss Unauthenticated"
).split()
REFUSALS = "NoSuchCall CallEnded AfterFinish NoSuchSub NotDialing NoSuchLink LinkGone RoomTooSmall Shut".split()
CONFIG_FAULTS = "Json Field BothPolicies RepeatedName NoSupportedPolicy".split()
JSON_FAULTS = "Syntax RepeatedKey TooDeep Number TooLong".split()
STATES = {
    "Idle": "IDLE",
    "Connecting": "CONNECTING",
    "Ready": "READY",
    "Failure": "TRANSIENT_FAILURE",
    "Shutdown": "SHUTDOWN",
}


def data_text(value):
    return bytes(value).hex() or "-"


def metadata_text(fields):
    return ",".join(f"{bytes(field.name).decode()}:{bytes(field.value).hex()}" for field in fields) or "-"


def escaped(text):
    text = bytes(text)
    if text == b"-":
        return "%2D"
    return "".join(chr(byte) if 0x21 <= byte <= 0x7E and byte != 0x25 else f"%{byte:02X}" for byte in text) or "-"


def address_text(value):
    return f"{'.'.join(map(str, value.ip.to_bytes(4, 'big')))}:{value.port}"


def end_text(code, text, meta, cause):
    return f"end {CODES.index(code.tag)} {escaped(text)} {metadata_text(meta)} {cause.tag.lower()}"


def config_fault_text(fault):
    kind = CONFIG_FAULTS.index(fault.tag) + 1
    if fault.tag != "Json":
        return f"badconfig {kind} {bytes(fault.held[0]).decode() if fault.held else '-'}"
    json = fault.held[0]
    place = json.held[0] if json.held else MOST_CONFIG
    return f"badconfig {kind} {JSON_FAULTS.index(json.tag) + 1}:{place}"


REPLIES = {
    "Call": lambda call: f"call {call}",
    "Done": lambda: "done",
    "Full": lambda held: f"full {held}",
    "Head": lambda meta: f"head {metadata_text(meta)}",
    "Message": lambda octets: f"message {data_text(octets)}",
    "End": end_text,
    "NotYet": lambda: "notyet",
    "BadConfig": config_fault_text,
    "Dial": lambda sub, place, until: f"dial {sub} {address_text(place)} {until}",
    "Link": lambda link: f"link {link}",
    "Octets": lambda octets: f"octets {data_text(octets)}",
    "Refused": lambda refusal: f"refused {REFUSALS.index(refusal.tag) + 1}",
}


def reply_text(reply):
    return REPLIES[reply.tag](*reply.held)


def shown(value):
    """A number that may not be there."""
    return "-" if value is None else str(value)


def pushback_text(end):
    pushback = end.pushback if end else CONSTANTS["None"]
    return {"None": "-", "Stop": "stop"}.get(pushback.tag) or str(pushback.held[0])


def row_line(row):
    """The line of an attempt, column by column."""
    placed, end = content(row.placed), content(row.ended)
    places = [shown(getattr(placed, name, None)) for name in ("entry", "generation", "sub", "link")]
    ends = [shown(end and end.entry), shown(end and CODES.index(end.code.tag)), pushback_text(end), shown(end and end.seen)]
    last = [shown(content(value)) if end else "-" for value in (end and end.tokens, end and end.word)]
    columns = [row.call, row.number, row.kind.tag.lower(), row.due, *places, shown(content(row.stream)), *ends]
    return " ".join(map(str, ["row", *columns, end.cause.tag.lower() if end else "-", shown(content(row.committed)), *last]))


def entry_line(entry, post):
    return f"{entry.moment} {entry.word} {post.words} = {reply_text(entry.reply)}"
