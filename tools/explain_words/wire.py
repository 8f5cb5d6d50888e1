"""The lines of a report in words: bytes as frames, messages as texts, configs as JSON."""

import re

from .blocks import BlockFault, Blocks
from .names import ERRORS, FRAMES, SETTINGS, duration, name_in, printable, quoted, short, text_of
from .reading import END_HEADERS, END_STREAM, PADDED, PREFACE, pairs_of, unpadded
from .report import EVENTS, OPENING


def is_text(data):
    return bool(data) and sum(32 <= byte < 127 for byte in data) * 4 >= len(data) * 3


def bytes_words(data, most=48):
    """Bytes as a text where most of them are one, else in hex."""
    if not data:
        return '""'
    if is_text(data):
        return quoted(printable(data[: most + 1]), most)
    return data[: most // 2].hex() + (".." if len(data) > most // 2 else "")


def message_words(field):
    data = b"" if field == "-" else bytes.fromhex(field)
    return f"{bytes_words(data)} ({len(data):,} bytes)" if len(data) > 16 else bytes_words(data)


def meta_words(field):
    """Metadata: x-user: "ann", .."""
    if field == "-":
        return ""
    pairs = (item.split(":", 1) for item in field.split(","))
    return ", ".join(f"{name}: {bytes_words(bytes.fromhex(value))}" for name, value in pairs)


class Direction:
    """One direction of a link: frames that pieces cut anywhere, and the table of its header blocks."""

    def __init__(self):
        self.rest, self.blocks, self.block, self.is_lost, self.has_begun = b"", Blocks(), None, False, False

    def words(self, piece, wants_words=True):
        """The frames that the piece ends, in words; what stays open is counted."""
        data, words, at = self.rest + piece, [], 0
        if not self.has_begun and data.startswith(PREFACE):
            words.append("PREFACE")
            at = len(PREFACE)
        self.has_begun = True
        while at + 9 <= len(data) and not self.is_lost:
            length = int.from_bytes(data[at : at + 3], "big")
            if at + 9 + length > len(data):
                break
            kind, flags, stream = data[at + 3], data[at + 4], int.from_bytes(data[at + 5 : at + 9], "big") & 0x7FFFFFFF
            payload = data[at + 9 : at + 9 + length]
            fields = self.fields(kind, flags, payload) if kind in (1, 9) else None
            if wants_words:
                words.append(frame_words(kind, flags, stream, payload, fields))
            at += 9 + length
        self.rest = data[at:]
        if self.rest and wants_words:
            words.append(f"{len(self.rest)} bytes of a frame that goes on" if not self.is_lost else f"{len(self.rest)} bytes")
        return words

    def fields(self, kind, flags, payload):
        """The fields of the block that this frame ends, or None."""
        try:
            part = unpadded(1, flags, payload) if kind == 1 else payload
            self.block = part if kind == 1 else (self.block or b"") + part
            return self.blocks.decode(self.block).fields if flags & END_HEADERS else None
        except (BlockFault, IndexError):
            self.is_lost = True
            return None


def frame_words(kind, flags, stream, payload, fields=None):
    """A frame, as HEADERS{stream 1, end, :status 200, grpc-status 14}."""
    name = FRAMES[kind] if kind < len(FRAMES) else f"FRAME of type {kind}"
    words = [f"stream {stream}"] if stream or kind in (0, 1) else []
    if kind in (0, 1) and flags & END_STREAM:
        words.append("end")
    if kind in (4, 6) and flags & 1:
        words.append("ack")
    if kind in (1, 9) and not flags & END_HEADERS:
        words.append("more follows")
    words += payload_words(kind, flags, payload, fields)
    return f"{name}{{{', '.join(words)}}}"


def payload_words(kind, flags, payload, fields):
    if kind == 0:
        return data_words(unpadded(0, flags, payload) if flags & PADDED and payload else payload)
    if kind in (1, 9):
        return [f"{printable(name)} {short(printable(value), 60)}" for name, value in fields or []]
    if kind == 3 and len(payload) == 4:
        return [name_in(ERRORS, int.from_bytes(payload, "big"))]
    if kind == 4:
        return [f"{name_in(SETTINGS, key)} {value}" for key, value in pairs_of(payload)]
    if kind == 7 and len(payload) >= 8:
        last = int.from_bytes(payload[:4], "big") & 0x7FFFFFFF
        return [f"last {last}", name_in(ERRORS, int.from_bytes(payload[4:8], "big"))] + ([bytes_words(payload[8:])] if payload[8:] else [])
    if kind == 8 and len(payload) == 4:
        return [str(int.from_bytes(payload, "big") & 0x7FFFFFFF)]
    return [payload[:32].hex()] if payload else []


def data_words(data):
    """The payload of DATA: whole messages where it is these, else its length and its first bytes."""
    words, at = [], 0
    while at + 5 <= len(data) and len(words) < 4:
        length = int.from_bytes(data[at + 1 : at + 5], "big")
        if data[at] or at + 5 + length > len(data):
            break
        words.append("message " + bytes_words(data[at + 5 : at + 5 + length]))
        at += 5 + length
    if at < len(data):
        words.append(f"{len(data) - at:,} bytes" + (f": {bytes_words(data[at:], 24)}" if at == 0 else " more"))
    return words


class Wire:
    """Both directions of each link, read entry by entry."""

    def __init__(self):
        self.directions = {}

    def direction(self, link, way):
        return self.directions.setdefault((link, way), Direction())

    def entry(self, line, wants_words=True):
        """An entry in words: the event, then what came back; the frames as a list."""
        opening = OPENING.match(line)
        name = opening.group(3)
        *fields, reply = EVENTS[name].fullmatch(line, opening.end()).groups()
        if name == "arrived":
            refused = reply.startswith("refused")
            frames = self.direction(fields[0], "in").words(bytes.fromhex(fields[1]), wants_words) if not refused else []
            return (f"arrived on link {fields[0]}", frames, reply if refused else "") if wants_words else None
        if name == "drain":
            given = reply.startswith("octets ") and reply != "octets -"
            frames = self.direction(fields[0], "out").words(bytes.fromhex(reply[7:]), wants_words) if given else []
            rest = reply if reply.startswith("refused") else "" if given else "nothing to send"
            return (f"sent on link {fields[0]}", frames, rest) if wants_words else None
        return (event_words(name, fields), [], reply_words(reply)) if wants_words else None


def event_words(name, fields):
    if name == "begin":
        path, wait, timeout, meta = fields
        words = (
            [path]
            + ([f"wait for ready: {wait}"] if wait != "-" else [])
            + ([f"timeout {duration(int(timeout))}"] if timeout != "-" else [])
        )
        return "begin " + ", ".join(words + ([meta_words(meta)] if meta != "-" else []))
    if name == "send":
        return f"send {fields[0]} {message_words(fields[1])}"
    if name == "resolved":
        config = "no config" if fields[1] == "-" else printable(bytes.fromhex(fields[1]))
        return f"resolved {short(fields[0], 90)}, {short(config, 400)}"
    return " ".join([name, *fields])


def reply_words(reply):
    name, _, rest = reply.partition(" ")
    if name == "message":
        return "message " + message_words(rest)
    if name == "head":
        return "head " + (meta_words(rest) or "without metadata")
    if name == "end":
        code, text, meta, cause = rest.split(" ")
        return (
            f"end {code}"
            + (f" {quoted(text_of(text))}" if text != "-" else "")
            + (f", {meta_words(meta)}" if meta != "-" else "")
            + f" ({cause})"
        )
    return reply


def entry_text(parts):
    """The parts of an entry in one line."""
    event, frames, reply = parts
    return event + (": " + " ".join(frames) if frames else "") + (f" = {reply}" if reply else "")


def of_streams(parts, link, streams):
    """The parts of an entry with the frames of these streams, SETTINGS and GOAWAY; the others are counted."""
    event, frames, reply = parts
    own = [words for words in frames if is_of(words, link, streams)]
    others = len(frames) - len(own)
    return event, own + ([f"({others} other frame{'s' * (others > 1)})"] if others else []), reply


def is_of(words, link, streams):
    found = re.match(r"[A-Z_ ]+\{stream (\d+)", words)
    return (link, int(found.group(1))) in streams if found else not words.startswith(("WINDOW_UPDATE", "PING"))


def words_of_entries(report, wanted, streams=None):
    """The entries that are wanted, in words, by their numbers; their frames perhaps on these streams alone, as (link, stream).
    Entries before them are read for the tables of their links alone."""
    wire, found = Wire(), {}
    links = {line.split(" ", 4)[3] for line in (report.lines[entry] for entry in wanted) if line.split(" ", 3)[2] in ("arrived", "drain")}
    last = max(wanted, default=0)
    for entry in range(1, last + 1):
        line = report.lines[entry]
        if entry in wanted:
            parts = wire.entry(line)
            found[entry] = entry_text(of_streams(parts, int(line.split(" ", 4)[3]), streams) if streams is not None and parts[1] else parts)
        elif links:
            parts = line.split(" ", 4)
            if parts[2] in ("arrived", "drain") and parts[3] in links:
                wire.entry(line, False)
    return found
