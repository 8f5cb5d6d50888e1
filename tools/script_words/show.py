"""The frames of a report, as nghttp -v shows those of a connection."""

from .frames import ERRORS, SETTINGS, name_in
from .grammar import EVENTS, REPLIES
from .lines import At, Links, is_line_of_events, words_of_fields
from .words import BadWords, quote

INDENT = " " * 14
FLAGS = {
    "DATA": {0x1: "END_STREAM", 0x8: "PADDED"},
    "HEADERS": {0x1: "END_STREAM", 0x4: "END_HEADERS", 0x8: "PADDED", 0x20: "PRIORITY"},
    "SETTINGS": {0x1: "ACK"},
    "PING": {0x1: "ACK"},
    "CONTINUATION": {0x4: "END_HEADERS"},
}
COLUMNS = "call number kind due placed generation sub link stream ended code pushback seen cause committed tokens word".split()
CALL, DUE, LINK, STREAM = (COLUMNS.index(name) for name in ("call", "due", "link", "stream"))


def field_lines(fields):
    return [f"{INDENT}{f.name.decode('latin-1')}: {f.value.decode('latin-1')}" for f in fields if f.form != "size"]


def body_lines(frame, fields):
    """What a frame says, a line each."""
    rest = frame.payload
    if frame.name == "SETTINGS":
        items = [(int.from_bytes(rest[at : at + 2], "big"), int.from_bytes(rest[at + 2 : at + 6], "big")) for at in range(0, len(rest), 6)]
        return [f"{INDENT}(niv={len(items)})"] + [f"{INDENT}[SETTINGS_{name_in(SETTINGS, key)}(0x{key:02x}):{value}]" for key, value in items]
    if frame.name == "RST_STREAM" and len(rest) == 4:
        code = int.from_bytes(rest, "big")
        return [f"{INDENT}(error_code={name_in(ERRORS, code)}(0x{code:02x}))"]
    if frame.name == "GOAWAY" and len(rest) >= 8:
        code = int.from_bytes(rest[4:8], "big")
        last = int.from_bytes(rest[:4], "big") & 0x7FFFFFFF
        return [f"{INDENT}(last_stream_id={last}, error_code={name_in(ERRORS, code)}(0x{code:02x}), opaque_data({len(rest) - 8})={quote(rest[8:])})"]
    if frame.name == "WINDOW_UPDATE" and len(rest) == 4:
        return [f"{INDENT}(window_size_increment={int.from_bytes(rest, 'big') & 0x7FFFFFFF})"]
    if frame.name == "PING":
        return [f"{INDENT}(opaque_data={rest.hex()})"]
    if frame.name == "DATA":
        return [f"{INDENT}{quote(rest[:200])}{'..' if len(rest) > 200 else ''}"] if rest else []
    if isinstance(fields, tuple):
        return field_lines(fields[1])
    return field_lines(fields) if fields else []


def frame_lines(stamp, link, way, frame, fields):
    head = f"<length={len(frame.payload)}, flags=0x{frame.flags:02x}, stream_id={frame.stream & 0x7FFFFFFF}>"
    lines = [f"{stamp} link {link} {way} {frame.name} frame {head}"]
    named = [name for bit, name in FLAGS.get(frame.name, {}).items() if frame.flags & bit]
    lines += [f"{INDENT}; {' | '.join(named)}"] if named else []
    return lines + body_lines(frame, fields)


class Report:
    """The lines of a report, taken apart: events with their replies, and the rows of attempts."""

    def __init__(self, lines):
        self.events, self.rows, self.others = [], [], []
        if not lines:
            raise At(1, "", 0, "no input; tools/script show takes a report, what replay and live write")
        for number, line in enumerate(lines, 1):
            line = line.removesuffix("\n")
            event, mark, reply = line.partition(" = ")
            stamps = event.split(" ", 2)
            if line.startswith("row ") and len(line.split(" ")) in (16, 18):
                self.rows.append(line.split(" ")[1:])
            elif not is_line_of_events(line) and (number == 1) == line.startswith("channel "):
                self.others.append(line)
            elif number > 1 and mark and len(stamps) == 3 and stamps[0].isdigit() and stamps[1].isdigit():
                self.events.append((number, int(stamps[0]), stamps[2], reply))
            else:
                raise At(number, line, 0, "not a report; tools/script show takes what replay and live write")
        self.begins = self.events[0][1] if self.events else 0

    def stamp(self, moment):
        past = moment - self.begins
        return f"[+{past // 10**9}.{past % 10**9:09d} s]"

    def streams_of(self, call):
        return {(row[LINK], row[STREAM]) for row in self.rows if row[CALL] == call}


def is_of_call(event, reply, call):
    """Whether an event is one of a call's own."""
    name, *given = event.split(" ")
    return reply == f"call {call}" if name == "begin" else name in ("send", "finish", "take", "cancel") and given[:1] == [call]


def piece_lines(stamp, link, way, data, reader, streams):
    lines = []
    for _, frame, fields in reader.take(data):
        if frame is not None:
            if streams is None or (link, str(frame.stream & 0x7FFFFFFF)) in streams:
                lines += frame_lines(stamp, link, way, frame, fields)
        elif fields == "preface" and streams is None:
            lines.append(f"{stamp} link {link} {way} the preface")
    if reader.rest and streams is None:
        lines.append(f"{stamp} link {link} {way} {len(reader.rest)} bytes of a frame that goes on")
    return lines


def shown(lines, call):
    """A report's lines: its frames one by one, and every other line with its bytes in words; where a call is named, its own alone."""
    report = Report(lines)
    streams = None if call is None else report.streams_of(call)
    if call is not None and not any(is_of_call(event, reply, call) for _, _, event, reply in report.events):
        raise At(1, lines[0], 0, f"the report has no call {call}")
    yield report.others[0] if report.others else ""
    if report.begins:
        yield f"(times from {report.begins} on)"
    links = Links()
    for number, moment, event, reply in report.events:
        try:
            yield from event_lines(report.stamp(moment), event, reply, links, call, streams)
        except (BadWords, ValueError, KeyError, IndexError):
            raise At(number, lines[number - 1], 0, "no line of a report has this form") from None
    yield from row_lines(report, call)
    yield from report.others[1:] if call is None else []


def event_lines(stamp, event, reply, links, call, streams):
    name, *given = event.split(" ")
    is_shown = call is None or is_of_call(event, reply, call)
    if name == "arrived":
        if is_shown:
            yield f"{stamp} arrived {given[0]} = {reply}"
        yield from piece_lines(stamp, given[0], "recv", bytes.fromhex(given[1]), links.reader(given[0], False), streams)
    elif reply.startswith("octets "):
        if is_shown:
            yield f"{stamp} {event}"
        data = b"" if reply == "octets -" else bytes.fromhex(reply[7:])
        yield from piece_lines(stamp, given[0], "send", data, links.reader(given[0], True), streams)
    elif is_shown:
        yield f"{stamp} {words_of_fields(event, EVENTS, None)} = {words_of_fields(reply, REPLIES, None)}"


def row_lines(report, call):
    """The rows, under a heading for each call; the due moment counts as the events' do."""
    last = None
    for row in report.rows:
        if call is not None and row[CALL] != call:
            continue
        if row[CALL] != last:
            yield f"call {row[CALL]}: {' '.join(COLUMNS[1 : len(row)])}"
            last = row[CALL]
        due = report.stamp(int(row[DUE])).strip("[]").replace(" ", "")
        yield " ".join(["  row", *row[1:DUE], due, *row[DUE + 1 :]])
