"""What the takes of each call of a report gave, held against the bytes that came on the call's link: a computation apart from the program and
from the definitions, by the frames that the server sent (gRPC over HTTP/2, "Responses"; gRFC A6, "When Retries are Valid")."""
import re

from explain_rules import columns_of, events_of
from script_words.frames import Reader

END_STREAM, PADDED = 0x1, 0x8
GRPC = re.compile(rb"application/grpc([+;].*)?")


def frames_of(events):
    """The whole frames that came on each link, each as (bytes up to its end, frame, fields of the header block that it ends or None)."""
    readers, read, found = {}, {}, {}
    for _, event, reply in events:
        if not event.startswith("arrived ") or reply != "done":
            continue
        _, link, piece = event.split(" ")
        for part, frame, fields in readers.setdefault(link, Reader(False)).take(bytes.fromhex(piece)):
            read[link] = read.get(link, 0) + len(part)
            if frame is not None:
                fields = fields[1] if isinstance(fields, tuple) else fields
                found.setdefault(link, []).append((read[link], frame, fields))
    return found


class Response:
    """What came of one response: a head or none, the messages, the status of its trailers or none."""

    def __init__(self):
        self.has_head, self.is_over, self.messages, self.status = False, False, [], None
        self.rest, self.ends = b"", False

    def frame(self, frame, fields):
        """Reads the next frame of its stream."""
        if frame.name == "HEADERS":
            self.ends = bool(frame.flags & END_STREAM)
        if self.is_over:
            return
        if fields is not None:
            self.block([(it.name, it.value) for it in fields if it.form != "size"])
        elif frame.name == "DATA":
            self.data(frame)
            self.is_over |= bool(frame.flags & END_STREAM)
        elif frame.name == "RST_STREAM":
            self.is_over = True

    def block(self, pairs):
        """Reads a header block: an interim response, a head, or what ends the response."""
        status = [value for name, value in pairs if name == b":status"]
        if not self.has_head and not self.ends:
            if len(status) == 1 and re.fullmatch(rb"1[0-9][0-9]", status[0]):
                return
            kinds = [value for name, value in pairs if name == b"content-type"]
            if status == [b"200"] and kinds and GRPC.fullmatch(kinds[0]):
                self.has_head = True
                return
        self.is_over = True
        self.status = [value for name, value in pairs if name == b"grpc-status"]

    def data(self, frame):
        """Reads messages, as many as are whole."""
        pad = frame.payload[0] if frame.flags & PADDED else 0
        self.rest += frame.payload[1 : len(frame.payload) - pad] if frame.flags & PADDED else frame.payload
        if not self.has_head:
            self.is_over = True
        while self.has_head and len(self.rest) >= 5:
            length = int.from_bytes(self.rest[1:5], "big")
            if self.rest[0] != 0 or len(self.rest) < 5 + length:
                break
            self.messages.append(self.rest[5 : 5 + length].hex() or "-")
            self.rest = self.rest[5 + length :]

    def items(self):
        return ["head"] * self.has_head + [f"message {message}" for message in self.messages]


def response_of(row, frames):
    """The response to an attempt, by what was seen of its link where it ended, and else by all that came."""
    response = Response()
    if row["stream"] == "-":
        return response
    for end, frame, fields in frames.get(row["link"], []):
        if row["ended"] != "-" and end > int(row["seen"]):
            break
        if frame.stream == int(row["stream"]):
            response.frame(frame, fields)
    return response


def code_of(status):
    """The code that trailers give by their `grpc-status`, where they have one alone."""
    return int(status[0]) if len(status) == 1 and re.fullmatch(rb"[0-9]+", status[0]) and int(status[0]) <= 16 else 2


def takes_of(events):
    """What the takes of each call gave: items, and after the end what came then."""
    found = {}
    for _, event, reply in events:
        if event.startswith("take ") and reply != "notyet":
            found.setdefault(event.split(" ")[1], []).append(reply)
    return found


def of_call(call, replies, rows, frames):
    """What is wrong with what one call's takes gave, in words."""
    committed = [row for row in rows if row["committed"] != "-"]
    if len({row["number"] for row in committed}) > 1:
        yield f"call {call} is committed to attempts of two numbers"
    response = response_of(committed[-1], frames) if committed else Response()
    whole = response.items()
    ends = [at for at, reply in enumerate(replies) if reply.startswith("end ")]
    later = replies[ends[0] + 1 :] if ends else []
    taken = [re.sub(r"^head .*", "head", reply) for reply in (replies[: ends[0]] if ends else replies)]
    if any(reply != "refused 2" for reply in later):
        yield f"call {call} is given something after its end"
    if taken != whole[: len(taken)]:
        yield f"call {call} is not given what came for it, in order"
    if not ends:
        return
    _, code, *_, cause = replies[ends[0]].split(" ")
    if cause != "row":
        return
    if not committed or committed[-1]["ended"] == "-" or committed[-1]["cause"] == "cut":
        yield f"call {call} ends by an attempt that did not end by itself"
    elif code != committed[-1]["code"]:
        yield f"call {call} ends with another code than its attempt"
    elif committed[-1]["cause"] == "status" and int(code) != code_of(response.status or []):
        yield f"call {call} ends with another code than its trailers say"
    if taken != whole:
        yield f"call {call} is not given all that came for it"


def wrongs_of(report):
    """What is wrong with the takes of a report, in words: none where the takes of each call are as gRPC says."""
    events, rows = events_of(report), columns_of(report)
    frames, begun, shut = frames_of(events), 0, False
    for _, event, reply in events:
        if event == "shutdown" and reply == "done":
            shut = True
        if event.startswith("begin ") and reply.startswith("call "):
            begun += 1
            if shut:
                yield f"call {begun} begins on a channel that was shut down"
        if event.startswith("take ") and reply.split(" ")[0] in ("head", "message", "end") and int(event.split(" ")[1]) > begun:
            yield f"call {event.split(' ')[1]} gives an item before it began"
    for call, replies in takes_of(events).items():
        yield from of_call(call, [it for it in replies if it != "refused 1"], [row for row in rows if row["call"] == call], frames)
