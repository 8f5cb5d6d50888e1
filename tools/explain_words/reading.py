"""Frames of a link as the client reads and writes them (RFC 9113): windows, link errors, and the response on each stream."""

import struct

from .blocks import BlockFault, Blocks
from .session import CONNECTING, READY, Stamp

DATA, HEADERS, PRIORITY, RST_STREAM, SETTINGS, PUSH_PROMISE, PING, GOAWAY, WINDOW_UPDATE, CONTINUATION = range(10)
END_STREAM, ACK, END_HEADERS, PADDED, HAS_PRIORITY = 0x1, 0x1, 0x4, 0x8, 0x20
MOST_FRAME, MOST_WINDOW, MOST_BLOCK = 16384, (1 << 31) - 1, 65536
HEAD = struct.Struct(">BHBBI").unpack_from  # the length in two parts, the kind, the flags, the stream
PREFACE = b"PRI * HTTP/2.0\r\n\r\nSM\r\n\r\n"
RESET_CODES = {7: 14, 8: 1, 11: 8, 12: 7, 0: 13, 1: 13, 2: 13, 3: 13, 4: 13, 6: 13, 9: 13, 10: 13}
LENGTHS = {PING: 8, WINDOW_UPDATE: 4, RST_STREAM: 4, PRIORITY: 5}


def length_fault(length, kind):
    """FRAME_SIZE_ERROR, as soon as the length and the kind show it."""
    return (
        length > MOST_FRAME
        or (kind == SETTINGS and length % 6)
        or (kind in LENGTHS and length != LENGTHS[kind])
        or (kind == GOAWAY and length < 8)
    )


def fields_before(kind, flags):
    """The bytes of the PADDED and PRIORITY fields."""
    return (1 if kind in (DATA, HEADERS) and flags & PADDED else 0) + (5 if kind == HEADERS and flags & HAS_PRIORITY else 0)


def head_fault(length, kind, flags, stream):
    """The error that the nine bytes of a frame's head show, or None."""
    if length_fault(length, kind) or (kind == SETTINGS and flags & ACK and length) or fields_before(kind, flags) > length:
        return 6
    if kind in (SETTINGS, PING, GOAWAY) and stream:
        return 1
    return 1 if not stream and kind in (DATA, HEADERS, PRIORITY, RST_STREAM, CONTINUATION) else None


def early_fault(begin):
    """The error that fewer than nine bytes of a frame show already, or None."""
    count = len(begin)
    if any(count >= part and int.from_bytes(begin[:part], "big") << 8 * (3 - part) > MOST_FRAME for part in (1, 2, 3)):
        return 6
    length, kind = int.from_bytes(begin[:3], "big"), begin[3] if count > 3 else None
    if count > 3 and length_fault(length, kind):
        return 6
    if count > 4 and ((kind == SETTINGS and begin[4] & ACK and length) or fields_before(kind, begin[4]) > length):
        return 6
    is_of_stream_0 = count > 5 and kind in (SETTINGS, PING, GOAWAY) and any(bytes([begin[5] & 127]) + begin[6:count])
    return 1 if is_of_stream_0 else None


def unpadded(kind, flags, payload):
    """The payload of DATA or HEADERS without padding and priority."""
    end = len(payload)
    start = 0
    if flags & PADDED:
        start, end = 1, end - payload[0]
    if kind == HEADERS and flags & HAS_PRIORITY:
        start += 5
    return payload[start:end]


class Reading:
    """The part of the channel that reads and writes links. A Channel has the rest."""

    # ---- read

    def read_piece(self, link, piece):
        data = link.rest + piece if link.rest else piece
        at, count = 0, len(data)
        while link.over is None and at < count:
            if count - at < 9:
                fault = early_fault(data[at:])
                if fault:
                    self.break_link(link, fault)
                break
            high, length, kind, flags, stream = HEAD(data, at)
            length, stream = high << 16 | length, stream & MOST_WINDOW
            fault = (
                head_fault(length, kind, flags, stream)
                if kind > 1 or not stream or flags & (PADDED | HAS_PRIORITY) or length > MOST_FRAME
                else None
            )
            if not fault and kind < 2 and flags & PADDED and count - at > 9 and data[at + 9] > length - fields_before(kind, flags):
                fault = 1
            if not fault and count - at < 9 + length:
                break
            payload = data[at + 9 : at + 9 + length]
            if kind < 2 and link.block is None and link.settings and stream & 1 and stream <= link.opened:
                fault = fault or (self.block_fault(link, kind, flags, stream, payload) if kind else None)
            else:
                fault = fault or self.frame_fault(link, kind, flags, stream, payload)
            if fault:
                self.break_link(link, fault)
                break
            at += 9 + length
            link.read += 9 + length
            link.frames_in[kind if kind < 10 else 10] += 1
            self.read_frame(link, kind, flags, stream, payload)
        link.rest = data[at:]

    def frame_fault(self, link, kind, flags, stream, payload):
        """The link error that a whole frame shows with what came before it, or None."""
        if link.settings is None and (kind != SETTINGS or flags & ACK):
            return 1
        pairs = pairs_of(payload) if kind == SETTINGS else ()
        if kind == PUSH_PROMISE or any((key == 2 and value) or (key == 5 and not MOST_FRAME <= value <= 16777215) for key, value in pairs):
            return 1
        if link.block is None:
            if kind == CONTINUATION:
                return 1
        elif kind != CONTINUATION or stream != link.block[0]:
            return 1
        if stream and kind in (DATA, HEADERS, RST_STREAM, WINDOW_UPDATE) and not (stream & 1 and stream <= link.opened):
            return 1
        if kind == WINDOW_UPDATE and not stream:
            by = int.from_bytes(payload, "big") & MOST_WINDOW
            return 1 if not by else 3 if link.room + by > MOST_WINDOW else None
        if pairs:
            widest = max((row.lift for row in link.streams.values()), default=0)
            if any(key == 4 and (value > MOST_WINDOW or value + widest > MOST_WINDOW) for key, value in pairs):
                return 3
        return self.block_fault(link, kind, flags, stream, payload) if kind in (HEADERS, CONTINUATION) else None

    def block_fault(self, link, kind, flags, stream, payload):
        """Takes a part of a header block; its error, or None. A whole block is left in `self.whole`."""
        if kind == HEADERS:
            part = unpadded(HEADERS, flags, payload) if flags & (PADDED | HAS_PRIORITY) else payload
            link.block = (stream, bool(flags & END_STREAM), part)
        else:
            link.block = (*link.block[:2], link.block[2] + payload)
        self.whole = None
        if flags & END_HEADERS:
            link.blocks = link.blocks or Blocks()
            try:
                self.whole = link.blocks.decode(link.block[2])
            except BlockFault as fault:
                return fault.args[0]
        return 11 if len(link.block[2]) > MOST_BLOCK else None

    def break_link(self, link, code):
        link.over = Stamp(self.entry, self.moment, f"broken {code}")
        self.note("LinkBreaks", link, code)
        self.link_over(link)
        self.flush_resets()

    def link_over(self, link, one_by_one=False):
        """Its subchannel goes down and its attempts end, by place."""
        self.touched.add(link)
        self.sub_down(link, "its link went")
        for place in sorted(link.rows):
            row = link.rows.get(place)
            if row:
                self.end_row(row, 14, "lost" if row.stream else "unsent", is_unseen=row.stream is None)
                if one_by_one:
                    self.flush_resets()

    def read_frame(self, link, kind, flags, stream, payload):
        self.note("FrameRead", link, kind, stream, len(payload))
        if kind in (HEADERS, CONTINUATION):
            if self.whole is not None:
                (stream, is_end, _), link.block, block, self.whole = link.block, None, self.whole, None
                row = link.streams.get(stream)
                if row:
                    self.read_block(row, block, is_end)
        elif kind == DATA or (stream and kind in (RST_STREAM, WINDOW_UPDATE)):
            row = link.streams.get(stream)
            if row:
                self.read_on_stream(row, kind, flags, payload)
        elif kind == WINDOW_UPDATE:
            link.room += int.from_bytes(payload, "big") & MOST_WINDOW
        elif kind == SETTINGS:
            if not flags & ACK:
                self.read_settings(link, payload)
        elif kind == GOAWAY:
            self.read_goaway(link, payload)
        if self.resets:
            self.flush_resets()

    def read_settings(self, link, payload):
        is_first, sub = link.settings is None, link.sub
        for key, value in pairs_of(payload):
            if key == 3:
                link.most = value
            elif key == 4:
                link.initial = value
        if is_first:
            link.settings = Stamp(self.entry, self.moment)
        if sub.link is link and sub.state == CONNECTING:
            sub.dials, sub.until = 0, None
            self.set_state(sub, READY, "the server's SETTINGS came", "SettingsArrive")

    def read_goaway(self, link, payload):
        last, code = int.from_bytes(payload[:4], "big") & MOST_WINDOW, int.from_bytes(payload[4:8], "big")
        is_first = link.goaway is None
        if is_first:
            link.goaway = (Stamp(self.entry, self.moment), last, code, payload[8:])
        self.touched.add(link)
        self.sub_down(link, "its link is retiring (GOAWAY)")
        for place in sorted(link.rows):
            row = link.rows.get(place)
            if row and row.stream is None:
                self.end_row(row, 14, "unsent", is_unseen=True)
            elif row and row.stream > last:
                self.end_row(row, 14, "goaway", is_unseen=True)

    def read_on_stream(self, row, kind, flags, payload):
        if kind == DATA:
            self.read_data(row, flags, payload)
        elif kind == RST_STREAM:
            code = int.from_bytes(payload, "big")
            self.end_row(row, RESET_CODES.get(code, 2), "reset", is_unseen=code == 7 and row.head is None, detail=code)
        else:
            by = int.from_bytes(payload, "big") & MOST_WINDOW
            if by == 0 or row.link.initial + row.lift + by > MOST_WINDOW:
                self.end_row(
                    row, 13, "framing", reset=3 if by else 1, detail="a WINDOW_UPDATE " + ("past the greatest window" if by else "of 0")
                )
            else:
                row.lift += by

    # ---- the response on a stream

    def read_block(self, row, block, is_end):
        status = block.status
        is_interim = row.head is None and status is not None and 100 <= status <= 199
        if is_interim and not is_end:
            return
        pushback = block.pushback if is_end else None
        if is_interim or (not is_end and (row.head is not None or status is None)):
            why = (
                "a 1xx head with END_STREAM"
                if is_interim
                else "a second header block without END_STREAM"
                if row.head
                else "a head without :status"
            )
            self.end_row(row, 13, "framing", block, pushback, reset=1, detail=why)
        elif not is_end:
            self.read_head(row, block)
        else:
            row.is_closed = True
            if block.code is None:
                self.end_row(row, block.http_code(), "http", block, pushback, detail=status)
            elif block.code == 0 and (row.prefix or row.missing):
                self.end_row(row, 13, "framing", block, pushback, detail="status 0 cuts a message off")
            else:
                self.end_row(row, block.code, "status", block, pushback)

    def read_head(self, row, block):
        if block.status != 200 or not block.is_grpc:
            why = f"{block.status}, of another content-type than application/grpc" if block.status == 200 else block.status
            self.end_row(row, block.http_code(), "http", block, detail=why)
            return
        row.head = Stamp(self.entry, self.moment)
        if row.call.committed is None and row.call.end is None:
            self.commit(row, "head")

    def read_data(self, row, flags, payload):
        if row.head is None:
            self.end_row(row, 13, "framing", reset=1, detail="DATA before a head")
            return
        fault = self.read_messages(row, unpadded(DATA, flags, payload) if flags & PADDED else payload)
        row.is_closed = bool(flags & END_STREAM)
        if fault == "large":
            row.call.too_long = (Stamp(self.entry, self.moment), "response")
            self.end_call(row.call, "response")
        elif fault:
            self.end_row(row, 13, "framing", detail="a message with a flag other than 0 (compressed)")
        elif row.is_closed:
            self.end_row(row, 2, "http", detail="200, and the stream ended without trailers")

    def read_messages(self, row, data):
        """Counts the whole messages; "flag" or "large" at the first fault."""
        at, count = 0, len(data)
        while at < count:
            if row.missing:
                step = min(row.missing, count - at)
                row.missing, at = row.missing - step, at + step
                if row.missing == 0:
                    row.messages += 1
                continue
            begin = row.prefix + data[at : at + 5 - len(row.prefix)]
            at += len(begin) - len(row.prefix)
            if begin[0] != 0:
                return "flag"
            if len(begin) < 5:
                row.prefix = begin
                return None
            row.prefix = b""
            row.missing = int.from_bytes(begin[1:], "big")
            row.received += row.missing
            if row.missing > row.call.response:
                return "large"
            if row.missing == 0:
                row.messages += 1
        return None

    # ---- written

    def write_piece(self, link, data):
        """What a drain gave: whole frames, whose HEADERS open the streams of the attempts in turn."""
        at, count = 0, len(data)
        link.bytes_out += count
        if not link.out_preface and data.startswith(PREFACE):
            link.out_preface, at = True, len(PREFACE)
        while at + 9 <= count:
            high, length, kind, flags, stream = HEAD(data, at)
            length |= high << 16
            link.frames_out[kind if kind < 10 else 10] += 1
            self.note("FrameWritten", link, kind, stream, length)
            if kind == HEADERS:
                self.write_headers(link, stream)
            elif kind == DATA:
                link.room -= length
                row = link.streams.get(stream)
                if row:
                    row.lift, row.written = row.lift - length, row.written + length
                    row.has_sent_end = bool(flags & END_STREAM)
            at += 9 + length
        if at != count:
            self.fault("a drain gives whole frames, and these are none")

    def write_headers(self, link, stream):
        if not link.waiting or stream != (link.opened + 2 if link.opened else 1):
            self.fault(f"HEADERS open stream {stream}, and no attempt waits for it")
        row = min(link.waiting, key=lambda row: row.place)
        link.waiting.remove(row)
        row.stream, row.sent, link.opened = stream, Stamp(self.entry, self.moment), stream
        link.streams[stream] = row
        link.most_seen = max(link.most_seen, len(link.streams))


def pairs_of(payload):
    return [
        (int.from_bytes(payload[at : at + 2], "big"), int.from_bytes(payload[at + 2 : at + 6], "big")) for at in range(0, len(payload), 6)
    ]
