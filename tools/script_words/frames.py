"""Frames (RFC 9113, section 4) as words, as HEADERS{stream 1, end, :status 200}, and back to their bytes."""

import re

from .hpack import BadBlock, Table, Written, client_form, read_block
from .words import BadWords, bytes_of, data_of, from_hex, hex_or_quoted, tokens_of, word_of

KINDS = ["DATA", "HEADERS", "PRIORITY", "RST_STREAM", "SETTINGS", "PUSH_PROMISE", "PING", "GOAWAY", "WINDOW_UPDATE", "CONTINUATION"]
SETTINGS = ["", "HEADER_TABLE_SIZE", "ENABLE_PUSH", "MAX_CONCURRENT_STREAMS", "INITIAL_WINDOW_SIZE", "MAX_FRAME_SIZE", "MAX_HEADER_LIST_SIZE"]
ERRORS = ["NO_ERROR", "PROTOCOL_ERROR", "INTERNAL_ERROR", "FLOW_CONTROL_ERROR", "SETTINGS_TIMEOUT", "STREAM_CLOSED", "FRAME_SIZE_ERROR",
          "REFUSED_STREAM", "CANCEL", "COMPRESSION_ERROR", "CONNECT_ERROR", "ENHANCE_YOUR_CALM", "INADEQUATE_SECURITY", "HTTP_1_1_REQUIRED"]
END, ACK, END_HEADERS, PADDED, PRIORITY = 0x1, 0x1, 0x4, 0x8, 0x20
PREFACE = b"PRI * HTTP/2.0\r\n\r\nSM\r\n\r\n"
ON_STREAM_0 = ("SETTINGS", "PING", "GOAWAY")


def name_in(names, number):
    return names[number] if number < len(names) and names[number] else str(number)


def frame_of(kind, flags, stream, payload):
    return len(payload).to_bytes(3, "big") + bytes([kind, flags]) + stream.to_bytes(4, "big") + payload


class Frame:
    """A whole frame, taken apart."""

    def __init__(self, data):
        self.data = data
        self.kind, self.flags = data[3], data[4]
        self.stream = int.from_bytes(data[5:9], "big")
        self.payload = data[9:]
        self.name = KINDS[self.kind] if self.kind < len(KINDS) else "FRAME"

    def block(self):
        """The part of a header block that the frame has, with its padding and priority, or None."""
        if self.name == "CONTINUATION":
            return self.payload, None, None
        if self.name != "HEADERS":
            return None
        rest, pad, priority = self.payload, None, None
        if self.flags & PADDED:
            if not rest or rest[0] > len(rest) - 1:
                return None
            pad, rest = rest[0], rest[1 : len(rest) - rest[0]]
        if self.flags & PRIORITY:
            if len(rest) < 5:
                return None
            priority, rest = rest[:5], rest[5:]
        return rest, pad, priority


def priority_words(five):
    number = int.from_bytes(five[:4], "big")
    words = [f"dep {number & 0x7FFFFFFF}", f"weight {five[4] + 1}"]
    return words + (["exclusive"] if number >> 31 else [])


def field_words(field):
    """A field: its name and value, and in brackets how it is written, where the client would write it otherwise."""
    if field.form == "size":
        return f"[size {field.index}]"
    words = f"{word_of(field.name)} {word_of(field.value)}"
    usual = client_form(field.name, field.value)
    if usual.write() == field.write():
        return words
    if field.form == "index":
        return f"{words} [index {field.index}]"
    packed = ("n" if field.is_name_packed else "") + ("v" if field.is_value_packed else "")
    how = [field.form, f"name {field.index}" if field.index else "new"] + ([f"packed {packed}"] if packed else [])
    return f"{words} [{' '.join(how)}]"


def data_words(payload):
    """The payload of a DATA frame: whole messages where it is these, else its bytes."""
    words, at = [], 0
    while at < len(payload):
        length = int.from_bytes(payload[at + 1 : at + 5], "big")
        if payload[at] != 0 or at + 5 + length > len(payload):
            return [hex_or_quoted(payload)]
        message = payload[at + 5 : at + 5 + length]
        words.append("message " + (hex_or_quoted(message) if message else '""'))
        at += 5 + length
    return words


def words_of(frame, fields=None):
    """The words of a frame, whose block has these fields, where it is whole."""
    words = [] if frame.name in ON_STREAM_0 and frame.stream == 0 else [f"stream {frame.stream}"]
    flags, rest = frame.flags, frame.payload
    if frame.name in ("DATA", "HEADERS") and flags & END:
        words.append("end")
    if frame.name in ("SETTINGS", "PING") and flags & ACK:
        words.append("ack")
    if frame.name in ("HEADERS", "CONTINUATION") and not flags & END_HEADERS:
        words.append("more")
    if frame.name == "DATA":
        if flags & PADDED and rest:
            words.append(f"pad {rest[0]}")
            rest = rest[1 : len(rest) - rest[0]]
        words += data_words(rest)
    elif frame.name in ("HEADERS", "CONTINUATION") and frame.block():
        block, pad, priority = frame.block()
        words += [f"pad {pad}"] if pad is not None else []
        words += priority_words(priority) if priority is not None else []
        if fields is not None:
            words += [field_words(field) for field in fields]
        elif block:
            words.append(f"block {block.hex()}")
    elif frame.name == "PRIORITY":
        words += priority_words(rest)
    elif frame.name == "RST_STREAM":
        words.append(name_in(ERRORS, int.from_bytes(rest, "big")))
    elif frame.name == "SETTINGS":
        for at in range(0, len(rest), 6):
            number = int.from_bytes(rest[at : at + 2], "big")
            words.append(f"{name_in(SETTINGS, number)} {int.from_bytes(rest[at + 2:at + 6], 'big')}")
    elif frame.name == "PING":
        words.append(rest.hex())
    elif frame.name == "GOAWAY":
        words += [f"last {int.from_bytes(rest[:4], 'big')}", name_in(ERRORS, int.from_bytes(rest[4:8], "big"))]
        words += [hex_or_quoted(rest[8:])] if rest[8:] else []
    elif frame.name == "WINDOW_UPDATE":
        words.append(str(int.from_bytes(rest, "big")))
    else:
        raise BadWords("another frame")
    return f"{frame.name}{{{', '.join(words)}}}"


def plain_words(frame):
    """The words of any frame: its type, flags and stream as numbers, and its payload."""
    words = [f"type {frame.kind}", f"flags {frame.flags}", f"stream {frame.stream}"]
    return f"FRAME{{{', '.join(words + ([frame.payload.hex()] if frame.payload else []))}}}"


def exact_words(frame, fields=None):
    """The words of a frame that give its very bytes back."""
    for words in (lambda: words_of(frame, fields), lambda: words_of(frame), lambda: plain_words(frame)):
        try:
            text = words()
            if parse_frame(text) == frame.data:
                return text
        except (BadWords, ValueError, IndexError, OverflowError):
            continue
    return frame.data.hex()


def number_of(word, most=2**32 - 1):
    """The number that a word says."""
    if not re.fullmatch(r"0|[1-9][0-9]*", word) or int(word) > most:
        raise BadWords(f"'{word}' is not a number up to {most}")
    return int(word)


def read_how(words):
    """How a field is written, from the words in its brackets: its form, the index of its name, and what is packed."""
    form, rest = words[0] if words else "", words[1:]
    if form == "index" and len(rest) == 1:
        return "index", number_of(rest[0]), ""
    if form not in ("add", "plain", "never") or rest[:1] not in (["new"], ["name"]):
        raise BadWords(f"[{' '.join(words)}] says no form of a field; forms: index <n>, add, plain or never, each with new or name <n>, size <n>")
    index = 0
    if rest[0] == "name":
        index = number_of(rest[1]) if len(rest) > 1 else 0
        rest = rest[1:]
    packed = rest[2] if rest[1:2] == ["packed"] and len(rest) == 3 else "" if len(rest) == 1 else None
    if packed not in ("", "n", "v", "nv"):
        raise BadWords(f"[{' '.join(words)}]: after the name stands nothing, or packed n, packed v or packed nv")
    return form, index, packed


def read_field(words):
    """The bytes of a field that is written so."""
    how = words[-1][1:-1].split() if words[-1].startswith("[") else None
    words = words if how is None else words[:-1]
    if how is not None and how[:1] == ["size"] and len(how) == 2 and not words:
        return Written("size", number_of(how[1])).write()
    if len(words) != 2:
        raise BadWords(f"a field is a name and a value, each in quotes where it has spaces: {' '.join(words)}")
    name, value = map(bytes_of, words)
    if how is None:
        return client_form(name, value).write()
    form, index, packed = read_how(how)
    return Written(form, index, name, value, "n" in packed, "v" in packed).write()


def items_of(text):
    """The name of a frame and its items, each a list of words."""
    name, *rest = tokens_of(text)
    if not name.endswith("{") or rest[-1:] != ["}"] or "}" in rest[:-1]:
        raise BadWords(f"no frame: {text}")
    items = [[]]
    for token in rest[:-1]:
        if token == ",":
            items.append([])
        else:
            items[-1].append(token)
    if items == [[]]:
        return name[:-1], []
    if [] in items:
        raise BadWords("nothing stands between two commas, or beside a bracket")
    return name[:-1], items


# The leading items of each kind of frame: those that stand alone, and those that take a number with its greatest one.
ALONE = {"DATA": ("end",), "HEADERS": ("end", "more", "exclusive"), "CONTINUATION": ("more",), "PRIORITY": ("exclusive",), "SETTINGS": ("ack",),
         "PING": ("ack",)}
NUMBERED = {"DATA": ("pad",), "HEADERS": ("pad", "dep", "weight"), "PRIORITY": ("dep", "weight"), "GOAWAY": ("last",),
            "FRAME": ("type", "flags")}
MOST = {"stream": 2**32 - 1, "pad": 255, "dep": 2**31 - 1, "weight": 256, "last": 2**32 - 1, "type": 255, "flags": 255}


def take_pairs(name, items):
    """Takes the leading items that a kind of frame has off a list."""
    taken = {}
    while items:
        word, *rest = items[0]
        is_alone = word in ALONE.get(name, ()) and not rest
        is_numbered = word in ("stream", *NUMBERED.get(name, ())) and len(rest) == 1
        if word in taken or not (is_alone or is_numbered):
            break
        taken[word] = number_of(rest[0], MOST[word]) if is_numbered else 1
        items.pop(0)
    return taken


def priority_of(taken):
    if "dep" not in taken or taken.get("weight", 0) < 1:
        raise BadWords("a priority takes dep <n> and weight <1..256>")
    return (taken["dep"] | (0x80000000 if "exclusive" in taken else 0)).to_bytes(4, "big") + bytes([taken["weight"] - 1])


def alone(name, items, least=1, most=1):
    """Items of one word each, so many of them."""
    if not least <= len(items) <= most or any(len(item) != 1 for item in items):
        raise BadWords(f"{name} takes other items; docs/guide/FORMATS.md has them")
    return [item[0] for item in items]


def code_of(word):
    return (ERRORS.index(word) if word in ERRORS else number_of(word)).to_bytes(4, "big")


def data_item(item):
    if len(item) == 2 and item[0] == "message":
        message = data_of(item[1])
        return b"\0" + len(message).to_bytes(4, "big") + message
    return data_of(alone("DATA", [item])[0])


def block_item(item):
    return from_hex(item[1]) if item[0] == "block" and len(item) == 2 else read_field(item)


def setting_item(item):
    if len(item) != 2:
        raise BadWords(f"a setting is a name and a number: {' '.join(item)}")
    key = SETTINGS.index(item[0]) if item[0] in SETTINGS[1:] else number_of(item[0], 65_535)
    return key.to_bytes(2, "big") + number_of(item[1]).to_bytes(4, "big")


def payload_of(name, taken, items):
    """The flags that the items bring along, and the payload."""
    if name == "DATA":
        return 0, b"".join(map(data_item, items))
    if name in ("HEADERS", "CONTINUATION"):
        front = priority_of(taken) if taken.keys() & {"dep", "weight", "exclusive"} else b""
        flags = (PRIORITY if front else 0) | (0 if "more" in taken else END_HEADERS)
        return flags, front + b"".join(map(block_item, items))
    if name == "PRIORITY":
        alone(name, items, 0, 0)
        return 0, priority_of(taken)
    if name == "RST_STREAM":
        return 0, code_of(alone(name, items)[0])
    if name == "SETTINGS":
        return 0, b"".join(map(setting_item, items))
    if name == "PING":
        return 0, from_hex(alone(name, items)[0])
    if name == "GOAWAY":
        code, *debug = alone(name, items, 1, 2)
        if "last" not in taken:
            raise BadWords("a GOAWAY takes last <n>, and then an error code")
        return 0, taken["last"].to_bytes(4, "big") + code_of(code) + b"".join(map(data_of, debug))
    if name == "WINDOW_UPDATE":
        return 0, number_of(alone(name, items)[0]).to_bytes(4, "big")
    raise BadWords(f"no frame has the name {name}; frames: {' '.join(KINDS)} FRAME")


def parse_frame(text):
    """The bytes of a frame that is written in words."""
    name, items = items_of(text)
    taken = take_pairs(name, items)
    if name == "FRAME":
        if not {"type", "flags", "stream"} <= taken.keys():
            raise BadWords("a FRAME takes type <n>, flags <n> and stream <n>, and then its payload in hex")
        payload = b"".join(map(from_hex, alone(name, items, 0, 1)))
        return frame_of(taken["type"], taken["flags"], taken["stream"], payload)
    flags, payload = payload_of(name, taken, items)
    flags |= (END if "end" in taken else 0) | (ACK if "ack" in taken else 0)
    if "pad" in taken:
        flags, payload = flags | PADDED, bytes([taken["pad"]]) + payload + bytes(taken["pad"])
    if len(payload) >= 2**24:
        raise BadWords("a payload of more than 16777215 bytes")
    if "stream" not in taken and name not in ON_STREAM_0 and name != "WINDOW_UPDATE":
        raise BadWords(f"a {name} takes stream <n>")
    return frame_of(KINDS.index(name), flags, taken.get("stream", 0), payload)


class Reader:
    """One direction of a link: frames that are cut into pieces anywhere, and the table of its header blocks."""

    def __init__(self, begins_with_preface):
        self.rest = b""
        self.preface = PREFACE if begins_with_preface else b""
        self.table = Table()
        self.block = None
        self.is_lost = False

    def fields_of(self, frame):
        """The fields of the block that the frame ends, or None; a block over several frames has them at its last one alone."""
        part = frame.block()
        if part is None:
            return None
        is_alone = frame.name == "HEADERS" and frame.flags & END_HEADERS
        self.block = part[0] if frame.name == "HEADERS" else (self.block or b"") + part[0]
        if not frame.flags & END_HEADERS:
            return None
        fields, self.block = self.table.take(read_block(self.block)), None
        return fields if is_alone else ("whole", fields)

    def take(self, piece):
        """The parts of a piece: (bytes, frame or None, fields or None); a frame stands with the bytes that end it."""
        parts, at = [], 0
        while at < len(piece):
            if self.preface:
                count = min(len(self.preface), len(piece) - at)
                parts.append((piece[at : at + count], None, "preface" if count == len(PREFACE) else None))
                self.preface, at = self.preface[count:], at + count
                continue
            data = self.rest + piece[at:]
            length = 9 + int.from_bytes(data[:3], "big") if len(data) >= 9 else None
            if self.is_lost or length is None or length > len(data):
                parts.append((piece[at:], None, None))
                self.rest = b"" if self.is_lost else data
                break
            count = length - len(self.rest)
            frame, fields = Frame(data[:length]), None
            try:
                fields = self.fields_of(frame)
            except BadBlock:
                self.is_lost = True
            parts.append((piece[at : at + count], frame, fields))
            self.rest, at = b"", at + count
        return parts

    def words(self, piece):
        """A piece in words that give its very bytes back: whole frames by name, and any other bytes in hex."""
        words = []
        for data, frame, fields in self.take(piece):
            if fields == "preface":
                words.append("PREFACE")
            elif frame is not None and len(frame.data) == len(data):
                words.append(exact_words(frame, fields if isinstance(fields, list) else None))
            else:
                words.append(data.hex())
        return " ".join(words)
