"""The lines of scripts and reports: which there are, and how each of their fields is written in words, and back."""

import os
import re

from .frames import ERRORS, PREFACE, parse_frame
from .words import BadWords, data_of, from_hex, hex_or_quoted, is_readable, json_end, moved, pieces_of, quote, quoted_end, unquote

SECOND = 10**9
UNITS = {"s": SECOND, "ms": 10**6, "us": 10**3, "ns": 1}
MOMENT, WORD, NUMBER, TIMEOUT = 4 * 10**18, 2**64 - 1, 2**32 - 1, 10**18
MESSAGE, CONFIG, META, PATH, ADDRESSES, MESSAGES = 4_194_304, 65_536, 14_336, 1_024, 64, 64
STATUSES = ["OK", "CANCELLED", "UNKNOWN", "INVALID_ARGUMENT", "DEADLINE_EXCEEDED", "NOT_FOUND", "ALREADY_EXISTS", "PERMISSION_DENIED",
            "RESOURCE_EXHAUSTED", "FAILED_PRECONDITION", "ABORTED", "OUT_OF_RANGE", "UNIMPLEMENTED", "INTERNAL", "UNAVAILABLE", "DATA_LOSS",
            "UNAUTHENTICATED"]
FORBIDDEN = {"te", "content-type", "host", "connection", "keep-alive", "proxy-connection", "transfer-encoding", "upgrade"}
TEXT = r'"(?:[^"\\\n]|\\.)*"'

# The fields of each line after its name. A kind that ends in .. takes all further words, one in * each of them.
EVENTS = {
    "begin": ("path", "wait", "timeout", "metadata"), "send": ("call", "message"), "finish": ("call",), "take": ("call",),
    "cancel": ("call",), "resolved": ("addresses", "config.."), "unresolved": (), "dial": (), "up": ("sub",), "nodial": ("sub",),
    "arrived": ("link", "bytes.."), "lost": ("link",), "drain": ("link", "room"), "ping": ("link", "digits"), "tick": (), "shutdown": (),
}
LIVE = {"config": ("config..",), "call": ("worker", "path", "wait", "timeout", "metadata", "message*")}
SERVER = {"answer": ("path", "turn", "parts")}
REPLIES = {
    "call": ("call",), "done": (), "full": ("number",), "head": ("given",), "message": ("message",), "end": ("code", "text", "given", "text"),
    "notyet": (), "dial": ("sub", "addresses", "moment"), "link": ("link",), "octets": ("octets..",), "badconfig": ("number", "text"),
    "refused": ("number",),
}


def number(word, most=NUMBER, noun="a number"):
    if not re.fullmatch(r"0|[1-9][0-9]*", word) or int(word) > most:
        raise BadWords(f"'{word}' is not {noun}: it takes a number up to {most}, without leading zeros")
    return word


def nanoseconds(word, most, noun):
    """A number of nanoseconds, or a duration as 5s, 1.5s, 200ms."""
    match = re.fullmatch(r"([0-9]+)(?:\.([0-9]{1,9}))?(s|ms|us|ns)", word)
    if not match:
        return number(word, most, noun + " in nanoseconds or as 1.5s or 200ms")
    whole, part, unit = match.groups()
    part = part or ""
    scaled = int(whole + part) * UNITS[unit]
    if scaled % 10 ** len(part):
        raise BadWords(f"'{word}' is not a whole number of nanoseconds")
    return number(str(scaled // 10 ** len(part)), most, noun)


def path(word):
    if not re.fullmatch(r"/[!-.0-~]+/[!-.0-~]+", word):
        raise BadWords(f"'{word}' is not a path; it takes /service/method, as /a.B/C")
    if len(word) > PATH:
        raise BadWords(f"a path of {len(word)} bytes; it has {PATH} at most")
    return word


def wait(word):
    if word not in ("-", "yes", "no"):
        raise BadWords(f"'{word}' is not a wait; it takes yes, no or -")
    return word


def timeout(word):
    return word if word == "-" else nanoseconds(word, TIMEOUT, "a timeout")


def timeout_words(field):
    if field == "-" or int(field) == 0:
        return field
    for unit in ("s", "ms"):
        thousandths, rest = divmod(int(field) * 1000, UNITS[unit])
        if not rest and (thousandths % 1000 == 0 or unit == "s" and thousandths > 1000):
            return f"{thousandths / 1000:.3f}".rstrip("0").rstrip(".") + unit if thousandths < 10**12 else field
    return field


def bytes_or_file(word):
    """The bytes of a text in quotes, of hex, or of the file whose name stands after @."""
    if not word.startswith("@"):
        return data_of(word)
    try:
        with open(word[1:], "rb") as file:
            return file.read()
    except OSError as fault:
        raise BadWords(f"{word[1:]}: {os.strerror(fault.errno).lower()}") from None


def message(word):
    data = b"" if word == "-" else bytes_or_file(word)
    if len(data) > MESSAGE:
        raise BadWords(f"a message of {len(data)} bytes; it has {MESSAGE} at most")
    return data.hex() or "-"


def message_words(field):
    return "-" if field == "-" else hex_or_quoted(bytes.fromhex(field))


def pairs_of(word):
    """The names and values of metadata, with their places."""
    at, pairs = 0, []
    while True:
        match = re.compile(rf"([^:,\s\"]*):({TEXT}|[^,\"]*)").match(word, at)
        if not match:
            quote_at = word.find('"', at)
            if quote_at >= 0:
                quoted_end(word, quote_at)
            raise BadWords(f"'{word[at:]}' is not metadata; it takes - or name:value with commas, as a:\"1\",b-bin:00", at)
        value = match.group(2)
        if match.end() < len(word) and word[match.end()] != ",":
            if word[match.end()] == '"':
                quoted_end(word, match.end())
            raise BadWords("a comma has to stand between two items of metadata", match.end())
        try:
            pairs.append((match.group(1), data_of(value) if value else b"", at))
        except BadWords as fault:
            raise moved(fault, match.start(2)) from None
        if match.end() == len(word):
            return pairs
        at = match.end() + 1


def metadata(word):
    """The metadata of a request."""
    if word == "-":
        return word
    size = 0
    for name, value, at in pairs_of(word):
        is_name = re.fullmatch(r"[a-z0-9._-]{1,256}", name) and not name.startswith("grpc-") and name not in FORBIDDEN
        if not is_name:
            raise BadWords(f"'{name}' is not a name that a request sends", at)
        is_binary = name.endswith("-bin")
        if not is_binary and (not re.fullmatch(rb"[ -~]*", value) or value.startswith(b" ") or value.endswith(b" ")):
            raise BadWords(f"the value of '{name}' has a byte outside 20 to 7e, or a space at an end; only a name that ends in -bin has other values", at)
        size += len(name) + 32 + (-(-len(value) * 4 // 3) if is_binary else len(value))
    if size > META:
        raise BadWords(f"metadata of more than {META} bytes, each pair counted as its name, its value as it is sent and 32")
    return given(word)


def given(word):
    """Metadata that came."""
    return word if word == "-" else ",".join(f"{name}:{value.hex()}" for name, value, _ in pairs_of(word))


def given_words(field):
    if field == "-":
        return field
    pairs = (item.split(":", 1) for item in field.split(","))
    return ",".join(f"{name}:{hex_or_quoted(bytes.fromhex(value)) if value else ''}" for name, value in pairs)


def addresses(word):
    items = [] if word == "-" else word.split(",")
    for item in items:
        match = re.fullmatch(r"([0-9.]+):([1-9][0-9]{0,4})", item)
        if not match or not is_address(match.group(1)) or int(match.group(2)) > 65_535:
            raise BadWords(f"'{item}' is not an address; it takes a.b.c.d:port, as 10.0.0.1:50051")
    if len(items) > ADDRESSES:
        raise BadWords(f"more than {ADDRESSES} addresses")
    return word


def is_address(text):
    numbers = text.split(".")
    return len(numbers) == 4 and all(re.fullmatch(r"0|[1-9][0-9]{0,2}", part) and int(part) < 256 for part in numbers)


def target(word):
    """A target of a channel line."""
    if word.startswith("ipv4:"):
        items = word[5:].split(",")
        is_target = all(re.fullmatch(r"[0-9.]+(:[1-9][0-9]{0,4})?", item) and is_address(item.split(":")[0])
                        and int(item.split(":")[1] if ":" in item else 443) <= 65_535 for item in items)
        if is_target and len(items) > ADDRESSES:
            raise BadWords(f"more than {ADDRESSES} addresses")
    else:
        match = re.fullmatch(r"dns:(?:///)?([A-Za-z0-9.-]{1,253})(?::([1-9][0-9]{0,4}))?", word)
        is_target = match and int(match.group(2) or 443) <= 65_535 and all(
            re.fullmatch(r"[A-Za-z0-9]([A-Za-z0-9-]{0,61}[A-Za-z0-9])?", label) for label in match.group(1).split("."))
    if not is_target:
        raise BadWords(f"'{word}' is not a target; it takes ipv4:127.0.0.1:50051, with commas between addresses, or dns:example.com:50051")
    return word


def config(words):
    """A config: JSON, a text in quotes, hex or a file, or several of these one after another; - where there is none."""
    if words == "-":
        return words
    out = b""
    for word, at in pieces_of(words):
        try:
            out += word.encode("utf-8") if word.startswith("{") else bytes_or_file(word)
        except BadWords as fault:
            raise moved(fault, at) from None
    if len(out) > CONFIG:
        raise BadWords(f"a config of {len(out)} bytes; it has {CONFIG} at most")
    return out.hex()


def config_words(field):
    """A config as JSON with its own lines, where its bytes are that; the spaces after it in quotes."""
    if field == "-":
        return field
    data = bytes.fromhex(field)
    try:
        text = data.decode("utf-8")
        if text.startswith("{") and all(char in "\n\t" or char.isprintable() for char in text):
            end = json_end(text, 0)
            if not text[end:].strip("\n\t "):
                return text[:end] + (f" {quote(text[end:].encode())}" if text[end:] else "")
    except (UnicodeDecodeError, BadWords):
        pass
    return hex_or_quoted(data)


def octets(words):
    """The bytes of frames, texts and hex that stand one after another, in hex."""
    if words == "-":
        return words
    out = b""
    for word, at in pieces_of(words):
        try:
            if word == "PREFACE":
                out += PREFACE
            elif re.match(r"[A-Z_0-9]+\{", word):
                out += parse_frame(word)
            else:
                out += data_of(word)
        except BadWords as fault:
            raise moved(fault, at) from None
    return out.hex() or "-"


def one_byte(words):
    if words == "-":
        raise BadWords("no bytes: an 'arrived' has one byte at least")
    return octets(words)


def digits(word):
    if not re.fullmatch(r"[0-9a-f]{16}", word):
        raise BadWords(f"'{word}' is not the word of a ping; it takes 16 digits of lower-case hex")
    return word


def worker(word):
    if not re.fullmatch(r"[1-9]|1[0-6]", word):
        raise BadWords(f"'{word}' is not a worker: it takes a number from 1 to 16, without leading zeros")
    return word


def text(word):
    if not re.fullmatch(r"[!-~]+", word):
        raise BadWords(f"'{word}' is no text of a report")
    return word


def code_of(word, names, part):
    """The number of a status or of a reset code, by its number or its name."""
    if word in names:
        return str(names.index(word))
    return number(word, NUMBER, f"the number or the name of {part}")


def parts(words):
    """The parts of an answer."""
    out, at, ended = [], 0, None
    while True:
        match = re.compile(rf"([mp])({TEXT})").match(words, at)
        end = match.end() if match else words.find(",", at) if "," in words[at:] else len(words)
        part = words[at:end]
        if end < len(words) and words[end] != ",":
            raise BadWords("a comma has to stand between two parts", end)
        if ended and part != "g":
            raise BadWords(f"'{part}' stands after '{ended}'; after an s or an r only g stands", at)
        try:
            out.append(part_of(part))
        except BadWords as fault:
            raise moved(fault, at + (1 if part[:1] in "mpsrw" and part[1:] else 0)) from None
        ended = part if part[:1] in ("s", "r") else ended
        if end == len(words):
            return ",".join(out)
        at = end + 1


def part_of(part):
    kind, rest = part[:1], part[1:]
    if part in ("h", "g", "m"):
        return part
    if kind == "m":
        data = bytes_or_file(rest)
        if len(data) > MESSAGE:
            raise BadWords(f"a message of {len(data)} bytes; it has {MESSAGE} at most")
        return "m" + data.hex()
    if kind == "s":
        return "s" + code_of(rest, STATUSES, "a status")
    if kind == "r":
        return "r" + code_of(rest, ERRORS, "a reset code")
    if kind == "w":
        return "w" + number(rest, NUMBER, "a number of requests")
    if kind == "p":
        if rest.startswith('"'):
            rest = data_of(rest).decode("latin-1")
        if not re.fullmatch(r"[!-+\--~]{1,1024}", rest):
            raise BadWords("a p takes a text of 1 to 1024 characters from ! to ~ without a comma")
        return "p" + rest
    raise BadWords(f"no part '{part}'; parts: h m<bytes> s<code> p<text> r<code> g w<k>")


def parts_words(field):
    return ",".join(part_words(part) for part in field.split(","))


def part_words(part):
    kind, rest = part[:1], part[1:]
    if kind == "m" and rest:
        return "m" + hex_or_quoted(bytes.fromhex(rest))
    names = {"s": STATUSES, "r": ERRORS}.get(kind)
    if names and rest.isdigit() and int(rest) < len(names):
        return kind + names[int(rest)]
    if kind == "p" and rest.startswith('"'):
        return "p" + quote(rest.encode())
    return part


def same(field):
    return field


# Each kind of field: how words become it, and how it becomes words.
KINDS = {
    "path": (path, same), "wait": (wait, same), "timeout": (timeout, timeout_words), "metadata": (metadata, given_words),
    "given": (given, given_words), "message": (message, message_words), "message*": (message, message_words), "addresses": (addresses, same),
    "config..": (config, config_words), "bytes..": (one_byte, None), "octets..": (octets, None), "digits": (digits, same),
    "worker": (worker, same), "parts": (parts, parts_words), "text": (text, same), "turn": (number, same),
    "moment": (lambda word: nanoseconds(word, MOMENT, "a moment"), same),
    "word": (lambda word: number(word, WORD, "a random word"), same),
    "code": (lambda word: code_of(word, STATUSES, "a status"), same),
}
for noun, name in (("call", "a call"), ("sub", "a subchannel"), ("link", "a link"), ("room", "a room"), ("number", "a number")):
    KINDS[noun] = (lambda word, name=name: number(word, NUMBER, name), same)
