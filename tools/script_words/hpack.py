"""Header blocks (RFC 7541): how each field is written, a table of the fields so far, and the way back to bytes."""

from dataclasses import dataclass

STATIC = [("", "")] + [
    (line.split(" ", 1) + [""])[:2] if " " in line else (line, "")
    for line in """:authority
:method GET
:method POST
:path /
:path /index.html
:scheme http
:scheme https
:status 200
:status 204
:status 206
:status 304
:status 400
:status 404
:status 500
accept-charset
accept-encoding gzip, deflate
accept-language
accept-ranges
accept
access-control-allow-origin
age
allow
authorization
cache-control
content-disposition
content-encoding
content-language
content-length
content-location
content-range
content-type
cookie
date
etag
expect
expires
from
host
if-match
if-modified-since
if-none-match
if-range
if-unmodified-since
last-modified
link
location
max-forwards
proxy-authenticate
proxy-authorization
range
referer
refresh
retry-after
server
set-cookie
strict-transport-security
transfer-encoding
user-agent
vary
via
www-authenticate""".split("\n")
]
STATIC = [(name.encode(), value.encode()) for name, value in STATIC]

# The code lengths of the symbols 0 to 255 and of EOS. The code is canonical: it goes up by length and, within a length, by symbol.
LENGTHS = [
    int(length)
    for length in """
13 23 28 28 28 28 28 28 28 24 30 28 28 30 28 28
28 28 28 28 28 28 30 28 28 28 28 28 28 28 28 28
6 10 10 12 13 6 8 11 10 10 8 11 8 6 6 6
5 5 5 6 6 6 6 6 6 6 7 8 15 6 12 10
13 6 7 7 7 7 7 7 7 7 7 7 7 7 7 7
7 7 7 7 7 7 7 7 8 7 8 13 19 13 14 6
15 5 6 5 6 5 6 6 6 5 7 7 6 6 6 5
6 7 6 5 5 6 7 7 7 7 7 15 11 14 13 28
20 22 20 20 22 22 22 23 22 23 23 23 23 23 24 23
24 24 22 23 24 23 23 23 23 21 22 23 22 23 23 24
22 21 20 22 22 23 23 21 23 22 22 24 21 22 23 23
21 21 22 21 23 22 23 23 20 22 22 22 23 22 22 23
26 26 20 19 22 23 22 25 26 26 26 27 27 26 24 25
19 21 26 27 27 26 27 24 21 21 26 26 28 27 27 27
20 24 20 21 22 21 21 23 22 22 25 25 24 24 26 23
26 27 26 26 27 27 27 27 27 28 27 27 27 27 27 26
30""".split()
]


def canonical_codes():
    codes, code, last = {}, 0, 0
    for length, symbol in sorted((length, symbol) for symbol, length in enumerate(LENGTHS)):
        code = (code + 1 if codes else 0) << (length - last)
        codes[symbol] = (code, length)
        last = length
    return codes


CODES = canonical_codes()
SYMBOLS = {pair: symbol for symbol, pair in CODES.items()}


class BadBlock(Exception):
    """The bytes are no header block."""


def huffman_encode(text):
    bits, count = 0, 0
    for byte in text:
        code, length = CODES[byte]
        bits, count = bits << length | code, count + length
    pad = -count % 8
    return (bits << pad | (1 << pad) - 1).to_bytes((count + pad) // 8, "big")


def huffman_decode(data):
    text, code, length = bytearray(), 0, 0
    for byte in data:
        for shift in range(7, -1, -1):
            code, length = code << 1 | byte >> shift & 1, length + 1
            symbol = SYMBOLS.get((code, length))
            if symbol is not None:
                if symbol == 256:
                    raise BadBlock("the end of a string stands in it")
                text.append(symbol)
                code, length = 0, 0
            elif length > 30:
                raise BadBlock("no such code")
    if length > 7 or code != (1 << length) - 1:
        raise BadBlock("a string's padding")
    return bytes(text)


def write_integer(value, bits, front):
    """A number whose prefix has so many bits, after the bits of `front`."""
    most = (1 << bits) - 1
    if value < most:
        return bytes([front | value])
    out, value = bytearray([front | most]), value - most
    while value >= 128:
        out.append(value & 127 | 128)
        value >>= 7
    return bytes(out + bytes([value]))


def read_integer(block, at, bits):
    if at >= len(block):
        raise BadBlock("cut off")
    most = (1 << bits) - 1
    value, at = block[at] & most, at + 1
    if value < most:
        return value, at
    for place in range(5):
        if at >= len(block):
            raise BadBlock("cut off")
        byte, at = block[at], at + 1
        value += (byte & 127) << 7 * place
        if byte < 128:
            if value > 0xFFFFFFFF:
                break
            return value, at
    raise BadBlock("a number that is too large")


def write_string(text, is_packed):
    data = huffman_encode(text) if is_packed else text
    return write_integer(len(data), 7, 0x80 if is_packed else 0) + data


def read_string(block, at):
    if at >= len(block):
        raise BadBlock("cut off")
    is_packed = bool(block[at] & 0x80)
    length, at = read_integer(block, at, 7)
    if at + length > len(block):
        raise BadBlock("cut off")
    data = block[at : at + length]
    return (huffman_decode(data) if is_packed else data), is_packed, at + length


# How many bits the prefix of a form has, and the bits before it.
FORMS = {"index": (7, 0x80), "add": (6, 0x40), "size": (5, 0x20), "never": (4, 0x10), "plain": (4, 0x00)}


@dataclass
class Written:
    """How one field stands in a block: its form, the index of the field or of its name, and which strings are packed."""

    form: str
    index: int = 0
    name: bytes = b""
    value: bytes = b""
    is_name_packed: bool = False
    is_value_packed: bool = False

    def write(self):
        bits, front = FORMS[self.form]
        out = write_integer(self.index, bits, front)
        if self.form in ("index", "size"):
            return out
        if self.index == 0:
            out += write_string(self.name, self.is_name_packed)
        return out + write_string(self.value, self.is_value_packed)


def form_of(byte):
    for form, (bits, front) in FORMS.items():
        if byte >> bits == front >> bits:
            return form
    return "plain"


def read_block(block):
    """The fields of a block as they are written."""
    fields, at = [], 0
    while at < len(block):
        form = form_of(block[at])
        index, at = read_integer(block, at, FORMS[form][0])
        field = Written(form, index)
        if form not in ("index", "size"):
            if index == 0:
                field.name, field.is_name_packed, at = read_string(block, at)
            field.value, field.is_value_packed, at = read_string(block, at)
        fields.append(field)
    return fields


def client_form(name, value):
    """How the client writes a field: an index where the pair is in the static table, else a literal without indexing."""
    if (name, value) in STATIC[1:]:
        return Written("index", STATIC.index((name, value), 1), name, value)
    names = [known for known, _ in STATIC]
    index = names.index(name, 1) if name in names[1:] else 0
    return Written("plain", index, name, value)


class Table:
    """The fields that a side has added, the newest first."""

    def __init__(self):
        self.added = []
        self.most = 4096

    def at(self, index):
        if 0 < index < len(STATIC):
            return STATIC[index]
        if 0 <= index - len(STATIC) < len(self.added):
            return self.added[index - len(STATIC)]
        raise BadBlock("no such index")

    def trim(self):
        while sum(len(name) + len(value) + 32 for name, value in self.added) > self.most:
            self.added.pop()

    def take(self, fields):
        """Fills in the names and values of fields that were read, and keeps those that are added."""
        for field in fields:
            if field.form == "index":
                field.name, field.value = self.at(field.index)
            elif field.form == "size":
                if field.index > 4096:
                    raise BadBlock("a table that is too large")
                self.most = field.index
                self.trim()
            elif field.index:
                field.name = self.at(field.index)[0]
            if field.form == "add":
                self.added.insert(0, (field.name, field.value))
                self.trim()
        return fields
