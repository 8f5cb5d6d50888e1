"""Small texts: bytes in quotes, words parted at spaces outside quotes and brackets, and what is wrong with them."""

import json
import re

BARE = re.compile(r"[A-Za-z0-9:/._*+%@!^~|$&'`?;<>=()-]+\Z")
ESCAPES = {'"': '\\"', "\\": "\\\\", "\n": "\\n", "\r": "\\r", "\t": "\\t"}
ESCAPED = {'"': b'"', "\\": b"\\", "n": b"\n", "r": b"\r", "t": b"\t"}


class BadWords(Exception):
    """A text that says nothing: what is wrong, and at which place of it."""

    def __init__(self, what, at=0):
        super().__init__(what)
        self.what, self.at = what, at


def moved(fault, by):
    """A fault of a text that begins at a place of another one."""
    return BadWords(fault.what, fault.at + by)


def quote(data):
    """Bytes in double quotes: printable characters of UTF-8 as they are, any other byte as \\x and two digits."""
    out, at = [], 0
    while at < len(data):
        for length in (1, 2, 3, 4):
            try:
                char = data[at : at + length].decode("utf-8")
            except UnicodeDecodeError:
                continue
            if len(char) == 1 and (char in ESCAPES or char.isprintable()):
                out.append(ESCAPES.get(char, char))
                break
        else:
            length = 1
            out.append(f"\\x{data[at]:02x}")
        at += length
    return f'"{"".join(out)}"'


def quoted_end(text, at):
    """The place after the quote that closes the text in quotes which begins here."""
    place = at + 1
    while place < len(text) and text[place] != "\n":
        if text[place] == '"':
            return place + 1
        place += 2 if text[place] == "\\" and text[place + 1 : place + 2] not in ("", "\n") else 1
    raise BadWords("the quote that opens here is not closed", at)


def unquote(text):
    """The bytes of a text in quotes, which is all of `text`."""
    out, at = bytearray(), 1
    while at < len(text) - 1:
        if text[at] != "\\":
            out += text[at].encode("utf-8")
            at += 1
        elif text[at + 1] in ESCAPED:
            out += ESCAPED[text[at + 1]]
            at += 2
        elif re.match(r"x[0-9a-fA-F]{2}", text[at + 1 : -1]):
            out.append(int(text[at + 2 : at + 4], 16))
            at += 4
        else:
            raise BadWords('no such escape; escapes are \\" \\\\ \\n \\r \\t and \\x with two digits of hex', at)
    return bytes(out)


def is_readable(data):
    """Whether bytes are shown as a text rather than in hex: UTF-8 whose characters are mostly printable, or mostly ASCII."""
    try:
        text = data.decode("utf-8")
    except UnicodeDecodeError:
        text = data.decode("latin-1")
        return sum(char.isascii() and char.isprintable() for char in text) * 4 >= len(text) * 3
    return bool(text) and sum(char.isprintable() for char in text) * 4 >= len(text) * 3


def word_of(data):
    """A name or a value: bare where it may stand so, else in quotes."""
    text = data.decode("latin-1")
    return text if BARE.match(text) else quote(data)


def bytes_of(word):
    return unquote(word) if word.startswith('"') else word.encode("utf-8")


def hex_or_quoted(data):
    return quote(data) if is_readable(data) else data.hex()


def from_hex(text):
    if not re.fullmatch(r"([0-9a-f]{2})+", text):
        if re.fullmatch(r"[0-9a-f]+", text):
            raise BadWords(f"{len(text)} digits of hex; each byte has two")
        if re.fullmatch(r"[0-9a-fA-F]+", text):
            raise BadWords("hex in capitals; it takes lower-case digits")
        raise BadWords(f"'{text}' is neither hex nor a text in quotes")
    return bytes.fromhex(text)


def data_of(word):
    """The bytes of a text in quotes or of hex."""
    if not word.startswith('"'):
        return from_hex(word)
    end = quoted_end(word, 0)
    if end < len(word):
        raise BadWords("something stands after the closing quote", end)
    return unquote(word)


def refuse_constant(name):
    raise ValueError(f"no JSON value is written {name}")


JSON = json.JSONDecoder(parse_constant=refuse_constant)


def json_end(text, at):
    """The place after the JSON object that begins here."""
    try:
        return JSON.raw_decode(text, at)[1]
    except json.JSONDecodeError as fault:
        raise BadWords(f"broken JSON: {fault.msg[0].lower()}{fault.msg[1:]}", fault.pos) from None
    except (ValueError, RecursionError) as fault:
        raise BadWords(f"broken JSON: {fault}", at) from None


def braces_end(text, at):
    """The place after the bracket that closes the frame whose bracket opens here."""
    place = at + 1
    while place < len(text) and text[place] != "\n":
        if text[place] == "}":
            return place + 1
        place = quoted_end(text, place) if text[place] == '"' else place + 1
    raise BadWords("the bracket that opens here is not closed", at)


def step_over(text, at):
    """The place after the character here, or after the quotes, the JSON or the frame that it opens."""
    if text[at] == '"':
        return quoted_end(text, at)
    if text[at] == "{":
        return json_end(text, at) if at == 0 or text[at - 1] == " " else braces_end(text, at)
    return at + 1


def pieces_of(text, base=0):
    """The words of a text, parted at single spaces outside quotes and brackets: pairs of a word and its place."""
    pieces, start, at = [], 0, 0
    while at <= len(text):
        if at < len(text) and text[at] != " ":
            try:
                at = step_over(text, at)
            except BadWords as fault:
                raise moved(fault, base) from None
            continue
        if start == at:
            raise BadWords("an empty word; one space stands between two words, and none at a line's end", base + at)
        pieces.append((text[start:at], base + start))
        start = at = at + 1
    return pieces


TOKEN = re.compile(r'"(?:[^"\\]|\\.)*"|\[[^\]]*\]|[A-Z_0-9]+\{|[,}]|[^\s,{}"\[\]]+')


def tokens_of(text):
    """The words of a frame: quoted ones, those in brackets, openings of frames, commas, closings and bare words."""
    tokens, at = [], 0
    while at < len(text):
        if text[at] == " ":
            at += 1
            continue
        match = TOKEN.match(text, at)
        if not match:
            raise BadWords(f"not understood: {text[at:at + 40]}", at)
        token, at = match.group(), match.end()
        if token.startswith('"') and text[at : at + 1] not in (" ", ",", "}", ""):
            raise BadWords("something stands after the closing quote", at)
        tokens.append(token)
    return tokens
