"""Header blocks (RFC 7541) of one direction of a link, decoded once each, and what gRPC reads in their fields."""

import re

from script_words.hpack import STATIC, BadBlock, huffman_decode, read_integer

from .names import printable

MOST_TABLE, MOST_LIST = 4096, 16384
HTTP_CODES = {400: 13, 401: 16, 403: 7, 404: 12, 429: 14, 502: 14, 503: 14, 504: 14}


class BlockFault(Exception):
    """The HTTP/2 error code with which a block breaks its link."""


class Block:
    """The fields of a whole block, and what they say."""

    def __init__(self, fields):
        self.fields = fields
        self.status = self.http_status()
        self.code = self.grpc_code()
        self.pushback = self.read_pushback()
        self.is_grpc = self.has_grpc_type()

    def values(self, name):
        return [value for key, value in self.fields if key == name]

    def http_status(self):
        """The one `:status` of three digits, or None."""
        found = self.values(b":status")
        return int(found[0]) if len(found) == 1 and re.fullmatch(rb"[0-9]{3}", found[0]) else None

    def grpc_code(self):
        """The code of `grpc-status`, or None where there is none; UNKNOWN where it is not a number from 0 to 16."""
        found = self.values(b"grpc-status")
        if not found:
            return None
        digits = found[0].lstrip(b"0") or b"0"
        is_code = len(found) == 1 and re.fullmatch(rb"[0-9]+", found[0]) and len(digits) <= 2 and int(digits) <= 16
        return int(digits) if is_code else 2

    def http_code(self):
        return HTTP_CODES.get(self.status, 2)

    def read_pushback(self):
        """`grpc-retry-pushback-ms`: None, milliseconds, or "stop" for all else."""
        found = self.values(b"grpc-retry-pushback-ms")
        if not found:
            return None
        is_delay = len(found) == 1 and re.fullmatch(rb"[0-9]{1,10}", found[0]) and int(found[0]) < 1 << 31
        return int(found[0]) if is_delay else "stop"

    def has_grpc_type(self):
        found = self.values(b"content-type")
        return bool(found) and bool(re.match(rb"application/grpc(?:[+;]|\Z)", found[0]))

    def message(self):
        """The text of `grpc-message`."""
        found = self.values(b"grpc-message")
        if not found:
            return ""
        data = re.sub(rb"%([0-9A-Fa-f]{2})", lambda part: bytes([int(part.group(1), 16)]), found[0])
        return printable(data.decode("utf-8", "replace").encode())


class Blocks:
    """The dynamic table of one direction. A block that leaves the table as it is stays decoded for the next time."""

    shared = {}

    def __init__(self):
        self.table, self.size, self.most = [], 0, MOST_TABLE
        self.known = {}

    def decode(self, data):
        found = self.known.get(data) or Blocks.shared.get(data)
        if found is not None:
            return found
        uses_table, changes_table = False, False
        fields, at, total = [], 0, 0
        while at < len(data):
            first = data[at]
            try:
                if first >> 5 == 1:
                    at = self.resize(data, at, bool(fields))
                    changes_table = True
                    continue
                pair, at, how = self.field(data, at)
            except BadBlock:
                raise BlockFault(9) from None
            uses_table = uses_table or how == "table"
            if first >> 6 == 1:
                self.add(pair)
                changes_table = True
            fields.append(pair)
            total += len(pair[0]) + len(pair[1]) + 32
        if total > MOST_LIST:
            raise BlockFault(11)
        return self.keep(data, Block(fields), uses_table, changes_table)

    def keep(self, data, block, uses_table, changes_table):
        if changes_table:
            self.known = {}
        elif uses_table:
            self.known[data] = block
        elif len(Blocks.shared) < 4096:
            Blocks.shared[data] = block
        return block

    def resize(self, data, at, is_late):
        """A size update stands before the first field alone."""
        size, at = read_integer(data, at, 5) if not is_late else (MOST_TABLE + 1, at)
        if size > MOST_TABLE:
            raise BadBlock("a table that is too large, or a late update")
        self.most = size
        self.trim()
        return at

    def field(self, data, at):
        first = data[at]
        if first & 0x80:
            index, at = read_integer(data, at, 7)
            pair, how = self.at(index)
            return pair, at, how
        index, at = read_integer(data, at, 6 if first & 0x40 else 4)
        name, how = self.at(index) if index else (None, "plain")
        if index:
            name = name[0]
        else:
            name, at = self.string(data, at)
        value, at = self.string(data, at)
        return (name, value), at, how

    @staticmethod
    def string(data, at):
        if at >= len(data):
            raise BadBlock("cut off")
        is_packed = data[at] & 0x80
        length, at = read_integer(data, at, 7)
        if at + length > len(data):
            raise BadBlock("cut off")
        text = data[at : at + length]
        return (huffman_decode(text) if is_packed else text), at + length

    def at(self, index):
        if 0 < index < len(STATIC):
            return STATIC[index], "static"
        if 0 <= index - len(STATIC) < len(self.table):
            return self.table[index - len(STATIC)], "table"
        raise BadBlock("no such index")

    def add(self, pair):
        self.table.insert(0, pair)
        self.size += len(pair[0]) + len(pair[1]) + 32
        self.trim()

    def trim(self):
        while self.size > self.most:
            name, value = self.table.pop()
            self.size -= len(name) + len(value) + 32
