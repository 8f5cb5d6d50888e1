"""The words of the language's own library and of the kit's crates, by hand: their text is no part of this repository.

Beside them stand a few definitions by hand whose text goes over a list by recursion (`BY_HAND`), since this language has no room for deep
recursion, and those that here compute late what may not be needed (`LATE`). The runner holds both against their own text.
"""

import base64
import re


class Record:
    """A record: its fields by name."""

    def __init__(self, **fields):
        self.__dict__.update(fields)


class Value:
    """A value of an enum: its constructor, and what that holds."""

    __slots__ = ("tag", "held")

    def __init__(self, tag, held):
        self.tag, self.held = tag, held


class Constants(dict):
    """The constructors that hold nothing, one value each."""

    def __missing__(self, tag):
        self[tag] = Value(tag, ())
        return self[tag]


CONSTANTS = Constants()
NONE = CONSTANTS["None"]
TABLES = []
MOST_KEPT = 400000


def some(value):
    return Value("Some", (value,))


def option(value):
    """An option of a value that may be None."""
    return NONE if value is None else some(value)


def content(value):
    """What an option holds, or None."""
    return value.held[0] if value.tag == "Some" else None


def new_table():
    """A table in which a function keeps what it gave."""
    TABLES.append({})
    return TABLES[-1]


def forget(most=MOST_KEPT):
    """Empties all tables where they hold more than so many values."""
    if sum(map(len, TABLES)) > most:
        for table in TABLES:
            table.clear()


def constant(function):
    """A function of nothing that is computed once."""
    kept = []

    def value():
        if not kept:
            kept.append(function())
        return kept[0]

    return value


def plain(value):
    """A value as nested tuples, so that two can be compared; a list of bytes is the same as bytes."""
    if isinstance(value, Value):
        return (value.tag, *map(plain, value.held))
    if isinstance(value, Record):
        return tuple((name, plain(field)) for name, field in sorted(value.__dict__.items()))
    if isinstance(value, (bytes, tuple)):
        return tuple(value) if isinstance(value, bytes) else tuple(map(plain, value))
    return value


def no_case():
    raise ValueError("no case fits")


def changed_record(record, **fields):
    """The record with some fields changed."""
    changed = Record.__new__(Record)
    changed.__dict__.update(record.__dict__)
    changed.__dict__.update(fields)
    return changed


# lists


def joined(one, other):
    if not one or not other:
        return one or other
    if type(one) is type(other):
        return one + other
    try:
        return bytes(one) + bytes(other)
    except (TypeError, ValueError):  # (no list of bytes)
        return tuple(one) + tuple(other)


def put_before(thing, things):
    return bytes((thing,)) + things if type(things) is bytes and things else (thing, *things)


def is_bytes(part):
    return type(part) is bytes or not part or type(part[0]) is int


def flat_map(function, things):
    parts = [function(thing) for thing in things]
    if any(type(part) is bytes for part in parts) and all(map(is_bytes, parts)):
        return b"".join(map(bytes, parts))
    return tuple(thing for part in parts for thing in part)


def filter_map(function, things):
    return tuple(found.held[0] for found in map(function, things) if found.tag == "Some")


def find(test, things):
    return next((some(thing) for thing in things if test(thing)), NONE)


def list_any(test, things):
    return any(map(test, things))


def list_all(test, things):
    return all(map(test, things))


def fold(function, start, things):
    for thing in things:
        start = function(start, thing)
    return start


def slice_get(things, index):
    return some(things[index]) if index < len(things) else NONE


def slice_set(things, index, thing):
    return (*things[:index], thing, *things[index + 1 :]) if index < len(things) else things


def starts_with(is_equal, things, prefix):
    part = things[: len(prefix)]
    return len(part) == len(prefix) and all(map(is_equal, part, prefix))


def ends_with(is_equal, things, end):
    return len(end) <= len(things) and starts_with(is_equal, things[len(things) - len(end) :], end)


def position_from(test, start, things):
    return next((some(place) for place, thing in enumerate(things, start) if test(thing)), NONE)


def slice_split(test, things):
    parts = [[]]
    for thing in things:
        if test(thing):
            parts.append([])
        else:
            parts[-1].append(thing)
    return tuple(map(bytes, parts))


# bytes and texts


def bytes_eq(one, other):
    return len(one) == len(other) and bytes(one) == bytes(other)


def digits_value(radix, digits):
    value = 0
    for digit in digits:
        value = value * radix + digit_value(digit)
    return value


def digit_value(byte):
    """The value of a digit or letter of ASCII; more than any for other bytes."""
    return int(chr(byte), 36) if chr(byte).isascii() and chr(byte).isalnum() else 255


TOKEN_BYTES = frozenset(b"!#$%&'*+-.^_`|~0123456789ABCDEFGHIJKLMNOPQRSTUVWXYZabcdefghijklmnopqrstuvwxyz")


def is_value_byte(byte):
    return (byte >= 0x20 and byte != 0x7F) or byte == 9


def percent_decode(text):
    return re.sub(rb"%([0-9A-Fa-f]{2})", lambda found: bytes([int(found[1], 16)]), bytes(text))


def utf8_lossy(text):
    return bytes(text).decode("utf-8", "replace").encode()


def base64_text(symbols, padding, is_padded, data):
    """RFC 4648: the text of some bytes."""
    text = base64.b64encode(bytes(data))
    return text if is_padded else text.rstrip(bytes([padding]))


def base64_bytes(is_padded, text):
    """The bytes of a text, with all of its padding or with none; none where it is not what those bytes are written as."""
    text = bytes(text)
    try:
        data = base64.b64decode(text if is_padded else text + b"=" * (-len(text) % 4), validate=True)
    except ValueError:
        return NONE
    return some(data) if base64_text(b"", 61, is_padded, data) == text else NONE


# options and results


def option_map(function, value):
    return some(function(value.held[0])) if value.tag == "Some" else NONE


def option_and_then(function, value):
    return function(value.held[0]) if value.tag == "Some" else NONE


def option_map_or(function, value, default):
    return function(value.held[0]) if value.tag == "Some" else default


def option_or(value, other):
    return value if value.tag == "Some" else other


def unwrap_or(value, default):
    return value.held[0] if value.tag == "Some" else default


def ok_or(value, fault):
    return Value("Ok", value.held) if value.tag == "Some" else Value("Err", (fault,))


# Each word with how many things it takes.
NATIVE = {
    "changed_record": (1, changed_record),
    "no_case": (0, no_case),
    "less": (2, lambda one, other: max(0, one - other)),
    "quotient": (2, lambda one, other: one // other if other else 0),
    "remainder": (2, lambda one, other: one % other if other else one),
    "joined": (2, joined),
    "put_before": (2, put_before),
    "codes": (1, lambda text: text),
    "length": (1, len),
    "map": (2, lambda function, things: tuple(map(function, things))),
    "filter": (2, lambda test, things: tuple(filter(test, things))),
    "filter_map": (2, filter_map),
    "flat_map": (2, flat_map),
    "fold": (3, fold),
    "sum_by": (2, lambda function, things: sum(map(function, things))),
    "count_by": (2, lambda test, things: sum(map(bool, map(test, things)))),
    "find": (2, find),
    "list_any": (2, list_any),
    "list_all": (2, list_all),
    "take": (2, lambda count, things: things[:count]),
    "drop": (2, lambda count, things: things[count:]),
    "slice_get": (2, slice_get),
    "slice_set": (3, slice_set),
    "slice_index_or": (3, lambda things, index, default: things[index] if index < len(things) else default),
    "enumerate_from": (2, lambda start, things: tuple(enumerate(things, start))),
    "range_with_len": (2, lambda start, count: tuple(range(start, start + count))),
    "replicate": (2, lambda count, thing: (thing,) * count),
    "starts_with": (3, starts_with),
    "ends_with": (3, ends_with),
    "position": (2, lambda test, things: position_from(test, 0, things)),
    "position_from": (3, position_from),
    "slice_split": (2, slice_split),
    "min": (2, min),
    "max": (2, max),
    "suc": (1, lambda number: number + 1),
    "pred": (1, lambda number: max(0, number - 1)),
    "nat_lt": (2, lambda one, other: one < other),
    "nat_le": (2, lambda one, other: one <= other),
    "nat_eq": (2, lambda one, other: one == other),
    "div_ceil": (2, lambda one, other: -(-one // other)),
    "bit_and": (2, lambda one, other: one & other),
    "not": (1, lambda value: not value),
    "decimal": (1, lambda number: b"%d" % number),
    "digits_value": (2, digits_value),
    "digit_value": (1, digit_value),
    "is_ascii_digit": (1, lambda byte: 48 <= byte <= 57),
    "bytes_eq": (2, bytes_eq),
    "str_eq_ignore_ascii_case": (2, lambda one, other: bytes(one).lower() == bytes(other).lower()),
    "encode_utf8": (1, lambda number: chr(number).encode()),
    "utf8_lossy": (1, utf8_lossy),
    "percent_decode": (1, percent_decode),
    "is_token_byte": (1, TOKEN_BYTES.__contains__),
    "is_value_byte": (1, is_value_byte),
    "encode": (4, base64_text),
    "standard": (0, lambda: True),
    "standard_no_pad": (0, lambda: False),
    "decoded_of": (2, base64_bytes),
    "is_none": (1, lambda value: value.tag == "None"),
    "is_some": (1, lambda value: value.tag == "Some"),
    "option_map": (2, option_map),
    "option_and_then": (2, option_and_then),
    "option_map_or": (3, option_map_or),
    "option_or": (2, option_or),
    "option_to_list": (1, lambda value: value.held),
    "unwrap_or": (2, unwrap_or),
    "ok_or": (2, ok_or),
}


def late_option_or(value, other):
    return value if value.tag == "Some" else other()


def late_option_map_or(function, value, default):
    return function(value.held[0]) if value.tag == "Some" else default()


def late_refused_if(stands, why, others):
    return some(why) if stands else others()


def late_first_action(actions):
    return next((found for found in (action() for action in actions) if found.tag == "Some"), NONE)


# Of each the places of what is computed late.
LATE = {
    "option_or": ((1,), late_option_or),
    "option_map_or": ((2,), late_option_map_or),
    "refused_if": ((2,), late_refused_if),
    "first_action": ((), late_first_action),
}


def first_of(function, things):
    return next((found for found in map(function, things) if found.tag == "Some"), NONE)


def find_last(test, things):
    return next((some(thing) for thing in reversed(things) if test(thing)), NONE)


def foremost(is_before, things):
    found = None
    for thing in reversed(things):
        if found is None or not is_before(found, thing):
            found = thing
    return option(found)


BY_HAND = {("session_actions.specs.Words", function.__name__): function for function in (first_of, find_last, foremost)}
