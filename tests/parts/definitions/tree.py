"""The parts of an expression and of a pattern, as they are read."""

from typing import NamedTuple


class Number(NamedTuple):
    value: int


class Text(NamedTuple):
    """The codes of a text in quotes."""

    value: str


class Empty(NamedTuple):
    """The list of nothing."""


class Name(NamedTuple):
    value: str


class Member(NamedTuple):
    """A field of a record, a part of a pair, or a constructor by the alias of its enum."""

    base: object
    name: str


class Call(NamedTuple):
    function: object
    arguments: tuple


class Operation(NamedTuple):
    sign: str
    left: object
    right: object


class Choice(NamedTuple):
    test: object
    chosen: object
    otherwise: object


class Let(NamedTuple):
    name: str
    value: object
    body: object


class Function(NamedTuple):
    names: tuple
    body: object


class Record(NamedTuple):
    """A record of these fields, or a record (`base`) with these fields changed."""

    base: object
    fields: tuple


class Group(NamedTuple):
    """A pair or a longer tuple."""

    parts: tuple


class Cases(NamedTuple):
    """A value that patterns distinguish."""

    subject: object
    branches: tuple


class Anything(NamedTuple):
    """The pattern that fits all."""


class Exactly(NamedTuple):
    """The pattern of one number, or of true or false."""

    value: object


class Successor(NamedTuple):
    inner: object


class Nothing(NamedTuple):
    """The pattern of the list of nothing."""


class First(NamedTuple):
    """The pattern of a list with a first thing and those after it."""

    head: object
    tail: object


class Built(NamedTuple):
    """The pattern of a constructor with what it holds, or of a variable: which one it is, the file's names say."""

    name: object
    inner: tuple


def names_of_pattern(pattern, is_constructor):
    """The variables of a pattern."""
    if isinstance(pattern, Successor):
        return names_of_pattern(pattern.inner, is_constructor)
    if isinstance(pattern, First):
        return names_of_pattern(pattern.head, is_constructor) | names_of_pattern(pattern.tail, is_constructor)
    if isinstance(pattern, Built):
        if not is_constructor(pattern.name):
            return {pattern.name}
        return set().union(*(names_of_pattern(inner, is_constructor) for inner in pattern.inner))
    return set()
