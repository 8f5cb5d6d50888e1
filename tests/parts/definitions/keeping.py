"""Which definitions keep what they gave, and by which parts of what they are given.

A definition over all that has happened is asked again at each action, though most actions change little. What it gave is kept by the
identity of those fields alone that it reads, so a change elsewhere does not matter. This changes no value: a definition gives the same for
the same.
"""

from .tree import Anything, Built, Call, Cases, Function, Let, Member, Name, names_of_pattern

CRATE = "session_actions."
WIDE = ("Seen", "Link", "Call", "Attempt", "OpenEntry")
NUMBERS = ("ℕ", "Bool")
# Which definitions of lists of numbers keep what they gave by these numbers: a search of 257 codes for each bit of a text.
BY_LIST = {("h2_hpack.specs.Huffman", "code_with")}
LIST = "list"


def union(parts):
    """The fields of all parts together; None, the whole, where one of them is the whole."""
    fields = frozenset()
    for part in parts:
        if part is None:
            return None
        fields |= part
    return fields


def inner_of(node):
    """The nodes right inside a node."""
    for part in node:
        if isinstance(part, tuple) and hasattr(part, "_fields"):
            yield part
        elif isinstance(part, tuple):
            for item in part:
                if isinstance(item, tuple) and hasattr(item, "_fields"):
                    yield item
                elif isinstance(item, tuple):
                    yield from (value for value in item if isinstance(value, tuple) and hasattr(value, "_fields"))


class Reads:
    """Which fields of a parameter a definition reads."""

    def __init__(self, library):
        self.library, self.known, self.under_way = library, {}, set()

    def of_parameter(self, definition, place):
        """The fields of this parameter that it reads, or None where it needs the whole."""
        key = (definition.file.name, definition.name, place)
        if key in self.known:
            return self.known[key]
        if key in self.under_way:
            return frozenset()
        self.under_way.add(key)
        fields = union(self.of_clause(definition, clause, place) for clause in definition.clauses)
        self.under_way.discard(key)
        if not self.under_way:
            self.known[key] = fields
        return fields

    def of_clause(self, definition, clause, place):
        patterns, body = clause
        if place >= len(patterns):
            return None
        pattern = patterns[place]
        if isinstance(pattern, Anything):
            return frozenset()
        is_variable = isinstance(pattern, Built) and not self.library.constructor(definition.file, pattern.name)
        return self.of(definition.file, body, pattern.name) if is_variable else None

    def of(self, file, node, name):
        """The fields of the variable `name` that a node reads."""
        if node == Name(name):
            return None
        if isinstance(node, Member) and node.base == Name(name):
            return frozenset([node.name])
        if isinstance(node, Function) and name in node.names:
            return frozenset()
        if isinstance(node, Let) and node.name == name:
            return self.of(file, node.value, name)
        if isinstance(node, Call):
            return self.of_call(file, node, name)
        if isinstance(node, Cases):
            shadows = any(
                name in names_of_pattern(pattern, lambda it: self.library.constructor(file, it)) for pattern, _ in node.branches
            )
            return None if shadows else union(self.of(file, it, name) for it in (node.subject, *(body for _, body in node.branches)))
        return union(self.of(file, inner, name) for inner in inner_of(node))

    def of_call(self, file, node, name):
        target = self.library.definition(file, node.function)
        parts = [] if target else [self.of(file, node.function, name)]
        for place, argument in enumerate(node.arguments):
            if argument == Name(name) and target:
                parts.append(self.of_parameter(target, place))
            else:
                parts.append(self.of(file, argument, name))
        return union(parts)

    def keys_of(self, definition):
        """By what a definition keeps what it gave: of each parameter None (its value), LIST or its fields; None where it keeps nothing."""
        if (definition.file.name, definition.name) in BY_LIST:
            return [LIST] * definition.arity
        types = definition.types[: definition.arity]
        is_wide = any(kind.split()[0] in (*WIDE, "List") for kind in types)
        if not definition.file.name.startswith(CRATE) or not is_wide or definition.types[definition.arity :] == ["Seen"]:
            return None
        if any("→" in kind for kind in types):
            return None
        keys = []
        for place, kind in enumerate(types):
            if kind in NUMBERS:
                keys.append(None)
            else:
                fields = self.of_parameter(definition, place) if kind in WIDE[:-1] else None
                keys.append(("",) if fields is None else tuple(sorted(fields)))
        return keys


