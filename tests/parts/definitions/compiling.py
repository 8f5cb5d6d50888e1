"""Definitions become functions of this language, one for each, clause by clause; nothing of them is left out or known beforehand.

Numbers are whole numbers, lists are tuples or bytes, pairs are tuples, records and values of enums are `words.Record` and `words.Value`.
The language is total, so it does not matter when a value is computed. Here what may not be needed is computed late.
"""

import keyword

from .keeping import LIST, Reads
from .naming import Foreign, Library, Unknown
from .tree import Anything, Built, Call, Cases, Empty, Exactly, First, Member, Name, Nothing, Operation, Successor
from .words import BY_HAND, CONSTANTS, LATE, NATIVE, Record, Value, constant, new_table

OPERATORS = {"&&": "({} and {})", "||": "({} or {})", "==": "({} == {})", "+": "({} + {})", "*": "({} * {})", "^": "({} ** {})"}
CALLED = {"-": "less", "/": "quotient", "%": "remainder", "++": "joined", "∷": "put_before"}
HELPERS = ("changed_record", "no_case", *CALLED.values())


def plain_name(name):
    """A name of the definitions as one of this language."""
    name = name.replace("'", "_prime").replace("◌", "_").replace(">>=", "bind")
    return name + "_" if keyword.iskeyword(name) or name in ("Record", "Value", "id") else name


def things_of_list(node):
    """The things of a list that is written out, or None."""
    things = []
    while isinstance(node, Operation) and node.sign == "∷":
        things.append(node.left)
        node = node.right
    return things if isinstance(node, Empty) and things else None


def partly(parts, missing, text):
    """A function of what is missing, whose whole arguments the text takes."""
    names = [f"given_{number}" for number in range(missing)]
    whole = text([*parts, *names])
    return f"(lambda {', '.join(names)}: {whole})" if missing else whole


class Compiler:
    """The functions of the definitions that are asked for, with all that these need."""

    def __init__(self, top, changed=(), by_hand=BY_HAND):
        self.library, self.by_hand = Library(top, changed), by_hand
        self.reads = Reads(self.library)
        self.sources, self.waiting = {}, []
        self.space = {"Record": Record, "Value": Value, "CONSTANTS": CONSTANTS, "new_table": new_table, "constant": constant}
        self.space |= {f"native_{plain_name(name)}": function for name, (_, function) in NATIVE.items()}
        self.space |= {f"late_{name}": function for name, (_, function) in LATE.items()}
        self.space |= {name: NATIVE[name][1] for name in HELPERS}

    def functions(self, *asked):
        """The functions of some definitions, each named by its file and its name."""
        found = [self.library.file(path).definitions[name] for path, name in asked]
        names = [self.name_of(definition) for definition in found]
        while self.waiting:
            name, definition = self.waiting.pop()
            self.sources[name] = self.source_of(name, definition)
        exec("\n".join(self.sources.values()), self.space)
        return [self.space[name] for name in names]

    def name_of(self, definition):
        """The name of the function of a definition, whose source is to be written if it was not yet."""
        crate, _, file = definition.file.name.partition(".specs.")
        name = f"{crate}_{file.replace('.', '_')}_{plain_name(definition.name)}"
        if name not in self.sources:
            self.sources[name] = ""
            by_hand = self.by_hand.get((definition.file.name, definition.name))
            if by_hand:
                self.space[name] = by_hand
            else:
                self.waiting.append((name, definition))
        return name

    def source_of(self, name, definition):
        parameters = [f"given_{place}" for place in range(definition.arity)]
        lines = [line for clause in definition.clauses for line in self.clause(definition.file, parameters, *clause)]
        last = f"    raise ValueError('no clause of {definition.name} fits')"
        keys = self.reads.keys_of(definition)
        plain = f"plain_{name}" if keys else name
        head = [f"# {definition.file.name}: {definition.name}", f"def {plain}({', '.join(parameters)}):"]
        if definition.arity == 0:
            head.insert(1, "@constant")
        return "\n".join([*head, *lines, last, *(self.kept(name, parameters, keys) if keys else ()), ""])

    def kept(self, name, parameters, keys):
        """The lines of a function that gives again what it gave for the same."""
        numbers = [parameter for parameter, key in zip(parameters, keys) if key is None]
        numbers += [f"tuple({parameter})" for parameter, key in zip(parameters, keys) if key == LIST]
        things = [
            f"{parameter}.{plain_name(field)}" if field else parameter
            for parameter, key in zip(parameters, keys)
            if key not in (None, LIST)
            for field in key
        ]
        names = [f"thing_{number}" for number in range(len(things))]
        key = ", ".join([*(f"id({it})" for it in names), *numbers, "0"])
        given = ", ".join(parameters)
        # (What the identities belong to is kept beside the value, so that no other thing gets one of them.)
        value = ", ".join([f"plain_{name}({given})", *names])
        return [
            f"table_{name} = {'{}' if LIST in keys else 'new_table()'}",
            f"def {name}({given}):",
            *(f"    {own} = {thing}" for own, thing in zip(names, things)),
            f"    key = ({key})",
            f"    found = table_{name}.get(key)",
            "    if found is None:",
            f"        found = table_{name}[key] = ({value},)",
            "    return found[0]",
        ]

    def clause(self, file, parameters, patterns, body):
        tests, bound = [], {}
        for place, pattern in zip(parameters, patterns):
            self.fit(file, pattern, place, tests, bound)
        space = "    "
        if tests:
            yield f"    if {' and '.join(tests)}:"
            space += "    "
        for name, place in bound.items():
            yield f"{space}{plain_name(name)} = {place}"
        yield f"{space}return {self.code(file, body, set(bound))}"

    def fit(self, file, pattern, place, tests, bound):
        """Adds what has to hold for the thing at a place to fit a pattern, and which names it gives."""
        if isinstance(pattern, Anything):
            return
        if isinstance(pattern, Exactly):
            value = pattern.value
            tests.append(f"{place} == {value}" if not isinstance(value, bool) else place if value else f"not {place}")
        elif isinstance(pattern, Successor):
            tests.append(f"{place} > 0")
            self.fit(file, pattern.inner, f"({place} - 1)", tests, bound)
        elif isinstance(pattern, Nothing):
            tests.append(f"not {place}")
        elif isinstance(pattern, First):
            tests.append(f"{place}")
            self.fit(file, pattern.head, f"{place}[0]", tests, bound)
            self.fit(file, pattern.tail, f"{place}[1:]", tests, bound)
        else:
            self.fit_built(file, pattern, place, tests, bound)

    def fit_built(self, file, pattern, place, tests, bound):
        constructor = self.library.constructor(file, pattern.name)
        if not constructor:
            bound[pattern.name] = place
            return
        if constructor.arity != len(pattern.inner):
            raise Unknown(f"{file.name}: {pattern.name} holds {constructor.arity} things")
        tests.append(f"{place}.tag == {constructor.tag!r}")
        for number, inner in enumerate(pattern.inner):
            self.fit(file, inner, f"{place}.held[{number}]", tests, bound)

    # expressions: each kind of node has its own

    def code(self, file, node, local):
        """A node as an expression of this language; `local` are the variables that are bound here."""
        return getattr(self, "code_" + type(node).__name__.lower())(file, node, local)

    def codes(self, file, nodes, local):
        return [self.code(file, node, local) for node in nodes]

    def code_number(self, file, node, local):
        return str(node.value)

    def code_text(self, file, node, local):
        return repr(node.value.encode())

    def code_empty(self, file, node, local):
        return "()"

    def code_function(self, file, node, local):
        return f"(lambda {', '.join(map(plain_name, node.names))}: {self.code(file, node.body, local | set(node.names))})"

    def code_let(self, file, node, local):
        body = self.code(file, node.body, local | {node.name})
        return f"(lambda {plain_name(node.name)}: {body})({self.code(file, node.value, local)})"

    def code_choice(self, file, node, local):
        test, chosen, otherwise = self.codes(file, node, local)
        return f"({chosen} if {test} else {otherwise})"

    def code_group(self, file, node, local):
        return f"({', '.join(self.codes(file, node.parts, local))},)"

    def code_record(self, file, node, local):
        fields = ", ".join(f"{plain_name(name)}={self.code(file, value, local)}" for name, value in node.fields)
        return f"changed_record({self.code(file, node.base, local)}, {fields})" if node.base else f"Record({fields})"

    def code_member(self, file, node, local):
        if isinstance(node.base, Name) and node.base.value in file.aliases and node.base.value not in local:
            return self.built(self.library.constructor(file, (node.base.value, node.name)), [])
        base = self.code(file, node.base, local)
        return f"{base}[{node.name}]" if node.name.isdigit() else f"{base}.{plain_name(node.name)}"

    def code_cases(self, file, node, local):
        text = "no_case()"
        for pattern, body in reversed(node.branches):
            tests, bound = [], {}
            self.fit(file, pattern, "subject", tests, bound)
            value = self.code(file, body, local | set(bound))
            names, places = ", ".join(map(plain_name, bound)), ", ".join(bound.values())
            text = f"((lambda {names}: {value})({places}) if {' and '.join(tests) or 'True'} else {text})"
        return f"(lambda subject: {text})({self.code(file, node.subject, local)})"

    def code_operation(self, file, node, local):
        things = things_of_list(node)
        if things:
            return f"({', '.join(self.codes(file, things, local))},)"
        if node.sign == ">>=":
            return self.code(file, Call(Name("◌>>=◌"), (node.left, node.right)), local)
        left, right = self.codes(file, (node.left, node.right), local)
        return OPERATORS[node.sign].format(left, right) if node.sign in OPERATORS else f"{CALLED[node.sign]}({left}, {right})"

    def code_name(self, file, node, local):
        return self.call_of(file, node.value, (), local)

    def code_call(self, file, node, local):
        function = node.function
        if isinstance(function, Name) and function.value not in local:
            return self.call_of(file, function.value, node.arguments, local)
        arguments = self.codes(file, node.arguments, local)
        if isinstance(function, Member) and isinstance(function.base, Name) and function.base.value in file.aliases:
            return self.built(self.library.constructor(file, (function.base.value, function.name)), arguments)
        return f"{self.code(file, function, local)}({', '.join(arguments)})"

    def call_of(self, file, name, nodes, local):
        """A name, applied to some arguments or to none."""
        if name in local:
            return plain_name(name)
        if name in ("true", "false", "zero"):
            return {"true": "True", "false": "False", "zero": "0"}[name]
        if name == "not" and nodes:
            return f"(not {self.code(file, nodes[0], local)})"
        constructor = self.library.constructor(file, name)
        if constructor:
            return self.built(constructor, self.codes(file, nodes, local))
        late = self.late_call(file, name, nodes, local)
        if late:
            return late
        target = self.library.target(file, name)
        if isinstance(target, Foreign):
            if target.name not in NATIVE:
                raise Unknown(f"{file.name} uses {target.name}, which `words` does not have")
            return self.applied(f"native_{plain_name(target.name)}", NATIVE[target.name][0], self.codes(file, nodes, local))
        return self.applied(self.name_of(target), target.arity, self.codes(file, nodes, local))

    def late_call(self, file, name, nodes, local):
        """A call of a word that computes some of its arguments only when it needs them, or None."""
        places, _ = LATE.get(name, ((), None))
        if name == "first_action":
            things = things_of_list(nodes[0]) if nodes else None
            late = "".join(f"lambda: {self.code(file, thing, local)}, " for thing in things or ())
            return f"late_first_action(({late}))" if things else None
        if not places or len(nodes) <= max(places):
            return None
        arguments = [("lambda: " if place in places else "") + self.code(file, node, local) for place, node in enumerate(nodes)]
        return f"late_{name}({', '.join(arguments)})"

    def built(self, constructor, arguments):
        if constructor.arity == 0:
            return f"CONSTANTS[{constructor.tag!r}]"
        missing = constructor.arity - len(arguments)
        return partly(arguments, missing, lambda whole: f"Value({constructor.tag!r}, ({', '.join(whole)},))")

    def applied(self, text, arity, arguments):
        if len(arguments) == 0 and arity > 0:
            return text
        if len(arguments) > arity:
            return f"{text}({', '.join(arguments[:arity])})({', '.join(arguments[arity:])})"
        return partly(arguments, arity - len(arguments), lambda whole: f"{text}({', '.join(whole)})")
