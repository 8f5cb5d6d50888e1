"""The text of a file of definitions: its words, its expressions, the clauses of each definition, and what the file uses."""

import re

from .tree import (
    Anything,
    Built,
    Call,
    Cases,
    Choice,
    Empty,
    Exactly,
    First,
    Function,
    Group,
    Let,
    Member,
    Name,
    Nothing,
    Number,
    Operation,
    Record,
    Successor,
    Text,
)

TOKEN = re.compile(
    r"""(?P<space>\s+)
    |(?P<text>"[^"]*")
    |(?P<number>0x[0-9A-Fa-f]+|\d+)
    |(?<=\S)\.(?P<member>[\w']+)
    |(?P<sign>∷|\+\+|&&|\|\||==|>>=|→|≡|≤|×|⊎|λ|↦|\[\]|[-+*/%^(){};,=<|\[\]:.⊥])
    |(?P<name>[^\W\d][\w']*|_|ℕ)""",
    re.X,
)
# How strongly each sign binds, and to which side.
SIGNS = {
    ">>=": (10, "left"),
    "||": (30, "left"),
    "&&": (35, "left"),
    "==": (40, "left"),
    "++": (65, "left"),
    "+": (65, "left"),
    "-": (65, "left"),
    "∷": (67, "right"),
    "*": (70, "left"),
    "/": (70, "left"),
    "%": (70, "left"),
    "^": (75, "right"),
}
KEYWORDS = {"if", "then", "else", "let", "in", "elim"}
END = ("end", "")


class Unread(Exception):
    """A text that this reader does not know how to read."""


def tokens_of(text):
    """The words of a text, each with its kind."""
    tokens, at = [], 0
    while at < len(text):
        found = TOKEN.match(text, at)
        if not found:
            raise Unread(f"no word begins with {text[at : at + 20]!r}")
        if found.lastgroup != "space":
            tokens.append((found.lastgroup, found[found.lastgroup]))
        at = found.end()
    return tokens


class Tokens:
    """Words in turn."""

    def __init__(self, tokens):
        self.tokens, self.at = tokens, 0

    def peek(self):
        return self.tokens[self.at] if self.at < len(self.tokens) else END

    def next(self):
        token = self.peek()
        self.at += 1
        return token

    def is_at(self, *values):
        """Whether the next word is one of these signs or keywords."""
        kind, value = self.peek()
        return value in values and kind in ("sign", "name")

    def skip(self, value):
        """Takes the word if it is next."""
        if self.is_at(value):
            self.at += 1
            return True
        return False

    def take(self, value):
        if not self.skip(value):
            raise Unread(f"wanted {value!r} after {self.tokens[max(0, self.at - 8) : self.at]}, got {self.peek()}")


class Expressions(Tokens):
    """Reads expressions and patterns."""

    def expression(self, least=0):
        left = self.prefix()
        while self.is_at(*SIGNS):
            sign = self.peek()[1]
            strength, side = SIGNS[sign]
            if strength < least:
                break
            self.next()
            left = Operation(sign, left, self.expression(strength if side == "right" else strength + 1))
        return left

    def prefix(self):
        if self.skip("λ"):
            names = []
            while not self.skip("."):
                names.append(self.bound_name())
            return Function(tuple(names), self.expression())
        if self.skip("if"):
            test = self.expression()
            self.take("then")
            chosen = self.expression()
            self.take("else")
            return Choice(test, chosen, self.expression())
        if self.skip("let"):
            name = self.next()[1]
            self.take("=")
            value = self.expression()
            self.take("in")
            return Let(name, value, self.expression())
        if self.skip("elim"):
            return self.cases()
        return self.call()

    def bound_name(self):
        """A name after λ: alone, or in brackets with its type."""
        if not self.skip("("):
            return self.next()[1]
        name, depth = self.next()[1], 1
        while depth:
            value = self.next()[1]
            depth += (value == "(") - (value == ")")
        return name

    def cases(self):
        subject, branches = self.atom(), []
        self.take("[")
        while self.skip("|"):
            pattern = self.pattern()
            self.take("↦")
            branches.append((pattern, self.expression()))
        self.take("]")
        return Cases(subject, tuple(branches))

    def begins_atom(self):
        kind, value = self.peek()
        return kind in ("number", "text") or (kind == "name" and value not in KEYWORDS) or (kind == "sign" and value in ("(", "[]"))

    def call(self):
        function, arguments = self.atom(), []
        while True:
            if self.begins_atom():
                arguments.append(self.atom())
            elif self.is_at("λ"):
                arguments.append(self.prefix())
            else:
                return Call(function, tuple(arguments)) if arguments else function

    def atom(self):
        kind, value = self.next()
        if kind == "number":
            node = Number(int(value, 0))
        elif kind == "text":
            node = Text(value[1:-1])
        elif value == "[]":
            node = Empty()
        elif value == "(":
            node = self.group()
        elif value == "record":
            node = self.record()
        elif kind == "name":
            node = Name(value)
        else:
            raise Unread(f"{value!r} begins no value, after {self.tokens[max(0, self.at - 8) : self.at]}")
        while self.peek()[0] == "member":
            node = Member(node, self.next()[1])
        return node

    def group(self):
        parts = [self.expression()]
        while self.skip(","):
            parts.append(self.expression())
        self.take(")")
        return Group(tuple(parts)) if len(parts) > 1 else parts[0]

    def record(self):
        base = None if self.is_at("{") else self.atom()
        self.take("{")
        fields = []
        while not self.skip("}"):
            name = self.next()[1]
            self.take("=")
            fields.append((name, self.expression()))
            self.skip(";")
        return Record(base, tuple(fields))

    def pattern(self):
        head = self.applied_pattern()
        return First(head, self.pattern()) if self.skip("∷") else head

    def applied_pattern(self):
        if self.skip("suc"):
            return Successor(self.pattern_atom())
        pattern = self.pattern_atom()
        if not isinstance(pattern, Built):
            return pattern
        inner = []
        while not self.is_at(")", "∷", "↦") and self.peek() != END:
            inner.append(self.pattern_atom())
        return Built(pattern.name, tuple(inner)) if inner else pattern

    def pattern_atom(self):
        kind, value = self.next()
        if value == "[]":
            return Nothing()
        if value == "(":
            pattern = self.pattern()
            self.take(")")
            return pattern
        if kind == "number":
            return Exactly(int(value, 0))
        if kind != "name":
            raise Unread(f"{value!r} begins no pattern")
        if self.peek()[0] == "member":
            return Built((value, self.next()[1]), ())
        plain = {"_": Anything(), "zero": Exactly(0), "true": Exactly(True), "false": Exactly(False)}
        return plain.get(value, Built(value, ()))


def arrows_of(type_text):
    """The parts of a type between its arrows, without what is implicit."""
    parts, depth, part = [], 0, ""
    for letter in type_text:
        depth += (letter in "({[") - (letter in ")}]")
        if letter == "→" and depth == 0:
            parts.append(part.strip())
            part = ""
        else:
            part += letter
    return [part for part in [*parts, part.strip()] if not part.startswith("{")]


class Definition:
    """A definition: the parts of its type, and its clauses, which are read when they are asked for."""

    def __init__(self, file, name, type_text):
        self.file, self.name = file, name
        self.types = arrows_of(" ".join(type_text.split()))
        self.texts, self.read = [], None

    @property
    def is_statement(self):
        """Whether it says something, and so computes nothing."""
        return self.types[-1].startswith("Type ")

    @property
    def clauses(self):
        """Patterns and value of each clause."""
        if self.read is None:
            self.read = [self.clause(text) for text in self.texts]
            if not self.read:
                raise Unread(f"{self.file.name} has no clause of {self.name}")
        return self.read

    def clause(self, text):
        words = Expressions(tokens_of(text))
        sign = self.name.strip("◌")
        patterns = []
        if sign != self.name:
            patterns = [words.pattern_atom()]
            words.take(sign)
        else:
            words.next()
        while not words.skip("="):
            patterns.append(words.pattern_atom())
        value = words.expression()
        if words.peek() != END:
            raise Unread(f"{self.file.name}, {self.name}: nobody reads {words.peek()[1]!r}")
        return tuple(patterns), value

    @property
    def arity(self):
        """How many things its clauses take."""
        return len(self.clauses[0][0])


def without_comment(line):
    code, quote = [], False
    for at, letter in enumerate(line):
        quote ^= letter == '"'
        if not quote and line.startswith("--", at):
            break
        code.append(letter)
    return "".join(code).rstrip()


USE = re.compile(r"(?:pub )?use Rattle\.(\S+?)(?:\.\{(.*)\})?(?: as (\w+))?\s*$", re.S)
HEAD = re.compile(r"(?:abbrev|unfoldable)\s+pub\s+(\S+)\s*:\s*(.*)$", re.S)
DATA = re.compile(r"^\s+(\w+)\s*:\s*(.*)$", re.M)
OPERATOR = re.compile(r"\(.*?\)\s*(>>=)\s")


class File:
    """A file of definitions: what it uses, its aliases of enums, its constructors and its definitions."""

    def __init__(self, name, text):
        self.name = name
        self.uses, self.aliases, self.constructors, self.definitions = {}, {}, {}, {}
        items = []
        for line in map(without_comment, text.split("\n")):
            if line and line[0] in " \t})]" and items:
                items[-1] += "\n" + line
            elif line:
                items.append(line)
        for item in items:
            self.take(item)

    def take(self, item):
        """Reads one item of the file."""
        use, head = USE.match(item), HEAD.match(item)
        if use:
            self.take_use(*use.groups())
        elif head:
            self.definitions[head[1]] = Definition(self, head[1], head[2])
        elif item.startswith(("pub data", "mutual")):
            self.constructors |= {name: len(arrows_of(kind)) - 1 for name, kind in DATA.findall(item)}
        else:
            operator = OPERATOR.match(item)
            name = f"◌{operator[1]}◌" if operator else item.split()[0]
            if name in self.definitions:
                self.definitions[name].texts.append(item)

    def take_use(self, path, names, alias):
        if alias:
            self.aliases[alias] = path
        for name in (names or "").replace("\n", " ").split(","):
            source, _, own = name.strip().partition(" as ")
            self.uses[own or source] = (path, source)
