"""What a name in a file of definitions stands for: a constructor, a definition of some file, or a word of the library."""

import os
from typing import NamedTuple

from .enums import enums_of
from .reading import File

# What these provide is not in this repository; `words` has it by hand.
FOREIGN = ("std.", "core.", "http_header.", "base64.", "percent_encoding.")
PLAIN = {"Some": 1, "None": 0, "Ok": 1, "Err": 1}


class Constructor(NamedTuple):
    tag: str
    arity: int


class Foreign(NamedTuple):
    """A word of the language's own library or of a crate of the kit."""

    name: str


class Unknown(Exception):
    """A name that stands for nothing here."""


class Library:
    """The definitions and enums of a checkout; `changed` has texts that stand in the place of a file's own."""

    def __init__(self, top, changed=()):
        self.top, self.changed = top, dict(changed)
        self.files, self.enums = {}, {}

    def file(self, path):
        """The file of definitions at a path like `h2_hpack.specs.Blocks`."""
        if path not in self.files:
            crate, _, rest = path.partition(".specs.")
            name = os.path.join(self.top, "crates", crate, "specs", rest.replace(".", os.sep) + ".antt")
            if path in self.changed:
                text = self.changed[path]
            else:
                with open(name, encoding="utf-8") as opened:
                    text = opened.read()
            self.files[path] = File(path, text)
        return self.files[path]

    def computed(self, path):
        """The names of the definitions of a file that compute something."""
        return [name for name, definition in self.file(path).definitions.items() if not definition.is_statement]

    def fields(self, path):
        """The constructors of an enum at a path like `grpc_base.specs.declared.event.Reply.TheVariants`, with their fields."""
        crate, _, rest = path.partition(".specs.declared.")
        file, enum, _ = rest.split(".")
        if crate not in self.enums:
            self.enums[crate] = enums_of(os.path.join(self.top, "crates", crate, "src"))
        return self.enums[crate][file, enum]

    def constructor(self, file, name):
        """The constructor that a name stands for, or None."""
        if isinstance(name, tuple):
            alias, tag = name
            return Constructor(tag, len(self.fields(file.aliases[alias])[tag])) if alias in file.aliases else None
        if name in PLAIN:
            return Constructor(name, PLAIN[name])
        if name in file.constructors:
            return Constructor(name, file.constructors[name])
        path, source = file.uses.get(name, ("std.", name))
        if path.endswith(".TheVariants"):
            return Constructor(source, len(self.fields(path)[source]))
        if path.startswith(FOREIGN) or ".declared." in path:
            return None
        return self.constructor(self.file(path), source)

    def target(self, file, name):
        """The definition or the foreign word that a name stands for."""
        if name in file.definitions:
            return file.definitions[name]
        if name not in file.uses:
            raise Unknown(f"{file.name} uses {name}, and does not say what it is")
        path, source = file.uses[name]
        return Foreign(source) if path.startswith(FOREIGN) else self.target(self.file(path), source)

    def definition(self, file, node):
        """The definition that a node names, or None."""
        name = getattr(node, "value", None)
        if not isinstance(name, str) or (name not in file.definitions and name not in file.uses):
            return None
        if self.constructor(file, name):
            return None
        found = self.target(file, name)
        return None if isinstance(found, Foreign) else found
