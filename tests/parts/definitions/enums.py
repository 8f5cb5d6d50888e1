"""The enums of a crate's sources, with the names of the fields of each constructor."""

import os
import re


def parts_of(text):
    """What stands between the commas of a text, outside all brackets."""
    parts, depth, part = [], 0, ""
    for letter in text:
        depth += (letter in "({[<") - (letter in ")}]>")
        if letter == "," and depth == 0:
            parts.append(part.strip())
            part = ""
        else:
            part += letter
    return [part for part in [*parts, part.strip()] if part]


def body_of(text, at):
    """What stands in the braces that were opened before this place."""
    depth, end = 1, at
    while depth:
        depth += (text[end] == "{") - (text[end] == "}")
        end += 1
    return text[at : end - 1]


def constructor_of(text):
    """The name of a constructor and the names of its fields; those without names get their numbers."""
    text = re.sub(r"#\[[^\]]*\]", "", text).strip()
    name = re.match(r"\w+", text)[0]
    fields = parts_of(text[len(name) :].strip()[1:-1])
    if text[len(name) :].strip().startswith("{"):
        return name, tuple(field.split(":")[0].strip().removeprefix("pub ") for field in fields)
    return name, tuple(str(number) for number in range(len(fields)))


def enums_of(folder):
    """The enums of the sources in a folder, by the name of the file and of the enum."""
    enums = {}
    for file in sorted(os.listdir(folder)):
        if file.endswith(".rt"):
            with open(os.path.join(folder, file), encoding="utf-8") as source:
                text = re.sub(r"//[^\n]*", "", source.read())
            for found in re.finditer(r"\benum (\w+)(?:<[^>]*>)?\s*\{", text):
                body = body_of(text, found.end())
                enums[file[:-3], found[1]] = dict(constructor_of(part) for part in parts_of(body))
    return enums
