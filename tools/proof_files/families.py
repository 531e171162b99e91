"""What stands in a file of definitions: its data types, each with its constructors and the types of what they hold."""

import re
from dataclasses import dataclass


@dataclass
class Constructor:
    name: str
    variables: list  # of (name, type as text), in order
    premises: list  # of types as text, in order: what it holds without a name


@dataclass
class Family:
    name: str
    constructors: list


def pieces(text):
    """The text between the arrows that stand in no bracket."""
    found, depth, start = [], 0, 0
    for at, mark in enumerate(text):
        depth += {"(": 1, ")": -1}.get(mark, 0)
        if mark == "→" and depth == 0:
            found.append(text[start:at].strip())
            start = at + 1
    return found + [text[start:].strip()]


def binders(text):
    """The variables of bracketed groups as `(ts us : List Token)`."""
    found = []
    for names, kind in re.findall(r"\(([^:()]*) : ((?:[^()]|\([^()]*\))*)\)", text):
        found += [(name, kind) for name in names.split()]
    return found


def constructor(text):
    name, kind = text.split(" : ", 1)
    parts = pieces(kind)[:-1]
    variables = []
    while parts and re.match(r"\([^()]* : ", parts[0]):
        variables += binders(parts.pop(0))
    return Constructor(name, variables, parts)


def families(path):
    """The data types of a file, in order."""
    found, indent = [], 0
    for line in path.read_text(encoding="utf-8").split("\n"):
        text = line.strip()
        depth = len(line) - len(line.lstrip())
        head = re.match(r"pub data (\w+) : .* where$", text)
        if head:
            found.append(Family(head.group(1), []))
            indent = depth
        elif found and text and depth == indent + 2 and not text.startswith("--"):
            found[-1].constructors.append(constructor(text))
    return found


def filled(units, indent, width, further=4):
    """Pieces of which each stands in one line, in as few lines as they fill, the later ones `further` in."""
    found = [" " * indent + units[0]]
    for unit in units[1:]:
        if len(found[-1]) + 1 + len(unit) <= width:
            found[-1] += " " + unit
        else:
            found.append(" " * (indent + further) + unit)
    return found
