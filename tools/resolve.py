#!/usr/bin/env python3
"""Reads worlds in WIT text, and prints their tables in the form that wasm-tools prints.

    python3 tools/resolve.py w.wit > w.resolve.json

It reads worlds that import and export functions, and define types of their own: all
that the program builds so far. Of interfaces, resources, `use` and `include` it knows
nothing: there wasm-tools is needed. It tests no more than it has to.

Whatever is not known is a fault with its line, and exit status 1.
"""

import json
import sys

from node import Fault
from wit_text import Reader

PRIMITIVES = set("bool u8 u16 u32 u64 s8 s16 s32 s64 f32 f64 char string".split())
UNREAD = ("interface", "resource", "use", "include")


def with_docs(entry, docs):
    """An entry with its docs, where it has any."""
    return entry | {"docs": {"contents": "\n".join(docs)}} if docs else entry


class Types:
    """The types of the worlds, in the order in which they come to have numbers."""

    def __init__(self):
        self.entries = []
        self.unnamed = {}

    def add(self, name, kind, owner, docs=()):
        """The number of a new type."""
        self.entries.append(with_docs({"name": name, "kind": kind, "owner": owner}, docs))
        return len(self.entries) - 1

    def part(self, kind):
        """The number of a type without a name. Equal ones are one."""
        key = json.dumps(kind)
        if key not in self.unnamed:
            self.unnamed[key] = self.add(None, kind, None)
        return self.unnamed[key]


class World:
    """A world that is read: its items, and the numbers of its types by their names."""

    def __init__(self, reader, types, number):
        self.reader, self.types, self.number = reader, types, number
        self.numbers = {}
        # Where types are defined whose definitions were not read yet.
        self.later = definitions_behind(reader)
        self.defined, self.imports, self.exports = {}, {}, {}

    # Types

    def type(self):
        """A type: the word of a primitive one, or a number."""
        reader = self.reader
        if reader.next.sort != "name":
            raise reader.wanted("a type")
        word = reader.next.text
        if word in PRIMITIVES:
            return reader.take().text
        if word in SHAPES:
            reader.take()
            return self.types.part(SHAPES[word](self))
        return self.named(reader.name())

    def named(self, name):
        """The number of the type of a name. One that is defined further on is read first."""
        reader = self.reader
        if name not in self.numbers:
            if name not in self.later:
                raise reader.fault(f'no type is named "{name}", or it is made of itself')
            here, reader.place = reader.place, self.later.pop(name)
            self.define()
            reader.place = here
        return self.numbers[name]

    def between(self, item):
        """What stands between angle brackets, as a list; none without brackets."""
        return self.reader.listed(item, ">") if self.reader.meets("<") else []

    def parts(self, least, most):
        """So many types between angle brackets."""
        parts = self.between(self.type)
        if not least <= len(parts) <= most:
            raise self.reader.fault(f"{len(parts)} types stand here, and not {least} to {most}")
        return parts

    def list_kind(self):
        """A list, which may have a length."""
        self.reader.need("<")
        part = self.type()
        length = self.reader.number() if self.reader.meets(",") else None
        self.reader.need(">")
        return {"list": part} if length is None else {"fixed-length-list": [part, length]}

    def result_kind(self):
        """A result, of which each side may have a type."""
        sides = self.between(lambda: None if self.reader.meets("_") else self.type())
        if len(sides) > 2:
            raise self.reader.fault("a result has two types at most")
        ok, err = (sides + [None, None])[:2]
        return {"result": {"ok": ok, "err": err}}

    # Definitions

    def member(self, word):
        """A member of a type: a field, a case or a flag."""
        docs = self.reader.next.docs
        entry = {"name": self.reader.name()}
        if word == "record":
            self.reader.need(":")
            entry["type"] = self.type()
        elif word == "variant":
            entry["type"] = self.type() if self.reader.meets("(") else None
            if entry["type"] is not None:
                self.reader.need(")")
        return with_docs(entry, docs)

    def target(self):
        """What a name is another one for: a type, or a kind of its own."""
        word = self.reader.next.text
        if word in SHAPES:
            self.reader.take()
            return SHAPES[word](self)
        return {"type": self.type()}

    def define(self):
        """A definition. One that was read already is passed over."""
        docs = self.reader.next.docs
        word, name = self.reader.name(), self.reader.name()
        if name in self.numbers:
            self.reader.place = end_of_item(self.reader.tokens, self.reader.place)
            return
        self.later.pop(name, None)
        if word == "type":
            self.reader.need("=")
            kind = self.target()
            self.reader.need(";")
        else:
            self.reader.need("{")
            members = self.reader.listed(lambda: self.member(word), "}")
            kind = {word: {MEMBERS[word]: members}}
        self.numbers[name] = self.types.add(name, kind, {"world": self.number}, docs)

    # Functions

    def parameter(self):
        """A parameter of a function."""
        name = self.reader.name()
        self.reader.need(":")
        return {"name": name, "type": self.type()}

    def function(self, name, docs):
        """A function behind its name."""
        if not self.reader.meets(":") or not self.reader.meets("func"):
            raise self.reader.fault("functions alone are read here: take wasm-tools")
        self.reader.need("(")
        entry = {"name": name, "kind": "freestanding", "params": self.reader.listed(self.parameter, ")")}
        entry["result"] = self.type() if self.reader.meets("->") else None
        self.reader.need(";")
        return {"function": with_docs(entry, docs)}

    def item(self):
        """An item of the world."""
        reader, word, docs = self.reader, self.reader.next.text, self.reader.next.docs
        if word in ("import", "export"):
            reader.take()
            side = self.imports if word == "import" else self.exports
            name = reader.name()
            if name in side:
                raise reader.fault(f'a second {word} is named "{name}"')
            side[name] = self.function(name, docs)
        elif word == "type" or word in MEMBERS:
            name = reader.tokens[reader.place + 1].text.removeprefix("%")
            if name in self.defined:
                raise reader.fault(f'a second type is named "{name}"')
            self.define()
            self.defined[name] = {"type": self.numbers[name]}
        elif word in UNREAD:
            raise reader.fault(f'"{word}" is not read: take wasm-tools')
        else:
            raise reader.wanted("an item")


# The key of a kind's members.
MEMBERS = {"record": "fields", "variant": "cases", "enum": "cases", "flags": "flags"}

# What stands behind the word of a type without a name.
SHAPES = {
    "tuple": lambda world: {"tuple": {"types": world.parts(1, 2**32)}},
    "option": lambda world: {"option": world.parts(1, 1)[0]},
    "map": lambda world: {"map": world.parts(2, 2)},
    "list": World.list_kind,
    "result": World.result_kind,
}


def end_of_item(tokens, place):
    """The place behind the item that a place is in: behind its `;`, or behind its last bracket."""
    depth = 0
    while tokens[place].sort != "end":
        text = tokens[place].text
        place += 1
        depth += (text == "{") - (text == "}")
        if depth == 0 and text in (";", "}"):
            break
    return place


def definitions_behind(reader):
    """The place of each definition of a world, by its name."""
    tokens, place, found = reader.tokens, reader.place, {}
    while tokens[place].text not in ("}", ""):
        if tokens[place].text == "type" or tokens[place].text in MEMBERS:
            found[tokens[place + 1].text.removeprefix("%")] = place
        place = end_of_item(tokens, place)
    return found


def package_name(reader):
    """The name of the package, with its version."""
    reader.need("package")
    name = reader.name()
    reader.need(":")
    name += f":{reader.name()}"
    if reader.meets("@"):
        name += "@"
        while reader.next.text not in (";", ""):
            name += reader.take().text
    reader.need(";")
    return name


def read_world(reader, types, number):
    """A world of the file, with its name."""
    docs = reader.next.docs
    if reader.next.text != "world":
        raise reader.fault(f'"{reader.next.text}" is not read: take wasm-tools')
    reader.take()
    name = reader.name()
    reader.need("{")
    world = World(reader, types, number)
    while not reader.meets("}"):
        world.item()
    for twice in world.defined.keys() & world.imports.keys():
        raise reader.fault(f'a type and an import are named "{twice}"')
    imports = world.defined | world.imports
    return with_docs({"name": name, "imports": imports, "exports": world.exports, "package": 0}, docs)


def tables_of(text):
    """The tables of a file's worlds."""
    reader, types, worlds = Reader(text), Types(), []
    package = package_name(reader)
    while reader.next.sort != "end":
        worlds.append(read_world(reader, types, len(worlds)))
    named = {world["name"]: number for number, world in enumerate(worlds)}
    packages = [{"name": package, "interfaces": {}, "worlds": named}]
    return {"worlds": worlds, "interfaces": [], "types": types.entries, "packages": packages}


def main():
    """Prints the tables of the file that is named on the command line."""
    if len(sys.argv) != 2:
        print("usage: resolve.py FILE.wit", file=sys.stderr)
        return 1
    try:
        with open(sys.argv[1], encoding="utf-8") as file:
            tables = tables_of(file.read())
    except (OSError, UnicodeDecodeError) as error:
        print(f"resolve.py: {sys.argv[1]}: {error}", file=sys.stderr)
        return 1
    except Fault as fault:
        print(f"resolve.py: {fault}", file=sys.stderr)
        return 1
    except RecursionError:
        print("resolve.py: types: nested too deep", file=sys.stderr)
        return 1
    print(json.dumps(tables))
    return 0


if __name__ == "__main__":
    sys.exit(main())
