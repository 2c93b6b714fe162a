#!/usr/bin/env python3
"""Tests of document.py: the samples beside it, and faults by their place.

    python3 tools/test_document.py

Each sample is a world in WIT, its tables in the form that wasm-tools prints, and its document.
"""

import copy
import json
import os
import subprocess
import sys
import tempfile
import unittest

from document import document_of
from names import forms_of
from node import Fault

HERE = os.path.dirname(os.path.abspath(__file__))
SAMPLES = os.path.join(HERE, "samples")

# The samples, and the worlds that are asked for.
WORLDS = {
    "numbers": None,
    "texts": "greeter",
    "people": "people",
    "doors": "doors",
    "shapes": "t:shapes/drawing",
    "versions": "my:tool/tool",
    "inline": "window",
    "world_types": "files",
    "async": "reader",
}


def path_of(sample, ending):
    """The path of a sample's file."""
    return os.path.join(SAMPLES, f"{sample}.{ending}")


def read(sample, ending):
    """The JSON value in a sample's file."""
    with open(path_of(sample, ending), encoding="utf-8") as file:
        return json.load(file)


def tables_of(sample):
    """The tables of a sample, in the form that wasm-tools prints."""
    return read(sample, "wasm-tools.json")


def run(*words, given=b""):
    """A run of the command."""
    command = [sys.executable, os.path.join(HERE, "document.py"), *words]
    return subprocess.run(command, input=given, capture_output=True, check=False)


class Samples(unittest.TestCase):
    """Each sample gives its document, keys in their order too."""

    def test_documents(self):
        for sample, world in WORLDS.items():
            with self.subTest(sample):
                made = document_of(tables_of(sample), world)
                self.assertEqual(json.dumps(made), json.dumps(read(sample, "json")))

    def test_every_sample_is_tried(self):
        names = {name.split(".")[0] for name in os.listdir(SAMPLES)}
        self.assertEqual(names, set(WORLDS))

    def test_tables_are_left_as_they_were(self):
        tables = tables_of("shapes")
        before = copy.deepcopy(tables)
        document_of(tables)
        self.assertEqual(tables, before)


class Forms(unittest.TestCase):
    """The four forms of a name."""

    def test_words_are_split_at_the_dash(self):
        wanted = {"wit": "foo-bar", "snake": "foo_bar", "camel": "FooBar", "upper": "FOO_BAR"}
        self.assertEqual(forms_of("foo-bar"), wanted)

    def test_words_in_capitals(self):
        wanted = {"wit": "HTTP-port", "snake": "http_port", "camel": "HttpPort", "upper": "HTTP_PORT"}
        self.assertEqual(forms_of("HTTP-port"), wanted)


class OlderTables(unittest.TestCase):
    """What older wasm-tools print otherwise gives the same document."""

    def test_interface_by_number(self):
        tables = tables_of("inline")
        tables["worlds"][0]["imports"]["interface-0"] = {"interface": 0}
        self.assertEqual(document_of(tables), read("inline", "json"))

    def test_fixed_size_list(self):
        tables = tables_of("shapes")
        tables["types"][6]["kind"] = {"fixed-size-list": [0, 4]}
        self.assertEqual(document_of(tables), read("shapes", "json"))

    def test_owner_none(self):
        tables = tables_of("shapes")
        for ty in tables["types"]:
            ty["owner"] = ty["owner"] or "none"
        self.assertEqual(document_of(tables), read("shapes", "json"))

    def test_marks_of_async_functions(self):
        tables = tables_of("async")
        imports = tables["worlds"][0]["imports"]
        imports["[async]wait"] = imports.pop("wait")
        imports["[async]wait"]["function"]["name"] = "[async]wait"
        self.assertEqual(document_of(tables), read("async", "json"))


class Worlds(unittest.TestCase):
    """Which world a document is made of."""

    def test_another_world(self):
        made = document_of(tables_of("world_types"), "other")
        self.assertEqual(made["resolve"]["worlds"][0]["name"], forms_of("other"))
        self.assertEqual(made["resolve"]["types"], [])

    def test_a_path_with_a_version(self):
        made = document_of(tables_of("texts"), "demo:greeter/greeter@1.2.0")
        self.assertEqual(made, read("texts", "json"))

    def test_one_of_several_must_be_named(self):
        with self.assertRaisesRegex(Fault, "^worlds: there are 2: name one by --world$"):
            document_of(tables_of("world_types"))

    def test_no_such_world(self):
        with self.assertRaisesRegex(Fault, '^worlds: none of 1 are named "v"$'):
            document_of(tables_of("numbers"), "v")


# Changes of a sample's tables: the sample, the keys that lead to the place, what is put there (`REMOVED` takes the key
# away), and the fault.
REMOVED = object()
FAULTS = [
    ("shapes", ("types", 3, "kind"), {"foo": 1}, 'types[3].kind: unknown kind "foo"'),
    ("shapes", ("types", 3, "kind"), "list", 'types[3].kind: unknown kind "list"'),
    ("shapes", ("types", 3, "kind"), {}, "types[3].kind: one member is wanted, not 0"),
    ("shapes", ("types", 1, "kind", "list"), "u128", 'types[1].kind.list: unknown type "u128"'),
    ("shapes", ("types", 1, "kind", "list"), 99, "types[1].kind.list: 99 is out of range"),
    ("shapes", ("types", 1, "kind", "list"), 1, "types[1].kind.list: type 1 is a part of itself"),
    (
        "shapes",
        ("types", 1, "kind", "list"),
        True,
        "types[1].kind.list: a number is wanted, not a boolean",
    ),
    (
        "shapes",
        ("types", 8, "kind", "handle"),
        {"lent": 7},
        'types[8].kind.handle: unknown handle "lent"',
    ),
    (
        "shapes",
        ("types", 14, "kind", "map"),
        ["u8"],
        "types[14].kind.map: a key and a value are wanted",
    ),
    ("shapes", ("types", 0, "name"), "Po_int", 'types[0].name: "Po_int" is no WIT name'),
    ("shapes", ("types", 0, "owner"), {"package": 0}, 'types[0].owner: unknown owner "package"'),
    (
        "shapes",
        ("types", 0, "owner"),
        {"world": 1},
        "types[0].owner: world 1 is not the one that is asked for",
    ),
    ("shapes", ("types", 0, "size"), 8, 'types[0]: unknown key "size"'),
    (
        "shapes",
        ("types", 0, "kind", "record", "fields", 1, "type"),
        REMOVED,
        'types[0].kind.record.fields[1]: no "type"',
    ),
    (
        "shapes",
        ("interfaces", 0, "types", "shape"),
        3,
        'interfaces[0].types.shape: type 3 is not named "shape"',
    ),
    ("numbers", ("interfaces",), {}, "interfaces: a list is wanted, not an object"),
    ("numbers", ("packages", 0, "name"), "t", 'packages[0].name: "t" is no package name'),
    ("numbers", ("worlds", 0, "package"), None, "worlds[0].package: a number is wanted, not null"),
    (
        "shapes",
        ("interfaces", 0, "functions", "box-of", "kind"),
        "sync",
        'interfaces[0].functions["box-of"].kind: unknown function kind "sync"',
    ),
    (
        "shapes",
        ("interfaces", 0, "functions", "box-of", "kind"),
        {"static": 7},
        'interfaces[0].functions["box-of"].name: "box-of" does not begin with [static]',
    ),
    (
        "shapes",
        ("interfaces", 0, "functions", "[static]pen.join", "kind"),
        {"static": 3},
        'interfaces[0].functions["[static]pen.join"].name: "[static]pen.join" does not name the resource "color"',
    ),
    (
        "numbers",
        ("worlds", 0, "imports", "add", "function", "name"),
        "sub",
        'worlds[0].imports.add.function.name: "sub" does not stand under its name, but under "add"',
    ),
    (
        "numbers",
        ("worlds", 0, "imports", "add"),
        {"resource": 0},
        'worlds[0].imports.add: unknown item "resource"',
    ),
    (
        "inline",
        ("worlds", 0, "imports", "second"),
        {"interface": 0},
        "worlds[0].imports.second: interface 0 stands twice among the imports",
    ),
    (
        "versions",
        ("worlds", 0, "imports", "interface-0"),
        REMOVED,
        "types[0].owner.interface: interface 0 is not among the imports of the world",
    ),
]


def changed(tables, keys, value):
    """The tables with one value put, or taken away, at a place."""
    *way, last = keys
    inner = tables
    for key in way:
        inner = inner[key]
    if value is REMOVED:
        del inner[last]
    else:
        inner[last] = value
    return tables


class Faults(unittest.TestCase):
    """What is not known is a fault with its place."""

    def test_faults(self):
        for sample, keys, value, wanted in FAULTS:
            with self.subTest(wanted):
                with self.assertRaises(Fault) as caught:
                    document_of(changed(tables_of(sample), keys, value))
                self.assertEqual(str(caught.exception), wanted)


class Command(unittest.TestCase):
    """The command line."""

    def test_a_document_on_one_line(self):
        done = run("--world", "greeter", path_of("texts", "wasm-tools.json"))
        wanted = json.dumps(read("texts", "json"), separators=(",", ":"), ensure_ascii=False)
        self.assertEqual((done.returncode, done.stdout.decode()), (0, wanted + "\n"))

    def test_standard_input_and_options(self):
        given = json.dumps(tables_of("numbers")).encode()
        with tempfile.NamedTemporaryFile("w", suffix=".json") as options:
            options.write('{"std-feature":true}')
            options.flush()
            done = run("--options", options.name, "-", given=given)
        wanted = {**read("numbers", "json"), "options": {"std-feature": True}}
        self.assertEqual((done.returncode, json.loads(done.stdout)), (0, wanted))

    def test_a_fault(self):
        tables = changed(tables_of("numbers"), ("types",), [1])
        tables["worlds"][0]["imports"]["add"]["function"]["result"] = 0
        done = run("-", given=json.dumps(tables).encode())
        wanted = b"document.py: types[0]: an object is wanted, not a number\n"
        self.assertEqual((done.returncode, done.stdout, done.stderr), (1, b"", wanted))

    def test_no_json(self):
        done = run("-", given=b"package t:p;")
        self.assertEqual((done.returncode, done.stdout), (1, b""))
        self.assertRegex(done.stderr, b"^document.py: -: no JSON: ")

    def test_no_file(self):
        done = run(path_of("none", "json"))
        self.assertEqual((done.returncode, done.stdout), (1, b""))
        self.assertRegex(done.stderr, b"none.json: No such file or directory\n$")


if __name__ == "__main__":
    unittest.main()
