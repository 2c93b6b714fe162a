#!/usr/bin/env python3
"""Tests of resolve.py: the samples beside it, the worked examples, and faults by their line.

    python3 tools/test_resolve.py
"""

import json
import os
import subprocess
import sys
import tempfile
import unittest

from document import document_of
from node import Fault
from resolve import tables_of

HERE = os.path.dirname(os.path.abspath(__file__))
SAMPLES = os.path.join(HERE, "samples")
EXAMPLES = os.path.join(HERE, "..", "crates", "examples", "data")

# Worked examples whose documents say no more than their WIT, by the beginnings of their names.
FAMILIES = (
    "alias_of", "each_", "enum_in_", "error_", "export_", "fields_", "flags_in_", "flags_of_", "freed_", "joined_", "locals_",
    "option_of_", "options_", "record_of_each", "records_", "result_of_option", "result_of_record", "result_of_text",
    "result_of_variant", "results_of_each", "seventeen_", "sixteen_", "slot", "tuple_of_a_text", "variants_", "words_",
)  # fmt: skip


def read(folder, name):
    """The text of a file."""
    with open(os.path.join(folder, name), encoding="utf-8") as file:
        return file.read()


def world(items):
    """A file of one world with these items."""
    return "package t:p;\nworld w {\n" + items + "\n}\n"


class Worlds(unittest.TestCase):
    """What is read is what the tables say."""

    def test_samples(self):
        for sample in ("numbers", "texts", "people", "doors"):
            with self.subTest(sample):
                tables = tables_of(read(SAMPLES, f"{sample}.wit"))
                self.assertEqual(tables, json.loads(read(SAMPLES, f"{sample}.wasm-tools.json")))

    def test_worked_examples(self):
        names = sorted(n[:-3] for n in os.listdir(EXAMPLES) if n.endswith(".rs") and n.startswith(FAMILIES))
        self.assertGreater(len(names), 150)
        for name in names:
            with self.subTest(name):
                wanted = json.loads(read(EXAMPLES, f"{name}.json"))
                made = document_of(tables_of(read(EXAMPLES, f"{name}.wit")), "w", wanted.get("options"))
                self.assertEqual(made, wanted)

    def test_types_may_be_used_before_they_are_defined(self):
        tables = tables_of(world("import f: func(x: r);\nrecord r { e: e }\nenum e { a }"))
        self.assertEqual([entry["name"] for entry in tables["types"]], ["e", "r"])

    def test_each_kind_without_a_name(self):
        types = "list<u8>, list<u8, 4>, option<u8>, result, result<u8>, result<_, u8>, map<string, u8>, tuple<u8, char>"
        tables = tables_of(world(f"type t = tuple<{types}>;"))
        kinds = [entry["kind"] for entry in tables["types"]]
        self.assertEqual(kinds[0], {"list": "u8"})
        self.assertEqual(kinds[1], {"fixed-length-list": ["u8", 4]})
        sides = ((None, None), ("u8", None), (None, "u8"))
        self.assertEqual(kinds[3:6], [{"result": {"ok": ok, "err": err}} for ok, err in sides])
        self.assertEqual(kinds[-1], {"tuple": {"types": list(range(8))}})

    def test_equal_types_without_names_are_one(self):
        tables = tables_of(world("import f: func(x: option<u8>, y: option<u8>);"))
        self.assertEqual(len(tables["types"]), 1)

    def test_docs(self):
        tables = tables_of(world("/// One.\n///\n/// Two.\nimport f: func();"))
        self.assertEqual(tables["worlds"][0]["imports"]["f"]["function"]["docs"], {"contents": "One.\n\nTwo."})

    def test_comments_and_marks(self):
        tables = tables_of(world("// none\nimport %type: /* none */ func(%in: u8) -> u8;"))
        self.assertEqual(list(tables["worlds"][0]["imports"]), ["type"])


class Faults(unittest.TestCase):
    """What is not read is a fault with its line."""

    def test_faults(self):
        rows = (
            ("import f: func(x: y);", 'line 3: no type is named "y", or it is made of itself'),
            ("record r { r: r }", 'line 3: no type is named "r", or it is made of itself'),
            ("resource r;", 'line 3: "resource" is not read: take wasm-tools'),
            ("use i.{t};", 'line 3: "use" is not read: take wasm-tools'),
            ("import i: interface { }", "line 3: functions alone are read here: take wasm-tools"),
            ("import wasi:io/streams;", "line 3: functions alone are read here: take wasm-tools"),
            ("import f: func()", 'line 4: ";" is wanted, not "}"'),
            ("import f: func();\nimport f: func();", 'line 4: a second import is named "f"'),
            ("enum e { a }\nenum e { b }", 'line 4: a second type is named "e"'),
            ("import f: func(x: option<u8, u8>);", "line 3: 2 types stand here, and not 1 to 1"),
            ("?", "line 3: nothing of WIT begins with '?'"),
            ("what", 'line 3: an item is wanted, not "what"'),
        )
        for items, fault in rows:
            with self.subTest(items):
                with self.assertRaises(Fault) as found:
                    tables_of(world(items))
                self.assertEqual(str(found.exception), fault)

    def test_a_cut_file(self):
        text = read(SAMPLES, "doors.wit")
        for length in range(text.index("world") + 1, len(text.rstrip())):
            with self.assertRaises(Fault):
                tables_of(text[:length])

    def test_other_files(self):
        for text in ("", "package t:p;\ninterface i { }\n", "world w { }"):
            with self.subTest(text), self.assertRaises(Fault):
                tables_of(text)


class Command(unittest.TestCase):
    """The command itself."""

    def run_on(self, *words):
        """A run with these words."""
        command = [sys.executable, os.path.join(HERE, "resolve.py"), *words]
        return subprocess.run(command, capture_output=True, check=False)

    def test_tables_are_printed(self):
        done = self.run_on(os.path.join(SAMPLES, "doors.wit"))
        self.assertEqual((done.returncode, done.stderr), (0, b""))
        self.assertEqual(json.loads(done.stdout), json.loads(read(SAMPLES, "doors.wasm-tools.json")))

    def test_faults_have_status_one(self):
        with tempfile.TemporaryDirectory() as folder:
            path = os.path.join(folder, "w.wit")
            with open(path, "w", encoding="utf-8") as file:
                file.write("package t:p;\nworld w {")
            for words in ((path,), (os.path.join(folder, "none.wit"),), ()):
                done = self.run_on(*words)
                self.assertEqual((done.returncode, done.stdout), (1, b""))
                self.assertNotEqual(done.stderr, b"")


if __name__ == "__main__":
    unittest.main()
