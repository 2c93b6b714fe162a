#!/usr/bin/env python3
"""Tests of index.py, and that docs/INDEX.md is up to date.

    python3 tools/test_index.py
"""

import os
import re
import unittest

from index import ROOT, crates_of, first_sentence, index_of, is_listed, lowest_first


class Index(unittest.TestCase):
    def test_the_page_is_up_to_date(self):
        with open(os.path.join(ROOT, "docs", "INDEX.md"), encoding="utf-8") as file:
            self.assertEqual(file.read(), index_of(ROOT))

    def test_each_source_file_says_what_it_is_about(self):
        for at, _, names in os.walk(os.path.join(ROOT, "crates")):
            if os.path.basename(at) == "out" or f"{os.sep}src" not in at:
                continue
            for name in names:
                if name.endswith(".rt"):
                    with self.subTest(name), open(os.path.join(at, name), encoding="utf-8") as file:
                        self.assertTrue(first_sentence(file.read(), "//! "))

    def test_crates_stand_behind_those_below(self):
        crates = crates_of("# a comment\ntop: middle base\nmiddle: base\nbase:\n")
        self.assertEqual(lowest_first(crates), ["base", "middle", "top"])

    def test_a_sentence_may_go_on_in_the_next_line(self):
        self.assertEqual(first_sentence("-- What a\n-- text is. And more.\nuse X\n", "-- "), "What a text is.")
        self.assertEqual(first_sentence("use X\n-- later\n", "-- "), "")

    def test_tables_of_contents_have_no_line(self):
        self.assertFalse(is_listed("specs", "Lib.antt"))
        self.assertFalse(is_listed("specs", os.path.join("declared", "a", "B.antt")))
        self.assertTrue(is_listed("proofs", "AllLemmas.antt"))


class Links(unittest.TestCase):
    def test_each_link_of_a_page_leads_to_a_file(self):
        docs = os.path.join(ROOT, "docs")
        pages = [os.path.join(docs, name) for name in sorted(os.listdir(docs)) if name.endswith(".md")]
        for page in [os.path.join(ROOT, "README.md"), *pages]:
            with open(page, encoding="utf-8") as file:
                links = re.findall(r"\]\(([^)#:]+)\)", file.read())
            for link in links:
                with self.subTest(page=os.path.basename(page), link=link):
                    self.assertTrue(os.path.exists(os.path.join(os.path.dirname(page), link)))


if __name__ == "__main__":
    unittest.main()
