#!/usr/bin/env python3
"""Tests of walks.py: what counts as naming a form, and which files are walks.

    python3 tools/test_walks.py
"""

import unittest

from walks import ENUMS, ROOT, forms_named, table, variants_of, walks

SOURCE = """/// An expression.
pub enum Expr {
    Local(Text),
    Call {
        path: Path,
    },
    Unit,
}
"""


class Forms(unittest.TestCase):
    def test_variants_in_their_order(self):
        self.assertEqual(variants_of(SOURCE, "Expr"), ["Local", "Call", "Unit"])

    def test_code_names_a_form_behind_its_enum(self):
        self.assertEqual(forms_named("a/src/b.rt", "Expr::Local(name) => Pattern::Tuple", "Expr"), {"Local"})

    def test_a_definition_names_a_form_as_it_was_taken_in(self):
        taken = "use Rattle.rust_tree.specs.declared.expr.Expr.TheVariants as e\n"
        self.assertEqual(forms_named("a/specs/B.antt", taken + "f (e.Local name) (x.Call y) = name", "Expr"), {"Local"})
        self.assertEqual(forms_named("a/specs/B.antt", "step (Expr-F.Unit) = true", "Expr"), {"Unit"})

    def test_an_import_names_forms(self):
        text = "use Rattle.rust_tree.specs.declared.expr.Expr.TheVariants.{Unit, rolls-Call}\n"
        self.assertEqual(forms_named("a/proofs/B.antt", text, "Expr"), {"Unit", "Call"})

    def test_a_walk_names_half_of_the_forms(self):
        self.assertEqual(walks({"A": ["x", "y"], "B": ["x"], "C": ["x"], "D": []}), [("x", 3)])

    def test_each_form_of_the_tree_is_found_where_it_is_declared(self):
        for enum, forms in table(ROOT).items():
            self.assertTrue(forms)
            for form, files in forms.items():
                with self.subTest(enum=enum, form=form):
                    self.assertIn(ENUMS[enum], files)


if __name__ == "__main__":
    unittest.main()
