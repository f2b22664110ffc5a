"""How tools/laws weakens the parts of definitions and the clauses of laws. What the prover says of them is not tested here."""

import runpy
import sys
import unittest
from unittest import mock

from .tools import TOOLS, Run

with mock.patch.object(sys, "path", list(sys.path)):
    LAWS = runpy.run_path(str(TOOLS / "laws"))
RECORD = """pub record WasPut (p : Pass) (q : Pass) : Type 0 where
  pub did : DidPut p q
  pub none : (n : ℕ) → n < 2
      → fulls_of q ≡ n

-- the next one
"""
PAIR = """abbrev pub IsNew : Pass → Type 0
IsNew p = (n : ℕ) × (sight_of p ≡ n) × (fulls_of p ≡ 0)
"""
LAW = """pub fn numbers()
    ensures put { (p q : Pass) → WasPut p q → (fulls_of q ≡ 1) × (p ≡ q) }
    ensures other { (p : Pass) → ¬ (WasPut p p) }
    ensures none { fulls_of one ≡ 0 }
{}
"""


class Laws(unittest.TestCase):
    def test_each_field_of_a_record_can_say_nothing(self):
        did, none = LAWS["parts_of"]("WasPut", RECORD)
        self.assertEqual(did, ("did", "pub did : DidPut p q", "pub did : ((DidPut p q) → (DidPut p q))"))
        self.assertTrue(all(new in RECORD for _, new, _ in (did, none)))

    def test_each_part_of_a_pair_but_its_values_can_say_nothing(self):
        parts = list(LAWS["parts_of"]("IsNew", PAIR))
        self.assertEqual([old for _, old, _ in parts], ["(sight_of p ≡ n)", "(fulls_of p ≡ 0)"])

    def test_a_clause_with_premises_can_end_in_a_contradiction(self):
        function = LAWS["tree"].functions(LAW)[0]
        law, labels = LAWS["without_conclusions"](LAW, function)
        self.assertEqual(labels, ["put", "other"])
        self.assertIn("ensures put { (p q : Pass) → WasPut p q → ⊥ }", law)
        self.assertNotIn("none", law)

    def test_a_crate_has_to_be_named(self):
        self.assertEqual([Run("laws").status, Run("laws", "no_crate").status], [2, 2])
