"""The must-fail edits: the first error of each that was run is a fact that no longer holds. And that the two are told apart, on what the check says."""

import unittest

import common
import edits

# What the check says of a fact that no longer holds, by how the proof had it. The terms are cut short.
FACTS = {
    "two types computed": """\
note: no function with a body is declared, so nothing was lowered
/t/specs/Certificate.antt:153:28: error: `sound`: computed as far as they go, the two types are `Nonneg (eval ρ e)` (expected) and `Nonneg (eval ρ e *ℤ eval ρ e)`
  (found)
  expected type `Nonneg (eval ρ (exprOf hs es (sq e)))`, but this has type `Nonneg (eval ρ e *ℤ eval ρ e)`
logic=not-proved
""",
    "two types as printed": """\
/t/specs/Ring.antt:200:26: error: `negP-ok`: as printed, the two types first differ where one has `evalP (negP (term c m p))`
  (expected), at the start, and the other has `negℤ c *ℤ evalM m +ℤ evalP (negP p)` (found)
/t/specs/Ring.antt:207:23: error: `normal-ok`: `negP-ok` was not admitted (it has holes or undetermined implicits, or was rejected), so this cannot be checked
logic=not-proved
""",
    "a computed example": """\
/t/specs/Twice.antt:8:9: error: `three`: expected type `twice 3 ≡ 7`, but this has type `twice 3 ≡ twice 3`
  computed as far as they go, the two types are `Path ℕ 6 7` (expected) and `Path ℕ 6 6` (found)
fn t::double: proved
logic=not-proved
""",
    "search": """\
/t/proofs/double/Proof.antt:13:13: error: `returns`: `search`: no proof of `reads.Post (Prim.tt {0}) (lts.dens reads.Pre reads.Post (c .args))`
  was found. Every way was tried: a deeper search would find nothing either.
fn t::double: not proved
logic=not-proved
""",
    "omega": """\
/t/proofs/double/Proof.antt:14:13: error: `returns`: `omega`: the goal does not follow from what it read. All of that holds, and the goal fails, at `lts.m0`
  = 0. It read 3 hypotheses about numbers, 3 of them from the fields of hypotheses that are records.
logic=not-proved
""",
    "rw, of another term": """\
/t/proofs/entry/Proof.antt:19:13: error: `returns`: `rw`: no occurrence of the path's right endpoint in the goal: write the family yourself and transport, `subst (λ x. …) e t`.
logic=not-proved
""",
    "rw, of ends that differ": """\
/t/proofs/entry/Proof.antt:24:15: error: `returns-2`: give a proof of that as the last argument, `rw L t` (`rw L ?` shows it as a hole's goal), or add what is missing to the list
  `rw` has no last argument, so what it leaves must be a path whose two ends are equal, and `Path ℕ 1 2` isn't one
logic=not-proved
""",
    "simp, of another term": """\
/t/proofs/entry/Proof.antt:12:13: error: `returns`: `simp`: no equation of the list has an instance in the goal `reads.Post (c .before .κs)`
logic=not-proved
""",
    "simp, of ends that differ": """\
/t/proofs/entry/Proof.antt:24:15: error: `returns-2`: give a proof of that as the last argument, `simp L t` (`simp L ?` shows it as a hole's goal), or add what is missing to the list
  `simp` has no last argument, so what it leaves must be a path whose two ends are equal, and `Path ℕ 1 2` isn't one
logic=not-proved
""",
    "an answer that differs": """\
/t/proofs/entry/Proof.antt:14:13: error: `returns`: expected type `reads.Post (c .before .κs) …[1869 bytes]… (c .before)) .1)))`
  but this has type `answer 26 0 (?0 c) ≡ smallQuads (?0 c)`
  here `?0` is the `_` written at 14:24
logic=not-proved
""",
    "a function without a proof file": """\
note: /t/src/lib.rt:5:1: it is not proved that what the function ensures holds when it returns (`returns`)
note: what antt said of a `search` in the proof that rattle made: /t/src/lib.rt:5:8: `returns`: `search`: no proof of `reads.Post`
fn t::double: no proof: expected `double-spec` in /t/proofs/double/Proof.antt; `search` does not close `returns`
logic=not-proved
""",
    "an equation that is missing": """\
/t/proofs/any/Answers.antt:12:99: error: `returns`: list the missing equation with its arguments, or rewrite by `rw` or `simp`
logic=not-proved
""",
    "a rewriting of nothing": """\
/t/proofs/sign/Answers.antt:28:113: error: `loop-p-preserved`: `rw`: no part of the goal `Compared n (step n s)` is an instance of the left side
logic=not-proved
""",
    "two sides that differ": """\
/t/proofs/read/Answers.antt:26:64: error: `returns`: computed as a goal is, one side reads `Prim.Native.Nat.suc (n c)`, and the other `n c`
logic=not-proved
""",
    "a search by `grind`": """\
/t/proofs/write/Answers.antt:12:5: error: `returns`: `grind` found no proof. It did not look into `Rattle.t.specs.Buffer.written`
logic=not-proved
""",
    "an invariant of a type": """\
note: /t/src/lib.rt:15:9: `search` found no proof (`invariant_of-self`); `search` gave up at one of its limits
fn t::next: no proof
logic=not-proved
""",
}

# What it says where nothing is shown.
NO_FACTS = {
    "a name in a definition": """\
/t/specs/Twice.antt:5:15: error: `twice`: `y` is not in scope
/t/specs/Twice.antt:7:9: error: `three`: `twice` was not admitted (it has holes or undetermined implicits, or was rejected), so this cannot be checked
logic=not-proved
""",
    "a name in a contract": """\
/t/src/lib.rt:7:26: error: `ensures-1`: `thrice` is not in scope
logic=not-proved
""",
    "a name in the code": """\
/t/src/lib.rt:9:9: error[unknown-name]: cannot find value `z` in this scope
""",
    "a need that is gone": """\
/t/proofs/double/Proof.antt:8:14: error: `add-result`: `tie.Need-add-result`: module `Rattle·t·proofs.proofs.double.Tie` has no `Need-add-result` that can be named from here
/t/proofs/double/Proof.antt:13:13: error: `returns`: `search`: no proof of `reads.Post`
logic=not-proved
""",
    "a path that is gone": """\
/t/proofs/double/Proof.antt:30:50: error: `returns-2`: record `Rattle·t·proofs.proofs.double.Lts.Else1` has no field `query-refusal`
logic=not-proved
""",
    "a need without an answer": """\
/t/proofs/double/Proof.antt:16:26: error: `double-spec`: expected type `lts.Closed reads.Pre reads.Post ?0`, but this has type `tie.Need-returns-2 → lts.Closed reads.Pre reads.Post ?1`
  here `?0` is the implicit argument {M} of `close` (introduced at 16:15)
logic=not-proved
""",
    "a loop without an invariant": """\
/t/proofs/double/Proof.antt:12:11: error: `returns`: expected a type, but `tie.Need-returns` has type `tie.InvT-loop → tie.MeasureT-loop → Type 0`
logic=not-proved
""",
    "a bracket": """\
/t/specs/Twice.antt:7:1: error: this line starts at column 1, at or left of the enclosing block's column 1, but the `(` opened at 5:11 is still open; indent it past column 1
logic=not-proved
""",
    "a value of another type": """\
/t/specs/Twice.antt:5:11: error: `twice`: expected type `ℕ`, but this has type `_≡_ {?ℓ0} {A = ?0 x} (?1 x) (?1 x)`
logic=not-proved
""",
    "a form that isn't covered": """\
fn t::double: proved
fn t::read: no proof: expected `read-spec` in /t/proofs/read/Proof.antt; the borrow checker does not cover this function yet: /t/src/lib.rt:12:8: a reference to a struct
logic=not-proved
""",
    "nothing at all": "logic=not-proved\n",
}


class ToldApart(unittest.TestCase):
    def test_facts(self):
        for how, log in FACTS.items():
            with self.subTest(how):
                self.assertTrue(edits.is_fact(edits.first_error(log)), edits.first_error(log))

    def test_what_shows_nothing(self):
        for how, log in NO_FACTS.items():
            with self.subTest(how):
                self.assertTrue(edits.shows_nothing(edits.first_error(log)), edits.first_error(log))

    def test_the_first_error_decides(self):
        [name, fact] = [NO_FACTS["a name in a definition"], FACTS["search"]]
        self.assertTrue(edits.shows_nothing(edits.first_error(name + fact)))
        self.assertTrue(edits.is_fact(edits.first_error(fact + name)))


class Told(unittest.TestCase):
    def test_lines_of_the_gate(self):
        log = ("rt: must-fail t/a.edit: refused, as it must be: ./specs/T.antt:8:9: error: `three`: `omega`: the goal does not follow\n"
               "rt: must-fail t/b.edit: refused, as it must be (only by a limit of the prover): note: src/lib.rt:5:1: it is not proved that it fits\n"
               "rt: must-fail t/c.edit: refused, as it must be\nrt: must-fail t/d.edit: BAD EDIT: an 'old:' text is in src/lib.rt 0 times\n")
        said = edits.refused(log)
        self.assertEqual(list(said), ["t/a", "t/b", "t/c"])
        self.assertEqual([edits.is_fact(edits.first_error(text)) for text in said.values()], [True, True, False])


class Edits(unittest.TestCase):
    def setUp(self):
        self.run_ones = edits.refused(edits.LOG.read_text()) if edits.LOG.is_file() else {}
        self.not_run = len(set(edits.names()) - set(self.run_ones))

    def test_each_was_run(self):
        if self.not_run:
            self.skipTest(f"{self.not_run} must-fail edits have no line in {edits.LOG}: the gate leaves one of each")

    def test_each_breaks_a_fact(self):
        if not self.run_ones:
            self.skipTest("no must-fail edit was run here")
        first = {edit: edits.first_error(log) for edit, log in self.run_ones.items()}
        for edit, error in first.items():
            if not edits.is_fact(error) and not edits.shows_nothing(error):
                print(f"{edit}: the check words it in a way that isn't known, read it: {error:.200}")
        self.assertEqual([f"{edit}: {error:.200}" for edit, error in first.items() if edits.shows_nothing(error)], [])


if __name__ == "__main__":
    unittest.main()
