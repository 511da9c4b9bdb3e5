#!/usr/bin/env python3
"""Tests how mutants.py reads the output of checks, and the text of a mutant.

Usage: mutants_test.py
"""
import tempfile
import unittest
from pathlib import Path

from mutants import ANY, Unreadable, applied, batches_of, can_be_joined, Mutant, names_of, open_goals, read_mutant, verdict_of

ENSURES = "it is not proved that what the function ensures holds when it returns"
ANSWERS = "no proof: expected answers in ./proofs/refs/named"
BY_SEARCH = f"""\
note: src/refs/named.rt:23:1: {ENSURES} (`returns`)
note: a goal may be false even if its line does not say so: rattle seldom finds values that break an equation of lists
fn gixp_updates::refs::named::add_name: {ANSWERS}/add_name/Answers.antt; `search` did not prove `returns`
fn gixp_updates::refs::named::add_ref: no proof: it calls `gixp_updates::refs::named::add_name`, which is not proved
note: src/refs/named.rt:45:1: {ENSURES} (`returns`)
fn gixp_updates::refs::named::names_of: {ANSWERS}/names_of/Answers.antt; `search` did not prove `returns`; it calls \
`gixp_updates::refs::named::add_ref`, which is not proved
fn gixp_updates::refs::named::has_object: proved
note: no hole is left, but the crate is not proved: see the errors and the functions' lines above
""".splitlines()
BY_ANSWER = """\
./proofs/digits/encode/Answers.antt:12:7: error: `preserved`: `answer.preserved` has type `◌≡◌ a b`, and the goal is `◌≡◌ a c`
fn gixp_hash::digits::encode: no proof: its answers are refused
fn gixp_hash::object_id::ObjectId::to_hex: no proof: it calls `gixp_hash::digits::encode`, which is not proved
""".splitlines()
LOST_NAME = """\
./proofs/refs/unmatched/is_matched/Answers.antt:7:15: error: `returns`: `is_match_of` is not in scope
fn gixp_updates::refs::unmatched::is_matched: no proof: its answers are refused
""".splitlines()
LOST_DECLARATION = """\
./proofs/HeadlineLemmas.antt:481:3: error: 1 declaration that depends on `HoldsSession`, which was not admitted, was not checked: \
asks_of_map
""".splitlines()
BORROWED = """\
src/run.rt:110:15: error: gixp_client::run::fetch_mapped: the borrow checker does not cover this function yet: a type argument names \
several lifetimes
fn gixp_client::run::fetch_mapped: no proof: the borrow checker does not cover it
""".splitlines()
UNREAD = """\
src/object_id.rt:41:31: error: expected the end of the line
""".splitlines()
TYPED = """\
src/object_id.rt:41:9: error[E0308]: mismatched types
""".splitlines()
LARGE = """\
note: src/lib.rt:1:1: a large solution was found
fn gixp_hash::same::is_same_id: proved
""".splitlines()
NAMES = """\
fn gixp_hash::digits::encode: proved
fn gixp_hash::object_id::ObjectId::to_hex: proved
fn gixp_hash::object_id::ObjectIdDisplay::fmt: proved
fn gixp_hash::object_id::ObjectIdDebug::fmt: proved
""".splitlines()
SOURCE = """\
//! Ids.
pub struct Id { bytes: [u8; 20] }

impl Id {
    /// Whether it is null.
    pub fn is_null(&self) -> bool {
        self.bytes == [0; 20]
    }
}

impl<T: Copy> Display for Shown<T> {
    fn fmt(&self) -> bool {
        true
    }
}

fn first(ids: &[Id]) -> u8 {
    ids[0].bytes[0]
}

const MOST: u8 = 7;
"""


class Verdicts(unittest.TestCase):
    def test_a_proof_is_no_refusal(self):
        self.assertEqual(verdict_of(True, NAMES), ("survived", ""))

    def test_a_goal_that_search_leaves_open(self):
        self.assertEqual(verdict_of(False, BY_SEARCH), ("killed", BY_SEARCH[0]))

    def test_a_goal_whose_answer_is_refused(self):
        self.assertEqual(verdict_of(False, BY_ANSWER), ("killed", BY_ANSWER[0]))

    def test_a_name_that_a_proof_lost(self):
        self.assertEqual(verdict_of(False, LOST_NAME), ("name", LOST_NAME[0]))
        self.assertEqual(verdict_of(False, LOST_DECLARATION)[0], "name")

    def test_a_lost_name_beside_a_goal(self):
        self.assertEqual(verdict_of(False, LOST_NAME + BY_ANSWER), ("killed", BY_ANSWER[0]))

    def test_what_borrows_and_types_refuse(self):
        self.assertEqual(verdict_of(False, BORROWED), ("types", BORROWED[0]))
        self.assertEqual(verdict_of(False, TYPED), ("types", TYPED[0]))

    def test_a_text_that_cannot_be_read(self):
        self.assertEqual(verdict_of(False, UNREAD), ("unreadable", UNREAD[0]))

    def test_no_line_that_says_why(self):
        self.assertEqual(verdict_of(False, LARGE), ("types", LARGE[-1]))
        self.assertEqual(verdict_of(False, []), ("types", ""))


class OpenGoals(unittest.TestCase):
    def test_goals_of_a_function_itself(self):
        found = open_goals(BY_SEARCH)
        self.assertEqual(set(found), {"gixp_updates::refs::named::add_name", "gixp_updates::refs::named::names_of"})
        self.assertEqual(found["gixp_updates::refs::named::add_name"], BY_SEARCH[2])

    def test_answers_of_a_function_itself(self):
        self.assertEqual(open_goals(BY_ANSWER), {"gixp_hash::digits::encode": BY_ANSWER[0]})

    def test_names_and_borrows_are_no_goals(self):
        self.assertEqual(open_goals(LOST_NAME), {})
        self.assertEqual(open_goals(BORROWED), {})


class Mutants(unittest.TestCase):
    def setUp(self):
        self.room = tempfile.TemporaryDirectory()
        self.crate = Path(self.room.name)
        (self.crate / "src").mkdir()
        (self.crate / "src" / "id.rt").write_text(SOURCE)

    def tearDown(self):
        self.room.cleanup()

    def functions(self, old):
        return applied([("src/id.rt", old, "x")], self.crate)[1]

    def test_pairs(self):
        pairs = [("src/id.rt", "a: b", ""), ("src/id.rt", "c", "d")]
        self.assertEqual(read_mutant("file: src/id.rt\nold: a: b\nnew: \nold: c\nnew: d\n"), (pairs, set()))
        self.assertEqual(read_mutant("file: src/id.rt\nold: a: b\nnew: \nold: c\nnew: d\nin: same::is_same_id\n"), (pairs, {"same::is_same_id"}))
        for text in ("", "file: src/id.rt\n", "old: a\nnew: b\n", "file: src/id.rt\nold: a\nwhy: b\nnew: c\n"):
            self.assertRaises(Unreadable, read_mutant, text)

    def test_the_function_around_a_place(self):
        self.assertEqual(self.functions("self.bytes == [0; 20]"), {f"id::Id{ANY}::is_null"})
        self.assertEqual(self.functions("        true"), {f"id::Shown{ANY}Display{ANY}::fmt"})
        self.assertEqual(self.functions("ids[0].bytes[0]"), {"id::first"})
        self.assertEqual(self.functions("MOST: u8 = 7"), {None})

    def test_a_text_that_occurs_twice_or_never(self):
        self.assertRaises(Unreadable, self.functions, "bytes")
        self.assertRaises(Unreadable, self.functions, "no such text")
        self.assertRaises(Unreadable, applied, [("src/none.rt", "a", "b")], self.crate)

    def test_names_of_functions(self):
        self.assertEqual(names_of({"digits::encode"}, NAMES), {"gixp_hash::digits::encode"})
        self.assertEqual(names_of({f"object_id::ObjectId{ANY}Display{ANY}::fmt"}, NAMES), {"gixp_hash::object_id::ObjectIdDisplay::fmt"})
        self.assertEqual(names_of({"digits::decode", None}, NAMES), {None})

    def test_mutants_that_can_be_joined(self):
        one, same, other = (Mutant(name, [("src/id.rt", old, "x")], functions) for name, old, functions in (
            ("one", "self.bytes == [0; 20]", {"a"}), ("same", "[0; 20]", {"a"}), ("other", "ids[0].bytes[0]", {"b"})))
        self.assertTrue(can_be_joined([one, other], self.crate))
        self.assertFalse(can_be_joined([one, same], self.crate))
        self.assertEqual(batches_of([one, same, other], self.crate), [[one, other], [same]])


if __name__ == "__main__":
    unittest.main()
