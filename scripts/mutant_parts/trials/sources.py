"""Functions of a source, edits of them, passes and sums, over a crate of a few lines."""

import tempfile
import unittest
from pathlib import Path

from crates import Crates

from mutant_parts import cited, functions, passes, sums, table
from mutant_parts.edits import ONE_BY_ONE, Unfit, edits_of

LOW = '''//! Rows, as "fn text() {" has none.

ghost use Rattle.low.specs.Rows.{row};

/// The next row; '{' opens nothing.
#[tactic(auto)]
pub fn next(number: u32) -> u32
    requires few { number < 10 }
    ensures { result ≡ row number }
{
    let open = '{';
    number + 1
}

impl<'a> Rows<'a> {
    pub fn last(&self) -> u32 {
        match self.rows { 0 => next(0), _ => next(9) }
    }
}

pub const fn width() -> u32 {
    4
}
'''
HIGH = "pub fn both() -> u32\n    ensures { result ≡ 1 }\n{\n    low::next(0)\n}\n"
EDITS = {
    "next_skips": "file: src/lib.rt\nold: number + 1\nnew: number + 2\n",
    "last_is_next": "file: src/lib.rt\nold: next(9)\nnew: next(8)\n",
    "next_stays": "file: src/lib.rt\nold: number + 1\nnew: number + 0\n",
    "wide": "file: src/lib.rt\nold:     4\nnew:     8\n",
    "row_of_all": "file: specs/Rows.antt\nold: row n = n\nnew: row n = 1\n",
    "more_numbers": "file: src/lib.rt\nold: number < 10\nnew: number < 11\n",
}


class House(unittest.TestCase):
    """A repository of two crates."""

    def setUp(self):
        folder = tempfile.TemporaryDirectory()
        self.addCleanup(folder.cleanup)
        self.top = Path(folder.name)
        self.crates = Crates({"low": [], "high": ["low"]})
        (self.top / "crates.txt").write_text("low:\nhigh: low\n")
        self.write("low/src/lib.rt", LOW)
        self.write("low/specs/Rows.antt", "row n = n\n")
        self.write("low/proofs/next/Answers.antt", "returns c = refl\n")
        self.write("high/src/lib.rt", HIGH)
        self.mutants(EDITS)

    def write(self, name, text):
        path = self.top / "crates" / name
        path.parent.mkdir(parents=True, exist_ok=True)
        path.write_text(text)

    def mutants(self, texts):
        self.write("low/mutants.edits", "\n".join(f"== {name}\n{text}" for name, text in texts.items()))


class Functions(unittest.TestCase):
    def items(self, text):
        return list(cited.items("low", "lib.rt", text))

    def test_where_they_stand(self):
        found = [(one.name, one.owner, one.first, one.last) for one in functions.functions(LOW)]
        self.assertEqual(found, [("next", "", 6, 13), ("last", "impl<'a> Rows<'a>", 16, 18)])

    def test_statements_have_no_bodies_and_no_comments(self):
        other = LOW.replace("number + 1", "1 + number").replace("/// The next row", "/// One row further")
        self.assertEqual(self.items(LOW), self.items(other))
        self.assertNotEqual(self.items(LOW), self.items(LOW.replace("number < 10", "number < 11")))

    def test_what_a_constant_computes_is_a_statement(self):
        self.assertNotEqual(self.items(LOW), self.items(LOW.replace("    4\n", "    8\n")))

    def test_what_cites_a_statement(self):
        found = [sorted(item.names) for item in self.items(LOW + "\nimpl Drop for Rows<'_> {\n    fn drop(&mut self) {}\n}\n\nstruct Row;\n")]
        self.assertEqual(found, [["low.specs.next", "next"], ["last", "low.specs.last"], [], ["Row", "low.specs.Row", "low.specs.width", "width"]])

    def test_a_statement_has_its_imports(self):
        following, last, *_ = (item.text for item in self.items(LOW))
        self.assertIn("low.specs.row", following)
        self.assertNotIn("specs", last)


class Mutants(House):
    def setUp(self):
        super().setUp()
        self.crate = self.top / "crates/low"

    def refused(self, text, words):
        self.write("low/mutants.edits", text)
        with self.assertRaisesRegex(Unfit, words):
            edits_of(self.crate)

    def test_each_is_read_with_its_text(self):
        self.assertEqual({edit.name: edit.text for edit in edits_of(self.crate)}, EDITS)

    def test_a_crate_without_any(self):
        self.assertEqual(edits_of(self.top / "crates/high"), [])

    def test_those_of_must_fail(self):
        self.write("low/must-fail/wide.edit", EDITS["wide"])
        self.assertEqual([(edit.name, edit.text) for edit in edits_of(self.crate, ONE_BY_ONE)], [("wide", EDITS["wide"])])

    def test_two_of_a_name(self):
        self.refused(f"== wide\n{EDITS['wide']}\n== wide\n{EDITS['next_skips']}", "low/mutants.edits: wide: two mutants have this name")

    def test_text_above_the_first_name(self):
        self.refused(EDITS["wide"], "low/mutants.edits: no line '== NAME' stands above: file:")

    def test_a_line_that_is_none(self):
        self.refused(f"== wide\nodl: 4\n{EDITS['wide']}", "low/mutants.edits: wide: a line begins with none of .*: odl: 4")

    def test_one_that_edits_nothing(self):
        self.refused("== wide\nfile: src/lib.rt\n", "low/mutants.edits: wide: it has no lines 'old:' and 'new:'")


class Passes(House):
    def setUp(self):
        super().setUp()
        self.edits = {edit.name: edit for edit in edits_of(self.top / "crates/low")}
        self.bodies = {name: found for name, edit in self.edits.items() if (found := passes.body_changed(edit))}

    def test_only_bodies_go_together(self):
        self.assertEqual({name: of[1].name for name, of in self.bodies.items()},
                         {"next_skips": "next", "next_stays": "next", "last_is_next": "last"})

    def test_a_function_is_edited_once_and_not_with_its_callee(self):
        pairs = [(self.edits[name], of) for name, of in self.bodies.items()]
        found = passes.packed(pairs, passes.Calls(self.top / "crates/low"))
        self.assertEqual([[edit.name for edit, _ in one] for one in found], [["next_skips"], ["next_stays"], ["last_is_next"]])

    def test_what_a_check_told_parts_them_too(self):
        of = {"next_skips": ("src/lib.rt", functions.Function("next", "", 1, 2, 0, 0)),
              "last_is_next": ("src/lib.rt", functions.Function("other", "", 3, 4, 0, 0))}
        pairs, calls = [(self.edits[name], one) for name, one in of.items()], passes.Calls(self.top / "crates/low")
        self.assertEqual(len(passes.packed(pairs, calls)), 1)
        self.assertEqual(len(passes.packed(pairs, calls, {("last_is_next", "next_skips")})), 2)

    def test_an_edit_that_does_not_apply(self):
        self.mutants({"gone": "file: src/lib.rt\nold: number - 1\nnew: number\n"})
        with self.assertRaises(Unfit):
            edits_of(self.top / "crates/low")[0].applied()

    def test_an_edit_that_changes_nothing(self):
        self.mutants({"same": "file: src/lib.rt\nold: next(9)\nnew: next(9)\n"})
        with self.assertRaises(Unfit):
            edits_of(self.top / "crates/low")[0].applied()


class Sums(House):
    def of(self, name="high"):
        return sums.read_by(name, self.crates, "logic", self.top)

    def changed(self, name, old, new, of="high"):
        before, text = self.of(of), (self.top / "crates" / name).read_text()
        self.assertEqual(text.count(old), 1)
        self.write(name, text.replace(old, new))
        return self.of(of) != before

    def test_a_body_below_does_not_count(self):
        self.assertFalse(self.changed("low/src/lib.rt", "number + 1", "1 + number"))

    def test_a_statement_below_counts(self):
        self.assertTrue(self.changed("low/src/lib.rt", "number < 10", "number < 11"))

    def test_a_definition_below_counts(self):
        self.assertTrue(self.changed("low/specs/Rows.antt", "row n = n", "row n = 1"))

    def moved(self, files):
        """Whether the sum of either crate changes when these files take the place of the definition."""
        before = [self.of(name) for name in ("low", "high")]
        (self.top / "crates/low/specs/Rows.antt").unlink()
        for name, text in files.items():
            self.write(f"low/specs/{name}.antt", text)
        return [self.of(name) for name in ("low", "high")] != before

    def test_a_definition_in_another_file_does_not_count(self):
        self.assertFalse(self.moved({"Lines": "-- a row\nrow n\n    = n\n"}))

    def test_another_definition_in_another_file_counts(self):
        self.assertTrue(self.moved({"Lines": "row n = 1\n"}))

    def test_where_definitions_stand_and_how_they_are_imported_does_not_count(self):
        before = "use Rattle.std.specs.Prelude.{ℕ, ◌+◌}\n\npub line : ℕ → ℕ\nline n = n + 1\n\nrow n = line n\n"
        self.write("low/specs/Rows.antt", before)
        self.assertFalse(self.moved({
            "Lib": "pub mod Rows\npub mod Lines\npub use Rattle.low.specs.Lines.{line}\n",
            "Lines": "use Rattle.std.specs.Prelude.{ℕ}\nuse Rattle.std.specs.Prelude.{◌+◌}\n\npub line : ℕ → ℕ\nline n = n + 1\n",
            "Rows": "use Rattle.low.specs.{line}\nrow n = line n\n",
        }))

    def test_another_import_of_a_name_counts(self):
        self.write("low/specs/Rows.antt", "use Rattle.std.specs.Prelude.{line}\nrow n = line n\n")
        self.assertTrue(self.moved({"Rows": "use Rattle.std.proofs.Common.{line}\nrow n = line n\n"}))

    def test_what_is_passed_on_counts(self):
        self.write("low/specs/Columns.antt", "column n = n\n")
        self.write("low/specs/Lib.antt", "pub use Rattle.low.specs.Columns.{column as row_of}\n")
        self.write("low/specs/Rows.antt", "use Rattle.low.specs.{row_of}\nrow n = row_of n\n")
        self.assertTrue(self.changed("low/specs/Columns.antt", "column n = n", "column n = 1"))

    def test_what_is_not_cited_does_not_count(self):
        self.assertFalse(self.changed("low/src/lib.rt", "fn last(&self) -> u32", "fn last(&self) -> u64"))
        before = self.of()
        self.write("low/specs/Columns.antt", "column n = n\n")
        self.assertEqual(self.of(), before)

    def test_what_is_cited_in_between_counts(self):
        self.write("low/specs/Columns.antt", "column n = n\n")
        self.write("low/specs/Rows.antt", "use Rattle.low.specs.Columns.{column}\nrow n = column n\n")
        self.assertTrue(self.changed("low/specs/Columns.antt", "column n = n", "column n = 1"))

    def test_a_proof_below_does_not_count(self):
        self.assertFalse(self.changed("low/proofs/next/Answers.antt", "refl", "omega"))

    def test_all_of_its_own_counts(self):
        self.assertTrue(self.changed("low/src/lib.rt", "number + 1", "1 + number", "low"))
        self.assertTrue(self.changed("low/proofs/next/Answers.antt", "refl", "omega", "low"))

    def test_a_comment_does_not_count(self):
        for of in ("low", "high"):
            self.write("low/specs/Rows.antt", "-- a row\nrow n = n\n")
            self.assertFalse(self.changed("low/specs/Rows.antt", "-- a row", "-- each row", of))
        self.assertFalse(self.changed("low/src/lib.rt", "/// The next row", "/// One row further", "low"))

    def test_its_line_of_crates_txt_counts(self):
        before = self.of()
        (self.top / "crates.txt").write_text("low:\nhigh may_wait=1: low\n")
        self.assertNotEqual(self.of(), before)

    def test_the_kit_counts(self):
        self.assertNotEqual(self.of(), sums.read_by("high", self.crates, "another", self.top))


class Table(House):
    def test_it_is_read_as_it_was_written(self):
        file, rows = self.top / "mutants.tsv", {"low": table.Row("1", 20, {"a": "2", "b": "3"}), "high": table.Row("3", 4, {"c": "4"})}
        for crate, row in rows.items():
            table.put(crate, row, file)
        self.assertEqual(table.read(file), rows)
        self.assertEqual(list(table.wrong({"low": ["a", "b", "more"], "high": ["c"]}, file)), [])

    def left(self, reads, row):
        return [edit.name for edit in table.left(edits_of(self.top / "crates/low"), reads, row)]

    def test_a_mutant_whose_text_changed_is_tried_again(self):
        row = table.Row("1", 20, {edit.name: sums.of_edit(edit) for edit in edits_of(self.top / "crates/low")})
        self.assertEqual(self.left("1", row), [])
        self.mutants({**EDITS, "wide": EDITS["wide"].replace("8", "16"), "more": EDITS["wide"]})
        self.assertEqual(self.left("1", row), ["more", "wide"])

    def test_all_are_tried_at_other_sources_or_without_a_row(self):
        row = table.Row("1", 20, {edit.name: sums.of_edit(edit) for edit in edits_of(self.top / "crates/low")})
        self.assertEqual(self.left("2", row), sorted(EDITS))
        self.assertEqual(self.left("1", None), sorted(EDITS))

    def test_the_order_of_mutants_does_not_count(self):
        row = table.Row("1", 20, {edit.name: sums.of_edit(edit) for edit in edits_of(self.top / "crates/low")})
        self.mutants(dict(reversed(EDITS.items())))
        self.assertEqual(self.left("1", row), [])

    def test_a_row_that_does_not_fit(self):
        file = self.top / "mutants.tsv"
        table.put("low", table.Row("1", 20, {"a": "2", "b": "3"}), file)
        self.assertIn("low has no mutant b", "".join(table.wrong({"low": ["a"]}, file)))
        self.assertIn("there is no crate low", "".join(table.wrong({"high": ["a", "b"]}, file)))
        file.write_text(file.read_text() + "low\t1\n")
        self.assertIn("mutants.tsv:3: a row has the columns", "".join(table.wrong({"low": ["a", "b"]}, file)))
