"""What the translator drops, writes otherwise and refuses, on small texts."""

import sys
import unittest
from pathlib import Path

sys.dont_write_bytecode = True
sys.path.insert(0, str(Path(__file__).resolve().parent.parent))

from translator.pieces import Refused, line_of  # noqa: E402
from translator.source import PRELUDE, translated  # noqa: E402


def lines_of(text, is_root=False):
    """The lines of a translated text without the prelude and the blanks at their ends."""
    return [line.rstrip() for line in translated(text, is_root).replace(PRELUDE, "").split("\n")]


class Dropped(unittest.TestCase):
    def drops(self, text, *left):
        self.assertEqual([line.strip() for line in lines_of(text)], list(left))

    def test_clauses(self):
        self.drops(
            "fn f(n: u32) -> u32\n    requires few { n < 3 }\n    ensures { IfOk result (λ s. s ≡ record {\n      n = n; }) }\n{\n    n\n}\n",
            "fn f(n: u32) -> u32", "", "", "", "{", "n", "}", "")

    def test_ghost_imports_of_several_lines(self):
        self.drops("ghost use Rattle.a.{b,\n    c};\n\nfn f() {}\n", "", "", "", "fn f() {}", "")

    def test_ghost_items_with_a_type_a_value_or_both(self):
        self.drops(
            "trait T {\n    ghost is_open : { Set };\n    pub ghost below : { ℕ → Set } = { λ n. n };\n    ghost view = { λ s. s };\n}\n",
            "trait T {", "", "", "", "}", "")

    def test_attributes_of_the_prover(self):
        self.drops("#[tactic(auto, using(crate::proofs::a))]\nfn f() {}\n", "", "fn f() {}", "")
        self.drops("#[cycle(tree)]\nenum A {}\n", "", "enum A {}", "")

    def test_drop_among_derives(self):
        self.drops("#[derive(Clone, Drop, Error)]\nstruct A;\n#[derive(Drop)]\nstruct B;\n",
                   "#[derive(Clone, Error)]", "struct A;", "", "struct B;", "")

    def test_a_drop_that_takes_its_value_apart(self):
        text = "impl<const M: usize> Drop for Held<M> {\n    fn drop(self) {\n        let Held { seat } = self;\n        seat.give_up();\n    }\n}\nfn f() {}\n"
        self.drops(text, "", "", "", "", "", "", "fn f() {}", "")

    def test_words_in_comments_and_literals_stay(self):
        text = "// ghost use a;\nfn f() { (\"ensures { }\", 'g', br#\"ghost \"use\" {\"#, b'\\'') }\n"
        self.assertEqual("\n".join(lines_of(text)).replace(" ", ""), text.replace(" ", ""))


class Kept(unittest.TestCase):
    def test_each_line_keeps_its_number(self):
        text = "//! A crate.\n\n#![tactic(auto)]\n\nghost use A.{b,\n c};\n\nfn main(rt: HostRuntime) -> ExitCode\n    ensures { ⊤ }\n{\n}\n"
        made = translated(text, True).split("\n")
        self.assertEqual(made[2], "#![no_std] #![no_main]")
        self.assertEqual([made[number] for number in (7, 9, 10)], [text.split("\n")[number] for number in (7, 9, 10)])
        self.assertIn(PRELUDE, made[4])
        self.assertEqual(made[11], 'std::program!(main, 4, "ztso: no memory\\n");')

    def test_a_library_is_no_program(self):
        self.assertNotIn("no_main", translated("#![tactic(auto)]\n\nfn f() {}\n", True))

    def test_each_module_has_the_prelude(self):
        self.assertEqual(translated("fn f() {}\nmod inner {\n}\n", False), f"{PRELUDE} fn f() {{}}\nmod inner {{ {PRELUDE}\n}}\n")

    def test_the_prelude_comes_after_a_files_own_documentation(self):
        self.assertEqual(translated("//! A file.\n\n/// A thing.\nfn f() {}\n", False), f"//! A file.\n\n{PRELUDE} /// A thing.\nfn f() {{}}\n")


class Otherwise(unittest.TestCase):
    def becomes(self, text, made):
        self.assertEqual("\n".join(lines_of(text)).strip(), made)

    def test_calls_with_an_allocator_or_a_handle(self):
        self.becomes("a.collect(alloc)", "a.collect_in(alloc)")
        self.becomes("a.collect()", "a.collect()")
        self.becomes("a.to_string(rt.alloc())", "a.to_string_in(rt.alloc())")
        self.becomes("a.expect(&rt, \"b\")", "a.expect_on(&rt, \"b\")")
        self.becomes("a.expect($rt, \"b\")", "a.expect_on($rt, \"b\")")
        self.becomes("a.expect(\"b\")", "a.expect(\"b\")")
        self.becomes("fn collect(alloc: Global)", "fn collect(alloc: Global)")

    def test_tests_make_their_handle(self):
        self.becomes("#[test]\nfn a(rt: HostRuntime) -> Result<(), Fail> {\n}", "#[test]\nfn a() -> Result<(), Fail> { let rt = HostRuntime::new();\n}")

    def test_displays_write_as_cores_do(self):
        self.becomes("fn fmt<W: fmt::Write>(&self, f: &mut fmt::Formatter<W>) -> fmt::Result {",
                     "fn fmt(&self, f: &mut fmt::Formatter<'_>) -> fmt::Result {")


class IsRefused(unittest.TestCase):
    def refuses(self, text, line, why, is_root=False):
        with self.assertRaises(Refused) as raised:
            translated(text, is_root)
        self.assertEqual(line_of(text, raised.exception.at), line)
        self.assertIn(why, raised.exception.why)

    def test_a_clause_word_as_a_name(self):
        self.refuses("fn f() {\n    let requires = 1;\n}\n", 2, "no clause begins")

    def test_a_clause_within_a_line(self):
        self.refuses("fn f()\nwhere T: A, ensures { ⊤ }\n{}\n", 2, "doesn't begin its line")

    def test_a_clause_without_its_end(self):
        self.refuses("fn f()\n    ensures { a { b }\n{\n", 2, "closes this")

    def test_other_ghost_items(self):
        self.refuses("fn f() {\n    ghost let a = 1;\n}\n", 2, "a ghost item of a form")
        self.refuses("ghost a = { b }\nfn f() {}\n", 1, "doesn't end in a semicolon")

    def test_other_attributes(self):
        self.refuses("\n#[decreases(n)]\nfn f() {}\n", 2, "an attribute that the translator doesn't know")

    def test_a_drop_that_does_more(self):
        self.refuses("impl Drop for A {\n    fn drop(self) {\n        close(self.file);\n    }\n}\n", 1, "does more than")

    def test_other_tests(self):
        self.refuses("#[test]\nfn a() {\n}\n", 1, "a test that doesn't begin")

    def test_a_root_that_is_not_proved(self):
        self.refuses("//! A crate.\n", 1, "without `#![tactic(auto)]`", is_root=True)


if __name__ == "__main__":
    unittest.main()
