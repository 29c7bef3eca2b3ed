"""What real checks printed, and how it is read. The functions and their lines are those of the sources that were checked."""

import unittest
from pathlib import Path

from mutant_parts import outputs
from mutant_parts.functions import Function

OUTPUTS = Path(__file__).resolve().parent / "outputs"


def kept(name):
    status, _, text = (OUTPUTS / f"{name}.txt").read_text().partition("\n")
    return outputs.Output(text, int(status.removeprefix("status ")))


def function(path, name, first, last, owner=""):
    return path, Function(name, owner, first, last, 0, 0)


CARRIAGE_RETURN = function("src/lines.rt", "without_carriage_return", 13, 20)
FIRST_LINE = function("src/lines.rt", "first_line", 30, 42)
HEX_WORD = function("src/numbers.rt", "hex_word", 62, 70)
IS_HEX = function("src/numbers.rt", "is_hex", 74, 80)


class Together(unittest.TestCase):
    """Six edits of texts in one check: hex_word calls an edited function, first_line and others do without an edit of their own."""

    def setUp(self):
        self.output = kept("pass")

    def read(self, of):
        return outputs.together(self.output, self.output.named(of), of)

    def test_a_goal_of_its_own_refuses(self):
        kind, line = self.read(CARRIAGE_RETURN)
        self.assertEqual(kind, outputs.REFUSED)
        self.assertIn("`returns-in-13`", line)

    def test_a_caller_is_not_refused(self):
        self.assertEqual(self.read(FIRST_LINE), (outputs.CALLS, "fn texts::lines::first_line: no proof: it calls "
                                                 "`texts::lines::without_carriage_return`, which is not proved"))

    def test_a_caller_with_an_error_of_its_own_waits(self):
        self.assertEqual(self.read(HEX_WORD)[0], outputs.CALLS)
        self.assertEqual(self.output.below("texts::numbers::hex_word"), {"texts::numbers::hex_number", "texts::numbers::number_in"})

    def test_what_is_proved_is_not_refused(self):
        self.assertEqual(self.read(IS_HEX)[0], outputs.UNCLEAR)

    def test_a_goal_elsewhere_shows_nothing(self):
        self.assertEqual(self.read(function("src/lines.rt", "without_carriage_return", 50, 60))[0], outputs.UNCLEAR)

    def test_who_is_not_edited_and_has_goals_is_a_stranger(self):
        edited = ["numbers::number_in", "numbers::push_decimal", "cutting::cut_at_any", "cutting::without_trailing"]
        names = [f"texts::{name}" for name in edited]
        self.assertEqual(self.output.strangers(names), ["texts::lines::without_carriage_return"])
        self.assertEqual(self.output.strangers([*names, "texts::lines::without_carriage_return"]), [])

    def test_a_check_that_gives_no_verdict_refuses_nothing(self):
        output = kept("does-not-compile")
        self.assertEqual(outputs.together(output, "texts::numbers::number", HEX_WORD)[0], outputs.UNCLEAR)
        self.assertTrue(output.blames(function("src/numbers.rt", "number", 33, 40)))
        self.assertFalse(output.blames(HEX_WORD))


class Alone(unittest.TestCase):
    """One edit in a check, as `rt must-fail` reads it."""

    def test_refused(self):
        self.assertEqual(outputs.alone(kept("pass"), {"src/numbers.rt": ""})[0], outputs.REFUSED)

    def test_still_proved(self):
        self.assertEqual(outputs.alone(kept("proved"), {"src/lines.rt": ""})[0], outputs.PROVED)

    def test_does_not_compile(self):
        kind, line = outputs.alone(kept("does-not-compile"), {"src/numbers.rt": ""})
        self.assertEqual(kind, outputs.BAD)
        self.assertIn("error[unknown-name]", line)

    def test_cannot_be_read(self):
        self.assertEqual(outputs.alone(kept("cannot-be-read"), {"specs/Numbers.antt": ""})[0], outputs.BAD)

    def test_ended_by_a_signal(self):
        self.assertEqual(outputs.alone(outputs.Output("", -9), {})[0], outputs.UNCLEAR)


class Names(unittest.TestCase):
    """A function's name as checks print it."""

    def test_closures_are_their_function_s(self):
        self.assertEqual(len(kept("proved").owns("texts::cutting::is_all")), 4)

    def test_impls(self):
        for owner, name in (
            ("impl Display for AtLine<F>", "AtLineDisplay"),
            ("impl<R, T: Drop> From<AllocFailed<T>> for TextError<R>", "TextErrorFromAllocFailed"),
            ("impl<const B: usize, const M: usize> Machine<B, M>", "Machine"),
            ("impl<'a> Read for Reader<'a>", "ReaderRead"),
            ("trait Gate", "Gate"),
        ):
            self.assertEqual(outputs.owner_of(owner), name)

    def test_a_method_is_found_by_its_impl(self):
        one = function("src/errors.rt", "fmt", 1, 9, "impl<F: Display> Display for AtLine<F>")
        self.assertEqual(kept("proved").named(one), "texts::errors::AtLineDisplay::fmt")

    def test_two_that_can_be_it_are_none(self):
        self.assertIsNone(kept("proved").named(function("src/errors.rt", "fmt", 1, 9, "impl Something for AtLine")))
