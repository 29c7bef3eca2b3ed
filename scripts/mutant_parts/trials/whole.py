"""A whole trial of a crate's mutants, with a prover of a few lines in place of the real one: a body with the word `wrong`
isn't proved, one with `%` doesn't compile, and who calls what isn't proved waits for it."""

import re
import unittest

from mutant_parts import functions, outputs, trying
from mutant_parts.edits import edits_of
from mutant_parts.outputs import BAD, CALLS, PROVED, REFUSED, UNCLEAR
from mutant_parts.trials.sources import House

BODIES = {"one": "1", "two": "2", "three": "3", "calls_one": "4 + one()", "asks_one": "5 + ask!(one)", "alone": "6"}
SOURCE = "".join(f"fn {name}() -> u32\n    ensures {{ result ≡ {number} }}\n{{\n    {body}\n}}\n\n"
                 for number, (name, body) in enumerate(BODIES.items(), 1))
EDITS = {
    "a_one_is_wrong": ("    1", "    wrong"),
    "b_two_is_the_same": ("    2", "    1 + 1"),
    "c_three_does_not_compile": ("    3", "    %"),
    "d_calls_one_is_wrong": ("4 + one", "wrong + one"),
    "e_asks_one_is_wrong": ("5 + ask", "wrong + ask"),
    "f_asks_one_is_the_same": ("5 + ask", "3 + 2 + ask"),
    "g_does_not_apply": ("    7", "    8"),
    "h_alone_is_wrong": ("    6", "    wrong"),
    "i_clause_is_another": ("result ≡ 5", "result ≡ 4"),
    "j_asks_by_another": ("5 + ask!(one)", "ask!(lost)"),
}


def proved(text):
    """What a check of the text prints, and its status."""
    bodies = {one.name: (one, text[one.begins:one.ends]) for one in functions.functions(text)}
    for one, body in bodies.values():
        if "%" in body:
            return f"src/lib.rt:{one.first + 3}:5: error[no-such-sign]: `%` is no number", 1
    open_ends, said = {name for name, (_, body) in bodies.items() if "wrong" in body}, {}
    for name, (_, body) in bodies.items():
        called = [first or second for first, second in re.findall(r"(\w+)\(\)|ask!\((\w+)\)", body)]
        lost = [callee for callee in called if callee in open_ends or callee == "lost"]
        said[name] = f"no proof: it calls `low::{lost[0]}`, which is not proved" if lost else "not proved" if name in open_ends else "proved"
    lines = []
    for name, words in said.items():
        if words == "not proved":
            lines.append(f"note: src/lib.rt:{bodies[name][0].first}:1: it is not proved that what the function ensures holds (`returns`)")
        lines.append(f"fn low::{name}: {words}")
    whole = all(words == "proved" for words in said.values()) and "≡ 4 }\n{\n    5" not in text
    return "\n".join([*lines, "logic=proved" if whole else "logic=not-proved"]), 0 if whole else 1


class Prover:
    """What `trying.Checks` is to a trial, without a lane."""

    name, seconds = "low", {}

    def __init__(self, crate, breaks_after=None):
        self.crate, self.checks, self.breaks_after = crate, [], breaks_after

    def begin(self):
        return self.over_kept({}, "before")

    def over_kept(self, texts, kind):
        self.checks.append(kind)
        text = texts.get("src/lib.rt", (self.crate / "src/lib.rt").read_text())
        if kind == self.breaks_after:
            text = text.replace("    6", "    wrong")
        return outputs.Output(*proved(text))


class Whole(House):
    def setUp(self):
        super().setUp()
        self.crate = self.top / "crates/low"
        self.write("low/src/lib.rt", SOURCE)

    def tried(self, *names, breaks_after=None):
        """What a trial finds of these mutants, by the first letters of their names, and its checks."""
        self.mutants({name: f"file: src/lib.rt\nold: {old}\nnew: {new}\n" for name, (old, new) in EDITS.items() if name[0] in names})
        prover = Prover(self.crate, breaks_after)
        self.kept = []
        trial = trying.Trial(prover, self.crate, edits_of(self.crate), lambda line: None,
                             lambda trial: self.kept.append([edit.name[0] for edit in trial.refused()]))
        trial.run()
        return "".join(sorted({REFUSED: "r", PROVED: "p", BAD: "b", CALLS: "c", UNCLEAR: "u"}[trial.found[name].kind] + name[0]
                              for name in trial.found)), prover.checks

    def test_all_at_once(self):
        self.assertEqual(self.tried("a", "h"), ("rarh", ["before", "passes", "after"]))

    def test_a_caller_goes_into_another_pass(self):
        self.assertEqual(self.tried("a", "d", "h"), ("rardrh", ["before", "passes", "alone", "after"]))

    def test_a_caller_that_only_a_check_tells_goes_into_a_further_pass(self):
        self.assertEqual(self.tried("a", "e", "h"), ("rarerh", ["before", "passes", "alone", "after"]))

    def test_a_survivor_is_found_among_others(self):
        self.assertEqual(self.tried("a", "b", "h"), ("pbrarh", ["before", "passes", "alone", "after"]))

    def test_a_survivor_that_calls_an_edited_function_is_found(self):
        self.assertEqual(self.tried("a", "f", "h"), ("pfrarh", ["before", "passes", "alone", "after"]))

    def test_what_does_not_compile_is_found_among_others(self):
        self.assertEqual(self.tried("a", "c", "h"), ("bcrarh", ["before", "passes", "passes", "alone", "after"]))

    def test_what_does_not_apply_stops_no_other(self):
        self.assertEqual(self.tried("a", "g", "h"), ("bgrarh", ["before", "passes", "after"]))

    def test_an_edit_of_a_clause_goes_alone(self):
        self.assertEqual(self.tried("a", "h", "i"), ("rarhri", ["before", "passes", "alone", "after"]))

    def test_reported_only_as_a_caller_of_another(self):
        self.assertEqual(self.tried("a", "h", "j"), ("cjrarh", ["before", "passes", "alone", "after"]))

    def test_a_crate_that_is_not_proved_before(self):
        self.assertEqual(self.tried("a", "h", breaks_after="before"), ("uauh", ["before"]))

    def test_a_crate_that_is_not_proved_afterwards(self):
        self.assertEqual(self.tried("a", "h", breaks_after="after"), ("uauh", ["before", "passes", "after"]))

    def test_what_was_refused_is_kept_if_the_crate_is_proved_afterwards(self):
        self.tried("a", "b", "h")
        self.assertEqual(self.kept, [["a", "h"]])
        self.tried("a", "h", breaks_after="after")
        self.assertEqual(self.kept, [])

    def test_what_was_refused_is_kept_between_long_checks_too(self):
        before, trying.KEPT_EACH = trying.KEPT_EACH, -1
        try:
            self.assertEqual(self.tried("i", "j"), ("cjri", ["before", "after", "alone", "after", "alone", "after"]))
        finally:
            trying.KEPT_EACH = before
        self.assertEqual(self.kept, [[], ["i"], ["i"]])
