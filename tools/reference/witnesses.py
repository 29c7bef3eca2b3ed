"""The shelf's witnesses: the schedule of each outcome of a test of litmus/, which stands in the outcome's case, in the file
witnesses.expected of the test's family."""

import re

CASE = re.compile(r"^== (?P<test>\S+)\.(?P<outcome>[0-9-]+)\n(?:(?!== ).*\n)*?file (?P=outcome)\.schedule:\n(?P<text>(?:  .*\n)+)", re.MULTILINE)


def family_file(test):
    """The file with the witnesses of a test that has this path, and of the others in its folder."""
    return test.with_name("witnesses.expected")


def witnesses(test):
    """The schedules of a test that has this path, each by its outcome, as `0-1`; none where nothing is expected of it."""
    expected = family_file(test)
    found = CASE.finditer(expected.read_text()) if expected.exists() else ()
    return {one["outcome"]: re.sub("^  ", "", one["text"], flags=re.MULTILINE) for one in found if f"{one['test']}.litmus" == test.name}
