"""What a check prints: a line for each function, before it the goals of it that are left, and errors in files of proofs.

    note: src/lines.rt:13:1: it is not proved that what the function ensures holds when it returns (`returns-in-13`)
    fn texts::lines::without_carriage_return: no proof: expected answers in ..; `search` did not prove `returns-in-13`
    fn texts::lines::first_line: no proof: it calls `texts::lines::without_carriage_return`, which is not proved

A proof cites its callees' contracts and never their bodies. So a goal that is left of a function is left by an edit of
that function alone, and a callee that is named as the reason says nothing of the function itself.
"""

import re
from pathlib import Path

PLACE = re.compile(r"^(?:note: )?(?:\./)?(?P<file>(?:src|specs|proofs)/\S+?):(?P<line>\d+):\d+:(?P<words>.*)")
VERDICT = re.compile(r"logic=|rattle: no verdict")
CALLEE = re.compile(r"it calls|it passes|a call of")
# an error that a name is gone, which shows nothing of the contract
NAMES = re.compile(r"has no field|is not in scope|has no `|was not admitted")
# what an error makes of the declarations after it that cite the one with the error
AFTER = re.compile(r"\d+ declarations? that depends? on ")
# a text that can't be read, where an edit that only makes a statement false reads well
UNREAD = re.compile(r"is not in scope|has no field|is no name|operand is missing|expected the end|cannot continue")
# an error of the compiler, before the prover
COMPILER = re.compile(r"\berror\[[\w-]+\]")
# limits of the prover's own, which it meets wherever it checks the same
LIMIT = re.compile(r"antt ran out of (?:stack|the (?:steps|memory) that the check of one declaration may (?:take|use))|"
                   r"(?:outgrew the memory limit|stopped at the step limit) \(")

REFUSED, CALLS, UNCLEAR, PROVED, BAD = "refused", "reported as a caller", "not clear", "still proved", "not applied, compiled or read"


def shown(line):
    """A line as it is printed: not all of a long one."""
    return line if len(line) <= 200 else line[:200] + ".."


class Output:
    """What one check of a crate printed, and how it ended."""

    def __init__(self, text, status):
        self.status, self.lines = status, text.rstrip("\n").split("\n")
        self.functions, self.goals = {}, {}
        goals = []
        for line in self.lines:
            if line.startswith("note: src/"):
                goals.append(line)
            elif line.startswith("fn "):
                name, _, words = line.removeprefix("fn ").partition(": ")
                self.functions[name], self.goals[name], goals = words, goals, []
        self.verdict = next((line for line in reversed(self.lines) if VERDICT.match(line)), "")

    def is_proved(self):
        return self.status == 0 and self.verdict.startswith("logic=proved")

    def is_refused(self):
        """Whether the check came to its end, and the crate isn't proved."""
        return self.status == 1 and self.verdict.startswith("logic=not-proved")

    def callees(self, name):
        """The functions that a function's line names as the reason."""
        return [word for word in re.findall(r"`([^`]+)`", self.functions[name]) if "::" in word]

    def below(self, name):
        """The functions for which a function waits, by what the check says of it and of those."""
        found, left = set(), [name]
        while left:
            for callee in self.callees(left.pop()):
                if callee in self.functions and callee not in found:
                    found.add(callee)
                    left.append(callee)
        return found

    def owns(self, name):
        """The function, with its closures, which a check names `module::fn::function::closure`."""
        return [other for other in self.functions if other == name or other.replace("::fn::", "::").startswith(f"{name}::") and "::fn::" in other]

    def left(self, name, function):
        """The goals that are left of a function in its own lines, and the errors in its proof's files."""
        path, at = function
        goals = [line for one in self.owns(name) for line in self.goals[one]
                 if (place := PLACE.match(line)) and place["file"] == path and at.first <= int(place["line"]) <= at.last]
        folder = f"proofs/{'/'.join(name.split('::')[1:])}/"
        errors = [line for line in self.lines
                  if (place := PLACE.match(line)) and place["file"].startswith(folder) and " error: " in place["words"]]
        return goals + [line for line in errors if not NAMES.search(line)]

    def named(self, function):
        """The one name that the check has for a function; None where several can be it."""
        path, at = function
        found = [name for name in self.functions if name.split("::")[-1] == at.name and "::fn::" not in name]
        if at.owner:
            found = [name for name in found if name.split("::")[-2] == owner_of(at.owner)] or [
                name for name in found if name.split("::")[-2].startswith(type_of(at.owner))]
        else:
            found = [name for name in found if name.split("::")[1:-1] == modules(path)]
        return found[0] if len(found) == 1 else None

    def blames(self, function):
        """Whether the check didn't reach the prover because of a text in a function's lines."""
        path, at = function
        places = [place for line in self.lines if (place := PLACE.match(line)) and COMPILER.search(place["words"])]
        return any(place["file"] == path and at.first <= int(place["line"]) <= at.last for place in places)

    def strangers(self, edited):
        """The functions that aren't proved, name no callee as the reason and aren't the edited ones."""
        own = {other for name in edited for other in self.owns(name)}
        return [name for name, words in self.functions.items()
                if not words.startswith(("proved", "assumed")) and name not in own and not self.callees(name) and not CALLEE.search(words)]


def modules(path):
    """The modules that lead to what a file of src/ declares."""
    return [part for part in Path(path).with_suffix("").parts[1:] if part not in ("lib", "main", "mod")]


def type_of(owner):
    """The first type that the head of an impl names after `for`, or after `impl`; the name of a trait."""
    words = re.sub(r"^(?:impl(?:<[^{]*?>)? |trait )", "", owner)
    return re.match(r"\W*(?:\w+::)*(\w+)", re.sub(r"^.*? for ", "", words))[1]


def owner_of(owner):
    """What a check calls an impl: its type, then the words of its trait, without the impl's own parameters."""
    found = re.match(r"impl(?:<(?P<own>[^{]*?)>)? (?P<trait>[^{]*?) for ", owner)
    if not found:
        return type_of(owner)
    own = {re.sub(r"^const ", "", part.strip()).partition(":")[0].strip() for part in (found["own"] or "").split(",")}
    words = re.findall(r"\w+", re.sub(r"'\w+|\w+::", "", found["trait"]))
    return type_of(owner) + "".join(word for word in words if word not in own)


def together(output, name, function):
    """What a check of several edits says of the one that changes the function of that name, with the line that tells it."""
    words = output.functions.get(name, "")
    if not output.is_refused():
        return UNCLEAR, output.verdict
    if not words.startswith(("not proved", "no proof")):
        return UNCLEAR, f"fn {name}: {words}"
    if any(callee not in output.owns(name) for callee in output.callees(name)) or CALLEE.search(words) and not output.callees(name):
        return CALLS, f"fn {name}: {words}"
    left = output.left(name, function)
    return (REFUSED, left[0]) if left else (UNCLEAR, f"fn {name}: {words}, and no goal or error of its own")


def unread(line, texts):
    """Whether antt couldn't read a text of src/, specs/ or an edited file."""
    place = PLACE.match(line)
    if not place or " error: " not in place["words"] or not (place["file"] in texts or place["file"].startswith(("src/", "specs/"))):
        return False
    found = re.match(r" error: (?P<of>`[^`]*`: )?(?P<words>.*)", place["words"])
    if found and AFTER.match(found["words"]):
        return False
    return bool(found) and (not found["of"] or bool(UNREAD.search(re.sub(r"`[^`]*`", "", found["words"]))))


def alone(output, texts):
    """What the check of one edit says of it, read as `rt must-fail` reads it, with the line that tells it."""
    told = [line for line in output.lines if (place := PLACE.match(line)) and (" error: " in place["words"] or line.startswith("note: src/"))]
    if output.status == 1 and (line := next((line for line in output.lines if unread(line, texts)), "")):
        return BAD, line
    if output.is_refused():
        return REFUSED, next((line for line in told if not NAMES.search(line)), told[0] if told else output.verdict)
    if output.is_proved():
        return PROVED, output.verdict
    if output.status == 3 and (line := next((line for line in output.lines if LIMIT.search(line)), "")):
        return REFUSED, line
    if output.status == 1 and (line := next((line for line in output.lines if COMPILER.search(line)), "")):
        return BAD, line
    return UNCLEAR, f"the check ended with status {output.status}: {output.lines[-1]}"
