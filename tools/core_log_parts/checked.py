"""What `ztso check` says of the records of a log, by the log's own runs, lines and cycles, and where their last states aren't the machine's."""

import re
from functools import lru_cache

from bring_parts import answer

RECORD_FILE = "/dev/stdin"
REFUSED = re.compile(r"[0-9]+ (refused [0-9]+ at event ([0-9]+) .*)")
# of a line of the table the first record
RECORD, COUNTS = re.compile(r"; record ([0-9]+)$"), ("unfinished ", "refused ", "other last states ")
REFUSAL = " refused "


def answer_of(program, asked, made):
    """The lines of the answer, and whether a record is refused or a last state differs."""
    printed = answer(program, "check", asked.file, "--buffer", asked.buffer, text="".join(each.text for each in made)).splitlines()
    verdicts = printed[:len(made)]
    rest = [RECORD.sub(lambda shape: f"; run {made[int(shape[1]) - 1].seed}", line) for line in printed[len(made):]]
    lines, faulty, differing = [], [], 0
    for each, verdict in zip(made, verdicts):
        wrong = other_state(program, asked, each, verdict)
        lines.append(line_of(each, verdict) + f", but its last state differs: {'; '.join(wrong)}" * bool(wrong))
        differing += bool(wrong)
        faulty += [lines[-1]] if wrong or REFUSAL in verdict else []
    rest += [f"other last states {differing}"] * bool(differing)
    if asked.first:
        accepted = sum(verdict.endswith(" accepted") for verdict in verdicts)
        return [*faulty[:1], f"accepted {accepted}", *(line for line in rest if line.startswith(COUNTS))], bool(faulty)
    return [*lines, *rest], bool(faulty)


def other_state(program, asked, made, verdict):
    """Where the last state that the log has of a run isn't the machine's, if its record isn't refused."""
    if not made.state or REFUSAL in verdict:
        return []
    return differences(made.state, last_state(program, asked.file, made.text, asked.buffer))


def line_of(made, verdict):
    """What is said of a run's record."""
    shape = REFUSED.fullmatch(verdict)
    if not shape:
        return f"run {made.seed}: {verdict.partition(' ')[2]}"
    number = int(shape[2])
    place = made.places[number] if number < len(made.places) else None
    there = f"line {place[0]} of the log, cycle {place[1]}, " if place else ""
    return f"run {made.seed}: {shape[1]} ({there}row {number + 1} of its chart)"


@lru_cache(maxsize=20_000)
def last_state(program, path, record, buffer=4):
    """The last state that `run` prints for an accepted record, as the log of a core has it: "0:pc", "0:pending",
    "0:x5" or "word 4", with values."""
    state, hart = {}, None
    for line in answer(program, "run", path, RECORD_FILE, "--buffer", buffer, text=record).splitlines()[:-1]:
        words = line.split()
        if words[0] == "hart":
            hart = words[1]
            state[f"{hart}:pc"], state[f"{hart}:pending"] = int(words[-3]), int(words[-1])
        else:
            place, _, value = line.partition(" = ")
            state[place if place.startswith("word ") else f"{hart}:{place}"] = int(value)
    return state


def differences(logged, state):
    """Where the core's last state, as far as it is of the test's harts, isn't the machine's. What is left out is 0."""
    harts = {place for place in state if place.endswith(":pc")}
    known = {place: value for place, value in logged.items() if place.startswith("word ")
             or f"{place.partition(':')[0]}:pc" in harts}
    return [f"{place} is {known.get(place, 0)}, the machine's {state.get(place, 0)}"
            for place in sorted(known.keys() | state.keys()) if known.get(place, 0) != state.get(place, 0)]
