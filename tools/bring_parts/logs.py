"""Logs of litmus7 and herd: for each test its states, with how often each came, and what was seen of its condition."""

import re

from bring_parts import Refused

# what is read of a log at most
MOST = 64 << 20
HEAD = re.compile(r"Test (.+?)(?: (?:Allowed|Forbidden|Required))?$")
COUNTED = re.compile(r"([0-9]{1,18})\s*[*:]>(.*)$")
SETTING = re.compile(r"(?:([0-9]+)\s*:\s*(\w+)|\[?\s*([A-Za-z_]\w*(?:\[[0-9]+\])?)\s*\]?)\s*=\s*"
                     r"&?(-?(?:0x[0-9A-Fa-f]+|[0-9]+)|[A-Za-z_]\w*)")
# the names that a text of tools/from-c gives its registers
NAMED = re.compile(r"\b([0-9]+):(x[0-9]+) is ([A-Za-z_]\w*)")
PARTS_OF_LOCATIONS = re.compile(r" /\\ \((\S+)=0 \\/ ~\1=0\)")
ASKED = {"exists": "Allowed", "~exists": "Forbidden", "forall": "Required"}


def read(text):
    """For each test's name its states: how often each came, or None where the log doesn't count. A state is a tuple
    of observed locations and values as they stand. Where a log has a test several times, the counts are added."""
    results, states, listed = {}, None, 0
    for number, line in enumerate(text.split("\n"), 1):
        line = line.strip()
        if head := HEAD.match(line):
            states, listed = results.setdefault(head[1], {}), 0
        elif states is None:
            continue
        elif counted := COUNTED.match(line):
            state = state_of(counted[2], number)
            states[state] = (states.get(state) or 0) + int(counted[1])
        elif head := re.match(r"States ([0-9]{1,9})$", line):
            listed = int(head[1])
        elif listed and line:
            states.setdefault(state_of(line, number), None)
            listed -= 1
    return results


def state_of(text, number):
    """The settings of a state: `0:x7=0; [x]=1;`."""
    settings = []
    for item in filter(None, (each.strip() for each in text.split(";"))):
        shape = SETTING.fullmatch(item)
        if not shape:
            raise Refused(f"the log's line {number}: `{item[:40]}` gives no register or location its last value")
        settings.append((f"{shape[1]}:{shape[2]}" if shape[1] else shape[3], shape[4]))
    return tuple(settings)


def shown(state):
    return " ".join(f"{left}={value};" for left, value in state)


def signed(value):
    return value - (1 << 32) if value >> 31 else value


def names_in(text):
    """The names of registers that a text tells: from `0:x10` to `0:r0`."""
    return {f"{hart}:{register}": f"{hart}:{name}" for hart, register, name in NAMED.findall(text)}


def condition_by(names, condition):
    """A condition without the parts that stand there for their observed locations alone, by these names of registers."""
    condition = PARTS_OF_LOCATIONS.sub("", condition)
    condition = re.sub(r"^(\S+) \(\((.*)\)\)$", r"\1 (\2)", condition)
    return re.sub(r"\b[0-9]+:x[0-9]+\b", lambda left: names.get(left[0], left[0]), condition)


def written(name, kind, condition, states, notes=()):
    """A log of one test. Each state has how often it came, whether the condition is true of it, and its text."""
    true = sum(count for count, is_true, _ in states if is_true)
    false = sum(count for count, is_true, _ in states if not is_true)
    is_valid = {"exists": true > 0, "~exists": true == 0, "forall": false == 0}[kind]
    # with `~exists` a run is positive where the condition is false
    positive, negative = (false, true) if kind == "~exists" else (true, false)
    seen = "Never" if not true else "Sometimes" if false else "Always"
    lines = [f"Test {name} {ASKED[kind]}", f"Histogram ({len(states)} states)"]
    lines += [f"{count:<6}{'*' if is_true else ':'}>{state}" for count, is_true, state in states]
    lines += ["Ok" if is_valid else "No", "", "Witnesses", f"Positive: {positive}, Negative: {negative}",
              f"Condition {condition} is {'' if is_valid else 'NOT '}validated", *notes,
              f"Observation {name} {seen} {true} {false}"]
    return "\n".join(lines) + "\n\n"


def of_table(text, table, brackets=False):
    """The log of a table that `ztso try` printed of a text's test."""
    names, test, states = names_in(text.text), text.test, []
    for line in table.split("\n")[:-1]:
        count, _, settings = line.partition(" ;")[0].partition(" ")
        if count == "unfinished" and settings.isdecimal():
            break
        sides = [setting.rpartition("=") for setting in settings.split(" ")]
        is_counted = re.fullmatch("[0-9]{1,18}", count) and all(re.fullmatch("[0-9]{1,10}", side[2]) for side in sides)
        if not is_counted or [left for left, _, _ in sides] != [left for left, _ in test.lefts]:
            raise Refused(f"`{line[:60]}` is no line that `ztso try` prints of this test")
        values = {place: int(value) for (_, place), (_, _, value) in zip(test.lefts, sides)}
        # `holds` is the verdict, which with `~exists` turns the condition round
        is_true = test.holds(values.get) == (test.kind != "~exists")
        state = [(f"[{left}]" if brackets and ":" not in left else names.get(left, left), signed(int(value)))
                 for left, _, value in sides]
        states.append((int(count), is_true, shown(state)))
    else:
        raise Refused("the table that `ztso try` prints ends with a line `unfinished N`")
    notes = [f"Hash={found}" for found in re.findall(r"^[ \t]*Hash=(\S+)", text.information, re.MULTILINE)]
    return written(text.name, test.kind, condition_by(names, text.condition), states, notes)


def values_in(text):
    """The registers and words of a state text with a verdict, by their places."""
    values, hart = {}, None
    for line in text.splitlines()[:-1]:
        if line.startswith("hart "):
            hart = int(line.split()[1])
        else:
            place, _, value = line.partition(" = ")
            key = ("word", int(place[5:])) if place.startswith("word ") else \
                ("register", hart, int(place[1:]))
            values[key] = int(value)
    return values
