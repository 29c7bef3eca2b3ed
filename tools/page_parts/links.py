"""Links with a run in them, as the page's own button makes them: a text and a schedule, after the address of a page."""

import base64
import json
import zlib

from bring_parts import Refused, text_of, texts

import schedules
from faults import Fault

# what a link may have, as the page has it
MARK, LONGEST = "#run=", 32_000
BUFFER, DRAW = 4, "uniform"
HEAD = "ztso-schedule 1\n"


def link_of(file, schedule, address=""):
    """The link of a test's text and a schedule of it, at whose end the page begins, or of no events."""
    text, events = text_of(file), text_of(schedule) if schedule else HEAD
    texts.read(text, file)
    try:
        link = address.partition("#")[0] + run_of(text, events)
    except Fault as fault:
        raise Refused(f"{schedule}: {texts.said_of(fault)}") from None
    if len(link) > LONGEST:
        raise Refused(f"{file}: the link would have {len(link)} characters, and {LONGEST} at most: give the test and the schedule as files")
    return link


def run_of(text, events, buffer=BUFFER):
    """What a link has of a run, for store buffers of this size, by the texts of its test and of its schedule."""
    tokens = schedules.tokens([event for event, _ in schedules.read_steps(events)])
    run = {"text": text, "buffer": buffer, "draw": DRAW, "tokens": tokens, "place": None}
    packer = zlib.compressobj(9, zlib.DEFLATED, -15)
    packed = packer.compress(json.dumps(run, separators=(",", ":"), ensure_ascii=False).encode()) + packer.flush()
    return MARK + base64.urlsafe_b64encode(packed).decode().rstrip("=")
