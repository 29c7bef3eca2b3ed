"""What a source asks in its comments: the condition, what `init` sets, and the test's name."""

import re
from dataclasses import dataclass, field
from pathlib import Path

from bring_parts import c_source, conditions, languages

# a comment of assembly, over its lines
HASH = re.compile(r"(?<![\w'\"])#(?![ \t]*(?:include|define|if|ifdef|ifndef|else|elif|endif|undef|pragma|error|line)\b)[^\n]*"
                  r"(?:\n[ \t]*#[^\n]*)*")


@dataclass
class Question:
    """What is asked: the test's name, the file that asks it, the values of parameters and registers by hart and name, those
    of words by their object's name, and the condition."""
    name: str
    file: str
    settings: dict
    words: dict
    ending: conditions.Ending
    # the registers that keep a hart's locals to its end, by hart and name
    kept: dict = field(default_factory=dict)


def of_text(text, path):
    """The question in the comments of a source, or in a text that is no source."""
    name, language = Path(path).name, languages.language_of(path)
    if language in (languages.ASSEMBLY, languages.PLAIN_ASSEMBLY, None):
        # comments that `#` begins, as others; and a text that is no source as one comment
        text = HASH.sub(lambda found: "".join(f"//{line.strip().lstrip('#')}\n" for line in found[0].split("\n")), text)
        if not c_source.NOTE.search(text):
            text = "\n".join(f"// {line}" for line in text.split("\n"))
    source = c_source.of_comments(text)
    return Question(c_source.plain_name(source.name or re.sub(r"\.\w+$", "", name)), name, source.settings,
                    source.words, source.ending)
