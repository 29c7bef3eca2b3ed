"""Answers in JUnit's form, as CI takes them."""

from dataclasses import dataclass
from xml.sax.saxutils import escape, quoteattr

from bring_parts import plain


@dataclass(frozen=True)
class Case:
    """An answer. `passed` is None where it was refused; `told` is what else is known of one that didn't pass."""
    job: str
    name: str
    file: str
    passed: object
    answer: str
    told: str = ""

    def text(self):
        head = f'<testcase classname={quoteattr(plain(self.job))} name={quoteattr(plain(self.name))} file={quoteattr(plain(self.file))}'
        if self.passed:
            return f"{head}/>"
        kind = "error" if self.passed is None else "failure"
        told = escape("\n".join(map(plain, self.told.split("\n"))))
        return f"{head}><{kind} message={quoteattr(plain(self.answer))}>{told}</{kind}></testcase>"


def suite(cases):
    """The report of these cases."""
    failed, refused = (sum(each.passed is kind for each in cases) for kind in (False, None))
    head = f'<testsuite name="ztso" tests="{len(cases)}" failures="{failed}" errors="{refused}">'
    return "\n".join(['<?xml version="1.0" encoding="UTF-8"?>', head, *(each.text() for each in cases), "</testsuite>"]) + "\n"
